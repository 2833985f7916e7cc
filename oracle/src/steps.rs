//! The list of steps: calls on small images, and what the text did to the flash in each.
use crate::draw::{Change, Dice, Lengths, Value, head, keys};
use crate::drive::{self, Map};
use oracle::Step;
use std::io::{Result, Write};

const HEADER: &str = "\
# Calls on blank flash and the steps that the Rust took on the flash, in their order. The numbers are decimal. The cache is
# empty at the start of a run.
#   n E LEN SIZE                        a run: pages of E bytes, LEN bytes FF, a cache of SIZE entries
#   s KEY LEN FIRST STEP  NO [STEPS]    store; the value has LEN bytes: FIRST, FIRST + STEP, ..
#   r KEY  NO [STEPS]                   removal of a key
#   a  NO [STEPS]                       removal of all
#   e  NO [STEPS]                       erase all
#   f KEY  NO                           fetch, where it changed the cache
#   q CALLS STEPS UNITS                 the list's end: how many calls (n lines aren't), steps and units there are
# NO is the answer's number. A step is PLACE=BYTES, these bytes (hexadecimal) programmed from PLACE on, or xPAGE, a page
# erased. A byte that is programmed is a unit, and so is a page that is erased.";

/// What is drawn, by letters, and what after a store without room, since more of them would take the same steps again.
const MIXED: &[u8] = b"ssssssssssssssssssssssssssssffffffffffffffffffffrrrrrae";
const AFTER_FULL: &[u8] = b"sffrrrrrrrraae";

/// A step's word.
fn word(step: &Step) -> String {
    match step {
        Step::Program(place, bytes) => bytes.iter().fold(format!("{place}="), |word, b| word + &format!("{b:02x}")),
        Step::Erase(page) => format!("x{page}"),
    }
}

fn units(step: &Step) -> usize {
    match step {
        Step::Program(_, bytes) => bytes.len(),
        Step::Erase(_) => 1,
    }
}

/// Writes the lines of a list, and counts.
pub struct Steps<W: Write> {
    out: W,
    seed: u64,
    dice: Dice,
    calls: usize,
    steps: usize,
    units: usize,
}

impl<W: Write> Steps<W> {
    pub fn new(out: W, seed: u64) -> Self {
        Self { out, seed, dice: Dice::new(seed), calls: 0, steps: 0, units: 0 }
    }

    /// A call's line; hands on the answer's number.
    fn change(&mut self, map: &mut dyn Map, change: &Change) -> Result<u32> {
        let no = change.make(map);
        let steps = map.steps();
        self.calls += 1;
        self.steps += steps.len();
        self.units += steps.iter().map(units).sum::<usize>();
        write!(self.out, "{} {no}", change.words())?;
        for step in &steps {
            write!(self.out, " {}", word(step))?;
        }
        writeln!(self.out)?;
        Ok(no)
    }

    /// A fetch takes no step; it has a line where a later call can see it.
    fn fetch(&mut self, map: &mut dyn Map, key: u32) -> Result<u32> {
        let before = map.entries();
        let no = map.fetch(key).err().unwrap_or(0);
        assert!(map.steps().is_empty(), "a fetch that repairs");
        if map.entries() != before {
            self.calls += 1;
            writeln!(self.out, "f {key} {no}")?;
        }
        Ok(no)
    }

    /// One call; hands on the answer's number.
    fn draw(&mut self, map: &mut dyn Map, letters: &[u8], key: u32, len: usize) -> Result<u32> {
        let change = match self.dice.of(letters) {
            b's' => Change::Store(key, Value::draw(&mut self.dice, len)),
            b'f' => return self.fetch(map, key),
            b'r' => Change::Remove(key),
            b'a' => Change::RemoveAll,
            _ => Change::EraseAll,
        };
        self.change(map, &change)
    }

    /// A run on blank flash. With few keys a page holds old items, with more keys newest ones, with most the ring fills.
    fn run(&mut self, e: usize, n: usize, size: usize) -> Result<()> {
        let room = (e - 8) / 12 * (n - 1); // for items without a value
        let k = self.dice.of(&[1, 2, 2, 3, room / 2 + 1, room + 2]);
        let keys = keys(&mut self.dice, k);
        let lengths = self.dice.of(&[Lengths::Short, Lengths::Short, Lengths::Border, Lengths::Any]);
        let mut map = drive::new(e, e * n, size).expect("sizes that are accepted");
        map.steps();
        writeln!(self.out, "n {e} {} {size}", e * n)?;
        let mut no = 0;
        for _ in 0..4 + e / 4 + 6 * n {
            let key = self.dice.of(&keys);
            let len = lengths.draw(&mut self.dice, e);
            no = self.draw(&mut *map, if no == 7 { AFTER_FULL } else { MIXED }, key, len)?;
        }
        Ok(())
    }

    /// One round over all page sizes, numbers of pages and cache sizes.
    fn round(&mut self) -> Result<()> {
        for e in [20, 24, 28, 32, 36, 44, 64] {
            for n in 2..=5 {
                for size in [0, 1, 2, 32] {
                    self.run(e, n, size)?;
                }
            }
        }
        Ok(())
    }

    /// Rounds until there are this many calls, at least one.
    pub fn write(mut self, calls: usize) -> Result<()> {
        head(&mut self.out, HEADER, self.seed)?;
        self.round()?;
        while self.calls < calls {
            self.round()?;
        }
        writeln!(self.out, "q {} {} {}", self.calls, self.steps, self.units)?;
        self.out.flush()
    }
}
