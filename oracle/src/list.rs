//! The list: which calls are made, and the lines that say what the text answered.
use crate::draw::{Change, Dice, Lengths, Value, digest, head, keys};
use crate::drive::{self, Map, PAGE_SIZES, Walked};
use std::io::{Result, Write};

const HEADER: &str = "\
# Calls on blank flash and what the Rust answered; the numbers are decimal. The cache is empty at the start of a run.
#   n E LEN SIZE NO                                     a run: pages of E bytes, LEN bytes FF, a cache of SIZE entries
#   s KEY LEN FIRST STEP  NO ERASED IMAGE CACHE         store; the value has LEN bytes: FIRST, FIRST + STEP, ..
#   f KEY  NO ERASED IMAGE CACHE  [LEN FIRST STEP]      fetch, and the value where there is one
#   r KEY  NO ERASED IMAGE CACHE                        removal of a key
#   a  NO ERASED IMAGE CACHE                            removal of all
#   e  NO ERASED IMAGE CACHE                            erase all
#   w  NO ERASED IMAGE CACHE                            a walk's start
#   i KEY LEN FIRST STEP                                a walk's step: an item
#   z                                                   a walk's step: the end
#   q CALLS                                             the list's end: the number of calls, n lines among them
# NO is the answer's number, ERASED the pages erased. IMAGE and CACHE are digests after the call, of the image's bytes and
# of the 32 entries, key and place each: from 1, each number x makes of h (1000003 h + x) mod 4294967291.";

/// What is drawn in a run: calls by their letters, keys, lengths.
struct Plan {
    calls: usize,
    letters: &'static [u8],
    keys: Vec<u32>,
    lengths: Lengths,
}

const FILLING: &[u8] = b"sssssssssssssssssssssssssssssssssssssssfffffffrw";
const MIXED: &[u8] = b"ssssssssssssssssssssssssffffffffrrrwae";
const REMOVING: &[u8] = b"ssssssssssssssssssssssssffffffffffffffrrrrrrrrrrrrwae";

/// A plan for n pages of e bytes. Many keys with long values fill the ring, and values over half a page wrap a long ring
/// soon. A large image has few calls, since each takes its digest.
fn plan(dice: &mut Dice, e: usize, n: usize) -> Plan {
    let long = n > 8;
    let k = if long { dice.of(&[5, n + 4]) } else { dice.of(&[1, 2, 3, n, n + 1, n + 2, 2 * n + 2]) };
    let small = [Lengths::Short, Lengths::Border, Lengths::Half, Lengths::Page, Lengths::Any];
    Plan {
        calls: (if long { n + n / 3 + 20 } else { 100 }).min((12 << 20) / (e * n)),
        letters: if long { FILLING } else { dice.of(&[FILLING, MIXED, REMOVING]) },
        keys: keys(dice, k),
        lengths: if long { Lengths::Page } else { dice.of(&small) },
    }
}

/// Writes the lines of a list, and counts its calls.
pub struct List<W: Write> {
    out: W,
    seed: u64,
    dice: Dice,
    calls: usize,
}

impl<W: Write> List<W> {
    pub fn new(out: W, seed: u64) -> Self {
        Self { out, seed, dice: Dice::new(seed), calls: 0 }
    }

    /// A call's line: the call with its inputs, what every call has, and `more`.
    fn line(&mut self, map: &mut dyn Map, call: &str, no: u32, more: &str) -> Result<()> {
        let image = digest(map.image().iter().map(|&b| u32::from(b)));
        let cache = digest(map.entries().iter().flat_map(|&(key, place)| [key, place]));
        self.calls += 1;
        writeln!(self.out, "{call} {no} {} {image} {cache}{more}", map.erased())
    }

    fn change(&mut self, map: &mut dyn Map, change: &Change) -> Result<()> {
        let no = change.make(map);
        self.line(map, &change.words(), no, "")
    }

    fn fetch(&mut self, map: &mut dyn Map, key: u32) -> Result<()> {
        let (no, more) = match map.fetch(key) {
            Ok(Some(bytes)) => (0, format!(" {}", Value::of(&bytes).words())),
            Ok(None) => (0, String::new()),
            Err(no) => (no, String::new()),
        };
        self.line(map, &format!("f {key}"), no, &more)
    }

    fn walk(&mut self, map: &mut dyn Map, most: usize) -> Result<()> {
        let (no, walked) = match map.walk(most) {
            Ok(walked) => (0, walked),
            Err(no) => (no, Walked { items: Vec::new(), ended: false }),
        };
        self.line(map, "w", no, "")?;
        self.calls += walked.items.len() + usize::from(walked.ended);
        for (key, bytes) in &walked.items {
            writeln!(self.out, "i {key} {}", Value::of(bytes).words())?;
        }
        if walked.ended { writeln!(self.out, "z") } else { Ok(()) }
    }

    /// A value's length. On a blank ring none is too big: there the text marks a page before it refuses, our rule doesn't.
    fn length(&mut self, e: usize, lengths: Lengths, blank: bool) -> usize {
        let most = e - 20;
        if !blank && self.dice.below(40) == 0 {
            return self.dice.of(&[most + 1, most + 1, most + 4, most + 5, 65_531, 65_532, 70_000]);
        }
        lengths.draw(&mut self.dice, e)
    }

    /// One call of the plan.
    fn draw(&mut self, map: &mut dyn Map, e: usize, plan: &Plan) -> Result<()> {
        let letter = self.dice.of(plan.letters);
        let held = self.dice.of(&plan.keys);
        let asked = if self.dice.below(8) == 0 { 12_345 } else { held };
        match letter {
            b's' => {
                let blank = map.image().iter().all(|&b| b == 0xFF);
                let len = self.length(e, plan.lengths, blank);
                let value = Value::draw(&mut self.dice, len);
                self.change(map, &Change::Store(held, value))
            }
            b'f' => self.fetch(map, asked),
            b'r' => self.change(map, &Change::Remove(asked)),
            b'w' => self.walk(map, 15),
            b'a' => self.change(map, &Change::RemoveAll),
            _ => self.change(map, &Change::EraseAll),
        }
    }

    /// A run on blank flash; at its end up to 5 keys are fetched and a whole walk is made.
    fn run(&mut self, e: usize, n: usize, size: usize) -> Result<()> {
        let plan = plan(&mut self.dice, e, n);
        let Some(mut map) = self.start(e, e * n, size)? else { return Ok(()) };
        for _ in 0..plan.calls {
            self.draw(&mut *map, e, &plan)?;
        }
        for &key in plan.keys.iter().take(5) {
            self.fetch(&mut *map, key)?;
        }
        self.walk(&mut *map, usize::MAX)
    }

    /// A run's first line, and its map where the sizes are accepted.
    fn start(&mut self, e: usize, len: usize, size: usize) -> Result<Option<Box<dyn Map>>> {
        let map = drive::new(e, len, size);
        self.calls += 1;
        writeln!(self.out, "n {e} {len} {size} {}", map.as_ref().err().unwrap_or(&0))?;
        Ok(map.ok())
    }

    /// One round over all page sizes and numbers of pages, with images of at most 1 MiB.
    fn round(&mut self) -> Result<()> {
        for &e in PAGE_SIZES {
            for len in [0, e - 1, e, e + 1, 2 * e - 1, 2 * e, 2 * e + 4] {
                self.start(e, len, 0)?;
            }
            if e < 20 {
                continue;
            }
            for n in [2, 2, 3, 3, 4, 4, 5, 5, 8, 8, 64, 256] {
                let n = n.min((1 << 20) / e);
                let size = self.dice.of(&[0, 1, 2, 5, 32]);
                self.run(e, n, size)?;
            }
        }
        Ok(())
    }

    /// Rounds until there are this many calls, at least one.
    pub fn write(mut self, calls: usize) -> Result<()> {
        head(&mut self.out, HEADER, self.seed)?;
        self.round()?;
        while self.calls < calls {
            self.round()?;
        }
        writeln!(self.out, "q {}", self.calls)?;
        self.out.flush()
    }
}
