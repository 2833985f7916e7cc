//! What the lists share: dice, keys, values by rule, the calls that change the image, digests.
use crate::drive::Map;
use std::io::{Result, Write};

/// An own small generator, so that a seed always gives the same list.
pub struct Dice(u64);

impl Dice {
    pub fn new(seed: u64) -> Self {
        Self(seed << 1 | 1)
    }
    pub fn below(&mut self, n: usize) -> usize {
        self.0 ^= self.0 << 13;
        self.0 ^= self.0 >> 7;
        self.0 ^= self.0 << 17;
        (self.0.wrapping_mul(0x2545_F491_4F6C_DD1D) >> 33) as usize % n
    }
    pub fn of<T: Copy>(&mut self, list: &[T]) -> T {
        list[self.below(list.len())]
    }
}

/// `k` different keys, the special ones first.
pub fn keys(dice: &mut Dice, k: usize) -> Vec<u32> {
    let mut special = [0, 1, u32::MAX, 2, 255, 256, 65_535, 0x0101_0101, 0x7FFF_FFFF, 0x8000_0000];
    let turn = dice.below(special.len());
    special.rotate_left(turn);
    special.into_iter().chain(1000..).take(k).collect()
}

/// How long the values of a run are: a few bytes, at a limit, about half a data area, over half of it, any.
#[derive(Clone, Copy)]
pub enum Lengths {
    Short,
    Border,
    Half,
    Page,
    Any,
}

impl Lengths {
    /// A length that isn't too big for pages of e bytes.
    pub fn draw(self, dice: &mut Dice, e: usize) -> usize {
        let most = e - 20;
        let under = |n: usize| most.saturating_sub(n);
        let len = match self {
            Lengths::Short => dice.below(6),
            Lengths::Border => dice.of(&[0, 1, 3, 4, 5, under(5), under(4), under(3), under(1), most]),
            Lengths::Half => ((e - 8) / 2 + dice.below(12)).saturating_sub(18),
            Lengths::Page => most.div_ceil(2) + dice.below(most / 2 + 1),
            Lengths::Any => dice.below(most + 1),
        };
        len.min(most)
    }
}

/// A value by rule: `len` bytes, the first of them `first`, each later one more by `step`.
pub struct Value {
    len: usize,
    first: u8,
    step: u8,
}

impl Value {
    pub fn draw(dice: &mut Dice, len: usize) -> Self {
        let first = dice.below(256) as u8;
        let step = dice.below(256) as u8;
        Self { len, first: dice.of(&[0, 255, first, first]), step: dice.of(&[0, 1, step]) }
    }

    fn bytes(&self) -> Vec<u8> {
        (0..self.len).map(|i| self.first.wrapping_add(self.step.wrapping_mul(i as u8))).collect()
    }

    /// The rule of these bytes, with 0 for what they don't show.
    pub fn of(bytes: &[u8]) -> Self {
        let first = bytes.first().copied().unwrap_or(0);
        let step = bytes.get(1).map_or(0, |second| second.wrapping_sub(first));
        let value = Self { len: bytes.len(), first, step };
        assert!(value.bytes() == bytes, "a value that was never stored");
        value
    }

    pub fn words(&self) -> String {
        format!("{} {} {}", self.len, self.first, self.step)
    }
}

/// A call that changes the image.
pub enum Change {
    Store(u32, Value),
    Remove(u32),
    RemoveAll,
    EraseAll,
}

impl Change {
    /// Makes the call: the answer's number.
    pub fn make(&self, map: &mut dyn Map) -> u32 {
        let done = match self {
            Change::Store(key, value) => map.store(*key, &value.bytes()),
            Change::Remove(key) => map.remove(*key),
            Change::RemoveAll => map.remove_all(),
            Change::EraseAll => map.erase_all(),
        };
        done.err().unwrap_or(0)
    }

    /// Its letter and inputs.
    pub fn words(&self) -> String {
        match self {
            Change::Store(key, value) => format!("s {key} {}", Value::of(&value.bytes()).words()),
            Change::Remove(key) => format!("r {key}"),
            Change::RemoveAll => "a".into(),
            Change::EraseAll => "e".into(),
        }
    }
}

pub fn digest(numbers: impl Iterator<Item = u32>) -> u64 {
    numbers.fold(1, |h, x| (h * 1_000_003 + u64::from(x)) % 4_294_967_291)
}

/// A list's first lines: what it says of itself, its seed, and the text that it was made from.
pub fn head(out: &mut impl Write, header: &str, seed: u64) -> Result<()> {
    writeln!(out, "{header}\n# Seed {seed}. The text: bytes and digest of each file.")?;
    for (name, text) in sequential_storage::FILES {
        writeln!(out, "#   {name} {} {}", text.len(), digest(text.iter().map(|&b| u32::from(b))))?;
    }
    Ok(())
}
