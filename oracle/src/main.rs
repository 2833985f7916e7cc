//! Runs the text of sequential-storage's map.
//!
//!     oracle overhead                 prints its item_overhead_size()
//!     oracle vectors [SEED [CALLS]]   writes a list of calls and its answers to standard output
//!     oracle steps [SEED [CALLS]]     writes a list of calls and their steps on the flash to standard output
mod draw;
mod drive;
mod list;
mod steps;

use std::{
    env,
    io::{self, Write},
};

fn main() -> io::Result<()> {
    let words: Vec<String> = env::args().skip(1).collect();
    let number = |at: usize, or: u64| words.get(at).map_or(or, |w| w.parse().expect("a number"));
    let mut out = io::BufWriter::new(io::stdout().lock());
    match words.first().map(String::as_str) {
        Some("overhead") => writeln!(out, "{}", drive::item_overhead_size()),
        Some("vectors") => list::List::new(out, number(1, 1)).write(number(2, 0) as usize),
        Some("steps") => steps::Steps::new(out, number(1, 1)).write(number(2, 0) as usize),
        _ => {
            eprintln!("usage: oracle overhead | oracle vectors [SEED [CALLS]] | oracle steps [SEED [CALLS]]");
            std::process::exit(2)
        }
    }
}
