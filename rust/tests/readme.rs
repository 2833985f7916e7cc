//! The examples of the repository's README are parts of files that are run.

use std::fs::read_to_string;

fn file(path: &str) -> String {
    read_to_string(format!("{}/../{path}", env!("CARGO_MANIFEST_DIR"))).unwrap()
}

/// The indented block of the README with this first line, up to the next line of text, without its indent.
fn block(first: &str) -> String {
    let readme = file("README.md");
    let lines = readme.lines().skip_while(|line| line.strip_prefix("    ") != Some(first));
    let block = lines.take_while(|line| line.is_empty() || line.starts_with("    "));
    let lines: Vec<&str> = block.map(|line| line.strip_prefix("    ").unwrap_or(line)).collect();
    assert!(lines.len() > 10, "README.md has no such example: {first}");
    lines.join("\n").trim_end().to_string()
}

#[test]
fn the_c_example_is_a_part_of_the_c_program() {
    assert!(file("examples/charge.c")
        .contains(&block("/* Stores a pack's total. Hands back how many pages were erased to make room. */")));
}

#[test]
fn the_rust_example_is_the_doc_test() {
    let source = file("rust/src/lib.rs");
    let docs: Vec<&str> = source
        .lines()
        .filter_map(|line| line.strip_prefix("//!"))
        .map(|line| line.strip_prefix(' ').unwrap_or(line))
        .collect();
    assert!(docs.join("\n").contains(&format!("```\n{}\n```", block("use werandumb::{Error, MapStorage};"))));
}

#[test]
fn the_first_use_is_a_part_of_the_program() {
    assert!(file("crates/first/src/main.rt").contains(&block("fn main(rt: HostRuntime) -> io::Result<()> {")));
}
