//! What a program of the library prints, compared line by line. It stands in the program's crate, and the library's own
//! check compares it with what the program writes.

use std::fs;
use std::process::exit;

const CRATES: &str = concat!(env!("CARGO_MANIFEST_DIR"), "/../crates/");

/// What the program prints.
pub fn read(program: &str) -> String {
    let path = format!("{CRATES}{program}/stdout");
    fs::read_to_string(&path).unwrap_or_else(|error| {
        eprintln!("{path}: {error}");
        exit(1)
    })
}

/// Ends this program at the first line that differs from `expected`, else prints the group's line and gives its number
/// of calls.
pub fn compare(group: &str, program: &str, expected: &str, calls: u64) -> u64 {
    let printed = read(program);
    let differing = expected.lines().zip(printed.lines()).position(|(own, other)| own != other);
    if expected != printed {
        eprintln!("DIFFERENCE in group {group}, line {}", differing.map_or(0, |i| i + 1));
        exit(1)
    }
    println!("{group}: {calls} calls");
    calls
}
