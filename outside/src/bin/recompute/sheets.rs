//! Group f: what the program `judge_sheet` writes for sheets, sound and damaged, to standard output and to standard
//! error, byte by byte.

use std::collections::BTreeMap;

use outside::definition::sheet::{judgement, line, note, read, stopped_in};
use outside::definition::{FAILED, KINDS};
use outside::random::Random;
use outside::sheets::{self, long, Sheet};

use crate::comparison::Comparison;
use crate::program;

const PROGRAM: &str = "judge_sheet";

/// What 01 prints for its sheet, and a line for MCS.
const PRINTED: &str = concat!(
    "   0   1\n   1   1\n   2   0   1   2   3\n   3   1\n",
    "   4   0   1   2   3\n   5   1\n   6   1\n"
);

/// Random sheets, each sound and damaged.
const ROUNDS: usize = 400;
const LARGE: usize = 30;
/// How often the longest sheet is damaged.
const LONG: usize = 100;

/// Each answer must come this often, or the sheets try too little.
const ENOUGH: u64 = 50;

/// These lines must be named as often: all lines of the two small sheets that are damaged everywhere, and the line
/// after each of the two.
const NAMED: [usize; 10] = [1, 2, 3, 4, 5, 6, 7, 8, 9, 10];

/// A refusal's number, 0 where all kinds pass, else that there is a triple.
fn answer(sheet: &[u8], judgement: &[u8]) -> u32 {
    let passing: Vec<u8> = KINDS.iter().flat_map(|&kind| line(&[kind as usize, 1])).collect();
    match read(sheet) {
        Err(number) => number,
        Ok(_) if judgement == passing => 0,
        Ok(_) => FAILED,
    }
}

/// What goes to standard output and to standard error.
fn show(printed: &[u8], noted: &[u8]) -> String {
    format!("\"{}\", on standard error \"{}\"", printed.escape_ascii(), noted.escape_ascii())
}

/// The sheets that were compared, and how often each line was named.
struct Judged {
    comparison: Comparison,
    named: BTreeMap<usize, u64>,
}

impl Judged {
    fn compare_parts(&mut self, parts: &[&[u8]]) {
        let sheet = parts.concat();
        let (printed, noted) = (judgement(&sheet), note(&sheet));
        self.comparison.count(answer(&sheet, &printed));
        if let Some(line) = stopped_in(&sheet) {
            *self.named.entry(line).or_default() += 1;
        }
        let output = program::output(PROGRAM, parts);
        if output.stdout != printed || output.stderr != noted || !output.status.success() {
            let shown = format!("the sheet, {} bytes: \"{}\"", sheet.len(), sheet.escape_ascii());
            let found = [
                format!("expected          {}", show(&printed, &noted)),
                format!("the program gives {}", show(&output.stdout, &output.stderr)),
                format!("and ends with {}", output.status),
            ];
            self.comparison.differ(&shown, &found);
        }
    }

    fn compare_all(&mut self, sheets: &[Sheet]) {
        for sheet in sheets {
            self.compare_parts(&[sheet]);
        }
    }

    /// Prints how many lines were named, and ends the program if one of `NAMED` was named too rarely.
    fn coverage_of_lines(&self) {
        for line in NAMED {
            let times = self.named.get(&line).copied().unwrap_or(0);
            if times < ENOUGH {
                let found = format!("line {line} was named only {times} times");
                self.comparison.differ(&"judge-sheet", &[found]);
            }
        }
        let last = self.named.keys().last().expect("a line was named");
        println!("   judge-sheet named {} different lines, from 1 to {last}", self.named.len());
    }
}

pub fn compare() -> u64 {
    program::require(PROGRAM);
    let mut random = Random::new(18_477);
    let comparison = Comparison::new("f, sheets judged");
    let mut judged = Judged { comparison, named: BTreeMap::new() };
    compare_printed(&mut judged);
    for sheet in [sheets::printed(), sheets::wider()] {
        judged.compare_parts(&[&sheet]);
        judged.compare_all(&sheets::each_byte_changed(&sheet));
        judged.compare_all(&sheets::each_byte_moved(&sheet));
        judged.compare_all(&sheets::each_start(&sheet));
        judged.compare_all(&sheets::each_number_changed(&sheet));
        judged.compare_all(&sheets::each_field_misshapen(&sheet));
        judged.compare_all(&sheets::each_line_damaged(&sheet));
        judged.compare_all(&sheets::longer(&sheet));
    }
    judged.compare_all(&long::around_the_longest());
    judged.compare_all(&long::filled_up());
    judged.compare_all(&long::too_many_links());
    judged.compare_all(&sheets::several_faults());
    judged.compare_all(&sheets::of_each_size(&mut random));
    compare_random(&mut judged, &mut random);
    compare_slow(&mut judged);
    let calls = judged.comparison.finish();
    judged.comparison.coverage("judge-sheet", &[0, 2, 6, 8, 9, 11, FAILED], ENOUGH);
    judged.coverage_of_lines();
    calls
}

/// The definitions print for the sheet of 01 what 01 prints, and that MCS passes.
fn compare_printed(judged: &mut Judged) {
    let sheet = sheets::printed();
    let defined = judgement(&sheet);
    if defined != PRINTED.as_bytes() {
        let found = format!("the definitions give \"{}\"", defined.escape_ascii());
        judged.comparison.differ(&"the sheet of 01", &[found]);
    }
    judged.compare_parts(&[&sheet]);
}

fn compare_random(judged: &mut Judged, random: &mut Random) {
    for _ in 0..ROUNDS {
        let sheet = sheets::random_sheet(random);
        let damaged = sheets::damaged(random, &sheet);
        judged.compare_all(&[sheet, damaged]);
    }
    for _ in 0..LARGE {
        let sheet = sheets::random_large(random);
        let damaged = sheets::damaged(random, &sheet);
        judged.compare_all(&[sheet, damaged]);
    }
    let longest = long::longest();
    for _ in 0..LONG {
        judged.compare_all(&[sheets::damaged(random, &longest)]);
    }
}

/// Sheets that come in parts: the small one cut at each byte, the longest in several.
fn compare_slow(judged: &mut Judged) {
    let sheet = sheets::printed();
    for at in 1..sheet.len() {
        judged.compare_parts(&[&sheet[..at], &sheet[at..]]);
    }
    for size in [500, 4_096, 18_476, 18_477] {
        let longest = long::longest();
        let parts: Vec<&[u8]> = longest.chunks(size).collect();
        judged.compare_parts(&parts);
        let longer = [longest, vec![b'\n'; 3]].concat();
        let parts: Vec<&[u8]> = longer.chunks(size).collect();
        judged.compare_parts(&parts);
    }
}
