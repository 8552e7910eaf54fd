//! Group r: what the program of the crate `edge_files` prints, line by line. The calls are read from there; what is
//! answered, and the output lists as they are afterwards, are recomputed from the words of each line of the file.

use std::process::exit;
use std::str::FromStr;

use outside::definition::edge_files::{export, import};
use outside::definition::{Mark, MARKS};

use crate::open_walks::number;
use crate::printed;
use tried::Tried;

mod tried;

const PROGRAM: &str = "edge_files";

/// What the program asks, with an output list of so many entries.
enum Question {
    Import(Vec<u8>, usize),
    Export(Mark, Vec<u64>, usize),
}

// ---- Output lists before a call ----

fn fresh_rows(room: usize) -> Vec<u64> {
    (1000..).take(room).collect()
}

fn fresh_bytes(room: usize) -> Vec<u8> {
    (b'a'..=b'z').cycle().take(room).collect()
}

// ---- What is printed ----

fn read<Entry: FromStr>(words: &str) -> Option<Vec<Entry>> {
    words.split_whitespace().map(|word| word.parse().ok()).collect()
}

fn show<Entry: ToString>(list: &[Entry]) -> String {
    list.iter().map(|entry| format!(" {}", entry.to_string())).collect()
}

fn read_line(line: &str) -> Option<Question> {
    let parts: Vec<&str> = line.split('|').collect();
    match parts[..] {
        ["i ", file, room, _, _] => Some(Question::Import(read(file)?, room.trim().parse().ok()?)),
        ["x ", mark, rows, room, _, _] => {
            let mark = MARKS.into_iter().find(|&own| number(own).to_string() == mark.trim())?;
            Some(Question::Export(mark, read(rows)?, room.trim().parse().ok()?))
        }
        _ => None,
    }
}

fn show_answer(letter: char, answer: Result<usize, u32>) -> String {
    match answer {
        Ok(count) => format!("{letter} {count}"),
        Err(number) => format!("r {number}"),
    }
}

// ---- What is recomputed ----

/// The line that the call must print.
fn expected(tried: &mut Tried, question: &Question) -> String {
    match question {
        Question::Import(file, room) => {
            let (answer, after) = import(file, &fresh_rows(*room));
            tried.note_import(file, *room, answer, &after);
            let answer = show_answer('n', answer);
            format!("i |{} | {room} | {answer} |{}", show(file), show(&after))
        }
        Question::Export(mark, rows, room) => {
            let (answer, after) = export(*mark, rows, &fresh_bytes(*room));
            tried.note_export(*mark, rows, *room, answer);
            let (mark, answer) = (number(*mark), show_answer('w', answer));
            format!("x | {mark} |{} | {room} | {answer} |{}", show(rows), show(&after))
        }
    }
}

pub fn compare() -> u64 {
    let mut tried = Tried::default();
    for (i, line) in printed::read(PROGRAM).lines().enumerate() {
        let own = read_line(line).map(|question| expected(&mut tried, &question));
        if own.as_deref() != Some(line) {
            eprintln!("DIFFERENCE in group r, line {}", i + 1);
            exit(1)
        }
    }
    if let Some(missing) = tried.missing() {
        eprintln!("TOO LITTLE TRIED in group r: {missing}");
        exit(1)
    }
    tried.print();
    tried.calls()
}
