//! Group o: what the program of the crate `neighbour_lists` prints, line by line. The calls are read from there; what is
//! answered, and the output lists as they are afterwards, are recomputed from the links that the lists name.

use std::process::exit;
use std::str::FromStr;

use outside::definition::neighbour_lists::{judge, to_lists, to_rows, Lists};
use outside::definition::{Kind, Mark, FAILED, MARKS};

use crate::open_walks::number;
use crate::printed;
use tried::Tried;

mod tried;

const PROGRAM: &str = "neighbour_lists";

/// The kinds for which each walk is judged.
const JUDGED: [Kind; 9] = [0, 1, 2, 3, 4, 5, 6, 7, 255];

/// What the program asks: a conversion to lists or to rows, with output lists of so many entries, or a walk judged.
enum Question {
    ToLists(Vec<u64>, usize, usize),
    ToRows(Lists, usize),
    Judge(Lists, u64, Vec<u8>),
}

// ---- Output lists before a call ----

fn fresh_lists(offsets: usize, neighbours: usize) -> Lists {
    Lists {
        offsets: (50_000..).take(offsets).collect(),
        neighbours: (0..neighbours).map(|p| 100 + (p % 100) as u8).collect(),
    }
}

fn fresh_rows(room: usize) -> Vec<u64> {
    (1000..).take(room).collect()
}

// ---- What is printed ----

fn read<Entry: FromStr>(words: &str) -> Option<Vec<Entry>> {
    words.split_whitespace().map(|word| word.parse().ok()).collect()
}

fn show<Entry: ToString>(list: &[Entry]) -> String {
    list.iter().map(|entry| format!(" {}", entry.to_string())).collect()
}

fn read_lists(offsets: &str, neighbours: &str) -> Option<Lists> {
    Some(Lists { offsets: read(offsets)?, neighbours: read(neighbours)? })
}

/// The numbers before the answer: how many entries the output lists have.
fn read_rooms(told: &str) -> Option<Vec<usize>> {
    read(told.split(['d', 'r']).next()?)
}

fn read_line(line: &str) -> Option<(Mark, Question)> {
    let parts: Vec<&str> = line.split('|').collect();
    let (letter, mark) = parts[0].trim().split_once(' ')?;
    let mark = MARKS.into_iter().find(|&own| number(own).to_string() == mark)?;
    let question = match (letter, &parts[1..]) {
        ("l", [rows, told, _, _]) => {
            let [offsets, neighbours] = read_rooms(told)?[..] else { return None };
            Question::ToLists(read(rows)?, offsets, neighbours)
        }
        ("r", [offsets, neighbours, told, _]) => {
            let [room] = read_rooms(told)?[..] else { return None };
            Question::ToRows(read_lists(offsets, neighbours)?, room)
        }
        ("j", [offsets, neighbours, barred, walk, _]) => {
            let lists = read_lists(offsets, neighbours)?;
            Question::Judge(lists, barred.trim().parse().ok()?, read(walk)?)
        }
        _ => return None,
    };
    Some((mark, question))
}

fn show_refusal(refused: Option<u32>) -> String {
    refused.map_or("d".to_string(), |number| format!("r {number}"))
}

fn show_lists(lists: &Lists) -> String {
    format!("|{} |{}", show(&lists.offsets), show(&lists.neighbours))
}

fn show_verdict(answer: u32) -> String {
    match answer {
        0 => " p".to_string(),
        1..FAILED => format!(" r {answer}"),
        _ => {
            let code = answer - FAILED;
            format!(" f {} {} {}", code >> 16, code >> 8 & 255, code & 255)
        }
    }
}

// ---- What is recomputed ----

/// The line that the call must print.
fn expected(tried: &mut Tried, mark: Mark, question: &Question) -> String {
    match question {
        Question::ToLists(rows, offsets, neighbours) => {
            let before = fresh_lists(*offsets, *neighbours);
            let answer = to_lists(mark, rows, &before);
            tried.note_lists(mark, rows, &before, answer.as_ref().err());
            let refused = show_refusal(answer.as_ref().err().copied());
            let after = show_lists(answer.as_ref().unwrap_or(&before));
            format!("l {} |{} | {offsets} {neighbours} {refused} {after}", number(mark), show(rows))
        }
        Question::ToRows(lists, room) => {
            let before = fresh_rows(*room);
            let answer = to_rows(mark, lists, &before);
            tried.note_rows(mark, lists, *room, answer.as_ref().err());
            let refused = show_refusal(answer.as_ref().err().copied());
            let after = show(answer.as_ref().unwrap_or(&before));
            format!("r {} {} | {room} {refused} |{after}", number(mark), show_lists(lists))
        }
        Question::Judge(lists, barred, walk) => {
            let answers = JUDGED.map(|kind| {
                let answer = judge(kind, mark, lists, *barred, walk);
                tried.note_judged(kind, mark, lists, *barred, walk, answer);
                show_verdict(answer)
            });
            let answers = answers.concat();
            let (lists, walk) = (show_lists(lists), show(walk));
            format!("j {} {lists} | {barred} |{walk} |{answers}", number(mark))
        }
    }
}

pub fn compare() -> u64 {
    let mut tried = Tried::default();
    for (i, line) in printed::read(PROGRAM).lines().enumerate() {
        let own = read_line(line).map(|(mark, question)| expected(&mut tried, mark, &question));
        if own.as_deref() != Some(line) {
            eprintln!("DIFFERENCE in group o, line {}", i + 1);
            exit(1)
        }
    }
    if let Some(missing) = tried.missing() {
        eprintln!("TOO LITTLE TRIED in group o: {missing}");
        exit(1)
    }
    tried.print();
    tried.calls()
}
