//! Group p: what the program of the crate `sentences` prints, line by line. The calls are read from there; what is
//! answered, and the output list as it is afterwards, are recomputed. And no two sentences of all that there can be are
//! equal.

use std::collections::HashSet;
use std::process::exit;
use std::str::FromStr;

use outside::definition::wording::{judge_in_words, sentence, MOST};
use outside::definition::{Kind, Mark, KINDS, MARKS};

use crate::open_walks::number;
use crate::printed;
use tried::Tried;

mod tried;

const PROGRAM: &str = "sentences";

/// The kinds for which each walk is judged.
const JUDGED: [Kind; 9] = [0, 1, 2, 3, 4, 5, 6, 7, 255];

/// A walk, and how many bytes the output list has.
pub struct Question {
    mark: Mark,
    rows: Vec<u64>,
    barred: u64,
    walk: Vec<u8>,
    room: usize,
}

/// An output list before a call: the letters a to z, again and again.
fn fresh(room: usize) -> Vec<u8> {
    (b'a'..=b'z').cycle().take(room).collect()
}

fn read_list<Entry: FromStr>(words: &str) -> Option<Vec<Entry>> {
    words.split_whitespace().map(|word| word.parse().ok()).collect()
}

fn show_list<Entry: ToString>(list: &[Entry]) -> String {
    list.iter().map(|entry| format!(" {}", entry.to_string())).collect()
}

fn read_question(line: &str) -> Option<Question> {
    let parts: Vec<&str> = line.split('|').collect();
    let [mark, rows, barred, walk, room] = parts[..] else { return None };
    Some(Question {
        mark: MARKS.into_iter().find(|&own| number(own).to_string() == mark.trim())?,
        rows: read_list(rows)?,
        barred: barred.trim().parse().ok()?,
        walk: read_list(walk)?,
        room: room.trim().parse().ok()?,
    })
}

fn show_question(question: &Question) -> String {
    let Question { mark, rows, barred, walk, room } = question;
    format!("{} |{} | {barred} |{} | {room}", number(*mark), show_list(rows), show_list(walk))
}

/// The line that the call for a kind must print.
fn expected(tried: &mut Tried, question: &Question, kind: Kind) -> String {
    let Question { mark, rows, barred, walk, room } = question;
    let (answer, after) = judge_in_words(kind, *mark, rows, *barred, walk, &fresh(*room));
    tried.note(question, kind, answer, &after);
    let answer = match answer {
        Ok(length) => format!("w {length}"),
        Err(number) => format!("r {number}"),
    };
    format!("{kind} {answer} | {}", String::from_utf8_lossy(&after))
}

/// The lines of a walk, from its first line on.
fn expected_lines(tried: &mut Tried, first: &str) -> Option<Vec<String>> {
    let question = read_question(first)?;
    let told = JUDGED.map(|kind| expected(tried, &question, kind));
    Some([vec![show_question(&question)], told.to_vec()].concat())
}

/// All sentences, on points below 64: how many there are, if no two are equal.
fn all_sentences() -> Option<usize> {
    let triples = (0..MOST * MOST * MOST).map(|i| (i / MOST / MOST, i / MOST % MOST, i % MOST));
    let judgements = std::iter::once(None).chain(triples.map(Some));
    let mut all = HashSet::new();
    let mut sentences =
        judgements.flat_map(|triple| KINDS.into_iter().map(move |kind| sentence(kind, triple)));
    sentences.all(|said| all.insert(said)).then_some(all.len())
}

pub fn compare() -> u64 {
    let mut tried = Tried::default();
    let printed = printed::read(PROGRAM);
    let lines: Vec<&str> = printed.lines().collect();
    for (i, group) in lines.chunks(1 + JUDGED.len()).enumerate() {
        let own = expected_lines(&mut tried, group[0]);
        if !own.is_some_and(|own| own == group) {
            eprintln!("DIFFERENCE in group p, from line {} on", i * (1 + JUDGED.len()) + 1);
            exit(1)
        }
    }
    if let Some(missing) = tried.missing() {
        eprintln!("TOO LITTLE TRIED in group p: {missing}");
        exit(1)
    }
    let Some(sentences) = all_sentences() else {
        eprintln!("EQUAL SENTENCES in group p");
        exit(1)
    };
    tried.print();
    println!("   {sentences} sentences on points below 64, no two of them equal");
    tried.calls()
}
