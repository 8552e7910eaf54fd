//! Group n: what the program of the crate `chordal_plans` prints, line by line. Which order or ring is shown is left
//! open, so each is checked by its definition; whether there is a ring is decided by removing simplicial points. The
//! plans of up to six points are all plans, in an order of this program's own; the others are read from what is printed.

use std::collections::BTreeSet;
use std::process::exit;

use outside::definition::chordal::{is_promised, Answer};
use outside::definition::{Mark, MARKS};
use outside::graphs;

use crate::open_walks::number;
use crate::printed;

const PROGRAM: &str = "chordal_plans";

/// All plans of so many points at most are tried, with output lists of a byte more, which hold this byte.
const SMALL: usize = 6;
const UNTOUCHED: u8 = 9;

/// The largest plan.
const MOST: usize = 64;

/// The first byte of the other output lists; each further one is larger by 1.
const FIRST: u8 = 100;

/// One call: what went in, and what came out.
struct Call {
    mark: Mark,
    rows: Vec<u64>,
    before: Vec<u8>,
    answer: Answer,
    after: Vec<u8>,
}

/// An answer at the start of a list of words, and the other words.
fn read_answer<'a>(words: &'a [&'a str]) -> Option<(Answer, &'a [&'a str])> {
    match words {
        ["y", rest @ ..] => Some((Answer::Chordal, rest)),
        ["n", length, rest @ ..] => Some((Answer::Ring(length.parse().ok()?), rest)),
        ["r", number, rest @ ..] => Some((Answer::Refused(number.parse().ok()?), rest)),
        _ => None,
    }
}

/// The line of a plan of few points: an answer, and the output list with a digit for each byte.
fn read_short(line: &str, plan: &[u8]) -> Option<Call> {
    let words: Vec<&str> = line.split(' ').collect();
    let (answer, rest) = read_answer(&words)?;
    let [digits] = rest else { return None };
    let row = |bytes: &[u8]| u64::from_le_bytes(bytes.try_into().expect("eight bytes a row"));
    let rows: Vec<u64> = plan.chunks_exact(8).map(row).collect();
    Some(Call {
        mark: Mark::TwoWay,
        before: vec![UNTOUCHED; rows.len() + 1],
        rows,
        answer,
        after: digits.bytes().map(|digit| digit.wrapping_sub(b'0')).collect(),
    })
}

/// The line of another plan: mark and number of rows, the rows, the length of the output list and the answer, and the
/// output list.
fn read_long(line: &str) -> Option<Call> {
    let parts: Vec<Vec<&str>> =
        line.split('|').map(|part| part.split_whitespace().collect()).collect();
    let [head, rows, told, after] = &parts[..] else { return None };
    let [mark, n] = head[..] else { return None };
    let [room, answer @ ..] = &told[..] else { return None };
    let (answer, []) = read_answer(answer)? else { return None };
    let rows: Vec<u64> = rows.iter().map(|row| row.parse().ok()).collect::<Option<_>>()?;
    let same_size = n.parse() == Ok(rows.len());
    same_size.then_some(Call {
        mark: MARKS.into_iter().find(|&own| number(own).to_string() == mark)?,
        rows,
        before: (FIRST..).take(room.parse().ok()?).collect(),
        answer,
        after: after.iter().map(|byte| byte.parse().ok()).collect::<Option<_>>()?,
    })
}

/// How many calls there were, and what was told: the lengths of the rings, the numbers of the refusals, and how many
/// points the plans without a ring had.
#[derive(Default)]
struct Seen {
    calls: usize,
    chordal: BTreeSet<usize>,
    rings: BTreeSet<usize>,
    refusals: BTreeSet<u32>,
    times: [u64; 3],
}

impl Seen {
    fn check(&mut self, call: Option<Call>) {
        self.calls += 1;
        let is_right = |Call { mark, rows, before, answer, after }: &Call| {
            is_promised(*mark, rows, before, *answer, after)
        };
        let Some(call) = call.filter(is_right) else {
            eprintln!("DIFFERENCE in group n, line {}", self.calls);
            exit(1)
        };
        match call.answer {
            Answer::Chordal => {
                self.chordal.insert(call.rows.len());
                self.times[0] += 1;
            }
            Answer::Ring(m) => {
                self.rings.insert(m);
                self.times[1] += 1;
            }
            Answer::Refused(number) => {
                self.refusals.insert(number);
                self.times[2] += 1;
            }
        }
    }

    /// Rings of every length, plans without one of every size, and every refusal.
    fn is_enough(&self) -> bool {
        self.rings.iter().copied().eq(4..=MOST)
            && self.chordal.iter().copied().eq(0..=MOST)
            && self.refusals.iter().eq(&[2, 3, 4, 5, 10, 25])
    }
}

pub fn compare() -> u64 {
    let printed = printed::read(PROGRAM);
    let mut lines = printed.lines();
    let mut seen = Seen::default();
    for n in 0..=SMALL {
        for plan in graphs::all_plans(Mark::TwoWay, n) {
            seen.check(lines.next().and_then(|line| read_short(line, &plan)));
        }
    }
    lines.for_each(|line| seen.check(read_long(line)));
    if !seen.is_enough() {
        eprintln!("TOO LITTLE TRIED in group n");
        exit(1)
    }
    let [chordal, ring, refused] = seen.times;
    println!("n, chordal plans: {} calls", seen.calls);
    println!("   no chordless ring {chordal} times, a ring {ring} times, refused {refused} times");
    seen.calls as u64
}
