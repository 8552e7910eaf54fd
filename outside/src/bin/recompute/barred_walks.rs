//! Group m: what the program of the crate `barred_points` prints, line by line. The opens, the open walks and the points
//! are read from there; what is answered and handed back is recomputed, without the barred points and with the others
//! renumbered. Where nothing is barred, the answers must be those of the definitions that know of no barred points.
//! Each answer must come with each kind and mark for which it is possible.

use std::fmt::Write;
use std::process::exit;

use outside::definition::open_walk::OpenWalk;
use outside::definition::stance::{broken_promise, compare_each, stance, Answer};
use outside::definition::{bytes, label, offered, Graph, Kind, Mark, Vertex};
use outside::definition::{MARKS, NONE_BARRED};

use crate::compared_points::{read_walk, show, show_walk};
use crate::open_walks::number;
use crate::printed;
use tried::Tried;

mod tried;

const PROGRAM: &str = "barred_points";

/// What the program asks: an open, or all calls on an open walk, with some points.
enum Question {
    Open(Kind, Mark, Vec<u64>, u64),
    Try(Box<OpenWalk>, Vec<u8>),
}

// ---- What is printed ----

/// An open walk, with the barred set behind it.
fn show_barring(walk: &OpenWalk) -> String {
    format!("{} | {}", show_walk(walk), walk.barred)
}

fn read_barring(line: &str) -> Option<OpenWalk> {
    let (walk, barred) = line.rsplit_once('|')?;
    Some(OpenWalk { barred: barred.trim().parse().ok()?, ..read_walk(walk)? })
}

/// What an open is given. There may be more rows than an open walk has room for.
fn read_open(asked: &str) -> Option<Question> {
    let parts: Vec<&str> = asked.split('|').collect();
    let [head, rows, barred] = parts[..] else { return None };
    let (kind, mark) = head.trim().split_once(' ')?;
    let mark = MARKS.into_iter().find(|&own| number(own).to_string() == mark)?;
    let rows = rows.split_whitespace().map(|row| row.parse().ok());
    let rows: Option<Vec<u64>> = rows.collect();
    Some(Question::Open(kind.parse().ok()?, mark, rows?, barred.trim().parse().ok()?))
}

/// The point of a line that tries one.
fn read_point(line: &str) -> Option<u8> {
    line.split_once(';')?.0.split_once(':')?.0.parse().ok()
}

/// The lines of answers are passed over here: they are among those that are recomputed.
fn read_questions(text: &str) -> Option<Vec<Question>> {
    let mut questions = Vec::new();
    let mut lines = text.lines().peekable();
    while let Some(line) = lines.next() {
        questions.push(match line.split_once(';') {
            Some((asked, _)) => read_open(asked)?,
            None => {
                lines.next();
                let mut points = Vec::new();
                while let Some(point) = lines.peek().and_then(|line| read_point(line)) {
                    points.push(point);
                    lines.next();
                }
                Question::Try(Box::new(read_barring(line)?), points)
            }
        });
    }
    Some(questions)
}

// ---- With nothing barred ----

/// Whether the answers on a well-formed open walk are those of the definitions that know of no barred points.
fn agrees_with_01(walk: &OpenWalk, points: &[u8], compared: &[Vec<Answer>]) -> bool {
    let graph = Graph::from_plan(&bytes(&walk.rows[..walk.n]));
    let next = offered(walk.kind, &graph, walk.placed());
    let placing = |v: u8| match v as Vertex {
        _ if walk.k == walk.n => 14,
        outside if outside >= walk.n => 8,
        _ if walk.placed().contains(&v) => 15,
        unplaced if !next.contains(&unplaced) => 16,
        _ => 0,
    };
    let labelled = |v: u8| label(&graph, walk.placed(), v as Vertex);
    let standing = |first: u8, second: u8| match [first, second] {
        both if both.iter().any(|&v| v as Vertex >= walk.n) => Err(8),
        both if both.iter().any(|v| walk.placed().contains(v)) => Err(15),
        _ => Ok(stance(walk.kind, &labelled(first), &labelled(second))),
    };
    let stands = |(&first, answers): (&u8, &Vec<Answer>)| {
        points.iter().zip(answers).all(|(&second, answer)| *answer == standing(first, second))
    };
    walk.offered() == (next.iter().map(|&v| 1u64 << v).sum(), 0)
        && points.iter().all(|&v| walk.place(v).1 == placing(v))
        && points.iter().zip(compared).all(stands)
}

// ---- What is expected ----

/// The lines that are expected, how many calls they show, and what was tried.
#[derive(Default)]
struct Lines {
    text: String,
    calls: u64,
    tried: Tried,
}

impl Lines {
    fn line(&mut self, line: String) {
        writeln!(self.text, "{line}").expect("a string takes any line");
    }

    fn open(&mut self, kind: Kind, mark: Mark, rows: &[u64], barred: u64) {
        let (walk, answer) = OpenWalk::open(kind, mark, rows, barred);
        let shown: String = rows.iter().map(|row| format!(" {row}")).collect();
        let asked = format!("{kind} {} |{shown} | {barred}", number(mark));
        self.line(format!("{asked}; {answer}; {}", show_barring(&walk)));
        self.calls += 1;
        self.tried.open((kind, number(mark)), rows.len(), barred, answer);
    }

    /// All calls on an open walk.
    fn attempt(&mut self, walk: &OpenWalk, points: &[u8]) {
        let compared = compare_each(walk, points);
        check(walk, points, &compared);
        self.tried.note(walk, points, &compared);
        let ((set, answer), (back, taken)) = (walk.offered(), walk.take_back());
        self.line(show_barring(walk));
        self.line(format!("{answer} {set}; {taken}; {}", show_barring(&back)));
        self.tried.count(walk, "offered", answer);
        self.tried.count(walk, "taking back", taken);
        for (&point, answers) in points.iter().zip(&compared) {
            let (grown, placed) = walk.place(point);
            let words: Vec<String> = answers.iter().map(|&answer| show(answer)).collect();
            let stands = words.join(" ");
            self.line(format!("{point}: {stands}; {placed}; {}", show_barring(&grown)));
            self.tried.count(walk, "placing", placed);
            words.iter().for_each(|word| self.tried.count(walk, "comparing", word));
        }
        self.calls += 2 + (points.len() + points.len() * points.len()) as u64;
    }
}

/// What is said of all answers.
fn check(walk: &OpenWalk, points: &[u8], compared: &[Vec<Answer>]) {
    let plain = walk.barred == NONE_BARRED && walk.well_formed();
    let broken = match broken_promise(walk, points, compared) {
        None if plain && !agrees_with_01(walk, points, compared) => {
            Some("with nothing barred the answers are those of 01")
        }
        broken => broken,
    };
    if let Some(sentence) = broken {
        eprintln!("BROKEN PROMISE in group m: {sentence}\n  {}", show_barring(walk));
        exit(1)
    }
}

pub fn compare() -> u64 {
    let Some(questions) = read_questions(&printed::read(PROGRAM)) else {
        eprintln!("NO OPEN WALK OR POINT in group m");
        exit(1)
    };
    let mut lines = Lines::default();
    for question in questions {
        match question {
            Question::Open(kind, mark, rows, barred) => lines.open(kind, mark, &rows, barred),
            Question::Try(walk, points) => lines.attempt(&walk, &points),
        }
    }
    let group = "m, open walks with barred points";
    let calls = printed::compare(group, PROGRAM, &lines.text, lines.calls);
    if !lines.tried.is_enough() {
        eprintln!("TOO LITTLE TRIED in group m");
        exit(1)
    }
    lines.tried.print();
    calls
}
