//! Group k: what the program of the crate `compared_points` prints, line by line. The open walks and the points are
//! read from there; how the points stand is recomputed, and each open walk must come back as it was. The answers must
//! keep what 02 says of all of them, and each must come with each kind and mark for which it is possible.

use std::collections::{BTreeMap, BTreeSet};
use std::fmt::Write;
use std::process::exit;

use outside::definition::open_walk::OpenWalk;
use outside::definition::stance::{broken_promise, compare_each, Answer, Stance};
use outside::definition::{Kind, KINDS, MARKS, MNS, NONE_BARRED};

use crate::open_walks::number;
use crate::printed;

const PROGRAM: &str = "compared_points";

/// The largest plan.
const MOST: usize = 64;

/// A plan of so many points or more must be walked from nothing placed to all placed, for each kind and mark.
const ENOUGH: usize = 5;

/// The answers in words, and as the program prints them.
const ANSWERS: [(&str, &str); 7] = [
    ("ahead", "a"),
    ("behind", "b"),
    ("level", "l"),
    ("neither", "n"),
    ("refusal 8", "8"),
    ("refusal 13", "13"),
    ("refusal 15", "15"),
];

/// An answer as the program prints it.
pub fn show(answer: Answer) -> String {
    match answer {
        Ok(Stance::Ahead) => "a".to_string(),
        Ok(Stance::Behind) => "b".to_string(),
        Ok(Stance::Level) => "l".to_string(),
        Ok(Stance::Neither) => "n".to_string(),
        Err(number) => number.to_string(),
    }
}

// ---- The line of an open walk ----

/// The rows or the places: the used ones, then the others that are not 0, with their numbers.
fn show_entries(entries: &[u64], used: usize) -> String {
    let shown = |(p, entry): (usize, &u64)| match (p < used, entry) {
        (true, _) => format!(" {entry}"),
        (false, 0) => String::new(),
        (false, _) => format!(" {p}:{entry}"),
    };
    entries.iter().enumerate().map(shown).collect()
}

/// All but the barred set, which is empty in this program's open walks.
pub fn show_walk(walk: &OpenWalk) -> String {
    let OpenWalk { kind, mark, n, rows, k, places, .. } = walk;
    let rows = show_entries(rows, *n);
    let places = show_entries(&places.map(u64::from), *k);
    format!("{kind} {} {n} {k} |{rows} |{places}", number(*mark))
}

fn read_entries(text: &str) -> Option<[u64; MOST]> {
    let mut entries = [0; MOST];
    for (i, word) in text.split_whitespace().enumerate() {
        let (p, entry) = match word.split_once(':') {
            Some((p, entry)) => (p.parse().ok()?, entry),
            None => (i, word),
        };
        *entries.get_mut(p)? = entry.parse().ok()?;
    }
    Some(entries)
}

pub fn read_walk(line: &str) -> Option<OpenWalk> {
    let parts: Vec<&str> = line.split('|').collect();
    let [head, rows, places] = parts[..] else { return None };
    let head: Vec<&str> = head.split_whitespace().collect();
    let [kind, mark, n, k] = head[..] else { return None };
    let mark = MARKS.into_iter().find(|&own| number(own).to_string() == mark)?;
    let places = read_entries(places)?.map(|v| u8::try_from(v).ok());
    Some(OpenWalk {
        kind: kind.parse().ok()?,
        mark,
        n: n.parse().ok()?,
        rows: read_entries(rows)?,
        barred: NONE_BARRED,
        k: k.parse().ok()?,
        places: places.into_iter().collect::<Option<Vec<u8>>>()?.try_into().ok()?,
    })
}

// ---- What is printed ----

/// The open walks, each with the points that are compared on it. The line of the open walk that comes back is passed
/// over here: it is among those that are recomputed.
fn read_questions(text: &str) -> Vec<(OpenWalk, Vec<u8>)> {
    let stop = |at: usize| -> ! {
        eprintln!("NO OPEN WALK OR POINT in group k, line {}", at + 1);
        exit(1)
    };
    let mut questions = Vec::new();
    let mut lines = text.lines().enumerate().peekable();
    while let Some((at, line)) = lines.next() {
        let walk = read_walk(line).unwrap_or_else(|| stop(at));
        let mut points = Vec::new();
        while let Some((at, line)) = lines.next_if(|(_, line)| !line.contains('|')) {
            let point = line.split_once(':').and_then(|(point, _)| point.parse().ok());
            points.push(point.unwrap_or_else(|| stop(at)));
        }
        lines.next();
        questions.push((walk, points));
    }
    questions
}

/// The lines that are expected, how many calls they show, and what was seen of each kind and mark.
#[derive(Default)]
struct Lines {
    text: String,
    calls: u64,
    answers: BTreeMap<(Kind, u8), BTreeMap<String, u64>>,
    /// How many points there are and how many are placed, where each number from 0 to n is compared with each.
    lengths: BTreeMap<(Kind, u8), BTreeSet<(usize, usize)>>,
    /// The kinds for which points of the largest plan are compared.
    largest: BTreeSet<Kind>,
}

impl Lines {
    fn compare(&mut self, walk: &OpenWalk, points: &[u8]) {
        let answers = compare_each(walk, points);
        let shown = show_walk(walk);
        if let Some(sentence) = broken_promise(walk, points, &answers) {
            eprintln!("BROKEN PROMISE in group k: {sentence}\n  {shown}");
            exit(1)
        }
        self.note(walk, points, &answers);
        self.text += &format!("{shown}\n");
        for (point, answers) in points.iter().zip(answers) {
            let words: Vec<String> = answers.into_iter().map(show).collect();
            writeln!(self.text, "{point}: {}", words.join(" ")).expect("a string takes any line");
        }
        self.text += &format!("{shown}\n");
    }

    fn note(&mut self, walk: &OpenWalk, points: &[u8], answers: &[Vec<Answer>]) {
        let key = (walk.kind, number(walk.mark));
        let seen = self.answers.entry(key).or_default();
        for &answer in answers.iter().flatten() {
            *seen.entry(show(answer)).or_default() += 1;
            self.calls += 1;
        }
        if (0..=walk.n).eq(points.iter().map(|&v| v as usize)) && walk.well_formed() {
            self.lengths.entry(key).or_default().insert((walk.n, walk.k));
        }
        if walk.n == MOST && answers.iter().flatten().any(Result::is_ok) {
            self.largest.insert(walk.kind);
        }
    }

    /// Each kind and mark has each answer that is possible for it, and no other; neither is possible for MNS alone, and
    /// only 13 for a kind that there is not.
    fn has_all_answers(&self) -> bool {
        let possible = |&(kind, _): &(Kind, u8)| match kind {
            MNS => vec!["13", "15", "8", "a", "b", "l", "n"],
            _ if KINDS.contains(&kind) => vec!["13", "15", "8", "a", "b", "l"],
            _ => vec!["13"],
        };
        each_kind_and_mark().all(|key| self.answers.contains_key(&key))
            && self.answers.keys().any(|(kind, _)| !KINDS.contains(kind))
            && self.answers.iter().all(|(key, seen)| seen.keys().eq(possible(key)))
    }

    /// Each kind and mark has a walk from nothing placed to all placed, and each kind one on the largest plan.
    fn has_all_lengths(&self) -> bool {
        let walked = |key: (Kind, u8), n: usize| {
            self.lengths.get(&key).is_some_and(|seen| (0..=n).all(|k| seen.contains(&(n, k))))
        };
        each_kind_and_mark().all(|key| (ENOUGH..MOST).any(|n| walked(key, n)))
            && KINDS.iter().all(|kind| self.largest.contains(kind))
    }

    /// How often an answer came, for any kind and mark.
    fn times(&self, (name, answer): (&str, &str)) -> String {
        let times: u64 = self.answers.values().filter_map(|seen| seen.get(answer)).sum();
        format!("{name} {times} times")
    }
}

pub fn each_kind_and_mark() -> impl Iterator<Item = (Kind, u8)> {
    KINDS.into_iter().flat_map(|kind| MARKS.map(|mark| (kind, number(mark))))
}

pub fn compare() -> u64 {
    let mut lines = Lines::default();
    for (walk, points) in read_questions(&printed::read(PROGRAM)) {
        lines.compare(&walk, &points);
    }
    let calls = printed::compare("k, compared points", PROGRAM, &lines.text, lines.calls);
    if !lines.has_all_answers() || !lines.has_all_lengths() {
        eprintln!("TOO LITTLE TRIED in group k");
        exit(1)
    }
    let times = ANSWERS.map(|answer| lines.times(answer));
    println!("   compare answered {}", times.join(", "));
    calls
}
