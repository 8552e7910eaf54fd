//! What group m has tried: which answers came with which kind and mark, on how long walks, and what the barred set
//! decided.

use std::collections::{BTreeMap, BTreeSet};
use std::fmt::Display;

use outside::definition::open_walk::OpenWalk;
use outside::definition::stance::Answer;
use outside::definition::{Kind, Mark, KINDS, MNS, NONE_BARRED};

use crate::compared_points::each_kind_and_mark;
use crate::open_walks::number;

/// The largest plan.
const MOST: usize = 64;

/// So many unbarred points, or more, must be walked from nothing placed to all placed.
const ENOUGH: usize = 5;

/// Open, where the set has a bit at or above n.
const WRONGLY: &str = "open with a wrong set";

/// A kind and a mark.
type Key = (Kind, u8);

/// How often each answer of each call came, as in "placing 24".
type Seen = BTreeMap<String, u64>;

#[derive(Default)]
pub struct Tried {
    /// Only where the barred set is not empty.
    answers: BTreeMap<Key, Seen>,
    /// How many points are not barred, how many are, and how many are placed, where each number from 0 to n is tried.
    lengths: BTreeMap<Key, BTreeSet<(usize, usize, usize)>>,
    /// What the barred set alone has decided about an open walk.
    decided: BTreeSet<(Key, Decided)>,
    /// The kinds for which some points of the largest plan are barred and others are compared.
    largest: BTreeSet<Kind>,
}

/// What the barred set alone decides: that the walk passes, or that the open walk is not well formed.
#[derive(Clone, Copy, PartialEq, Eq, PartialOrd, Ord)]
enum Decided {
    Passes,
    HasWrongBit,
    HasBarredPlaced,
}

impl Decided {
    const ALL: [Decided; 3] = [Decided::Passes, Decided::HasWrongBit, Decided::HasBarredPlaced];

    fn of(walk: &OpenWalk) -> Option<Decided> {
        let none_barred = OpenWalk { barred: NONE_BARRED, ..walk.clone() };
        match (walk.well_formed(), none_barred.well_formed()) {
            (true, false) => Some(Decided::Passes),
            (false, true) if has_wrong_bit(walk.n, walk.barred) => Some(Decided::HasWrongBit),
            (false, true) => Some(Decided::HasBarredPlaced),
            _ => None,
        }
    }
}

/// The set has a bit at or above n.
fn has_wrong_bit(n: usize, barred: u64) -> bool {
    n < MOST && barred >> n != 0
}

impl Tried {
    fn enter(&mut self, key: Key, barred: u64, call: &str, answer: impl Display) {
        if barred != NONE_BARRED {
            let seen = self.answers.entry(key).or_default();
            *seen.entry(format!("{call} {answer}")).or_default() += 1;
        }
    }

    pub fn open(&mut self, key: Key, n: usize, barred: u64, answer: u32) {
        let call = if has_wrong_bit(n, barred) { WRONGLY } else { "open" };
        self.enter(key, barred, call, answer);
    }

    /// A call on an open walk, and its answer.
    pub fn count(&mut self, walk: &OpenWalk, call: &str, answer: impl Display) {
        self.enter((walk.kind, number(walk.mark)), walk.barred, call, answer);
    }

    /// All calls on an open walk.
    pub fn note(&mut self, walk: &OpenWalk, points: &[u8], compared: &[Vec<Answer>]) {
        let key = (walk.kind, number(walk.mark));
        let all = (0..=walk.n).eq(points.iter().map(|&v| v as usize));
        if all && walk.well_formed() {
            let unbarred = walk.smaller().size();
            let lengths = self.lengths.entry(key).or_default();
            lengths.insert((unbarred, walk.n - unbarred, walk.k));
        }
        self.decided.extend(Decided::of(walk).map(|decided| (key, decided)));
        let some_barred = walk.barred != NONE_BARRED;
        if walk.n == MOST && some_barred && compared.iter().flatten().any(Result::is_ok) {
            self.largest.insert(walk.kind);
        }
    }

    pub fn is_enough(&self) -> bool {
        let decided =
            |key: Key| Decided::ALL.iter().all(|&each| self.decided.contains(&(key, each)));
        each_kind_and_mark()
            .all(|key| self.has_all_answers(key) && self.has_all_lengths(key) && decided(key))
            && self.answers.iter().any(|(key, seen)| no_such_kind(key, seen))
            && [1, 3, 4].iter().all(|&answer| self.has_come(answer))
            && KINDS.iter().all(|kind| self.largest.contains(kind))
    }

    /// Where points are barred, each answer of each call that is possible, and no other. An open is refused with 23, and
    /// on a two-way plan with 5 before that.
    fn has_all_answers(&self, key: Key) -> bool {
        let two_way = key.1 == number(Mark::TwoWay);
        self.answers.get(&key).is_some_and(|seen| {
            on_open_walks(seen) == possible(key.0)
                && seen.contains_key("open 0")
                && seen.contains_key(&format!("{WRONGLY} 23"))
                && seen.contains_key(&format!("{WRONGLY} 5")) == two_way
        })
    }

    /// An open with a wrong set was refused with this number, for some kind and mark.
    fn has_come(&self, answer: u32) -> bool {
        self.answers.values().any(|seen| seen.contains_key(&format!("{WRONGLY} {answer}")))
    }

    /// A walk from nothing placed to all unbarred points placed, where some are barred; one where none is; and an open
    /// walk where all are.
    fn has_all_lengths(&self, key: Key) -> bool {
        let walked = |unbarred: usize, barred: usize| {
            let seen = self.lengths.get(&key);
            seen.is_some_and(|seen| (0..=unbarred).all(|k| seen.contains(&(unbarred, barred, k))))
        };
        (ENOUGH..MOST).any(|unbarred| (1..MOST).any(|barred| walked(unbarred, barred)))
            && (3..MOST).any(|unbarred| walked(unbarred, 0))
            && (1..MOST).any(|barred| walked(0, barred))
    }

    /// Prints how often each answer came where points are barred, for any kind and mark.
    pub fn print(&self) {
        for call in ["open", WRONGLY, "offered", "placing", "taking back", "comparing"] {
            let mut times: BTreeMap<(usize, &str), u64> = BTreeMap::new();
            for (name, count) in self.answers.values().flatten() {
                let (own, answer) = name.rsplit_once(' ').expect("a call and an answer");
                if own == call {
                    *times.entry((answer.len(), answer)).or_default() += count;
                }
            }
            let each = times.iter().map(|((_, answer), count)| format!("{answer} {count} times"));
            println!("   {call} answered {}", each.collect::<Vec<String>>().join(", "));
        }
    }
}

fn on_open_walks(seen: &Seen) -> BTreeSet<String> {
    seen.keys().filter(|name| !name.starts_with("open")).cloned().collect()
}

/// All calls on open walks of a kind that there is not were made and refused.
fn no_such_kind(key: &Key, seen: &Seen) -> bool {
    !KINDS.contains(&key.0) && on_open_walks(seen) == possible(key.0)
}

/// The answers of the calls on open walks. Neither is possible for MNS alone, and only 13 for a kind that there is not.
fn possible(kind: Kind) -> BTreeSet<String> {
    let comparing = if kind == MNS { "8 13 15 24 a b l n" } else { "8 13 15 24 a b l" };
    let of_a_kind = [
        ("offered", "0 13"),
        ("taking back", "0 13 17"),
        ("placing", "0 8 13 14 15 16 24"),
        ("comparing", comparing),
    ];
    let each = |(call, answers): (&str, &str)| -> Vec<String> {
        let answers = if KINDS.contains(&kind) { answers } else { "13" };
        answers.split(' ').map(|answer| format!("{call} {answer}")).collect()
    };
    of_a_kind.into_iter().flat_map(each).collect()
}
