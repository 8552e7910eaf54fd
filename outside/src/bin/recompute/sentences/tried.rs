//! What group p has tried: which answers came for which kind and mark, on which plans, with which output lists, and with
//! which faults beside the one that was answered.

use std::collections::{BTreeMap, BTreeSet};

use outside::definition::wording::{faults, MOST, ROOM};
use outside::definition::{Kind, Mark, KINDS, MARKS, NONE_BARRED};

use super::Question;
use crate::open_walks::number;

/// The refusals in their order; 1 is given for kinds that there are not.
const ORDER: [u32; 10] = [2, 3, 4, 5, 23, 6, 8, 9, 24, 10];

/// No word has a bit at or above 65, so 3 and 23 do not come beside 2.
const IMPOSSIBLE: [(u32, u32); 2] = [(2, 3), (2, 23)];

/// The lengths of the shortest sentence and of the longest one.
const SHORTEST: usize = 11;
const LONGEST: usize = 50;

/// A kind, and the mark of a plan.
type Key = (Kind, u8);

/// What was told: a pass, a failure or a refusal.
#[derive(Clone, Copy, PartialEq, Eq, PartialOrd, Ord)]
enum Told {
    Passes,
    Fails,
    Refused(u32),
}

#[derive(Default)]
pub struct Tried {
    calls: u64,
    answers: BTreeMap<Key, BTreeMap<Told, u64>>,
    /// A refusal, and another one that the same call deserves later; 0 where it deserves no other.
    beside: BTreeSet<(Key, u32, u32)>,
    /// How long the output list was, of calls that deserve no refusal but 10.
    rooms: BTreeSet<(Key, usize)>,
    /// Whether points were barred, and how many there are, of calls that were not refused.
    plans: BTreeSet<(Key, Told, bool, usize)>,
    lengths: BTreeSet<usize>,
}

impl Tried {
    pub fn note(
        &mut self,
        question: &Question,
        kind: Kind,
        answer: Result<usize, u32>,
        after: &[u8],
    ) {
        let Question { mark, rows, barred, walk, room } = question;
        let key = (kind, number(*mark));
        let told = match answer {
            Ok(length) if after[..length].ends_with(b" passes.") => Told::Passes,
            Ok(_) => Told::Fails,
            Err(number) => Told::Refused(number),
        };
        self.calls += 1;
        *self.answers.entry(key).or_default().entry(told).or_default() += 1;
        let deserved = faults(kind, *mark, rows, *barred, walk, *room);
        match deserved[..] {
            [] | [10] => {
                self.rooms.insert((key, *room));
            }
            [only] => {
                self.beside.insert((key, only, 0));
            }
            [first, ref later @ ..] => {
                self.beside.extend(later.iter().map(|&other| (key, first, other)));
            }
        }
        if let Ok(length) = answer {
            self.plans.insert((key, told, *barred != NONE_BARRED, rows.len()));
            self.lengths.insert(length);
        }
    }

    pub fn calls(&self) -> u64 {
        self.calls
    }

    /// What was not tried, in words.
    pub fn missing(&self) -> Option<String> {
        let keys = MARKS.into_iter().flat_map(|mark| KINDS.map(|kind| (kind, mark)));
        let lengths =
            self.lengths.first() == Some(&SHORTEST) && self.lengths.last() == Some(&LONGEST);
        let no_such_kind = MARKS
            .into_iter()
            .all(|mark| [7, 255].iter().all(|&kind| self.refuses_kind((kind, number(mark)), mark)));
        keys.into_iter()
            .find_map(|(kind, mark)| self.missing_of((kind, number(mark)), mark))
            .or((!lengths).then(|| "the shortest sentence or the longest".to_string()))
            .or((!no_such_kind).then(|| "a kind that there is not".to_string()))
    }

    fn missing_of(&self, key: Key, mark: Mark) -> Option<String> {
        let tests = [
            ("an answer", self.has_all_answers(key, mark)),
            ("two faults at once", self.has_all_pairs(key, mark)),
            ("an output list", self.has_all_rooms(key)),
            ("a plan", self.has_all_plans(key)),
        ];
        let missing = tests.into_iter().find(|(_, is_there)| !is_there);
        missing.map(|(name, _)| format!("{name}, kind {}, mark {}", key.0, key.1))
    }

    /// A pass, a failure, and each refusal that is possible; none but these.
    fn has_all_answers(&self, key: Key, mark: Mark) -> bool {
        let possible: BTreeSet<Told> = [Told::Passes, Told::Fails]
            .into_iter()
            .chain(refusals(mark).into_iter().map(Told::Refused))
            .collect();
        self.answers.get(&key).is_some_and(|seen| seen.keys().eq(&possible))
    }

    /// Each refusal, with each other one that could have been answered later.
    fn has_all_pairs(&self, key: Key, mark: Mark) -> bool {
        let order = refusals(mark);
        let come = |i: usize, j: usize| {
            let (first, other) = (order[i], order[j]);
            IMPOSSIBLE.contains(&(first, other)) || self.beside.contains(&(key, first, other))
        };
        (0..order.len()).all(|j| (0..j).all(|i| come(i, j)))
    }

    /// Output lists that are just long enough, longer, too short by one byte, and empty.
    fn has_all_rooms(&self, key: Key) -> bool {
        [0, ROOM - 1, ROOM, ROOM + 1].iter().all(|&room| self.rooms.contains(&(key, room)))
    }

    /// With points barred and with none: a walk that passes and one that fails, on a small plan and on 64 points. And no
    /// points.
    fn has_all_plans(&self, key: Key) -> bool {
        let has = |told: Told, barring: bool, small: bool| {
            self.plans.iter().any(|&(own, own_told, own_barring, n)| {
                own == key && own_told == told && own_barring == barring && (n < MOST) == small
            })
        };
        let each = |barring: bool, small: bool| {
            [Told::Passes, Told::Fails].iter().all(|&told| has(told, barring, small))
        };
        [false, true].iter().all(|&barring| each(barring, false) && each(barring, true))
            && self.plans.contains(&(key, Told::Passes, false, 0))
    }

    /// Every call with this kind was refused with 1, some though nothing else was wrong, and some beside each later
    /// refusal.
    fn refuses_kind(&self, key: Key, mark: Mark) -> bool {
        let beside = |other: u32| self.beside.contains(&(key, 1, other));
        self.answers.get(&key).is_some_and(|seen| seen.keys().eq(&[Told::Refused(1)]))
            && beside(0)
            && refusals(mark).into_iter().all(beside)
    }

    /// Prints the group's line, and how often each answer came, for any kind and mark.
    pub fn print(&self) {
        println!("p, sentences: {} calls", self.calls);
        let mut times: BTreeMap<Told, u64> = BTreeMap::new();
        for seen in self.answers.values() {
            seen.iter().for_each(|(told, count)| *times.entry(*told).or_default() += count);
        }
        let each = times.iter().map(|(told, count)| match told {
            Told::Passes => format!("passes {count} times"),
            Told::Fails => format!("fails {count} times"),
            Told::Refused(number) => format!("refusal {number} {count} times"),
        });
        println!("   told {}", each.collect::<Vec<String>>().join(", "));
    }
}

/// The refusals that are possible, in their order.
fn refusals(mark: Mark) -> Vec<u32> {
    ORDER.into_iter().filter(|&number| number != 5 || mark == Mark::TwoWay).collect()
}
