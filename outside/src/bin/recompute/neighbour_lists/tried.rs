//! What group o has tried: which answers came from which call, with which kind and mark, on which plans, and with which
//! faults beside the one that was answered.

use std::collections::{BTreeMap, BTreeSet};

use outside::definition::neighbour_lists::{
    judge_faults, lists_faults, lists_of, malformed, rows_faults, rows_of, Lists,
};
use outside::definition::{Kind, Mark, FAILED, NONE_BARRED};

use crate::open_walks::number;

mod enough;

/// A call: a conversion, or judge for a kind.
#[derive(Clone, Copy, PartialEq, Eq, PartialOrd, Ord)]
enum Call {
    ToLists,
    ToRows,
    Judge(Kind),
}

/// A call on a plan of a mark.
type Key = (Call, u8);

/// The cases of 26. The last offset may be too small or too large; a neighbour may stand there twice or before a smaller
/// one.
const CASES: [&str; 8] = [
    "no offset",
    "a first offset",
    "falling offsets",
    "a last offset too small",
    "a last offset too large",
    "a neighbour twice",
    "falling neighbours",
    "a neighbour outside",
];

#[derive(Default)]
pub struct Tried {
    calls: u64,
    /// How often each answer came; 0 for done and for a walk that passes, `FAILED` for one that fails.
    answers: BTreeMap<Key, BTreeMap<u32, u64>>,
    /// A refusal, and another one that the same call deserves later.
    beside: BTreeSet<(Key, u32, u32)>,
    /// What is malformed, where nothing else is.
    cases: BTreeSet<(Key, &'static str)>,
    /// By how much the room was too small or too large for the offsets or the rows, and for the neighbours, where
    /// nothing else was wrong.
    rooms: BTreeSet<(Key, isize, isize)>,
    /// The plans of calls that were not refused.
    plans: BTreeSet<(Key, Vec<u64>)>,
    /// The walks that were judged with nothing barred, and their plans.
    walks: BTreeSet<(Key, Vec<u64>, Vec<u8>)>,
    /// Whether points were barred, how many there are, and the answer, of calls that were not refused.
    judged: BTreeSet<(Key, bool, usize, u32)>,
}

fn difference(room: usize, needed: usize) -> isize {
    room as isize - needed as isize
}

impl Tried {
    fn enter(&mut self, key: Key, answer: u32, faults: &[u32]) {
        self.calls += 1;
        *self.answers.entry(key).or_default().entry(answer.min(FAILED)).or_default() += 1;
        self.beside.extend(faults.iter().skip(1).map(|&other| (key, faults[0], other)));
    }

    pub fn note_lists(&mut self, mark: Mark, rows: &[u64], room: &Lists, refused: Option<&u32>) {
        let key = (Call::ToLists, number(mark));
        let (offsets, neighbours) = (room.offsets.len(), room.neighbours.len());
        self.enter(
            key,
            refused.copied().unwrap_or(0),
            &lists_faults(mark, rows, offsets, neighbours),
        );
        if matches!(refused, None | Some(10)) {
            let needed = lists_of(rows);
            self.rooms.insert((
                key,
                difference(offsets, needed.offsets.len()),
                difference(neighbours, needed.neighbours.len()),
            ));
        }
        if refused.is_none() {
            self.plans.insert((key, rows.to_vec()));
        }
    }

    pub fn note_rows(&mut self, mark: Mark, lists: &Lists, room: usize, refused: Option<&u32>) {
        let key = (Call::ToRows, number(mark));
        self.enter(key, refused.copied().unwrap_or(0), &rows_faults(mark, lists, room));
        if matches!(refused, None | Some(10)) {
            self.rooms.insert((key, difference(room, lists.size()), 0));
        }
        match refused {
            Some(26) => self.cases.extend(only_case(lists).map(|case| (key, case))),
            None => {
                self.plans.insert((key, rows_of(lists)));
            }
            _ => {}
        }
    }

    pub fn note_judged(
        &mut self,
        kind: Kind,
        mark: Mark,
        lists: &Lists,
        barred: u64,
        walk: &[u8],
        answer: u32,
    ) {
        let key = (Call::Judge(kind), number(mark));
        self.enter(key, answer, &judge_faults(kind, mark, lists, barred, walk));
        if answer == 26 {
            self.cases.extend(only_case(lists).map(|case| (key, case)));
        }
        if !(1..FAILED).contains(&answer) {
            let rows = rows_of(lists);
            self.plans.insert((key, rows.clone()));
            self.judged.insert((key, barred != NONE_BARRED, rows.len(), answer.min(FAILED)));
            if barred == NONE_BARRED {
                self.walks.insert((key, rows, walk.to_vec()));
            }
        }
    }

    pub fn calls(&self) -> u64 {
        self.calls
    }

    /// Prints the group's line, and how often each answer came, for any kind and mark.
    pub fn print(&self) {
        println!("o, neighbour lists: {} calls", self.calls);
        for name in ["to lists", "to rows", "judge"] {
            let mut times: BTreeMap<u32, u64> = BTreeMap::new();
            for ((call, _), seen) in &self.answers {
                if name_of(*call) == name {
                    seen.iter()
                        .for_each(|(answer, count)| *times.entry(*answer).or_default() += count);
                }
            }
            let each = times.iter().map(|(answer, count)| match *answer {
                0 => format!("0 {count} times"),
                FAILED => format!("a triple {count} times"),
                _ => format!("refusal {answer} {count} times"),
            });
            println!("   {name} answered {}", each.collect::<Vec<String>>().join(", "));
        }
    }
}

fn name_of(call: Call) -> &'static str {
    match call {
        Call::ToLists => "to lists",
        Call::ToRows => "to rows",
        Call::Judge(_) => "judge",
    }
}

/// The case of 26 that holds, if it is the only one.
fn only_case(lists: &Lists) -> Option<&'static str> {
    let cases = malformed(lists);
    let holding: Vec<usize> = (0..cases.len()).filter(|&case| cases[case]).collect();
    let last = lists.offsets.last().map_or(0, |&last| last as usize);
    let twice = |u: usize| lists.of(u).windows(2).any(|pair| pair[0] == pair[1]);
    let [case] = holding[..] else { return None };
    Some(match case {
        0..3 => CASES[case],
        3 => CASES[3 + usize::from(last > lists.neighbours.len())],
        4 => CASES[5 + usize::from(!(0..lists.size()).any(twice))],
        _ => CASES[7],
    })
}
