//! What group q has tried: which answers came on plans of which size and mark, for which kind, and how many calls were
//! made in the narrow form, too.

use std::collections::{BTreeMap, BTreeSet};

use outside::definition::wide::{Verdict, MOST, WORDS};
use outside::definition::{Kind, KINDS, KIND_NAMES, MARKS};

use super::Plan;
use crate::open_walks::number;

/// Around the ends of words, and at the most.
const SIZES: [usize; 7] = [63, 64, 65, 128, 511, 512, 513];

/// Where every kind must pass and fail.
const SIZES_OF_KINDS: [usize; 2] = [65, 512];

const JUDGE_REFUSALS: [u32; 8] = [1, 2, 3, 4, 5, 6, 8, 9];
const CARRY_ON_REFUSALS: [u32; 11] = [1, 2, 3, 4, 5, 6, 10, 7, 8, 9, 12];

/// What was told: by judge a pass, a failure or a refusal, by carry-on that it is done or a refusal.
#[derive(Clone, Copy, PartialEq, Eq, PartialOrd, Ord)]
enum Told {
    Passes,
    Fails,
    JudgeRefuses(u32),
    Done,
    CarryOnRefuses(u32),
}

#[derive(Default)]
pub struct Tried {
    calls: u64,
    narrow: u64,
    answers: BTreeMap<Told, u64>,
    /// The number of points, the mark and what was told.
    sizes: BTreeSet<(usize, u8, Told)>,
    /// The number of points, the kind and what was told.
    kinds: BTreeSet<(usize, Kind, Told)>,
    /// What was told on plans in several pieces.
    in_pieces: BTreeSet<Told>,
}

impl Tried {
    fn note(&mut self, plan: &Plan, kind: Kind, told: Told, compared: bool) {
        let n = plan.table.len() / WORDS;
        self.calls += 1;
        self.narrow += compared as u64;
        *self.answers.entry(told).or_default() += 1;
        self.sizes.insert((n, number(plan.mark), told));
        self.kinds.insert((n, kind, told));
        if plan.pieces > 1 && n > 1 {
            self.in_pieces.insert(told);
        }
    }

    pub fn judged(&mut self, plan: &Plan, kind: Kind, verdict: Verdict, compared: bool) {
        let told = match verdict {
            Verdict::Passes => Told::Passes,
            Verdict::Fails(_) => Told::Fails,
            Verdict::Refused(number) => Told::JudgeRefuses(number),
        };
        self.note(plan, kind, told, compared);
    }

    pub fn carried_on(&mut self, plan: &Plan, kind: Kind, answer: Result<(), u32>, compared: bool) {
        let told = answer.map_or_else(Told::CarryOnRefuses, |()| Told::Done);
        self.note(plan, kind, told, compared);
    }

    pub fn calls(&self) -> u64 {
        self.calls
    }

    /// What was not tried, in words.
    pub fn missing(&self) -> Option<String> {
        self.missing_size()
            .or_else(|| self.missing_refusal())
            .or_else(|| self.missing_kind())
            .or_else(|| self.missing_plan())
    }

    /// On plans of each size and mark both calls; they are refused with 2 on more than 512 points, else not.
    fn missing_size(&self) -> Option<String> {
        let needed = |n: usize| {
            if n > MOST {
                [Told::JudgeRefuses(2), Told::CarryOnRefuses(2)]
            } else {
                [Told::Passes, Told::Done]
            }
        };
        let missing = |n: usize, mark: u8| {
            needed(n).into_iter().find(|&told| !self.sizes.contains(&(n, mark, told)))
        };
        SIZES.into_iter().find_map(|n| {
            MARKS.into_iter().map(number).find_map(|mark| {
                let told = missing(n, mark)?;
                Some(format!("{n} points, mark {mark}: {}", name(told)))
            })
        })
    }

    fn missing_refusal(&self) -> Option<String> {
        let by_judge = JUDGE_REFUSALS.into_iter().map(Told::JudgeRefuses);
        let by_carry_on = CARRY_ON_REFUSALS.into_iter().map(Told::CarryOnRefuses);
        by_judge.chain(by_carry_on).find(|told| !self.answers.contains_key(told)).map(name)
    }

    /// A pass and a failure for each kind.
    fn missing_kind(&self) -> Option<String> {
        SIZES_OF_KINDS.into_iter().find_map(|n| {
            KINDS.into_iter().find_map(|kind| {
                let of_kind = |told: &Told| !self.kinds.contains(&(n, kind, *told));
                let told = [Told::Passes, Told::Fails].into_iter().find(of_kind)?;
                Some(format!("{}, {n} points: {}", KIND_NAMES[kind as usize], name(told)))
            })
        })
    }

    /// A walk that passes and a carry-on that is done, on two pieces and on no points.
    fn missing_plan(&self) -> Option<String> {
        let no_points = |told: Told| self.kinds.iter().any(|&(n, _, own)| n == 0 && own == told);
        let needed = [Told::Passes, Told::Done];
        let pieces = needed.into_iter().find(|told| !self.in_pieces.contains(told));
        let empty = needed.into_iter().find(|&told| !no_points(told));
        pieces
            .map(|told| format!("two pieces: {}", name(told)))
            .or(empty.map(|told| format!("no points: {}", name(told))))
    }

    /// Prints the group's line, and how often each answer came.
    pub fn print(&self) {
        println!(
            "q, wide plans: {} calls, {} of them in the narrow form, too",
            self.calls, self.narrow
        );
        let each =
            self.answers.iter().map(|(&told, count)| format!("{} {count} times", name(told)));
        println!("   told {}", each.collect::<Vec<String>>().join(", "));
    }
}

fn name(told: Told) -> String {
    match told {
        Told::Passes => "judge passes".to_string(),
        Told::Fails => "judge fails".to_string(),
        Told::JudgeRefuses(number) => format!("judge refuses with {number}"),
        Told::Done => "carry-on is done".to_string(),
        Told::CarryOnRefuses(number) => format!("carry-on refuses with {number}"),
    }
}
