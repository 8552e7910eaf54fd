//! Whether what group o has tried is enough: each answer of each call with each kind and mark, each case of 26 by itself,
//! each refusal beside each that could have been answered later, all small plans and the largest ones, and output lists
//! of every length that matters.

use std::collections::BTreeSet;

use outside::definition::neighbour_lists::MOST;
use outside::definition::{Mark, FAILED, KINDS, MARKS};
use outside::graphs;
use outside::orderings;

use super::{name_of, Call, Key, Tried, CASES};
use crate::open_walks::number;

/// All plans of so many points at most, two-way and one-way, are converted; with three points at most they are judged
/// with all full walks.
const CONVERTED: [(Mark, usize); 2] = [(Mark::TwoWay, 4), (Mark::OneWay, 3)];
const JUDGED: usize = 3;

/// The refusals in their order.
const TO_LISTS: [u32; 5] = [2, 3, 4, 5, 10];
const TO_ROWS: [u32; 5] = [2, 26, 4, 5, 10];
const JUDGE: [u32; 9] = [2, 26, 4, 5, 23, 6, 8, 9, 24];

/// No word has a bit at or above 65, so 3 and 23 do not come beside 2.
const IMPOSSIBLE: [(u32, u32); 2] = [(2, 3), (2, 23)];

impl Tried {
    /// What was not tried, in words.
    pub fn missing(&self) -> Option<String> {
        let each = MARKS.into_iter().flat_map(|mark| {
            let calls = [Call::ToLists, Call::ToRows].into_iter();
            calls.chain(KINDS.map(Call::Judge)).map(move |call| (call, mark))
        });
        let no_such_kind = MARKS.iter().any(|&mark| {
            [7, 255].iter().any(|&kind| !self.refuses_kind((Call::Judge(kind), number(mark))))
        });
        each.into_iter()
            .find_map(|(call, mark)| self.missing_of(call, mark))
            .or(no_such_kind.then(|| "a kind that there is not".to_string()))
    }

    fn missing_of(&self, call: Call, mark: Mark) -> Option<String> {
        let key = (call, number(mark));
        let tests = [
            ("an answer", self.has_all_answers(key, mark)),
            ("two faults at once", self.has_all_pairs(key, mark)),
            ("a case of 26", call == Call::ToLists || self.has_all_cases(key)),
            ("a size", self.has_all_sizes(key)),
            ("a small plan", self.has_all_plans(key, mark)),
            ("an output list", self.has_all_rooms(key)),
            ("a walk", self.has_all_walks(key)),
        ];
        let missing = tests.into_iter().find(|(_, is_there)| !is_there);
        missing.map(|(name, _)| format!("{name}, {}, mark {}", name_of(call), key.1))
    }

    /// Each refusal, 5 only for two-way plans, and each other answer; none but these.
    fn has_all_answers(&self, key: Key, mark: Mark) -> bool {
        let mut possible: BTreeSet<u32> = refusals(key.0, mark).into_iter().collect();
        possible.insert(0);
        if matches!(key.0, Call::Judge(_)) {
            possible.insert(FAILED);
        }
        self.answers.get(&key).is_some_and(|seen| seen.keys().eq(&possible))
    }

    /// Each refusal, with each other one that could have been answered later.
    fn has_all_pairs(&self, key: Key, mark: Mark) -> bool {
        let order = refusals(key.0, mark);
        let come = |i: usize, j: usize| {
            let (first, other) = (order[i], order[j]);
            IMPOSSIBLE.contains(&(first, other)) || self.beside.contains(&(key, first, other))
        };
        (0..order.len()).all(|j| (0..j).all(|i| come(i, j)))
    }

    /// Each case of 26 alone.
    fn has_all_cases(&self, key: Key) -> bool {
        CASES.iter().all(|case| self.cases.contains(&(key, case)))
    }

    /// No points, one, and 64, the latter without a link and with every one.
    fn has_all_sizes(&self, key: Key) -> bool {
        let has_plan = |rows: Vec<u64>| self.plans.contains(&(key, rows));
        let all_linked = (0..MOST).map(|u| !(1 << u)).collect();
        [0, 1, MOST].iter().all(|&n| has_plan(vec![0; n])) && has_plan(all_linked)
    }

    /// All small plans, and judged with all full walks.
    fn has_all_plans(&self, key: Key, mark: Mark) -> bool {
        let most = CONVERTED.iter().find(|(own, _)| *own == mark).map_or(0, |(_, most)| *most);
        let all_plans = |most: usize| (0..=most).flat_map(|n| graphs::all_plans(mark, n));
        let has_plan = |plan: Vec<u8>| self.plans.contains(&(key, rows(&plan)));
        let has_walks = |plan: Vec<u8>| {
            let rows = rows(&plan);
            let mut walks = orderings::permutations(rows.len()).into_iter();
            walks.all(|walk| self.walks.contains(&(key, rows.clone(), walk)))
        };
        all_plans(most).all(has_plan)
            && (!matches!(key.0, Call::Judge(_)) || all_plans(JUDGED).all(has_walks))
    }

    /// Output lists that are just long enough, longer, and too short by one entry: of offsets or rows, of neighbours.
    fn has_all_rooms(&self, key: Key) -> bool {
        let has = |wanted: fn(isize, isize) -> bool| {
            self.rooms.iter().any(|&(own, first, second)| own == key && wanted(first, second))
        };
        match key.0 {
            Call::ToLists => {
                has(|offsets, neighbours| offsets == 0 && neighbours == 0)
                    && has(|offsets, neighbours| offsets > 0 && neighbours > 0)
                    && has(|offsets, neighbours| offsets == -1 && neighbours >= 0)
                    && has(|offsets, neighbours| offsets >= 0 && neighbours == -1)
                    && has(|offsets, neighbours| offsets < 0 && neighbours < 0)
            }
            Call::ToRows => {
                has(|rows, _| rows == 0) && has(|rows, _| rows > 0) && has(|rows, _| rows == -1)
            }
            Call::Judge(_) => true,
        }
    }

    /// With points barred and with none: a walk that passes and one that fails, on a small plan and on 64 points.
    fn has_all_walks(&self, key: Key) -> bool {
        let has = |barring: bool, small: bool, answer: u32| {
            self.judged.iter().any(|&(own, own_barring, n, own_answer)| {
                own == key && own_barring == barring && (n < 10) == small && own_answer == answer
            })
        };
        let each = |barring: bool, small: bool| {
            [0, FAILED].iter().all(|&answer| has(barring, small, answer))
        };
        !matches!(key.0, Call::Judge(_))
            || [false, true].iter().all(|&barring| each(barring, false) && each(barring, true))
    }

    /// Every call with this kind was refused with 1, some though everything else was wrong, too.
    fn refuses_kind(&self, key: Key) -> bool {
        let later = refusals(key.0, Mark::OneWay);
        self.answers.get(&key).is_some_and(|seen| seen.keys().eq(&[1]))
            && later.iter().all(|&other| self.beside.contains(&(key, 1, other)))
    }
}

fn rows(plan: &[u8]) -> Vec<u64> {
    let row = |bytes: &[u8]| u64::from_le_bytes(bytes.try_into().expect("eight bytes a row"));
    plan.chunks_exact(8).map(row).collect()
}

/// The refusals that are possible, in their order.
fn refusals(call: Call, mark: Mark) -> Vec<u32> {
    let order: &[u32] = match call {
        Call::ToLists => &TO_LISTS,
        Call::ToRows => &TO_ROWS,
        Call::Judge(_) => &JUDGE,
    };
    order.iter().copied().filter(|&number| number != 5 || mark == Mark::TwoWay).collect()
}
