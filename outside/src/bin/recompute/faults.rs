//! Group l, too: calls with points out of service and several faults at once. Every choice of faults is tried; the
//! answer is the refusal that comes first in the order of 01 and 02.

use outside::calls::{flip, CarryOnCall, JudgeCall};
use outside::definition::{failure_code, Kind, Mark, KINDS, MARKS};
use outside::graphs::plan;

use crate::comparison::Comparison;

/// Without point 2, which is linked to all others, the plan is a path in ascending order.
const LINKS: [(usize, usize); 13] = [
    (0, 1),
    (1, 3),
    (3, 4),
    (4, 5),
    (5, 6),
    (6, 7),
    (2, 0),
    (2, 1),
    (2, 3),
    (2, 4),
    (2, 5),
    (2, 6),
    (2, 7),
];

/// What the call answers because of the fault, and how the fault is made. No fault undoes another.
type Fault<Call> = (u32, fn(&mut Call));

/// In the order in which they are tried. The last one is no refusal: the walk fails.
const OF_JUDGE: [Fault<JudgeCall>; 11] = [
    (1, |call| call.kind = 7),
    (2, |call| call.plan.push(0)),
    (3, |call| flip(&mut call.plan, 3, 8)),
    (4, |call| flip(&mut call.plan, 1, 1)),
    (5, |call| flip(&mut call.plan, 6, 0)),
    (23, |call| call.barred |= 1 << 8),
    (6, |call| call.walk.resize(9, 6)),
    (8, |call| call.walk[0] = 8),
    (9, |call| call.walk[1] = call.walk[2]),
    (24, |call| call.walk[3] = 2),
    (failure_code(4, 7, 5), |call| call.walk[4] = 7),
];

/// In the order in which they are tried. The preference list names the barred point, which is no fault.
const OF_CARRY_ON: [Fault<CarryOnCall>; 15] = [
    (1, |call| call.kind = 7),
    (2, |call| call.plan.push(0)),
    (3, |call| flip(&mut call.plan, 3, 8)),
    (4, |call| flip(&mut call.plan, 1, 1)),
    (5, |call| flip(&mut call.plan, 6, 0)),
    (23, |call| call.barred |= 1 << 63),
    (6, |call| call.k = 9),
    (10, |call| call.output.truncate(7)),
    (7, |call| call.tie_break.truncate(7)),
    (8, |call| call.output[0] = 8),
    (8, |call| call.tie_break[0] = 8),
    (9, |call| call.output[1] = call.output[2]),
    (9, |call| call.tie_break[1] = call.tie_break[2]),
    (24, |call| call.output[3] = 2),
    (12, |call| call.output[4] = 7),
];

pub fn compare() -> u64 {
    let mut judged = Comparison::new("l, several faults at once, judged");
    let mut carried = Comparison::new("l, several faults at once, carried on");
    for (kind, mark) in KINDS.into_iter().flat_map(|kind| MARKS.map(|mark| (kind, mark))) {
        for (call, answer) in with_faults(&sound_judge(kind, mark), mark, &OF_JUDGE) {
            judged.expect_judge(&call, answer.unwrap_or(0));
        }
    }
    for mark in MARKS {
        carry_on_with_faults(&mut carried, mark);
    }
    judged.finish() + carried.finish()
}

/// The walk passes only because 2 is barred: BFS would have to place it before 3.
fn sound_judge(kind: Kind, mark: Mark) -> JudgeCall {
    JudgeCall { kind, mark, plan: plan(8, &LINKS), barred: 1 << 2, walk: vec![0, 1, 3, 4, 5] }
}

fn sound_carry_on(kind: Kind, mark: Mark) -> CarryOnCall {
    let JudgeCall { plan, barred, walk, .. } = sound_judge(kind, mark);
    let tie_break = vec![7, 6, 5, 4, 3, 2, 1, 0];
    let k = walk.len();
    let output = [&walk[..], &[201, 202, 203, 204]].concat();
    CarryOnCall { kind, mark, plan, barred, tie_break, output, k }
}

/// Every choice of faults, with the answer because of the first of them. On a one-way plan 5 is no fault.
fn with_faults<Call: Clone>(
    sound: &Call,
    mark: Mark,
    faults: &[Fault<Call>],
) -> Vec<(Call, Option<u32>)> {
    let refused = |number: u32| number != 5 || mark == Mark::TwoWay;
    let with = |choice: u32| {
        let mut call = sound.clone();
        let chosen = (0..faults.len()).filter(|&i| choice >> i & 1 == 1).map(|i| faults[i]);
        chosen.clone().for_each(|(_, make)| make(&mut call));
        (call, chosen.map(|(number, _)| number).find(|&number| refused(number)))
    };
    (0..1 << faults.len()).map(with).collect()
}

/// The kinds take turns.
fn carry_on_with_faults(comparison: &mut Comparison, mark: Mark) {
    for (i, kind) in KINDS.into_iter().enumerate() {
        let calls = with_faults(&sound_carry_on(kind, mark), mark, &OF_CARRY_ON);
        for (call, answer) in calls.into_iter().skip(i).step_by(KINDS.len()) {
            let after = match answer {
                Some(_) => call.output.clone(),
                None => vec![0, 1, 3, 4, 5, 6, 7, 203, 204],
            };
            comparison.expect_carry_on(&call, (answer.unwrap_or(0), after));
        }
    }
}
