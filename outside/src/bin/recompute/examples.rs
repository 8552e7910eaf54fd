//! Group a: the examples of 01, with its answers. What it says of "all", "the rest" or "the others" holds of MCS too.
//! Then examples on one-way plans and with points out of service, worked out by hand.

use outside::calls::{CarryOnCall, JudgeCall};
use outside::definition::{
    failure_code, Kind, Mark, BFS, DFS, GENERIC, KINDS, LEX_BFS, LEX_DFS, MCS, MNS, NONE_BARRED,
};
use outside::graphs::{one_way_plan, plan};

use crate::comparison::Comparison;

struct Example {
    size: usize,
    /// In a one-way plan, from the first point to the second.
    links: &'static [(usize, usize)],
    walk: &'static [u8],
    /// These fail with the triple, the others pass.
    failing: &'static [Kind],
    triple: (usize, usize, usize),
}

const P: &[(usize, usize)] = &[(0, 1), (0, 2), (1, 3)];
const C: &[(usize, usize)] = &[(0, 1), (1, 2), (2, 3), (0, 3)];

const EXAMPLES: [Example; 9] = [
    Example { size: 4, links: P, walk: &[0, 1, 2, 3], failing: &[DFS, LEX_DFS], triple: (1, 2, 3) },
    Example { size: 4, links: P, walk: &[0, 1, 3, 2], failing: &[BFS, LEX_BFS], triple: (0, 3, 2) },
    Example { size: 4, links: P, walk: &[2, 1], failing: &KINDS, triple: (2, 1, 0) },
    Example { size: 4, links: C, walk: &[0, 1, 2, 3], failing: &[BFS, LEX_BFS], triple: (0, 2, 3) },
    Example { size: 4, links: C, walk: &[0, 1, 3, 2], failing: &[DFS, LEX_DFS], triple: (1, 3, 2) },
    Example {
        size: 4,
        links: &[(0, 1), (0, 2), (0, 3), (1, 3)],
        walk: &[0, 1, 2, 3],
        failing: &[DFS, LEX_BFS, LEX_DFS, MNS, MCS],
        triple: (1, 2, 3),
    },
    Example {
        size: 4,
        links: &[(0, 1), (0, 3), (1, 2), (1, 3)],
        walk: &[0, 1, 2, 3],
        failing: &[BFS, LEX_BFS, LEX_DFS, MNS, MCS],
        triple: (0, 2, 3),
    },
    Example { size: 3, links: &[(0, 1)], walk: &[0, 2], failing: &KINDS, triple: (0, 2, 1) },
    Example { size: 3, links: &[(0, 1)], walk: &[2, 0, 1], failing: &[], triple: (0, 0, 0) },
];

/// P, each link from its smaller point to the larger one.
const DOWN: &[(usize, usize)] = P;
/// C, each link in one direction: round and round.
const ROUND: &[(usize, usize)] = &[(0, 1), (1, 2), (2, 3), (3, 0)];

const ONE_WAY: [Example; 9] = [
    Example {
        size: 4,
        links: DOWN,
        walk: &[0, 1, 2, 3],
        failing: &[DFS, LEX_DFS],
        triple: (1, 2, 3),
    },
    // 2 leads nowhere, so that any point may be next.
    Example { size: 4, links: DOWN, walk: &[2, 1], failing: &[], triple: (0, 0, 0) },
    Example { size: 4, links: DOWN, walk: &[2, 1, 0], failing: &KINDS, triple: (1, 0, 3) },
    Example { size: 4, links: ROUND, walk: &[2, 3, 0, 1], failing: &[], triple: (0, 0, 0) },
    Example { size: 4, links: ROUND, walk: &[2, 1], failing: &KINDS, triple: (2, 1, 3) },
    Example {
        size: 3,
        links: &[(0, 1), (2, 1)],
        walk: &[0, 2],
        failing: &KINDS,
        triple: (0, 2, 1),
    },
    // 0 would excuse 2 if it led to it.
    Example {
        size: 4,
        links: &[(0, 1), (2, 0), (1, 3)],
        walk: &[0, 1, 2, 3],
        failing: &KINDS,
        triple: (1, 2, 3),
    },
    // 0 excuses 2 in all kinds but DFS and LexDFS: that 3 leads to 0 does not matter.
    Example {
        size: 4,
        links: &[(0, 1), (0, 2), (3, 0), (1, 3)],
        walk: &[0, 1, 2, 3],
        failing: &[DFS, LEX_DFS],
        triple: (1, 2, 3),
    },
    // For MCS: before 2 is placed, one point leads to 2 and two lead to 3; 2 leads to two points and 3 to none.
    Example {
        size: 4,
        links: &[(0, 1), (0, 2), (0, 3), (1, 3), (2, 0), (2, 1)],
        walk: &[0, 1, 2, 3],
        failing: &[DFS, LEX_BFS, LEX_DFS, MNS, MCS],
        triple: (1, 2, 3),
    },
];

/// A set of barred points, and what is walked and answered without them.
const BARRED: [(u64, Example); 8] = [
    // P without 1 is 0-2 and 3.
    (1 << 1, Example { size: 4, links: P, walk: &[0, 2, 3], failing: &[], triple: (0, 0, 0) }),
    (1 << 1, Example { size: 4, links: P, walk: &[0, 3], failing: &KINDS, triple: (0, 3, 2) }),
    // C without 3 is the path 0, 1, 2; without 1 it is the path 0, 3, 2.
    (1 << 3, Example { size: 4, links: C, walk: &[0, 1, 2], failing: &[], triple: (0, 0, 0) }),
    (1 << 3, Example { size: 4, links: C, walk: &[0, 2], failing: &KINDS, triple: (0, 2, 1) }),
    (1 << 1, Example { size: 4, links: C, walk: &[0, 2], failing: &KINDS, triple: (0, 2, 3) }),
    // Opposite points have no link.
    (0b1010, Example { size: 4, links: C, walk: &[2, 0], failing: &[], triple: (0, 0, 0) }),
    (0b1111, Example { size: 4, links: C, walk: &[], failing: &[], triple: (0, 0, 0) }),
    // For MCS: before 2 is placed, 1 has two neighbours that are placed; 2 has one, and one that is barred.
    (
        1 << 4,
        Example {
            size: 5,
            links: &[(0, 1), (0, 2), (0, 3), (1, 3), (2, 4)],
            walk: &[0, 3, 2],
            failing: &[DFS, LEX_BFS, LEX_DFS, MNS, MCS],
            triple: (3, 2, 1),
        },
    ),
];

pub fn compare() -> u64 {
    let mut comparison = Comparison::new("a, examples of 01");
    let (two_way, none) = (Mark::TwoWay, NONE_BARRED);
    for example in &EXAMPLES {
        judge(&mut comparison, two_way, plan(example.size, example.links), none, example);
    }
    preferences(&mut comparison);
    sizes(&mut comparison);
    full_starts(&mut comparison);
    let mut one_way = Comparison::new("a, examples on one-way plans");
    for example in &ONE_WAY {
        let plan = one_way_plan(example.size, example.links);
        judge(&mut one_way, Mark::OneWay, plan, none, example);
    }
    round(&mut one_way);
    let mut barred = Comparison::new("a, examples with points out of service");
    for (set, example) in &BARRED {
        judge(&mut barred, two_way, plan(example.size, example.links), *set, example);
    }
    passed_over(&mut barred);
    comparison.finish() + one_way.finish() + barred.finish()
}

fn judge(comparison: &mut Comparison, mark: Mark, plan: Vec<u8>, barred: u64, example: &Example) {
    let (a, b, c) = example.triple;
    for kind in KINDS {
        let fails = example.failing.contains(&kind);
        let (plan, walk) = (plan.clone(), example.walk.to_vec());
        let call = JudgeCall { kind, mark, plan, barred, walk };
        comparison.expect_judge(&call, if fails { failure_code(a, b, c) } else { 0 });
    }
}

/// Once a point is placed, only the one that it leads to may be next.
fn round(comparison: &mut Comparison) {
    for kind in KINDS {
        let call = CarryOnCall {
            kind,
            mark: Mark::OneWay,
            plan: one_way_plan(4, ROUND),
            barred: NONE_BARRED,
            tie_break: vec![0, 1, 2, 3],
            output: vec![77; 4],
            k: 0,
        };
        comparison.expect_carry_on(&call, (0, vec![3, 0, 1, 2]));
    }
}

/// Barred points of the preference list are passed over, and the places for them stay. After 2, only 1 may be next.
fn passed_over(comparison: &mut Comparison) {
    for (kind, k) in KINDS.into_iter().flat_map(|kind| [0, 1, 3].map(|k| (kind, k))) {
        let mut output = vec![2, 1, 0, 77, 78];
        output[k..3].fill(76);
        let call = CarryOnCall {
            kind,
            mark: Mark::TwoWay,
            plan: plan(4, C),
            barred: 1 << 3,
            tie_break: vec![1, 0, 2, 3],
            output,
            k,
        };
        comparison.expect_carry_on(&call, (0, vec![2, 1, 0, 77, 78]));
    }
}

/// C with the preference list 3 2 1 0 and k = 0.
fn preferences(comparison: &mut Comparison) {
    for (kind, written) in [(BFS, [0, 1, 3, 2]), (DFS, [0, 1, 2, 3])] {
        let call = CarryOnCall {
            kind,
            mark: Mark::TwoWay,
            plan: plan(4, C),
            barred: NONE_BARRED,
            tie_break: vec![3, 2, 1, 0],
            output: vec![77; 4],
            k: 0,
        };
        comparison.expect_carry_on(&call, (0, written.to_vec()));
    }
}

/// n = 0 passes, n = 64 is judged, 65 rows are refusal 2.
fn sizes(comparison: &mut Comparison) {
    let chain: Vec<(usize, usize)> = (1..64).map(|v| (v - 1, v)).collect();
    let straight: Vec<u8> = (0..64).collect();
    for kind in KINDS {
        let (mark, barred) = (Mark::TwoWay, NONE_BARRED);
        let empty = JudgeCall { kind, mark, plan: Vec::new(), barred, walk: Vec::new() };
        comparison.expect_judge(&empty, 0);
        let full = JudgeCall { kind, mark, plan: plan(64, &chain), barred, walk: straight.clone() };
        comparison.expect_judge(&full, 0);
        let mut jump = straight[..62].to_vec();
        jump.push(63);
        let jump = JudgeCall { walk: jump, ..full };
        comparison.expect_judge(&jump, failure_code(61, 63, 62));
        let too_large = JudgeCall { kind, mark, plan: vec![0; 8 * 65], barred, walk: Vec::new() };
        comparison.expect_judge(&too_large, 2);
    }
}

/// k = n passes and writes nothing.
fn full_starts(comparison: &mut Comparison) {
    let starts: [(Kind, [u8; 4]); 7] = [
        (GENERIC, [0, 1, 2, 3]),
        (BFS, [0, 1, 3, 2]),
        (DFS, [0, 1, 2, 3]),
        (LEX_BFS, [0, 1, 3, 2]),
        (LEX_DFS, [0, 1, 2, 3]),
        (MNS, [0, 1, 2, 3]),
        (MCS, [0, 1, 2, 3]),
    ];
    let (mark, barred) = (Mark::TwoWay, NONE_BARRED);
    for (kind, start) in starts {
        for beyond in [0, 3] {
            let mut output = start.to_vec();
            output.resize(4 + beyond, 77);
            let unchanged = output.clone();
            let (plan, tie_break) = (plan(4, C), vec![3, 2, 1, 0]);
            let call = CarryOnCall { kind, mark, plan, barred, tie_break, output, k: 4 };
            comparison.expect_carry_on(&call, (0, unchanged));
        }
    }
    let none = Vec::new;
    for kind in KINDS {
        let (plan, tie_break, output) = (none(), none(), none());
        let call = CarryOnCall { kind, mark, plan, barred, tie_break, output, k: 0 };
        comparison.expect_carry_on(&call, (0, none()));
    }
}
