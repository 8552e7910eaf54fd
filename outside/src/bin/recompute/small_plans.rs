//! Group c: every walk judged, over all plans of up to four points, two-way and one-way; every walk carried on by every
//! preference list, over all two-way plans of up to four points and all one-way plans of up to three. Then plans that
//! are refused because points lead to themselves. Nothing is barred here: group l bars points.

use outside::calls::{CarryOnCall, JudgeCall};
use outside::definition::{begins_run, Graph, Kind, Mark, KINDS, MARKS, NONE_BARRED};
use outside::graphs::{all_plans, all_with_self_links};
use outside::orderings::{all_partial, permutations};

use crate::comparison::Comparison;

/// Both entries refuse a point that leads to itself.
const SELF_LINK: u32 = 4;

pub fn compare() -> u64 {
    let two_way = [
        "c, small plans, every walk judged",
        "c, small plans, every walk carried on",
        "c, small plans, every full walk reversed",
    ];
    let one_way = [
        "c, small one-way plans, every walk judged",
        "c, small one-way plans, every walk carried on",
        "c, small one-way plans, every full walk reversed",
    ];
    compare_marked(Mark::TwoWay, 4, two_way) + compare_marked(Mark::OneWay, 3, one_way) + refused()
}

/// Walks over plans of up to four points are judged, and carried on over plans of up to `points`.
fn compare_marked(mark: Mark, points: usize, groups: [&'static str; 3]) -> u64 {
    let [mut judged, mut carried, mut reversed] = groups.map(Comparison::new);
    for (n, kind) in (0..=4).flat_map(|n| KINDS.map(|kind| (n, kind))) {
        for plan in all_plans(mark, n) {
            judge_all(&mut judged, kind, mark, &plan);
            if n <= points {
                carry_all(&mut carried, kind, mark, &plan);
                reverse_all(&mut reversed, kind, mark, &plan);
            }
        }
    }
    judged.finish() + carried.finish() + reversed.finish()
}

/// A walk passes exactly if a run begins with it.
fn judge_all(comparison: &mut Comparison, kind: Kind, mark: Mark, plan: &[u8]) {
    let graph = Graph::from_plan(plan);
    for walk in all_partial(graph.size()) {
        let call = JudgeCall { kind, mark, plan: plan.to_vec(), barred: NONE_BARRED, walk };
        if (comparison.judge(&call) == 0) != begins_run(kind, &graph, &call.walk) {
            let found = "a walk must pass exactly if a run begins with it";
            comparison.differ(&call, &[found.to_string()]);
        }
    }
}

/// Every start with every preference list, and an output list that is sometimes longer than it has to be.
pub fn carry_on_calls(kind: Kind, mark: Mark, plan: &[u8], barred: u64) -> Vec<CarryOnCall> {
    let n = plan.len() / 8;
    let mut calls = Vec::new();
    for (i, start) in all_partial(n).iter().enumerate() {
        for (j, tie_break) in permutations(n).into_iter().enumerate() {
            let mut output = start.clone();
            output.resize(n + (i + j) % 3, 200);
            let (plan, k) = (plan.to_vec(), start.len());
            calls.push(CarryOnCall { kind, mark, plan, barred, tie_break, output, k });
        }
    }
    calls
}

fn carry_all(comparison: &mut Comparison, kind: Kind, mark: Mark, plan: &[u8]) {
    for call in carry_on_calls(kind, mark, plan, NONE_BARRED) {
        comparison.carry_on(&call);
    }
}

/// A full walk passes exactly if its reverse, as preference list, brings it back.
fn reverse_all(comparison: &mut Comparison, kind: Kind, mark: Mark, plan: &[u8]) {
    let n = plan.len() / 8;
    for walk in permutations(n) {
        let tie_break: Vec<u8> = walk.iter().rev().copied().collect();
        let (plan, barred, output) = (plan.to_vec(), NONE_BARRED, vec![200; n]);
        let judged = JudgeCall { kind, mark, plan: plan.clone(), barred, walk: walk.clone() };
        let call = CarryOnCall { kind, mark, plan, barred, tie_break, output, k: 0 };
        let (_, output) = comparison.carry_on(&call);
        let passes = comparison.judge(&judged) == 0;
        if passes != (output == walk) {
            let found = format!("the reverse of {walk:?} must bring it back exactly if it passes");
            comparison.differ(&call, &[found]);
        }
    }
}

/// Plans on which a point leads to itself, for both entries.
fn refused() -> u64 {
    let mut comparison = Comparison::new("c, small plans with points that lead to themselves");
    for plan in (1..=3).flat_map(all_with_self_links) {
        let points: Vec<u8> = (0..plan.len() as u8 / 8).collect();
        for (kind, mark) in KINDS.into_iter().flat_map(|kind| MARKS.map(|mark| (kind, mark))) {
            let (plan, barred, walk) = (plan.clone(), NONE_BARRED, points.clone());
            let call = JudgeCall { kind, mark, plan: plan.clone(), barred, walk };
            comparison.expect_judge(&call, SELF_LINK);
            let (tie_break, output) = (points.clone(), vec![200; points.len()]);
            let call = CarryOnCall { kind, mark, plan, barred, tie_break, output, k: 0 };
            comparison.expect_carry_on(&call, (SELF_LINK, call.output.clone()));
        }
    }
    comparison.finish()
}
