//! Group l: points out of service. With every set of barred points, over all two-way plans of up to four points and all
//! one-way plans of up to three: every walk judged; every walk carried on by every preference list; and every walk over
//! all points that are not barred brought back by its reverse.
//!
//! The definitions remove the barred points and renumber the others. Here the answers are also stated without that,
//! from the whole plan.

use outside::barred_sets::{self, set};
use outside::calls::{CarryOnCall, JudgeCall};
use outside::definition::without::is_barred;
use outside::definition::{completed, first_violation, first_violation_where, label, outranks};
use outside::definition::{failure_code, Graph, Kind, Mark, Vertex, KINDS, NONE_BARRED};
use outside::graphs::all_plans;
use outside::orderings::{all_partial, permutations};

use crate::comparison::Comparison;
use crate::small_plans::carry_on_calls;

const NAMES_A_BARRED_POINT: u32 = 24;
const START_FAILS: u32 = 12;

pub fn compare() -> u64 {
    let two_way = [
        "l, points out of service, every walk judged",
        "l, points out of service, every walk carried on",
        "l, points out of service, every walk over the others reversed",
    ];
    let one_way = [
        "l, points out of service on one-way plans, every walk judged",
        "l, points out of service on one-way plans, every walk carried on",
        "l, points out of service on one-way plans, every walk over the others reversed",
    ];
    compare_marked(Mark::TwoWay, 4, two_way) + compare_marked(Mark::OneWay, 3, one_way)
}

/// All plans of up to `points` points.
fn compare_marked(mark: Mark, points: usize, groups: [&'static str; 3]) -> u64 {
    let [mut judged, mut carried, mut reversed] = groups.map(Comparison::new);
    for plan in (0..=points).flat_map(|n| all_plans(mark, n)) {
        for kind in KINDS {
            for barred in barred_sets::all(plan.len() / 8) {
                judge_all(&mut judged, kind, mark, &plan, barred);
                carry_all(&mut carried, kind, mark, &plan, barred);
            }
            reverse_all(&mut reversed, kind, mark, &plan);
        }
    }
    judged.finish() + carried.finish() + reversed.finish()
}

// ---- The answers, from the whole plan ----

fn names_barred(barred: u64, walk: &[u8]) -> bool {
    walk.iter().any(|&v| is_barred(barred, v as Vertex))
}

/// Judge's answer. With nothing barred it is the plan's first triple. Otherwise it is the first of the plan's triples
/// whose c is not barred: a and b are placed, and so is each point that could excuse b, so none of these is barred.
/// That the others are renumbered does not matter, since it keeps their order.
fn judge_answer(kind: Kind, graph: &Graph, barred: u64, walk: &[u8]) -> u32 {
    if names_barred(barred, walk) {
        return NAMES_A_BARRED_POINT;
    }
    let triple = match barred {
        NONE_BARRED => first_violation(kind, graph, walk),
        _ => first_violation_where(kind, graph, walk, |c| !is_barred(barred, c)),
    };
    triple.map_or(0, |(a, b, c)| failure_code(a, b, c))
}

/// The walk carried on over the whole plan, where barred points are neither placed nor ahead of any.
fn completed_beside(
    kind: Kind,
    graph: &Graph,
    barred: u64,
    tie_break: &[u8],
    walk: &[u8],
) -> Vec<u8> {
    let mut ordering = walk.to_vec();
    loop {
        let unplaced = |v: &&u8| !ordering.contains(v) && !is_barred(barred, **v as Vertex);
        let labelled: Vec<(u8, Vec<bool>)> = tie_break
            .iter()
            .filter(unplaced)
            .map(|&v| (v, label(graph, &ordering, v as Vertex)))
            .collect();
        let none_ahead = |b: &[bool]| !labelled.iter().any(|(_, c)| outranks(kind, c, b));
        match labelled.iter().rfind(|(_, b)| none_ahead(b)) {
            Some(&(v, _)) => ordering.push(v),
            None => return ordering,
        }
    }
}

/// Carry-on's answer and the output list, for a call that only 12 or 24 could refuse. With nothing barred the walk is
/// completed by the rule for the whole plan.
fn carry_on_answer(call: &CarryOnCall) -> (u32, Vec<u8>) {
    let CarryOnCall { kind, plan, barred, tie_break, output, k, .. } = call;
    let graph = Graph::from_plan(plan);
    let start = &output[..*k];
    let mut after = output.clone();
    match judge_answer(*kind, &graph, *barred, start) {
        0 => {}
        NAMES_A_BARRED_POINT => return (NAMES_A_BARRED_POINT, after),
        _ => return (START_FAILS, after),
    }
    let walk = match *barred {
        NONE_BARRED => completed(*kind, &graph, tie_break, start),
        _ => completed_beside(*kind, &graph, *barred, tie_break, start),
    };
    after[..walk.len()].copy_from_slice(&walk);
    (0, after)
}

// ---- All small plans ----

/// Every walk, those that name barred points among them.
fn judge_all(comparison: &mut Comparison, kind: Kind, mark: Mark, plan: &[u8], barred: u64) {
    let graph = Graph::from_plan(plan);
    for walk in all_partial(graph.size()) {
        let answer = judge_answer(kind, &graph, barred, &walk);
        let call = JudgeCall { kind, mark, plan: plan.to_vec(), barred, walk };
        comparison.expect_judge(&call, answer);
    }
}

/// Every start with every preference list.
fn carry_all(comparison: &mut Comparison, kind: Kind, mark: Mark, plan: &[u8], barred: u64) {
    for call in carry_on_calls(kind, mark, plan, barred) {
        comparison.expect_carry_on(&call, carry_on_answer(&call));
    }
}

/// Every preference list, with each number of points barred at its front: the walk over the others, in reverse, passes
/// exactly if carry-on from nothing brings it back.
fn reverse_all(comparison: &mut Comparison, kind: Kind, mark: Mark, plan: &[u8]) {
    let n = plan.len() / 8;
    let lists = permutations(n).into_iter();
    for (tie_break, front) in lists.flat_map(|list| (0..=n).map(move |front| (list.clone(), front)))
    {
        let barred = set(tie_break[..front].iter().map(|&v| v as Vertex));
        let walk: Vec<u8> = tie_break[front..].iter().rev().copied().collect();
        let (plan, output) = (plan.to_vec(), vec![200; n]);
        let judged = JudgeCall { kind, mark, plan: plan.clone(), barred, walk: walk.clone() };
        let call = CarryOnCall { kind, mark, plan, barred, tie_break, output, k: 0 };
        let (_, output) = comparison.carry_on(&call);
        let passes = comparison.judge(&judged) == 0;
        if passes != output.starts_with(&walk) {
            let found = format!("the list must bring {walk:?} back exactly if it passes");
            comparison.differ(&call, &[found]);
        }
    }
}
