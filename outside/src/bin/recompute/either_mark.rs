//! Group i: the same call under either mark, compared directly. Where every link goes both ways the two answers are
//! equal; else the two-way entry refuses with 5, and the one-way entry does not. What is tried before 5 is refused alike.
//! The plans of up to three points are tried with every set of barred points.

use outside::barred_sets;
use outside::calls::{
    damage_carry_on, damage_judge, random_carry_on, random_judge, CarryOnCall, JudgeCall,
};
use outside::definition::{Kind, Mark, FAILED, KINDS, MARKS};
use outside::graphs::{all_plans, goes_both_ways};
use outside::orderings::all_partial;
use outside::random::Random;

use crate::comparison::Comparison;
use crate::small_plans::carry_on_calls;

/// Rounds of calls on a two-way and on a one-way plan, sound and damaged.
const ROUNDS: usize = 4_000;

/// Each answer must come this often, or the calls try too little.
const ENOUGH: u64 = 100;

/// A link in one row and not in the other.
const ONE_WAY_LINK: u32 = 5;

pub fn compare() -> u64 {
    let mut judged = Comparison::new("i, walks judged under either mark");
    let mut carried = Comparison::new("i, walks carried on under either mark");
    for plan in (0..=3).flat_map(|n| all_plans(Mark::OneWay, n)) {
        for barred in barred_sets::all(plan.len() / 8) {
            for kind in KINDS {
                compare_all(&mut judged, &mut carried, kind, &plan, barred);
            }
        }
    }
    compare_random(&mut judged, &mut carried);
    let calls = judged.finish() + carried.finish();
    judged.coverage("judge", &[0, 1, 2, 3, 4, 5, 6, 8, 9, 23, 24, FAILED], ENOUGH);
    carried.coverage("carry-on", &[0, 1, 2, 3, 4, 5, 6, 7, 8, 9, 10, 12, 23, 24], ENOUGH);
    calls
}

/// Every walk judged, and every start carried on by every preference list.
fn compare_all(
    judged: &mut Comparison,
    carried: &mut Comparison,
    kind: Kind,
    plan: &[u8],
    barred: u64,
) {
    let mark = Mark::OneWay;
    for walk in all_partial(plan.len() / 8) {
        judge_both(judged, &JudgeCall { kind, mark, plan: plan.to_vec(), barred, walk });
    }
    for call in carry_on_calls(kind, mark, plan, barred) {
        carry_on_both(carried, &call);
    }
}

fn compare_random(judged: &mut Comparison, carried: &mut Comparison) {
    let mut random = Random::new(20_230_922);
    for _ in 0..ROUNDS {
        for mark in MARKS {
            let mut call = random_judge(&mut random, mark, barred_sets::any);
            judge_both(judged, &call);
            damage_judge(&mut random, &mut call);
            judge_both(judged, &call);
            let mut call = random_carry_on(&mut random, mark);
            carry_on_both(carried, &call);
            damage_carry_on(&mut random, &mut call);
            carry_on_both(carried, &call);
        }
    }
}

fn judge_both(comparison: &mut Comparison, call: &JudgeCall) {
    let under = |mark| JudgeCall { mark, ..call.clone() };
    let one_way = comparison.judge(&under(Mark::OneWay));
    let two_way = comparison.judge(&under(Mark::TwoWay));
    if one_way == ONE_WAY_LINK || two_way != two_way_answer(&call.plan, one_way) {
        comparison.differ(call, &[format!("one-way {one_way}, two-way {two_way}")]);
    }
}

fn carry_on_both(comparison: &mut Comparison, call: &CarryOnCall) {
    let under = |mark| CarryOnCall { mark, ..call.clone() };
    let (one_way, written) = comparison.carry_on(&under(Mark::OneWay));
    let (two_way, written_two_way) = comparison.carry_on(&under(Mark::TwoWay));
    let differs = two_way == one_way && written_two_way != written;
    if one_way == ONE_WAY_LINK || two_way != two_way_answer(&call.plan, one_way) || differs {
        comparison.differ(call, &[format!("one-way {one_way}, two-way {two_way}")]);
    }
}

/// The answer of the two-way entry, from that of the one-way entry.
fn two_way_answer(plan: &[u8], one_way: u32) -> u32 {
    match one_way {
        1..=4 => one_way,
        _ if goes_both_ways(plan) => one_way,
        _ => ONE_WAY_LINK,
    }
}
