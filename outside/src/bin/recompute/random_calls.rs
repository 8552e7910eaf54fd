//! Group d: random calls from a fixed seed, sound and damaged, on two-way and on one-way plans, mostly with barred
//! points.

use outside::barred_sets;
use outside::calls::{
    damage_carry_on, damage_judge, random_carry_on, random_judge, CarryOnCall, JudgeCall,
};
use outside::definition::{Mark, FAILED};
use outside::random::Random;

use crate::comparison::Comparison;

/// Rounds of five calls each, for either mark.
const ROUNDS: usize = 30_000;

/// Each answer must come this often, or the calls try too little.
const ENOUGH: u64 = 200;

pub fn compare() -> u64 {
    let two_way = ["d, random walks judged", "d, random walks carried on"];
    let (calls, judged, carried) = compare_marked(Mark::TwoWay, 20_230_917, two_way);
    judged.coverage("judge", &[0, 1, 2, 3, 4, 5, 6, 8, 9, 23, 24, FAILED], ENOUGH);
    carried.coverage("carry-on", &[0, 1, 2, 3, 4, 5, 6, 7, 8, 9, 10, 12, 23, 24], ENOUGH);
    let one_way = [
        "d, random walks over one-way plans judged",
        "d, random walks over one-way plans carried on",
    ];
    let (one_way_calls, judged, carried) = compare_marked(Mark::OneWay, 20_230_921, one_way);
    judged.coverage("judge", &[0, 1, 2, 3, 4, 6, 8, 9, 23, 24, FAILED], ENOUGH);
    carried.coverage("carry-on", &[0, 1, 2, 3, 4, 6, 7, 8, 9, 10, 12, 23, 24], ENOUGH);
    calls + one_way_calls
}

/// The number of calls, and what judge and carry-on answered.
fn compare_marked(
    mark: Mark,
    seed: u64,
    groups: [&'static str; 2],
) -> (u64, Comparison, Comparison) {
    let mut random = Random::new(seed);
    let [mut judged, mut carried] = groups.map(Comparison::new);
    for _ in 0..ROUNDS {
        let call = random_judge(&mut random, mark, barred_sets::any);
        judged.judge(&call);
        judge_damaged(&mut random, &mut judged, call);
        let call = random_carry_on(&mut random, mark);
        carry_on_and_judge(&mut judged, &mut carried, &call);
        carry_on_damaged(&mut random, &mut carried, call);
    }
    (judged.finish() + carried.finish(), judged, carried)
}

fn judge_damaged(random: &mut Random, judged: &mut Comparison, mut call: JudgeCall) {
    damage_judge(random, &mut call);
    judged.judge(&call);
}

fn carry_on_damaged(random: &mut Random, carried: &mut Comparison, mut call: CarryOnCall) {
    damage_carry_on(random, &mut call);
    carried.carry_on(&call);
}

/// What a carry-on reached is a walk over all points that are not barred, and it passes.
fn carry_on_and_judge(judged: &mut Comparison, carried: &mut Comparison, call: &CarryOnCall) {
    let (answer, output) = carried.carry_on(call);
    if answer == 0 {
        let CarryOnCall { kind, mark, plan, barred, .. } = call.clone();
        let walk = output[..plan.len() / 8 - barred.count_ones() as usize].to_vec();
        judged.expect_judge(&JudgeCall { kind, mark, plan, barred, walk }, 0);
    }
}
