//! Times the library beside the implementation on bit sets, on the same inputs.
//!
//! Prints a markdown table for each set of inputs: nanoseconds for one call,
//! the best of several rounds in which the two take turns, and the ratio.
//! No point is barred.
//!
//!   inputs   plans with their walks and preference lists
//!   late     walks that fail at the second last point
//!   race     the timing
//!   report   the tables
//!   wide     the wide form, beside the narrow one and beside bit sets of eight words

mod inputs;
mod late;
mod race;
mod report;
mod wide;

use inputs::{cases, passing, Input, ROTATING, SIZES};
use late::failing_late;
use outside::definition::FAILED;
use outside::random::Random;
use outside::tables;
use race::{carry_on_all, check, judge_all, race, Pass, BIT_SETS, LIBRARY};
use report::Report;
use tables::Times;

fn main() {
    time_passing("One input", 1, 20_230_918);
    time_passing(tables::ROTATING, ROTATING, 20_230_919);
    time_failing_late("Judge on walks that fail late", 20_230_920);
    wide::time_beside_narrow("The wide form beside the narrow one", 20_230_921);
    wide::time_passing("The wide form, walks that pass", 20_230_922);
    wide::time_failing_late("The wide form, judge on walks that fail late", 20_230_923);
    println!("\\* Random graphs had no such walk: links of the second last vertex were removed.");
}

/// Both calls, on `count` inputs in turn whose walks pass.
fn time_passing(title: &str, count: usize, seed: u64) {
    let mut random = Random::new(seed);
    let mut report = Report::begin(title, ["judge", "carry-on"]);
    for case in cases(&SIZES) {
        let inputs: Vec<Input> = (0..count).map(|_| passing(&mut random, &case)).collect();
        check(&inputs, |answer| answer == 0);
        report.row(&case, "", [times(judge_all, &inputs), times(carry_on_all, &inputs)]);
    }
    report.end();
}

/// Judge, on one walk that fails late and on 64 of them in turn.
fn time_failing_late(title: &str, seed: u64) {
    let mut random = Random::new(seed);
    let mut report = Report::begin(title, ["one walk", "64 walks"]);
    for case in cases(&SIZES) {
        let (inputs, altered): (Vec<Input>, Vec<bool>) =
            (0..ROTATING).map(|_| failing_late(&mut random, &case)).unzip();
        check(&inputs, |answer| answer >= FAILED);
        let mark = if altered.contains(&true) { "*" } else { "" };
        report.row(&case, mark, [times(judge_all, &inputs[..1]), times(judge_all, &inputs)]);
    }
    report.end();
}

fn times(pass: Pass, inputs: &[Input]) -> Times {
    let [library, bit_sets] = race(&[LIBRARY, BIT_SETS], pass, inputs);
    Times { library, bit_sets }
}
