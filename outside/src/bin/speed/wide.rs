//! The wide form: on 64 points beside the narrow one, on more points beside bit sets of eight words.
//!
//!   inputs           plans with their walks and preference lists
//!   late             walks that fail at the second last point
//!   implementation   the library and the bit sets

mod implementation;
mod inputs;
mod late;

use outside::random::Random;
use outside::tables::Times;

use crate::inputs::cases;
use crate::race::{self, best_of_rounds};
use crate::report::Report;
use implementation::{carry_on_all, check, check_narrow, judge_all, Pass, BIT_SETS, LIBRARY};
use inputs::{narrow, passing, Input};
use late::failing_late;

/// Where both forms can be called.
const NARROW: [usize; 1] = [64];
const SIZES: [usize; 2] = [128, 512];

/// Fewer than in the narrow form: here a call takes up to some milliseconds.
const ROUNDS: usize = 30;
const ROTATING: usize = 4;

/// Failed walks of the wide form; 2^48 for the triple 0, 0, 0.
const FAILED: u64 = 1 << 48;

/// The library's wide form beside its narrow form, both calls, on inputs in turn whose walks pass.
pub fn time_beside_narrow(title: &str, seed: u64) {
    let mut random = Random::new(seed);
    let mut report = Report::begin_beside(title, ["judge", "carry-on"], "narrow");
    for case in cases(&NARROW) {
        let inputs: Vec<Input> =
            (0..crate::inputs::ROTATING).map(|_| passing(&mut random, &case)).collect();
        let narrow: Vec<crate::inputs::Input> = inputs.iter().map(narrow).collect();
        check(&inputs, |answer| answer == 0);
        check_narrow(&inputs, &narrow);
        let times = |wide: Pass, narrow_form: race::Pass| {
            let passes: [&dyn Fn(); 2] =
                [&|| wide(&LIBRARY, &inputs), &|| narrow_form(&race::LIBRARY, &narrow)];
            per_call(best_of_rounds(ROUNDS, passes), inputs.len())
        };
        let judge = times(judge_all, race::judge_all);
        report.row(&case, "", [judge, times(carry_on_all, race::carry_on_all)]);
    }
    report.end();
}

/// Both calls, on inputs in turn whose walks pass.
pub fn time_passing(title: &str, seed: u64) {
    let mut random = Random::new(seed);
    let mut report = Report::begin(title, ["judge", "carry-on"]);
    for case in cases(&SIZES) {
        let inputs: Vec<Input> = (0..ROTATING).map(|_| passing(&mut random, &case)).collect();
        check(&inputs, |answer| answer == 0);
        report.row(&case, "", [times(judge_all, &inputs), times(carry_on_all, &inputs)]);
    }
    report.end();
}

/// Judge, on one walk that fails late and on several of them in turn.
pub fn time_failing_late(title: &str, seed: u64) {
    let mut random = Random::new(seed);
    let mut report = Report::begin(title, ["one walk", "4 walks"]);
    for case in cases(&SIZES) {
        let (inputs, altered): (Vec<Input>, Vec<bool>) =
            (0..ROTATING).map(|_| failing_late(&mut random, &case)).unzip();
        check(&inputs, |answer| answer >= FAILED);
        let mark = if altered.contains(&true) { "*" } else { "" };
        report.row(&case, mark, [times(judge_all, &inputs[..1]), times(judge_all, &inputs)]);
    }
    report.end();
}

fn times(pass: Pass, inputs: &[Input]) -> Times {
    let passes: [&dyn Fn(); 2] = [&|| pass(&LIBRARY, inputs), &|| pass(&BIT_SETS, inputs)];
    per_call(best_of_rounds(ROUNDS, passes), inputs.len())
}

fn per_call(taken: [f64; 2], calls: usize) -> Times {
    let [library, bit_sets] = taken.map(|nanoseconds| nanoseconds / calls as f64);
    Times { library, bit_sets }
}
