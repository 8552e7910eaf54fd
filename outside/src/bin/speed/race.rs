//! The timing.

use std::hint::black_box;
use std::time::{Duration, Instant};

use outside::definition::{Kind, NONE_BARRED};
use outside::{bitset, entry};

use crate::inputs::Input;

const ROUNDS: usize = 40;
const ROUND_TIME: Duration = Duration::from_micros(1500);

/// Kind, plan, barred points, walk.
type Judge = fn(Kind, &[u8], u64, &[u8]) -> u32;

/// Kind, plan, barred points, preference list, output list, k.
type CarryOn = fn(Kind, &[u8], u64, &[u8], &mut [u8], usize) -> u32;

/// One implementation of the two calls.
pub struct Implementation {
    judge: Judge,
    carry_on: CarryOn,
}

pub const LIBRARY: Implementation =
    Implementation { judge: entry::judge, carry_on: entry::carry_on };
pub const BIT_SETS: Implementation =
    Implementation { judge: bitset::judge, carry_on: bitset::carry_on };

impl Implementation {
    /// The walk that carry-on makes from nothing.
    fn carried_on(&self, input: &Input) -> Vec<u8> {
        let mut output = vec![0; input.walk.len()];
        let Input { kind, plan, tie_break, .. } = input;
        assert_eq!((self.carry_on)(*kind, plan, NONE_BARRED, tie_break, &mut output, 0), 0);
        output
    }
}

/// The two implementations agree on every input, and judge's answer is as expected.
pub fn check(inputs: &[Input], expected: fn(u32) -> bool) {
    for input in inputs {
        let Input { kind, plan, walk, .. } = input;
        let judged = |by: &Implementation| (by.judge)(*kind, plan, NONE_BARRED, walk);
        assert!(expected(judged(&LIBRARY)));
        assert_eq!(judged(&LIBRARY), judged(&BIT_SETS));
        assert_eq!(LIBRARY.carried_on(input), BIT_SETS.carried_on(input));
    }
}

/// One call for each input.
pub type Pass = fn(&Implementation, &[Input]);

pub fn judge_all(by: &Implementation, inputs: &[Input]) {
    for input in inputs {
        let Input { kind, plan, walk, .. } = black_box(input);
        black_box((by.judge)(*kind, plan, NONE_BARRED, walk));
    }
}

/// Each carry-on starts from nothing.
pub fn carry_on_all(by: &Implementation, inputs: &[Input]) {
    let mut buffer = [0; 64];
    for input in inputs {
        let Input { kind, plan, walk, tie_break } = black_box(input);
        let output = black_box(&mut buffer[..walk.len()]);
        black_box((by.carry_on)(*kind, plan, NONE_BARRED, tie_break, output, 0));
    }
}

/// Nanoseconds per call for each implementation: the best of its rounds. The implementations take turns.
pub fn race<const N: usize>(
    implementations: &[Implementation; N],
    pass: Pass,
    inputs: &[Input],
) -> [f64; N] {
    let passes = implementations.each_ref().map(|by| move || pass(black_box(by), inputs));
    let taken = best_of_rounds(ROUNDS, passes.each_ref().map(|pass| pass as &dyn Fn()));
    taken.map(|nanoseconds| nanoseconds / inputs.len() as f64)
}

/// Nanoseconds for each pass: the best of its rounds. The passes take turns.
pub fn best_of_rounds<const N: usize>(rounds: usize, passes: [&dyn Fn(); N]) -> [f64; N] {
    let counts = passes.map(repetitions);
    let mut best = [f64::MAX; N];
    for _ in 0..rounds {
        for i in 0..N {
            let taken = time(passes[i], counts[i]);
            best[i] = best[i].min(taken.as_nanos() as f64 / counts[i] as f64);
        }
    }
    best
}

/// How many passes make a round.
fn repetitions(pass: &dyn Fn()) -> u32 {
    let mut count = 1;
    while time(pass, count) < ROUND_TIME {
        count *= 2;
    }
    count
}

fn time(pass: &dyn Fn(), count: u32) -> Duration {
    let start = Instant::now();
    for _ in 0..count {
        pass();
    }
    start.elapsed()
}
