//! The library's wide form, through two functions of a crate made for the timing, and the one on bit sets.

use std::hint::black_box;

use outside::bitset::wide;
use outside::definition::{Kind, NONE_BARRED};
use outside::entry;

use super::inputs::Input;
use crate::inputs;

extern "C" {
    fn vezhanip_timed_wide_judge(
        kind: u8,
        one_way: u8,
        table: *const u64,
        table_len: usize,
        walk: *const u16,
        walk_len: usize,
    ) -> u64;

    fn vezhanip_timed_wide_carry_on(
        kind: u8,
        one_way: u8,
        table: *const u64,
        table_len: usize,
        preference: *const u16,
        preference_len: usize,
        output: *mut u16,
        output_len: usize,
        k: usize,
    ) -> u64;
}

const TWO_WAY: u8 = 0;

/// Kind, table, walk.
type Judge = fn(Kind, &[u64], &[u16]) -> u64;

/// Kind, table, preference list, output list, k.
type CarryOn = fn(Kind, &[u64], &[u16], &mut [u16], usize) -> u64;

/// One implementation of the two calls, on two-way plans.
pub struct Implementation {
    judge: Judge,
    carry_on: CarryOn,
}

pub const LIBRARY: Implementation = Implementation { judge, carry_on };
pub const BIT_SETS: Implementation =
    Implementation { judge: wide::judge, carry_on: wide::carry_on };

fn judge(kind: Kind, table: &[u64], walk: &[u16]) -> u64 {
    let [table_len, walk_len] = [table.len(), walk.len()];
    // SAFETY: each pointer goes with the length of its list.
    unsafe {
        vezhanip_timed_wide_judge(kind, TWO_WAY, table.as_ptr(), table_len, walk.as_ptr(), walk_len)
    }
}

fn carry_on(kind: Kind, table: &[u64], tie_break: &[u16], output: &mut [u16], k: usize) -> u64 {
    // SAFETY: each pointer goes with the length of its list, and nothing else refers to `output`.
    unsafe {
        vezhanip_timed_wide_carry_on(
            kind,
            TWO_WAY,
            table.as_ptr(),
            table.len(),
            tie_break.as_ptr(),
            tie_break.len(),
            output.as_mut_ptr(),
            output.len(),
            k,
        )
    }
}

impl Implementation {
    /// The walk that carry-on makes from nothing.
    fn carried_on(&self, input: &Input) -> Vec<u16> {
        let Input { kind, table, walk, tie_break } = input;
        let mut output = vec![0; walk.len()];
        assert_eq!((self.carry_on)(*kind, table, tie_break, &mut output, 0), 0);
        output
    }
}

/// The two implementations agree on every input, and judge's answer is as expected.
pub fn check(inputs: &[Input], expected: fn(u64) -> bool) {
    for input in inputs {
        let Input { kind, table, walk, .. } = input;
        let judged = |by: &Implementation| (by.judge)(*kind, table, walk);
        assert!(expected(judged(&LIBRARY)));
        assert_eq!(judged(&LIBRARY), judged(&BIT_SETS));
        assert_eq!(LIBRARY.carried_on(input), BIT_SETS.carried_on(input));
    }
}

/// The library's narrow form passes the same walks and makes the same ones.
pub fn check_narrow(inputs: &[Input], narrow: &[inputs::Input]) {
    for (input, inputs::Input { kind, plan, walk, tie_break }) in inputs.iter().zip(narrow) {
        assert_eq!(entry::judge(*kind, plan, NONE_BARRED, walk), 0);
        let mut output = vec![0; walk.len()];
        assert_eq!(entry::carry_on(*kind, plan, NONE_BARRED, tie_break, &mut output, 0), 0);
        let points: Vec<u16> = output.into_iter().map(|v| v as u16).collect();
        assert_eq!(LIBRARY.carried_on(input), points);
    }
}

/// One call for each input.
pub type Pass = fn(&Implementation, &[Input]);

pub fn judge_all(by: &Implementation, inputs: &[Input]) {
    for input in inputs {
        let Input { kind, table, walk, .. } = black_box(input);
        black_box((by.judge)(*kind, table, walk));
    }
}

/// Each carry-on starts from nothing.
pub fn carry_on_all(by: &Implementation, inputs: &[Input]) {
    let mut buffer = [0; 512];
    for input in inputs {
        let Input { kind, table, walk, tie_break } = black_box(input);
        let output = black_box(&mut buffer[..walk.len()]);
        black_box((by.carry_on)(*kind, table, tie_break, output, 0));
    }
}
