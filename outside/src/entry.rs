//! The library's four C functions, two for each mark of a plan, called on guarded copies of the lists. All four take
//! the set of barred points, right behind the plan.
//!
//! Each list is passed from the middle of a larger buffer. After the call every
//! byte of the buffers is compared with what it must be.

use crate::definition::{Kind, Mark};

extern "C" {
    fn vezhanip_judge(
        kind: u8,
        plan: *const u8,
        plan_len: usize,
        barred: u64,
        walk: *const u8,
        walk_len: usize,
    ) -> u32;

    fn vezhanip_judge_one_way(
        kind: u8,
        plan: *const u8,
        plan_len: usize,
        barred: u64,
        walk: *const u8,
        walk_len: usize,
    ) -> u32;

    fn vezhanip_carry_on(
        kind: u8,
        plan: *const u8,
        plan_len: usize,
        barred: u64,
        preference: *const u8,
        preference_len: usize,
        output: *mut u8,
        output_len: usize,
        k: usize,
    ) -> u32;

    fn vezhanip_carry_on_one_way(
        kind: u8,
        plan: *const u8,
        plan_len: usize,
        barred: u64,
        preference: *const u8,
        preference_len: usize,
        output: *mut u8,
        output_len: usize,
        k: usize,
    ) -> u32;
}

/// Judge on a two-way plan without guards, for the timing.
pub fn judge(kind: Kind, plan: &[u8], barred: u64, walk: &[u8]) -> u32 {
    // SAFETY: each pointer goes with the length of its list.
    unsafe { vezhanip_judge(kind, plan.as_ptr(), plan.len(), barred, walk.as_ptr(), walk.len()) }
}

/// Carry-on on a two-way plan without guards, for the timing.
pub fn carry_on(
    kind: Kind,
    plan: &[u8],
    barred: u64,
    tie_break: &[u8],
    output: &mut [u8],
    k: usize,
) -> u32 {
    // SAFETY: each pointer goes with the length of its list, and nothing else refers to `output`.
    unsafe {
        vezhanip_carry_on(
            kind,
            plan.as_ptr(),
            plan.len(),
            barred,
            tie_break.as_ptr(),
            tie_break.len(),
            output.as_mut_ptr(),
            output.len(),
            k,
        )
    }
}

/// Bytes before and after a list. Odd, so that no row is aligned.
const GUARD: usize = 67;

/// A list with guard bytes on both sides.
struct Guarded {
    name: &'static str,
    buffer: Vec<u8>,
    before: Vec<u8>,
}

impl Guarded {
    fn new(name: &'static str, list: &[u8]) -> Guarded {
        let guard = |i: usize| (i * 37 + 165) as u8;
        let mut buffer: Vec<u8> = (0..GUARD).map(guard).collect();
        buffer.extend_from_slice(list);
        buffer.extend((GUARD..2 * GUARD).map(guard));
        Guarded { name, before: buffer.clone(), buffer }
    }

    fn length(&self) -> usize {
        self.buffer.len() - 2 * GUARD
    }

    /// To the list's first byte; the guards may be reached through it as well.
    fn pointer(&mut self) -> *mut u8 {
        self.buffer[..].as_mut_ptr().wrapping_add(GUARD)
    }

    fn list(&self) -> &[u8] {
        &self.buffer[GUARD..GUARD + self.length()]
    }

    /// The guards, and the list too unless it may be written, are as they were.
    fn check(&self, may_be_written: bool) -> Result<(), String> {
        let list = GUARD..GUARD + self.length();
        let kept = |i: &usize| may_be_written && list.contains(i);
        let altered = |i: &usize| self.buffer[*i] != self.before[*i] && !kept(i);
        match (0..self.buffer.len()).find(altered) {
            None => Ok(()),
            Some(i) => Err(format!(
                "the byte at {} of the {} (its length is {}) was altered from {} to {}",
                i as isize - GUARD as isize,
                self.name,
                self.length(),
                self.before[i],
                self.buffer[i]
            )),
        }
    }
}

/// Judge's answer, or which byte it altered.
pub fn guarded_judge(
    kind: Kind,
    mark: Mark,
    plan: &[u8],
    barred: u64,
    walk: &[u8],
) -> Result<u32, String> {
    let judge = match mark {
        Mark::TwoWay => vezhanip_judge,
        Mark::OneWay => vezhanip_judge_one_way,
    };
    let mut plan = Guarded::new("plan", plan);
    let mut walk = Guarded::new("walk", walk);
    // SAFETY: each pointer goes with the length of its list.
    let answer = unsafe {
        judge(kind, plan.pointer(), plan.length(), barred, walk.pointer(), walk.length())
    };
    plan.check(false)?;
    walk.check(false)?;
    Ok(answer)
}

/// Carry-on's answer and the output list afterwards, or which other byte it altered.
pub fn guarded_carry_on(
    kind: Kind,
    mark: Mark,
    plan: &[u8],
    barred: u64,
    tie_break: &[u8],
    output: &[u8],
    k: usize,
) -> Result<(u32, Vec<u8>), String> {
    let carry_on = match mark {
        Mark::TwoWay => vezhanip_carry_on,
        Mark::OneWay => vezhanip_carry_on_one_way,
    };
    let mut plan = Guarded::new("plan", plan);
    let mut tie_break = Guarded::new("preference list", tie_break);
    let mut output = Guarded::new("output list", output);
    // SAFETY: each pointer goes with the length of its list, and no two lists overlap.
    let answer = unsafe {
        carry_on(
            kind,
            plan.pointer(),
            plan.length(),
            barred,
            tie_break.pointer(),
            tie_break.length(),
            output.pointer(),
            output.length(),
            k,
        )
    };
    plan.check(false)?;
    tie_break.check(false)?;
    output.check(true)?;
    Ok((answer, output.list().to_vec()))
}
