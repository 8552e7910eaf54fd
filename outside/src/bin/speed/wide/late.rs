//! Walks over all points that fail as late as such a walk can: at the second last point.

use outside::bitset::wide;
use outside::definition::wide::Plan;
use outside::graphs::wide::set_both_ways;
use outside::random::Random;

use super::inputs::{passing, Input};
use super::FAILED;
use crate::inputs::Case;

/// Random plans that are tried before one is altered.
const TRIES: usize = 20;

/// A walk that passes up to its second last point and fails there, and whether its plan had to be altered for that.
pub fn failing_late(random: &mut Random, case: &Case) -> (Input, bool) {
    for _ in 0..TRIES {
        let input = swapped_run(random, case);
        if fails(&input) {
            return (input, false);
        }
    }
    (with_links_cut(swapped_run(random, case)), true)
}

/// A random plan, and a run over it with the last two points swapped.
fn swapped_run(random: &mut Random, case: &Case) -> Input {
    let mut input = passing(random, case);
    input.walk.swap(case.n - 2, case.n - 1);
    input
}

/// The walk fails at its second last point.
fn fails(input: &Input) -> bool {
    let b = input.walk[input.walk.len() - 2];
    let answer = wide::judge(input.kind, &input.table, &input.walk);
    answer >= FAILED && (answer >> 16) as u16 == b
}

/// Removes links of the second last point b until the last point c is ahead of it.
///
/// The points before b still pass: with fewer links, b is ahead of no point that it was not ahead of before. Links to
/// points that c is not linked to are removed first. A link from b to c keeps the plan in one piece.
fn with_links_cut(mut input: Input) -> Input {
    let n = input.walk.len();
    let [b, c] = [input.walk[n - 2] as usize, input.walk[n - 1] as usize];
    let mut points: Vec<usize> = (0..n).filter(|&v| v != b && v != c).collect();
    points.sort_by_key(|&v| Plan(&input.table).leads_to(c, v));
    set_both_ways(&mut input.table, (b, c), true);
    for v in points {
        if fails(&input) {
            break;
        }
        set_both_ways(&mut input.table, (b, v), false);
    }
    assert!(fails(&input));
    input
}
