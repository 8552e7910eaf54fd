//! Walks over all points that fail as late as such a walk can: at the second last point.

use outside::definition::{FAILED, NONE_BARRED};
use outside::random::Random;
use outside::{bitset, graphs};

use crate::inputs::{Case, Input};

/// Random plans that are tried before one is altered.
const TRIES: usize = 1000;

/// A walk that passes up to its second last point and fails there, and whether its plan had to be altered for that.
pub fn failing_late(random: &mut Random, case: &Case) -> (Input, bool) {
    for _ in 0..TRIES {
        let input = swapped_run(random, case);
        if fails(&input) {
            return (input, false);
        }
    }
    (with_links_cut(swapped_run(random, case)), true)
}

/// A random plan, and a run over it with the last two points swapped.
fn swapped_run(random: &mut Random, case: &Case) -> Input {
    let plan = case.plan(random);
    let tie_break = random.permutation(case.n);
    let mut walk = vec![0; case.n];
    let answer = bitset::carry_on(case.kind, &plan, NONE_BARRED, &tie_break, &mut walk, 0);
    assert_eq!(answer, 0);
    walk.swap(case.n - 2, case.n - 1);
    Input { kind: case.kind, plan, walk, tie_break }
}

/// The walk fails at its second last point.
fn fails(input: &Input) -> bool {
    let b = input.walk[input.walk.len() - 2];
    let answer = bitset::judge(input.kind, &input.plan, NONE_BARRED, &input.walk);
    answer >= FAILED && answer.to_le_bytes()[1] == b
}

/// Removes links of the second last point b until the last point c is ahead of it.
///
/// The points before b still pass: with fewer links, b is ahead of no point that it was not ahead of before. Links to
/// points that c is not linked to are removed first. A link from b to c keeps the plan in one piece.
fn with_links_cut(mut input: Input) -> Input {
    let n = input.walk.len();
    let [b, c] = [input.walk[n - 2] as usize, input.walk[n - 1] as usize];
    let mut links = graphs::links(&input.plan);
    let of_c = |v| links.contains(&(c.min(v), c.max(v)));
    let mut points: Vec<usize> = (0..n).filter(|&v| v != b && v != c).collect();
    points.sort_by_key(|&v| of_c(v));
    links.push((b, c));
    for v in points {
        if fails(&input) {
            break;
        }
        links.retain(|&link| link != (b.min(v), b.max(v)));
        input.plan = graphs::plan(n, &links);
    }
    assert!(fails(&input));
    input
}
