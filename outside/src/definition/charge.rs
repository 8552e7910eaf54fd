//! The charge for a walk, from the sentences of 02.
//!
//!   minutes_of      the placed points' minutes, and 7 for each jump               [02: K2]
//!   Halves          which cent a half goes to                                     [02: K2, K7]
//!   nearest_cent    sixtieths of a cent as cents: the nearest, halves by the rule
//!   charge          the cents, or the refusal's number

use std::cmp::Ordering;

use super::{begins_run, bytes, first_of, judge_refusal, Graph, Kind, Mark, Vertex, NONE_BARRED};

/// Each placed point's minutes, plus 7 for each placed point after the first that is not linked to the one placed
/// directly before it; in a one-way plan, where the earlier point does not lead to the next.
pub fn minutes_of(graph: &Graph, walk: &[u8], minutes: &[u16]) -> u64 {
    let own: u64 = walk.iter().map(|&v| minutes[v as usize] as u64).sum();
    let jump = |pair: &&[u8]| !graph.leads_to(pair[0] as Vertex, pair[1] as Vertex);
    own + 7 * walk.windows(2).filter(jump).count() as u64
}

/// Which of two nearest cents is taken.
#[derive(Clone, Copy, PartialEq, Eq, Debug)]
pub enum Halves {
    /// The even one.
    ToEven,
    /// The larger one.
    Up,
}

/// Of the whole cents below and above, the nearer one; if both are as near, the rule's.
pub fn nearest_cent(sixtieths: u64, halves: Halves) -> u64 {
    let away = |cents: u64| (60 * cents).abs_diff(sixtieths);
    let (below, above) = (sixtieths / 60, sixtieths / 60 + 1);
    match away(below).cmp(&away(above)) {
        Ordering::Less => below,
        Ordering::Greater => above,
        Ordering::Equal if halves == Halves::Up => above,
        Ordering::Equal if below % 2 == 0 => below,
        Ordering::Equal => above,
    }
}

pub fn charge(
    kind: Kind,
    mark: Mark,
    rows: &[u64],
    walk: &[u8],
    minutes: &[u16],
    rate: u64,
    halves: Halves,
) -> Result<u64, u32> {
    let plan = bytes(rows);
    let graph = Graph::from_plan(&plan);
    let refusal_after_judge = || {
        first_of(&[
            (18, &|| minutes.len() != graph.size()),
            (18, &|| minutes.iter().any(|&entry| entry > 999)),
            (19, &|| rate > 99_999),
            (20, &|| !begins_run(kind, &graph, walk)),
        ])
    };
    match judge_refusal(kind, mark, &plan, NONE_BARRED, walk).or_else(refusal_after_judge) {
        Some(number) => Err(number),
        None => Ok(nearest_cent(minutes_of(&graph, walk, minutes) * rate, halves)),
    }
}

#[cfg(test)]
mod tests;
