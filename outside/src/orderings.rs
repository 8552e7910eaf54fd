//! Walks and preference lists to try.

use crate::definition::{offered, Graph, Kind, KINDS};
use crate::random::Random;

/// Every list of distinct points below n, shorter ones among them.
pub fn all_partial(n: usize) -> Vec<Vec<u8>> {
    let mut orderings = vec![Vec::new()];
    let mut at = 0;
    while at < orderings.len() {
        let ordering: Vec<u8> = orderings[at].clone();
        for v in (0..n as u8).filter(|v| !ordering.contains(v)) {
            let mut longer = ordering.clone();
            longer.push(v);
            orderings.push(longer);
        }
        at += 1;
    }
    orderings
}

/// Every list that names each point below n once.
pub fn permutations(n: usize) -> Vec<Vec<u8>> {
    all_partial(n).into_iter().filter(|ordering| ordering.len() == n).collect()
}

/// The first `length` points of a run.
pub fn run(random: &mut Random, kind: Kind, graph: &Graph, length: usize) -> Vec<u8> {
    let mut ordering: Vec<u8> = Vec::new();
    while ordering.len() < length {
        let next = random.pick(&offered(kind, graph, &ordering));
        ordering.push(next as u8);
    }
    ordering
}

/// A walk: part of a run of this kind or another, that with a swap, or any points.
pub fn random_walk(random: &mut Random, kind: Kind, graph: &Graph) -> Vec<u8> {
    let n = graph.size();
    let length = if random.percent(50) { n } else { random.below(n + 1) };
    let style = random.below(10);
    if style < 3 {
        let mut any = random.permutation(n);
        any.truncate(length);
        return any;
    }
    let other = random.pick(&KINDS);
    let mut walk = run(random, if style < 7 { kind } else { other }, graph, length);
    if (5..7).contains(&style) && length >= 2 {
        let i = random.below(length);
        let j = random.below(length);
        walk.swap(i, j);
    }
    if style == 9 && length < n {
        let unplaced: Vec<u8> = (0..n as u8).filter(|v| !walk.contains(v)).collect();
        walk.push(random.pick(&unplaced));
    }
    walk
}
