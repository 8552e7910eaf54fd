//! Group b: what document 001 says of orderings of the 3-sun and of the gem.
//!
//! Its points run from 1; here each is one less.

use outside::calls::JudgeCall;
use outside::definition::{Kind, Mark, BFS, DFS, GENERIC, LEX_BFS, LEX_DFS, MNS, NONE_BARRED};
use outside::graphs::plan;
use outside::orderings::permutations;

use crate::comparison::Comparison;

/// Figure 2.1: the triangle 2, 3, 5 with 1 on 2-3, 4 on 2-5 and 6 on 3-5.
const SUN: [(usize, usize); 9] =
    [(2, 3), (2, 5), (3, 5), (1, 2), (1, 3), (4, 2), (4, 5), (6, 3), (6, 5)];

/// Figure 4.2.
const GEM: [(usize, usize); 7] = [(1, 2), (1, 3), (1, 4), (2, 3), (2, 5), (3, 4), (3, 5)];

struct Claim {
    kind: Kind,
    ordering: &'static [u8],
    holds: bool,
}

const fn is(kind: Kind, ordering: &'static [u8]) -> Claim {
    Claim { kind, ordering, holds: true }
}

const fn is_not(kind: Kind, ordering: &'static [u8]) -> Claim {
    Claim { kind, ordering, holds: false }
}

const OF_SUN: [Claim; 14] = [
    // Section 2.1
    is_not(GENERIC, &[1, 6, 2, 3, 4, 5]),
    is(GENERIC, &[1, 2, 4, 3, 5, 6]),
    is_not(BFS, &[1, 2, 4, 3, 5, 6]),
    is_not(DFS, &[1, 2, 4, 3, 5, 6]),
    // Section 2.2
    is(BFS, &[1, 2, 3, 4, 5, 6]),
    is_not(BFS, &[1, 2, 3, 6, 5, 4]),
    // Section 2.3
    is(LEX_BFS, &[1, 2, 3, 5, 4, 6]),
    is(BFS, &[1, 2, 3, 5, 4, 6]),
    is_not(LEX_BFS, &[1, 2, 3, 4, 5, 6]),
    // Section 2.5
    is(LEX_DFS, &[1, 2, 3, 5, 6, 4]),
    is(DFS, &[1, 2, 3, 5, 6, 4]),
    is(DFS, &[1, 2, 4, 5, 6, 3]),
    is_not(LEX_DFS, &[1, 2, 4, 5, 6, 3]),
    is_not(LEX_DFS, &[1, 2, 3, 5, 4, 6]),
];

// Section 4
const OF_GEM: [Claim; 6] = [
    is(BFS, &[3, 1, 2, 5, 4]),
    is(MNS, &[3, 1, 2, 5, 4]),
    is_not(LEX_BFS, &[3, 1, 2, 5, 4]),
    is(DFS, &[1, 2, 3, 4, 5]),
    is(MNS, &[1, 2, 3, 4, 5]),
    is_not(LEX_DFS, &[1, 2, 3, 4, 5]),
];

fn renumbered(size: usize, links: &[(usize, usize)]) -> Vec<u8> {
    let links: Vec<(usize, usize)> = links.iter().map(|&(u, v)| (u - 1, v - 1)).collect();
    plan(size, &links)
}

fn judge_call(kind: Kind, plan: &[u8], walk: Vec<u8>) -> JudgeCall {
    JudgeCall { kind, mark: Mark::TwoWay, plan: plan.to_vec(), barred: NONE_BARRED, walk }
}

fn compare_claim(comparison: &mut Comparison, plan: &[u8], claim: &Claim) {
    let walk = claim.ordering.iter().map(|v| v - 1).collect();
    let call = judge_call(claim.kind, plan, walk);
    if (comparison.judge(&call) == 0) != claim.holds {
        let found = format!("document 001 says that this passes: {}", claim.holds);
        comparison.differ(&call, &[found]);
    }
}

pub fn compare() -> u64 {
    let mut comparison = Comparison::new("b, orderings of document 001");
    let sun = renumbered(6, &SUN);
    let gem = renumbered(5, &GEM);
    for claim in &OF_SUN {
        compare_claim(&mut comparison, &sun, claim);
    }
    for claim in &OF_GEM {
        compare_claim(&mut comparison, &gem, claim);
    }
    only_continuations(&mut comparison, &sun);
    comparison.finish()
}

/// Sections 2.3 and 2.5: after 1, 2, 3 LexBFS takes 5 and not 4, and after 1, 2
/// only 3, 5, 6, 4 is a LexDFS.
fn only_continuations(comparison: &mut Comparison, sun: &[u8]) {
    let full = permutations(6).into_iter();
    for walk in full.filter(|walk| walk.starts_with(&[0, 1])) {
        let call = judge_call(LEX_DFS, sun, walk);
        let only = call.walk == [0, 1, 2, 4, 5, 3];
        if (comparison.judge(&call) == 0) != only {
            let found = "document 001 has 1, 2, 3, 5, 6, 4 as the only LexDFS after 1, 2";
            comparison.differ(&call, &[found.to_string()]);
        }
    }
    compare_claim(comparison, sun, &is(LEX_BFS, &[1, 2, 3, 5]));
    compare_claim(comparison, sun, &is_not(LEX_BFS, &[1, 2, 3, 4]));
}
