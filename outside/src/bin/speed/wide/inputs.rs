//! Plans with their walks and preference lists.

use outside::bitset::wide;
use outside::definition::Kind;
use outside::graphs::wide::{dense, sparse_connected, to_plan};
use outside::random::Random;

use crate::inputs::{self, Case, Density};

/// What one call of judge and one of carry-on are given.
pub struct Input {
    pub kind: Kind,
    pub table: Vec<u64>,
    pub walk: Vec<u16>,
    pub tie_break: Vec<u16>,
}

/// A random plan, a full run over it, and a random preference list.
pub fn passing(random: &mut Random, case: &Case) -> Input {
    let table = match case.density {
        Density::Sparse => sparse_connected(random, case.n),
        Density::Dense => dense(random, case.n),
    };
    let mut walk = vec![0; case.n];
    let tie_break = random.wide_permutation(case.n);
    assert_eq!(wide::carry_on(case.kind, &table, &tie_break, &mut walk, 0), 0);
    Input { kind: case.kind, table, walk, tie_break: random.wide_permutation(case.n) }
}

/// The same input for the narrow form.
pub fn narrow(input: &Input) -> inputs::Input {
    let bytes = |list: &[u16]| list.iter().map(|&v| v as u8).collect();
    inputs::Input {
        kind: input.kind,
        plan: to_plan(&input.table),
        walk: bytes(&input.walk),
        tie_break: bytes(&input.tie_break),
    }
}
