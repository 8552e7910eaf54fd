//! Plans with their walks and preference lists.

use outside::definition::{Graph, Kind, KINDS, KIND_NAMES};
use outside::random::Random;
use outside::{graphs, orderings};

pub const SIZES: [usize; 4] = [8, 16, 32, 64];

/// How many inputs take turns: with one input only, the processor learns its branches.
pub const ROTATING: usize = 64;

#[derive(Clone, Copy)]
pub enum Density {
    Sparse,
    Dense,
}

impl Density {
    pub fn name(self) -> &'static str {
        match self {
            Density::Sparse => "sparse",
            Density::Dense => "dense",
        }
    }
}

/// What the inputs of one row of a table share.
pub struct Case {
    pub kind: Kind,
    pub n: usize,
    pub density: Density,
}

/// The cases of a table for plans of these sizes, in its order.
pub fn cases(sizes: &[usize]) -> Vec<Case> {
    let mut cases = Vec::new();
    for kind in KINDS {
        for &n in sizes {
            for density in [Density::Sparse, Density::Dense] {
                cases.push(Case { kind, n, density });
            }
        }
    }
    cases
}

impl Case {
    pub fn kind_name(&self) -> &'static str {
        KIND_NAMES[self.kind as usize]
    }

    /// A random plan in one piece.
    pub fn plan(&self, random: &mut Random) -> Vec<u8> {
        match self.density {
            Density::Sparse => graphs::sparse_connected(random, self.n),
            Density::Dense => graphs::dense_connected(random, self.n),
        }
    }
}

/// What one call of judge and one of carry-on are given.
pub struct Input {
    pub kind: Kind,
    pub plan: Vec<u8>,
    pub walk: Vec<u8>,
    pub tie_break: Vec<u8>,
}

/// A random plan, a full run over it, and a random preference list.
pub fn passing(random: &mut Random, case: &Case) -> Input {
    let plan = case.plan(random);
    let walk = orderings::run(random, case.kind, &Graph::from_plan(&plan), case.n);
    Input { kind: case.kind, plan, walk, tie_break: random.permutation(case.n) }
}
