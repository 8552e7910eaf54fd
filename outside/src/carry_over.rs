//! Which passes carry over: whether a walk that passes one kind passes another as well, on every plan.
//!
//!   CARRIES_OVER         the table for all pairs of kinds                          [02: which passes carry over]
//!   WITNESSES            for each "no" of the table a walk that passes the one kind and fails the other
//!   smallest_witnesses   how small such walks can be, by trying all walks over all small plans

use crate::definition::{
    judge, Kind, Mark, Vertex, BFS, DFS, GENERIC, KINDS, LEX_BFS, LEX_DFS, MCS, MNS, NONE_BARRED,
};
use crate::{graphs, orderings};

/// An entry for each pair of kinds: the row is that of the first kind, the column that of the second.
pub type Table<Entry> = [[Entry; KINDS.len()]; KINDS.len()];

const YES: bool = true;
const NO: bool = false;

/// Whether each walk that passes the first kind passes the second too.
pub const CARRIES_OVER: Table<bool> = [
    // to Generic, BFS, DFS, LexBFS, LexDFS, MNS, MCS
    [YES, NO, NO, NO, NO, NO, NO],    // from Generic
    [YES, YES, NO, NO, NO, NO, NO],   // from BFS
    [YES, NO, YES, NO, NO, NO, NO],   // from DFS
    [YES, YES, NO, YES, NO, YES, NO], // from LexBFS
    [YES, NO, YES, NO, YES, YES, NO], // from LexDFS
    [YES, NO, NO, NO, NO, YES, NO],   // from MNS
    [YES, NO, NO, NO, NO, YES, YES],  // from MCS
];

/// A two-way plan, and a walk over all of its points but one.
pub struct Example {
    pub n: usize,
    /// The smaller point first, ascending.
    pub links: &'static [(Vertex, Vertex)],
    pub walk: &'static [u8],
}

/// The number of points, of links, and of points in the walk.
pub type Size = (usize, usize, usize);

impl Example {
    pub fn plan(&self) -> Vec<u8> {
        graphs::plan(self.n, self.links)
    }

    pub fn size(&self) -> Size {
        (self.n, self.links.len(), self.walk.len())
    }
}

// Above each example are two labels, as they were when the last point of the walk was placed: first that of this point,
// then that of the point which is not in the walk.

/// Labels {0} and {1}.
const EARLY_BEFORE_LATE: Example =
    Example { n: 4, links: &[(0, 1), (0, 2), (1, 3)], walk: &[0, 1, 2] };

/// Labels {1} and {0}.
const LATE_BEFORE_EARLY: Example =
    Example { n: 4, links: &[(0, 1), (0, 2), (1, 3)], walk: &[0, 1, 3] };

/// Labels {0} and {0, 1}.
const EARLY_BEFORE_BOTH: Example =
    Example { n: 4, links: &[(0, 1), (0, 2), (0, 3), (1, 3)], walk: &[0, 1, 2] };

/// Labels {1} and {0, 1}.
const LATE_BEFORE_BOTH: Example =
    Example { n: 4, links: &[(0, 1), (0, 3), (1, 2), (1, 3)], walk: &[0, 1, 2] };

/// Labels {0} and {1, 2}.
const EARLY_BEFORE_TWO: Example =
    Example { n: 5, links: &[(0, 1), (0, 2), (0, 3), (1, 4), (2, 4)], walk: &[0, 1, 2, 3] };

/// Labels {2} and {0, 1}.
const LATE_BEFORE_TWO: Example =
    Example { n: 5, links: &[(0, 1), (0, 2), (0, 4), (1, 2), (1, 4), (2, 3)], walk: &[0, 1, 2, 3] };

/// The walk passes the first kind and fails the second.
pub type Witness = (Kind, Kind, &'static Example);

/// Ascending by the two kinds. Each is one of the smallest: no other has fewer points, or as many points and fewer
/// links, or as many of both and a shorter walk.
pub const WITNESSES: [Witness; 31] = [
    (GENERIC, BFS, &LATE_BEFORE_EARLY),
    (GENERIC, DFS, &EARLY_BEFORE_LATE),
    (GENERIC, LEX_BFS, &LATE_BEFORE_EARLY),
    (GENERIC, LEX_DFS, &EARLY_BEFORE_LATE),
    (GENERIC, MNS, &EARLY_BEFORE_BOTH),
    (GENERIC, MCS, &EARLY_BEFORE_BOTH),
    (BFS, DFS, &EARLY_BEFORE_LATE),
    (BFS, LEX_BFS, &EARLY_BEFORE_BOTH),
    (BFS, LEX_DFS, &EARLY_BEFORE_LATE),
    (BFS, MNS, &EARLY_BEFORE_BOTH),
    (BFS, MCS, &EARLY_BEFORE_BOTH),
    (DFS, BFS, &LATE_BEFORE_EARLY),
    (DFS, LEX_BFS, &LATE_BEFORE_EARLY),
    (DFS, LEX_DFS, &LATE_BEFORE_BOTH),
    (DFS, MNS, &LATE_BEFORE_BOTH),
    (DFS, MCS, &LATE_BEFORE_BOTH),
    (LEX_BFS, DFS, &EARLY_BEFORE_LATE),
    (LEX_BFS, LEX_DFS, &EARLY_BEFORE_LATE),
    (LEX_BFS, MCS, &EARLY_BEFORE_TWO),
    (LEX_DFS, BFS, &LATE_BEFORE_EARLY),
    (LEX_DFS, LEX_BFS, &LATE_BEFORE_EARLY),
    (LEX_DFS, MCS, &LATE_BEFORE_TWO),
    (MNS, BFS, &LATE_BEFORE_EARLY),
    (MNS, DFS, &EARLY_BEFORE_LATE),
    (MNS, LEX_BFS, &LATE_BEFORE_EARLY),
    (MNS, LEX_DFS, &EARLY_BEFORE_LATE),
    (MNS, MCS, &EARLY_BEFORE_TWO),
    (MCS, BFS, &LATE_BEFORE_EARLY),
    (MCS, DFS, &EARLY_BEFORE_LATE),
    (MCS, LEX_BFS, &LATE_BEFORE_EARLY),
    (MCS, LEX_DFS, &EARLY_BEFORE_LATE),
];

/// The pairs of kinds, ascending, whose entries are such.
pub fn pairs<Entry>(table: &Table<Entry>, such: impl Fn(&Entry) -> bool) -> Vec<(Kind, Kind)> {
    let all = KINDS.into_iter().flat_map(|from| KINDS.map(|to| (from, to)));
    all.filter(|&(from, to)| such(&table[from as usize][to as usize])).collect()
}

/// The size of the smallest witness, if there is one among all walks over all plans of up to n points with this mark.
pub fn smallest_witnesses(mark: Mark, n: usize) -> Table<Option<Size>> {
    let mut smallest: Table<Option<Size>> = Default::default();
    for n in 0..=n {
        let walks = orderings::all_partial(n);
        for plan in graphs::all_plans(mark, n) {
            let links = graphs::count_links(mark, &plan);
            for walk in &walks {
                let passes = KINDS.map(|kind| judge(kind, mark, &plan, NONE_BARRED, walk) == 0);
                enter(&mut smallest, passes, (n, links, walk.len()));
            }
        }
    }
    smallest
}

/// Enters the size of a walk for each kind that it passes and each that it fails, where no smaller one is there.
fn enter(smallest: &mut Table<Option<Size>>, passes: [bool; KINDS.len()], size: Size) {
    for from in (0..KINDS.len()).filter(|&from| passes[from]) {
        for to in (0..KINDS.len()).filter(|&to| !passes[to]) {
            let entry = &mut smallest[from][to];
            *entry = Some(entry.map_or(size, |before| before.min(size)));
        }
    }
}

#[cfg(test)]
mod tests;
