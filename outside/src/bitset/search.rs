//! A walk that grows, and the points that may come next.

use super::{holds, Graph};
use crate::definition::{Kind, BFS, DFS, GENERIC, LEX_BFS, MCS, MNS};

/// A walk that grows: which points are placed, and where the search goes on.
pub struct Search<'a> {
    kind: Kind,
    graph: &'a Graph,
    ordering: [u8; 64],
    length: usize,
    unplaced: u64,
    /// The neighbours of placed points.
    reached: u64,
    /// BFS: the first place whose point may have unplaced neighbours.
    head: usize,
    /// DFS: the points that may have unplaced neighbours, the latest on top.
    stack: [u8; 64],
    depth: usize,
}

/// The largest value that the points of a set have, or 0.
fn largest(set: u64, value: impl Fn(u8) -> u32) -> u32 {
    let mut rest = set;
    let mut most = 0;
    while rest != 0 {
        most = most.max(value(rest.trailing_zeros() as u8));
        rest &= rest - 1;
    }
    most
}

impl<'a> Search<'a> {
    pub fn new(kind: Kind, graph: &'a Graph) -> Search<'a> {
        Search {
            kind,
            graph,
            ordering: [0; 64],
            length: 0,
            unplaced: graph.in_service,
            reached: 0,
            head: 0,
            stack: [0; 64],
            depth: 0,
        }
    }

    pub fn place(&mut self, v: u8) {
        self.ordering[self.length] = v;
        self.length += 1;
        self.unplaced &= !(1 << (v & 63));
        self.reached |= self.graph.row(v);
        self.stack[self.depth] = v;
        self.depth += 1;
    }

    fn placed(&self) -> &[u8] {
        &self.ordering[..self.length]
    }

    /// The unplaced neighbours of the points in turn; the first that narrow the set count.
    fn narrowed<'b>(&self, points: impl Iterator<Item = &'b u8>) -> u64 {
        let mut best = self.unplaced;
        for &u in points {
            let part = best & self.graph.row(u);
            best = if part != 0 { part } else { best };
        }
        best
    }

    /// The unplaced neighbours of the earliest placed point that has some.
    fn of_earliest(&mut self) -> u64 {
        while self.head < self.length {
            let found = self.graph.row(self.ordering[self.head]) & self.unplaced;
            if found != 0 {
                return found;
            }
            self.head += 1;
        }
        0
    }

    /// The unplaced neighbours of the latest placed point that has some.
    fn of_latest(&mut self) -> u64 {
        while self.depth > 0 {
            let found = self.graph.row(self.stack[self.depth - 1]) & self.unplaced;
            if found != 0 {
                return found;
            }
            self.depth -= 1;
        }
        0
    }

    /// The offered points, for every kind but MNS and MCS.
    fn offered(&mut self) -> u64 {
        let found = match self.kind {
            GENERIC => self.reached & self.unplaced,
            BFS => self.of_earliest(),
            DFS => self.of_latest(),
            LEX_BFS => self.narrowed(self.placed().iter()),
            _ => self.narrowed(self.placed().iter().rev()),
        };
        if found != 0 {
            found
        } else {
            self.unplaced
        }
    }

    /// MNS: no unplaced point has all of b's placed neighbours and one more.
    fn maximal(&self, b: u8) -> bool {
        let mut all_of_b = self.unplaced;
        let mut one_more = 0;
        for &u in self.placed() {
            let row = self.graph.row(u);
            if holds(row, b) {
                all_of_b &= row;
            } else {
                one_more |= row;
            }
        }
        all_of_b & one_more == 0
    }

    /// MCS: how many neighbours of v are placed. Barred points are neither placed nor unplaced.
    fn placed_neighbours(&self, v: u8) -> u32 {
        let placed = self.graph.in_service & !self.unplaced;
        (self.graph.row(v) & placed).count_ones()
    }

    /// The unplaced points with a placed neighbour; all unplaced points where there is none.
    fn candidates(&self) -> u64 {
        let found = self.reached & self.unplaced;
        if found != 0 {
            found
        } else {
            self.unplaced
        }
    }

    pub fn is_offered(&mut self, b: u8) -> bool {
        match self.kind {
            MNS => self.maximal(b),
            MCS => {
                let most = largest(self.candidates(), |v| self.placed_neighbours(v));
                self.placed_neighbours(b) == most
            }
            _ => holds(self.offered(), b),
        }
    }

    /// The offered point that stands last in the preference list.
    pub fn last_offered(&mut self, tie_break: &[u8], rank: &[u8; 64]) -> u8 {
        let rank = |v: u8| rank[(v & 63) as usize] as u32;
        match self.kind {
            MNS => {
                let candidates = self.candidates();
                let may_come = |v: &&u8| holds(candidates, **v) && self.maximal(**v);
                *tie_break.iter().rfind(may_come).unwrap()
            }
            MCS => {
                // A rank has six bits.
                let count_and_rank = |v: u8| self.placed_neighbours(v) << 6 | rank(v);
                let last = largest(self.candidates(), count_and_rank) & 63;
                tie_break[last as usize]
            }
            _ => tie_break[largest(self.offered(), rank) as usize],
        }
    }
}
