//! A walk that grows, and the points that may come next.

use super::set::{Set, MOST};
use super::Graph;
use crate::definition::{Kind, BFS, DFS, GENERIC, LEX_BFS, MCS, MNS};

/// A walk that grows: which points are placed, and where the search goes on.
pub struct Search<'a> {
    kind: Kind,
    graph: &'a Graph<'a>,
    ordering: [u16; MOST],
    length: usize,
    unplaced: Set,
    /// The neighbours of placed points.
    reached: Set,
    /// BFS: the first place whose point may have unplaced neighbours.
    head: usize,
    /// DFS: the points that may have unplaced neighbours, the latest on top.
    stack: [u16; MOST],
    depth: usize,
    /// MCS: how many neighbours of each point are placed.
    counts: [u16; MOST],
}

/// The largest value that the points of a set have, or 0.
fn largest(set: &Set, value: impl Fn(u16) -> u32) -> u32 {
    let mut most = 0;
    set.for_each(|v| most = most.max(value(v)));
    most
}

impl<'a> Search<'a> {
    pub fn new(kind: Kind, graph: &'a Graph) -> Search<'a> {
        Search {
            kind,
            graph,
            ordering: [0; MOST],
            length: 0,
            unplaced: Set::below(graph.size),
            reached: Set::EMPTY,
            head: 0,
            stack: [0; MOST],
            depth: 0,
            counts: [0; MOST],
        }
    }

    pub fn place(&mut self, v: u16) {
        let row = self.graph.row(v);
        self.ordering[self.length] = v;
        self.length += 1;
        self.unplaced.remove(v);
        self.reached = self.reached.or(row);
        self.stack[self.depth] = v;
        self.depth += 1;
        if self.kind == MCS {
            row.and(&self.unplaced).for_each(|w| self.counts[w as usize % MOST] += 1);
        }
    }

    fn placed(&self) -> &[u16] {
        &self.ordering[..self.length]
    }

    /// The unplaced neighbours of the points in turn; the first that narrow the set count.
    fn narrowed<'b>(&self, points: impl Iterator<Item = &'b u16>) -> Set {
        let mut best = self.unplaced;
        for &u in points {
            best = best.and(self.graph.row(u)).or_if_empty(&best);
        }
        best
    }

    /// The unplaced neighbours of the earliest placed point that has some.
    fn of_earliest(&mut self) -> Set {
        while self.head < self.length {
            let found = self.graph.row(self.ordering[self.head]).and(&self.unplaced);
            if !found.is_empty() {
                return found;
            }
            self.head += 1;
        }
        Set::EMPTY
    }

    /// The unplaced neighbours of the latest placed point that has some.
    fn of_latest(&mut self) -> Set {
        while self.depth > 0 {
            let found = self.graph.row(self.stack[self.depth - 1]).and(&self.unplaced);
            if !found.is_empty() {
                return found;
            }
            self.depth -= 1;
        }
        Set::EMPTY
    }

    /// The offered points, for every kind but MNS and MCS.
    fn offered(&mut self) -> Set {
        let found = match self.kind {
            GENERIC => self.reached.and(&self.unplaced),
            BFS => self.of_earliest(),
            DFS => self.of_latest(),
            LEX_BFS => self.narrowed(self.placed().iter()),
            _ => self.narrowed(self.placed().iter().rev()),
        };
        found.or_if_empty(&self.unplaced)
    }

    /// MNS: no unplaced point has all of b's placed neighbours and one more.
    fn maximal(&self, b: u16) -> bool {
        let mut all_of_b = self.unplaced;
        let mut one_more = Set::EMPTY;
        for &u in self.placed() {
            let row = self.graph.row(u);
            if row.holds(b) {
                all_of_b = all_of_b.and(row);
            } else {
                one_more = one_more.or(row);
            }
        }
        all_of_b.and(&one_more).is_empty()
    }

    /// MCS: how many neighbours of v are placed.
    fn placed_neighbours(&self, v: u16) -> u32 {
        self.counts[v as usize % MOST] as u32
    }

    /// The unplaced points with a placed neighbour; all unplaced points where there is none.
    fn candidates(&self) -> Set {
        self.reached.and(&self.unplaced).or_if_empty(&self.unplaced)
    }

    pub fn is_offered(&mut self, b: u16) -> bool {
        match self.kind {
            MNS => self.maximal(b),
            MCS => {
                let most = largest(&self.candidates(), |v| self.placed_neighbours(v));
                self.placed_neighbours(b) == most
            }
            _ => self.offered().holds(b),
        }
    }

    /// The offered point that stands last in the preference list.
    pub fn last_offered(&mut self, tie_break: &[u16], rank: &[u16; MOST]) -> u16 {
        let rank = |v: u16| rank[v as usize % MOST] as u32;
        match self.kind {
            MNS => {
                let candidates = self.candidates();
                let may_come = |v: &&u16| candidates.holds(**v) && self.maximal(**v);
                *tie_break.iter().rfind(may_come).unwrap()
            }
            MCS => {
                // A rank has nine bits.
                let count_and_rank = |v: u16| self.placed_neighbours(v) << 9 | rank(v);
                let last = largest(&self.candidates(), count_and_rank) & 511;
                tie_break[last as usize]
            }
            _ => tie_break[largest(&self.offered(), rank) as usize],
        }
    }
}
