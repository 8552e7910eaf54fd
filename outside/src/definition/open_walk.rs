//! The open walk of 01, with the barred points of 02, by trying everything: a state that anyone may fill in, and its
//! four calls.

use super::without::{is_barred, Without};
use super::{bytes, first_of, judge, offered, plan_refusal, Graph, Kind, Mark, Vertex};

#[derive(Clone, PartialEq, Eq, Debug)]
pub struct OpenWalk {
    pub kind: Kind,
    pub mark: Mark,
    pub n: usize,
    pub rows: [u64; 64],
    pub barred: u64,
    pub k: usize,
    pub places: [u8; 64],
}

/// A refusal's number, or 0.
pub type Answer = u32;

impl OpenWalk {
    /// Two-way, of kind 0, with n = 0 and everything else 0.
    fn nothing() -> OpenWalk {
        let (rows, places) = ([0; 64], [0; 64]);
        OpenWalk { kind: 0, mark: Mark::TwoWay, n: 0, rows, barred: 0, k: 0, places }
    }

    pub fn open(kind: Kind, mark: Mark, rows: &[u64], barred: u64) -> (OpenWalk, Answer) {
        if let Some(number) = plan_refusal(kind, mark, &bytes(rows), barred) {
            return (OpenWalk::nothing(), number);
        }
        let mut walk = OpenWalk { kind, mark, n: rows.len(), barred, ..OpenWalk::nothing() };
        walk.rows[..rows.len()].copy_from_slice(rows);
        (walk, 0)
    }

    /// Its kind and plan are valid, its barred set has no bit at or above n, its walk is distinct points of the plan, of
    /// which none is barred, and passes without the barred ones, and unused rows and places are 0.
    pub fn well_formed(&self) -> bool {
        self.n <= 64
            && self.k <= self.n
            && self.rows[self.n..].iter().all(|&row| row == 0)
            && self.places[self.k..].iter().all(|&v| v == 0)
            && judge(self.kind, self.mark, &self.plan(), self.barred, self.placed()) == 0
    }

    fn plan(&self) -> Vec<u8> {
        bytes(&self.rows[..self.n])
    }

    /// The walk that is held; k is at most 64.
    pub fn placed(&self) -> &[u8] {
        &self.places[..self.k]
    }

    /// The plan without the barred points; n is at most 64.
    pub fn smaller(&self) -> Without {
        Without::new(&Graph::from_plan(&self.plan()), self.barred)
    }

    /// The offered points of the smaller plan, named back.
    pub fn next_points(&self) -> Vec<Vertex> {
        let smaller = self.smaller();
        let next = offered(self.kind, smaller.graph(), &smaller.numbered(self.placed()));
        next.into_iter().map(|i| smaller.name(i)).collect()
    }

    pub fn offered(&self) -> (u64, Answer) {
        if !self.well_formed() {
            return (0, 13);
        }
        (self.next_points().iter().map(|&v| 1u64 << v).sum(), 0)
    }

    pub fn place(&self, v: u8) -> (OpenWalk, Answer) {
        let refusal = first_of(&[
            (13, &|| !self.well_formed()),
            (14, &|| self.k == self.smaller().size()),
            (8, &|| v as usize >= self.n),
            (24, &|| is_barred(self.barred, v as Vertex)),
            (15, &|| self.placed().contains(&v)),
            (16, &|| !self.next_points().contains(&(v as Vertex))),
        ]);
        let mut next = self.clone();
        if let Some(number) = refusal {
            return (next, number);
        }
        next.places[self.k] = v;
        next.k += 1;
        (next, 0)
    }

    pub fn take_back(&self) -> (OpenWalk, Answer) {
        let refusal = first_of(&[(13, &|| !self.well_formed()), (17, &|| self.k == 0)]);
        let mut next = self.clone();
        if let Some(number) = refusal {
            return (next, number);
        }
        next.k -= 1;
        next.places[next.k] = 0;
        (next, 0)
    }
}

#[cfg(test)]
mod tests;
