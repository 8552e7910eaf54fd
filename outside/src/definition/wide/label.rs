//! Sets of places, and which of two is ahead.

use super::WORDS;
use crate::definition::{Kind, Position, BFS, DFS, GENERIC, LEX_BFS, LEX_DFS, MCS, MNS};

/// Place p is bit p mod 64 of word p div 64.
#[derive(Clone, Copy, PartialEq, Eq, Debug)]
pub struct Label([u64; WORDS]);

impl Label {
    pub const EMPTY: Label = Label([0; WORDS]);

    pub fn insert(&mut self, place: Position) {
        self.0[place / 64] |= 1 << (place % 64);
    }

    fn holds(&self, place: Position) -> bool {
        self.0[place / 64] >> (place % 64) & 1 == 1
    }

    fn smallest(&self) -> Option<Position> {
        let word = (0..WORDS).find(|&i| self.0[i] != 0)?;
        Some(64 * word + self.0[word].trailing_zeros() as usize)
    }

    fn largest(&self) -> Option<Position> {
        let word = (0..WORDS).rfind(|&i| self.0[i] != 0)?;
        Some(64 * word + 63 - self.0[word].leading_zeros() as usize)
    }

    fn how_many(&self) -> u32 {
        self.0.iter().map(|word| word.count_ones()).sum()
    }

    /// The places that are in just one of the two.
    fn in_just_one(&self, other: &Label) -> Label {
        Label(std::array::from_fn(|i| self.0[i] ^ other.0[i]))
    }

    fn is_subset(&self, other: &Label) -> bool {
        (0..WORDS).all(|i| self.0[i] & !other.0[i] == 0)
    }
}

/// A point with label c is ahead of one with label b.
pub fn outranks(kind: Kind, c: &Label, b: &Label) -> bool {
    match kind {
        GENERIC => *c != Label::EMPTY && *b == Label::EMPTY,
        BFS => match (c.smallest(), b.smallest()) {
            (Some(of_c), Some(of_b)) => of_c < of_b,
            (Some(_), None) => true,
            (None, _) => false,
        },
        DFS => match (c.largest(), b.largest()) {
            (Some(of_c), Some(of_b)) => of_c > of_b,
            (Some(_), None) => true,
            (None, _) => false,
        },
        LEX_BFS => c.in_just_one(b).smallest().is_some_and(|p| c.holds(p)),
        LEX_DFS => c.in_just_one(b).largest().is_some_and(|p| c.holds(p)),
        MNS => b.is_subset(c) && b != c,
        MCS => c.how_many() > b.how_many(),
        _ => unreachable!("no such kind"),
    }
}
