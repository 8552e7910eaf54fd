//! The plans of group q, drawn by a rule from a few numbers.

use std::fmt;

use outside::definition::wide::{MOST, WORDS};
use outside::definition::{Mark, MARKS};
use outside::graphs::wide::set;

use super::Plan;
use crate::open_walks::number;

/// Faults that are put into a plan: bits of one number.
const BIT_OUTSIDE: u64 = 1;
const SELF_LOOP: u64 = 2;
const ONE_WAY: u64 = 4;

/// The numbers from which a plan is drawn.
pub struct Drawn {
    mark: Mark,
    size: usize,
    /// How many of 64 pairs are linked.
    chance: u64,
    /// Only points with the same remainder by this number are linked.
    pieces: usize,
    seed: u64,
    damage: u64,
    /// How many words of the table are passed.
    words: usize,
}

/// The xorshift step.
fn next(word: u64) -> u64 {
    let word = word ^ word << 13;
    let word = word ^ word >> 7;
    word ^ word << 17
}

impl Drawn {
    pub fn read(words: &str) -> Option<Drawn> {
        let numbers: Vec<u64> =
            words.split_whitespace().map(|word| word.parse().ok()).collect::<Option<_>>()?;
        let [mark, size, chance, pieces, seed, damage, words] = numbers[..] else { return None };
        Some(Drawn {
            mark: MARKS.into_iter().find(|&own| number(own) as u64 == mark)?,
            size: size as usize,
            chance,
            pieces: (pieces > 0).then_some(pieces as usize)?,
            seed,
            damage,
            words: words as usize,
        })
    }

    /// The numbers for u and v say that there is an arc.
    fn is_drawn(&self, u: usize, v: usize) -> bool {
        let hash = next(next(next(self.seed ^ (u * 1024 + v + 1) as u64)));
        (hash >> 33) % 64 < self.chance
    }

    fn leads_to(&self, u: usize, v: usize) -> bool {
        u != v
            && u % self.pieces == v % self.pieces
            && match self.mark {
                Mark::TwoWay => self.is_drawn(u.min(v), u.max(v)),
                Mark::OneWay => self.is_drawn(u, v),
            }
    }

    fn has(&self, damage: u64) -> bool {
        self.damage & damage != 0
    }

    /// Puts in the faults for which there are rows and bits.
    fn damaged(&self, mut table: Vec<u64>) -> Vec<u64> {
        let n = self.size;
        if self.has(BIT_OUTSIDE) && n > 0 {
            set(&mut table, (0, n), true);
        }
        if self.has(SELF_LOOP) && n > 0 {
            set(&mut table, (n - 1, n - 1), true);
        }
        if self.has(ONE_WAY) && n > 1 {
            set(&mut table, (0, 1), true);
            set(&mut table, (1, 0), false);
        }
        table
    }

    pub fn plan(&self) -> Plan {
        let n = self.size;
        let mut table = vec![0; WORDS * n];
        for u in 0..n {
            for v in (0..n.min(MOST)).filter(|&v| self.leads_to(u, v)) {
                set(&mut table, (u, v), true);
            }
        }
        let mut table = self.damaged(table);
        table.resize(self.words, 0);
        Plan { mark: self.mark, pieces: self.pieces, table }
    }
}

/// As it is printed.
impl fmt::Display for Drawn {
    fn fmt(&self, f: &mut fmt::Formatter) -> fmt::Result {
        let Drawn { mark, size, chance, pieces, seed, damage, words } = self;
        write!(f, "p {} {size} {chance} {pieces} {seed} {damage} {words}", number(*mark))
    }
}
