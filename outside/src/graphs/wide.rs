//! Plans to try in the wide form, as tables of eight words a row.

use super::Pair;
use crate::definition::wide::{Plan, MOST, WORDS};
use crate::definition::Mark;
use crate::random::Random;

/// Sets or clears bit v of row u; no row has a bit for a point of 512 or more.
pub fn set(table: &mut [u64], (u, v): Pair, value: bool) {
    if v < MOST {
        let bit = 1 << (v % 64);
        let word = &mut table[WORDS * u + v / 64];
        *word = if value { *word | bit } else { *word & !bit };
    }
}

/// The same with the link the other way.
pub fn set_both_ways(table: &mut [u64], (u, v): Pair, value: bool) {
    set(table, (u, v), value);
    set(table, (v, u), value);
}

/// The table of a plan of at most 64 points.
pub fn from_plan(plan: &[u8]) -> Vec<u64> {
    let row = |bytes: &[u8]| u64::from_le_bytes(bytes.try_into().expect("eight bytes"));
    plan.chunks_exact(8).flat_map(|bytes| [row(bytes), 0, 0, 0, 0, 0, 0, 0]).collect()
}

/// The plan of a table of at most 64 points: the first word of each row.
pub fn to_plan(table: &[u64]) -> Vec<u8> {
    table.chunks_exact(WORDS).flat_map(|row| row[0].to_le_bytes()).collect()
}

/// Links each pair with the given chance out of a thousand, one-way each direction by itself.
pub fn scattered(random: &mut Random, mark: Mark, n: usize, thousandths: usize) -> Vec<u64> {
    let mut table = vec![0; WORDS * n];
    for v in 0..n {
        for u in 0..v {
            if random.below(1000) < thousandths {
                set(&mut table, (u, v), true);
            }
            let back = match mark {
                Mark::TwoWay => Plan(&table).leads_to(u, v),
                Mark::OneWay => random.below(1000) < thousandths,
            };
            set(&mut table, (v, u), back);
        }
    }
    table
}

/// A two-way plan in one piece in which a point has about three neighbours.
pub fn sparse_connected(random: &mut Random, n: usize) -> Vec<u64> {
    let mut table = vec![0; WORDS * n];
    let names = random.wide_permutation(n);
    let name = |u: usize| names[u] as usize;
    for v in 1..n {
        set_both_ways(&mut table, (name(random.below(v)), name(v)), true);
    }
    while count_links(&table) < n * 3 / 2 {
        let (u, v) = (random.below(n), random.below(n));
        if u != v {
            set_both_ways(&mut table, (u, v), true);
        }
    }
    table
}

/// A two-way plan in which about half of all pairs are linked.
pub fn dense(random: &mut Random, n: usize) -> Vec<u64> {
    scattered(random, Mark::TwoWay, n, 500)
}

fn count_links(table: &[u64]) -> usize {
    table.iter().map(|word| word.count_ones() as usize).sum::<usize>() / 2
}
