//! Group h: what the program of the crate `charged_walks` prints, line by line. The list of calls is the program's; that
//! it meets every remainder of 60, above an even and above an odd number of cents, is checked here.

use std::collections::BTreeSet;
use std::fmt::Write;

use outside::definition::charge::{charge, minutes_of, Halves};
use outside::definition::{bytes, Graph, Kind, Mark, GENERIC, KINDS, MARKS, MCS};

use crate::printed;

const TREE: [u64; 4] = [6, 9, 1, 2];
const RING: [u64; 4] = [10, 5, 10, 5];
const PIECES: [u64; 5] = [6, 13, 3, 2, 0];
const DOWN: [u64; 4] = [6, 8, 0, 0];
const ROUND: [u64; 4] = [2, 4, 8, 1];
const IN_TURN: [u8; 4] = [0, 1, 2, 3];
const TURNED: [u8; 4] = [0, 1, 3, 2];
const UPSTREAM: [u8; 4] = [3, 1, 0, 2];
const RESTARTED: [u8; 5] = [4, 3, 1, 0, 2];
const FAILING: [u8; 2] = [0, 2];
const MINUTES: [u16; 4] = [10, 20, 5, 30];
const LONG: [u16; 5] = [999, 0, 1, 998, 7];

const RATES: [u64; 7] = [0, 29, 30, 31, 4530, 99_999, 100_000];

/// Minutes of a single point, and a rate.
const SINGLE: [(u16, u64); 10] = [
    (1, 29),
    (1, 30),
    (1, 31),
    (3, 29),
    (3, 30),
    (3, 31),
    (5, 30),
    (1, 90),
    (999, 30),
    (999, 99_999),
];

/// The lines that are expected, and how many calls they show.
struct Lines {
    text: String,
    calls: u64,
}

/// One plan of either mark.
type Plan<'a> = (Mark, &'a [u64]);

impl Lines {
    fn charge(&mut self, kind: Kind, plan: Plan, walk: &[u8], minutes: &[u16], rate: u64) {
        let (mark, rows) = plan;
        let number = match mark {
            Mark::TwoWay => 0,
            Mark::OneWay => 1,
        };
        let (n, k, m) = (rows.len(), walk.len(), minutes.len());
        write!(self.text, "{kind} {number} {n} {k} {m} {rate}").expect("a string takes any text");
        for halves in [Halves::ToEven, Halves::Up] {
            let (answer, cents) = match charge(kind, mark, rows, walk, minutes, rate, halves) {
                Ok(cents) => (0, cents),
                Err(number) => (number, 0),
            };
            write!(self.text, " {answer} {cents}").expect("a string takes any text");
            self.calls += 1;
        }
        self.text.push('\n');
    }

    fn rated(&mut self, kind: Kind, plan: Plan, walk: &[u8], minutes: &[u16]) {
        for rate in RATES {
            self.charge(kind, plan, walk, minutes, rate);
        }
    }

    fn both_ways(&mut self, kind: Kind, mark: Mark) {
        for walk in [IN_TURN, TURNED, UPSTREAM] {
            self.rated(kind, (mark, &TREE), &walk, &MINUTES);
        }
        for walk in [&IN_TURN[..], &TURNED, &TURNED[..3], &FAILING] {
            self.rated(kind, (mark, &RING), walk, &MINUTES);
        }
        for walk in [&RESTARTED[..], &IN_TURN[..1], &[]] {
            self.rated(kind, (mark, &PIECES), walk, &LONG);
        }
    }

    fn one_way(&mut self, kind: Kind) {
        for walk in [IN_TURN, TURNED, UPSTREAM] {
            self.rated(kind, (Mark::OneWay, &DOWN), &walk, &MINUTES);
        }
        for walk in [IN_TURN, TURNED] {
            self.rated(kind, (Mark::OneWay, &ROUND), &walk, &MINUTES);
        }
        self.rated(kind, (Mark::TwoWay, &DOWN), &UPSTREAM, &MINUTES);
    }

    /// The exact products have every remainder of 120: every remainder of 60, above an even and above an odd number of
    /// cents.
    fn rates_in_a_row(&mut self, rows: &[u64], walk: &[u8], minutes: &[u16], first: u64) {
        let rates = first..first + 128;
        let spent = minutes_of(&Graph::from_plan(&bytes(rows)), walk, minutes);
        let remainders: BTreeSet<u64> = rates.clone().map(|rate| spent * rate % 120).collect();
        assert_eq!(remainders.len(), 120);
        for rate in rates {
            self.charge(GENERIC, (Mark::TwoWay, rows), walk, minutes, rate);
        }
    }

    fn small_products(&mut self) {
        self.rates_in_a_row(&[0], &[0], &[1], 0);
    }

    fn large_products(&mut self) {
        let all: Vec<u8> = (0..64).collect();
        let mut minutes = [999; 64];
        minutes[0] = 995;
        self.rates_in_a_row(&[0; 64], &all, &minutes, 99_840);
    }

    fn refused_walks(&mut self, mark: Mark) {
        let few = [1000; 3];
        self.charge(7, (mark, &[1; 65]), &[99; 66], &few, 100_000);
        self.charge(6, (mark, &[1; 65]), &[99; 66], &few, 100_000);
        for first_row in [19, 3, 2] {
            self.charge(6, (mark, &[first_row, 5, 10, 5]), &[9; 5], &few, 100_000);
        }
        for walk in [&[9; 5][..], &[9; 2], &[0, 1, 0]] {
            self.charge(6, (mark, &RING), walk, &few, 100_000);
        }
    }

    fn refused_bills(&mut self, mark: Mark) {
        let above = [10, 20, 5, 1000];
        let far_above = [65535, 20, 5, 30];
        for minutes in [&MINUTES[..3], &LONG, &above, &far_above] {
            self.charge(6, (mark, &RING), &FAILING, minutes, 100_000);
        }
        for rate in [100_000, u64::MAX, 99_999] {
            self.charge(6, (mark, &RING), &FAILING, &MINUTES, rate);
        }
        for minutes in [above, MINUTES] {
            self.charge(6, (mark, &RING), &FAILING[..1], &minutes, 99_999);
        }
    }

    fn largest(&mut self, kind: Kind, mark: Mark) {
        let all: Vec<u8> = (0..64).collect();
        self.charge(kind, (mark, &[0; 64]), &all, &[999; 64], 99_999);
    }
}

pub fn compare() -> u64 {
    let mut lines = Lines { text: String::new(), calls: 0 };
    for kind in KINDS {
        lines.both_ways(kind, Mark::TwoWay);
        lines.both_ways(kind, Mark::OneWay);
        lines.one_way(kind);
    }
    for (minutes, rate) in SINGLE {
        lines.charge(GENERIC, (Mark::TwoWay, &[0]), &[0], &[minutes], rate);
    }
    lines.small_products();
    lines.large_products();
    MARKS.into_iter().for_each(|mark| lines.refused_walks(mark));
    MARKS.into_iter().for_each(|mark| lines.refused_bills(mark));
    for kind in KINDS {
        lines.largest(kind, Mark::TwoWay);
    }
    lines.largest(MCS, Mark::OneWay);
    for (kind, mark) in [(GENERIC, Mark::TwoWay), (MCS, Mark::TwoWay), (MCS, Mark::OneWay)] {
        lines.rated(kind, (mark, &[]), &[], &[]);
    }
    printed::compare("h, charged walks", "charged_walks", &lines.text, lines.calls)
}
