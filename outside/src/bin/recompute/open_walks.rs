//! Group e: what the program of the crate `open_walks` prints, line by line. The list of calls is the program's. Nothing
//! is barred in any of them.

use std::fmt::Write;

use outside::definition::open_walk::OpenWalk;
use outside::definition::{Kind, Mark, KINDS, MARKS, MCS, NONE_BARRED};

use crate::printed;

const RING: [u64; 4] = [10, 5, 10, 5];
const PIECES: [u64; 5] = [6, 13, 3, 2, 0];
const INFLOW: [u64; 5] = [10, 12, 16, 4, 1];
const BRANCHES: [u64; 5] = [16, 12, 16, 17, 3];
const TAKE_BACK: u8 = 254;

const CALLS: [u8; 16] =
    [TAKE_BACK, 1, 9, 1, 3, 2, 0, TAKE_BACK, 0, 2, 3, 4, 0, TAKE_BACK, TAKE_BACK, 3];

/// Of a state that nobody opened: n, k, the first and the last row, the first two places and the last.
type Made = (usize, usize, u64, u64, u8, u8, u8);

const DAMAGED: [Made; 12] = [
    (4, 1, 10, 0, 1, 0, 0),
    (65, 1, 10, 0, 1, 0, 0),
    (4, 65, 10, 0, 1, 0, 0),
    (4, 5, 10, 0, 1, 0, 0),
    (4, 1, 26, 0, 1, 0, 0),
    (4, 1, 11, 0, 1, 0, 0),
    (4, 1, 10, 1, 1, 0, 0),
    (4, 1, 10, 0, 7, 0, 0),
    (4, 2, 10, 0, 1, 1, 0),
    (4, 2, 10, 0, 1, 3, 0),
    (4, 1, 10, 0, 1, 3, 0),
    (4, 1, 10, 0, 1, 0, 3),
];

/// On a ring in which 3 leads to 0 and 0 not to 3.
const VALVE: [Made; 3] = [(4, 1, 2, 0, 1, 0, 0), (4, 2, 2, 0, 3, 0, 0), (4, 2, 2, 0, 0, 3, 0)];

/// The lines that are expected, and how many calls they show.
struct Lines {
    text: String,
    calls: u64,
}

impl Lines {
    fn show(&mut self, walk: &OpenWalk) {
        let (set, answer) = walk.offered();
        let (mark, n, k) = (number(walk.mark), walk.n, walk.k);
        let [a, b, c, d, e] = [0, 1, 2, 3, 4].map(|p| walk.places[p]);
        writeln!(self.text, " {answer} {set} {mark} {n} {k} {a} {b} {c} {d} {e}")
            .expect("a string takes any line");
        self.calls += 2;
    }

    fn step(&mut self, walk: OpenWalk, call: u8) -> OpenWalk {
        let (next, answer) = if call == TAKE_BACK { walk.take_back() } else { walk.place(call) };
        self.text += &format!("{} {call} {answer}", walk.kind);
        self.show(&next);
        next
    }

    fn play(&mut self, kind: Kind, mark: Mark, rows: &[u64]) {
        let (opened, _) = OpenWalk::open(kind, mark, rows, NONE_BARRED);
        CALLS.iter().fold(opened, |walk, &call| self.step(walk, call));
    }

    fn made(&mut self, kind: Kind, mark: Mark, list: &[Made]) {
        for &(n, k, first_row, last_row, first, second, last) in list {
            let (rows, places) = ([0; 64], [0; 64]);
            let mut walk = OpenWalk { kind, mark, n, rows, barred: NONE_BARRED, k, places };
            walk.rows[..4].copy_from_slice(&RING);
            walk.rows[0] = first_row;
            walk.rows[63] = last_row;
            walk.places[..2].copy_from_slice(&[first, second]);
            walk.places[63] = last;
            let next = self.step(walk, 0);
            self.step(next, TAKE_BACK);
        }
    }

    fn open(&mut self, kind: Kind, mark: Mark, rows: &[u64]) {
        let (walk, answer) = OpenWalk::open(kind, mark, rows, NONE_BARRED);
        self.text += &format!("{kind} {} {answer}", number(mark));
        self.show(&walk);
        let next = self.step(walk, 0);
        self.step(next, TAKE_BACK);
    }

    fn opens(&mut self, mark: Mark) {
        self.open(7, mark, &RING);
        self.open(0, mark, &[0; 65]);
        self.open(1, mark, &with_first_row(26));
        self.open(2, mark, &with_first_row(11));
        self.open(3, mark, &with_first_row(2));
        self.open(6, mark, &INFLOW);
    }
}

/// As a program prints a mark.
pub fn number(mark: Mark) -> u8 {
    match mark {
        Mark::TwoWay => 0,
        Mark::OneWay => 1,
    }
}

fn with_first_row(row: u64) -> [u64; 4] {
    let mut rows = RING;
    rows[0] = row;
    rows
}

pub fn compare() -> u64 {
    let mut lines = Lines { text: String::new(), calls: 0 };
    for kind in KINDS {
        lines.play(kind, Mark::TwoWay, &RING);
        lines.play(kind, Mark::TwoWay, &PIECES);
        lines.play(kind, Mark::OneWay, &INFLOW);
        lines.play(kind, Mark::OneWay, &BRANCHES);
        lines.made(kind, Mark::TwoWay, &DAMAGED);
        lines.made(kind, Mark::TwoWay, &VALVE);
        lines.made(kind, Mark::OneWay, &VALVE);
    }
    lines.play(MCS, Mark::OneWay, &RING);
    lines.made(MCS, Mark::OneWay, &DAMAGED);
    lines.made(7, Mark::TwoWay, &DAMAGED);
    lines.made(7, Mark::OneWay, &DAMAGED);
    MARKS.into_iter().for_each(|mark| lines.opens(mark));
    printed::compare("e, open walks", "open_walks", &lines.text, lines.calls)
}
