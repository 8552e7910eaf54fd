//! Group j: what the program of the crate `ways_back` prints, line by line. The list of calls is the program's. Each
//! way is also measured: no way over links from its first point to its last has fewer.

use std::fmt::Write;
use std::process::exit;

use outside::definition::way_back::{is_shortest_path, way_back};
use outside::definition::{Mark, MARKS};

use crate::printed;

const TREE: [u64; 4] = [6, 9, 1, 2];
const RING: [u64; 6] = [34, 5, 10, 20, 40, 17];
const PIECES: [u64; 6] = [6, 5, 3, 16, 8, 0];
const MESH: [u64; 6] = [14, 17, 17, 49, 46, 24];
const DOWN: [u64; 4] = [6, 8, 0, 0];
const ROUND: [u64; 4] = [2, 4, 8, 1];
const INFLOW: [u64; 6] = [6, 8, 0, 0, 40, 1];
const BRANCHES: [u64; 5] = [16, 12, 16, 17, 3];
const IN_TURN: [u8; 4] = [0, 1, 2, 3];
const TURNED: [u8; 4] = [0, 1, 3, 2];
const UPSTREAM: [u8; 4] = [3, 1, 0, 2];
const ROUND_FROM_2: [u8; 4] = [2, 3, 0, 1];
const RING_FROM_0: [u8; 6] = [0, 1, 5, 2, 4, 3];
const RING_TURNED: [u8; 6] = [0, 5, 1, 4, 2, 3];
const RING_ROUND: [u8; 6] = [0, 1, 2, 3, 4, 5];
const PIECES_FROM_5: [u8; 6] = [5, 2, 1, 0, 3, 4];
const PIECES_FROM_4: [u8; 6] = [4, 3, 5, 1, 0, 2];
const MESH_FROM_0: [u8; 6] = [0, 2, 3, 1, 4, 5];
const MESH_FROM_5: [u8; 6] = [5, 4, 3, 1, 2, 0];
const MESH_FROM_4: [u8; 6] = [4, 5, 1, 2, 3, 0];
const INFLOW_FROM_0: [u8; 6] = [0, 1, 2, 3, 4, 5];
const INFLOW_FROM_3: [u8; 6] = [3, 0, 2, 1, 4, 5];
const INFLOW_FROM_4: [u8; 6] = [4, 5, 3, 0, 1, 2];
const BRANCHES_FROM_0: [u8; 5] = [0, 4, 1, 2, 3];
const BRANCHES_FROM_1: [u8; 5] = [1, 2, 3, 4, 0];

/// All points but 1.
const OTHERS: u64 = !2;

/// Places of a walk of 64 points, a given point, and the length of the output list.
const FAR: [(usize, u8, usize); 7] = [
    (64, 1, 64),
    (64, 63, 64),
    (64, 62, 66),
    (40, 39, 64),
    (40, 40, 64),
    (64, 64, 64),
    (64, 63, 63),
];

/// On one point at most: how many there are, places of the walk, a given point, and the length of the output list.
const SMALLEST: [(usize, usize, u8, usize); 8] = [
    (1, 1, 0, 1),
    (1, 1, 0, 3),
    (1, 1, 1, 1),
    (1, 1, 0, 0),
    (1, 0, 0, 1),
    (0, 0, 0, 0),
    (0, 0, 0, 3),
    (0, 0, 255, 0),
];

/// A given point and the length of the output list, for a walk on the tree that fails, and for its first point alone.
const FAILING: [(u8, usize); 5] = [(0, 3), (4, 0), (255, 3), (2, 3), (1, 4)];
const PASSING: [(u8, usize); 9] =
    [(2, 3), (3, 0), (4, 3), (63, 3), (64, 3), (255, 3), (1, 3), (1, 0), (1, 4)];

/// The lines that are expected, and how many calls they show.
struct Lines {
    text: String,
    calls: u64,
}

impl Lines {
    fn trace(&mut self, mark: Mark, rows: &[u64], walk: &[u8], v: u8, room: usize) {
        let output: Vec<u8> = (100..).take(room).collect();
        let (answer, after) = way_back(mark, rows, walk, v, &output);
        self.calls += 1;
        let (answer, count) = match answer {
            Ok(count) => (0, count),
            Err(number) => (number, 0),
        };
        if answer == 0 && !is_shortest_path(rows, walk, v, &after[..count]) {
            eprintln!("NO SHORTEST WAY in group j, line {}", self.calls);
            exit(1)
        }
        let mark = match mark {
            Mark::TwoWay => 0,
            Mark::OneWay => 1,
        };
        let (n, k) = (rows.len(), walk.len());
        let bytes: String = after.iter().map(|byte| format!(" {byte}")).collect();
        writeln!(self.text, "{mark} {n} {k} {v} {room} {answer} {count}{bytes}")
            .expect("a string takes any line");
    }

    fn traced(&mut self, mark: Mark, rows: &[u64], walk: &[u8], room: usize) {
        for v in [0, 1, 2, 3, 4, 5, 255] {
            self.trace(mark, rows, walk, v, room);
        }
    }

    fn both_ways(&mut self, mark: Mark) {
        self.traced(mark, &TREE, &IN_TURN, 4);
        self.traced(mark, &TREE, &UPSTREAM, 6);
        self.traced(mark, &TREE, &UPSTREAM[..3], 5);
        self.traced(mark, &TREE, &TURNED, 4);
        for walk in [&RING_FROM_0[..], &RING_TURNED, &RING_TURNED[..5], &RING_TURNED[..1], &[]] {
            self.traced(mark, &RING, walk, 6);
        }
        for walk in [&RING_ROUND[..2], &RING_ROUND] {
            self.traced(mark, &RING, walk, 6);
        }
        for walk in [&PIECES_FROM_5[..], &PIECES_FROM_4, &PIECES_FROM_4[..4]] {
            self.traced(mark, &PIECES, walk, 6);
        }
        for walk in [&MESH_FROM_0[..], &MESH_FROM_5, &MESH_FROM_5[..3], &MESH_FROM_4] {
            self.traced(mark, &MESH, walk, 6);
        }
    }

    fn one_way(&mut self) {
        let mark = Mark::OneWay;
        self.traced(mark, &DOWN, &IN_TURN, 4);
        self.traced(mark, &DOWN, &IN_TURN[..2], 4);
        self.traced(mark, &DOWN, &UPSTREAM, 5);
        self.traced(mark, &DOWN, &TURNED, 4);
        self.traced(mark, &ROUND, &ROUND_FROM_2, 4);
        self.traced(mark, &ROUND, &ROUND_FROM_2[..3], 6);
        self.traced(mark, &ROUND, &TURNED, 4);
    }

    fn leading_back(&mut self) {
        for walk in [&INFLOW_FROM_0[..], &INFLOW_FROM_3, &INFLOW_FROM_4, &INFLOW_FROM_4[..5]] {
            self.traced(Mark::OneWay, &INFLOW, walk, 6);
        }
        self.traced(Mark::OneWay, &BRANCHES, &BRANCHES_FROM_0, 5);
        self.traced(Mark::OneWay, &BRANCHES, &BRANCHES_FROM_1, 6);
        self.traced(Mark::OneWay, &BRANCHES, &BRANCHES_FROM_1[..4], 5);
        self.traced(Mark::TwoWay, &BRANCHES, &BRANCHES_FROM_1, 5);
    }

    fn largest(&mut self) {
        let all: Vec<u8> = (0..64).collect();
        let path: Vec<u64> = (0..64).map(|v| (1 << v >> 1) | (1 << v << 1)).collect();
        let round_1 = |one, other| {
            let mut rows = [other; 64];
            rows[1] = one;
            rows
        };
        for (mark, rows) in [
            (Mark::TwoWay, &path[..]),
            (Mark::OneWay, &path),
            (Mark::TwoWay, &round_1(OTHERS, 2)),
            (Mark::OneWay, &round_1(OTHERS, 0)),
            (Mark::OneWay, &round_1(0, 2)),
        ] {
            for (k, v, room) in FAR {
                self.trace(mark, rows, &all[..k], v, room);
            }
        }
    }

    fn smallest(&mut self, mark: Mark) {
        for (n, k, v, room) in SMALLEST {
            self.trace(mark, &[0][..n], &[0][..k], v, room);
        }
    }

    fn refused_walks(&mut self, mark: Mark) {
        self.trace(mark, &[1; 65], &[99; 66], 77, 64);
        for first_row in [19, 3, 2] {
            self.trace(mark, &[first_row, 9, 1, 2], &[9; 5], 77, 3);
        }
        for walk in [&[9; 5][..], &[9; 2], &[1, 2, 1]] {
            self.trace(mark, &TREE, walk, 77, 3);
        }
    }

    fn refused_ways(&mut self, mark: Mark) {
        for (v, room) in FAILING {
            self.trace(mark, &TREE, &[1, 2], v, room);
        }
        for (v, room) in PASSING {
            self.trace(mark, &TREE, &[1], v, room);
        }
    }
}

pub fn compare() -> u64 {
    let mut lines = Lines { text: String::new(), calls: 0 };
    MARKS.into_iter().for_each(|mark| lines.both_ways(mark));
    lines.one_way();
    lines.leading_back();
    lines.largest();
    MARKS.into_iter().for_each(|mark| lines.smallest(mark));
    MARKS.into_iter().for_each(|mark| lines.refused_walks(mark));
    MARKS.into_iter().for_each(|mark| lines.refused_ways(mark));
    printed::compare("j, ways back", "ways_back", &lines.text, lines.calls)
}
