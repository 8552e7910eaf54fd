//! Judge and carry-on on 64-bit words, made to be fast and not proved.
//!
//! Sets of points are words. The offered points come from the rows of the
//! placed points; no label is built. Nothing is allocated. Barred points are
//! left out of the unplaced ones; no smaller plan is built.

mod search;
pub mod wide;

use crate::definition::{Kind, BFS, DFS, LEX_BFS, LEX_DFS, MCS};
use search::Search;

const FAILED: u32 = 1 << 24;

/// A valid plan.
struct Graph {
    rows: [u64; 64],
    size: usize,
    /// The points that are not barred.
    in_service: u64,
}

/// The set of the points 0 to n - 1.
fn below(n: usize) -> u64 {
    if n < 64 {
        (1 << n) - 1
    } else {
        !0
    }
}

fn holds(set: u64, v: u8) -> bool {
    set >> (v & 63) & 1 == 1
}

/// Every link stands in both of its rows. Not inlined: inlined, calls on walks that pass took 3 to 5 percent longer.
#[inline(never)]
fn two_way(rows: &[u64; 64], n: usize) -> bool {
    for u in 0..n {
        let mut neighbours = rows[u];
        while neighbours != 0 {
            let v = neighbours.trailing_zeros() as usize;
            if rows[v] >> u & 1 == 0 {
                return false;
            }
            neighbours &= neighbours - 1;
        }
    }
    true
}

impl Graph {
    /// Refusals 1 to 5, and 23.
    fn read(kind: Kind, plan: &[u8], barred: u64) -> Result<Graph, u32> {
        if kind > 6 {
            return Err(1);
        }
        let size = plan.len() / 8;
        if !plan.len().is_multiple_of(8) || size > 64 {
            return Err(2);
        }
        let mut rows = [0; 64];
        let mut bits = 0;
        let mut own = 0;
        for (u, bytes) in plan.chunks_exact(8).enumerate() {
            let row = u64::from_le_bytes(bytes.try_into().unwrap());
            rows[u] = row;
            bits |= row;
            own |= row >> u & 1;
        }
        if bits & !below(size) != 0 {
            return Err(3);
        }
        if own != 0 {
            return Err(4);
        }
        if !two_way(&rows, size) {
            return Err(5);
        }
        if barred & !below(size) != 0 {
            return Err(23);
        }
        Ok(Graph { rows, size, in_service: below(size) & !barred })
    }

    fn row(&self, v: u8) -> u64 {
        self.rows[(v & 63) as usize]
    }
}

fn any_outside(n: usize, list: &[u8]) -> bool {
    list.iter().any(|&v| v as usize >= n)
}

/// The points of a list.
fn set(points: &[u8]) -> u64 {
    points.iter().fold(0, |set, &v| set | 1 << (v & 63))
}

/// A point stands twice in the list, which has these points below 64 and no others.
fn any_twice(points: u64, list: &[u8]) -> bool {
    points.count_ones() as usize != list.len()
}

fn failure_code(a: u8, b: u8, c: u8) -> u32 {
    FAILED | (a as u32) << 16 | (b as u32) << 8 | c as u32
}

/// The first triple whose middle point is the one at place i, which was not offered; for every kind but MCS.
fn first_violation(kind: Kind, graph: &Graph, walk: &[u8], i: usize) -> u32 {
    let b = walk[i];
    let before = set(&walk[..i]);
    let unplaced = graph.in_service & !set(walk);
    let mut earlier = 0;
    for &a in &walk[..i] {
        let row = graph.row(a);
        let range = match kind {
            BFS | LEX_BFS => earlier,
            DFS | LEX_DFS => before & !earlier & !(1 << a),
            _ => before,
        };
        earlier |= 1 << a;
        if holds(row, b) {
            continue;
        }
        let excuses = graph.row(b) & range;
        let kept = if kind >= LEX_BFS { excuses } else { 0 };
        let violated = |c: u8| holds(row, c) && excuses & !(kept & graph.row(c)) == 0;
        let found = walk[i + 1..]
            .iter()
            .copied()
            .find(|&c| violated(c))
            .or_else(|| (0..graph.size as u8).find(|&c| holds(unplaced, c) && violated(c)));
        if let Some(c) = found {
            return failure_code(a, b, c);
        }
    }
    unreachable!("a point that was not offered is the middle of a triple")
}

/// The same for MCS: which points c have more neighbours before b than b has does not depend on a.
fn first_mcs_violation(graph: &Graph, walk: &[u8], i: usize) -> u32 {
    let b = walk[i];
    let before = set(&walk[..i]);
    let neighbours_before = |v: u8| (graph.row(v) & before).count_ones();
    let of_b = neighbours_before(b);
    let ahead = (0..graph.size as u8)
        .filter(|&c| holds(graph.in_service & !before, c) && neighbours_before(c) > of_b)
        .fold(0u64, |set, c| set | 1 << c);
    for &a in &walk[..i] {
        let found = graph.row(a) & ahead;
        if found != 0 && !holds(graph.row(a), b) {
            let placed = walk[i + 1..].iter().copied().find(|&c| holds(found, c));
            return failure_code(a, b, placed.unwrap_or(found.trailing_zeros() as u8));
        }
    }
    unreachable!("a point that was not offered is the middle of a triple")
}

/// The place of the first point that was not offered when it was placed.
fn first_not_offered(search: &mut Search, walk: &[u8]) -> Option<usize> {
    for (i, &b) in walk.iter().enumerate() {
        if !search.is_offered(b) {
            return Some(i);
        }
        search.place(b);
    }
    None
}

#[inline(never)]
pub fn judge(kind: Kind, plan: &[u8], barred: u64, walk: &[u8]) -> u32 {
    let graph = match Graph::read(kind, plan, barred) {
        Ok(graph) => graph,
        Err(refusal) => return refusal,
    };
    if walk.len() > graph.size {
        return 6;
    }
    if any_outside(graph.size, walk) {
        return 8;
    }
    let points = set(walk);
    if any_twice(points, walk) {
        return 9;
    }
    if points & !graph.in_service != 0 {
        return 24;
    }
    match first_not_offered(&mut Search::new(kind, &graph), walk) {
        Some(i) if kind == MCS => first_mcs_violation(&graph, walk, i),
        Some(i) => first_violation(kind, &graph, walk, i),
        None => 0,
    }
}

/// Refusals 6 to 10 and 24 of carry-on, in its order.
fn lists_refusal(graph: &Graph, tie_break: &[u8], output: &[u8], k: usize) -> Option<u32> {
    let n = graph.size;
    if k > n {
        return Some(6);
    }
    if output.len() < n {
        return Some(10);
    }
    if tie_break.len() != n {
        return Some(7);
    }
    let start = &output[..k];
    if any_outside(n, start) || any_outside(n, tie_break) {
        return Some(8);
    }
    let placed = set(start);
    if any_twice(placed, start) || any_twice(set(tie_break), tie_break) {
        return Some(9);
    }
    if placed & !graph.in_service != 0 {
        return Some(24);
    }
    None
}

#[inline(never)]
pub fn carry_on(
    kind: Kind,
    plan: &[u8],
    barred: u64,
    tie_break: &[u8],
    output: &mut [u8],
    k: usize,
) -> u32 {
    let graph = match Graph::read(kind, plan, barred) {
        Ok(graph) => graph,
        Err(refusal) => return refusal,
    };
    if let Some(refusal) = lists_refusal(&graph, tie_break, output, k) {
        return refusal;
    }
    let mut search = Search::new(kind, &graph);
    if first_not_offered(&mut search, &output[..k]).is_some() {
        return 12;
    }
    let mut rank = [0; 64];
    for (i, &v) in tie_break.iter().enumerate() {
        rank[v as usize] = i as u8;
    }
    let in_service = graph.in_service.count_ones() as usize;
    for next in &mut output[k..in_service] {
        let v = search.last_offered(tie_break, &rank);
        search.place(v);
        *next = v;
    }
    0
}
