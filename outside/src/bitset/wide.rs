//! The wide form of judge and carry-on on sets of eight words, made to be fast and not proved. Two-way plans only.
//!
//! As in the narrow form, the offered points come from the rows of the placed
//! points, no label is built, and nothing is allocated. The table is read where
//! it stands.

mod search;
mod set;

use crate::definition::{Kind, BFS, DFS, LEX_BFS, LEX_DFS, MCS};
use search::Search;
use set::{Set, MOST, WORDS};

const FAILED: u64 = 1 << 48;

/// A valid plan.
struct Graph<'a> {
    rows: &'a [Set],
    size: usize,
}

/// Every link stands in both of its rows.
#[inline(never)]
fn two_way(rows: &[Set]) -> bool {
    for (u, row) in rows.iter().enumerate() {
        for (i, &word) in row.0.iter().enumerate() {
            let mut neighbours = word;
            while neighbours != 0 {
                let v = 64 * i + neighbours.trailing_zeros() as usize;
                if !rows[v].holds(u as u16) {
                    return false;
                }
                neighbours &= neighbours - 1;
            }
        }
    }
    true
}

impl<'a> Graph<'a> {
    /// Refusals 1 to 5.
    fn read(kind: Kind, table: &'a [u64]) -> Result<Graph<'a>, u64> {
        if kind > 6 {
            return Err(1);
        }
        let (rows, rest) = table.as_chunks::<WORDS>();
        let size = rows.len();
        if !rest.is_empty() || size > MOST {
            return Err(2);
        }
        let rows = Set::rows(rows);
        let mut bits = Set::EMPTY;
        let mut own = false;
        for (u, row) in rows.iter().enumerate() {
            bits = bits.or(row);
            own |= row.holds(u as u16);
        }
        if !bits.without(&Set::below(size)).is_empty() {
            return Err(3);
        }
        if own {
            return Err(4);
        }
        if !two_way(rows) {
            return Err(5);
        }
        Ok(Graph { rows, size })
    }

    fn row(&self, v: u16) -> &Set {
        &self.rows[v as usize]
    }
}

fn any_outside(n: usize, list: &[u16]) -> bool {
    list.iter().any(|&v| v as usize >= n)
}

/// A point stands twice in the list, which has these points and no others.
fn any_twice(points: &Set, list: &[u16]) -> bool {
    points.count() as usize != list.len()
}

fn failure_code(a: u16, b: u16, c: u16) -> u64 {
    FAILED | (a as u64) << 32 | (b as u64) << 16 | c as u64
}

/// The first point of a set that is not empty: placed points behind place i go by place and come first.
fn first(found: &Set, walk: &[u16], i: usize) -> u16 {
    let placed = walk[i + 1..].iter().copied().find(|&c| found.holds(c));
    placed.unwrap_or_else(|| found.smallest())
}

/// The first triple whose middle point is the one at place i, which was not offered; for every kind but MCS.
fn first_violation(kind: Kind, graph: &Graph, walk: &[u16], i: usize) -> u64 {
    let b = walk[i];
    let before = Set::of(&walk[..i]);
    let later = Set::below(graph.size).without(&before);
    let mut earlier = Set::EMPTY;
    for &a in &walk[..i] {
        let row = graph.row(a);
        let range = match kind {
            BFS | LEX_BFS => earlier,
            DFS | LEX_DFS => before.without(&earlier).without(&Set::of(&[a])),
            _ => before,
        };
        earlier.insert(a);
        if row.holds(b) {
            continue;
        }
        let excuses = graph.row(b).and(&range);
        let mut found = row.and(&later);
        if kind >= LEX_BFS {
            excuses.for_each(|d| found = found.and(graph.row(d)));
        } else if !excuses.is_empty() {
            continue;
        }
        if !found.is_empty() {
            return failure_code(a, b, first(&found, walk, i));
        }
    }
    unreachable!("a point that was not offered is the middle of a triple")
}

/// The same for MCS: which points c have more neighbours before b than b has does not depend on a.
fn first_mcs_violation(graph: &Graph, walk: &[u16], i: usize) -> u64 {
    let b = walk[i];
    let before = Set::of(&walk[..i]);
    let neighbours_before = |v: u16| graph.row(v).and(&before).count();
    let of_b = neighbours_before(b);
    let mut ahead = Set::EMPTY;
    Set::below(graph.size).without(&before).for_each(|c| {
        if neighbours_before(c) > of_b {
            ahead.insert(c);
        }
    });
    for &a in &walk[..i] {
        let found = graph.row(a).and(&ahead);
        if !found.is_empty() && !graph.row(a).holds(b) {
            return failure_code(a, b, first(&found, walk, i));
        }
    }
    unreachable!("a point that was not offered is the middle of a triple")
}

/// The place of the first point that was not offered when it was placed.
fn first_not_offered(search: &mut Search, walk: &[u16]) -> Option<usize> {
    for (i, &b) in walk.iter().enumerate() {
        if !search.is_offered(b) {
            return Some(i);
        }
        search.place(b);
    }
    None
}

/// 0 for a pass, a refusal's number, or 2^48 + a * 2^32 + b * 2^16 + c.
#[inline(never)]
pub fn judge(kind: Kind, table: &[u64], walk: &[u16]) -> u64 {
    let graph = match Graph::read(kind, table) {
        Ok(graph) => graph,
        Err(refusal) => return refusal,
    };
    if walk.len() > graph.size {
        return 6;
    }
    if any_outside(graph.size, walk) {
        return 8;
    }
    if any_twice(&Set::of(walk), walk) {
        return 9;
    }
    match first_not_offered(&mut Search::new(kind, &graph), walk) {
        Some(i) if kind == MCS => first_mcs_violation(&graph, walk, i),
        Some(i) => first_violation(kind, &graph, walk, i),
        None => 0,
    }
}

/// Refusals 6 to 10 of carry-on, in its order.
fn lists_refusal(graph: &Graph, tie_break: &[u16], output: &[u16], k: usize) -> Option<u64> {
    let n = graph.size;
    if k > n {
        return Some(6);
    }
    if output.len() < n {
        return Some(10);
    }
    if tie_break.len() != n {
        return Some(7);
    }
    let start = &output[..k];
    if any_outside(n, start) || any_outside(n, tie_break) {
        return Some(8);
    }
    if any_twice(&Set::of(start), start) || any_twice(&Set::of(tie_break), tie_break) {
        return Some(9);
    }
    None
}

/// 0 when it is done, or a refusal's number.
#[inline(never)]
pub fn carry_on(kind: Kind, table: &[u64], tie_break: &[u16], output: &mut [u16], k: usize) -> u64 {
    let graph = match Graph::read(kind, table) {
        Ok(graph) => graph,
        Err(refusal) => return refusal,
    };
    if let Some(refusal) = lists_refusal(&graph, tie_break, output, k) {
        return refusal;
    }
    let mut search = Search::new(kind, &graph);
    if first_not_offered(&mut search, &output[..k]).is_some() {
        return 12;
    }
    let mut rank = [0; MOST];
    for (i, &v) in tie_break.iter().enumerate() {
        rank[v as usize] = i as u16;
    }
    for next in &mut output[k..graph.size] {
        let v = search.last_offered(tie_break, &rank);
        search.place(v);
        *next = v;
    }
    0
}

#[cfg(test)]
mod tests;
