//! Plans without chordless rings, from the sentences of 02.
//!
//!   is_chordal             decided by removing simplicial points, without any order or ring
//!   is_elimination_order   all points, and the later neighbours of each are linked to one another     [02: K9]
//!   is_chordless_ring      four or more points in a ring, linked exactly where they are neighbours    [02: K9]
//!   refusal                the number of the refusal, if the call is refused
//!   Answer, is_promised    what the call tells, and whether that and its output list are as promised

use super::{
    bytes, first_of, plan_refusal, point_outside, point_twice, Graph, Mark, Vertex, GENERIC,
    NONE_BARRED,
};

/// Every two of the points are linked.
fn is_clique(graph: &Graph, points: &[Vertex]) -> bool {
    points.iter().all(|&u| points.iter().all(|&v| u == v || graph.leads_to(u, v)))
}

/// The points of the list that are linked to v.
fn neighbours(graph: &Graph, list: &[Vertex], v: Vertex) -> Vec<Vertex> {
    list.iter().copied().filter(|&u| graph.leads_to(u, v)).collect()
}

/// No chordless ring goes over a point whose neighbours are all linked to one another, so such points can be removed, one
/// after the other. As long as points are left and there is no chordless ring among them, one of them is such a point
/// (Dirac's theorem): so none is left in the end exactly if the plan has no chordless ring.
pub fn is_chordal(graph: &Graph) -> bool {
    let mut left: Vec<Vertex> = graph.vertices().collect();
    while let Some(i) = left.iter().position(|&v| is_clique(graph, &neighbours(graph, &left, v))) {
        left.remove(i);
    }
    left.is_empty()
}

/// The points as numbers, if they are distinct points of the plan.
fn distinct(graph: &Graph, list: &[u8]) -> Option<Vec<Vertex>> {
    let sound = !point_outside(graph.size(), list) && !point_twice(list);
    sound.then(|| list.iter().map(|&v| v as Vertex).collect())
}

/// The list names all points once, and the later neighbours of each are linked to one another.
pub fn is_elimination_order(graph: &Graph, order: &[u8]) -> bool {
    let Some(order) = distinct(graph, order) else { return false };
    let simplicial = |p: usize| is_clique(graph, &neighbours(graph, &order[p + 1..], order[p]));
    order.len() == graph.size() && (0..order.len()).all(simplicial)
}

/// The list is four or more distinct points, and two of them are linked exactly if they are next to each other in the
/// list or are its first and its last.
pub fn is_chordless_ring(graph: &Graph, ring: &[u8]) -> bool {
    let Some(ring) = distinct(graph, ring) else { return false };
    let m = ring.len();
    let next = |p: usize, q: usize| (p + 1) % m == q || (q + 1) % m == p;
    let as_next = |p: usize, q: usize| p == q || graph.leads_to(ring[p], ring[q]) == next(p, q);
    m >= 4 && (0..m).all(|p| (0..m).all(|q| as_next(p, q)))
}

/// 2, 3 and 4, which are the same for either mark, then 25, then 5, then 10.
pub fn refusal(mark: Mark, rows: &[u64], room: usize) -> Option<u32> {
    let plan = bytes(rows);
    let of_mark = |mark: Mark| plan_refusal(GENERIC, mark, &plan, NONE_BARRED);
    let after_four = || {
        first_of(&[
            (25, &|| mark == Mark::OneWay),
            (5, &|| of_mark(Mark::TwoWay).is_some()),
            (10, &|| room < rows.len()),
        ])
    };
    of_mark(Mark::OneWay).or_else(after_four)
}

/// What the call tells: yes, no with the length of the ring, or a refusal.
#[derive(Clone, Copy, PartialEq, Eq, Debug)]
pub enum Answer {
    Chordal,
    Ring(usize),
    Refused(u32),
}

/// The answer, and the output list as it is after the call, are what 02 promises for this plan and for the list as it
/// was before.
pub fn is_promised(mark: Mark, rows: &[u64], before: &[u8], answer: Answer, after: &[u8]) -> bool {
    if let Some(number) = refusal(mark, rows, before.len()) {
        return answer == Answer::Refused(number) && after == before;
    }
    let graph = Graph::from_plan(&bytes(rows));
    let kept_from = |m: usize| after.len() == before.len() && after[m..] == before[m..];
    match answer {
        Answer::Chordal => {
            let n = graph.size();
            kept_from(n) && is_chordal(&graph) && is_elimination_order(&graph, &after[..n])
        }
        Answer::Ring(m) => {
            m <= before.len()
                && kept_from(m)
                && !is_chordal(&graph)
                && is_chordless_ring(&graph, &after[..m])
        }
        Answer::Refused(_) => false,
    }
}

#[cfg(test)]
mod tests;
