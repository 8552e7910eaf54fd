//! The way back from a point of a BFS walk, from the sentences of 02.
//!
//!   parent              the earliest of the neighbours placed before a point      [02: K5]
//!   path_to             from the point that has none to the given one
//!   distances           how few links lead from one point to each, placed or not
//!   is_shortest_path    what is promised of a way, by these distances
//!   way_back            the number of points, or the refusal's number, and the output list

use std::collections::VecDeque;
use std::iter::successors;

use super::{begins_run, bytes, first_of, judge_refusal, Graph, Mark, Vertex, BFS, NONE_BARRED};

/// The earliest of the neighbours placed before v; in a one-way plan, of the points that lead to it.
pub fn parent(graph: &Graph, walk: &[u8], v: Vertex) -> Option<Vertex> {
    let mut before = walk.iter().map(|&u| u as Vertex).take_while(|&u| u != v);
    before.find(|&u| graph.leads_to(u, v))
}

/// From v to its parent, again and again, until a point has none; this way turned round.
pub fn path_to(graph: &Graph, walk: &[u8], v: Vertex) -> Vec<u8> {
    let up = successors(Some(v), |&u| parent(graph, walk, u));
    let mut path: Vec<u8> = up.map(|u| u as u8).collect();
    path.reverse();
    path
}

/// For each point of the plan the fewest links by which it is reached from `first`, in their direction; none where it
/// is not. Found with a queue, and without a walk: a point counts whether it is placed or not.
pub fn distances(graph: &Graph, first: Vertex) -> Vec<Option<usize>> {
    let mut distances = vec![None; graph.size()];
    distances[first] = Some(0);
    let mut queue = VecDeque::from([(first, 0)]);
    while let Some((u, links)) = queue.pop_front() {
        for v in graph.vertices() {
            if graph.leads_to(u, v) && distances[v].is_none() {
                distances[v] = Some(links + 1);
                queue.push_back((v, links + 1));
            }
        }
    }
    distances
}

/// The way ends at v, each of its points is placed and leads to the next, which is placed later, and no way from its
/// first point to v has fewer links.
pub fn is_shortest_path(rows: &[u64], walk: &[u8], v: u8, path: &[u8]) -> bool {
    let graph = Graph::from_plan(&bytes(rows));
    let place = |u: u8| walk.iter().position(|&other| other == u);
    let leads = |u: u8, next: u8| graph.leads_to(u as Vertex, next as Vertex);
    let Some(&first) = path.first() else { return false };
    path.last() == Some(&v)
        && path.iter().all(|&u| place(u).is_some())
        && path.windows(2).all(|pair| leads(pair[0], pair[1]) && place(pair[0]) < place(pair[1]))
        && distances(&graph, first as Vertex)[v as Vertex] == Some(path.len() - 1)
}

/// The answer, and the output list as it is afterwards.
pub fn way_back(
    mark: Mark,
    rows: &[u64],
    walk: &[u8],
    v: u8,
    output: &[u8],
) -> (Result<usize, u32>, Vec<u8>) {
    let plan = bytes(rows);
    let graph = Graph::from_plan(&plan);
    let refusal_after_judge = || {
        first_of(&[
            (21, &|| !begins_run(BFS, &graph, walk)),
            (22, &|| !walk.contains(&v)),
            (10, &|| output.len() < graph.size()),
        ])
    };
    let mut after = output.to_vec();
    if let Some(number) =
        judge_refusal(BFS, mark, &plan, NONE_BARRED, walk).or_else(refusal_after_judge)
    {
        return (Err(number), after);
    }
    let path = path_to(&graph, walk, v as Vertex);
    after[..path.len()].copy_from_slice(&path);
    (Ok(path.len()), after)
}

#[cfg(test)]
mod tests;
