//! Plans to try, as the bytes that the calls take.

pub mod wide;

use crate::definition::{Graph, Mark};
use crate::random::Random;

/// Rows of a plan; bit v of row u is set when u and v are linked, or when u leads to v.
type Rows = Vec<u64>;

/// Two points that are linked, or of which the first leads to the second.
type Pair = (usize, usize);

fn link(rows: &mut Rows, u: usize, v: usize) {
    rows[u] |= 1 << v;
    rows[v] |= 1 << u;
}

fn to_plan(rows: &Rows) -> Vec<u8> {
    rows.iter().flat_map(|row| row.to_le_bytes()).collect()
}

/// The two-way plan of n points with the given links.
pub fn plan(n: usize, links: &[Pair]) -> Vec<u8> {
    let mut rows = vec![0; n];
    for &(u, v) in links {
        link(&mut rows, u, v);
    }
    to_plan(&rows)
}

/// The one-way plan of n points in which the first point of each pair leads to the second.
pub fn one_way_plan(n: usize, arcs: &[Pair]) -> Vec<u8> {
    let mut rows = vec![0; n];
    for &(u, v) in arcs {
        rows[u] |= 1 << v;
    }
    to_plan(&rows)
}

/// The links of a two-way plan, the smaller point first, ascending.
pub fn links(plan: &[u8]) -> Vec<Pair> {
    let graph = Graph::from_plan(plan);
    let n = graph.size();
    let pairs = (0..n).flat_map(|u| (u + 1..n).map(move |v| (u, v)));
    pairs.filter(|&(u, v)| graph.leads_to(u, v)).collect()
}

/// How many links a plan has; in a one-way plan each direction counts.
pub fn count_links(mark: Mark, plan: &[u8]) -> usize {
    let bits: usize = plan.iter().map(|byte| byte.count_ones() as usize).sum();
    match mark {
        Mark::TwoWay => bits / 2,
        Mark::OneWay => bits,
    }
}

/// Every link of the plan goes both ways.
pub fn goes_both_ways(plan: &[u8]) -> bool {
    let graph = Graph::from_plan(plan);
    let n = graph.size();
    (0..n).all(|u| (0..n).all(|v| graph.leads_to(u, v) == graph.leads_to(v, u)))
}

/// Every choice among the pairs.
fn choices(pairs: &[Pair]) -> impl Iterator<Item = Vec<Pair>> + '_ {
    let chosen = |number: u64| {
        (0..pairs.len()).filter(|&j| number >> j & 1 == 1).map(|j| pairs[j]).collect()
    };
    (0..1 << pairs.len()).map(chosen)
}

/// All pairs of points, those of a point with itself among them.
fn pairs(n: usize) -> impl Iterator<Item = Pair> {
    (0..n).flat_map(move |v| (0..n).map(move |u| (u, v)))
}

/// Every valid plan of n points with this mark.
pub fn all_plans(mark: Mark, n: usize) -> Vec<Vec<u8>> {
    match mark {
        Mark::TwoWay => {
            let links: Vec<Pair> = pairs(n).filter(|(u, v)| u < v).collect();
            choices(&links).map(|links| plan(n, &links)).collect()
        }
        Mark::OneWay => {
            let arcs: Vec<Pair> = pairs(n).filter(|(u, v)| u != v).collect();
            choices(&arcs).map(|arcs| one_way_plan(n, &arcs)).collect()
        }
    }
}

/// Every one-way plan of n points that is valid except that points lead to themselves.
pub fn all_with_self_links(n: usize) -> Vec<Vec<u8>> {
    let arcs: Vec<Pair> = pairs(n).collect();
    let to_itself = |arcs: &Vec<Pair>| arcs.iter().any(|(u, v)| u == v);
    choices(&arcs).filter(to_itself).map(|arcs| one_way_plan(n, &arcs)).collect()
}

/// Links each pair with the given chance out of a thousand.
fn scatter(random: &mut Random, rows: &mut Rows, thousandths: usize) {
    for v in 0..rows.len() {
        for u in 0..v {
            if random.below(1000) < thousandths {
                link(rows, u, v);
            }
        }
    }
}

/// Links each point but the first to an earlier one.
fn grow_tree(random: &mut Random, rows: &mut Rows) {
    for v in 1..rows.len() {
        let u = random.below(v);
        link(rows, u, v);
    }
}

/// A path, a cycle, a star, a tree, or links at random: few, a tree and few, most, half.
fn shape(random: &mut Random, n: usize) -> Rows {
    let mut rows = vec![0; n];
    match random.below(9) {
        0 => (1..n).for_each(|v| link(&mut rows, v - 1, v)),
        1 if n >= 3 => (0..n).for_each(|v| link(&mut rows, v, (v + 1) % n)),
        2 => (1..n).for_each(|v| link(&mut rows, 0, v)),
        3 => grow_tree(random, &mut rows),
        4 => scatter(random, &mut rows, 3000 / (n + 1)),
        5 => {
            grow_tree(random, &mut rows);
            scatter(random, &mut rows, 1500 / (n + 1));
        }
        6 => scatter(random, &mut rows, 850),
        _ => scatter(random, &mut rows, 500),
    }
    rows
}

/// The same plan, with point u named names[u].
fn renumber(rows: &Rows, names: &[u8]) -> Rows {
    let mut renamed = vec![0; rows.len()];
    for u in 0..rows.len() {
        for v in 0..u {
            if rows[u] >> v & 1 == 1 {
                link(&mut renamed, names[u] as usize, names[v] as usize);
            }
        }
    }
    renamed
}

/// A plan of n points with this mark.
pub fn random_plan(random: &mut Random, mark: Mark, n: usize) -> Vec<u8> {
    let plan = random_two_way_plan(random, n);
    match mark {
        Mark::TwoWay => plan,
        Mark::OneWay => direct(random, &plan),
    }
}

/// The plan with one direction only of each link, or of some: to the larger point, to the smaller one, or either.
fn direct(random: &mut Random, plan: &[u8]) -> Vec<u8> {
    let both_ways = random.pick(&[0, 0, 10, 50]);
    let to_the_larger = random.pick(&[0, 50, 50, 100]);
    let mut arcs = Vec::new();
    for (u, v) in links(plan) {
        let both = random.percent(both_ways);
        let larger = random.percent(to_the_larger);
        if both || larger {
            arcs.push((u, v));
        }
        if both || !larger {
            arcs.push((v, u));
        }
    }
    one_way_plan(plan.len() / 8, &arcs)
}

/// A two-way plan: one to three shapes side by side, numbered at random.
fn random_two_way_plan(random: &mut Random, n: usize) -> Vec<u8> {
    let mut rows: Rows = Vec::new();
    for _ in 0..random.below(3) {
        let size = random.below(n - rows.len() + 1);
        append(&mut rows, &shape(random, size));
    }
    let rest = n - rows.len();
    append(&mut rows, &shape(random, rest));
    if random.percent(80) {
        rows = renumber(&rows, &random.permutation(n));
    }
    to_plan(&rows)
}

/// Puts a piece behind the rows, its points numbered on from theirs.
fn append(rows: &mut Rows, piece: &[u64]) {
    let first = rows.len();
    rows.extend(piece.iter().map(|row| row << first));
}

/// A plan in one piece in which a point has about three neighbours.
pub fn sparse_connected(random: &mut Random, n: usize) -> Vec<u8> {
    let mut rows = vec![0; n];
    grow_tree(random, &mut rows);
    let links = |rows: &Rows| rows.iter().map(|row| row.count_ones() as usize).sum::<usize>() / 2;
    while links(&rows) < n * 3 / 2 {
        let (u, v) = (random.below(n), random.below(n));
        if u != v {
            link(&mut rows, u, v);
        }
    }
    to_plan(&renumber(&rows, &random.permutation(n)))
}

/// A plan in one piece in which about half of all pairs are linked.
pub fn dense_connected(random: &mut Random, n: usize) -> Vec<u8> {
    let mut rows = vec![0; n];
    scatter(random, &mut rows, 500);
    while !connected(&rows) {
        let (u, v) = (random.below(n), random.below(n));
        if u != v {
            link(&mut rows, u, v);
        }
    }
    to_plan(&rows)
}

/// All points are reached from point 0.
fn connected(rows: &Rows) -> bool {
    let mut reached: u64 = 1;
    for _ in 0..rows.len() {
        for (u, row) in rows.iter().enumerate() {
            if reached >> u & 1 == 1 {
                reached |= row;
            }
        }
    }
    reached.count_ones() as usize == rows.len()
}
