//! The definitions of 01, and of MCS, the charge, one-way plans, the way back, the comparison, points out of service,
//! plans without chordless rings, neighbour lists, judgements in words, plans of 512 points and DIMACS edge files from
//! 02, computed as they read, by trying everything.
//!
//!   Mark                        whether the links of a plan have a direction       [02: K4]
//!   Graph                       a plan: one row of 64 bits for each point          [01: plan]
//!   leads_to u v                bit v of row u is set: u is a neighbour of v       [01: linked; 02: K4]
//!   label ordering v            which places hold a neighbour of v                 [01: label]
//!   outranks kind c b           a point with label c is ahead of one with label b  [01: ahead; 02: K1]
//!   offered kind ordering       the points that may come next                      [01: offered]
//!   begins_run kind ordering    each point was offered when it was placed          [01: a run begins with a walk]
//!   violation                   fault triples, and the first of them
//!   completed kind tie_break    the full walk that a walk is carried on to         [01: carry-on]
//!   without                     the plan without its barred points                 [02: K8]
//!   judge, carry_on             the two calls, as the firmware sees them           [01: the calls; 02: K8]
//!   open_walk                   the open walk, and its four calls
//!   sheet                       the sheet: written, read and judged
//!   charge                      what a walk is charged, by two rules for halves    [02: K2, K7]
//!   way_back                    the way back from a point of a BFS walk            [02: K5]
//!   stance                      how one of two unplaced points stands to the other [02: K6]
//!   chordal                     plans without chordless rings                      [02: K9]
//!   neighbour_lists             plans as neighbour lists: converted and judged     [02: K10]
//!   wording                     the judgement in words                             [02: K11]
//!   wide                        judge and carry-on on plans of up to 512 points    [02: K12]
//!   edge_files                  plans as DIMACS edge files: imported and exported  [02: K13]

/// A point's number.
pub type Vertex = usize;
/// A place in a walk.
pub type Position = usize;
/// Which of the seven searches.
pub type Kind = u8;

pub const GENERIC: Kind = 0;
pub const BFS: Kind = 1;
pub const DFS: Kind = 2;
pub const LEX_BFS: Kind = 3;
pub const LEX_DFS: Kind = 4;
pub const MNS: Kind = 5;
pub const MCS: Kind = 6;

pub const KINDS: [Kind; 7] = [GENERIC, BFS, DFS, LEX_BFS, LEX_DFS, MNS, MCS];
pub const KIND_NAMES: [&str; 7] = ["Generic", "BFS", "DFS", "LexBFS", "LexDFS", "MNS", "MCS"];

/// The mark of a plan. Two-way, every link stands in both of its rows; one-way, bit v of row u means that u leads to v
/// only.
#[derive(Clone, Copy, PartialEq, Eq, Debug)]
pub enum Mark {
    TwoWay,
    OneWay,
}

pub const MARKS: [Mark; 2] = [Mark::TwoWay, Mark::OneWay];

/// The set without a point: what a call is handed where nothing is out of service.
pub const NONE_BARRED: u64 = 0;

/// What C gets for the triple 0, 0, 0.
pub const FAILED: u32 = 16_777_216;

pub struct Graph {
    rows: Vec<u64>,
}

impl Graph {
    /// The rows in `plan`, eight bytes each, lowest first.
    pub fn from_plan(plan: &[u8]) -> Graph {
        let row = |bytes: &[u8]| (0..8).map(|i| (bytes[i] as u64) << (8 * i)).sum();
        Graph { rows: plan.chunks_exact(8).map(row).collect() }
    }

    pub fn size(&self) -> usize {
        self.rows.len()
    }

    /// Bit v of row u is set. In a two-way plan u and v are linked, in a one-way plan u leads to v. Either way u is a
    /// neighbour of v.
    pub fn leads_to(&self, u: Vertex, v: Vertex) -> bool {
        self.rows[u] >> v & 1 == 1
    }

    fn vertices(&self) -> std::ops::Range<Vertex> {
        0..self.size()
    }
}

/// A plan as the bytes that the calls take.
pub fn bytes(rows: &[u64]) -> Vec<u8> {
    rows.iter().flat_map(|row| row.to_le_bytes()).collect()
}

// ---- Which point may be next ----

/// For each place of the walk, whether a neighbour of v stands there.
pub fn label(graph: &Graph, ordering: &[u8], v: Vertex) -> Vec<bool> {
    ordering.iter().map(|&u| graph.leads_to(u as Vertex, v)).collect()
}

fn smallest(label: &[bool]) -> Option<Position> {
    (0..label.len()).find(|&p| label[p])
}

fn largest(label: &[bool]) -> Option<Position> {
    (0..label.len()).rev().find(|&p| label[p])
}

fn how_many(label: &[bool]) -> usize {
    label.iter().filter(|&&held| held).count()
}

/// A point with label c is ahead of one with label b.
pub fn outranks(kind: Kind, c: &[bool], b: &[bool]) -> bool {
    let in_just_one = |p: &Position| c[*p] != b[*p];
    match kind {
        GENERIC => smallest(c).is_some() && smallest(b).is_none(),
        BFS => match (smallest(c), smallest(b)) {
            (Some(of_c), Some(of_b)) => of_c < of_b,
            (Some(_), None) => true,
            (None, _) => false,
        },
        DFS => match (largest(c), largest(b)) {
            (Some(of_c), Some(of_b)) => of_c > of_b,
            (Some(_), None) => true,
            (None, _) => false,
        },
        LEX_BFS => (0..c.len()).find(in_just_one).is_some_and(|p| c[p]),
        LEX_DFS => (0..c.len()).rev().find(in_just_one).is_some_and(|p| c[p]),
        MNS => b != c && (0..b.len()).all(|p| !b[p] || c[p]),
        MCS => how_many(c) > how_many(b),
        _ => unreachable!("no such kind"),
    }
}

/// The unplaced points that no other unplaced point is ahead of, ascending.
pub fn offered(kind: Kind, graph: &Graph, ordering: &[u8]) -> Vec<Vertex> {
    let unplaced = |v: &Vertex| !ordering.contains(&(*v as u8));
    let labelled: Vec<(Vertex, Vec<bool>)> =
        graph.vertices().filter(unplaced).map(|v| (v, label(graph, ordering, v))).collect();
    let none_ahead = |b: &[bool]| !labelled.iter().any(|(_, c)| outranks(kind, c, b));
    labelled.iter().filter(|(_, b)| none_ahead(b)).map(|(v, _)| *v).collect()
}

/// Each point of the walk was offered when it was placed.
pub fn begins_run(kind: Kind, graph: &Graph, ordering: &[u8]) -> bool {
    let was_offered =
        |i: Position| offered(kind, graph, &ordering[..i]).contains(&(ordering[i] as Vertex));
    (0..ordering.len()).all(was_offered)
}

/// The walk with points placed behind it until there is none left: each time the offered point that stands last in the
/// preference list.
pub fn completed(kind: Kind, graph: &Graph, tie_break: &[u8], walk: &[u8]) -> Vec<u8> {
    let mut ordering = walk.to_vec();
    while ordering.len() < graph.size() {
        let offered = offered(kind, graph, &ordering);
        let last = tie_break.iter().rfind(|&&v| offered.contains(&(v as Vertex)));
        ordering.push(*last.expect("some point is always offered"));
    }
    ordering
}

// ---- Refusals ----

type Test<'a> = (u32, &'a dyn Fn() -> bool);

/// The number of the first test that holds; the later ones are not tried.
fn first_of(tests: &[Test]) -> Option<u32> {
    tests.iter().find(|(_, holds)| holds()).map(|(number, _)| *number)
}

fn point_outside(n: usize, list: &[u8]) -> bool {
    list.iter().any(|&v| v as usize >= n)
}

fn point_twice(list: &[u8]) -> bool {
    (0..list.len()).any(|i| list[..i].contains(&list[i]))
}

/// No point of the list is 64 or more.
fn point_barred(barred: u64, list: &[u8]) -> bool {
    list.iter().any(|&v| is_barred(barred, v as Vertex))
}

/// Refusals 1 to 5, and 23; 5 is given for two-way plans only.
fn plan_refusal(kind: Kind, mark: Mark, plan: &[u8], barred: u64) -> Option<u32> {
    let graph = Graph::from_plan(plan);
    let n = graph.size();
    let bit_outside = |u: Vertex| (n..64).any(|v| graph.leads_to(u, v));
    let one_way = |u: Vertex| (0..n).any(|v| graph.leads_to(u, v) && !graph.leads_to(v, u));
    first_of(&[
        (1, &|| kind > 6),
        (2, &|| n > 64 || !plan.len().is_multiple_of(8)),
        (3, &|| (0..n).any(bit_outside)),
        (4, &|| (0..n).any(|u| graph.leads_to(u, u))),
        (5, &|| mark == Mark::TwoWay && (0..n).any(one_way)),
        (23, &|| (n..64).any(|v| is_barred(barred, v))),
    ])
}

fn judge_refusal(kind: Kind, mark: Mark, plan: &[u8], barred: u64, walk: &[u8]) -> Option<u32> {
    let n = plan.len() / 8;
    let walk_refusal = || {
        first_of(&[
            (6, &|| walk.len() > n),
            (8, &|| point_outside(n, walk)),
            (9, &|| point_twice(walk)),
            (24, &|| point_barred(barred, walk)),
        ])
    };
    plan_refusal(kind, mark, plan, barred).or_else(walk_refusal)
}

fn carry_on_refusal(
    kind: Kind,
    mark: Mark,
    plan: &[u8],
    barred: u64,
    tie_break: &[u8],
    output: &[u8],
    k: usize,
) -> Option<u32> {
    let n = plan.len() / 8;
    let fails = || first_violation_without(kind, plan, barred, &output[..k]).is_some();
    let list_refusal = || {
        first_of(&[
            (6, &|| k > n),
            (10, &|| output.len() < n),
            (7, &|| tie_break.len() != n),
            (8, &|| point_outside(n, &output[..k])),
            (8, &|| point_outside(n, tie_break)),
            (9, &|| point_twice(&output[..k])),
            (9, &|| point_twice(tie_break)),
            (24, &|| point_barred(barred, &output[..k])),
            (12, &fails),
        ])
    };
    plan_refusal(kind, mark, plan, barred).or_else(list_refusal)
}

// ---- The calls ----

/// What C gets for a failed walk.
pub const fn failure_code(a: Vertex, b: Vertex, c: Vertex) -> u32 {
    FAILED + 65_536 * a as u32 + 256 * b as u32 + c as u32
}

/// The first triple of the plan without its barred points, named back. No point of the walk is barred.
fn first_violation_without(
    kind: Kind,
    plan: &[u8],
    barred: u64,
    walk: &[u8],
) -> Option<(Vertex, Vertex, Vertex)> {
    let smaller = Without::new(&Graph::from_plan(plan), barred);
    let triple = first_violation(kind, smaller.graph(), &smaller.numbered(walk));
    triple.map(|(a, b, c)| (smaller.name(a), smaller.name(b), smaller.name(c)))
}

pub fn judge(kind: Kind, mark: Mark, plan: &[u8], barred: u64, walk: &[u8]) -> u32 {
    if let Some(number) = judge_refusal(kind, mark, plan, barred, walk) {
        return number;
    }
    match first_violation_without(kind, plan, barred, walk) {
        Some((a, b, c)) => failure_code(a, b, c),
        None => 0,
    }
}

/// The answer, and the output list as it is afterwards.
pub fn carry_on(
    kind: Kind,
    mark: Mark,
    plan: &[u8],
    barred: u64,
    tie_break: &[u8],
    output: &[u8],
    k: usize,
) -> (u32, Vec<u8>) {
    if let Some(number) = carry_on_refusal(kind, mark, plan, barred, tie_break, output, k) {
        return (number, output.to_vec());
    }
    let smaller = Without::new(&Graph::from_plan(plan), barred);
    let start = smaller.numbered(&output[..k]);
    let ordering = completed(kind, smaller.graph(), &smaller.numbered(tie_break), &start);
    let mut after = output.to_vec();
    after[..ordering.len()].copy_from_slice(&smaller.named(&ordering));
    (0, after)
}

pub mod charge;
pub mod chordal;
pub mod edge_files;
pub mod neighbour_lists;
pub mod open_walk;
pub mod sheet;
pub mod stance;
mod violation;
pub mod way_back;
pub mod wide;
pub mod without;
pub mod wording;

pub use violation::{first_violation, first_violation_where};
use without::{is_barred, Without};

#[cfg(test)]
mod tests;
