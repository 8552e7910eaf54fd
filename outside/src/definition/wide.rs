//! The wide form of judge and carry-on, for plans of up to 512 points, from the sentences of 01 and 02.
//!
//!   Plan                        a plan: eight words of 64 bits for each point       [02: K12]
//!   leads_to u v                bit v of row u is set: u is a neighbour of v        [01: linked; 02: K4]
//!   Label                       a set of places                                     [01: label]
//!   Walked                      a walk that grows, with the labels that it gives
//!   is_violation kind a b c     a, b, c stand in the fault relation                 [01, 02: fault triple]
//!   judge, carry_on             the two calls                                       [01: the calls; 02: K12]
//!   judge_faults, carry_on_faults   all refusals that a call deserves, the one that it gets first
//!
//! A label has the place of a point from when that point is placed. The fault triples are tried only at the first point
//! that was not offered; that there is none before it is tested on small plans, against all triples.

use super::{Kind, Mark, Position, Vertex, BFS, DFS, GENERIC, LEX_BFS, LEX_DFS, MCS, MNS};
use label::{outranks, Label};

mod label;

/// The most points that a plan has, and how many words there are for each.
pub const MOST: usize = 512;
pub const WORDS: usize = 8;

/// A fault triple a, b, c.
pub type Triple = (Vertex, Vertex, Vertex);

/// A table in whatever form. Words behind the last whole row count for its length only.
pub struct Plan<'a>(pub &'a [u64]);

impl Plan<'_> {
    pub fn size(&self) -> usize {
        self.0.len() / WORDS
    }

    /// Bit v of row u is set; no row has a bit for a point of 512 or more.
    pub fn leads_to(&self, u: Vertex, v: Vertex) -> bool {
        v < MOST && self.0[WORDS * u + v / 64] >> (v % 64) & 1 == 1
    }
}

// ---- Which point may be next ----

/// The points placed so far, and the label of every point.
struct Walked<'a> {
    plan: &'a Plan<'a>,
    walk: Vec<Vertex>,
    unplaced: Vec<bool>,
    labels: Vec<Label>,
}

impl Walked<'_> {
    fn new<'a>(plan: &'a Plan<'a>) -> Walked<'a> {
        let n = plan.size();
        Walked { plan, walk: Vec::new(), unplaced: vec![true; n], labels: vec![Label::EMPTY; n] }
    }

    /// The place of v comes into the label of each point that v leads to.
    fn place(&mut self, v: Vertex) {
        let place: Position = self.walk.len();
        let plan = self.plan;
        for w in (0..plan.size()).filter(|&w| plan.leads_to(v, w)) {
            self.labels[w].insert(place);
        }
        self.unplaced[v] = false;
        self.walk.push(v);
    }

    /// The point is unplaced, and no unplaced point is ahead of it.
    fn is_offered(&self, kind: Kind, b: Vertex) -> bool {
        let ahead = |c: Vertex| outranks(kind, &self.labels[c], &self.labels[b]);
        self.unplaced[b] && !(0..self.unplaced.len()).any(|c| self.unplaced[c] && ahead(c))
    }
}

/// The place of the first point that was not offered when it was placed.
fn first_not_offered(kind: Kind, plan: &Plan, walk: &[u16]) -> Option<Position> {
    let mut walked = Walked::new(plan);
    walk.iter().position(|&v| {
        let offered = walked.is_offered(kind, v as Vertex);
        walked.place(v as Vertex);
        !offered
    })
}

/// The walk with points placed behind it until there is none left: each time the offered point that stands last in the
/// preference list.
fn completed(kind: Kind, plan: &Plan, tie_break: &[u16], walk: &[u16]) -> Vec<u16> {
    let mut walked = Walked::new(plan);
    walk.iter().for_each(|&v| walked.place(v as Vertex));
    let mut ordering = walk.to_vec();
    while ordering.len() < plan.size() {
        let last = tie_break.iter().rfind(|&&v| walked.is_offered(kind, v as Vertex));
        let &last = last.expect("some point is always offered");
        walked.place(last as Vertex);
        ordering.push(last);
    }
    ordering
}

// ---- Fault triples ----

/// Of points a and b at the places p < i, and a point c that is not placed before b: they stand in the fault relation.
/// The points before b are the first i of the walk.
fn is_violation(
    kind: Kind,
    plan: &Plan,
    walk: &[u16],
    p: Position,
    i: Position,
    c: Vertex,
) -> bool {
    let at = |place: Position| walk[place] as Vertex;
    let (a, b) = (at(p), at(i));
    let excuses = |q: Position| {
        plan.leads_to(at(q), b)
            && match kind {
                GENERIC => true,
                BFS => q < p,
                DFS => q > p,
                LEX_BFS => q < p && !plan.leads_to(at(q), c),
                LEX_DFS => q > p && !plan.leads_to(at(q), c),
                MNS => !plan.leads_to(at(q), c),
                _ => unreachable!("no such kind"),
            }
    };
    let neighbours_before_b = |v: Vertex| (0..i).filter(|&q| plan.leads_to(at(q), v)).count();
    plan.leads_to(a, c)
        && !plan.leads_to(a, b)
        && match kind {
            MCS => neighbours_before_b(c) > neighbours_before_b(b),
            _ => !(0..i).any(excuses),
        }
}

/// The first triple whose middle point is at place i: the earliest a, then the first c; placed points go by place and
/// come before unplaced ones, which go by number.
fn first_violation_at(kind: Kind, plan: &Plan, walk: &[u16], i: Position) -> Option<Triple> {
    let mut unplaced = vec![true; plan.size()];
    walk.iter().for_each(|&v| unplaced[v as Vertex] = false);
    let placed_later = walk[i + 1..].iter().map(|&c| c as Vertex);
    let later: Vec<Vertex> =
        placed_later.chain((0..plan.size()).filter(|&c| unplaced[c])).collect();
    let triple = |p: Position, c: Vertex| (walk[p] as Vertex, walk[i] as Vertex, c);
    (0..i).find_map(|p| {
        let found = later.iter().find(|&&c| is_violation(kind, plan, walk, p, i, c));
        found.map(|&c| triple(p, c))
    })
}

// ---- Refusals ----

/// A refusal's number, and whether its test holds.
type Test = (u32, bool);

fn holding(tests: &[Test]) -> Vec<u32> {
    tests.iter().filter(|(_, holds)| *holds).map(|(number, _)| *number).collect()
}

fn point_outside(n: usize, list: &[u16]) -> bool {
    list.iter().any(|&v| v as usize >= n)
}

fn point_twice(list: &[u16]) -> bool {
    (0..list.len()).any(|i| list[..i].contains(&list[i]))
}

/// 1 to 5, the last for two-way plans only.
fn plan_tests(kind: Kind, mark: Mark, plan: &Plan) -> [Test; 5] {
    let n = plan.size();
    let bit_outside = |u: Vertex| (n..MOST).any(|v| plan.leads_to(u, v));
    let one_way = |u: Vertex| (0..n).any(|v| plan.leads_to(u, v) && !plan.leads_to(v, u));
    [
        (1, kind > 6),
        (2, n > MOST || !plan.0.len().is_multiple_of(WORDS)),
        (3, (0..n).any(bit_outside)),
        (4, (0..n).any(|u| plan.leads_to(u, u))),
        (5, mark == Mark::TwoWay && (0..n).any(one_way)),
    ]
}

/// Of judge: 1 to 6, 8, 9.
pub fn judge_faults(kind: Kind, mark: Mark, table: &[u64], walk: &[u16]) -> Vec<u32> {
    let plan = Plan(table);
    let n = plan.size();
    let of_walk = [(6, walk.len() > n), (8, point_outside(n, walk)), (9, point_twice(walk))];
    holding(&[&plan_tests(kind, mark, &plan)[..], &of_walk].concat())
}

/// Of carry-on: 1 to 6, 10, 7, 8, 9, and 12 where there is no other.
pub fn carry_on_faults(
    kind: Kind,
    mark: Mark,
    table: &[u64],
    tie_break: &[u16],
    output: &[u16],
    k: usize,
) -> Vec<u32> {
    let plan = Plan(table);
    let n = plan.size();
    let start = &output[..k.min(output.len())];
    let of_lists = [
        (6, k > n),
        (10, output.len() < n),
        (7, tie_break.len() != n),
        (8, point_outside(n, start) || point_outside(n, tie_break)),
        (9, point_twice(start) || point_twice(tie_break)),
    ];
    let faults = holding(&[&plan_tests(kind, mark, &plan)[..], &of_lists].concat());
    if faults.is_empty() && first_not_offered(kind, &plan, start).is_some() {
        return vec![12];
    }
    faults
}

// ---- The calls ----

/// What judge answers.
#[derive(Clone, Copy, PartialEq, Eq, Debug)]
pub enum Verdict {
    Passes,
    Fails(Triple),
    Refused(u32),
}

pub fn judge(kind: Kind, mark: Mark, table: &[u64], walk: &[u16]) -> Verdict {
    if let Some(&number) = judge_faults(kind, mark, table, walk).first() {
        return Verdict::Refused(number);
    }
    let plan = Plan(table);
    match first_not_offered(kind, &plan, walk) {
        None => Verdict::Passes,
        Some(i) => {
            let triple = first_violation_at(kind, &plan, walk, i);
            Verdict::Fails(triple.expect("a point that was not offered is the middle of a triple"))
        }
    }
}

/// The answer, and the output list as it is afterwards.
pub fn carry_on(
    kind: Kind,
    mark: Mark,
    table: &[u64],
    tie_break: &[u16],
    output: &[u16],
    k: usize,
) -> (Result<(), u32>, Vec<u16>) {
    if let Some(&number) = carry_on_faults(kind, mark, table, tie_break, output, k).first() {
        return (Err(number), output.to_vec());
    }
    let ordering = completed(kind, &Plan(table), tie_break, &output[..k]);
    (Ok(()), [&ordering[..], &output[ordering.len()..]].concat())
}

#[cfg(test)]
mod tests;
