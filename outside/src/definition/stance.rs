//! Two unplaced points compared, from the sentences of 02; where points are barred, in the plan without these.
//!
//!   places_of           the places in a label, as a set                            [01: label]
//!   is_level            two labels are level                                       [02: K6]
//!   stance              how a point with one label stands to one with another      [02: K6]
//!   compare             the call on an open walk: the stance, or a refusal's number
//!   compare_each        each point of a list compared with each
//!   broken_promise      what is said of all answers, and is not so for some

use std::collections::BTreeSet;

use super::open_walk::OpenWalk;
use super::without::is_barred;
use super::{first_of, label, outranks, Kind, Position, Vertex};
use super::{BFS, DFS, GENERIC, LEX_BFS, LEX_DFS, MCS, MNS};

/// How the first of two points stands to the second.
#[derive(Clone, Copy, PartialEq, Eq, Debug)]
pub enum Stance {
    Ahead,
    Behind,
    Level,
    Neither,
}

/// A stance, or a refusal's number.
pub type Answer = Result<Stance, u32>;

impl Stance {
    /// How the second point stands to the first.
    pub fn turned(self) -> Stance {
        match self {
            Stance::Ahead => Stance::Behind,
            Stance::Behind => Stance::Ahead,
            Stance::Level => Stance::Level,
            Stance::Neither => Stance::Neither,
        }
    }
}

pub fn places_of(label: &[bool]) -> BTreeSet<Position> {
    (0..label.len()).filter(|&p| label[p]).collect()
}

/// Equal labels for LexBFS, LexDFS and MNS; equal smallest or largest place for BFS and DFS, or no place in either;
/// equal count for MCS; both empty or both not empty for Generic.
pub fn is_level(kind: Kind, c: &BTreeSet<Position>, b: &BTreeSet<Position>) -> bool {
    match kind {
        LEX_BFS | LEX_DFS | MNS => c == b,
        BFS => c.first() == b.first(),
        DFS => c.last() == b.last(),
        MCS => c.len() == b.len(),
        GENERIC => c.is_empty() == b.is_empty(),
        _ => unreachable!("no such kind"),
    }
}

/// How a point with label c stands to one with label b. Behind means that the second is ahead.
pub fn stance(kind: Kind, c: &[bool], b: &[bool]) -> Stance {
    if outranks(kind, c, b) {
        Stance::Ahead
    } else if outranks(kind, b, c) {
        Stance::Behind
    } else if is_level(kind, &places_of(c), &places_of(b)) {
        Stance::Level
    } else {
        Stance::Neither
    }
}

/// The label of an unbarred point, on an open walk that is well formed.
fn label_of(walk: &OpenWalk, v: u8) -> Vec<bool> {
    let smaller = walk.smaller();
    let own = smaller.number(v as Vertex).expect("the point is not barred");
    label(smaller.graph(), &smaller.numbered(walk.placed()), own)
}

/// Each number is tried on both points before the following one.
fn answer(walk: &OpenWalk, well_formed: bool, first: u8, second: u8) -> Answer {
    let both = [first, second];
    let refusal = first_of(&[
        (13, &|| !well_formed),
        (8, &|| both.iter().any(|&v| v as usize >= walk.n)),
        (24, &|| both.iter().any(|&v| is_barred(walk.barred, v as Vertex))),
        (15, &|| both.iter().any(|v| walk.placed().contains(v))),
    ]);
    match refusal {
        Some(number) => Err(number),
        None => Ok(stance(walk.kind, &label_of(walk, first), &label_of(walk, second))),
    }
}

pub fn compare(walk: &OpenWalk, first: u8, second: u8) -> Answer {
    answer(walk, walk.well_formed(), first, second)
}

/// A list of answers for each first point. Whether the open walk is well formed is found out once for all.
pub fn compare_each(walk: &OpenWalk, points: &[u8]) -> Vec<Vec<Answer>> {
    let well_formed = walk.well_formed();
    let to_each = |&first: &u8| -> Vec<Answer> {
        points.iter().map(|&second| answer(walk, well_formed, first, second)).collect()
    };
    points.iter().map(to_each).collect()
}

/// A sentence that some answers do not keep, of those from each point of a list to each.
pub fn broken_promise(
    walk: &OpenWalk,
    points: &[u8],
    answers: &[Vec<Answer>],
) -> Option<&'static str> {
    let next = match walk.well_formed() {
        true => walk.next_points(),
        false => Vec::new(),
    };
    let pairs = (0..points.len()).flat_map(|i| (0..points.len()).map(move |j| (i, j)));
    pairs.into_iter().find_map(|pair| broken_by(walk, points, answers, &next, pair))
}

/// A sentence that the answer for the points at i and j does not keep, where `next` are those that are offered.
fn broken_by(
    walk: &OpenWalk,
    points: &[u8],
    answers: &[Vec<Answer>],
    next: &[Vertex],
    (i, j): (usize, usize),
) -> Option<&'static str> {
    if answers[j][i] != answers[i][j].map(Stance::turned) {
        return Some("turning the two points round turns ahead and behind, and nothing else");
    }
    let Ok(stance) = answers[i][j] else { return None };
    let level = stance == Stance::Level;
    let both_empty = [i, j].iter().all(|&at| !label_of(walk, points[at]).contains(&true));
    let is_offered = |at: usize| next.contains(&(points[at] as Vertex));
    let beaten = answers.iter().any(|to_each| to_each[j] == Ok(Stance::Ahead));
    let all_compared =
        (0..walk.n).all(|v| is_barred(walk.barred, v) || points.contains(&(v as u8)));
    let promises = [
        ("a point is level with itself", points[i] != points[j] || level),
        ("two empty labels are level in every kind", !both_empty || level),
        ("neither comes with MNS alone", stance != Stance::Neither || walk.kind == MNS),
        (
            "a point that is level with an offered one is offered",
            !level || is_offered(i) == is_offered(j),
        ),
        ("no point is ahead of an offered one", !is_offered(j) || !beaten),
        ("a point is offered if none is ahead of it", !all_compared || is_offered(j) || beaten),
    ];
    promises.iter().find(|(_, kept)| !kept).map(|(sentence, _)| *sentence)
}

#[cfg(test)]
mod tests;
