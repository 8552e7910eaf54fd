//! Plans as neighbour lists, from the sentences of 02.
//!
//!   Lists              offsets and neighbours, in whatever form                             [02: K10]
//!   of u               the neighbours of a point: those from its offset up to the next one
//!   malformed          the six cases of 26, each by itself                                  [02: K10, 26]
//!   to_lists, to_rows  the two conversions, and the output lists as they are afterwards     [02: K10]
//!   judge              judge on the plan whose links the lists name                         [02: K10]
//!   lists_faults, rows_faults, judge_faults   all refusals that a call deserves, the one that it gets first

use super::{bytes, point_outside, point_twice, Kind, Mark, Vertex};

/// A point, and one that it leads to.
type Link = (Vertex, Vertex);

/// The most points that a plan has.
pub const MOST: usize = 64;

pub struct Lists {
    pub offsets: Vec<u16>,
    pub neighbours: Vec<u8>,
}

impl Lists {
    /// How many points there are; 0, too, where there is no offset.
    pub fn size(&self) -> usize {
        self.offsets.len().saturating_sub(1)
    }

    /// The neighbours of u: those at the places from its offset up to the next offset, as far as there are such places.
    pub fn of(&self, u: Vertex) -> Vec<u8> {
        let (begin, end) = (self.offsets[u] as usize, self.offsets[u + 1] as usize);
        (begin..end).filter_map(|place| self.neighbours.get(place).copied()).collect()
    }

    fn links(&self) -> Vec<Link> {
        let from = |u: Vertex| self.of(u).into_iter().map(move |v| (u, v as Vertex));
        (0..self.size()).flat_map(from).collect()
    }
}

/// Every entry is less than every later one.
fn strictly_ascending(list: &[u8]) -> bool {
    (0..list.len()).all(|j| (0..j).all(|i| list[i] < list[j]))
}

/// The six cases of 26: no offset; the first offset is not 0; the offsets fall; the last one is not the length of the
/// neighbour list; a point's neighbours are not strictly ascending; one of them is n or more.
pub fn malformed(lists: &Lists) -> [bool; 6] {
    let Lists { offsets, neighbours } = lists;
    let n = lists.size();
    [
        offsets.is_empty(),
        offsets.first().is_some_and(|&first| first != 0),
        (1..offsets.len()).any(|i| offsets[i] < offsets[i - 1]),
        offsets.last().is_some_and(|&last| last as usize != neighbours.len()),
        (0..n).any(|u| !strictly_ascending(&lists.of(u))),
        (0..n).any(|u| point_outside(n, &lists.of(u))),
    ]
}

// ---- Refusals ----

/// A refusal's number, and whether its test holds.
type Test = (u32, bool);

fn holding(tests: &[Test]) -> Vec<u32> {
    tests.iter().filter(|(_, holds)| *holds).map(|(number, _)| *number).collect()
}

/// 4 and 5, the latter for two-way plans only.
fn link_tests(mark: Mark, links: &[Link]) -> [Test; 2] {
    let one_way = |&(u, v): &Link| !links.contains(&(v, u));
    [(4, links.iter().any(|(u, v)| u == v)), (5, mark == Mark::TwoWay && links.iter().any(one_way))]
}

fn plan_tests(mark: Mark, lists: &Lists) -> Vec<Test> {
    let own =
        [(2, lists.offsets.len() > MOST + 1), (26, malformed(lists).iter().any(|&case| case))];
    own.into_iter().chain(link_tests(mark, &lists.links())).collect()
}

/// Of the conversion to rows: 2, 26, 4, 5, and 10 where there is no room for n rows.
pub fn rows_faults(mark: Mark, lists: &Lists, room: usize) -> Vec<u32> {
    let mut tests = plan_tests(mark, lists);
    tests.push((10, room < lists.size()));
    holding(&tests)
}

/// Bit v of row u is set.
fn is_set(rows: &[u64], u: Vertex, v: Vertex) -> bool {
    v < MOST && rows[u] >> v & 1 == 1
}

/// Each point of the rows with each that it leads to, ascending.
fn links_of(rows: &[u64]) -> Vec<Link> {
    let n = rows.len();
    let from = |u: Vertex| (0..n).filter(move |&v| is_set(rows, u, v)).map(move |v| (u, v));
    (0..n).flat_map(from).collect()
}

/// Of the conversion to lists: 2 to 5, and 10 where there is no room for n + 1 offsets or for all neighbours.
pub fn lists_faults(mark: Mark, rows: &[u64], offsets: usize, neighbours: usize) -> Vec<u32> {
    let n = rows.len();
    let links = links_of(rows);
    let outside = |u: Vertex| (n..MOST).any(|v| is_set(rows, u, v));
    let own = [(2, n > MOST), (3, (0..n).any(outside))];
    let room = [(10, offsets < n + 1 || neighbours < links.len())];
    let tests: Vec<Test> = own.into_iter().chain(link_tests(mark, &links)).chain(room).collect();
    holding(&tests)
}

/// Of judge: 1, 2, 26, 4, 5, 23, 6, 8, 9, 24.
pub fn judge_faults(kind: Kind, mark: Mark, lists: &Lists, barred: u64, walk: &[u8]) -> Vec<u32> {
    let n = lists.size();
    let is_barred = |v: Vertex| v < MOST && barred >> v & 1 == 1;
    let mut tests = vec![(1, kind > 6)];
    tests.extend(plan_tests(mark, lists));
    tests.extend([
        (23, (n..MOST).any(is_barred)),
        (6, walk.len() > n),
        (8, point_outside(n, walk)),
        (9, point_twice(walk)),
        (24, walk.iter().any(|&v| is_barred(v as Vertex))),
    ]);
    holding(&tests)
}

// ---- The calls ----

/// The rows of well-formed lists: bit v of row u where v is a neighbour of u.
pub fn rows_of(lists: &Lists) -> Vec<u64> {
    let mut rows = vec![0; lists.size()];
    for (u, v) in lists.links() {
        rows[u] |= 1 << v;
    }
    rows
}

/// The lists of valid rows: as offset of u how many links come from points below u, and for each point in turn those
/// that it leads to.
pub fn lists_of(rows: &[u64]) -> Lists {
    let links = links_of(rows);
    let before = |u: Vertex| links.iter().filter(|(from, _)| *from < u).count() as u16;
    Lists {
        offsets: (0..=rows.len()).map(before).collect(),
        neighbours: links.iter().map(|&(_, v)| v as u8).collect(),
    }
}

/// The output list with the result at its front.
fn written<Entry: Clone>(result: &[Entry], output: &[Entry]) -> Vec<Entry> {
    [result, &output[result.len()..]].concat()
}

/// What the output lists are afterwards, or the refusal; then they are as they were.
pub fn to_lists(mark: Mark, rows: &[u64], output: &Lists) -> Result<Lists, u32> {
    let Lists { offsets, neighbours } = output;
    match lists_faults(mark, rows, offsets.len(), neighbours.len()).first() {
        Some(&number) => Err(number),
        None => {
            let result = lists_of(rows);
            Ok(Lists {
                offsets: written(&result.offsets, offsets),
                neighbours: written(&result.neighbours, neighbours),
            })
        }
    }
}

/// What the output list is afterwards, or the refusal; then it is as it was.
pub fn to_rows(mark: Mark, lists: &Lists, output: &[u64]) -> Result<Vec<u64>, u32> {
    match rows_faults(mark, lists, output.len()).first() {
        Some(&number) => Err(number),
        None => Ok(written(&rows_of(lists), output)),
    }
}

/// What C gets for judge on rows, and 26.
pub fn judge(kind: Kind, mark: Mark, lists: &Lists, barred: u64, walk: &[u8]) -> u32 {
    match judge_faults(kind, mark, lists, barred, walk).first() {
        Some(&number) => number,
        None => super::judge(kind, mark, &bytes(&rows_of(lists)), barred, walk),
    }
}

#[cfg(test)]
mod tests;
