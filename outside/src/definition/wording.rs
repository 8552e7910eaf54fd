//! The judgement in words, from the sentences of 02.
//!
//!   sentence         what is said for a kind and a judgement                                [02: K11]
//!   faults           all refusals that a call deserves, the one that it gets first          [02: K11]
//!   judge_in_words   the sentence's length or the refusal, and the output list afterwards   [02: K11]

use super::{
    bytes, is_barred, judge, point_outside, point_twice, Kind, Mark, Vertex, FAILED, KIND_NAMES,
};

/// An output list with fewer bytes is refused.
pub const ROOM: usize = 96;

/// The most points that a plan has.
pub const MOST: usize = 64;

/// A fault triple a, b, c.
pub type Triple = (Vertex, Vertex, Vertex);

/// For a walk that passes, or that fails with this triple.
pub fn sentence(kind: Kind, triple: Option<Triple>) -> String {
    let name = KIND_NAMES[kind as usize];
    match triple {
        None => format!("{name} passes."),
        Some((a, b, c)) => format!("{name} fails at {b}: {a} leads to {c} and not to {b}."),
    }
}

/// Judge's checks, 1 to 5, 23, 6, 8, 9, 24, then 10 for an output list of so many bytes.
pub fn faults(
    kind: Kind,
    mark: Mark,
    rows: &[u64],
    barred: u64,
    walk: &[u8],
    room: usize,
) -> Vec<u32> {
    let n = rows.len();
    let leads_to = |u: Vertex, v: Vertex| v < MOST && rows[u] >> v & 1 == 1;
    let somewhere = |test: &dyn Fn(Vertex) -> bool| (0..n).any(test);
    let tests = [
        (1, kind as usize >= KIND_NAMES.len()),
        (2, n > MOST),
        (3, somewhere(&|u| (n..MOST).any(|v| leads_to(u, v)))),
        (4, somewhere(&|u| leads_to(u, u))),
        (
            5,
            mark == Mark::TwoWay
                && somewhere(&|u| (0..n).any(|v| leads_to(u, v) && !leads_to(v, u))),
        ),
        (23, (n..MOST).any(|v| is_barred(barred, v))),
        (6, walk.len() > n),
        (8, point_outside(n, walk)),
        (9, point_twice(walk)),
        (24, walk.iter().any(|&v| (v as Vertex) < MOST && is_barred(barred, v as Vertex))),
        (10, room < ROOM),
    ];
    tests.iter().filter(|(_, holds)| *holds).map(|(number, _)| *number).collect()
}

/// The answer, and the output list as it is afterwards.
pub fn judge_in_words(
    kind: Kind,
    mark: Mark,
    rows: &[u64],
    barred: u64,
    walk: &[u8],
    output: &[u8],
) -> (Result<usize, u32>, Vec<u8>) {
    if let Some(&number) = faults(kind, mark, rows, barred, walk, output.len()).first() {
        return (Err(number), output.to_vec());
    }
    let code = judge(kind, mark, &bytes(rows), barred, walk);
    let triple = code
        .checked_sub(FAILED)
        .map(|code| ((code >> 16) as Vertex, (code >> 8 & 255) as Vertex, (code & 255) as Vertex));
    let said = sentence(kind, triple);
    (Ok(said.len()), [said.as_bytes(), &output[said.len()..]].concat())
}

#[cfg(test)]
mod tests;
