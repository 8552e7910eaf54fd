//! The sheet of 01, from its sentences: laid out, read back by trying every field there is, and its judgement.
//!
//!   line numbers                a line with these fields                 [01: fields, line ends]
//!   write links walk n          the sheet of a plan and a walk           [01: the sheet]
//!   read bytes                  the plan and the walk, or a refusal      [01: checks]
//!   judgement bytes             what the program judge-sheet prints
//!   stopped_in bytes            the line in which a sheet that is refused with 11 stops having the form
//!   note bytes                  what the program judge-sheet writes to standard error

use std::collections::HashMap;
use std::sync::LazyLock;

use super::{first_of, judge, Mark, Vertex, FAILED, KINDS, NONE_BARRED};

/// The length of the longest valid sheet.
pub const LONGEST: usize = 18_477;

const FIELD: usize = 4;

/// A number from 0 to 9999 in four columns.
pub fn field(number: usize) -> Vec<u8> {
    format!("{number:>FIELD$}").into_bytes()
}

pub fn line(numbers: &[usize]) -> Vec<u8> {
    let mut bytes: Vec<u8> = numbers.iter().flat_map(|&number| field(number)).collect();
    bytes.push(10);
    bytes
}

/// The lines as they are given: of a valid sheet if each link has its smaller point first, the links ascend,
/// and the walk is one.
pub fn write(links: &[(Vertex, Vertex)], walk: &[Vertex], n: usize) -> Vec<u8> {
    let mut bytes = line(&[n, links.len(), walk.len()]);
    bytes.extend(links.iter().flat_map(|&(u, v)| line(&[u, v])));
    bytes.extend(walk.iter().flat_map(|&v| line(&[v])));
    bytes
}

/// Every field there is, with its number.
static FIELDS: LazyLock<HashMap<Vec<u8>, usize>> =
    LazyLock::new(|| (0..=9999).map(|number| (field(number), number)).collect());

/// The numbers of a line with `count` fields at the front, and the bytes behind it.
fn split_line(bytes: &[u8], count: usize) -> Option<(Vec<usize>, &[u8])> {
    let (line, rest) = bytes.split_at_checked(FIELD * count + 1)?;
    let fields = line.strip_suffix(b"\n")?;
    let numbers: Option<Vec<usize>> =
        fields.chunks(FIELD).map(|field| FIELDS.get(field).copied()).collect();
    Some((numbers?, rest))
}

/// The numbers of `lines` lines with `count` fields each, and the bytes behind them.
fn split_lines(bytes: &[u8], lines: usize, count: usize) -> Option<(Vec<Vec<usize>>, &[u8])> {
    let mut rest = bytes;
    let mut table = Vec::new();
    for _ in 0..lines {
        let (numbers, behind) = split_line(rest, count)?;
        table.push(numbers);
        rest = behind;
    }
    Some((table, rest))
}

type Links = Vec<(Vertex, Vertex)>;

/// What is behind line 1: m links, smaller point first, ascending, each point below n; k numbers; the end.
fn split_rest(bytes: &[u8], n: usize, m: usize, k: usize) -> Option<(Links, Vec<usize>)> {
    let (links, rest) = split_lines(bytes, m, 2)?;
    let (walk, rest) = split_lines(rest, k, 1)?;
    let links: Links = links.iter().map(|numbers| (numbers[0], numbers[1])).collect();
    let sound = rest.is_empty()
        && links.iter().all(|&(u, v)| u < v && v < n)
        && (1..links.len()).all(|i| links[i - 1] < links[i]);
    sound.then(|| (links, walk.concat()))
}

/// The number of points, the rows and the walk; or a refusal's number.
pub fn read(bytes: &[u8]) -> Result<(usize, Vec<u64>, Vec<u8>), u32> {
    let (first, rest) = split_line(bytes, 3).ok_or(11u32)?;
    let (n, m, k) = (first[0], first[1], first[2]);
    if let Some(number) = first_of(&[(2, &|| n > 64), (6, &|| k > n)]) {
        return Err(number);
    }
    let (links, walk) = split_rest(rest, n, m, k).ok_or(11u32)?;
    let outside = || walk.iter().any(|&v| v >= n);
    let twice = || (0..k).any(|i| walk[..i].contains(&walk[i]));
    if let Some(number) = first_of(&[(8, &outside), (9, &twice)]) {
        return Err(number);
    }
    let mut rows = vec![0; n];
    for (u, v) in links {
        rows[u] |= 1 << v;
        rows[v] |= 1 << u;
    }
    Ok((n, rows, walk.iter().map(|&v| v as u8).collect()))
}

/// What is printed for these bytes.
pub fn judgement(bytes: &[u8]) -> Vec<u8> {
    let (_, rows, walk) = match read(bytes) {
        Ok(sheet) => sheet,
        Err(number) => return line(&[number as usize]),
    };
    let plan: Vec<u8> = rows.iter().flat_map(|row| row.to_le_bytes()).collect();
    let judged = |kind| match judge(kind, Mark::TwoWay, &plan, NONE_BARRED, &walk) {
        0 => line(&[kind as usize, 1]),
        refusal @ 1..FAILED => unreachable!("refusal {refusal} for a sheet that was read"),
        code => {
            let triple = (code - FAILED) as usize;
            line(&[kind as usize, 0, triple >> 16, triple >> 8 & 255, triple & 255])
        }
    };
    KINDS.into_iter().flat_map(judged).collect()
}

// ---- Where a sheet stops having the form ----

/// The lines of all links between n points, ascending by pair.
fn link_lines(n: usize) -> Vec<Vec<u8>> {
    (0..n).flat_map(|u| (u + 1..n).map(move |v| line(&[u, v]))).collect()
}

/// How many lines at the front are right, for a sheet that is not refused with 2.
///
/// A right line has its only line end as its last byte, so the text can be cut at the line ends. The lines of the links
/// are right as long as each is found in `link_lines`, after the one before it.
fn right_lines(bytes: &[u8]) -> usize {
    let mut lines = bytes.split_inclusive(|&byte| byte == 10);
    let Some((first, _)) = lines.next().and_then(|line| split_line(line, 3)) else {
        return 0;
    };
    let (n, m, k) = (first[0], first[1], first[2]);
    let all = link_lines(n);
    let mut later = all.iter();
    let links = lines.by_ref().take(m).take_while(|line| later.any(|link| link == line)).count();
    if links < m {
        return 1 + links;
    }
    let places = lines.take(k).take_while(|line| split_line(line, 1).is_some()).count();
    1 + m + places
}

/// The line, counted from 1, that follows the right ones at the front: it is wrong, or missing, or one too many.
/// None where the sheet is not refused with 11.
pub fn stopped_in(bytes: &[u8]) -> Option<usize> {
    (read(bytes) == Err(11)).then(|| right_lines(bytes) + 1)
}

/// What is written to standard error for these bytes.
pub fn note(bytes: &[u8]) -> Vec<u8> {
    stopped_in(bytes).map_or(Vec::new(), |number| line(&[number]))
}

#[cfg(test)]
mod tests;
