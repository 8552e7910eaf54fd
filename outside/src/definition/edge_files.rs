//! DIMACS edge files, from the sentences of 02.
//!
//!   Number            a number of any size, as its digits
//!   read_line         what a line says: nothing, how many points and links there are, or a link   [02: K13]
//!   parts             the p line, and the lines behind it
//!   malformed         the cases of 27 behind the p line, each by itself                           [02: K13, 27]
//!   text              the file of a plan                                                          [02: K13]
//!   import, export    the answer, and the output list as it is afterwards                         [02: K13]
//!   import_faults, export_faults   all refusals that a call deserves, the one that it gets first
//!   read              the rows of the plan that a file gives, or the refusal
//!   sheet_of          what the program dimacs-to-sheet prints

use super::{sheet, Mark, Vertex};

/// The most points that a plan has.
pub const MOST: usize = 64;

/// The length of the longest file that export writes.
pub const LONGEST: usize = 15_576;

/// The program dimacs-to-sheet accepts no longer input.
pub const LONGEST_INPUT: usize = 1 << 20;

/// A number of any size: its decimal digits, without leading zeros. Of two numbers the one with more digits is larger;
/// with as many digits, the one that has the larger digit where they first differ.
#[derive(Clone, PartialEq, Eq, PartialOrd, Ord, Debug)]
pub struct Number {
    length: usize,
    digits: String,
}

impl Number {
    pub fn of(number: usize) -> Number {
        let digits = number.to_string();
        Number { length: digits.len(), digits }
    }

    fn read(word: &[u8]) -> Option<Number> {
        let digits = String::from_utf8(word.to_vec()).ok()?;
        let decimal = !digits.is_empty() && digits.chars().all(|digit| digit.is_ascii_digit());
        let padded = digits.len() > 1 && digits.starts_with('0');
        (decimal && !padded).then_some(Number { length: digits.len(), digits })
    }

    /// As a machine word, where it fits.
    pub fn small(&self) -> Option<usize> {
        self.digits.parse().ok()
    }
}

/// What a line says.
#[derive(Clone, PartialEq, Eq, Debug)]
pub enum Line {
    Comment,
    Problem(Number, Number),
    Link(Number, Number),
}

/// The bytes up to a line end and with it. None where they have no line end or none of the forms.
pub fn read_line(bytes: &[u8]) -> Option<Line> {
    let line = bytes.strip_suffix(b"\n")?;
    if line.starts_with(b"c") {
        return Some(Line::Comment);
    }
    let words: Vec<&[u8]> = line.split(|&byte| byte == b' ').collect();
    match words[..] {
        [b"p", b"edge", n, m] => Some(Line::Problem(Number::read(n)?, Number::read(m)?)),
        [b"e", u, v] => Some(Line::Link(Number::read(u)?, Number::read(v)?)),
        _ => None,
    }
}

/// The numbers of the p line, and what each line behind it says; None for a line without the form.
pub struct Parts {
    pub n: Number,
    pub m: Number,
    pub rest: Vec<Option<Line>>,
}

impl Parts {
    pub fn links(&self) -> Vec<(Number, Number)> {
        let link = |line: &Option<Line>| match line {
            Some(Line::Link(u, v)) => Some((u.clone(), v.clone())),
            _ => None,
        };
        self.rest.iter().filter_map(link).collect()
    }
}

/// None where there is no p line, or where a line before it is not a comment.
pub fn parts(file: &[u8]) -> Option<Parts> {
    let mut lines = file.split_inclusive(|&byte| byte == 10).map(read_line);
    match lines.find(|line| *line != Some(Line::Comment))?? {
        Line::Problem(n, m) => Some(Parts { n, m, rest: lines.collect() }),
        _ => None,
    }
}

/// A line without the form; a second p line; a point that is not one of 1 to n; more links or fewer than m.
pub fn malformed(parts: &Parts) -> [bool; 4] {
    let Parts { n, m, rest } = parts;
    let links = parts.links();
    let outside = |point: &Number| *point < Number::of(1) || point > n;
    [
        rest.iter().any(|line| line.is_none()),
        rest.iter().any(|line| matches!(line, Some(Line::Problem(_, _)))),
        links.iter().any(|(u, v)| outside(u) || outside(v)),
        Number::of(links.len()) != *m,
    ]
}

// ---- Refusals ----

/// A refusal's number, and whether its test holds.
type Test = (u32, bool);

fn holding(tests: &[Test]) -> Vec<u32> {
    tests.iter().filter(|(_, holds)| *holds).map(|(number, _)| *number).collect()
}

/// 27 up to the p line, and then no other; else 2, 27, 4, and 10 where there is no room for n rows.
pub fn import_faults(file: &[u8], room: usize) -> Vec<u32> {
    let Some(parts) = parts(file) else {
        return vec![27];
    };
    holding(&[
        (2, parts.n > Number::of(MOST)),
        (27, malformed(&parts).contains(&true)),
        (4, parts.links().iter().any(|(u, v)| u == v)),
        (10, parts.n > Number::of(room)),
    ])
}

/// Bit v of row u is set.
fn is_set(rows: &[u64], u: Vertex, v: Vertex) -> bool {
    v < MOST && rows[u] >> v & 1 == 1
}

/// The pairs of which one leads to the other, the smaller point first, ascending.
pub fn links(rows: &[u64]) -> Vec<(Vertex, Vertex)> {
    let n = rows.len();
    let pairs = (0..n).flat_map(|u| (u + 1..n).map(move |v| (u, v)));
    pairs.filter(|&(u, v)| is_set(rows, u, v) || is_set(rows, v, u)).collect()
}

/// The p line, then every link once. Points are numbered from 1.
pub fn text(rows: &[u64]) -> Vec<u8> {
    let links = links(rows);
    let link = |(u, v): &(Vertex, Vertex)| format!("e {} {}\n", u + 1, v + 1);
    let lines: String = links.iter().map(link).collect();
    format!("p edge {} {}\n{lines}", rows.len(), links.len()).into_bytes()
}

/// 2, 3, 4, 25 for a one-way plan, 5, and 10 where there is no room for the text.
pub fn export_faults(mark: Mark, rows: &[u64], room: usize) -> Vec<u32> {
    let n = rows.len();
    let somewhere = |test: &dyn Fn(Vertex) -> bool| (0..n).any(test);
    holding(&[
        (2, n > MOST),
        (3, somewhere(&|u| (n..MOST).any(|v| is_set(rows, u, v)))),
        (4, somewhere(&|u| is_set(rows, u, u))),
        (25, mark == Mark::OneWay),
        (5, somewhere(&|u| (0..n).any(|v| is_set(rows, u, v) && !is_set(rows, v, u)))),
        (10, room < text(rows).len()),
    ])
}

// ---- The calls ----

/// The output list with the result at its front.
fn written<Entry: Clone>(result: &[Entry], output: &[Entry]) -> Vec<Entry> {
    [result, &output[result.len()..]].concat()
}

/// The rows of a file that is not refused.
fn rows_of(parts: &Parts) -> Vec<u64> {
    let place = |point: &Number| point.small().expect("at most 64") - 1;
    let mut rows = vec![0; parts.n.small().expect("at most 64")];
    for (u, v) in parts.links() {
        rows[place(&u)] |= 1 << place(&v);
        rows[place(&v)] |= 1 << place(&u);
    }
    rows
}

/// How many points there are or the refusal, and the output list as it is afterwards.
pub fn import(file: &[u8], output: &[u64]) -> (Result<usize, u32>, Vec<u64>) {
    if let Some(&number) = import_faults(file, output.len()).first() {
        return (Err(number), output.to_vec());
    }
    let rows = rows_of(&parts(file).expect("a p line, or it was refused"));
    (Ok(rows.len()), written(&rows, output))
}

/// How many bytes the text has or the refusal, and the output list as it is afterwards.
pub fn export(mark: Mark, rows: &[u64], output: &[u8]) -> (Result<usize, u32>, Vec<u8>) {
    if let Some(&number) = export_faults(mark, rows, output.len()).first() {
        return (Err(number), output.to_vec());
    }
    let text = text(rows);
    (Ok(text.len()), written(&text, output))
}

/// What import answers where there is room for every plan.
pub fn read(file: &[u8]) -> Result<Vec<u64>, u32> {
    let (answer, after) = import(file, &[0; MOST]);
    answer.map(|n| after[..n].to_vec())
}

/// The sheet of the plan, with an empty walk, or the number of the refusal in four columns.
pub fn sheet_of(file: &[u8]) -> Vec<u8> {
    match read(file) {
        Ok(rows) => sheet::write(&links(&rows), &[], rows.len()),
        Err(number) => sheet::line(&[number as usize]),
    }
}

#[cfg(test)]
mod tests;
