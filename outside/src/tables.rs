//! The tables of docs/BENCHMARKS.md, as `speed` prints them and `draw` reads them.
//!
//! A table has a title, a head, a row for each kind, n and density, and below
//! it the largest ratio of each of its two timings.

use std::fmt;

/// The table of inputs that take turns.
pub const ROTATING: &str = "64 rotating inputs";

/// Nanoseconds for one call.
#[derive(Clone, Copy, PartialEq, Debug)]
pub struct Times {
    pub library: f64,
    pub bit_sets: f64,
}

impl Times {
    pub fn ratio(&self) -> f64 {
        self.library / self.bit_sets
    }
}

#[derive(Clone, PartialEq, Debug)]
pub struct Row {
    pub kind: String,
    pub n: usize,
    /// "sparse" or "dense", with a mark behind it where the text below the table explains one.
    pub graph: String,
    pub times: [Times; 2],
}

impl fmt::Display for Row {
    fn fmt(&self, f: &mut fmt::Formatter) -> fmt::Result {
        write!(f, "| {} | {} | {} |", self.kind, self.n, self.graph)?;
        for times in &self.times {
            let Times { library, bit_sets } = times;
            write!(f, " {library:.0} | {bit_sets:.0} | {:.2} |", times.ratio())?;
        }
        Ok(())
    }
}

/// The title and the head; each of the two timings has a name.
pub fn head(title: &str, timings: [&str; 2]) -> String {
    head_beside(title, timings, "bit sets")
}

/// The same where another implementation stands in the place of the one on bit sets.
pub fn head_beside(title: &str, timings: [&str; 2], other: &str) -> String {
    let [first, second] = timings.map(|name| format!(" {name} ns | {other} ns | ratio |"));
    format!("### {title}\n\n| kind | n | graph |{first}{second}\n|---|--:|---|{}", "--:|".repeat(6))
}

/// The largest ratio of each timing, as a sentence.
pub fn largest_ratios(rows: &[Row], timings: [&str; 2]) -> String {
    let largest = |i: usize| {
        let ratio = |row: &&Row| row.times[i].ratio();
        let row = rows.iter().max_by(|x, y| ratio(x).total_cmp(&ratio(y))).expect("a row");
        let Row { kind, n, graph, .. } = row;
        format!("{} {:.2} ({kind}, n = {n}, {graph})", timings[i], row.times[i].ratio())
    };
    format!("Largest ratios: {}; {}.", largest(0), largest(1))
}

/// The rows of the table with this title in a document, or what is wrong with it.
pub fn read(document: &str, title: &str) -> Result<Vec<Row>, String> {
    let heading = format!("### {title}");
    let mut lines = document.lines().skip_while(|line| *line != heading).skip(1);
    let table = lines.by_ref().skip_while(|line| line.is_empty());
    let rows: Vec<&str> = table.take_while(|line| line.starts_with('|')).skip(2).collect();
    if rows.is_empty() {
        return Err(format!("no table below '{heading}'"));
    }
    rows.iter().map(|line| row(line).ok_or(format!("not a row of a table: {line}"))).collect()
}

fn row(line: &str) -> Option<Row> {
    let inner = line.strip_prefix('|')?.strip_suffix('|')?;
    let cells: Vec<&str> = inner.split('|').map(str::trim).collect();
    let [kind, n, graph, times @ ..] = cells.as_slice() else { return None };
    let numbers: Vec<f64> = times.iter().map(|cell| cell.parse().ok()).collect::<Option<_>>()?;
    let [library, bit_sets, _, library_second, bit_sets_second, _] = numbers[..] else {
        return None;
    };
    let first = Times { library, bit_sets };
    let second = Times { library: library_second, bit_sets: bit_sets_second };
    let (kind, graph) = (kind.to_string(), graph.to_string());
    Some(Row { kind, n: n.parse().ok()?, graph, times: [first, second] })
}

#[cfg(test)]
mod tests;
