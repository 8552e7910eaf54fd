//! The tables, printed row by row.

use outside::tables::{head, head_beside, largest_ratios, Row, Times};

use crate::inputs::Case;

/// A table that grows.
pub struct Report {
    timings: [&'static str; 2],
    rows: Vec<Row>,
}

impl Report {
    /// Prints the title and the table's head.
    pub fn begin(title: &str, timings: [&'static str; 2]) -> Report {
        println!("{}", head(title, timings));
        Report { timings, rows: Vec::new() }
    }

    /// The same where another implementation stands in the place of the one on bit sets.
    pub fn begin_beside(title: &str, timings: [&'static str; 2], other: &str) -> Report {
        println!("{}", head_beside(title, timings, other));
        Report { timings, rows: Vec::new() }
    }

    /// Prints a row; the mark stands behind the name of its graphs.
    pub fn row(&mut self, case: &Case, mark: &str, times: [Times; 2]) {
        let graph = format!("{}{mark}", case.density.name());
        let row = Row { kind: case.kind_name().to_string(), n: case.n, graph, times };
        println!("{row}");
        self.rows.push(row);
    }

    /// Prints the largest ratios.
    pub fn end(self) {
        println!("\n{}\n", largest_ratios(&self.rows, self.timings));
    }
}
