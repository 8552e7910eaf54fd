use super::*;

fn some_rows() -> Vec<Row> {
    let times = |library, bit_sets| Times { library, bit_sets };
    let row = |kind: &str, n, graph: &str, times| Row {
        kind: kind.to_string(),
        n,
        graph: graph.to_string(),
        times,
    };
    vec![
        row("BFS", 8, "sparse", [times(100.0, 50.0), times(90.0, 60.0)]),
        row("BFS", 8, "dense*", [times(150.0, 60.0), times(61.0, 60.0)]),
    ]
}

/// A document with two tables that have the same rows in different orders.
fn document() -> String {
    let rows = some_rows();
    let one = head("One", ["judge", "carry-on"]);
    let two = head("Two", ["judge", "carry-on"]);
    format!("# Title\n\n{one}\n{}\n{}\n\nText.\n\n{two}\n{}\n", rows[0], rows[1], rows[1])
}

#[test]
fn rows_are_read_as_they_were_printed() {
    assert_eq!(read(&document(), "One"), Ok(some_rows()));
    assert_eq!(read(&document(), "Two"), Ok(some_rows()[1..].to_vec()));
}

#[test]
fn the_head_has_a_column_for_each_of_a_row() {
    let columns = |line: &str| line.matches('|').count();
    let head = head("One", ["judge", "carry-on"]);
    let lines: Vec<&str> = head.lines().collect();
    assert_eq!(columns(lines[2]), columns(&some_rows()[0].to_string()));
    assert_eq!(columns(lines[3]), columns(lines[2]));
}

#[test]
fn a_table_that_is_missing_or_damaged_is_an_error() {
    assert!(read(&document(), "Three").is_err());
    assert!(read("### One\n\nText.\n", "One").is_err());
    assert!(read(&document().replace("150", "many"), "One").is_err());
    assert!(read(&document().replace(" 2.50 |", ""), "One").is_err());
}

#[test]
fn the_largest_ratio_of_each_timing_is_named() {
    assert_eq!(
        largest_ratios(&some_rows(), ["judge", "carry-on"]),
        "Largest ratios: judge 2.50 (BFS, n = 8, dense*); carry-on 1.50 (BFS, n = 8, sparse)."
    );
}
