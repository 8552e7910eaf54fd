use super::*;
use crate::definition::MARKS;
use crate::graphs;

// The links 0-1, 0-2, 1-3.
const TREE: [u64; 4] = [6, 9, 1, 2];

const FILE: &str = "p edge 4 3\ne 1 2\ne 1 3\ne 2 4\n";

const FRESH: [u64; 6] = [100, 101, 102, 103, 104, 105];

fn refusal(file: &str) -> u32 {
    read(file.as_bytes()).expect_err("the file is refused")
}

fn accepted(file: &str) -> Vec<u64> {
    read(file.as_bytes()).expect("the file is accepted")
}

#[test]
fn the_plan_of_the_examples_is_written_and_read() {
    assert_eq!(text(&TREE), FILE.as_bytes());
    assert_eq!(import(FILE.as_bytes(), &FRESH), (Ok(4), vec![6, 9, 1, 2, 104, 105]));
    let (answer, after) = export(Mark::TwoWay, &TREE, &[b'x'; 40]);
    assert_eq!(answer, Ok(29));
    assert_eq!(after, [FILE.as_bytes(), &[b'x'; 11]].concat());
}

#[test]
fn the_example_is_the_plan_of_the_sheet() {
    let folder = concat!(env!("CARGO_MANIFEST_DIR"), "/../examples");
    let content = |name: &str| std::fs::read(format!("{folder}/{name}")).expect("it is there");
    let (n, rows, _) = sheet::read(&content("plan.sheet")).expect("the sheet is sound");
    assert_eq!(read(&content("plan.col")), Ok(rows));
    assert_eq!(n, 4);
}

#[test]
fn every_written_file_is_read_back() {
    for n in 0..=4 {
        for plan in graphs::all_plans(Mark::TwoWay, n) {
            let rows: Vec<u64> = plan
                .chunks_exact(8)
                .map(|row| u64::from_le_bytes(row.try_into().expect("eight bytes")))
                .collect();
            assert_eq!(read(&text(&rows)), Ok(rows.clone()));
            assert_eq!(sheet::read(&sheet_of(&text(&rows))), Ok((n, rows, vec![])));
        }
    }
    let all_linked: Vec<u64> = (0..MOST).map(|u| !(1 << u)).collect();
    assert_eq!(text(&all_linked).len(), LONGEST);
    assert_eq!(read(&text(&all_linked)), Ok(all_linked));
}

#[test]
fn comments_and_links_may_come_again() {
    let more = "c\np edge 4 6\nc \r\t\ne 1 2\ne 2 1\ne 1 2\nce 1 1\ne 3 1\ne 1 3\ne 4 2\nc p\n";
    assert_eq!(accepted(more), TREE);
    assert_eq!(accepted("p edge 0 0\n"), []);
    assert_eq!(accepted("p edge 3 0\n"), [0, 0, 0]);
}

#[test]
fn the_form_is_strict() {
    for end in 0..FILE.len() {
        assert_eq!(refusal(&FILE[..end]), 27);
    }
    for (old, new) in [
        ("\n", "\r\n"),
        (" 1", "\t1"),
        (" 1", "  1"),
        (" 1", " 01"),
        (" 1", " +1"),
        ("2\n", "2 \n"),
        ("e 1 2\n", "e 1 2\n\n"),
        ("e 1 2\n", "x\ne 1 2\n"),
        ("e 1 2\n", "p edge 4 3\ne 1 2\n"),
        ("e 1 2\n", "e 1\n"),
        ("e 1 2\n", "e 1 2 3\n"),
        ("p edge", "p col"),
        ("p edge", "e 1 2\np edge"),
        ("p edge 4 3\n", ""),
        (" 3\n", "\n"),
        ("3\n", "03\n"),
    ] {
        assert_eq!(refusal(&FILE.replacen(old, new, 1)), 27, "{new:?} for {old:?}");
    }
    for alone in ["", "\n", "c", "c\n", "p", "p edge\n", "p edge 4 00\n"] {
        assert_eq!(refusal(alone), 27, "{alone:?}");
    }
}

#[test]
fn numbers_are_what_they_are() {
    let huge = ["18446744073709551616", "1000000000000000000000000000000"];
    for n in ["65", "99", "256", huge[0], huge[1]] {
        for rest in ["", "x", "e 1 1\n", "e 0 0\n"] {
            assert_eq!(refusal(&format!("p edge {n} 0\n{rest}")), 2);
        }
        assert_eq!(refusal(&format!("p edge {n} 00\n")), 27);
        assert_eq!(refusal(&format!("p edge {n} 0")), 27);
    }
    assert_eq!(refusal("p edge 3 18446744073709551619\ne 1 2\ne 1 3\ne 2 3\n"), 27);
    for point in ["0", "5", "18446744073709551617", huge[1]] {
        assert_eq!(refusal(&FILE.replace("e 1 3", &format!("e {point} 3"))), 27);
        assert_eq!(refusal(&FILE.replace("e 1 3", &format!("e 3 {point}"))), 27);
    }
    assert!(Number::of(64) < Number::of(65) && Number::of(9) < Number::of(10));
    assert!(Number::of(usize::MAX) < Number::read(huge[0].as_bytes()).expect("a number"));
}

#[test]
fn import_tries_the_refusals_in_their_order() {
    let own = "p edge 4 1\ne 2 2\n";
    for (file, room, faults) in [
        ("x\np edge 65 0\n", 0, vec![27]),
        ("p edge 65 0\ne 1 1\n", 0, vec![2, 27, 4, 10]),
        ("p edge 4 2\ne 2 2\n", 0, vec![27, 4, 10]),
        ("p edge 4 1\ne 2 2\nx\n", 3, vec![27, 4, 10]),
        (own, 3, vec![4, 10]),
        (own, 4, vec![4]),
        (FILE, 3, vec![10]),
        (FILE, 4, vec![]),
    ] {
        assert_eq!(import_faults(file.as_bytes(), room), faults, "{file:?}");
        let (answer, after) = import(file.as_bytes(), &FRESH[..room]);
        assert_eq!(answer.err(), faults.first().copied());
        assert!(faults.is_empty() || after == FRESH[..room]);
    }
}

#[test]
fn export_tries_the_refusals_in_their_order() {
    let rows = [0b10011, 0b1001, 1, 2];
    assert_eq!(export_faults(Mark::OneWay, &rows, 0), [3, 4, 25, 5, 10]);
    assert_eq!(export_faults(Mark::TwoWay, &rows, 0), [3, 4, 5, 10]);
    assert_eq!(export_faults(Mark::OneWay, &[1; 65], 0), [2, 4, 25, 5, 10]);
    assert_eq!(export_faults(Mark::TwoWay, &TREE, 29), []);
    assert_eq!(export(Mark::TwoWay, &TREE, &[7; 28]), (Err(10), vec![7; 28]));
    assert_eq!(export(Mark::OneWay, &TREE, &[]), (Err(25), vec![]));
    for mark in MARKS {
        assert_eq!(export(mark, &[2, 0], &[]).0, Err(if mark == Mark::OneWay { 25 } else { 5 }));
    }
}

#[test]
fn a_sheet_or_a_number_is_printed() {
    assert_eq!(sheet_of(FILE.as_bytes()), b"   4   3   0\n   0   1\n   0   2\n   1   3\n");
    assert_eq!(sheet_of(b""), b"  27\n");
    assert_eq!(sheet_of(b"p edge 65 0\n"), b"   2\n");
    assert_eq!(sheet_of(b"p edge 1 1\ne 1 1\n"), b"   4\n");
}
