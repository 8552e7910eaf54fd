use super::*;
use crate::graphs;
use crate::orderings;

const PRINTED: &str = "   4   3   4\n   0   1\n   0   2\n   1   3\n   0\n   1\n   2\n   3\n";

const ANSWER: &str = concat!(
    "   0   1\n   1   1\n   2   0   1   2   3\n   3   1\n",
    "   4   0   1   2   3\n   5   1\n   6   1\n"
);

fn refusal(sheet: &str) -> u32 {
    read(sheet.as_bytes()).expect_err("the sheet is refused")
}

fn judged(sheet: &str) -> String {
    String::from_utf8(judgement(sheet.as_bytes())).expect("digits, spaces and line ends")
}

#[test]
fn the_printed_sheet_has_the_printed_judgement() {
    assert_eq!(write(&[(0, 1), (0, 2), (1, 3)], &[0, 1, 2, 3], 4), PRINTED.as_bytes());
    assert_eq!(read(PRINTED.as_bytes()), Ok((4, vec![6, 9, 1, 2], vec![0, 1, 2, 3])));
    assert_eq!(judged(PRINTED), ANSWER);
}

#[test]
fn the_examples_have_the_judgements_beside_them() {
    let folder = concat!(env!("CARGO_MANIFEST_DIR"), "/../examples");
    let content = |name: &str, end: &str| {
        std::fs::read(format!("{folder}/{name}.{end}")).expect("the example is there")
    };
    for name in ["plan", "two_pieces", "broken"] {
        assert_eq!(judgement(&content(name, "sheet")), content(name, "judgement"), "{name}");
    }
    assert_eq!(content("plan", "sheet"), PRINTED.as_bytes());
}

#[test]
fn every_written_sheet_is_read_back() {
    for n in 0..=4 {
        for plan in graphs::all_plans(Mark::TwoWay, n) {
            let rows: Vec<u64> = plan
                .chunks_exact(8)
                .map(|row| u64::from_le_bytes(row.try_into().expect("eight bytes")))
                .collect();
            let links = graphs::links(&plan);
            for ordering in orderings::all_partial(n) {
                let walk: Vec<usize> = ordering.iter().map(|&v| v as usize).collect();
                let sheet = write(&links, &walk, n);
                assert_eq!(read(&sheet), Ok((n, rows.clone(), ordering)));
            }
        }
    }
}

#[test]
fn a_field_has_one_form() {
    for (number, bytes) in [(0, "   0"), (7, "   7"), (64, "  64"), (100, " 100"), (9999, "9999")] {
        assert_eq!(field(number), bytes.as_bytes());
    }
    for form in ["    ", "  00", "  03", "0003", "3   ", "  3 ", "  +3", "  -0", "  3x", "\t  3"] {
        assert_eq!(refusal(&PRINTED.replacen("   3", form, 1)), 11, "{form:?} for m");
        assert_eq!(refusal(&PRINTED.replacen("   2", form, 1)), 11, "{form:?} in a link");
        assert_eq!(refusal(&PRINTED.replace("   3\n   0\n", &format!("   3\n{form}\n"))), 11);
    }
}

#[test]
fn the_sheet_ends_where_its_lines_end() {
    for end in 0..PRINTED.len() {
        assert_eq!(refusal(&PRINTED[..end]), 11);
    }
    for more in [" ", "0", "\n", "\0", "   0\n"] {
        assert_eq!(refusal(&format!("{PRINTED}{more}")), 11);
    }
    assert_eq!(refusal(&PRINTED.replace('\n', "\r\n")), 11);
    assert_eq!(refusal(&PRINTED.replace('\n', "\r")), 11);
}

#[test]
fn links_ascend_and_name_points_of_the_plan() {
    let number = |links: &[(usize, usize)]| read(&write(links, &[0], 4)).err();
    assert_eq!(number(&[(0, 1), (0, 2), (2, 3)]), None);
    assert_eq!(number(&[(0, 2), (0, 1)]), Some(11));
    assert_eq!(number(&[(1, 2), (0, 3)]), Some(11));
    assert_eq!(number(&[(0, 1), (0, 1)]), Some(11));
    assert_eq!(number(&[(1, 0)]), Some(11));
    assert_eq!(number(&[(2, 2)]), Some(11));
    assert_eq!(number(&[(0, 4)]), Some(11));
    assert_eq!(number(&[(0, 257)]), Some(11));
    assert_eq!(number(&[(4, 5)]), Some(11));
}

#[test]
fn refusals_come_in_order() {
    let number = |links: &[(usize, usize)], walk: &[usize], n| read(&write(links, walk, n)).err();
    assert_eq!(refusal(""), 11);
    assert_eq!(refusal("  65   0  066\n"), 11);
    assert_eq!(refusal("  65   0  66\nx"), 2);
    assert_eq!(refusal("9999   0   0\n"), 2);
    assert_eq!(refusal("   3   0   4\nx"), 6);
    assert_eq!(refusal("   3   0 256\n"), 6);
    assert_eq!(refusal("   3 256   0\n"), 11);
    assert_eq!(number(&[(1, 1)], &[3, 3], 3), Some(11));
    assert_eq!(number(&[(0, 1)], &[1, 1, 3], 3), Some(8));
    assert_eq!(number(&[(0, 1)], &[0, 256], 3), Some(8));
    assert_eq!(number(&[(0, 1)], &[1, 1], 3), Some(9));
    assert_eq!(number(&[(0, 1)], &[1, 0], 3), None);
}

#[test]
fn a_refusal_is_printed_alone() {
    assert_eq!(judged(""), "  11\n");
    assert_eq!(judged("  65   0   0\n"), "   2\n");
    assert_eq!(
        judged("   0   0   0\n"),
        "   0   1\n   1   1\n   2   1\n   3   1\n   4   1\n   5   1\n   6   1\n"
    );
}

#[test]
fn the_longest_judgement_has_a_triple_for_every_kind() {
    assert_eq!(judged("   3   1   2\n   0   1\n   0\n   2\n").len(), 7 * 21);
}

#[test]
fn the_longest_sheet_has_all_links_and_all_points() {
    let links: Vec<(usize, usize)> =
        (0..64).flat_map(|u| (u + 1..64).map(move |v| (u, v))).collect();
    let walk: Vec<usize> = (0..64).collect();
    let sheet = write(&links, &walk, 64);
    assert_eq!(sheet.len(), LONGEST);
    assert!(read(&sheet).is_ok());
}

// ---- Where a sheet stops having the form ----

/// The line in which the printed sheet stops having the form, once `new` is there for `old`.
fn stopped(old: &str, new: &str) -> Option<usize> {
    assert_eq!(PRINTED.matches(old).count(), 1, "{old:?} is there once");
    stopped_in(PRINTED.replace(old, new).as_bytes())
}

#[test]
fn a_sheet_stops_in_a_wrong_line_1() {
    assert_eq!(stopped("   4   3   4\n", "   4   3   x\n"), Some(1));
    assert_eq!(stopped("   4   3   4\n", "   4  03   4\n"), Some(1));
    assert_eq!(stopped("   4   3   4\n", "   4   3\n"), Some(1));
    assert_eq!(stopped("   4   3   4\n", "   4   3   4   4\n"), Some(1));
    assert_eq!(stopped("   4   3   4\n", "   4   3   4"), Some(1));
    assert_eq!(stopped("   4   3   4\n", "  65   3   x\n"), Some(1));
}

#[test]
fn a_sheet_stops_in_a_wrong_link() {
    assert_eq!(stopped("   0   1\n   0   2\n", "   0   2\n   0   1\n"), Some(3), "out of order");
    assert_eq!(stopped("   0   2\n", "   0   1\n"), Some(3), "repeated");
    assert_eq!(stopped("   1   3\n", "   0   1\n"), Some(4), "before the first");
    assert_eq!(stopped("   1   3\n", "   1   4\n"), Some(4), "a point of n");
    assert_eq!(stopped("   1   3\n", "   4   5\n"), Some(4), "two points above n");
    assert_eq!(stopped("   1   3\n", "   1 259\n"), Some(4), "a point of 256 and more");
    assert_eq!(stopped("   0   1\n", "   1   0\n"), Some(2), "the larger first");
    assert_eq!(stopped("   0   1\n", "   0   0\n"), Some(2), "to itself");
    assert_eq!(stopped("   0   2\n", "   0   2 \n"), Some(3), "a space too many");
    assert_eq!(stopped("   0   2\n", "   0  02\n"), Some(3), "a leading zero");
    assert_eq!(stopped("   0   2\n", ""), Some(4), "one link too few: a place in its line");
    assert_eq!(stopped("   4   3   4\n", "   4   2   4\n"), Some(4), "one link too many");
}

#[test]
fn a_sheet_stops_in_a_wrong_place() {
    assert_eq!(stopped("\n   1\n", "\n   a\n"), Some(6));
    assert_eq!(stopped("\n   1\n", "\n\n"), Some(6));
    assert_eq!(stopped("\n   1\n", "\n   1\r\n"), Some(6));
    assert_eq!(stopped("\n   2\n   3\n", "\n   2   3\n"), Some(7));
    assert_eq!(stopped("\n   2\n   3\n", "\n   2\n  03\n"), Some(8));
}

#[test]
fn a_sheet_that_ends_early_stops_in_the_missing_line() {
    for end in 0..PRINTED.len() {
        let line_ends = PRINTED[..end].matches('\n').count();
        assert_eq!(stopped_in(&PRINTED.as_bytes()[..end]), Some(line_ends + 1), "{end} bytes");
    }
    assert_eq!(stopped_in(b""), Some(1));
    assert_eq!(stopped_in(b"  64   0   1\n"), Some(2));
    assert_eq!(stopped_in(b"   2   2   0\n   0   1\n"), Some(3));
}

#[test]
fn a_sheet_that_goes_on_stops_after_its_last_line() {
    for more in [" ", "0", "\n", "\0", "   0\n", "   0\n   1\n", PRINTED] {
        assert_eq!(stopped_in(format!("{PRINTED}{more}").as_bytes()), Some(9), "{more:?}");
        assert_eq!(stopped_in(format!("   0   0   0\n{more}").as_bytes()), Some(2), "{more:?}");
    }
}

#[test]
fn no_line_is_named_with_another_answer() {
    assert_eq!(stopped_in(PRINTED.as_bytes()), None);
    assert_eq!(stopped("   4   3   4\n", "  65   3   4\n"), None, "refusal 2");
    assert_eq!(stopped("   4   3   4\n", "   4   3   5\n"), None, "refusal 6");
    assert_eq!(stopped("\n   2\n   3\n", "\n   2\n   4\n"), None, "refusal 8");
    assert_eq!(stopped("\n   2\n   3\n", "\n   2\n   2\n"), None, "refusal 9");
}

#[test]
fn all_lines_of_a_sheet_that_has_the_form_are_right() {
    assert_eq!(right_lines(PRINTED.as_bytes()), 8);
    for (links, walk, n) in [(&[][..], &[][..], 0), (&[(0, 1)], &[1, 1, 9999], 3)] {
        assert_eq!(right_lines(&write(links, walk, n)), 1 + links.len() + walk.len());
    }
    let links: Vec<(usize, usize)> =
        (0..64).flat_map(|u| (u + 1..64).map(move |v| (u, v))).collect();
    let sheet = write(&links, &[0; 64], 64);
    assert_eq!(right_lines(&sheet), 2081);
    assert_eq!(stopped_in(&[&sheet[..], b"x"].concat()), Some(2082));
}

#[test]
fn the_line_is_noted_as_one_field() {
    let noted = |sheet: &str| String::from_utf8(note(sheet.as_bytes())).expect("a field");
    assert_eq!(noted(""), "   1\n");
    assert_eq!(noted(&format!("{PRINTED}\n")), "   9\n");
    assert_eq!(noted(PRINTED), "");
    assert_eq!(noted("  65   0   0\n"), "");
    let broken = concat!(env!("CARGO_MANIFEST_DIR"), "/../examples/broken.sheet");
    assert_eq!(note(&std::fs::read(broken).expect("the example is there")), b"   3\n");
}
