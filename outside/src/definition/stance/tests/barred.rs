//! Points out of service, with answers worked out by hand, and on all small plans.

use super::*;
use crate::barred_sets;

fn barring(kind: Kind, mark: Mark, rows: &[u64], barred: u64, walk: &[u8]) -> OpenWalk {
    OpenWalk { barred, ..made(kind, mark, rows, walk) }
}

#[test]
fn compare_refuses_a_barred_point_between_8_and_15() {
    for (kind, mark) in KINDS.into_iter().flat_map(|kind| MARKS.map(|mark| (kind, mark))) {
        // Without 1, nothing leads to 3.
        let walk = barring(kind, mark, &TREE, 1 << 1, &[0]);
        let number = |first, second| compare(&walk, first, second).expect_err("refused");
        assert_eq!([number(4, 1), number(1, 4), number(0, 255), number(255, 2)], [8; 4]);
        assert_eq!([number(1, 0), number(0, 1), number(1, 1), number(1, 2)], [24; 4]);
        assert_eq!([number(0, 2), number(3, 0), number(0, 0)], [15; 3]);
        assert_eq!(compare(&walk, 2, 3), Ok(Ahead));
        assert_eq!(compare(&walk, 3, 3), Ok(Level));
        // A bit at n, and a barred point that is placed.
        for barred in [0b10010, 0b0011] {
            let damaged = OpenWalk { barred, ..walk.clone() };
            for (first, second) in [(2, 3), (1, 2), (0, 4), (4, 1)] {
                assert_eq!(compare(&damaged, first, second), Err(13));
            }
        }
    }
}

#[test]
fn a_barred_point_is_not_placed() {
    // 0 leads to 1 and 2, and 3 to 2.
    for mark in MARKS {
        let answers = KINDS.map(|kind| {
            let walk = barring(kind, mark, &[6, 1, 9, 4], 1 << 3, &[0]);
            [compare(&walk, 1, 2), compare(&walk, 2, 1)]
        });
        assert_eq!(answers, [[Ok(Level); 2]; 7]);
    }
}

/// With every set of barred points. The labels of the others are those of the whole plan, since no placed point is
/// barred; so are the answers.
#[test]
fn answers_on_small_plans_are_those_of_the_labels_in_the_whole_plan() {
    let walks = orderings::all_partial(3);
    for mark in MARKS {
        for (plan, barred) in graphs::all_plans(mark, 3)
            .iter()
            .flat_map(|plan| barred_sets::all(3).map(move |barred| (plan, barred)))
        {
            let rows = rows_of(plan);
            for (kind, walk) in
                KINDS.into_iter().flat_map(|kind| walks.iter().map(move |walk| (kind, walk)))
            {
                check_answers(&barring(kind, mark, &rows, barred, walk));
            }
        }
    }
}

fn check_answers(walk: &OpenWalk) {
    let graph = Graph::from_plan(&crate::definition::bytes(&walk.rows[..walk.n]));
    let points: Vec<u8> = (0..=walk.n as u8).collect();
    let answers = compare_each(walk, &points);
    assert_eq!(broken_promise(walk, &points, &answers), None);
    let labels = |v: usize| label(&graph, walk.placed(), v);
    for (i, j) in (0..=walk.n).flat_map(|i| (0..=walk.n).map(move |j| (i, j))) {
        if let Ok(answer) = answers[i][j] {
            assert_eq!(answer, stance(walk.kind, &labels(i), &labels(j)));
        }
    }
}
