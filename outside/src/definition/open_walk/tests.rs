use super::*;
use crate::definition::{GENERIC, KINDS, MARKS, MCS, NONE_BARRED};

mod barred;

// The links 0-1, 1-2, 0-2; then 0 leads to 1, 1 to 2 and 2 to 0.
const TRIANGLE: [u64; 3] = [6, 5, 3];
const ROUND: [u64; 3] = [2, 4, 1];

fn opened(mark: Mark, rows: &[u64]) -> OpenWalk {
    let (walk, answer) = OpenWalk::open(GENERIC, mark, rows, NONE_BARRED);
    assert_eq!(answer, 0);
    walk
}

#[test]
fn a_refused_open_hands_back_two_way() {
    for mark in MARKS {
        for (number, kind, rows) in
            [(1, 7, &ROUND[..]), (2, MCS, &[0; 65]), (3, MCS, &[8, 0, 0]), (4, MCS, &[1, 0, 0])]
        {
            assert_eq!(
                OpenWalk::open(kind, mark, rows, NONE_BARRED),
                (OpenWalk::nothing(), number)
            );
        }
    }
    assert_eq!(OpenWalk::nothing().mark, Mark::TwoWay);
}

#[test]
fn one_way_links_are_refused_in_a_two_way_plan_only() {
    assert_eq!(OpenWalk::open(MCS, Mark::TwoWay, &ROUND, NONE_BARRED), (OpenWalk::nothing(), 5));
    let (walk, answer) = OpenWalk::open(MCS, Mark::OneWay, &ROUND, NONE_BARRED);
    assert_eq!((walk.mark, walk.n, answer), (Mark::OneWay, 3, 0));
}

#[test]
fn placing_and_taking_back_keep_the_mark() {
    for mark in MARKS {
        let walk = opened(mark, &TRIANGLE);
        let (placed, answer) = walk.place(1);
        assert_eq!((placed.mark, placed.k, answer), (mark, 1, 0));
        let (refused, answer) = placed.place(1);
        assert_eq!((refused.mark, answer), (mark, 15));
        assert_eq!(placed.take_back(), (walk, 0));
    }
}

#[test]
fn a_one_way_walk_offers_what_its_points_lead_to() {
    let (walk, _) = opened(Mark::OneWay, &ROUND).place(1);
    assert_eq!(walk.offered(), (1 << 2, 0));
    assert_eq!(walk.place(0).1, 16);
    assert_eq!(walk.place(2).0.offered(), (1, 0));
}

#[test]
fn a_two_way_walk_on_one_way_links_is_not_well_formed() {
    for kind in KINDS {
        let (walk, _) = OpenWalk::open(kind, Mark::OneWay, &ROUND, NONE_BARRED);
        let (walk, _) = walk.place(1);
        assert!(walk.well_formed());
        let damaged = OpenWalk { mark: Mark::TwoWay, ..walk };
        assert_eq!(damaged.offered(), (0, 13));
        assert_eq!(damaged.place(2), (damaged.clone(), 13));
        assert_eq!(damaged.take_back(), (damaged.clone(), 13));
    }
}
