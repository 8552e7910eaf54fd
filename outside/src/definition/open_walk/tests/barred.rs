//! Points out of service, with answers worked out by hand, and on all small plans.

use super::*;
use crate::barred_sets;
use crate::definition::{label, outranks};
use crate::graphs::all_plans;
use crate::orderings::all_partial;

// The links 0-1, 1-2, 2-3. Without 1 there are two pieces, 0 and 2-3.
const PATH: [u64; 4] = [2, 5, 10, 4];

fn each_kind_and_mark() -> impl Iterator<Item = (Kind, Mark)> {
    KINDS.into_iter().flat_map(|kind| MARKS.map(|mark| (kind, mark)))
}

/// The open walk that holds these points.
fn holding(kind: Kind, mark: Mark, rows: &[u64], barred: u64, walk: &[u8]) -> OpenWalk {
    let (mut held, answer) = OpenWalk::open(kind, mark, rows, barred);
    assert_eq!(answer, 0);
    held.k = walk.len();
    held.places[..walk.len()].copy_from_slice(walk);
    held
}

/// Each call answers 13 and hands the open walk back as it came.
fn is_refused(walk: &OpenWalk) -> bool {
    walk.offered() == (0, 13)
        && walk.take_back() == (walk.clone(), 13)
        && (0..=5).all(|v| walk.place(v) == (walk.clone(), 13))
}

#[test]
fn an_open_keeps_its_set_and_a_refused_one_hands_back_none() {
    for (kind, mark) in each_kind_and_mark() {
        for barred in [0b0000, 0b1010, 0b1111] {
            let (walk, answer) = OpenWalk::open(kind, mark, &PATH, barred);
            assert_eq!((walk.barred, walk.n, answer), (barred, 4, 0));
        }
        for barred in [1 << 4, 1 << 63, !0] {
            assert_eq!(OpenWalk::open(kind, mark, &PATH, barred), (OpenWalk::nothing(), 23));
        }
        assert_eq!(OpenWalk::open(kind, mark, &[], 1), (OpenWalk::nothing(), 23));
        assert_eq!(OpenWalk::open(kind, mark, &[0; 64], !0).1, 0);
    }
    assert_eq!(OpenWalk::nothing().barred, NONE_BARRED);
}

#[test]
fn an_open_refuses_the_set_last() {
    let [two_way, one_way] = MARKS.map(|mark| {
        let number = |kind, rows: &[u64]| OpenWalk::open(kind, mark, rows, !0).1;
        [number(7, &PATH), number(MCS, &[0; 65]), number(MCS, &[8, 0, 0]), number(MCS, &[1, 0, 0])]
    });
    assert_eq!((two_way, one_way), ([1, 2, 3, 4], [1, 2, 3, 4]));
    assert_eq!(OpenWalk::open(MCS, Mark::TwoWay, &ROUND, !0).1, 5);
    assert_eq!(OpenWalk::open(MCS, Mark::OneWay, &ROUND, !0).1, 23);
    // A barred point's links are looked at, too.
    assert_eq!(OpenWalk::open(MCS, Mark::TwoWay, &[2, 0], 1).1, 5);
    assert_eq!(OpenWalk::open(MCS, Mark::TwoWay, &[1, 0], 1).1, 4);
}

#[test]
fn a_walk_goes_round_the_barred_points() {
    for (kind, mark) in each_kind_and_mark() {
        let (nothing, _) = OpenWalk::open(kind, mark, &PATH, 1 << 1);
        assert_eq!((nothing.offered(), nothing.take_back().1), ((0b1101, 0), 17));
        let (walk, answer) = nothing.place(2);
        assert_eq!((walk.barred, walk.offered(), answer), (1 << 1, (0b1000, 0), 0));
        let (walk, answer) = walk.place(3);
        assert_eq!((walk.offered(), answer), ((0b0001, 0), 0));
        let (full, answer) = walk.place(0);
        assert_eq!((full.offered(), answer), ((0, 0), 0));
        assert_eq!(full.take_back(), (walk, 0));
    }
}

#[test]
fn placing_refuses_in_order() {
    for (kind, mark) in each_kind_and_mark() {
        let walk = holding(kind, mark, &PATH, 1 << 1, &[2]);
        let numbers = [0, 1, 2, 3, 4, 255].map(|v| walk.place(v).1);
        assert_eq!(numbers, [16, 24, 15, 0, 8, 8]);
        // All that are not barred are placed, and then there are none.
        for full in [&[2, 3, 0][..], &[]] {
            let barred = if full.is_empty() { 0b1111 } else { 1 << 1 };
            let walk = holding(kind, mark, &PATH, barred, full);
            assert_eq!(walk.offered(), (0, 0));
            assert!([0, 1, 2, 3, 4, 255].iter().all(|&v| walk.place(v) == (walk.clone(), 14)));
        }
    }
}

#[test]
fn a_set_that_does_not_fit_the_walk_is_not_well_formed() {
    for (kind, mark) in each_kind_and_mark() {
        let walk = holding(kind, mark, &PATH, 1 << 1, &[2, 3]);
        assert!(walk.well_formed());
        for barred in [0b10010, 1 << 63, 1 << 2, 1 << 3, 0b1111] {
            assert!(is_refused(&OpenWalk { barred, ..walk.clone() }));
        }
        // Well formed because of 1 alone, and because of 2 alone.
        let apart = holding(kind, mark, &PATH, 1 << 1, &[0, 2]);
        assert!(apart.well_formed());
        for barred in [NONE_BARRED, 1 << 3] {
            assert!(is_refused(&OpenWalk { barred, ..apart.clone() }));
        }
        // 0 1 2 passes in the whole plan.
        let through = holding(kind, mark, &PATH, NONE_BARRED, &[0, 1, 2]);
        assert!(through.well_formed());
        assert!(is_refused(&OpenWalk { barred: 1 << 1, ..through }));
    }
}

#[test]
fn mcs_does_not_count_barred_points_as_placed() {
    // 0 leads to 1 and 2, and 3, which is barred, to 2.
    for mark in MARKS {
        let walk = holding(MCS, mark, &[6, 1, 9, 4], 1 << 3, &[0]);
        assert_eq!(walk.offered(), (0b0110, 0));
    }
}

/// The points that may be next, from the whole plan: neither placed nor barred, and no other such point is ahead.
fn offered_beside(walk: &OpenWalk) -> Vec<Vertex> {
    let graph = Graph::from_plan(&walk.plan());
    let free = |v: &Vertex| !is_barred(walk.barred, *v) && !walk.placed().contains(&(*v as u8));
    let labelled: Vec<(Vertex, Vec<bool>)> =
        (0..walk.n).filter(free).map(|v| (v, label(&graph, walk.placed(), v))).collect();
    let none_ahead = |b: &[bool]| !labelled.iter().any(|(_, c)| outranks(walk.kind, c, b));
    labelled.iter().filter(|(_, b)| none_ahead(b)).map(|(v, _)| *v).collect()
}

/// With every set of barred points and every walk over the others: the offered points are those found without removing
/// anything, and those with which the walk, grown by one, is well formed.
#[test]
fn offered_points_on_small_plans() {
    for (mark, barred) in
        MARKS.into_iter().flat_map(|mark| barred_sets::all(3).map(move |barred| (mark, barred)))
    {
        let names_barred = |walk: &[u8]| walk.iter().any(|&v| is_barred(barred, v as Vertex));
        let mut walks = all_partial(3);
        walks.retain(|walk| !names_barred(walk));
        for (plan, walk) in
            all_plans(mark, 3).iter().flat_map(|plan| walks.iter().map(move |walk| (plan, walk)))
        {
            let row = |bytes: &[u8]| u64::from_le_bytes(bytes.try_into().expect("eight bytes"));
            let rows: Vec<u64> = plan.chunks_exact(8).map(row).collect();
            KINDS
                .map(|kind| holding(kind, mark, &rows, barred, walk))
                .iter()
                .filter(|walk| walk.well_formed())
                .for_each(check_offered);
        }
    }
}

fn check_offered(walk: &OpenWalk) {
    let next = offered_beside(walk);
    assert_eq!(walk.offered(), (barred_sets::set(next.iter().copied()), 0));
    for v in 0..walk.n as u8 {
        let list = [walk.placed(), &[v]].concat();
        let (rows, barred) = (&walk.rows[..walk.n], walk.barred);
        let passes = holding(walk.kind, walk.mark, rows, barred, &list).well_formed();
        assert_eq!(passes, next.contains(&(v as Vertex)));
        assert_eq!(walk.place(v).1 == 0, passes);
    }
}
