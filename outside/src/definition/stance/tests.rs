use super::Stance::{Ahead, Behind, Level, Neither};
use super::*;
use crate::definition::{Graph, Mark, KINDS, MARKS, NONE_BARRED};
use crate::graphs;
use crate::orderings;
use crate::random::Random;

mod barred;

// The links 0-1, 0-2, 1-3.
const TREE: [u64; 4] = [6, 9, 1, 2];

/// The label with these of four places.
fn with_places(places: &[Position]) -> Vec<bool> {
    (0..4).map(|p| places.contains(&p)).collect()
}

/// How a point with the first places stands to one with the second: Generic, BFS, DFS, LexBFS, LexDFS, MNS, MCS.
fn stances(c: &[Position], b: &[Position]) -> [Stance; 7] {
    KINDS.map(|kind| stance(kind, &with_places(c), &with_places(b)))
}

fn made(kind: Kind, mark: Mark, rows: &[u64], walk: &[u8]) -> OpenWalk {
    let (mut made, answer) = OpenWalk::open(kind, mark, rows, NONE_BARRED);
    assert_eq!(answer, 0);
    made.k = walk.len();
    made.places[..walk.len()].copy_from_slice(walk);
    made
}

/// The answers of each kind on a walk that passes all kinds.
fn each_kind(mark: Mark, rows: &[u64], walk: &[u8], first: u8, second: u8) -> [Answer; 7] {
    KINDS.map(|kind| compare(&made(kind, mark, rows, walk), first, second))
}

fn rows_of(plan: &[u8]) -> Vec<u64> {
    let row = |bytes: &[u8]| u64::from_le_bytes(bytes.try_into().expect("eight bytes a row"));
    plan.chunks_exact(8).map(row).collect()
}

#[test]
fn kinds_compare_labels_by_their_own_rule() {
    assert_eq!(stances(&[0], &[1, 2]), [Level, Ahead, Behind, Ahead, Behind, Neither, Behind]);
    assert_eq!(stances(&[0, 1], &[0]), [Level, Level, Ahead, Ahead, Ahead, Ahead, Ahead]);
    assert_eq!(stances(&[0, 2], &[1, 2]), [Level, Ahead, Level, Ahead, Behind, Neither, Level]);
    assert_eq!(stances(&[0, 3], &[0, 1]), [Level, Level, Ahead, Behind, Ahead, Neither, Level]);
    assert_eq!(
        stances(&[1, 3], &[0, 1, 3]),
        [Level, Behind, Level, Behind, Behind, Behind, Behind]
    );
    assert_eq!(
        stances(&[0, 3], &[0, 1, 2, 3]),
        [Level, Level, Level, Behind, Behind, Behind, Behind]
    );
}

#[test]
fn equal_labels_are_level_and_empty_ones_behind_all_others() {
    for places in [&[][..], &[0], &[3], &[0, 1, 2, 3], &[1, 2]] {
        assert_eq!(stances(places, places), [Level; 7]);
        if !places.is_empty() {
            assert_eq!(stances(places, &[]), [Ahead; 7]);
            assert_eq!(stances(&[], places), [Behind; 7]);
        }
    }
}

/// The first is ahead, or the second is, or the two are level: never two of these, and none of them in MNS alone.
#[test]
fn one_answer_fits() {
    let labels: Vec<Vec<bool>> =
        (0..16).map(|set| (0..4).map(|p| set >> p & 1 == 1).collect()).collect();
    for kind in KINDS {
        let mut neither = 0;
        for (c, b) in labels.iter().flat_map(|c| labels.iter().map(move |b| (c, b))) {
            let level = is_level(kind, &places_of(c), &places_of(b));
            let fitting = [outranks(kind, c, b), outranks(kind, b, c), level];
            let count = fitting.iter().filter(|&&fits| fits).count();
            assert!(count == 1 || count == 0 && kind == MNS);
            assert_eq!(stance(kind, c, b) == Neither, count == 0);
            assert_eq!(stance(kind, b, c), stance(kind, c, b).turned());
            neither += 1 - count;
        }
        // Of 16 · 16 pairs of sets, 2 · 3⁴ - 2⁴ have one within the other.
        assert_eq!(neither, if kind == MNS { 256 - 146 } else { 0 });
    }
}

#[test]
fn points_of_a_tree_are_compared() {
    for mark in MARKS {
        // 0 leads to 2, and 1, which was placed later, to 3.
        let answers = [Level, Ahead, Behind, Ahead, Behind, Neither, Level];
        assert_eq!(each_kind(mark, &TREE, &[0, 1], 2, 3), answers.map(Ok));
        let turned = [Level, Behind, Ahead, Behind, Ahead, Neither, Level];
        assert_eq!(each_kind(mark, &TREE, &[0, 1], 3, 2), turned.map(Ok));
        // 1 leads to 0 and 3 alike, and not to 2.
        assert_eq!(each_kind(mark, &TREE, &[1], 0, 3), [Ok(Level); 7]);
        assert_eq!(each_kind(mark, &TREE, &[1], 3, 2), [Ok(Ahead); 7]);
        assert_eq!(each_kind(mark, &TREE, &[1], 2, 2), [Ok(Level); 7]);
        assert_eq!(each_kind(mark, &TREE, &[], 2, 3), [Ok(Level); 7]);
    }
}

#[test]
fn a_point_stands_by_those_that_lead_to_it() {
    // 0 leads to 1 and 2, 1 to 2, and 3 to 0 and 1; none leads to 3.
    let rows = rows_of(&graphs::one_way_plan(4, &[(0, 1), (0, 2), (1, 2), (3, 0), (3, 1)]));
    assert_eq!(each_kind(Mark::OneWay, &rows, &[0], 2, 3), [Ok(Ahead); 7]);
    assert_eq!(each_kind(Mark::OneWay, &rows, &[0], 1, 2), [Ok(Level); 7]);
    assert_eq!(each_kind(Mark::OneWay, &rows, &[2], 1, 3), [Ok(Level); 7]);
    assert_eq!(each_kind(Mark::OneWay, &rows, &[3], 2, 1), [Ok(Behind); 7]);
    // If the links went both ways, 3 would have the same label as 2.
    assert_eq!(each_kind(Mark::OneWay, &rows, &[0, 1], 3, 2), [Ok(Behind); 7]);
}

#[test]
fn compare_refuses_in_order() {
    for (kind, mark) in KINDS.into_iter().flat_map(|kind| MARKS.map(|mark| (kind, mark))) {
        let walk = made(kind, mark, &TREE, &[0, 1]);
        let number = |first, second| compare(&walk, first, second).expect_err("refused");
        assert_eq!([number(4, 4), number(0, 4), number(4, 0), number(2, 255)], [8; 4]);
        assert_eq!([number(0, 2), number(2, 0), number(1, 0), number(1, 1)], [15; 4]);
        let damaged = OpenWalk { n: 65, ..walk.clone() };
        let failing = made(kind, mark, &TREE, &[2, 1]);
        for walk in [damaged, failing, OpenWalk { kind: 7, ..walk.clone() }] {
            for (first, second) in [(2, 3), (2, 2), (0, 2), (2, 4), (0, 255), (70, 1)] {
                assert_eq!(compare(&walk, first, second), Err(13));
            }
        }
    }
    let (nothing, _) = OpenWalk::open(GENERIC, Mark::TwoWay, &[], NONE_BARRED);
    assert_eq!(compare(&nothing, 0, 0), Err(8));
    // All placed.
    let full = made(GENERIC, Mark::TwoWay, &TREE, &[0, 1, 2, 3]);
    assert!((0..4).all(|v| compare(&full, v, 3) == Err(15) && compare(&full, v, 4) == Err(8)));
}

#[test]
fn one_way_links_in_a_two_way_plan_are_not_well_formed() {
    let walk = made(MNS, Mark::OneWay, &[2, 4, 0], &[0]);
    assert_eq!(compare(&walk, 1, 2), Ok(Ahead));
    assert_eq!(compare(&OpenWalk { mark: Mark::TwoWay, ..walk }, 1, 2), Err(13));
}

#[test]
fn answers_that_break_a_promise_are_told() {
    let points = [0, 1, 2, 3, 4];
    let broken = |walk: &OpenWalk, changes: &[(usize, usize, Answer)]| {
        let mut answers = compare_each(walk, &points);
        assert_eq!(broken_promise(walk, &points, &answers), None);
        changes.iter().for_each(|&(i, j, answer)| answers[i][j] = answer);
        broken_promise(walk, &points, &answers).is_some()
    };
    // After 0 1 both 2 and 3 are offered.
    let walk = made(MNS, Mark::TwoWay, &TREE, &[0, 1]);
    assert!(!broken(&walk, &[(2, 3, Ok(Neither)), (3, 2, Ok(Neither))]));
    assert!(broken(&walk, &[(2, 3, Ok(Level))]));
    assert!(broken(&walk, &[(2, 3, Ok(Ahead)), (3, 2, Ok(Ahead))]));
    assert!(broken(&walk, &[(2, 3, Ok(Ahead)), (3, 2, Ok(Behind))]));
    assert!(broken(&walk, &[(2, 2, Ok(Neither))]));
    assert!(broken(&walk, &[(0, 2, Err(8))]));
    // After 1 both 0 and 3 are offered, and ahead of 2.
    let walk = made(GENERIC, Mark::TwoWay, &TREE, &[1]);
    assert!(!broken(&walk, &[(0, 2, Ok(Ahead)), (2, 0, Ok(Behind))]));
    assert!(broken(&walk, &[(0, 2, Ok(Level)), (2, 0, Ok(Level))]));
    assert!(broken(&walk, &[(0, 3, Ok(Neither)), (3, 0, Ok(Neither))]));
    let apart = |v: usize| [(v, 2, Ok(Neither)), (2, v, Ok(Neither))];
    let mns = OpenWalk { kind: MNS, ..walk };
    assert!(broken(&mns, &[apart(0), apart(3)].concat()));
    // Without links all labels are empty.
    let walk = made(MNS, Mark::OneWay, &[0; 4], &[3, 2]);
    assert!(broken(&walk, &[(0, 1, Ok(Neither)), (1, 0, Ok(Neither))]));
}

/// Every two points on every walk over every small plan, two-way and one-way; a walk that fails is refused.
#[test]
fn answers_on_small_plans_keep_what_is_said_of_them() {
    for (mark, most) in [(Mark::TwoWay, 4), (Mark::OneWay, 3)] {
        for plan in (0..=most).flat_map(|n| graphs::all_plans(mark, n)) {
            let rows = rows_of(&plan);
            let points: Vec<u8> = (0..=rows.len() as u8).collect();
            for walk in orderings::all_partial(rows.len()) {
                for kind in KINDS {
                    let walk = made(kind, mark, &rows, &walk);
                    let answers = compare_each(&walk, &points);
                    assert_eq!(broken_promise(&walk, &points, &answers), None);
                    let refused = answers.iter().flatten().all(|answer| *answer == Err(13));
                    assert_eq!(refused, !walk.well_formed());
                }
            }
        }
    }
}

/// Each answer must come often, or these plans try too little.
#[test]
fn answers_on_random_plans_keep_what_is_said_of_them() {
    let mut random = Random::new(20_260_906);
    for (kind, mark) in KINDS.into_iter().flat_map(|kind| MARKS.map(|mark| (kind, mark))) {
        let mut told: Vec<Stance> = Vec::new();
        for _ in 0..150 {
            let n = random.below(14);
            let plan = graphs::random_plan(&mut random, mark, n);
            let length = random.below(n + 1);
            let walk = orderings::run(&mut random, kind, &Graph::from_plan(&plan), length);
            let walk = made(kind, mark, &rows_of(&plan), &walk);
            let points: Vec<u8> = (0..=n as u8).collect();
            let answers = compare_each(&walk, &points);
            assert_eq!(broken_promise(&walk, &points, &answers), None);
            told.extend(answers.into_iter().flatten().flatten());
        }
        let times = |stance| told.iter().filter(|&&other| other == stance).count();
        assert!([Ahead, Behind, Level].into_iter().all(|stance| times(stance) > 50));
        assert_eq!(times(Neither) > 20, kind == MNS);
    }
}
