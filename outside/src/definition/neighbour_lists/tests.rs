use std::collections::BTreeSet;

use super::*;
use crate::definition::{self, FAILED, KINDS, MARKS, NONE_BARRED};
use crate::graphs;
use crate::orderings;
use crate::random::Random;

fn lists(offsets: &[u16], neighbours: &[u8]) -> Lists {
    Lists { offsets: offsets.to_vec(), neighbours: neighbours.to_vec() }
}

// The links 0-1, 1-2, 2-3, 0-3.
const RING: [u64; 4] = [10, 5, 10, 5];

fn ring() -> Lists {
    lists(&[0, 2, 4, 6, 8], &[1, 3, 0, 2, 1, 3, 0, 2])
}

fn rows(plan: &[u8]) -> Vec<u64> {
    let row = |bytes: &[u8]| u64::from_le_bytes(bytes.try_into().expect("eight bytes a row"));
    plan.chunks_exact(8).map(row).collect()
}

/// The cases of 26 that hold, counted from 0.
fn cases(offsets: &[u16], neighbours: &[u8]) -> Vec<usize> {
    let each = malformed(&lists(offsets, neighbours));
    (0..each.len()).filter(|&case| each[case]).collect()
}

#[test]
fn each_case_comes_by_itself() {
    let neighbours = ring().neighbours;
    assert_eq!(cases(&[], &[]), [0]);
    assert_eq!(cases(&[], &neighbours), [0]);
    assert_eq!(cases(&[1, 2, 4, 6, 8], &neighbours), [1]);
    assert_eq!(cases(&[0, 1, 0, 1], &[1]), [2]);
    assert_eq!(cases(&[0, 65535, 0], &[]), [2]);
    assert_eq!(cases(&[0, 2, 4, 6, 9], &neighbours), [3]);
    assert_eq!(cases(&[0, 2, 4, 6, 7], &neighbours), [3]);
    assert_eq!(cases(&[0], &[0]), [3]);
    assert_eq!(cases(&[0, 2, 2, 2], &[1, 1]), [4]);
    assert_eq!(cases(&[0, 2, 2, 2], &[2, 1]), [4]);
    assert_eq!(cases(&[0, 3, 3, 3], &[1, 2, 1]), [4]);
    assert_eq!(cases(&[0, 1, 1], &[2]), [5]);
    assert_eq!(cases(&[0, 1, 1], &[255]), [5]);
    assert_eq!(cases(&[0], &[]), []);
    assert_eq!(cases(&[0, 1, 2, 3], &[1, 1, 1]), []);
    assert_eq!(cases(&ring().offsets, &neighbours), []);
}

#[test]
fn lists_read_as_in_the_request() {
    let made = lists_of(&[6, 9, 1, 2]);
    assert_eq!((made.offsets, made.neighbours), (vec![0, 2, 4, 5, 6], vec![1, 2, 0, 3, 0, 1]));
    let made = lists_of(&[2, 4, 8, 1]);
    assert_eq!((made.offsets, made.neighbours), (vec![0, 1, 2, 3, 4], vec![1, 2, 3, 0]));
    let made = lists_of(&[]);
    assert_eq!((made.offsets, made.neighbours), (vec![0], vec![]));
    let all: Vec<u64> = (0..64).map(|u| !(1 << u)).collect();
    let made = lists_of(&all);
    assert_eq!((made.offsets[63], made.offsets[64], made.neighbours.len()), (3969, 4032, 4032));
}

/// On all small plans, and on lists that are the lists of some plan: there and back again.
#[test]
fn the_conversions_are_inverse() {
    for (mark, most) in [(Mark::TwoWay, 5), (Mark::OneWay, 4)] {
        for plan in (0..=most).flat_map(|n| graphs::all_plans(mark, n)) {
            let rows = rows(&plan);
            let made = lists_of(&rows);
            assert!(rows_faults(mark, &made, rows.len()).is_empty());
            assert_eq!(rows_of(&made), rows);
            let again = lists_of(&rows_of(&made));
            assert_eq!((again.offsets, again.neighbours), (made.offsets, made.neighbours));
        }
    }
}

/// Every list of at most so many numbers below a bound.
fn all_lists(most: usize, bound: u8) -> Vec<Vec<u8>> {
    let mut lists = vec![Vec::new()];
    let mut at = 0;
    while at < lists.len() {
        let list: Vec<u8> = lists[at].clone();
        if list.len() < most {
            lists.extend((0..bound).map(|next| [&list[..], &[next]].concat()));
        }
        at += 1;
    }
    lists
}

/// Whatever lists of up to two points: well formed exactly if they are the lists of the rows that they give.
#[test]
fn well_formed_lists_are_those_of_rows() {
    let mut well_formed = 0;
    for offsets in all_lists(3, 5) {
        for neighbours in all_lists(4, 3) {
            let offsets: Vec<u16> = offsets.iter().map(|&offset| offset.into()).collect();
            let given = lists(&offsets, &neighbours);
            let is_formed = !malformed(&given).contains(&true);
            let made = lists_of(&rows_of(&given));
            let is_made = made.offsets == given.offsets && made.neighbours == given.neighbours;
            assert_eq!(is_formed, is_made, "{offsets:?} {neighbours:?}");
            well_formed += usize::from(is_formed);
        }
    }
    // all plans of 0, 1 and 2 points, with links of points to themselves
    assert_eq!(well_formed, 1 + 2 + 16);
}

#[test]
fn refusals_come_in_their_order() {
    for mark in MARKS {
        let fifth = |rest: &[u32]| match mark {
            Mark::TwoWay => [&[5], rest].concat(),
            Mark::OneWay => rest.to_vec(),
        };
        assert_eq!(lists_faults(mark, &[1; 65], 0, 0), [&[2, 4][..], &fifth(&[10])].concat());
        let wrong = [19, 9, 1, 2];
        assert_eq!(lists_faults(mark, &wrong, 4, 0), [&[3, 4][..], &fifth(&[10])].concat());
        assert_eq!(lists_faults(mark, &RING, 4, 8), [10]);
        assert_eq!(lists_faults(mark, &RING, 5, 7), [10]);
        assert_eq!(lists_faults(mark, &RING, 5, 8), []);
        let mut crowd = vec![0; 65];
        crowd.push(2);
        let crowd = lists(&crowd, &[0, 64]);
        assert_eq!(rows_faults(mark, &crowd, 0), [&[2, 4][..], &fifth(&[10])].concat());
        let wrong = lists(&[0, 2, 4, 6, 8], &[1, 0, 0, 2, 1, 3, 0, 2]);
        assert_eq!(rows_faults(mark, &wrong, 3), [&[26, 4][..], &fifth(&[10])].concat());
        assert_eq!(rows_faults(mark, &ring(), 3), [10]);
        assert_eq!(rows_faults(mark, &ring(), 4), []);
        let later = [23, 6, 8, 9, 24];
        let faults = judge_faults(7, mark, &wrong, 24, &[9, 9, 3, 3, 3]);
        assert_eq!(faults, [&[1, 26, 4][..], &fifth(&later)].concat());
        assert_eq!(judge_faults(0, mark, &ring(), 8, &[1, 3]), [24]);
        assert_eq!(judge_faults(0, mark, &ring(), 8, &[1, 2]), []);
    }
}

#[test]
fn entries_behind_the_result_stay() {
    let output = lists(&[100, 101, 102, 103, 104, 105, 106], &[200; 9]);
    let after =
        to_lists(Mark::TwoWay, &RING, &output).unwrap_or_else(|number| panic!("refusal {number}"));
    assert_eq!(after.offsets, [0, 2, 4, 6, 8, 105, 106]);
    assert_eq!(after.neighbours, [1, 3, 0, 2, 1, 3, 0, 2, 200]);
    assert_eq!(to_rows(Mark::TwoWay, &ring(), &[99; 6]), Ok(vec![10, 5, 10, 5, 99, 99]));
    assert_eq!(to_rows(Mark::TwoWay, &ring(), &[99; 3]), Err(10));
}

/// Judge on the lists of any plan is judge on its rows, with refusals 1, 4, 5, 23, 6, 8, 9 and 24 among the answers.
#[test]
fn judge_is_that_of_the_rows() {
    let mut random = Random::new(26);
    let mut answers = BTreeSet::new();
    for _ in 0..3000 {
        let n = random.below(6);
        let of_plan = random.pick(&MARKS);
        let mut plan = rows(&graphs::random_plan(&mut random, of_plan, n));
        if n > 0 && random.percent(10) {
            plan[0] |= 1;
        }
        let mark = if random.percent(80) { of_plan } else { Mark::TwoWay };
        let kind = random.pick(&[0, 1, 2, 3, 4, 5, 6, 7]);
        let barred = random.pick(&[NONE_BARRED, NONE_BARRED, 1, 2, 4, 40]);
        let mut walk = random.permutation(n + 2);
        walk.truncate(random.below(n + 3));
        if walk.len() > 1 && random.percent(10) {
            walk[1] = walk[0];
        }
        let on_rows = definition::judge(kind, mark, &bytes(&plan), barred, &walk);
        assert_eq!(judge(kind, mark, &lists_of(&plan), barred, &walk), on_rows);
        answers.insert(on_rows.min(FAILED));
    }
    assert!(answers.iter().eq(&[0, 1, 4, 5, 6, 8, 9, 23, 24, FAILED]), "{answers:?}");
}

/// All walks of two plans, for all kinds.
#[test]
fn judge_is_that_of_the_rows_for_all_walks() {
    for (mark, plan) in [(Mark::TwoWay, RING), (Mark::OneWay, [2, 4, 8, 1])] {
        for walk in orderings::all_partial(4) {
            for kind in KINDS {
                let on_rows = definition::judge(kind, mark, &bytes(&plan), NONE_BARRED, &walk);
                assert_eq!(judge(kind, mark, &lists_of(&plan), NONE_BARRED, &walk), on_rows);
            }
        }
    }
}
