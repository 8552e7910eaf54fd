use super::*;
use crate::definition::{self, KINDS, MARKS, NONE_BARRED};
use crate::graphs::{self, wide as tables};
use crate::orderings;
use crate::random::Random;

fn narrow(list: &[u16]) -> Vec<u8> {
    list.iter().map(|&v| v as u8).collect()
}

fn widened(list: &[u8]) -> Vec<u16> {
    list.iter().map(|&v| v as u16).collect()
}

/// What the narrow form answers as C gets it.
fn as_narrow(verdict: Verdict) -> u32 {
    match verdict {
        Verdict::Passes => 0,
        Verdict::Fails((a, b, c)) => definition::failure_code(a, b, c),
        Verdict::Refused(number) => number,
    }
}

/// The links 0-1, 0-2, 1-3 of the example of 01, with its points named 0, 100, 200, 511, and 508 points without links.
fn far_apart() -> Vec<u64> {
    let mut table = vec![0; WORDS * MOST];
    for link in [(0, 100), (0, 200), (100, 511)] {
        tables::set_both_ways(&mut table, link, true);
    }
    table
}

#[test]
fn the_printed_example_far_apart() {
    let table = far_apart();
    let told = KINDS.map(|kind| judge(kind, Mark::TwoWay, &table, &[0, 100, 200, 511]));
    let fails = Verdict::Fails((100, 200, 511));
    let passes = Verdict::Passes;
    assert_eq!(told, [passes, passes, fails, passes, fails, passes, passes]);
    let told = judge(BFS, Mark::TwoWay, &table, &[0, 100, 511]);
    assert_eq!(told, Verdict::Fails((0, 511, 200)));
    let told = judge(BFS, Mark::TwoWay, &table, &[200, 1]);
    assert_eq!(told, Verdict::Fails((200, 1, 0)));
}

#[test]
fn small_plans_get_the_narrow_answers() {
    let mut random = Random::new(121);
    for round in 0..500 {
        let mark = MARKS[round % 2];
        let plan = graphs::random_plan(&mut random, mark, round % 13);
        let table = tables::from_plan(&plan);
        let graph = definition::Graph::from_plan(&plan);
        for kind in KINDS {
            let walk = orderings::random_walk(&mut random, kind, &graph);
            let told = judge(kind, mark, &table, &widened(&walk));
            assert_eq!(as_narrow(told), definition::judge(kind, mark, &plan, NONE_BARRED, &walk));
            let k = random.below(walk.len() + 1);
            let tie_break = random.permutation(round % 13);
            let output = [&walk[..k], &vec![99; 16 - k]].concat();
            let (answer, after) =
                carry_on(kind, mark, &table, &widened(&tie_break), &widened(&output), k);
            let narrow_form =
                definition::carry_on(kind, mark, &plan, NONE_BARRED, &tie_break, &output, k);
            assert_eq!((answer.err().unwrap_or(0), narrow(&after)), narrow_form);
        }
    }
}

#[test]
fn a_carried_on_walk_of_512_points_passes() {
    let mut random = Random::new(122);
    for mark in MARKS {
        let table = tables::scattered(&mut random, mark, MOST, 8);
        let tie_break = random.wide_permutation(MOST);
        for kind in [LEX_BFS, MCS] {
            let (answer, mut walk) = carry_on(kind, mark, &table, &tie_break, &[1000; MOST], 0);
            assert_eq!(answer, Ok(()));
            assert_eq!(judge(kind, mark, &table, &walk), Verdict::Passes);
            walk.swap(2, 500);
            assert!(matches!(judge(kind, mark, &table, &walk), Verdict::Fails(_)));
        }
    }
}

#[test]
fn every_fault_is_named_in_its_order() {
    let mut table = vec![0; 4 * WORDS];
    for arc in [(0, 511), (1, 1), (2, 3)] {
        tables::set(&mut table, arc, true);
    }
    let walk = [4, 4, 1, 2, 3];
    for mark in MARKS {
        let of_mark = |all: &[u32]| -> Vec<u32> {
            all.iter().copied().filter(|&number| number != 5 || mark == Mark::TwoWay).collect()
        };
        assert_eq!(judge_faults(7, mark, &table, &walk), of_mark(&[1, 3, 4, 5, 6, 8, 9]));
        assert_eq!(
            carry_on_faults(7, mark, &table, &[4, 4], &[5, 5], 5),
            of_mark(&[1, 3, 4, 5, 6, 10, 7, 8, 9])
        );
        assert_eq!(judge_faults(0, mark, &[0; 9], &[]), [2]);
        assert_eq!(judge_faults(0, mark, &[0; 513 * WORDS], &[]), [2]);
        assert_eq!(judge_faults(0, mark, &[0; 512 * WORDS], &[]), []);
        assert_eq!(judge_faults(0, mark, &[], &[]), []);
    }
}

#[test]
fn a_start_that_fails_is_refused() {
    let table = far_apart();
    let tie_break: Vec<u16> = (0..512).collect();
    let mut output = vec![1000; 600];
    output[..3].copy_from_slice(&[0, 100, 511]);
    let told = carry_on(BFS, Mark::TwoWay, &table, &tie_break, &output, 3);
    assert_eq!(told, (Err(12), output.clone()));
    let (answer, after) = carry_on(DFS, Mark::TwoWay, &table, &tie_break, &output, 3);
    assert_eq!(answer, Ok(()));
    assert_eq!(after[..5], [0, 100, 511, 200, 510]);
    assert_eq!(after[512..], output[512..]);
}
