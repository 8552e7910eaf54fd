use super::*;
use crate::graphs;
use crate::orderings;

mod barred;
mod one_way;

fn failed(triple: (Vertex, Vertex, Vertex)) -> u32 {
    failure_code(triple.0, triple.1, triple.2)
}

/// On a two-way plan with nothing barred, as in all of 01.
fn judge(kind: Kind, plan: &[u8], walk: &[u8]) -> u32 {
    super::judge(kind, Mark::TwoWay, plan, NONE_BARRED, walk)
}

/// On a two-way plan with nothing barred, as in all of 01.
fn carry_on(kind: Kind, plan: &[u8], tie_break: &[u8], output: &[u8], k: usize) -> (u32, Vec<u8>) {
    super::carry_on(kind, Mark::TwoWay, plan, NONE_BARRED, tie_break, output, k)
}

#[test]
fn label_marks_places_and_not_points() {
    let plan = graphs::plan(4, &[(0, 1), (1, 3)]);
    let graph = Graph::from_plan(&plan);
    assert_eq!(label(&graph, &[3, 0], 1), [true, true]);
    assert_eq!(label(&graph, &[2, 3], 1), [false, true]);
}

#[test]
fn empty_label_is_behind_any_other() {
    for kind in KINDS {
        assert!(outranks(kind, &[true, false], &[false, false]));
        assert!(!outranks(kind, &[false, false], &[true, false]));
        assert!(!outranks(kind, &[false, false], &[false, false]));
    }
}

#[test]
fn kinds_compare_labels_by_their_own_rule() {
    let early = [true, false, false];
    let late = [false, true, true];
    let ahead = |c: &[bool], b: &[bool]| KINDS.map(|kind| outranks(kind, c, b));
    assert_eq!(ahead(&early, &late), [false, true, false, true, false, false, false]);
    assert_eq!(ahead(&late, &early), [false, false, true, false, true, false, true]);
    let both = [true, true, true];
    assert_eq!(ahead(&both, &early), [false, false, true, true, true, true, true]);
    assert_eq!(ahead(&both, &late), [false, true, false, true, true, true, true]);
    let first = [false, true, false];
    let last = [false, false, true];
    assert_eq!(ahead(&first, &last), [false, true, false, true, false, false, false]);
    assert_eq!(ahead(&last, &first), [false, false, true, false, true, false, false]);
}

#[test]
fn all_points_are_offered_at_the_start_and_in_a_new_piece() {
    let plan = graphs::plan(5, &[(0, 1), (2, 3)]);
    let graph = Graph::from_plan(&plan);
    for kind in KINDS {
        assert_eq!(offered(kind, &graph, &[]), [0, 1, 2, 3, 4]);
        assert_eq!(offered(kind, &graph, &[1]), [0]);
        assert_eq!(offered(kind, &graph, &[1, 0]), [2, 3, 4]);
        assert_eq!(offered(kind, &graph, &[1, 0, 4, 2, 3]), []);
    }
}

#[test]
fn first_triple_goes_by_b_then_a_then_c() {
    // Two placed centres, each linked to points that b is passed for.
    let plan = graphs::plan(7, &[(6, 5), (6, 1), (6, 4), (0, 1), (0, 6)]);
    let graph = Graph::from_plan(&plan);
    let walk = [6, 0, 2, 3];
    assert_eq!(first_violation(GENERIC, &graph, &walk), Some((6, 2, 1)));
    // A placed c comes before an unplaced one with a smaller number.
    let walk = [6, 0, 2, 3, 5];
    assert_eq!(first_violation(GENERIC, &graph, &walk), Some((6, 2, 5)));
}

#[test]
fn a_walk_begins_a_run_unless_it_has_a_triple() {
    for n in 0..=4 {
        for plan in graphs::all_plans(Mark::TwoWay, n) {
            let graph = Graph::from_plan(&plan);
            for ordering in orderings::all_partial(n) {
                for kind in KINDS {
                    assert_eq!(
                        begins_run(kind, &graph, &ordering),
                        first_violation(kind, &graph, &ordering).is_none()
                    );
                }
            }
        }
    }
}

#[test]
fn a_full_walk_passes_exactly_if_its_reverse_brings_it_back() {
    for plan in graphs::all_plans(Mark::TwoWay, 4) {
        for ordering in orderings::permutations(4) {
            let reversed: Vec<u8> = ordering.iter().rev().copied().collect();
            for kind in KINDS {
                let (answer, output) = carry_on(kind, &plan, &reversed, &[0; 4], 0);
                assert_eq!(answer, 0);
                assert_eq!(judge(kind, &plan, &ordering) == 0, output == ordering);
            }
        }
    }
}

#[test]
fn judge_answers_the_printed_example() {
    let plan = graphs::plan(4, &[(0, 1), (0, 2), (1, 3)]);
    let fails = failed((1, 2, 3));
    let answers = KINDS.map(|kind| judge(kind, &plan, &[0, 1, 2, 3]));
    assert_eq!(answers, [0, 0, fails, 0, fails, 0, 0]);
    assert_eq!(fails, 16_777_216 + 65_536 + 512 + 3);
}

#[test]
fn mcs_answers_the_examples_of_01() {
    let p = graphs::plan(4, &[(0, 1), (0, 2), (1, 3)]);
    let c = graphs::plan(4, &[(0, 1), (1, 2), (2, 3), (0, 3)]);
    let pair = graphs::plan(3, &[(0, 1)]);
    for (plan, walk) in [(&p, [0, 1, 2, 3]), (&p, [0, 1, 3, 2]), (&c, [0, 1, 2, 3])] {
        assert_eq!(judge(MCS, plan, &walk), 0);
    }
    assert_eq!(judge(MCS, &c, &[0, 1, 3, 2]), 0);
    assert_eq!(judge(MCS, &p, &[2, 1]), failed((2, 1, 0)));
    let later = graphs::plan(4, &[(0, 1), (0, 2), (0, 3), (1, 3)]);
    assert_eq!(judge(MCS, &later, &[0, 1, 2, 3]), failed((1, 2, 3)));
    let earlier = graphs::plan(4, &[(0, 1), (0, 3), (1, 2), (1, 3)]);
    assert_eq!(judge(MCS, &earlier, &[0, 1, 2, 3]), failed((0, 2, 3)));
    assert_eq!(judge(MCS, &pair, &[0, 2]), failed((0, 2, 1)));
    assert_eq!(judge(MCS, &pair, &[2, 0, 1]), 0);
}

#[test]
fn mcs_offers_the_points_with_the_most_placed_neighbours() {
    // After 0, 1, 2 point 3 has the neighbour 0, and 4 has 1 and 2.
    let plan = graphs::plan(5, &[(0, 1), (0, 2), (0, 3), (1, 4), (2, 4)]);
    let graph = Graph::from_plan(&plan);
    assert_eq!(offered(MCS, &graph, &[0, 1]), [2, 3, 4]);
    assert_eq!(offered(MCS, &graph, &[0, 1, 2]), [4]);
    assert_eq!(offered(MNS, &graph, &[0, 1, 2]), [3, 4]);
    assert_eq!(judge(MCS, &plan, &[0, 1, 2, 3, 4]), failed((1, 3, 4)));
    let tie_break = [4, 2, 1, 0, 3];
    assert_eq!(carry_on(MCS, &plan, &tie_break, &[0, 1, 2, 9, 9], 3), (0, vec![0, 1, 2, 4, 3]));
    assert_eq!(carry_on(MNS, &plan, &tie_break, &[0, 1, 2, 9, 9], 3), (0, vec![0, 1, 2, 3, 4]));
}

#[test]
fn mcs_counts_only_neighbours_before_b() {
    // Of the neighbours 1, 2, 4 of point 3 only 1 is placed before 2.
    let plan = graphs::plan(5, &[(0, 1), (0, 2), (1, 3), (2, 3), (3, 4)]);
    assert_eq!(judge(MCS, &plan, &[0, 1, 2, 3, 4]), 0);
}

#[test]
fn preference_list_is_read_from_its_end() {
    let plan = graphs::plan(4, &[(0, 1), (1, 2), (2, 3), (0, 3)]);
    let tie_break = [3, 2, 1, 0];
    assert_eq!(carry_on(BFS, &plan, &tie_break, &[9; 5], 0), (0, vec![0, 1, 3, 2, 9]));
    assert_eq!(carry_on(DFS, &plan, &tie_break, &[9; 5], 0), (0, vec![0, 1, 2, 3, 9]));
}

#[test]
fn judge_refuses_in_order() {
    let link = graphs::plan(2, &[(0, 1)]);
    let rows = |rows: &[u64]| -> Vec<u8> { rows.iter().flat_map(|r| r.to_le_bytes()).collect() };
    assert_eq!(judge(7, &[0; 9], &[7, 7, 7]), 1);
    assert_eq!(judge(255, &link, &[1, 0]), 1);
    assert_eq!(judge(6, &[255; 9], &[7, 7, 7]), 2);
    assert_eq!(judge(0, &[255; 9], &[7, 7, 7]), 2);
    assert_eq!(judge(0, &[255; 520], &[]), 2);
    assert_eq!(judge(0, &rows(&[1, 4]), &[7, 7, 7]), 3);
    assert_eq!(judge(0, &rows(&[2, 2]), &[7, 7, 7]), 4);
    assert_eq!(judge(0, &rows(&[2, 0]), &[7, 7, 7]), 5);
    assert_eq!(judge(0, &rows(&[0, 1]), &[7, 7, 7]), 5);
    assert_eq!(judge(0, &link, &[7, 7, 7]), 6);
    assert_eq!(judge(0, &link, &[2, 2]), 8);
    assert_eq!(judge(0, &link, &[1, 1]), 9);
    assert_eq!(judge(0, &link, &[1, 0]), 0);
}

#[test]
fn carry_on_refuses_in_order() {
    let plan = graphs::plan(3, &[(0, 1)]);
    let number = |tie_break: &[u8], output: &[u8], k| {
        let (answer, after) = carry_on(GENERIC, &plan, tie_break, output, k);
        assert!(answer == 0 || after == output);
        answer
    };
    assert_eq!(number(&[9], &[9, 9], usize::MAX), 6);
    assert_eq!(number(&[9], &[9, 9], 3), 10);
    assert_eq!(number(&[9], &[9, 9, 9], 3), 7);
    assert_eq!(number(&[0, 0, 0], &[1, 3, 1], 2), 8);
    assert_eq!(number(&[0, 0, 3], &[1, 1, 1], 2), 8);
    assert_eq!(number(&[0, 1, 2], &[1, 1, 1], 2), 9);
    assert_eq!(number(&[0, 1, 0], &[0, 2, 1], 2), 9);
    assert_eq!(number(&[0, 1, 2], &[0, 2, 1], 2), 12);
    assert_eq!(number(&[0, 1, 2], &[0, 1, 1], 2), 0);
}
