//! One-way plans, with answers worked out by hand.

use super::failed;
use crate::definition::*;
use crate::graphs::{all_plans, goes_both_ways, one_way_plan, plan};
use crate::orderings::{all_partial, permutations};

/// With nothing barred.
fn judge(kind: Kind, mark: Mark, plan: &[u8], walk: &[u8]) -> u32 {
    crate::definition::judge(kind, mark, plan, NONE_BARRED, walk)
}

/// With nothing barred.
fn carry_on(
    kind: Kind,
    mark: Mark,
    plan: &[u8],
    tie_break: &[u8],
    output: &[u8],
    k: usize,
) -> (u32, Vec<u8>) {
    crate::definition::carry_on(kind, mark, plan, NONE_BARRED, tie_break, output, k)
}

fn judge_each(plan: &[u8], walk: &[u8]) -> [u32; 7] {
    KINDS.map(|kind| judge(kind, Mark::OneWay, plan, walk))
}

/// What judge answers where only some kinds fail.
fn failing(kinds: &[Kind], triple: (Vertex, Vertex, Vertex)) -> [u32; 7] {
    KINDS.map(|kind| if kinds.contains(&kind) { failed(triple) } else { 0 })
}

#[test]
fn a_label_has_the_places_of_those_that_lead_to_the_point() {
    let graph = Graph::from_plan(&one_way_plan(3, &[(0, 1), (2, 1)]));
    assert_eq!(label(&graph, &[0, 2], 1), [true, true]);
    assert_eq!(label(&graph, &[1], 0), [false]);
    assert_eq!(label(&graph, &[1, 0], 2), [false, false]);
}

#[test]
fn only_points_that_a_placed_one_leads_to_come_before_a_new_start() {
    let graph = Graph::from_plan(&one_way_plan(4, &[(0, 1), (0, 2), (1, 3)]));
    for kind in KINDS {
        assert_eq!(offered(kind, &graph, &[]), [0, 1, 2, 3]);
        assert_eq!(offered(kind, &graph, &[3]), [0, 1, 2]);
        assert_eq!(offered(kind, &graph, &[2, 1]), [3]);
        assert_eq!(offered(kind, &graph, &[2, 1, 3]), [0]);
        assert_eq!(offered(kind, &graph, &[0]), [1, 2]);
    }
    assert_eq!(offered(BFS, &graph, &[0, 1]), [2]);
    assert_eq!(offered(DFS, &graph, &[0, 1]), [3]);
    assert_eq!(offered(MCS, &graph, &[0, 1]), [2, 3]);
}

#[test]
fn walks_down_a_tree() {
    let down = one_way_plan(4, &[(0, 1), (0, 2), (1, 3)]);
    assert_eq!(judge_each(&down, &[0, 1, 2, 3]), failing(&[DFS, LEX_DFS], (1, 2, 3)));
    assert_eq!(judge_each(&down, &[0, 1, 3, 2]), failing(&[BFS, LEX_BFS], (0, 3, 2)));
    // Both ways, 2 is linked to 0, and all kinds fail with 2, 1, 0.
    assert_eq!(judge_each(&down, &[2, 1]), [0; 7]);
    assert_eq!(judge_each(&down, &[2, 1, 0]), failing(&KINDS, (1, 0, 3)));
    assert_eq!(judge_each(&down, &[3, 1, 0, 2]), [0; 7]);
}

#[test]
fn a_leads_to_c_and_not_to_b() {
    let meeting = one_way_plan(3, &[(0, 1), (2, 1)]);
    assert_eq!(judge_each(&meeting, &[0, 2]), failing(&KINDS, (0, 2, 1)));
    assert_eq!(judge_each(&meeting, &[2, 0, 1]), failing(&KINDS, (2, 0, 1)));
    assert_eq!(judge_each(&meeting, &[1, 0, 2]), [0; 7]);
    // 1 leads to 0, but 0 not to 1.
    let apart = one_way_plan(3, &[(1, 0), (0, 2)]);
    assert_eq!(judge_each(&apart, &[0, 1]), failing(&KINDS, (0, 1, 2)));
}

#[test]
fn an_excuse_leads_to_b() {
    // 2 leads to 0, but 0 does not lead to 2, so it excuses nothing.
    let plan = one_way_plan(4, &[(0, 1), (2, 0), (1, 3)]);
    assert_eq!(judge_each(&plan, &[0, 1, 2, 3]), failing(&KINDS, (1, 2, 3)));
}

#[test]
fn an_excuse_need_not_be_led_to_by_c() {
    // 0 leads to 2 and not to 3. That 3 leads to 0 does not matter.
    let plan = one_way_plan(4, &[(0, 1), (0, 2), (3, 0), (1, 3)]);
    assert_eq!(judge_each(&plan, &[0, 1, 2, 3]), failing(&[DFS, LEX_DFS], (1, 2, 3)));
}

#[test]
fn mcs_counts_the_points_that_lead_to_a_point() {
    // After 0, 1 one point leads to 2 and two lead to 3, while 2 leads to two points and 3 to none.
    let plan = one_way_plan(4, &[(0, 1), (0, 2), (0, 3), (1, 3), (2, 0), (2, 1)]);
    let graph = Graph::from_plan(&plan);
    assert_eq!(offered(MCS, &graph, &[0, 1]), [3]);
    let later = [DFS, LEX_BFS, LEX_DFS, MNS, MCS];
    assert_eq!(judge_each(&plan, &[0, 1, 2, 3]), failing(&later, (1, 2, 3)));
    assert_eq!(judge(MCS, Mark::OneWay, &plan, &[0, 1, 3, 2]), 0);
    let tie_break = [3, 0, 1, 2];
    let carried = carry_on(MCS, Mark::OneWay, &plan, &tie_break, &[0, 1, 9, 9, 9], 2);
    assert_eq!(carried, (0, vec![0, 1, 3, 2, 9]));
}

#[test]
fn mcs_does_not_count_the_points_that_a_point_leads_to() {
    // Nothing leads to 3, which leads to 0 and 1.
    let plan = one_way_plan(4, &[(0, 1), (0, 2), (1, 2), (3, 0), (3, 1)]);
    assert_eq!(judge(MCS, Mark::OneWay, &plan, &[0, 1, 2, 3]), 0);
    assert_eq!(judge(MCS, Mark::OneWay, &plan, &[0, 3]), failed((0, 3, 1)));
    assert_eq!(judge(MCS, Mark::OneWay, &plan, &[0, 3, 2]), failed((0, 3, 2)));
    assert_eq!(judge(MCS, Mark::OneWay, &plan, &[0, 1, 3]), failed((0, 3, 2)));
}

#[test]
fn a_walk_goes_round_in_one_direction() {
    let round = one_way_plan(4, &[(0, 1), (1, 2), (2, 3), (3, 0)]);
    for kind in KINDS {
        let carried = carry_on(kind, Mark::OneWay, &round, &[0, 1, 2, 3], &[9; 5], 0);
        assert_eq!(carried, (0, vec![3, 0, 1, 2, 9]));
    }
    assert_eq!(judge_each(&round, &[2, 1]), failing(&KINDS, (2, 1, 3)));
}

#[test]
fn a_walk_begins_a_run_unless_it_has_a_triple() {
    for plan in (0..=3).flat_map(|n| all_plans(Mark::OneWay, n)) {
        let graph = Graph::from_plan(&plan);
        for ordering in all_partial(graph.size()) {
            for kind in KINDS {
                assert_eq!(
                    begins_run(kind, &graph, &ordering),
                    first_violation(kind, &graph, &ordering).is_none()
                );
            }
        }
    }
}

#[test]
fn a_full_walk_passes_exactly_if_its_reverse_brings_it_back() {
    for plan in all_plans(Mark::OneWay, 3) {
        for ordering in permutations(3) {
            let reversed: Vec<u8> = ordering.iter().rev().copied().collect();
            for kind in KINDS {
                let carried = carry_on(kind, Mark::OneWay, &plan, &reversed, &[0; 3], 0);
                let passes = judge(kind, Mark::OneWay, &plan, &ordering) == 0;
                assert_eq!((carried.0, carried.1 == ordering), (0, passes));
            }
        }
    }
}

#[test]
fn only_two_way_plans_are_refused_with_5() {
    let link = bytes(&[2, 0]);
    assert_eq!(judge(GENERIC, Mark::TwoWay, &link, &[7, 7, 7]), 5);
    assert_eq!(judge(GENERIC, Mark::OneWay, &link, &[7, 7, 7]), 6);
    assert_eq!(judge(GENERIC, Mark::OneWay, &link, &[0, 1]), 0);
    assert_eq!(carry_on(GENERIC, Mark::TwoWay, &link, &[], &[], 9), (5, vec![]));
    assert_eq!(carry_on(GENERIC, Mark::OneWay, &link, &[], &[], 9), (6, vec![]));
    for mark in MARKS {
        assert_eq!(judge(7, mark, &link, &[]), 1);
        assert_eq!(judge(GENERIC, mark, &link[..15], &[]), 2);
        assert_eq!(judge(GENERIC, mark, &[0; 520], &[]), 2);
        assert_eq!(judge(GENERIC, mark, &bytes(&[6, 2]), &[]), 3);
        assert_eq!(judge(GENERIC, mark, &bytes(&[2, 2]), &[]), 4);
    }
}

#[test]
fn the_mark_changes_nothing_where_every_link_goes_both_ways() {
    for links in all_plans(Mark::TwoWay, 4) {
        assert!(goes_both_ways(&links));
        for walk in all_partial(4) {
            let judged = MARKS.map(|mark| KINDS.map(|kind| judge(kind, mark, &links, &walk)));
            assert_eq!(judged[0], judged[1]);
        }
    }
    assert!(!goes_both_ways(&one_way_plan(3, &[(0, 1), (1, 0), (1, 2)])));
    assert_eq!(plan(2, &[(0, 1)]), one_way_plan(2, &[(0, 1), (1, 0)]));
}
