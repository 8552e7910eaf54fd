//! Points out of service, with answers worked out by hand.

use super::failed;
use crate::definition::*;
use crate::graphs::{all_plans, one_way_plan, plan};
use crate::orderings::{all_partial, permutations};

const P: [(usize, usize); 3] = [(0, 1), (0, 2), (1, 3)];
const RING: [(usize, usize); 4] = [(0, 1), (1, 2), (2, 3), (0, 3)];

/// On a two-way plan.
fn judge_each(plan: &[u8], barred: u64, walk: &[u8]) -> [u32; 7] {
    KINDS.map(|kind| judge(kind, Mark::TwoWay, plan, barred, walk))
}

/// What judge answers where only some kinds fail.
fn failing(kinds: &[Kind], triple: (Vertex, Vertex, Vertex)) -> [u32; 7] {
    KINDS.map(|kind| if kinds.contains(&kind) { failed(triple) } else { 0 })
}

#[test]
fn without_its_middle_the_tree_is_walked_in_two_pieces() {
    let tree = plan(4, &P);
    assert_eq!(judge_each(&tree, 1 << 1, &[0, 2, 3]), [0; 7]);
    assert_eq!(judge_each(&tree, 1 << 1, &[3, 2, 0]), [0; 7]);
    // 0 leads to 2. Numbered without 1, the triple is 0, 2, 1.
    assert_eq!(judge_each(&tree, 1 << 1, &[0, 3]), failing(&KINDS, (0, 3, 2)));
    assert_eq!(judge_each(&tree, 1 << 1, &[2, 3, 0]), failing(&KINDS, (2, 3, 0)));
    // With 1 in service, 3 is reached from 1 only.
    assert_eq!(judge_each(&tree, 0, &[0, 2, 3]), failing(&KINDS, (0, 3, 1)));
}

#[test]
fn without_a_point_the_ring_is_walked_as_a_path() {
    let ring = plan(4, &RING);
    assert_eq!(judge_each(&ring, 1 << 3, &[0, 1, 2]), [0; 7]);
    assert_eq!(judge_each(&ring, 0, &[0, 1, 2]), failing(&[BFS, LEX_BFS], (0, 2, 3)));
    assert_eq!(judge_each(&ring, 1 << 3, &[0, 2]), failing(&KINDS, (0, 2, 1)));
    // Both neighbours of 1 may be next, and then the last one, though nothing links it with the second.
    assert_eq!(judge_each(&ring, 1 << 3, &[1, 0, 2]), [0; 7]);
    // Without 1 the path is 0, 3, 2.
    assert_eq!(judge_each(&ring, 1 << 1, &[0, 2, 3]), failing(&KINDS, (0, 2, 3)));
    assert_eq!(judge_each(&ring, 1 << 1, &[0, 3, 2]), [0; 7]);
}

#[test]
fn a_triple_is_passed_over_if_its_c_is_barred() {
    // The first triples of 0, 4 are 0, 4, 1, then 0, 4, 2.
    let star = plan(5, &[(0, 1), (0, 2), (0, 3)]);
    assert_eq!(judge_each(&star, 0, &[0, 4]), failing(&KINDS, (0, 4, 1)));
    assert_eq!(judge_each(&star, 1 << 1, &[0, 4]), failing(&KINDS, (0, 4, 2)));
    assert_eq!(judge_each(&star, 0b0110, &[0, 4]), failing(&KINDS, (0, 4, 3)));
    assert_eq!(judge_each(&star, 0b1110, &[0, 4]), [0; 7]);
}

#[test]
fn mcs_does_not_count_barred_points_as_placed() {
    // 1 has the neighbours 0 and 3, 2 has 0 and 4, which is barred.
    let links = plan(5, &[(0, 1), (0, 2), (0, 3), (1, 3), (2, 4)]);
    assert_eq!(judge(MCS, Mark::TwoWay, &links, 1 << 4, &[0, 3, 1, 2]), 0);
    assert_eq!(judge(MCS, Mark::TwoWay, &links, 1 << 4, &[0, 3, 2]), failed((3, 2, 1)));
    let carried = carry_on(MCS, Mark::TwoWay, &links, 1 << 4, &[4, 1, 2, 3, 0], &[9; 5], 0);
    assert_eq!(carried, (0, vec![0, 3, 1, 2, 9]));
}

#[test]
fn carry_on_passes_barred_points_over_and_leaves_the_places_behind() {
    let ring = plan(4, &RING);
    let carried = |kind, barred, tie_break: &[u8], output: &[u8], k| {
        carry_on(kind, Mark::TwoWay, &ring, barred, tie_break, output, k)
    };
    for kind in KINDS {
        // Without 3 the last in the list is 1, then come 2 and 0.
        let list = [0, 2, 1, 3];
        assert_eq!(carried(kind, 1 << 3, &list, &[9; 6], 0), (0, vec![1, 2, 0, 9, 9, 9]));
        assert_eq!(carried(kind, 1 << 3, &list, &[0, 8, 7, 6], 1), (0, vec![0, 1, 2, 6]));
        assert_eq!(carried(kind, 1 << 3, &list, &[0, 1, 2, 3], 3), (0, vec![0, 1, 2, 3]));
        assert_eq!(carried(kind, 0b1010, &list, &[9; 4], 0), (0, vec![2, 0, 9, 9]));
        assert_eq!(carried(kind, 0b1111, &list, &[9; 4], 0), (0, vec![9; 4]));
    }
}

#[test]
fn one_way_links_are_removed_with_their_points() {
    let round = one_way_plan(4, &[(0, 1), (1, 2), (2, 3), (3, 0)]);
    for kind in KINDS {
        let judged = |barred, walk: &[u8]| judge(kind, Mark::OneWay, &round, barred, walk);
        assert_eq!(judged(1 << 1, &[2, 3, 0]), 0);
        assert_eq!(judged(1 << 1, &[0, 2, 3]), 0);
        assert_eq!(judged(0, &[0, 2]), failed((0, 2, 1)));
        assert_eq!(judged(1 << 1, &[2, 0]), failed((2, 0, 3)));
        let carried = carry_on(kind, Mark::OneWay, &round, 1 << 1, &[2, 3, 0, 1], &[9; 4], 0);
        assert_eq!(carried, (0, vec![0, 3, 2, 9]));
    }
}

#[test]
fn all_points_may_be_barred() {
    let ring = plan(4, &RING);
    assert_eq!(judge_each(&ring, 0b1111, &[]), [0; 7]);
    assert_eq!(judge_each(&ring, 0b1111, &[0]), [24; 7]);
    assert_eq!(judge_each(&[], 0, &[]), [0; 7]);
    assert_eq!(judge_each(&[], 1, &[]), [23; 7]);
    let chain: Vec<(usize, usize)> = (1..64).map(|v| (v - 1, v)).collect();
    assert_eq!(judge_each(&plan(64, &chain), !0, &[]), [0; 7]);
    assert_eq!(judge_each(&plan(64, &chain), !0, &[63]), [24; 7]);
}

#[test]
fn judge_refuses_in_order() {
    let judged = |rows: &[u64], barred, walk: &[u8]| {
        judge(GENERIC, Mark::TwoWay, &bytes(rows), barred, walk)
    };
    assert_eq!(judge(7, Mark::TwoWay, &[0; 9], !0, &[0]), 1);
    assert_eq!(judge(GENERIC, Mark::TwoWay, &[0; 9], !0, &[0]), 2);
    assert_eq!(judged(&[4, 0], !0, &[0]), 3);
    assert_eq!(judged(&[1, 0], !0, &[0]), 4);
    assert_eq!(judged(&[2, 0], !0, &[0]), 5);
    assert_eq!(judged(&[2, 1], !0, &[7, 7, 7]), 23);
    assert_eq!(judged(&[2, 1], 4, &[0]), 23);
    assert_eq!(judged(&[2, 1], 1 << 63, &[0]), 23);
    assert_eq!(judged(&[2, 1], 3, &[7, 7, 7]), 6);
    assert_eq!(judged(&[2, 1], 3, &[0, 2]), 8);
    assert_eq!(judged(&[2, 1], 3, &[0, 0]), 9);
    assert_eq!(judged(&[2, 1], 1, &[1, 0]), 24);
    assert_eq!(judged(&[2, 1], 2, &[1, 0]), 24);
    assert_eq!(judged(&[2, 1], 2, &[0]), 0);
}

#[test]
fn carry_on_refuses_in_order() {
    let plan = plan(4, &P);
    let number = |barred, tie_break: &[u8], output: &[u8], k| {
        let carried = carry_on(GENERIC, Mark::TwoWay, &plan, barred, tie_break, output, k);
        assert!(carried.0 == 0 || carried.1 == output);
        carried.0
    };
    assert_eq!(number(1 << 4, &[9], &[1], 9), 23);
    assert_eq!(number(2, &[9], &[1], 5), 6);
    // Three points are left, but the output must have room for four.
    assert_eq!(number(2, &[9], &[1, 9, 9], 1), 10);
    assert_eq!(number(2, &[9], &[1, 9, 9, 9], 1), 7);
    // The list without 1 is no list of all points.
    assert_eq!(number(2, &[0, 2, 3], &[0, 9, 9, 9], 0), 7);
    assert_eq!(number(2, &[0, 1, 2, 4], &[1, 1, 9, 9], 2), 8);
    assert_eq!(number(2, &[0, 1, 2, 3], &[1, 1, 9, 9], 2), 9);
    assert_eq!(number(2, &[0, 2, 2, 3], &[1, 9, 9, 9], 1), 9);
    // 0, 3 does not pass either.
    assert_eq!(number(2, &[0, 1, 2, 3], &[0, 3, 1, 9], 3), 24);
    assert_eq!(number(2, &[0, 1, 2, 3], &[0, 3, 1, 9], 2), 12);
    // Passes only without 1, and only with 1.
    assert_eq!(number(2, &[0, 1, 2, 3], &[0, 2, 3, 9], 3), 0);
    assert_eq!(number(0, &[0, 1, 2, 3], &[0, 2, 3, 9], 3), 12);
}

#[test]
fn the_triple_is_the_whole_plans_first_whose_c_is_not_barred() {
    for (plan, barred) in all_plans(Mark::TwoWay, 4)
        .into_iter()
        .flat_map(|plan| (0..16).map(move |barred| (plan.clone(), barred)))
    {
        let graph = Graph::from_plan(&plan);
        for walk in all_partial(4).into_iter().filter(|walk| !point_barred(barred, walk)) {
            for kind in KINDS {
                let such = |c: Vertex| !is_barred(barred, c);
                let triple = first_violation_where(kind, &graph, &walk, such);
                assert_eq!(
                    judge(kind, Mark::TwoWay, &plan, barred, &walk),
                    triple.map_or(0, failed)
                );
            }
        }
    }
}

#[test]
fn a_walk_of_all_unbarred_points_passes_exactly_if_its_reverse_brings_it_back() {
    for plan in all_plans(Mark::OneWay, 3) {
        for (tie_break, j) in
            permutations(3).iter().flat_map(|list| [0, 1, 2, 3].map(|j| (list, j)))
        {
            let barred = tie_break[..j].iter().map(|&v| 1 << v).sum();
            let walk: Vec<u8> = tie_break[j..].iter().rev().copied().collect();
            for kind in KINDS {
                let carried = carry_on(kind, Mark::OneWay, &plan, barred, tie_break, &[9; 3], 0);
                let passes = judge(kind, Mark::OneWay, &plan, barred, &walk) == 0;
                assert_eq!((carried.0, carried.1.starts_with(&walk)), (0, passes));
                assert_eq!(carried.1[walk.len()..], [9; 3][walk.len()..]);
            }
        }
    }
}
