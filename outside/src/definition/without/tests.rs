use super::*;
use crate::definition::label;
use crate::graphs::{one_way_plan, plan};

const P: [(usize, usize); 3] = [(0, 1), (0, 2), (1, 3)];
const RING: [(usize, usize); 4] = [(0, 1), (1, 2), (2, 3), (0, 3)];

fn without(plan: &[u8], barred: u64) -> Without {
    Without::new(&Graph::from_plan(plan), barred)
}

/// The smaller plan is the one with these bytes.
fn assert_graph(without: &Without, plan: &[u8]) {
    assert_eq!(without.graph().rows, Graph::from_plan(plan).rows);
    assert_eq!(without.size(), plan.len() / 8);
}

/// Each point is linked to the following one.
fn chain_of(n: usize) -> Vec<u8> {
    let links: Vec<(usize, usize)> = (1..n).map(|v| (v - 1, v)).collect();
    plan(n, &links)
}

#[test]
fn without_its_middle_the_tree_is_in_two_pieces() {
    // 0, 2 and 3 become 0, 1 and 2; of the links only 0-2 is left.
    let without = without(&plan(4, &P), 1 << 1);
    assert_graph(&without, &plan(3, &[(0, 1)]));
    assert_eq!([0, 1, 2].map(|i| without.name(i)), [0, 2, 3]);
    assert_eq!([0, 1, 2, 3].map(|v| without.number(v)), [Some(0), None, Some(1), Some(2)]);
}

#[test]
fn without_a_point_the_ring_is_a_path() {
    assert_graph(&without(&plan(4, &RING), 1 << 3), &plan(3, &[(0, 1), (1, 2)]));
    // Without 0 the path 1, 2, 3 becomes 0, 1, 2.
    assert_graph(&without(&plan(4, &RING), 1), &plan(3, &[(0, 1), (1, 2)]));
    // Without 1 the path is 2, 3, 0, and these became 1, 2, 0.
    assert_graph(&without(&plan(4, &RING), 1 << 1), &plan(3, &[(1, 2), (2, 0)]));
    // Opposite points have no link.
    assert_graph(&without(&plan(4, &RING), 0b0101), &plan(2, &[]));
}

#[test]
fn links_keep_their_direction() {
    let round = one_way_plan(4, &[(0, 1), (1, 2), (2, 3), (3, 0)]);
    assert_graph(&without(&round, 1 << 1), &one_way_plan(3, &[(1, 2), (2, 0)]));
}

#[test]
fn nothing_or_everything_is_barred() {
    let ring = plan(4, &RING);
    let whole = without(&ring, 0);
    assert_graph(&whole, &ring);
    assert_eq!((whole.named(&[3, 1]), whole.numbered(&[3, 1])), (vec![3, 1], vec![3, 1]));
    let nothing = without(&ring, 0b1111);
    assert_graph(&nothing, &[]);
    assert_eq!(nothing.numbered(&[3, 2, 1, 0]), []);
    assert_graph(&without(&[], 0), &[]);
}

#[test]
fn bits_that_stand_for_no_point_are_ignored() {
    let ring = plan(4, &RING);
    assert_graph(&without(&ring, !0 << 4), &ring);
    assert_graph(&without(&[], !0), &[]);
}

#[test]
fn lists_are_renumbered_and_named_back() {
    let without = without(&plan(6, &[]), 0b010011);
    assert_eq!(without.numbered(&[5, 2, 3]), [2, 0, 1]);
    assert_eq!(without.named(&[2, 0, 1]), [5, 2, 3]);
    // Barred points are passed over.
    assert_eq!(without.numbered(&[4, 5, 0, 3, 1, 2]), [2, 1, 0]);
}

#[test]
fn the_last_of_64_points_may_be_barred_or_left() {
    let chain = chain_of(64);
    assert_graph(&without(&chain, 1 << 63), &chain_of(63));
    assert_graph(&without(&chain, 1), &chain_of(63));
    let last = without(&chain, !0 >> 1);
    assert_eq!((last.size(), last.name(0), last.number(63)), (1, 63, Some(0)));
    assert_graph(&without(&chain, !0), &[]);
}

#[test]
fn a_label_has_no_place_of_a_removed_link() {
    // 3 has the neighbour 1, which is barred, and 0.
    let without = without(&plan(4, &[(0, 1), (1, 3), (0, 3)]), 1 << 1);
    let walk = without.numbered(&[2, 0]);
    assert_eq!(label(without.graph(), &walk, 2), [false, true]);
}
