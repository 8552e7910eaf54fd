use super::*;
use crate::definition::MARKS;
use crate::graphs;
use crate::orderings;
use crate::random::Random;

// The links 0-1, 0-2, 1-3; then each from the smaller point to the larger one only.
const TREE: [u64; 4] = [6, 9, 1, 2];
const DOWN: [u64; 4] = [6, 8, 0, 0];

// The links 0-1, 0-2, 1-2, then 3-4, and a point by itself.
const PIECES: [u64; 6] = [6, 5, 3, 16, 8, 0];

// One-way: 0 leads to 1 and 2, 1 to 3; 4 to 3 and 5, 5 to 0.
const INFLOW: [u64; 6] = [6, 8, 0, 0, 40, 1];

fn rows_of(plan: &[u8]) -> Vec<u64> {
    let row = |bytes: &[u8]| u64::from_le_bytes(bytes.try_into().expect("eight bytes a row"));
    plan.chunks_exact(8).map(row).collect()
}

/// The way to v, which the call must give in a list of n bytes, and which must be as short as any.
fn way(mark: Mark, rows: &[u64], walk: &[u8], v: u8) -> Vec<u8> {
    let (answer, after) = way_back(mark, rows, walk, v, &vec![200; rows.len()]);
    let path = after[..answer.expect("not refused")].to_vec();
    assert!(after[path.len()..].iter().all(|&byte| byte == 200));
    assert!(is_shortest_path(rows, walk, v, &path));
    path
}

fn refusal(mark: Mark, rows: &[u64], walk: &[u8], v: u8, room: usize) -> u32 {
    let output = vec![200; room];
    let (answer, after) = way_back(mark, rows, walk, v, &output);
    assert_eq!(after, output);
    answer.expect_err("refused")
}

#[test]
fn the_parent_is_the_earliest_neighbour_before() {
    // 4 is linked to 1, 2 and 3.
    let links = [(0, 1), (0, 2), (0, 3), (1, 4), (2, 4), (3, 4), (3, 5), (4, 5)];
    let rows = rows_of(&graphs::plan(6, &links));
    let graph = Graph::from_plan(&bytes(&rows));
    let walk = [0, 2, 3, 1, 4, 5];
    let parents = [0, 1, 2, 3, 4, 5].map(|v| parent(&graph, &walk, v));
    assert_eq!(parents, [None, Some(0), Some(0), Some(0), Some(2), Some(3)]);
    for mark in MARKS {
        assert_eq!(way(mark, &rows, &walk, 4), [0, 2, 4]);
        assert_eq!(way(mark, &rows, &walk, 5), [0, 3, 5]);
        assert_eq!(way(mark, &rows, &walk, 0), [0]);
        assert_eq!(way(mark, &rows, &[5, 4, 3, 1, 2, 0], 0), [5, 3, 0]);
    }
}

#[test]
fn a_way_stays_in_its_piece() {
    for mark in MARKS {
        let walk = [4, 3, 5, 1, 0, 2];
        assert_eq!(way(mark, &PIECES, &walk, 4), [4]);
        assert_eq!(way(mark, &PIECES, &walk, 3), [4, 3]);
        assert_eq!(way(mark, &PIECES, &walk, 5), [5]);
        assert_eq!(way(mark, &PIECES, &walk, 1), [1]);
        assert_eq!(way(mark, &PIECES, &walk, 2), [1, 2]);
        assert_eq!(way(mark, &PIECES, &[5, 2, 1, 0, 3, 4], 0), [2, 0]);
    }
}

#[test]
fn a_ring_is_gone_round_on_the_side_placed_first() {
    let rows = rows_of(&graphs::plan(6, &[(0, 1), (1, 2), (2, 3), (3, 4), (4, 5), (5, 0)]));
    for mark in MARKS {
        assert_eq!(way(mark, &rows, &[0, 1, 5, 2, 4, 3], 3), [0, 1, 2, 3]);
        assert_eq!(way(mark, &rows, &[0, 5, 1, 4, 2, 3], 3), [0, 5, 4, 3]);
    }
    let round = rows_of(&graphs::one_way_plan(4, &[(0, 1), (1, 2), (2, 3), (3, 0)]));
    assert_eq!(way(Mark::OneWay, &round, &[2, 3, 0, 1], 1), [2, 3, 0, 1]);
    assert_eq!(way(Mark::OneWay, &round, &[2, 3, 0, 1], 2), [2]);
}

#[test]
fn a_one_way_link_is_not_gone_against() {
    assert_eq!(way(Mark::OneWay, &DOWN, &[0, 1, 2, 3], 3), [0, 1, 3]);
    assert_eq!(way(Mark::TwoWay, &TREE, &[3, 1, 0, 2], 2), [3, 1, 0, 2]);
    let upstream = [3, 1, 0, 2];
    assert_eq!([3, 1, 0].map(|v| way(Mark::OneWay, &DOWN, &upstream, v)), [[3], [1], [0]]);
    assert_eq!(way(Mark::OneWay, &DOWN, &upstream, 2), [0, 2]);
}

#[test]
fn a_later_piece_that_leads_back_is_no_way() {
    // 4 leads to 3 directly, but is placed after it.
    let walk = [0, 1, 2, 3, 4, 5];
    assert_eq!(way(Mark::OneWay, &INFLOW, &walk, 3), [0, 1, 3]);
    assert_eq!(way(Mark::OneWay, &INFLOW, &walk, 5), [4, 5]);
    let walk = [3, 0, 2, 1, 4, 5];
    assert_eq!(way(Mark::OneWay, &INFLOW, &walk, 3), [3]);
    assert_eq!(way(Mark::OneWay, &INFLOW, &walk, 1), [0, 1]);
    let walk = [4, 5, 3, 0, 1, 2];
    assert_eq!(way(Mark::OneWay, &INFLOW, &walk, 3), [4, 3]);
    assert_eq!(way(Mark::OneWay, &INFLOW, &walk, 1), [4, 5, 0, 1]);
}

#[test]
fn a_walk_may_be_broken_off() {
    assert_eq!(way(Mark::OneWay, &INFLOW, &[4, 5, 3, 0], 0), [4, 5, 0]);
    assert_eq!(way(Mark::TwoWay, &TREE, &[3, 1, 0], 0), [3, 1, 0]);
    assert_eq!(way(Mark::TwoWay, &TREE, &[1], 1), [1]);
    for mark in MARKS {
        assert_eq!(refusal(mark, &TREE, &[3, 1, 0], 2, 4), 22);
        assert!([0, 1, 2, 3, 4, 255].iter().all(|&v| refusal(mark, &TREE, &[], v, 4) == 22));
        assert!([0, 255].iter().all(|&v| refusal(mark, &[], &[], v, 0) == 22));
    }
}

#[test]
fn later_bytes_stay() {
    let walk = [0, 1, 2, 3];
    let output = [200, 201, 202, 203, 204, 205];
    let answered = |v| way_back(Mark::TwoWay, &TREE, &walk, v, &output);
    assert_eq!(answered(0), (Ok(1), vec![0, 201, 202, 203, 204, 205]));
    assert_eq!(answered(3), (Ok(3), vec![0, 1, 3, 203, 204, 205]));
    assert_eq!(answered(4), (Err(22), output.to_vec()));
}

#[test]
fn the_longest_way() {
    let walk: Vec<u8> = (0..64).collect();
    let steps: Vec<(usize, usize)> = (1..64).map(|v| (v - 1, v)).collect();
    let path = rows_of(&graphs::plan(64, &steps));
    let down = rows_of(&graphs::one_way_plan(64, &steps));
    assert_eq!(way(Mark::TwoWay, &path, &walk, 63), walk);
    assert_eq!(way(Mark::OneWay, &down, &walk, 63), walk);
    let back: Vec<u8> = (0..64).rev().collect();
    assert_eq!(way(Mark::TwoWay, &path, &back, 0), back);
    assert_eq!(way(Mark::OneWay, &down, &back, 0), [0]);
}

#[test]
fn way_back_refuses_in_order() {
    for mark in MARKS {
        assert_eq!(refusal(mark, &[1; 65], &[99; 66], 77, 64), 2);
        assert_eq!(refusal(mark, &[19, 9, 1, 2], &[9; 5], 77, 3), 3);
        assert_eq!(refusal(mark, &[3, 9, 1, 2], &[9; 5], 77, 3), 4);
        let one_way_link = if mark == Mark::TwoWay { 5 } else { 6 };
        assert_eq!(refusal(mark, &[2, 9, 1, 2], &[9; 5], 77, 3), one_way_link);
        assert_eq!(refusal(mark, &TREE, &[9; 5], 77, 3), 6);
        assert_eq!(refusal(mark, &TREE, &[9; 2], 77, 3), 8);
        assert_eq!(refusal(mark, &TREE, &[1, 2, 1], 77, 3), 9);
        // In depth, and without its last step.
        assert_eq!(refusal(mark, &TREE, &[0, 1, 3], 77, 3), 21);
        assert_eq!(refusal(mark, &TREE, &[0, 1, 3], 2, 3), 21);
        assert_eq!(refusal(mark, &TREE, &[0, 1, 3], 3, 4), 21);
        assert!([2, 3, 4, 64, 255].iter().all(|&v| refusal(mark, &TREE, &[0, 1], v, 3) == 22));
        assert_eq!(refusal(mark, &TREE, &[0, 1], 1, 3), 10);
        assert_eq!(refusal(mark, &TREE, &[0, 1], 0, 0), 10);
        assert_eq!(way(mark, &TREE, &[0, 1], 1), [0, 1]);
    }
}

#[test]
fn distances_are_counted_over_all_points_and_in_the_direction_of_links() {
    let tree = Graph::from_plan(&bytes(&TREE));
    assert_eq!(distances(&tree, 3), [2, 1, 3, 0].map(Some));
    let down = Graph::from_plan(&bytes(&DOWN));
    assert_eq!(distances(&down, 0), [0, 1, 1, 2].map(Some));
    assert_eq!(distances(&down, 1), [None, Some(0), None, Some(1)]);
    let round = Graph::from_plan(&bytes(&[2, 4, 8, 1]));
    assert_eq!(distances(&round, 2), [2, 3, 0, 1].map(Some));
}

#[test]
fn a_way_that_breaks_its_promise_is_told() {
    let walk = [3, 1, 0, 2];
    let is_way = |v: u8, path: &[u8]| is_shortest_path(&TREE, &walk, v, path);
    assert!(is_way(2, &[3, 1, 0, 2]));
    // To another point, over no link, with a point that is not placed, backwards, and no way at all.
    assert!(!is_way(0, &[3, 1, 0, 2]));
    assert!(!is_way(2, &[3, 0, 2]));
    assert!(!is_shortest_path(&TREE, &walk[..3], 2, &[3, 1, 0, 2]));
    assert!(!is_way(3, &[0, 1, 3]));
    assert!(!is_way(2, &[]));
    // Longer than need be: in this ring of five 4 is linked to 0.
    let ring = rows_of(&graphs::plan(5, &[(0, 1), (1, 2), (2, 3), (3, 4), (4, 0)]));
    assert!(!is_shortest_path(&ring, &[0, 1, 2, 3, 4], 3, &[0, 1, 2, 3]));
    assert!(is_shortest_path(&ring, &[0, 1, 4, 2, 3], 3, &[0, 4, 3]));
}

#[test]
fn a_walk_that_fails_may_miss_the_shortest_way() {
    let rows = rows_of(&graphs::plan(5, &[(0, 1), (0, 2), (1, 3), (3, 4), (2, 4)]));
    let graph = Graph::from_plan(&bytes(&rows));
    let in_depth = [0, 1, 3, 4, 2];
    assert_eq!(path_to(&graph, &in_depth, 4), [0, 1, 3, 4]);
    assert!(!is_shortest_path(&rows, &in_depth, 4, &[0, 1, 3, 4]));
    assert_eq!(refusal(Mark::TwoWay, &rows, &in_depth, 4, 5), 21);
    assert_eq!(way(Mark::TwoWay, &rows, &[0, 1, 2, 3, 4], 4), [0, 2, 4]);
}

#[test]
fn every_way_on_a_small_plan_is_shortest() {
    for (mark, most) in [(Mark::TwoWay, 4), (Mark::OneWay, 3)] {
        for plan in (0..=most).flat_map(|n| graphs::all_plans(mark, n)) {
            let (graph, rows) = (Graph::from_plan(&plan), rows_of(&plan));
            let passes = |walk: &Vec<u8>| begins_run(BFS, &graph, walk);
            for walk in orderings::all_partial(rows.len()).into_iter().filter(passes) {
                for &v in &walk {
                    way(mark, &rows, &walk, v);
                }
            }
        }
    }
}

/// Runs of BFS, whole or broken off. Ways of one point and of more than three must come often, or they try too little.
#[test]
fn every_way_on_a_random_plan_is_shortest() {
    let mut random = Random::new(20_260_905);
    for mark in MARKS {
        let (mut alone, mut long) = (0, 0);
        for _ in 0..400 {
            let n = random.below(25);
            let plan = graphs::random_plan(&mut random, mark, n);
            let length = if random.percent(50) { n } else { random.below(n + 1) };
            let walk = orderings::run(&mut random, BFS, &Graph::from_plan(&plan), length);
            let rows = rows_of(&plan);
            for &v in &walk {
                match way(mark, &rows, &walk, v).len() {
                    1 => alone += 1,
                    2..=3 => {}
                    _ => long += 1,
                }
            }
        }
        assert!(alone > 200 && long > 200);
    }
}
