use super::*;
use crate::definition::{label, Graph, FAILED, MARKS};

#[test]
fn the_table_says_yes_where_02_does() {
    let mut stated: Vec<(Kind, Kind)> =
        vec![(LEX_BFS, BFS), (LEX_BFS, MNS), (LEX_DFS, DFS), (LEX_DFS, MNS), (MCS, MNS)];
    stated.extend(KINDS.map(|kind| (kind, GENERIC)));
    stated.extend(KINDS.into_iter().filter(|&kind| kind != GENERIC).map(|kind| (kind, kind)));
    stated.sort();
    assert_eq!(pairs(&CARRIES_OVER, |&entry| entry == YES), stated);
    assert_eq!((stated.len(), pairs(&CARRIES_OVER, |&entry| entry == NO).len()), (18, 31));
}

#[test]
fn there_is_a_witness_for_each_no() {
    let shown: Vec<(Kind, Kind)> = WITNESSES.iter().map(|&(from, to, _)| (from, to)).collect();
    assert_eq!(shown, pairs(&CARRIES_OVER, |&entry| entry == NO));
    for (from, to, example) in WITNESSES {
        assert_eq!(judge(from, Mark::TwoWay, &example.plan(), NONE_BARRED, example.walk), 0);
        assert!(judge(to, Mark::TwoWay, &example.plan(), NONE_BARRED, example.walk) >= FAILED);
    }
}

#[test]
fn the_links_of_an_example_are_as_on_a_sheet() {
    for (_, _, example) in WITNESSES {
        assert_eq!(graphs::links(&example.plan()), example.links);
    }
}

#[test]
fn the_two_points_of_an_example_have_these_labels() {
    let labels = |example: &Example| {
        let graph = Graph::from_plan(&example.plan());
        let (&last, before) = example.walk.split_last().expect("a walk");
        let unplaced: Vec<u8> =
            (0..example.n as u8).filter(|v| !example.walk.contains(v)).collect();
        let places = |v: u8| -> Vec<usize> {
            let label = label(&graph, before, v as Vertex);
            (0..label.len()).filter(|&p| label[p]).collect()
        };
        assert_eq!(unplaced.len(), 1);
        (places(last), places(unplaced[0]))
    };
    assert_eq!(labels(&EARLY_BEFORE_LATE), (vec![0], vec![1]));
    assert_eq!(labels(&LATE_BEFORE_EARLY), (vec![1], vec![0]));
    assert_eq!(labels(&EARLY_BEFORE_BOTH), (vec![0], vec![0, 1]));
    assert_eq!(labels(&LATE_BEFORE_BOTH), (vec![1], vec![0, 1]));
    assert_eq!(labels(&EARLY_BEFORE_TWO), (vec![0], vec![1, 2]));
    assert_eq!(labels(&LATE_BEFORE_TWO), (vec![2], vec![0, 1]));
}

#[test]
fn with_three_points_every_pass_carries_over() {
    for mark in MARKS {
        assert_eq!(smallest_witnesses(mark, 3), Table::default());
    }
}

#[test]
fn the_smallest_witness_is_entered() {
    let mut smallest = Table::default();
    let passes = KINDS.map(|kind| kind == MNS);
    for size in [(4, 5, 3), (5, 1, 1), (4, 4, 4), (4, 6, 2)] {
        enter(&mut smallest, passes, size);
    }
    let entered = pairs(&smallest, |&entry| entry == Some((4, 4, 4)));
    assert_eq!(entered, [0, 1, 2, 3, 4, 6].map(|to| (MNS, to)));
    assert_eq!(pairs(&smallest, Option::is_some), entered);
}
