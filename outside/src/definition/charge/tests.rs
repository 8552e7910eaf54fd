use super::Halves::{ToEven, Up};
use super::*;
use crate::definition::{DFS, GENERIC};

// The links 0-1, 0-2, 1-3; then each from the smaller point to the larger one only.
const TREE: [u64; 4] = [6, 9, 1, 2];
const DOWN: [u64; 4] = [6, 8, 0, 0];

/// On a two-way plan, by both rules: halves to the even cent, and halves up.
fn charge(kind: Kind, rows: &[u64], walk: &[u8], minutes: &[u16], rate: u64) -> Both {
    both(|halves| super::charge(kind, Mark::TwoWay, rows, walk, minutes, rate, halves))
}

type Both = Result<(u64, u64), u32>;

/// The cents by both rules; that one rule refuses what the other one charges is no answer.
fn both(charge: impl Fn(Halves) -> Result<u64, u32>) -> Both {
    match (charge(ToEven), charge(Up)) {
        (Ok(even), Ok(up)) => Ok((even, up)),
        (Err(number), Err(other)) if number == other => Err(number),
        answers => panic!("the rules refuse differently: {answers:?}"),
    }
}

fn single(minutes: u16, rate: u64) -> Both {
    charge(GENERIC, &[0], &[0], &[minutes], rate)
}

#[test]
fn jumps_take_seven_minutes_except_to_the_first_point() {
    let graph = Graph::from_plan(&bytes(&TREE));
    let minutes = [10, 20, 5, 30];
    assert_eq!(minutes_of(&graph, &[], &minutes), 0);
    assert_eq!(minutes_of(&graph, &[3], &minutes), 30);
    assert_eq!(minutes_of(&graph, &[3, 1], &minutes), 50);
    assert_eq!(minutes_of(&graph, &[3, 2], &minutes), 42);
    assert_eq!(minutes_of(&graph, &[0, 1, 2, 3], &minutes), 65 + 2 * 7);
    assert_eq!(minutes_of(&graph, &[0, 1, 3, 2], &minutes), 65 + 7);
}

#[test]
fn a_step_against_a_one_way_link_is_a_jump() {
    let graph = Graph::from_plan(&bytes(&DOWN));
    let minutes = [10, 20, 5, 30];
    assert_eq!(minutes_of(&graph, &[1, 3], &minutes), 50);
    assert_eq!(minutes_of(&graph, &[3, 1], &minutes), 50 + 7);
    assert_eq!(minutes_of(&graph, &[0, 1, 2, 3], &minutes), 65 + 2 * 7);
    assert_eq!(minutes_of(&graph, &[0, 1, 3, 2], &minutes), 65 + 7);
    assert_eq!(minutes_of(&graph, &[3, 1, 0, 2], &minutes), 65 + 2 * 7);
    assert_eq!(minutes_of(&Graph::from_plan(&bytes(&TREE)), &[3, 1, 0, 2], &minutes), 65);
    let at_4530 = |mark| {
        both(|halves| super::charge(GENERIC, mark, &DOWN, &[3, 1, 0, 2], &minutes, 4_530, halves))
    };
    assert_eq!(at_4530(Mark::OneWay), Ok((5_964, 5_965)));
    assert_eq!(at_4530(Mark::TwoWay), Err(5));
}

#[test]
fn halves_go_up_or_to_the_even_cent() {
    let by_both = |sixtieths| (nearest_cent(sixtieths, ToEven), nearest_cent(sixtieths, Up));
    assert_eq!(by_both(29), (0, 0));
    assert_eq!(by_both(30), (0, 1));
    assert_eq!(by_both(31), (1, 1));
    assert_eq!(by_both(89), (1, 1));
    assert_eq!(by_both(90), (2, 2));
    assert_eq!(by_both(91), (2, 2));
    assert_eq!(by_both(150), (2, 3));
    assert_eq!(single(1, 30), Ok((0, 1)));
    assert_eq!(single(3, 30), Ok((2, 2)));
    assert_eq!(single(999, 99_999), Ok((1_664_983, 1_664_983)));
}

#[test]
fn the_nearest_cent_is_at_most_30_away() {
    let near = |cents: u64, sixtieths| (60 * cents).abs_diff(sixtieths) <= 30;
    for sixtieths in 0..10_000 {
        let (even, up) = (nearest_cent(sixtieths, ToEven), nearest_cent(sixtieths, Up));
        assert!(near(even, sixtieths) && near(up, sixtieths));
        let all: Vec<u64> = (0..200).filter(|&cents| near(cents, sixtieths)).collect();
        assert_eq!(all.last(), Some(&up));
        assert!(all.len() == 1 || all.iter().filter(|&cents| cents % 2 == 0).eq([&even]));
    }
}

#[test]
fn the_rules_differ_halfway_above_an_even_cent_by_one() {
    for sixtieths in 0..10_000 {
        let (even, up) = (nearest_cent(sixtieths, ToEven), nearest_cent(sixtieths, Up));
        let differ = sixtieths % 60 == 30 && sixtieths / 60 % 2 == 0;
        assert_eq!(up - even, u64::from(differ));
    }
}

#[test]
fn the_largest_charge() {
    let walk: Vec<u8> = (0..64).collect();
    assert_eq!(
        charge(GENERIC, &[0; 64], &walk, &[999; 64], 99_999),
        Ok((107_293_927, 107_293_927))
    );
    assert_eq!((64 * 999 + 63 * 7) * 99_999_u64, 6_437_635_623);
}

#[test]
fn charge_refuses_in_order() {
    let walk = [0, 1, 2, 3];
    let minutes = [10, 20, 5, 30];
    assert_eq!(charge(DFS, &TREE, &[0, 0], &[1000; 5], 100_000), Err(9));
    assert_eq!(charge(DFS, &TREE, &walk, &minutes[..3], 100_000), Err(18));
    assert_eq!(charge(DFS, &TREE, &walk, &[10, 20, 5, 30, 0], 100_000), Err(18));
    // An entry of a point that is not placed.
    assert_eq!(charge(DFS, &TREE, &[0], &[10, 20, 5, 1000], 100_000), Err(18));
    assert_eq!(charge(DFS, &TREE, &walk, &minutes, 100_000), Err(19));
    assert_eq!(charge(DFS, &TREE, &walk, &minutes, 99_999), Err(20));
    assert_eq!(charge(GENERIC, &TREE, &walk, &minutes, 4_530), Ok((5_964, 5_965)));
    assert_eq!(charge(GENERIC, &TREE, &[0], &[10, 20, 5, 999], 60), Ok((10, 10)));
}
