use super::*;
use crate::graphs;
use crate::orderings;
use crate::random::Random;

// The links 0-1, 1-2, 2-3, 0-3; with 0-2 as well; and the links 0-1, 0-2, 1-2.
const RING: [u64; 4] = [10, 5, 10, 5];
const CHORD: [u64; 4] = [14, 5, 11, 5];
const TRIANGLE: [u64; 3] = [6, 5, 3];

fn graph(rows: &[u64]) -> Graph {
    Graph::from_plan(&bytes(rows))
}

#[test]
fn rings_have_four_points_or_more_and_no_chord() {
    assert!(is_chordless_ring(&graph(&RING), &[0, 1, 2, 3]));
    assert!(is_chordless_ring(&graph(&RING), &[2, 1, 0, 3]));
    assert!(!is_chordless_ring(&graph(&RING), &[0, 2, 1, 3]));
    assert!(!is_chordless_ring(&graph(&RING), &[0, 1, 2]));
    assert!(!is_chordless_ring(&graph(&RING), &[0, 1, 2, 3, 0]));
    assert!(!is_chordless_ring(&graph(&CHORD), &[0, 1, 2, 3]));
    assert!(!is_chordless_ring(&graph(&TRIANGLE), &[0, 1, 2]));
    assert!(!is_chordless_ring(&graph(&[]), &[]));
}

#[test]
fn orders_name_all_points_and_leave_cliques() {
    assert!(is_elimination_order(&graph(&CHORD), &[1, 3, 0, 2]));
    assert!(!is_elimination_order(&graph(&CHORD), &[0, 1, 2, 3]));
    assert!(!is_elimination_order(&graph(&CHORD), &[1, 3, 0]));
    assert!(!is_elimination_order(&graph(&CHORD), &[1, 3, 0, 3]));
    assert!(!is_elimination_order(&graph(&CHORD), &[1, 3, 0, 4]));
    assert!(!is_elimination_order(&graph(&RING), &[0, 1, 2, 3]));
    assert!(is_elimination_order(&graph(&[]), &[]));
}

/// On all plans of up to five points: chordal exactly if no list is a chordless ring, exactly if some list is an
/// elimination order.
#[test]
fn chordal_is_without_ring_and_with_order() {
    for n in 0..=5 {
        let lists = orderings::all_partial(n);
        for plan in graphs::all_plans(Mark::TwoWay, n) {
            let graph = Graph::from_plan(&plan);
            let ring = lists.iter().any(|list| is_chordless_ring(&graph, list));
            let order = lists.iter().any(|list| is_elimination_order(&graph, list));
            let chordal = is_chordal(&graph);
            assert!(chordal != ring && chordal == order, "{plan:?}");
        }
    }
}

#[test]
fn refusals_come_in_their_order() {
    let tree: [u64; 4] = [6, 9, 1, 2];
    for (mark, of_link, of_room) in [(Mark::TwoWay, 5, Some(10)), (Mark::OneWay, 25, Some(25))] {
        assert_eq!(refusal(mark, &[1; 65], 0), Some(2));
        assert_eq!(refusal(mark, &[19, 9, 1, 2], 3), Some(3));
        assert_eq!(refusal(mark, &[3, 9, 1, 2], 3), Some(4));
        assert_eq!(refusal(mark, &[2, 9, 1, 2], 3), Some(of_link));
        assert_eq!(refusal(mark, &tree, 3), of_room);
    }
    assert_eq!(refusal(Mark::TwoWay, &tree, 4), None);
    assert_eq!(refusal(Mark::OneWay, &tree, 4), Some(25));
}

/// A list that is no order and no ring, a length one too large, a refusal and a byte written behind the list are none of
/// them as promised; and for each plan some list is.
#[test]
fn other_answers_are_not_as_promised() {
    let mut random = Random::new(9);
    let before = [200; 7];
    for _ in 0..60 {
        let n = random.between(4, 5);
        let plan = graphs::random_plan(&mut random, Mark::TwoWay, n);
        let row = |bytes: &[u8]| u64::from_le_bytes(bytes.try_into().expect("eight bytes a row"));
        let rows: Vec<u64> = plan.chunks_exact(8).map(row).collect();
        let graph = Graph::from_plan(&plan);
        let mut promised = 0;
        for list in orderings::all_partial(n) {
            let m = list.len();
            let mut after = before;
            after[..m].copy_from_slice(&list);
            let mut longer = after;
            longer[6] = 0;
            let told =
                |answer, after: &[u8]| is_promised(Mark::TwoWay, &rows, &before, answer, after);
            assert_eq!(told(Answer::Chordal, &after), is_elimination_order(&graph, &list));
            assert_eq!(told(Answer::Ring(m), &after), is_chordless_ring(&graph, &list));
            assert!(!told(Answer::Ring(m + 1), &after) && !told(Answer::Refused(10), &after));
            assert!(!told(Answer::Chordal, &longer) && !told(Answer::Ring(m), &longer));
            promised += usize::from(told(Answer::Chordal, &after) || told(Answer::Ring(m), &after));
        }
        assert!(promised > 0, "{plan:?}");
    }
}
