use std::collections::HashSet;

use super::*;
use crate::definition::{BFS, KINDS, LEX_BFS, LEX_DFS, MARKS, MCS, NONE_BARRED};

// The links 0-1, 0-2, 1-3.
const TREE: [u64; 4] = [6, 9, 1, 2];

const ALL: [u8; 4] = [0, 1, 2, 3];

fn told(kind: Kind, walk: &[u8], room: usize) -> (Result<usize, u32>, Vec<u8>) {
    judge_in_words(kind, Mark::TwoWay, &TREE, NONE_BARRED, walk, &vec![b'x'; room])
}

#[test]
fn sentences_read_as_in_the_request() {
    for (kind, text) in
        [(LEX_BFS, "LexBFS passes."), (LEX_DFS, "LexDFS fails at 2: 1 leads to 3 and not to 2.")]
    {
        let (answer, after) = told(kind, &ALL, ROOM);
        assert_eq!(answer, Ok(text.len()));
        assert_eq!(after, [text.as_bytes(), &vec![b'x'; ROOM - text.len()]].concat());
    }
}

#[test]
fn a_refusal_keeps_the_list() {
    assert_eq!(told(BFS, &ALL, ROOM - 1), (Err(10), vec![b'x'; ROOM - 1]));
    assert_eq!(told(BFS, &[1, 1], 0), (Err(9), vec![]));
    assert_eq!(told(MCS + 1, &[1, 1], 0), (Err(1), vec![]));
}

#[test]
fn every_fault_is_named_in_its_order() {
    let rows = [0b10011, 0b1001, 1, 2];
    let walk = [9, 9, 3, 3, 3];
    for mark in MARKS {
        let mut all = vec![1, 3, 4, 5, 23, 6, 8, 9, 24, 10];
        all.retain(|&number| number != 5 || mark == Mark::TwoWay);
        assert_eq!(faults(255, mark, &rows, 0x18, &walk, 95), all);
        assert_eq!(faults(0, mark, &[0; 65], 0, &[], ROOM), [2]);
        assert_eq!(faults(0, mark, &TREE, 0, &ALL, ROOM), []);
        assert_eq!(faults(0, mark, &TREE, 8, &[64], ROOM), [8]);
    }
}

#[test]
fn no_two_sentences_are_equal() {
    let points = [0, 1, 2, 6, 9, 10, 11, 12, 21, 22, 62, 63];
    let triple = |i: usize| (points[i / 144], points[i / 12 % 12], points[i % 12]);
    let triples = std::iter::once(None).chain((0..1728).map(|i| Some(triple(i))));
    let all: Vec<String> =
        triples.flat_map(|triple| KINDS.map(|kind| sentence(kind, triple))).collect();
    assert_eq!(all.iter().collect::<HashSet<_>>().len(), all.len());
    assert_eq!(all.iter().map(String::len).max(), Some(50));
}
