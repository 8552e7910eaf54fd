use super::{carry_on, failure_code, judge};
use crate::definition::wide::{self, Verdict, WORDS};
use crate::definition::{Kind, Mark, KINDS};
use crate::graphs::wide as tables;
use crate::random::Random;

const SIZES: [usize; 13] = [0, 1, 2, 3, 5, 8, 13, 20, 63, 64, 65, 70, 130];
const THOUSANDTHS: [usize; 5] = [0, 30, 100, 500, 900];

fn code(verdict: Verdict) -> u64 {
    match verdict {
        Verdict::Passes => 0,
        Verdict::Fails((a, b, c)) => failure_code(a as u16, b as u16, c as u16),
        Verdict::Refused(number) => number as u64,
    }
}

fn same_verdict(kind: Kind, table: &[u64], walk: &[u16]) {
    let own = judge(kind, table, walk);
    assert_eq!(own, code(wide::judge(kind, Mark::TwoWay, table, walk)), "{kind} {walk:?}");
}

/// Compares, and gives the output list afterwards.
fn same_walk(kind: Kind, table: &[u64], tie_break: &[u16], output: &[u16], k: usize) -> Vec<u16> {
    let mut after = output.to_vec();
    let own = carry_on(kind, table, tie_break, &mut after, k);
    let (answer, expected) = wide::carry_on(kind, Mark::TwoWay, table, tie_break, output, k);
    assert_eq!(own, answer.err().unwrap_or(0) as u64);
    assert_eq!(after, expected);
    after
}

#[test]
fn agrees_with_the_definition_on_random_plans() {
    let mut random = Random::new(123);
    for n in SIZES {
        for thousandths in THOUSANDTHS {
            let table = tables::scattered(&mut random, Mark::TwoWay, n, thousandths);
            for kind in KINDS {
                let tie_break = random.wide_permutation(n);
                let walk = same_walk(kind, &table, &tie_break, &vec![1000; n], 0);
                same_verdict(kind, &table, &walk);
                let mut other = walk.clone();
                if n > 1 {
                    other.swap(random.below(n), random.below(n));
                }
                other.truncate(random.below(n + 1).max(n / 2));
                same_verdict(kind, &table, &other);
                same_verdict(kind, &table, &tie_break);
                let longer = [&other[..], &vec![1000; n + 3 - other.len()]].concat();
                same_walk(kind, &table, &tie_break, &longer, random.below(other.len() + 1));
            }
        }
    }
}

#[test]
fn refuses_as_the_definition_does() {
    let mut random = Random::new(124);
    for round in 0..3000 {
        let n = round % 5;
        let mut table = tables::scattered(&mut random, Mark::TwoWay, n, 500);
        if random.percent(30) && n > 0 {
            let arc = (random.below(n), random.pick(&[0, 1, 2, n, 64, 511]));
            tables::set(&mut table, arc, random.percent(70));
        }
        if random.percent(10) {
            table.truncate(random.below(table.len() + 1));
        }
        let mut list = |length: usize| -> Vec<u16> {
            let mut list = random.wide_permutation(length);
            if random.percent(20) && length > 0 {
                let at = random.below(length);
                list[at] = random.below(n + 2) as u16;
            }
            list
        };
        let (walk, tie_break) = (list(n), list(n));
        let k = random.below(n + 2);
        let length = (n + 1).saturating_sub(random.below(3));
        let output: Vec<u16> = walk.iter().copied().chain([1000; 9]).take(length).collect();
        let kind = random.below(8) as Kind;
        same_verdict(kind, &table, &walk);
        same_walk(kind, &table, &tie_break[..n - random.below(n + 1) / 4], &output, k);
    }
    for rows in [512, 513] {
        same_verdict(0, &vec![0; rows * WORDS], &[511]);
    }
}
