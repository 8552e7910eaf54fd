//! Group g: which passes carry over from one kind to another, found with all walks over all plans of up to five points;
//! and for each pair of kinds where none does, a walk that shows it. The same passes carry over on one-way plans, found
//! with all of up to four points.

use outside::calls::JudgeCall;
use outside::carry_over::{pairs, smallest_witnesses, Example, Size, Table};
use outside::carry_over::{CARRIES_OVER, WITNESSES};
use outside::definition::{
    Kind, Mark, FAILED, KIND_NAMES, LEX_BFS, LEX_DFS, MCS, MNS, NONE_BARRED,
};

use crate::comparison::Comparison;

/// The two-way plans that are tried have up to so many points.
const POINTS: usize = 5;

/// The one-way plans that are tried have one point fewer.
const ONE_WAY_POINTS: usize = POINTS - 1;

/// With fewer points these passes carry over too.
const NEED_ALL_POINTS: [(Kind, Kind); 3] = [(LEX_BFS, MCS), (LEX_DFS, MCS), (MNS, MCS)];

pub fn compare() -> u64 {
    let mut comparison = Comparison::new("g, witnesses judged");
    let smallest = smallest_witnesses(Mark::TwoWay, POINTS);
    compare_table(&comparison, &smallest);
    compare_one_way(&comparison);
    for (from, to, example) in WITNESSES {
        compare_witness(&mut comparison, &smallest, (from, to), example);
    }
    comparison.finish()
}

fn names(pairs: &[(Kind, Kind)]) -> String {
    let name = |kind: Kind| KIND_NAMES[kind as usize];
    let pair = |&(from, to): &(Kind, Kind)| format!("{} to {}", name(from), name(to));
    pairs.iter().map(pair).collect::<Vec<String>>().join(", ")
}

fn expect(comparison: &Comparison, what: &str, found: &[(Kind, Kind)], expected: &[(Kind, Kind)]) {
    if found != expected {
        let lines = [format!("expected {}", names(expected)), format!("found    {}", names(found))];
        comparison.differ(&what, &lines);
    }
}

/// The pairs of kinds without a witness are those for which the table says yes, the others are those of `WITNESSES`.
fn compare_table(comparison: &Comparison, smallest: &Table<Option<Size>>) {
    let stated = pairs(&CARRIES_OVER, |&carries_over| carries_over);
    let carried = pairs(smallest, Option::is_none);
    expect(comparison, "the passes that carry over", &carried, &stated);
    let late = pairs(smallest, |size| matches!(size, Some((POINTS, _, _))));
    let with_fewer = "the passes that carry over with fewer points only";
    expect(comparison, with_fewer, &late, &NEED_ALL_POINTS);
    let not_carried = pairs(smallest, Option::is_some);
    let shown = WITNESSES.map(|(from, to, _)| (from, to));
    expect(comparison, "the passes with a witness", &shown, &not_carried);
    println!(
        "g, all walks over all plans of up to {POINTS} points: passes carry over for {} pairs of kinds, not for {}, \
         of which {} need {POINTS} points",
        carried.len(),
        not_carried.len(),
        late.len()
    );
}

/// The pairs of kinds with a witness on these plans are those with a witness on two-way plans of as many points.
fn compare_one_way(comparison: &Comparison) {
    let smallest = smallest_witnesses(Mark::OneWay, ONE_WAY_POINTS);
    let with_fewer = |pair: &(Kind, Kind)| !NEED_ALL_POINTS.contains(pair);
    let shown = WITNESSES.map(|(from, to, _)| (from, to)).into_iter().filter(with_fewer);
    let not_carried = pairs(&smallest, Option::is_some);
    let expected: Vec<(Kind, Kind)> = shown.collect();
    expect(comparison, "the passes with a witness on a one-way plan", &not_carried, &expected);
    println!(
        "g, all walks over all one-way plans of up to {ONE_WAY_POINTS} points: passes do not carry over for {} pairs of \
         kinds, the same as on two-way plans",
        not_carried.len()
    );
}

/// The walk passes the one kind and fails the other, and no witness is smaller.
fn compare_witness(
    comparison: &mut Comparison,
    smallest: &Table<Option<Size>>,
    (from, to): (Kind, Kind),
    example: &Example,
) {
    let call = |kind| JudgeCall {
        kind,
        mark: Mark::TwoWay,
        plan: example.plan(),
        barred: NONE_BARRED,
        walk: example.walk.to_vec(),
    };
    comparison.expect_judge(&call(from), 0);
    if comparison.judge(&call(to)) < FAILED {
        comparison.differ(&call(to), &["the walk must fail".to_string()]);
    }
    let size = smallest[from as usize][to as usize];
    if size != Some(example.size()) {
        let found = format!("the smallest witness has the size {size:?}");
        comparison.differ(&call(to), &[found]);
    }
}
