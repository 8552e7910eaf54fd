//! The inputs of one call, sound or damaged.

use std::fmt;

use crate::barred_sets;
use crate::definition::without::Without;
use crate::definition::{Graph, Kind, Mark, KINDS};
use crate::graphs;
use crate::orderings;
use crate::random::Random;

#[derive(Clone)]
pub struct JudgeCall {
    pub kind: Kind,
    pub mark: Mark,
    pub plan: Vec<u8>,
    pub barred: u64,
    pub walk: Vec<u8>,
}

#[derive(Clone)]
pub struct CarryOnCall {
    pub kind: Kind,
    pub mark: Mark,
    pub plan: Vec<u8>,
    pub barred: u64,
    pub tie_break: Vec<u8>,
    pub output: Vec<u8>,
    pub k: usize,
}

/// Mostly small, now and then 63 or 64.
fn random_size(random: &mut Random) -> usize {
    match random.below(100) {
        0..=69 => random.below(9),
        70..=89 => random.between(9, 20),
        90..=95 => random.between(21, 40),
        96..=97 => random.between(41, 62),
        _ => random.between(63, 64),
    }
}

/// A judge call that no refusal applies to: the walk is over points that are not barred.
pub fn random_judge(random: &mut Random, mark: Mark, choice: barred_sets::Choice) -> JudgeCall {
    let n = random_size(random);
    let kind = random.pick(&KINDS);
    let plan = graphs::random_plan(random, mark, n);
    let graph = Graph::from_plan(&plan);
    let barred = choice(random, &graph);
    let smaller = Without::new(&graph, barred);
    let walk = smaller.named(&orderings::random_walk(random, kind, smaller.graph()));
    JudgeCall { kind, mark, plan, barred, walk }
}

/// A carry-on call that no refusal applies to, but for 12.
pub fn random_carry_on(random: &mut Random, mark: Mark) -> CarryOnCall {
    let n = random_size(random);
    let kind = random.pick(&KINDS);
    let plan = graphs::random_plan(random, mark, n);
    let graph = Graph::from_plan(&plan);
    let barred = barred_sets::any(random, &graph);
    let smaller = Without::new(&graph, barred);
    let start = smaller.named(&random_start(random, kind, smaller.graph()));
    let beyond = random.pick(&[0, 0, 1, 7, 64]);
    let mut output: Vec<u8> = (0..n + beyond).map(|_| random.byte()).collect();
    output[..start.len()].copy_from_slice(&start);
    let (tie_break, k) = (random.permutation(n), start.len());
    CarryOnCall { kind, mark, plan, barred, tie_break, output, k }
}

/// A walk so far: none, one that passes, or one that may fail.
fn random_start(random: &mut Random, kind: Kind, graph: &Graph) -> Vec<u8> {
    match random.below(10) {
        0..=1 => Vec::new(),
        2..=7 => {
            let length = random.below(graph.size() + 1);
            orderings::run(random, kind, graph, length)
        }
        _ => orderings::random_walk(random, kind, graph),
    }
}

// ---- Damage, one way for each refusal ----

fn damage_kind(random: &mut Random, kind: &mut Kind) {
    *kind = random.pick(&[7, 8, 9, 10, 128, 250, 255]);
}

/// Too many rows, or a row with missing bytes.
fn damage_plan_size(random: &mut Random, plan: &mut Vec<u8>) {
    if random.percent(50) {
        let rows = random.pick(&[65, 65, 66, 72, 128, 256, 257, 260, 320]);
        plan.resize(8 * rows, 0);
    } else {
        let extra = random.between(1, 7);
        plan.extend((0..extra).map(|_| 0));
    }
}

/// One bit of the plan turned round, at u, v.
pub fn flip(plan: &mut [u8], u: usize, v: usize) {
    plan[8 * u + v / 8] ^= 1 << (v % 8);
}

/// Damages the plan as refusals 2 to 5 name it, where it has the points for that. A one-way plan stays valid where a
/// two-way one is refused with 5.
fn damage_plan(random: &mut Random, plan: &mut Vec<u8>) {
    let n = plan.len() / 8;
    let u = random.below(n.max(1));
    match random.below(4) {
        0 => damage_plan_size(random, plan),
        1 if (1..64).contains(&n) => {
            let any = random.between(n, 63);
            let v = random.pick(&[n, 63, any]);
            flip(plan, u, v);
        }
        2 if (1..=64).contains(&n) => flip(plan, u, u),
        _ if (2..=64).contains(&n) => flip(plan, u, (u + random.between(1, n - 1)) % n),
        _ => {}
    }
}

/// A point of n or more, or a point twice, where the list has room for it.
fn damage_points(random: &mut Random, n: usize, list: &mut [u8]) {
    if list.is_empty() {
        return;
    }
    let at = random.below(list.len());
    if random.percent(50) {
        if n <= 255 {
            let any = random.between(n, 255);
            list[at] = random.pick(&[n, n.max(64), 255, any]) as u8;
        }
    } else {
        list[at] = list[random.below(list.len())];
    }
}

/// Bars a point of the list, or puts a barred point into it.
fn damage_by_barring(random: &mut Random, barred: &mut u64, list: &mut [u8]) {
    if list.is_empty() {
        return;
    }
    let at = random.below(list.len());
    let points = barred_sets::points(*barred);
    if !points.is_empty() && random.percent(50) {
        list[at] = random.pick(&points) as u8;
    } else if list[at] < 64 {
        *barred |= 1 << list[at];
    }
}

/// A bit at or above n, where there is one.
fn damage_barred(random: &mut Random, n: usize, barred: &mut u64) {
    if n < 64 {
        let any = random.between(n, 63);
        *barred |= 1 << random.pick(&[n, 63, any]);
    }
}

/// Makes the list longer or shorter; `extra` is the most that it grows.
fn damage_length(random: &mut Random, list: &mut Vec<u8>, extra: usize) {
    if random.percent(50) {
        let more = random.between(1, extra);
        list.extend((0..more).map(|_| random.byte() % 64));
    } else {
        list.truncate(random.below(list.len() + 1));
    }
}

/// From one to four damages.
fn damages(random: &mut Random) -> usize {
    random.pick(&[1, 1, 1, 2, 2, 3, 4])
}

pub fn damage_judge(random: &mut Random, call: &mut JudgeCall) {
    for _ in 0..damages(random) {
        let n = call.plan.len() / 8;
        match random.below(10) {
            0 => damage_kind(random, &mut call.kind),
            1..=3 => damage_plan(random, &mut call.plan),
            4 => damage_barred(random, n, &mut call.barred),
            5..=6 => damage_by_barring(random, &mut call.barred, &mut call.walk),
            7 => {
                let surplus = random.pick(&[1, 1, 2, 64, 192, 256]);
                call.walk.resize(n + surplus, random.byte() % 65);
            }
            _ => damage_points(random, n, &mut call.walk),
        }
    }
}

pub fn damage_carry_on(random: &mut Random, call: &mut CarryOnCall) {
    for _ in 0..damages(random) {
        let n = call.plan.len() / 8;
        let start = call.k.min(call.output.len());
        match random.below(14) {
            0 => damage_kind(random, &mut call.kind),
            1..=3 => damage_plan(random, &mut call.plan),
            4 => call.k = damaged_k(random, n),
            5 => damage_length(random, &mut call.tie_break, 8),
            6 => damage_points(random, n, &mut call.tie_break),
            7 => damage_points(random, n, &mut call.output[..start]),
            8 => call.output.truncate(random.below(n + 1)),
            9 => call.output.truncate(n.saturating_sub(1)),
            10 => damage_barred(random, n, &mut call.barred),
            11..=12 => damage_by_barring(random, &mut call.barred, &mut call.output[..start]),
            _ => call.k = random.below(n + 1),
        }
    }
}

/// k above n, also where its lowest bytes alone would not be.
fn damaged_k(random: &mut Random, n: usize) -> usize {
    let small = random.below(n + 1);
    let choices = [
        n + 1,
        n + 1,
        255 + small,
        256 + small,
        65_536 + small,
        (1 << 32) + small,
        (1 << 63) + small,
        usize::MAX - small,
        usize::MAX,
    ];
    random.pick(&choices).max(n + 1)
}

// ---- For messages ----

/// The links where the rows are those of a plan, else the bytes.
fn show_plan(f: &mut fmt::Formatter, plan: &[u8]) -> fmt::Result {
    let n = plan.len() / 8;
    writeln!(f, "  plan: {n} rows, {} bytes", plan.len())?;
    if n <= 64 {
        let graph = Graph::from_plan(plan);
        for u in 0..n {
            let set: Vec<usize> = (0..64).filter(|&v| graph.leads_to(u, v)).collect();
            writeln!(f, "    row {u}: bits {set:?}")?;
        }
    }
    writeln!(f, "    bytes after the last whole row: {:?}", &plan[8 * n..])
}

impl fmt::Display for JudgeCall {
    fn fmt(&self, f: &mut fmt::Formatter) -> fmt::Result {
        writeln!(f, "judge, kind {}, {:?}", self.kind, self.mark)?;
        show_plan(f, &self.plan)?;
        writeln!(f, "  barred: {:?}", barred_sets::points(self.barred))?;
        write!(f, "  walk: {:?}", self.walk)
    }
}

impl fmt::Display for CarryOnCall {
    fn fmt(&self, f: &mut fmt::Formatter) -> fmt::Result {
        writeln!(f, "carry-on, kind {}, {:?}", self.kind, self.mark)?;
        show_plan(f, &self.plan)?;
        writeln!(f, "  barred: {:?}", barred_sets::points(self.barred))?;
        writeln!(f, "  preference list: {:?}", self.tie_break)?;
        writeln!(f, "  output before: {:?}", self.output)?;
        write!(f, "  k: {}", self.k)
    }
}
