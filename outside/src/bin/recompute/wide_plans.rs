//! Group q: what the program of the crate `wide_plans` prints, line by line. The plans and the calls are read from
//! there; what is answered, and the output list as it is afterwards, are recomputed. On plans of at most 64 points the
//! narrow form must answer the same.

use std::process::exit;
use std::str::FromStr;

use outside::definition::wide::{carry_on, judge, Verdict};
use outside::definition::{Kind, Mark};

use crate::printed;
use drawn::Drawn;
use tried::Tried;

mod drawn;
mod narrow;
mod tried;

const PROGRAM: &str = "wide_plans";

/// What the entries of an output list are before a call, behind the start: this number and their place.
const UNWRITTEN: usize = 1000;

/// A plan, and the words of it that are passed.
pub struct Plan {
    mark: Mark,
    pieces: usize,
    table: Vec<u64>,
}

/// The lists of a call of carry-on.
pub struct Lists {
    tie_break: Vec<u16>,
    output: Vec<u16>,
    k: usize,
}

fn read_list<Entry: FromStr>(words: &str) -> Option<Vec<Entry>> {
    words.split_whitespace().map(|word| word.parse().ok()).collect()
}

fn show_list<Entry: ToString>(list: &[Entry]) -> String {
    list.iter().map(|entry| format!(" {}", entry.to_string())).collect()
}

fn show_verdict(verdict: Verdict) -> String {
    match verdict {
        Verdict::Passes => "p".to_string(),
        Verdict::Fails((a, b, c)) => format!("f {a} {b} {c}"),
        Verdict::Refused(number) => format!("r {number}"),
    }
}

/// An output list of this length with as much of the start at its front as there is room for.
fn fresh(start: &[u16], length: usize) -> Vec<u16> {
    let unwritten = (start.len()..length).map(|place| (UNWRITTEN + place) as u16);
    start.iter().copied().chain(unwritten).take(length).collect()
}

/// The line that a call of judge must print; an error where the narrow form differs.
fn expected_judge(tried: &mut Tried, plan: &Plan, parts: &[&str]) -> Result<String, String> {
    let [kind, walk, _] = parts else { return Err("three parts are needed".to_string()) };
    let (Ok(kind), Some(walk)) = (kind.trim().parse::<Kind>(), read_list::<u16>(walk)) else {
        return Err("a number is none".to_string());
    };
    let verdict = judge(kind, plan.mark, &plan.table, &walk);
    let compared = narrow::judge(plan, kind, &walk, verdict)?;
    tried.judged(plan, kind, verdict, compared);
    Ok(format!("j {kind} |{} | {}", show_list(&walk), show_verdict(verdict)))
}

/// The same for carry-on.
fn expected_carry_on(tried: &mut Tried, plan: &Plan, parts: &[&str]) -> Result<String, String> {
    let [numbers, tie_break, start, _, _] = parts else {
        return Err("five parts are needed".to_string());
    };
    let lists = (read_list::<usize>(numbers), read_list(tie_break), read_list::<u16>(start));
    let (Some(numbers), Some(tie_break), Some(start)) = lists else {
        return Err("a number is none".to_string());
    };
    let [kind, k, length] = numbers[..] else { return Err("three numbers are needed".to_string()) };
    let kind = Kind::try_from(kind).map_err(|_| "a kind is a byte".to_string())?;
    let lists = Lists { tie_break, output: fresh(&start, length), k };
    let (answer, after) =
        carry_on(kind, plan.mark, &plan.table, &lists.tie_break, &lists.output, k);
    let compared = narrow::carry_on(plan, kind, &lists, answer, &after)?;
    tried.carried_on(plan, kind, answer, compared);
    let told = answer.map_or_else(|number| format!("r {number}"), |()| "d".to_string());
    let [tie_break, start, after] = [&lists.tie_break, &start, &after].map(|list| show_list(list));
    Ok(format!("c {kind} {k} {length} |{tie_break} |{start} | {told} |{after}"))
}

/// The line that must stand in place of this one; a plan is remembered for the lines behind it.
fn expected(tried: &mut Tried, plan: &mut Option<Plan>, line: &str) -> Result<String, String> {
    let (letter, rest) = line.split_at_checked(1).ok_or("an empty line")?;
    let parts: Vec<&str> = rest.split('|').collect();
    if letter == "p" {
        let drawn = Drawn::read(rest).ok_or("not a plan")?;
        *plan = Some(drawn.plan());
        return Ok(drawn.to_string());
    }
    let plan = plan.as_ref().ok_or("a call before the first plan")?;
    match letter {
        "j" => expected_judge(tried, plan, &parts),
        "c" => expected_carry_on(tried, plan, &parts),
        _ => Err("neither a plan nor a call".to_string()),
    }
}

pub fn compare() -> u64 {
    let mut tried = Tried::default();
    let mut plan = None;
    for (i, line) in printed::read(PROGRAM).lines().enumerate() {
        let own = expected(&mut tried, &mut plan, line);
        if own.as_deref() != Ok(line) {
            eprintln!("DIFFERENCE in group q, line {}", i + 1);
            match own {
                Ok(own) => eprintln!("expected: {own}\nprinted:  {line}"),
                Err(wrong) => eprintln!("{wrong}: {line}"),
            }
            exit(1)
        }
    }
    if let Some(missing) = tried.missing() {
        eprintln!("TOO LITTLE TRIED in group q: {missing}");
        exit(1)
    }
    tried.print();
    tried.calls()
}
