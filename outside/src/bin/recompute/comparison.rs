//! One call made three ways: by the library, by the definitions and, on a two-way
//! plan, by the implementation on bit sets. The first difference ends the program.

use std::collections::BTreeMap;
use std::fmt::Display;
use std::process::exit;

use outside::calls::{CarryOnCall, JudgeCall};
use outside::definition::{self, Mark, FAILED};
use outside::{bitset, entry};

/// Counts the calls of one group, and the answers by their kind.
pub struct Comparison {
    group: &'static str,
    calls: u64,
    answers: BTreeMap<u32, u64>,
}

/// An answer in words.
fn show(answer: u32) -> String {
    match answer {
        0 => "0".to_string(),
        1..FAILED => format!("refusal {answer}"),
        _ => {
            let code = answer - FAILED;
            format!("{answer} (triple {}, {}, {})", code >> 16, code >> 8 & 255, code & 255)
        }
    }
}

/// A finished carry-on has written the list; a refusal must leave it.
fn show_output((answer, output): &(u32, Vec<u8>)) -> String {
    format!("{}, output after: {output:?}", show(*answer))
}

impl Comparison {
    pub fn new(group: &'static str) -> Comparison {
        Comparison { group, calls: 0, answers: BTreeMap::new() }
    }

    /// Ends the program with the inputs and what was found.
    pub fn differ(&self, call: &dyn Display, found: &[String]) -> ! {
        eprintln!("DIFFERENCE in group {}, call {}", self.group, self.calls);
        eprintln!("{call}");
        for line in found {
            eprintln!("  {line}");
        }
        exit(1)
    }

    pub fn count(&mut self, answer: u32) {
        self.calls += 1;
        *self.answers.entry(answer.min(FAILED)).or_default() += 1;
    }

    /// The answer on which all three agree.
    pub fn judge(&mut self, call: &JudgeCall) -> u32 {
        let JudgeCall { kind, mark, plan, barred, walk } = call;
        let defined = definition::judge(*kind, *mark, plan, *barred, walk);
        self.count(defined);
        let answer = entry::guarded_judge(*kind, *mark, plan, *barred, walk)
            .unwrap_or_else(|altered| self.differ(call, &[altered]));
        let on_bits = (*mark == Mark::TwoWay).then(|| bitset::judge(*kind, plan, *barred, walk));
        self.agree(call, &defined, &answer, on_bits, |answer| show(*answer));
        defined
    }

    /// The answer and the output on which all three agree.
    pub fn carry_on(&mut self, call: &CarryOnCall) -> (u32, Vec<u8>) {
        let CarryOnCall { kind, mark, plan, barred, tie_break, output, k } = call;
        let defined = definition::carry_on(*kind, *mark, plan, *barred, tie_break, output, *k);
        self.count(defined.0);
        let answer = entry::guarded_carry_on(*kind, *mark, plan, *barred, tie_break, output, *k)
            .unwrap_or_else(|altered| self.differ(call, &[altered]));
        let on_bits = (*mark == Mark::TwoWay).then(|| {
            let mut written = output.clone();
            (bitset::carry_on(*kind, plan, *barred, tie_break, &mut written, *k), written)
        });
        self.agree(call, &defined, &answer, on_bits, show_output);
        defined
    }

    /// Ends the program unless the answers are equal. The bit sets have none for a one-way plan.
    fn agree<Answer: PartialEq>(
        &self,
        call: &dyn Display,
        defined: &Answer,
        answer: &Answer,
        on_bits: Option<Answer>,
        show: fn(&Answer) -> String,
    ) {
        if answer == defined && on_bits.as_ref().is_none_or(|on_bits| on_bits == defined) {
            return;
        }
        let mut found = vec![
            format!("the definitions give {}", show(defined)),
            format!("the library gives    {}", show(answer)),
        ];
        found.extend(on_bits.map(|on_bits| format!("the bit sets give    {}", show(&on_bits))));
        self.differ(call, &found);
    }

    /// Judges and compares with an answer that is known beforehand.
    pub fn expect_judge(&mut self, call: &JudgeCall, expected: u32) {
        let answer = self.judge(call);
        if answer != expected {
            let found = [
                format!("expected         {}", show(expected)),
                format!("all calls answer {}", show(answer)),
            ];
            self.differ(call, &found);
        }
    }

    /// Carries on and compares with an answer and an output known beforehand.
    pub fn expect_carry_on(&mut self, call: &CarryOnCall, expected: (u32, Vec<u8>)) {
        let answer = self.carry_on(call);
        if answer != expected {
            let found = [
                format!("expected         {}", show_output(&expected)),
                format!("all calls answer {}", show_output(&answer)),
            ];
            self.differ(call, &found);
        }
    }

    /// Prints how often each answer came, and ends the program if one came less than `enough` times.
    pub fn coverage(&self, name: &str, answers: &[u32], enough: u64) {
        let line: Vec<String> = answers
            .iter()
            .map(|&answer| {
                let times = self.times(answer);
                if times < enough {
                    self.differ(&name, &[format!("answer {answer} came only {times} times")]);
                }
                match answer {
                    0 => format!("0 {times} times"),
                    FAILED => format!("a triple {times} times"),
                    _ => format!("refusal {answer} {times} times"),
                }
            })
            .collect();
        println!("   {name} answered {}", line.join(", "));
    }

    /// How often an answer came; all triples count as one.
    fn times(&self, answer: u32) -> u64 {
        self.answers.get(&answer).copied().unwrap_or(0)
    }

    /// Prints the group's line and gives its number of calls.
    pub fn finish(&self) -> u64 {
        println!("{}: {} calls compared", self.group, self.calls);
        self.calls
    }
}
