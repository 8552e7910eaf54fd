//! What group r has tried: which answers came from which call, with which faults beside the one that was answered, with
//! which output lists, which faults of a file alone, and which plans were written and read again.

use std::collections::{BTreeMap, BTreeSet};

use outside::definition::edge_files::{export_faults, import_faults, parts, text, MOST};
use outside::definition::Mark;
use outside::graphs;
use outside::sheets::{each_byte_changed_to, each_start};

mod repairs;

#[derive(Clone, Copy, PartialEq, Eq, PartialOrd, Ord)]
enum Call {
    Import,
    Export,
}

/// The refusals in their order.
const IMPORT: [u32; 4] = [2, 27, 4, 10];
const EXPORT: [u32; 6] = [2, 3, 4, 25, 5, 10];

/// No word has a bit at or above 65, so 3 does not come beside 2.
const IMPOSSIBLE: (Call, u32, u32) = (Call::Export, 2, 3);

/// The file that was cut at each byte, and with each byte changed to each of these.
const DAMAGED: &[u8] = b"c e\np edge 10 4\ne 1 2\nc\ne 2 1\ne 10 3\ne 1 2\nc p\n";
const BYTES: [u8; 13] = *b"\n\r\t 019-cep\0\xff";

/// All plans of so many points at most are written and read again, and some of each size below ten.
const ALL: usize = 4;
const SMALL: usize = 10;

#[derive(Default)]
pub struct Tried {
    calls: u64,
    /// How often each answer came; 0 where nothing was refused.
    answers: BTreeMap<Call, BTreeMap<u32, u64>>,
    /// A refusal, and another one that the same call deserves later.
    beside: BTreeSet<(Call, u32, u32)>,
    /// By how much the output list was too short or too long, where nothing else was wrong.
    rooms: BTreeSet<(Call, isize)>,
    /// The faults of files that would have been accepted without it.
    faults: BTreeSet<String>,
    /// All files, and the rows of those that were accepted.
    files: BTreeSet<Vec<u8>>,
    imported: BTreeMap<Vec<u8>, Vec<u64>>,
    /// The plans that were written.
    exported: BTreeSet<Vec<u64>>,
}

fn difference(room: usize, needed: usize) -> isize {
    room as isize - needed as isize
}

impl Tried {
    fn enter(&mut self, call: Call, answer: Result<usize, u32>, faults: &[u32]) {
        self.calls += 1;
        let number = answer.err().unwrap_or(0);
        *self.answers.entry(call).or_default().entry(number).or_default() += 1;
        self.beside.extend(faults.iter().skip(1).map(|&other| (call, faults[0], other)));
    }

    pub fn note_import(
        &mut self,
        file: &[u8],
        room: usize,
        answer: Result<usize, u32>,
        after: &[u64],
    ) {
        self.enter(Call::Import, answer, &import_faults(file, room));
        self.files.insert(file.to_vec());
        match answer {
            Ok(n) => {
                self.rooms.insert((Call::Import, difference(room, n)));
                self.imported.insert(file.to_vec(), after[..n].to_vec());
            }
            Err(10) => {
                let needed = parts(file).and_then(|parts| parts.n.small());
                self.rooms.extend(needed.map(|n| (Call::Import, difference(room, n))));
            }
            Err(_) => self.faults.extend(repairs::faults(file)),
        }
    }

    pub fn note_export(
        &mut self,
        mark: Mark,
        rows: &[u64],
        room: usize,
        answer: Result<usize, u32>,
    ) {
        self.enter(Call::Export, answer, &export_faults(mark, rows, room));
        if matches!(answer, Ok(_) | Err(10)) {
            self.rooms.insert((Call::Export, difference(room, text(rows).len())));
        }
        if answer.is_ok() {
            self.exported.insert(rows.to_vec());
        }
    }

    pub fn calls(&self) -> u64 {
        self.calls
    }

    /// What was not tried, in words.
    pub fn missing(&self) -> Option<String> {
        let tests = [
            ("an answer of import", self.has_all_answers(Call::Import, &IMPORT)),
            ("an answer of export", self.has_all_answers(Call::Export, &EXPORT)),
            ("two faults at once, import", self.has_all_pairs(Call::Import, &IMPORT)),
            ("two faults at once, export", self.has_all_pairs(Call::Export, &EXPORT)),
            ("an output list of import", self.has_all_rooms(Call::Import)),
            ("an output list of export", self.has_all_rooms(Call::Export)),
            ("a damage of the sound file", self.has_all_damages()),
            ("a plan", self.has_all_plans()),
            ("a file read back", self.has_all_round_trips()),
        ];
        let missing = tests.into_iter().find(|(_, is_there)| !is_there);
        let fault = repairs::names().into_iter().find(|name| !self.faults.contains(name));
        missing.map(|(name, _)| name.to_string()).or(fault)
    }

    /// Each refusal, and that nothing was refused; none but these.
    fn has_all_answers(&self, call: Call, refusals: &[u32]) -> bool {
        let possible: BTreeSet<u32> = refusals.iter().copied().chain([0]).collect();
        self.answers.get(&call).is_some_and(|seen| seen.keys().eq(&possible))
    }

    /// Each refusal, with each other one that could have been answered later.
    fn has_all_pairs(&self, call: Call, order: &[u32]) -> bool {
        let come = |i: usize, j: usize| {
            let pair = (call, order[i], order[j]);
            pair == IMPOSSIBLE || self.beside.contains(&pair)
        };
        (0..order.len()).all(|j| (0..j).all(|i| come(i, j)))
    }

    /// Output lists that are just long enough, longer, too short by one entry, and much too short.
    fn has_all_rooms(&self, call: Call) -> bool {
        let has = |wanted: fn(isize) -> bool| {
            self.rooms.iter().any(|&(own, more)| own == call && wanted(more))
        };
        has(|more| more == 0)
            && has(|more| more > 0)
            && has(|more| more == -1)
            && has(|more| more < -2)
    }

    fn has_all_damages(&self) -> bool {
        let mut damaged = each_byte_changed_to(DAMAGED, &BYTES);
        damaged.extend(each_start(DAMAGED));
        self.imported.contains_key(DAMAGED) && damaged.iter().all(|file| self.files.contains(file))
    }

    /// All small plans, and of 64 points the one with every link and two others.
    fn has_all_plans(&self) -> bool {
        let has_plan = |plan: Vec<u8>| self.exported.contains(&rows(&plan));
        let of_size = |n: usize| self.exported.iter().filter(|rows| rows.len() == n).count();
        let all_linked: Vec<u64> = (0..MOST).map(|u| !(1 << u)).collect();
        (0..=ALL).flat_map(|n| graphs::all_plans(Mark::TwoWay, n)).all(has_plan)
            && (ALL..SMALL).all(|n| of_size(n) > 1)
            && of_size(MOST) > 2
            && self.exported.contains(&all_linked)
    }

    /// Each file that was written was imported, and gave the rows that it was made from.
    fn has_all_round_trips(&self) -> bool {
        self.exported.iter().all(|rows| self.imported.get(&text(rows)) == Some(rows))
    }

    /// Prints the group's line, and how often each answer came.
    pub fn print(&self) {
        println!("r, edge files: {} calls", self.calls);
        for (call, seen) in &self.answers {
            let name = if *call == Call::Import { "import" } else { "export" };
            let each = seen.iter().map(|(answer, count)| match answer {
                0 => format!("0 {count} times"),
                _ => format!("refusal {answer} {count} times"),
            });
            println!("   {name} answered {}", each.collect::<Vec<String>>().join(", "));
        }
        let (faults, plans) = (self.faults.len(), self.exported.len());
        println!("   {faults} faults of a file alone; {plans} plans written and read again");
    }
}

fn rows(plan: &[u8]) -> Vec<u64> {
    let row = |bytes: &[u8]| u64::from_le_bytes(bytes.try_into().expect("eight bytes a row"));
    plan.chunks_exact(8).map(row).collect()
}
