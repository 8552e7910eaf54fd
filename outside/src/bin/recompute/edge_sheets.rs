//! Group s: what the program `dimacs_to_sheet` writes for DIMACS edge files, sound and damaged, to standard output and to
//! standard error, byte by byte. Each sheet is then read, and its plan compared with that of the file.

use outside::definition::edge_files::{read, sheet_of, LONGEST_INPUT};
use outside::definition::sheet;
use outside::edge_files::{self, File};
use outside::random::Random;
use outside::sheets::{each_byte_moved, each_start};

use crate::comparison::Comparison;
use crate::program;

const PROGRAM: &str = "dimacs_to_sheet";

/// What is written to standard error for a file that is too long.
const TOO_LONG: &[u8] = b"longer than 1 MiB\n";

/// Random files, each sound and damaged twice.
const ROUNDS: usize = 800;

/// Each answer must come this often, or the files try too little.
const ENOUGH: u64 = 50;

/// So many files must be too long.
const LONG: u64 = 8;

/// The files that were compared.
struct Drawn {
    comparison: Comparison,
    too_long: u64,
}

/// What goes to standard output and to standard error.
fn show(printed: &[u8], noted: &[u8]) -> String {
    format!("\"{}\", on standard error \"{}\"", printed.escape_ascii(), noted.escape_ascii())
}

/// The first bytes, and how many there are.
fn show_file(file: &[u8]) -> String {
    let shown = &file[..file.len().min(2000)];
    format!("the file, {} bytes: \"{}\"", file.len(), shown.escape_ascii())
}

impl Drawn {
    /// The parts of a file come one after the other.
    fn compare_parts(&mut self, parts: &[&[u8]]) {
        let file = parts.concat();
        let fits = file.len() <= LONGEST_INPUT;
        let (printed, noted) =
            if fits { (sheet_of(&file), vec![]) } else { (vec![], TOO_LONG.to_vec()) };
        if fits {
            self.comparison.count(read(&file).err().unwrap_or(0));
        } else {
            self.too_long += 1;
        }
        let output = program::output(PROGRAM, parts);
        if output.stdout != printed || output.stderr != noted || !output.status.success() {
            let found = [
                format!("expected          {}", show(&printed, &noted)),
                format!("the program gives {}", show(&output.stdout, &output.stderr)),
                format!("and ends with {}", output.status),
            ];
            self.comparison.differ(&show_file(&file), &found);
        }
        if fits {
            self.compare_plan(&file, &output.stdout);
        }
    }

    /// The sheet is one of the file's plan with an empty walk.
    fn compare_plan(&self, file: &[u8], printed: &[u8]) {
        let Ok(rows) = read(file) else { return };
        let expected = Ok((rows.len(), rows, vec![]));
        let found = sheet::read(printed);
        if found != expected {
            let found =
                [format!("the file gives {expected:?}"), format!("its sheet gives {found:?}")];
            self.comparison.differ(&show_file(file), &found);
        }
    }

    fn compare_all(&mut self, files: &[File]) {
        for file in files {
            self.compare_parts(&[file]);
        }
    }

    /// A sound file, the rows that it was made from, and the file damaged.
    fn compare_random(&mut self, random: &mut Random) {
        let (file, rows) = edge_files::random_file(random);
        if read(&file) != Ok(rows) {
            let found = ["the definitions give another plan than it was made from".to_string()];
            self.comparison.differ(&show_file(&file), &found);
        }
        let damaged = [(); 2].map(|_| edge_files::damaged(random, &file));
        self.compare_parts(&[&file]);
        self.compare_all(&damaged);
    }
}

pub fn compare() -> u64 {
    program::require(PROGRAM);
    let mut random = Random::new(15_576);
    let mut drawn = Drawn { comparison: Comparison::new("s, sheets drawn"), too_long: 0 };
    let file = edge_files::sound();
    drawn.compare_parts(&[&file]);
    drawn.compare_all(&edge_files::each_byte_changed(&file));
    drawn.compare_all(&each_byte_moved(&file));
    drawn.compare_all(&each_start(&file));
    drawn.compare_all(&edge_files::each_number_changed(&file));
    drawn.compare_all(&edge_files::each_number_misshapen(&file));
    drawn.compare_all(&edge_files::each_line_damaged(&file));
    drawn.compare_all(&edge_files::several_faults());
    drawn.compare_all(&edge_files::long());
    for _ in 0..ROUNDS {
        drawn.compare_random(&mut random);
    }
    compare_slow(&mut drawn);
    let calls = drawn.comparison.finish();
    drawn.comparison.coverage("dimacs-to-sheet", &[0, 2, 4, 27], ENOUGH);
    if drawn.too_long < LONG {
        let found = format!("only {} files were too long", drawn.too_long);
        drawn.comparison.differ(&"dimacs-to-sheet", &[found]);
    }
    println!("   and {} longer files were refused", drawn.too_long);
    calls + drawn.too_long
}

/// Files that come in parts: the sound one cut at each byte, a long one in several.
fn compare_slow(drawn: &mut Drawn) {
    let file = edge_files::sound();
    for at in 1..file.len() {
        drawn.compare_parts(&[&file[..at], &file[at..]]);
    }
    for file in edge_files::long().iter().filter(|file| file.len() >= LONGEST_INPUT) {
        let parts: Vec<&[u8]> = file.chunks(300_000).collect();
        drawn.compare_parts(&parts);
    }
}
