//! A program of the library, run on its standard input.

use std::io::{ErrorKind, Result, Write};
use std::path::PathBuf;
use std::process::{exit, Command, Output, Stdio};
use std::thread::sleep;
use std::time::Duration;

const CRATES: &str = concat!(env!("CARGO_MANIFEST_DIR"), "/../crates");

/// Long enough that the program sees the first part alone.
const PAUSE: Duration = Duration::from_millis(2);

/// Where `rt ci` and `rt run` leave a program.
fn path(name: &str) -> PathBuf {
    [CRATES, name, "out", name].iter().collect()
}

/// Ends this program where the other one is not built.
pub fn require(name: &str) {
    if !path(name).is_file() {
        eprintln!("crates/{name}/out/{name} is missing: 'rt run' in crates/{name} builds it");
        exit(1)
    }
}

/// Runs the program; each part but the first comes after a pause.
fn run(name: &str, parts: &[&[u8]]) -> Result<Output> {
    let mut program = Command::new(path(name))
        .stdin(Stdio::piped())
        .stdout(Stdio::piped())
        .stderr(Stdio::piped())
        .spawn()?;
    let mut input = program.stdin.take().expect("its input is a pipe");
    for (i, part) in parts.iter().enumerate() {
        if i > 0 {
            sleep(PAUSE);
        }
        match input.write_all(part) {
            // It may end before it has read all.
            Err(error) if error.kind() == ErrorKind::BrokenPipe => break,
            written => written?,
        }
    }
    drop(input);
    program.wait_with_output()
}

/// What the program writes for an input that comes in these parts.
pub fn output(name: &str, parts: &[&[u8]]) -> Output {
    run(name, parts).unwrap_or_else(|error| {
        eprintln!("crates/{name}/out/{name}: {error}");
        exit(1)
    })
}
