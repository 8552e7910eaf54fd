//! Draws the pictures in docs/.
//!
//!   draw           writes them
//!   draw --check   fails if a picture differs from what draw would write

use std::env;
use std::fs;
use std::path::PathBuf;
use std::process::exit;

use outside::pictures::{example, speed};

/// A file of the repository, named from its root.
fn file(name: &str) -> PathBuf {
    PathBuf::from(concat!(env!("CARGO_MANIFEST_DIR"), "/..")).join(name)
}

fn read(name: &str) -> Result<Vec<u8>, String> {
    fs::read(file(name)).map_err(|error| format!("{name}: {error}"))
}

/// Each picture's file and what it holds.
fn pictures() -> Result<[(&'static str, String); 2], String> {
    let sheet = "examples/plan.sheet";
    let benchmarks = "docs/BENCHMARKS.md";
    let explained = |name: &'static str| move |reason: String| format!("{name}: {reason}");
    let text = String::from_utf8_lossy(&read(benchmarks)?).into_owned();
    Ok([
        ("docs/example.svg", example::draw(&read(sheet)?).map_err(explained(sheet))?),
        ("docs/speed.svg", speed::draw(&text).map_err(explained(benchmarks))?),
    ])
}

fn write_all() -> Result<(), String> {
    for (name, picture) in pictures()? {
        fs::write(file(name), picture).map_err(|error| format!("{name}: {error}"))?;
    }
    Ok(())
}

fn check_all() -> Result<(), String> {
    for (name, picture) in pictures()? {
        if read(name)? != picture.as_bytes() {
            return Err(format!("{name} is out of date: outside/target/release/draw writes it"));
        }
    }
    Ok(())
}

fn main() {
    let arguments: Vec<String> = env::args().skip(1).collect();
    let done = match arguments.as_slice() {
        [] => write_all(),
        [option] if option == "--check" => check_all(),
        _ => Err("draw takes no argument but --check".to_string()),
    };
    if let Err(reason) = done {
        eprintln!("{reason}");
        exit(1)
    }
}
