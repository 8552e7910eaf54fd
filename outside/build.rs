//! Links the programs, and only them, with the static library `firmware`, and `speed` with `wide_timing` as well. Each is
//! in its crate's out/, where `rt lib` leaves it, or both are in the folder VEZHANIP_LIB, seen from this package.

use std::env;
use std::path::{Path, PathBuf};

fn main() {
    let package = env::var("CARGO_MANIFEST_DIR").expect("cargo names the package's folder");
    let archive = |name: &str| -> PathBuf {
        let folder = env::var("VEZHANIP_LIB").unwrap_or_else(|_| format!("../crates/{name}/out"));
        Path::new(&package).join(folder).join(format!("lib{name}.a"))
    };
    let [firmware, wide_timing] = ["firmware", "wide_timing"].map(archive);
    println!("cargo:rerun-if-env-changed=VEZHANIP_LIB");
    println!("cargo:rerun-if-changed=build.rs");
    println!("cargo:rerun-if-changed={}", firmware.display());
    println!("cargo:rerun-if-changed={}", wide_timing.display());
    println!("cargo:rustc-link-arg-bins={}", firmware.display());
    println!("cargo:rustc-link-arg-bin=speed={}", wide_timing.display());
}
