//! Derives the oracle from the Rust original.

use std::path::PathBuf;
use std::process::Command;

fn main() {
    let script = PathBuf::from(std::env::var("CARGO_MANIFEST_DIR").unwrap()).join("oracle.py");
    let out = PathBuf::from(std::env::var("OUT_DIR").unwrap()).join("oracle.rs");
    println!("cargo:rerun-if-env-changed=SUDOKU_RS");
    println!("cargo:rerun-if-changed={}", script.display());
    if let Ok(source) = std::env::var("SUDOKU_RS") {
        println!("cargo:rerun-if-changed={source}");
    }
    let done = Command::new("python3").arg("-B").arg(&script).arg(&out).status();
    if !done.is_ok_and(|status| status.success()) {
        panic!("oracle.py did not derive the oracle; its message stands above");
    }
}
