//! Links libsudoku.a, the archive of the engine's exports: from the folder that the variable SUDOKU_LIB_DIR names, else from the repository's
//! target/staticlib.

use std::env;
use std::path::{Path, PathBuf};

fn main() {
    println!("cargo:rerun-if-env-changed=SUDOKU_LIB_DIR");
    let folder = env::var_os("SUDOKU_LIB_DIR").map_or_else(|| Path::new(env!("CARGO_MANIFEST_DIR")).join("../target/staticlib"), PathBuf::from);
    let archive = folder.join("libsudoku.a");
    println!("cargo:rerun-if-changed={}", archive.display());
    if !archive.is_file() {
        panic!("{} is missing: run `tools/build.sh sudoku` at the repository's root, or name its folder in SUDOKU_LIB_DIR", archive.display());
    }
    println!("cargo:rustc-link-search=native={}", folder.display());
    println!("cargo:rustc-link-lib=static=sudoku");
}
