#!/usr/bin/env bash
# Tries the engine from other languages, on the archive that `tools/build.sh sudoku` has made: the example station as C, as C++ and as Rust against
# examples/station/expected, and the tests of the Rust package and of the Python module. What cannot be tried is said in a line.
set -euo pipefail
cd "$(dirname "$0")/.."

archive=target/staticlib/libsudoku.a
entries=(r6c1=6 r9c1=4)

# compiled FILE COMPILER..
compiled() {
    "${@:2}" -Wall -Wextra -Werror -Iinclude -o "$1" examples/station/station.c -x none "$archive"
}

# as_expected NAME COMMAND..
as_expected() {
    "${@:2}" "${entries[@]}" <examples/station/grid | cmp - examples/station/expected
    echo "station, $1: as expected"
}

if command -v cc >/dev/null; then
    compiled target/station cc -std=c11
    as_expected C target/station
    if command -v valgrind >/dev/null; then
        as_expected "C under valgrind" valgrind -q --error-exitcode=1 --leak-check=full target/station
    else
        echo "station, C under valgrind: skipped, it needs valgrind"
    fi
else
    echo "station, C: skipped, it needs cc"
fi

if command -v g++ >/dev/null; then
    compiled target/station++ g++ -x c++
    as_expected C++ target/station++
else
    echo "station, C++: skipped, it needs g++"
fi

if command -v cargo >/dev/null; then
    export CARGO_TARGET_DIR=${CARGO_TARGET_DIR:-$PWD/target/cargo} CARGO_HOME=${CARGO_HOME:-$PWD/target/cargo-home}
    cargo test --offline --locked --manifest-path rust/Cargo.toml
    as_expected Rust "$CARGO_TARGET_DIR/debug/examples/station"
    if command -v python3 >/dev/null; then
        python3 -B tools/station.py --try "$CARGO_TARGET_DIR/debug/examples/station"
    fi
else
    echo "station, Rust, and the Rust package: skipped, they need cargo"
fi

if command -v cc >/dev/null && command -v python3 >/dev/null; then
    python3 -B tools/station.py "${entries[@]}" <examples/station/grid | cmp - examples/station/expected
    python3 -B tools/station.py --try target/station
    cc -shared -o target/libsudoku.so -Wl,--whole-archive "$archive" -Wl,--no-whole-archive
    SUDOKU_LIBRARY=$PWD/target/libsudoku.so python3 -B python/test_sudoku.py
else
    echo "Python module: skipped, it needs cc and python3"
fi
