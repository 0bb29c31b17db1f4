#!/usr/bin/env bash
# Tries the program report, on the archive that `tools/build.sh sudoku` has made: its pages and lines against what tools/report.py makes of the same rounds.
# Where HTML Tidy is at hand, it must have nothing to say of a page. What cannot be tried is said in a line. Its own tests
# are run with those of the Rust package.
set -euo pipefail
cd "$(dirname "$0")/.."

if ! command -v cargo >/dev/null || ! command -v python3 >/dev/null; then
    echo "report: skipped, it needs cargo and python3"
    exit
fi

export CARGO_TARGET_DIR=${CARGO_TARGET_DIR:-$PWD/target/cargo} CARGO_HOME=${CARGO_HOME:-$PWD/target/cargo-home}
cargo build --release --offline --locked --quiet --manifest-path rust/Cargo.toml --bin report
report=$CARGO_TARGET_DIR/release/report
round=target/bin/round

if [ -x "$round" ]; then
    python3 -B tools/report.py "$report" "$round"
else
    python3 -B tools/report.py "$report"
fi

if command -v tidy >/dev/null; then
    python3 -B tools/report.py --sorts | "$report" | tidy -quiet -errors
    echo "report: Tidy has nothing to say"
else
    echo "report, Tidy: skipped, it needs tidy"
fi
