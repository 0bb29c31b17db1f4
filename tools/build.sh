#!/usr/bin/env bash
# Proves and builds what the other scripts and the pages start: the programs tables, scorecard, explain and round, as target/bin/NAME, and the archive of the
# engine's calls, target/staticlib/libsudoku.a. What rt has proved before, and keeps in a crate's out/, it does not prove again.
# Usage: tools/build.sh [NAME..]    NAME is one of the programs, or sudoku for the archive; none named: all of them.
set -euo pipefail
cd "$(dirname "$0")/.."
[ $# -gt 0 ] || set -- tables scorecard explain round sudoku

for name; do
    case $name in
        tables | scorecard | explain | round)
            # rt run also starts what it has built, here on an empty input
            (cd "crates/$name" && rt run </dev/null >/dev/null)
            install -D "crates/$name/out/$name" "target/bin/$name"
            ;;
        sudoku)
            (cd crates/sudoku && rt lib </dev/null)
            install -D -m 644 crates/sudoku/out/libsudoku.a target/staticlib/libsudoku.a
            ;;
        *)
            echo "tools/build.sh builds tables, scorecard, explain, round and sudoku, and no $name" >&2
            exit 2
            ;;
    esac
done
