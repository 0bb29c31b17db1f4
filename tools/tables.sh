#!/usr/bin/env bash
# Writes crates/tables/stdout and crates/grid/src/tables.rt anew: what the program `tables` prints, and the same in the layout of rt fmt.
# With --check it writes nothing, and fails where the second is not the first so laid out.
set -euo pipefail
cd "$(dirname "$0")/.."

room=$(mktemp -d)
trap 'rm -rf "$room"' EXIT
if [ "${1:-}" = --check ]; then
    cp crates/tables/stdout "$room/printed"
else
    tools/build.sh tables
    target/bin/tables >"$room/printed"
fi
mkdir "$room/src"
cp "$room/printed" "$room/src/tables.rt"
(cd "$room" && rt fmt >/dev/null)
if [ "${1:-}" = --check ]; then
    cmp "$room/src/tables.rt" crates/grid/src/tables.rt
else
    cp "$room/printed" crates/tables/stdout
    cp "$room/src/tables.rt" crates/grid/src/tables.rt
fi
