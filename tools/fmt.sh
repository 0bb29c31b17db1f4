#!/usr/bin/env bash
# rt fmt in the folder of every crate, and the names of the files that it changed. With --check it works on a copy, and fails where there are any.
set -euo pipefail
cd "$(dirname "$0")/.."

room=
if [ "${1:-}" = --check ]; then
    room=$(mktemp -d)
    trap 'rm -rf "$room"' EXIT
fi
formatted=0
for crate in crates/*/; do
    folder=$crate
    if [ -n "$room" ]; then
        folder=$room/$crate
        mkdir -p "$folder"
        for part in src specs proofs; do
            [ ! -d "$crate$part" ] || cp -R "$crate$part" "$folder"
        done
    fi
    said=$(cd "$folder" && rt fmt | sed -n "s|^rt: formatted |$crate|p")
    if [ -n "$said" ]; then
        printf '%s\n' "$said"
        formatted=1
    fi
done
[ -z "$room" ] || [ "$formatted" = 0 ]
