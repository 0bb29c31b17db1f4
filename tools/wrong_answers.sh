#!/usr/bin/env bash
# Tries wrong answers on the contracts: the edits of tools/wrong_answers/CRATE together with those that the gate keeps in
# crates/CRATE/must-fail, by `rt must-fail` on a copy of the repository.
# Usage: tools/wrong_answers.sh [CRATE..]    (none named: every crate that has a folder here)
# For each edit it prints where the refusal stands; what rt said of a crate's edits is kept in target/wrong_answers/CRATE.log.
# Status 0 only if every edit is refused, and none only because a proof file names what the edit took away.
set -euo pipefail
shopt -s nullglob
cd "$(dirname "$0")/.."
if [ $# -eq 0 ]; then
    for folder in tools/wrong_answers/*/; do set -- "$@" "$(basename "$folder")"; done
fi

room=$(mktemp -d)
trap 'rm -rf "$room"' EXIT
cp crates.txt "$room/"
[ ! -f HANDLES ] || cp HANDLES "$room/"
for crate in crates/*/; do
    mkdir -p "$room/$crate"
    for part in src specs proofs; do
        [ ! -d "$crate$part" ] || cp -R "$crate$part" "$room/$crate"
    done
done
mkdir -p target/wrong_answers

# place CRATE MESSAGE: the function or law and the goal of it that failed
place() {
    local said='([^ :]+):([0-9]+):[0-9]+: (error: |it is not proved that [^(]*\()`([^`]*)`'
    if [[ ! $2 =~ $said ]]; then
        printf '%s' "$2"
        return
    fi
    local file=${BASH_REMATCH[1]#./} line=${BASH_REMATCH[2]} goal=${BASH_REMATCH[4]} at
    case $file in
        proofs/*) at=$(printf '%s' "${file#proofs/}" | sed -E 's,/(Answers|Invariants|Proof)\.antt$,,') ;;
        *)
            at=$(sed -nE "1,${line}s/^ *(pub )?(extern \"C\" )?fn ([a-z0-9_]+).*/\3/p" "crates/$1/$file" | tail -n 1)
            file=${file#src/}
            file=${file%.rt}
            [ "$file" = lib ] || [ "$file" = main ] || at=$file/$at
            ;;
    esac
    printf '%s %s' "$at" "$goal"
}

tried=0 refused=0 named=0 limited=0
for crate; do
    mkdir "$room/crates/$crate/must-fail"
    edits=("tools/wrong_answers/$crate"/*.edit "crates/$crate/must-fail"/*.edit)
    cp "${edits[@]}" "$room/crates/$crate/must-fail/"
    log=target/wrong_answers/$crate.log
    (cd "$room" && rt must-fail "$crate") >"$log" 2>&1 </dev/null || true
    for edit in "${edits[@]}"; do
        name=$(basename "$edit")
        tried=$((tried + 1))
        said=$(sed -n "s|^rt: must-fail $crate/$name: ||p" "$log")
        case $said in
            'refused, as it must be'*) refused=$((refused + 1)) ;;
        esac
        case $said in
            '') echo "$crate/$name: NOT TRIED" ;;
            *'(only because a proof file names what the edit took away'*)
                named=$((named + 1))
                echo "$crate/$name: REFUSED ONLY BY A NAME: find another edit: ${said#*): }"
                ;;
            *'(only by a limit of the prover'*)
                limited=$((limited + 1))
                echo "$crate/$name: refused only by a limit of the prover: ${said#*): }"
                ;;
            'refused, as it must be: '*) echo "$crate/$name: refused at $(place "$crate" "${said#*: }")" ;;
            *) echo "$crate/$name: $said" ;;
        esac
    done
    rm -rf "$room/crates/$crate/must-fail"
done
echo "$tried tried, $refused refused, $limited of them only by a limit of the prover, $named only because a proof file names what the edit took away"
[ "$tried" -eq "$refused" ] && [ "$named" -eq 0 ]
