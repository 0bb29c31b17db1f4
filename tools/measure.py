#!/usr/bin/env python3
"""Instructions a call, the Rust original and the engine, as the tables of docs/SPEED.md.

    SUDOKU_RS=FILE python3 tools/measure.py [CALL ..]
    SUDOKU_RS=FILE python3 tools/measure.py --boards FILE [--boards FILE ..] [--yardstick PROGRAM]

Builds the archive and host/src/bin/measure.rs, and counts with valgrind's callgrind: what a call costs is the difference of two runs, divided
by the difference of their calls; for a step less what making the board costs. The counts do not depend on the machine's load.

With --boards the wide passes and settling are counted on the boards of each file (measure.rs says how a line looks), beside a yardstick where
one is named: another program of the same calls, started as `PROGRAM CALL ROUNDS`, the boards on its standard input and CALL a step number, or
`check` or `settle6`.
"""
import argparse
import os
import re
import subprocess
import sys

STEPS = {
    "0": "update_candidates",
    "1": "naked pairs",
    "2": "box-line",
    "3": "X-wing",
    "4": "naked singles",
    "5": "hidden singles",
    "6": "apply_advanced_techniques",
    "13": "chain pass",
    "15": "X-chain pass",
    "7": "Lone",
    "8": "Place",
    "9": "Pair",
    "10": "Pointing",
    "14": "Claiming",
    "11": "Cross",
    "12": "settling",
}
OTHERS = {
    "read": "parse_string",
    "open": "Board::new",
    "count": "clue_count",
    "puzzle": "original_puzzle",
    "masks": "get_candidates",
    "mask": "cell_mask",
    "verify": "verify_solution",
    "repeat": "verify_solution, the second cell repeats the first",
    "sheet": "parse_sheet, a sheet of 338 bytes",
    "canonical": "write_sheet",
    "record": "record written and read",
    "card": "card",
    "settle": "settling with its step list, from the fresh board",
    "steps": "check_steps, that list",
    "difficulty": "difficulty",
}
# what the original has not
ENGINE_ALONE = {"7", "8", "9", "10", "14", "11", "12", "15", "mask", "sheet", "canonical", "record", "card", "settle", "steps", "difficulty"}
# the wide passes and settling, and what the yardstick calls the last
WIDE = ["7", "8", "9", "10", "14", "11", "12"]
YARDSTICK = {"12": "settle6"}
BOARDS = 64
FEW, MANY = 1, 5


def run(words, **more):
    more.setdefault("stdin", subprocess.DEVNULL)
    return subprocess.run(words, check=True, **more)


def collected(words, **more):
    done = run(["valgrind", "--tool=callgrind", "--callgrind-out-file=/dev/null", *words], capture_output=True, text=True, **more)
    return int(re.search(r"Collected : (\d+)", done.stderr).group(1))


def cost(program, side, call):
    spread = collected([program, side, call, str(MANY)]) - collected([program, side, call, str(FEW)])
    return spread // ((MANY - FEW) * BOARDS)


def on_boards(count, boards):
    with open(boards) as lines:
        number = sum(1 for _ in lines)
    return (count(MANY) - count(FEW)) // ((MANY - FEW) * number)


def engine_on(program, call, boards):
    return on_boards(lambda rounds: collected([program, "engine", call, str(rounds), boards]), boards)


def yardstick_on(program, call, boards):
    def count(rounds):
        with open(boards) as lines:
            return collected([program, call, str(rounds)], stdin=lines)

    return on_boards(count, boards)


def beside_yardstick(program, yardstick, files):
    print("| call |" + "".join(f" the engine, {os.path.basename(f)} | the yardstick |" for f in files) + "\n|---|" + "---|---|" * len(files))
    base = {boards: engine_on(program, "255", boards) for boards in files}
    for call in WIDE:
        counts = []
        for boards in files:
            counts.append(f"{engine_on(program, call, boards) - base[boards]:,}")
            counts.append(f"{yardstick_on(yardstick, YARDSTICK.get(call, call), boards):,}" if yardstick else "")
        print(f"| {STEPS[call]} | " + " | ".join(counts) + " |", flush=True)


def main():
    options = argparse.ArgumentParser()
    options.add_argument("call", nargs="*")
    options.add_argument("--boards", action="append", default=[])
    options.add_argument("--yardstick")
    words = options.parse_args()
    files = [os.path.abspath(f) for f in words.boards]
    yardstick = words.yardstick and os.path.abspath(words.yardstick)
    root = os.path.dirname(os.path.dirname(os.path.abspath(__file__)))
    os.chdir(root)
    os.environ.setdefault("CARGO_TARGET_DIR", os.path.join(root, "target/cargo"))
    os.environ.setdefault("CARGO_HOME", os.path.join(root, "target/cargo-home"))
    run(["tools/build.sh", "sudoku"], stdout=sys.stderr)
    run(["cargo", "build", "--release", "--offline", "--locked", "--manifest-path", "host/Cargo.toml", "--bin", "measure"], stdout=sys.stderr)
    program = os.path.join(os.environ["CARGO_TARGET_DIR"], "release/measure")
    if files:
        beside_yardstick(program, yardstick, files)
        return
    wanted = words.call or list(STEPS) + list(OTHERS)
    base = {}
    print("| call | the Rust | the engine |\n|---|---|---|")
    for call in wanted:
        counts = []
        for side in ("original", "engine"):
            if side == "original" and call in ENGINE_ALONE:
                counts.append("")
                continue
            less = 0
            if call in STEPS:
                less = base.setdefault(side, None)
                if less is None:
                    less = base[side] = cost(program, side, "255")
            counts.append(f"{cost(program, side, call) - less:,}")
        print(f"| {STEPS.get(call) or OTHERS[call]} | {counts[0]} | {counts[1]} |", flush=True)


main()
