#!/usr/bin/env python3
"""What the example station (examples/station) must print for a grid and digits that are entered in it. Made from the words of documents 01 (modules
2, 8, 9, 13 and the table of stops) and 02 (F-2, F-4 to F-6), with tools/explain.py; it knows nothing of the engine.

    python3 tools/station.py r6c1=6 r9c1=4 <examples/station/grid >examples/station/expected

    python3 tools/station.py --try PROGRAM

runs the station, the file PROGRAM, on grids of different kinds, on entries that contradict them and on what is refused, and compares what it prints.
"""

import subprocess
import sys

import explain


def fresh(givens):
    """The sets of a fresh board; clues and entries together are its givens."""
    return [{givens[c]} if givens[c] else {d for d in explain.DIGITS if all(givens[peer] != d for peer in explain.PEERS[c])} for c in range(81)]


def settled(givens, sets):
    """Settles the sets: the sweeps, "that last one counted", and the effective steps, each with what it removed."""
    sweeps, steps = 0, []
    while True:
        sweeps += 1
        found = list(explain.sweep(givens, sets))
        if not found:
            return sweeps, steps
        steps += found


def removed(steps):
    return sum(len(digits) for _, lost in steps for digits in lost.values())


def sheet_clues(data):
    """The clues of a sheet, or the line of its refusal."""
    if len(data) > 4096:
        return f"refused 10 {len(data)}"
    for offset, byte in enumerate(data):
        if chr(byte) not in "0123456789. |-+\r\n":
            return f"refused 2 {offset}"
    cells = [0 if byte == ord(".") else int(chr(byte)) for byte in data if chr(byte) in "0123456789."]
    return cells if len(cells) == 81 else f"refused 11 {len(cells)}"


def station(data, entries):
    clues = sheet_clues(data[:4097])  # the station reads no further
    if isinstance(clues, str):
        return [clues]
    lines, givens = [f"clues {81 - clues.count(0)}"], list(clues)
    for entry in entries:
        cell, digit = 9 * int(entry[1]) + int(entry[3]) - 10, int(entry[5])
        for number, detail, stops in ((4, digit, not digit), (12, cell, clues[cell]), (13, cell, givens[cell])):
            if stops:
                return lines + [f"refused {number} {detail}"]
        givens[cell] = digit
        lines.append(f"entered {entry}")
    sets = fresh(givens)
    sweeps, steps = settled(givens, sets)
    lines += [f"{number} {title}" for number, (title, _) in enumerate(steps, 1)]
    lines += [f"sweeps {sweeps}", f"removed {removed(steps)}", f"verdict {explain.verdict(sets)}"]
    return lines + ["line " + "".join("!" if not digits else str(*digits) if len(digits) == 1 else "." for digits in sets)]


def printed(data, entries):
    return "".join(text + "\n" for text in station(data, entries)).encode()


CASES = [
    (explain.P10, []),
    (explain.P10, ["r1c4=1", "r9c9=9"]),
    (explain.P10, ["r1c1=4", "r1c2=4"]),  # against a clue, and against each other
    (explain.P10, ["r2c1=4"]),
    (explain.P10, ["r1c1=1", "r1c1=2"]),
    (explain.P10, ["r1c1=0"]),
    (explain.EASY, ["r1c3=4", "r9c1=3"]),
    (explain.EASY, ["r1c3=1", "r9c1=3"]),
    (explain.NEEDS_CLAIMING, ["r1c1=1", "r9c9=8"]),
    (b"." * 81, []),
    (b"." + explain.A[1:], ["r1c1=1"]),
    (b"." + explain.A[1:], ["r1c1=2"]),
] + [(data, ["r1c1=1", "r1c2=2"]) for data, _ in explain.REFUSED]


def run(program):
    wrong = 0
    for data, entries in CASES:
        want = printed(data, entries)
        got = subprocess.run([program] + entries, input=data, stdout=subprocess.PIPE).stdout
        if got != want:
            wrong += 1
            print(f"{data[:90]!r} ({len(data)} bytes) {entries}: got\n{got.decode()}\nwant\n{want.decode()}")
    print(f"station: {len(CASES)} cases, {wrong} wrong")
    return 1 if wrong else 0


if __name__ == "__main__":
    if sys.argv[1:2] == ["--try"]:
        sys.exit(run(sys.argv[2]))
    sys.stdout.buffer.write(printed(sys.stdin.buffer.read(), sys.argv[1:]))
