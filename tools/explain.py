#!/usr/bin/env python3
"""What the program explain must print for a text. Made from the words of documents 01 (modules 2, 8, 9, 13 and the table of stops) and 02 (F-2, F-4,
F-5, F-14) and from the line format in README.md; it knows nothing of the program.

    python3 tools/explain.py <crates/explain/stdin >crates/explain/stdout

    python3 tools/explain.py PROGRAM

runs explain, the file PROGRAM, on grids of different kinds, on lines of rounds and on texts that are refused, which reach it through a pipe, and compares
what it prints.
"""

import itertools
import re
import subprocess
import sys

DIGITS = range(1, 10)
ROWS = [[9 * n + k for k in range(9)] for n in range(9)]
COLUMNS = [[9 * k + n for k in range(9)] for n in range(9)]
BOXES = [[27 * (n // 3) + 3 * (n % 3) + 9 * (k // 3) + k % 3 for k in range(9)] for n in range(9)]
UNITS = ROWS + COLUMNS + BOXES
NAMES = [f"{kind} {n}" for kind in ("row", "column", "box") for n in DIGITS]
PEERS = [sorted({other for unit in UNITS if cell in unit for other in unit} - {cell}) for cell in range(81)]


def name(cell):
    return f"r{cell // 9 + 1}c{cell % 9 + 1}"


def listed(digits):
    return ",".join(map(str, sorted(digits)))


def meet(unit, other):
    return any(cell in UNITS[other] for cell in UNITS[unit])


# Each instance of a pass in its order: its name, its condition on the sets, the cells that may lose, and what they lose.
def lone():
    for cell, d in itertools.product(range(81), DIGITS):
        yield f"Lone {name(cell)} {d}", lambda sets: sets[cell] <= {d}, PEERS[cell], {d}


def place():
    for unit, d in itertools.product(range(27), DIGITS):
        for cell in UNITS[unit]:
            others = [other for other in UNITS[unit] if other != cell]
            yield f"Place {name(cell)} {d} in {NAMES[unit]}", lambda sets: all(d not in sets[c] for c in others), [cell], set(DIGITS) - {d}


def pair():
    for unit in range(27):
        for p, q in itertools.combinations(UNITS[unit], 2):
            others = [cell for cell in UNITS[unit] if cell not in (p, q)]
            for both in itertools.combinations(DIGITS, 2):
                title = f"Pair {name(p)} {name(q)} {{{listed(both)}}} in {NAMES[unit]}"
                yield title, lambda sets: sets[p] | sets[q] <= set(both), others, set(both)


def locked(unit, d, other, title):
    """All cells of the unit that hold d are in the other one: the other cells of that one lose d."""
    inside, outside = UNITS[other], [cell for cell in UNITS[other] if cell not in UNITS[unit]]
    return title, lambda sets: all(cell in inside for cell in UNITS[unit] if d in sets[cell]), outside, {d}


def pointing():
    for box, d, line in itertools.product(range(18, 27), DIGITS, range(18)):
        if meet(box, line):
            yield locked(box, d, line, f"Pointing {d} in {NAMES[box]} along {NAMES[line]}")


def claiming():
    for line, d, box in itertools.product(range(18), DIGITS, range(18, 27)):
        if meet(line, box):
            yield locked(line, d, box, f"Claiming {d} in {NAMES[line]} within {NAMES[box]}")


def cross():
    for lines, across, of, at in [(ROWS, COLUMNS, "rows", "columns"), (COLUMNS, ROWS, "columns", "rows")]:
        for d in DIGITS:
            for i, j in itertools.combinations(range(9), 2):
                two = lines[i] + lines[j]
                for a, b in itertools.combinations(range(9), 2):
                    inside = across[a] + across[b]
                    title = f"Cross {d} in {of} {i + 1} {j + 1} at {at} {a + 1} {b + 1}"
                    yield title, lambda sets: all(c in inside for c in two if d in sets[c]), [c for c in inside if c not in two], {d}


def sweep(clues, sets):
    """The effective instances of the six passes in order: the name of each and what it removed. They change the sets as they come."""
    for instances in (lone, place, pair, pointing, claiming, cross):
        for title, condition, cells, digits in instances():
            lost = {cell: sets[cell] & digits for cell in cells if not clues[cell] and sets[cell] & digits}
            if lost and condition(sets):
                for cell in lost:
                    sets[cell] = sets[cell] - digits
                yield title, lost


def settle(clues, sets):
    while True:
        steps = list(sweep(clues, sets))
        if not steps:
            return
        yield from steps


def line(number, title, lost):
    return f"{number} {title}:" + "".join(f" -{name(cell)}<{listed(lost[cell])}>" for cell in sorted(lost))


def drawn(sets):
    """Nine rows of pencil marks, all cells as wide as the widest; `!` for a cell without any."""
    marks = ["".join(map(str, sorted(digits))) or "!" for digits in sets]
    width = max(map(len, marks))
    ruling = "+" + 3 * ("-" * (3 * width + 4) + "+")
    for row in range(9):
        if row % 3 == 0:
            yield ruling
        cells = [mark.ljust(width) for mark in marks[9 * row : 9 * row + 9]]
        yield "| " + " | ".join(" ".join(cells[at : at + 3]) for at in (0, 3, 6)) + " |"
    yield ruling


# F-14: "Points for each removed candidate are Lone 1, Place 2, Pointing 3, Claiming 3, Pair 4, Cross 6."
POINTS = {"Lone": 1, "Place": 2, "Pointing": 3, "Claiming": 3, "Pair": 4, "Cross": 6}


def difficulty(clues, steps):
    """Points divided by open cells, "as a whole quotient and the exact remainder"; "A full grid has no figure"."""
    cells = clues.count(0)
    if not cells:
        return "none"
    points = sum(POINTS[title.split()[0]] * sum(map(len, lost.values())) for title, lost in steps)
    return f"{points // cells}+{points % cells}/{cells}"


def verdict(sets):
    if not all(sets):
        return "dead"
    if any(len(digits) > 1 for digits in sets):
        return "open"
    return "finished" if all(len(set().union(*(sets[cell] for cell in unit))) == 9 for unit in UNITS) else "dead"


def grid_in(data):
    """The grid of the first line where that is a line of a round; all else is a sheet."""
    found = re.fullmatch(rb"([0-9.]{81})([ \t,;][1-9]{81})?\r?", data.split(b"\n")[0])
    return found[1] if found else data


def explain(data):
    data = grid_in(data)
    if len(data) > 4096:
        return [f"refused 10 {len(data)}"]
    for offset, byte in enumerate(data):
        if chr(byte) not in "0123456789. |-+\r\n":
            return [f"refused 2 {offset}"]
    clues = [0 if byte == ord(".") else int(chr(byte)) for byte in data if chr(byte) in "0123456789."]
    if len(clues) != 81:
        return [f"refused 11 {len(clues)}"]
    sets = [{clues[c]} if clues[c] else {d for d in DIGITS if all(clues[peer] != d for peer in PEERS[c])} for c in range(81)]
    steps = list(settle(clues, sets))
    lines = [line(number, *step) for number, step in enumerate(steps, 1)]
    return lines + [""] + list(drawn(sets)) + ["difficulty " + difficulty(clues, steps), "verdict " + verdict(sets)]


def printed(data):
    return "".join(text + "\n" for text in explain(data)).encode()


A = b"123456789456789123789123456231564897564897231897231564312645978645978312978312645"
EASY = b"53..7....6..195....98....6.8...6...34..8.3..17...2...6.6....28....419..5....8..79"
HARD = b"8..........36......7..9.2...5...7.......457.....1...3...1....68..85...1..9....4.."
NEEDS_CLAIMING = b"...6...3..7......44....859..68.37..........2.73...5..13...4.....8.52..1...1..6..."
P8 = b"...4567893" + b"." * 71
P10 = b"." * 9 + b"456......789......" + b"." * 54
P11 = b"55" + b"." * 79
EACH_KIND = b"8...2.6.9...36..........5.3.9.63...4......96..4...7...3..4...5...6.7.3.2.1.283..6"

GRIDS = [
    b"." * 81,
    A,
    b"." + A[1:],
    b"11" + A[2:],
    b"5" * 81,
    P8,
    P10,
    P11,
    EASY,
    HARD,
    NEEDS_CLAIMING,
    EACH_KIND,
    b"0" + EASY.replace(b".", b"0")[1:],
    "\r\n".join(drawn([{int(chr(digit))} for digit in A])).encode(),
    EASY[:40] + b"\n" + EASY[40:] + b"\n" * 4014,
]

# Lines of a round: the first line's grid, whatever follows.
SOLVED = b"534678912672195348198342567859761423426853791713924856961537284287419635345286179"
ROUNDS = [
    EASY + b"\n" + HARD + b"\n",
    EASY + b" " + SOLVED,
    EASY + b"\t" + SOLVED + b"\n",
    EASY + b"," + SOLVED + b"\r\n" + b"x" * 5000,
    EASY + b";" + A + b"\n" + b"." * 3000000,
    EASY + b"\r",
    EASY + b"\r\n\0",
]
assert all(grid_in(data) == EASY for data in ROUNDS)

# By the words of F-2: 10 first, with the whole length, then 2 with the offset, then 11 with the number of cells.
REFUSED = [
    (b"", "refused 11 0"),
    (b"\n" * 4096, "refused 11 0"),
    (b"." * 80, "refused 11 80"),
    (b"." * 82, "refused 11 82"),
    (b"." * 80 + b"a", "refused 2 80"),
    (b"|" + A + b"/", "refused 2 82"),
    (b"x" * 4096, "refused 2 0"),
    (A + b" " * 4016, "refused 10 4097"),
    (b"x" * 8191, "refused 10 8191"),
    (b"x" * 8192, "refused 10 8192"),
    (b"x" * 8193, "refused 10 8193"),
    (b"." * 3000001, "refused 10 3000001"),
    (EASY + b",", "refused 2 81"),
    (EASY + b"," + SOLVED[1:], "refused 2 81"),
    (EASY + b"," + SOLVED + b" ", "refused 2 81"),
    (EASY + b"," + SOLVED[:80] + b"0", "refused 2 81"),
    (EASY + b"\0\n", "refused 2 81"),
    (EASY + b" " + SOLVED + b"1", "refused 11 163"),
    (b"#" + EASY, "refused 2 0"),
    (b"\n" + EASY + b"," + SOLVED, "refused 2 82"),
]


def run(program):
    assert all(explain(data) == [want] for data, want in REFUSED)
    cases = [(data, printed(data)) for data in GRIDS + ROUNDS + [data for data, _ in REFUSED]]
    wrong = 0
    for data, want in cases:
        got = subprocess.run([program], input=data, stdout=subprocess.PIPE).stdout
        if got != want:
            wrong += 1
            print(f"{data[:90]!r} ({len(data)} bytes): got\n{got.decode()}\nwant\n{want.decode()}")
    print(f"explain: {len(cases)} texts, {wrong} wrong")
    return 1 if wrong else 0


if __name__ == "__main__":
    if len(sys.argv) > 1:
        sys.exit(run(sys.argv[1]))
    sys.stdout.buffer.write(printed(sys.stdin.buffer.read()))
