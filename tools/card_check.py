#!/usr/bin/env python3
"""What the program card_check must print: the cards of some inputs and the refusals of others. Made from the paper's words
(modules 6 to 9, 13 and 15, the table of stops; Claiming: document 02, F-5); it knows nothing of the program.

    python3 tools/card_check.py > crates/card_check/stdout

For each input `card N` and the 256 lent bytes, which were all `x`; or `stop N P` and the lent bytes, then `line N` with the bytes
of the refusal's line and the lent bytes again.

    python3 tools/card_check.py PROGRAM

runs scorecard, the file PROGRAM, on the same inputs, which reach it through a pipe a few bytes at a time, and compares what it prints.
"""

import itertools
import subprocess
import sys
import time

# Cells by row and column. Units: rows, columns, boxes.
CELLS = [(row, column) for row in range(9) for column in range(9)]
ROWS = [[cell for cell, (row, _) in enumerate(CELLS) if row == n] for n in range(9)]
COLUMNS = [[cell for cell, (_, column) in enumerate(CELLS) if column == n] for n in range(9)]
BOXES = [[cell for cell, (row, column) in enumerate(CELLS) if 3 * (row // 3) + column // 3 == n] for n in range(9)]
UNITS = ROWS + COLUMNS + BOXES
DIGITS = range(1, 10)
PEERS = [sorted({other for unit in UNITS if cell in unit for other in unit} - {cell}) for cell in range(81)]


def fresh(clues):
    return [
        {clues[cell]} if clues[cell] else {d for d in DIGITS if all(clues[peer] != d for peer in PEERS[cell])}
        for cell in range(81)
    ]


class Board:
    """Sets of digits; only open cells lose any."""

    def __init__(self, clues):
        self.clues = clues
        self.sets = fresh(clues)

    def lose(self, cells, digits):
        for cell in cells:
            if not self.clues[cell]:
                self.sets[cell] = self.sets[cell] - digits

    def lone(self):
        for cell in range(81):
            for d in DIGITS:
                if self.sets[cell] <= {d}:
                    self.lose(PEERS[cell], {d})

    def place(self):
        for unit in UNITS:
            for d in DIGITS:
                for cell in unit:
                    if all(d not in self.sets[other] for other in unit if other != cell):
                        self.lose([cell], set(DIGITS) - {d})

    def pair(self):
        for unit in UNITS:
            for two in itertools.combinations(unit, 2):
                for digits in itertools.combinations(DIGITS, 2):
                    if all(self.sets[cell] <= set(digits) for cell in two):
                        self.lose([cell for cell in unit if cell not in two], set(digits))

    def pointing(self):
        for box in BOXES:
            for d in DIGITS:
                for lines in [ROWS, COLUMNS]:
                    for line in lines:
                        if set(line) & set(box) and all(cell in line for cell in box if d in self.sets[cell]):
                            self.lose([cell for cell in line if cell not in box], {d})

    # document 02, F-5
    def claiming(self):
        for line in ROWS + COLUMNS:
            for d in DIGITS:
                for box in BOXES:
                    if set(line) & set(box) and all(cell in box for cell in line if d in self.sets[cell]):
                        self.lose([cell for cell in box if cell not in line], {d})

    def cross(self):
        for lines, across in [(ROWS, COLUMNS), (COLUMNS, ROWS)]:
            for d in DIGITS:
                for two in itertools.combinations(lines, 2):
                    for others in itertools.combinations(across, 2):
                        inside = set(others[0]) | set(others[1])
                        if all(cell in inside for line in two for cell in line if d in self.sets[cell]):
                            self.lose([cell for cell in sorted(inside) if cell not in two[0] + two[1]], {d})

    def settle(self):
        before = sum(map(len, self.sets))
        sweeps = 0
        while True:
            sweeps += 1
            last = list(self.sets)
            for step in [self.lone, self.place, self.pair, self.pointing, self.claiming, self.cross]:
                step()
            if self.sets == last:
                return sweeps, before - sum(map(len, self.sets))


def singles(clues, sets):
    """How many the naked and the hidden ones are, repeats kept."""
    open_cells = [cell for cell in range(81) if not clues[cell]]
    naked = sum(len(sets[cell]) == 1 for cell in open_cells)
    hidden = sum(
        sum(d in sets[cell] for cell in unit if not clues[cell]) == 1 for unit in UNITS for d in DIGITS
    )
    return naked + hidden


def card(data):
    """The card's bytes, or the stop."""
    text = data[:-1] if data.endswith(b"\n") else data
    if len(text) != 81:
        return 1, len(text)
    for index, byte in enumerate(text):
        if chr(byte) not in "0123456789.":
            return 2, index
    clues = [0 if chr(byte) == "." else int(chr(byte)) for byte in text]
    reported = singles(clues, fresh(clues))
    board = Board(clues)
    sweeps, removed = board.settle()
    counts = [len(digits) for digits in board.sets]
    # document 02, F-4: one digit in every cell is finished only if no unit repeats one
    correct = all(set().union(*(board.sets[cell] for cell in unit)) == set(DIGITS) for unit in UNITS)
    verdict = "dead" if 0 in counts else "open" if counts != [1] * 81 else "finished" if correct else "dead"
    line = "".join("!" if not digits else str(min(digits)) if len(digits) == 1 else "." for digits in board.sets)
    return (
        f"clues {sum(clue != 0 for clue in clues)}\nreported {reported}\nsweeps {sweeps}\nremoved {removed}\n"
        f"verdict {verdict}\nline {line}\n"
    ).encode()


def refusal(stop):
    return b"refused %d %d\n" % stop


A = b"123456789456789123789123456231564897564897231897231564312645978645978312978312645"
P8 = b"...4567893" + b"." * 71
P10 = b"." * 9 + b"456......789......" + b"." * 54
P11 = b"55" + b"." * 79
CLAIMED = b"...456789" + b"." * 72
PUZZLE = b"53..7....6..195....98....6.8...6...34..8.3..17...2...6.6....28....419..5....8..79"
HARD = b"8..........36......7..9.2...5...7.......457.....1...3...1....68..85...1..9....4.."
# five passes leave 218 candidates of 234, the six finish it
NEEDS_CLAIMING = b"...6...3..7......44....859..68.37..........2.73...5..13...4.....8.52..1...1..6..."
ZEROS = b"0" * 81
DIGITS_5000 = b"5" * 5000

INPUTS = [
    b"",
    b"\n",
    b"." * 81,
    ZEROS,
    b"." * 80,
    b"." * 80 + b"\n",
    b"." * 80 + b"a",
    b"." * 80 + b"\r",
    P10,
    P10 + b"\n",
    P10 + b"\n\n",
    P10 + b"\r\n",
    b"\n" + P10,
    DIGITS_5000[:4096],
    DIGITS_5000,
    A,
    b"." + A[1:],
    b"11" + A[2:],
    b"21" + A[2:],
    P8,
    P11,
    PUZZLE,
    HARD,
    CLAIMED,
    NEEDS_CLAIMING,
]


def expected():
    out = b""
    for data in INPUTS:
        made = card(data)
        if isinstance(made, bytes):
            out += b"card %d\n" % len(made) + made.ljust(256, b"x") + b"\n"
        else:
            line = refusal(made)
            out += b"stop %d %d\n" % made + b"x" * 256 + b"\n"
            out += b"line %d\n" % len(line) + line.ljust(256, b"x") + b"\n"
    return out


def run(program):
    wrong = 0
    # Two inputs more than 4,096 bytes are cut to.
    inputs = INPUTS + [P10 + b"\n" + b"9" * 4100, b"7" * 4095 + b"\n" + b"." * 100]
    for data in inputs:
        made = card(data[:4096])
        want = made if isinstance(made, bytes) else refusal(made)
        child = subprocess.Popen([program], stdin=subprocess.PIPE, stdout=subprocess.PIPE)
        size = 30 if len(data) < 100 else 700
        try:
            for start in range(0, len(data), size):
                child.stdin.write(data[start : start + size])
                child.stdin.flush()
                time.sleep(0.005)
        except BrokenPipeError:
            pass
        got = child.communicate()[0]
        if got != want:
            wrong += 1
            print(f"{data[:90]!r} ({len(data)} bytes): got {got!r}, want {want!r}")
    print(f"{len(inputs)} inputs, {wrong} wrong")
    return 1 if wrong else 0


if __name__ == "__main__":
    if len(sys.argv) > 1:
        sys.exit(run(sys.argv[1]))
    sys.stdout.buffer.write(expected())
