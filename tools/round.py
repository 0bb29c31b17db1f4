#!/usr/bin/env python3
"""What the program round must print for an input, and its summary. Made from the words of the request (README.md, "A round") and, for what a grid comes
to, from tools/explain.py and tools/card_check.py, which are made from the paper's words; it knows nothing of the program.

    python3 tools/round.py <crates/round/stdin >crates/round/stdout

    python3 tools/round.py PROGRAM

runs round, the file PROGRAM, on inputs of different kinds, which reach it through a pipe, and compares standard output and standard error. One small
input comes in two parts, once for each place where the first can end.
"""

import fcntl
import functools
import subprocess
import sys
import termios
import time

from card_check import fresh, singles
from explain import A, EACH_KIND, EASY, HARD, P10, P11, UNITS, difficulty, sweep, verdict

NAMES = ["grids", "finished", "open", "dead", "refused", "right", "not"]


@functools.lru_cache(maxsize=None)
def scored(grid):
    """The first six fields of a grid of 81 cells."""
    clues = [0 if byte == ord(".") else byte - ord("0") for byte in grid]
    sets = fresh(clues)
    reported = singles(clues, sets)
    before = sum(map(len, sets))
    steps, sweeps = [], 0
    while True:
        sweeps += 1
        more = list(sweep(clues, sets))
        if not more:
            break
        steps += more
    removed = before - sum(map(len, sets))
    return [81 - clues.count(0), reported, sweeps, removed, verdict(sets), difficulty(clues, steps)]


def check(grid, answer):
    """none, wrong, clue CELL or right."""
    if answer is None:
        return "none"
    if len(answer) != 81 or any(byte not in b"123456789" for byte in answer):
        return "wrong"
    for cell in range(81):
        if grid[cell] in b"123456789" and grid[cell] != answer[cell]:
            return f"clue {cell}"
    return "right" if all(len({answer[cell] for cell in unit}) == 9 for unit in UNITS) else "wrong"


def parts_of(line):
    """The grid and the answer; nothing where the line is handed on."""
    text = line[:-1] if line.endswith(b"\r") else line
    if not text or text.startswith(b"#"):
        return None
    places = [place for place, byte in enumerate(text) if byte in b" \t,;"]
    return (text[: places[0]], text[places[0] + 1 :]) if places else (text, None)


def outcome(line):
    """What is printed of a line, and which numbers of the summary it raises."""
    parts = parts_of(line)
    if parts is None:
        return line, []
    grid, answer = parts
    if len(grid) != 81:
        return b"refused 1 %d" % len(grid), ["grids", "refused"]
    for place, byte in enumerate(grid):
        if byte not in b"0123456789.":
            return b"refused 2 %d" % place, ["grids", "refused"]
    fields = scored(grid)
    said = check(grid, answer)
    counts = ["grids", fields[4]] + ([] if said == "none" else ["right" if said == "right" else "not"])
    return " ".join(map(str, fields + [said])).encode(), counts


def round_of(data):
    """Standard output and standard error."""
    lines = data.split(b"\n")
    if not lines[-1]:
        lines.pop()
    out, counts = [], dict.fromkeys(NAMES, 0)
    for line in lines:
        printed, raised = outcome(line)
        out.append(printed + b"\n")
        for name in raised:
            counts[name] += 1
    return b"".join(out), "".join(f"{name} {counts[name]}\n" for name in NAMES).encode()


EASY_SOLVED = b"534678912672195348198342567859761423426853791713924856961537284287419635345286179"
HARD_SOLVED = b"812753649943682175675491283154237896369845721287169534521974368438526917796318452"
# keeps EASY's clues, and has two cells of the first row exchanged
REPEATS = b"5" + EASY_SOLVED[2:3] + EASY_SOLVED[2:]
KEEPS = bytes(clue if clue != ord(".") else ord("1") for clue in EASY)
BREAKS = EASY_SOLVED[:80] + b"1"
EMPTY = b"." * 81

SMALL = b"#c\n\n" + EASY + b"," + EASY_SOLVED + b"\r\n\r\n" + b"." * 82 + b" 1\n" + P11 + b"\n#d"

INPUTS = [
    b"",
    b"\n",
    b"\n\n\r\n",
    b"\r",
    b"\r\r\n",
    EASY,
    EASY + b"\n",
    EASY + b"\r\n",
    EASY + b"\r",
    EASY + b"\r\r\n",
    EASY + b" " + EASY_SOLVED + b"\n",
    EASY + b"\t" + EASY_SOLVED + b"\r\n",
    EASY + b"," + EASY_SOLVED,
    EASY + b";" + EASY_SOLVED + b"\r",
    EASY + b"; " + EASY_SOLVED + b"\n",
    EASY + b"," + EASY_SOLVED + b",\n",
    EASY + b",\n" + EASY + b",\r\n",
    EASY + b"," + EASY_SOLVED[:80] + b"\n",
    EASY + b"," + EASY_SOLVED[:80] + b"\r\n",
    EASY + b"," + EASY_SOLVED[:80] + b"0\n" + EASY + b"," + EASY_SOLVED[:80] + b".\n",
    EASY + b"," + EASY_SOLVED + b"1\n",
    EASY + b"," + REPEATS + b"\n" + EASY + b"," + KEEPS + b"\n",
    EASY + b"," + BREAKS + b"\n" + EASY + b",6" + EASY_SOLVED[1:] + b"\n",
    EASY.replace(b".", b"0") + b" " + EASY_SOLVED + b"\n",
    HARD + b" " + HARD_SOLVED + b"\n" + HARD + b" " + EASY_SOLVED + b"\n",
    A + b"\n" + A + b" " + A + b"\n" + A + b" " + EASY_SOLVED + b"\n",
    b"11" + A[2:] + b" " + A + b"\n" + b"11" + A[2:] + b" 11" + A[2:] + b"\n",
    P10 + b"\n" + P11 + b"\n" + P11 + b" " + A + b"\n" + EACH_KIND + b"\n" + EMPTY + b"," + A + b"\n",
    b"\0\n" + EASY[:40] + b"\0" + EASY[41:] + b"\n" + EASY + b"\0\n" + EASY + b",\0" + EASY_SOLVED[1:] + b"\n\0",
    b" \n,\n;;;\n\t\t\n , ; \n,,",
    b" " + EASY + b"\n",
    b"." * 80 + b"\n" + b"." * 82 + b"\n" + b"." * 80 + b"a\n" + b"a" * 81 + b"\n" + b"\xff" * 81 + b"\n",
    b"#\n# a grid, " + EASY + b"\n#\r\n##\n" + EASY + b"\n#",
    b"a#\n #\n\r#\n",
    b"#" + b"x" * 1000000 + b"\n" + EASY + b"\n#" + b"y" * 1000000,
    b"x" * 10000000 + b"\n" + EASY + b"\n",
    b"1" * 10000000,
    EASY + b" " + b"1" * 10000000 + b"\n" + EASY + b"\n",
    b" " * 1000000 + b"\r\n",
    b"\r" * 1000000 + b"\n" + EASY + b"\n",
    SMALL,
] + [
    # around the bytes that are kept, with and without a carriage return and a separator at the edge
    before + b"." * (length - len(before)) + after + b"\n" + EASY
    for before in (b"", EASY + b",")
    for length in (254, 255, 256, 257, 258)
    for after in (b"", b"\r", b",", b",\r", b"\r,", b"\r\r")
] + [
    # lines of many lengths, so that reads of any fixed size end at many places of a line
    b"".join(b"%s%s%s\n" % (EASY, b"," * (n % 2), b"1" * (n % 3 * 40)) + b"#" + b"z" * n + b"\n" for n in range(700)),
]


def run(program, parts):
    """Each part is read before the next is written."""
    started = subprocess.Popen([program], stdin=subprocess.PIPE, stdout=subprocess.PIPE, stderr=subprocess.PIPE)
    if len(parts) == 1:
        return started.communicate(parts[0])
    for part in parts[:-1]:
        started.stdin.write(part)
        started.stdin.flush()
        while int.from_bytes(fcntl.ioctl(started.stdin, termios.FIONREAD, bytes(4)), sys.byteorder):
            time.sleep(0.0002)
    return started.communicate(parts[-1])


def tried(program):
    cases = [([data], round_of(data)) for data in INPUTS]
    cases += [([SMALL[:place], SMALL[place:]], round_of(SMALL)) for place in range(len(SMALL) + 1)]
    wrong = 0
    for parts, want in cases:
        got = run(program, parts)
        if got != want:
            wrong += 1
            data = b"".join(parts)
            print(f"{data[:90]!r} ({len(parts[0])} of {len(data)} bytes first): got {got[0][-300:]!r} {got[1]!r}, want {want[0][-300:]!r} {want[1]!r}")
    print(f"round: {len(cases)} inputs, {wrong} wrong")
    return 1 if wrong else 0


if __name__ == "__main__":
    if len(sys.argv) > 1:
        sys.exit(tried(sys.argv[1]))
    sys.stdout.buffer.write(round_of(sys.stdin.buffer.read())[0])
