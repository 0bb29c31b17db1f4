#!/usr/bin/env python3
"""The unit table and the peer table as Rattle constants, by their rule: what crates/tables/stdout holds and the program `tables` must print.

    python3 tools/tables.py          prints the two tables
    python3 tools/tables.py --check  fails where crates/tables/stdout has other bytes

It shares nothing with the engine: rows, columns, boxes and peers are worked out here from a cell's row and column.
"""
import sys

CELLS = [(row, column) for row in range(9) for column in range(9)]


def box(cell):
    return cell[0] // 3, cell[1] // 3


def numbers(test):
    return [number for number, cell in enumerate(CELLS) if test(cell)]


def units():
    rows = [numbers(lambda cell: cell[0] == k) for k in range(9)]
    columns = [numbers(lambda cell: cell[1] == k) for k in range(9)]
    boxes = [numbers(lambda cell: box(cell) == (k // 3, k % 3)) for k in range(9)]
    return rows + columns + boxes


def peers(own):
    return numbers(lambda cell: cell != own and (cell[0] == own[0] or cell[1] == own[1] or box(cell) == box(own)))


def table(name, rows):
    lines = ["pub const %s: [[u8; %d]; %d] = [" % (name, len(rows[0]), len(rows))]
    lines += ["[%s]," % ", ".join(str(number) for number in row) for row in rows]
    return lines + ["];"]


def main():
    lines = table("UNITS", units()) + table("PEERS", [peers(cell) for cell in CELLS])
    text = "".join(line + "\n" for line in lines).encode()
    if sys.argv[1:] == ["--check"]:
        with open("crates/tables/stdout", "rb") as expected:
            if expected.read() != text:
                sys.exit("crates/tables/stdout is not the two tables by their rule")
    else:
        sys.stdout.buffer.write(text)


main()
