#!/usr/bin/env python3
"""What the program board_check must print: the readers, the opener, the calls on a board, entering and rubbing out, and the writers at
their edges. Made from the paper's words (cells and masks, modules 2, 12 and 13, the table of stops) and document 02's on pasted sheets and
entries; it knows nothing of the program.

    python3 tools/board_check.py > crates/board_check/stdout

A line for each call, NAME A B STOP DETAIL. A refused call has its stop and what stands beside it. Else STOP is 0, and DETAIL is
    text, byte            the checksum of the clues; A is the length, or the byte, and B its index
    sheet, sheet_byte     the checksum of the clues; A is the length, or the byte, and B which bytes stand after 81 cells, or the byte's offset
    ruled                 the same of a sheet as programs print it
    open                  the checksum of the masks; A is the place of the clue in NUMBERS, and B its cell
    puzzle, candidates    the checksum of the clues, of the masks; A is the board, and B a cell (for each call on a board)
    update                the checksum of the masks, which stand after it in the line `left`, refused or not
    count, mask           the clue count, the mask of cell B
    dead finished open    the verdict, 0
    enter, rub_out        the checksum of the masks; A is the place of the digit in NUMBERS (0 for rub_out), and B the cell; entries and masks
                          stand after it in the lines `entries` and `left`, refused or not
    write, canonical      what it returns; A is the grid, and B how many bytes are lent; the line `lent` has all hundred bytes' checksum
"""

P = 2**56 - 5
NUMBERS = [-2147483648, -1, 0, 1, 9, 10, 2147483647]
A = "123456789456789123789123456231564897564897231897231564312645978645978312978312645"


def fold(numbers):
    total = 0
    for number in numbers:
        total = (total * 31 + number) % P
    return total


def line(name, a, b, answer):
    print(name, a, b, *answer)


# Cells by row and column; two are peers if they differ and share a row, a column or a box.
CELLS = [(row, column) for row in range(9) for column in range(9)]


def peers(cell):
    (r, c) = CELLS[cell]
    return [
        other
        for other, (row, column) in enumerate(CELLS)
        if other != cell and (row == r or column == c or (row // 3, column // 3) == (r // 3, c // 3))
    ]


PEERS = [peers(cell) for cell in range(81)]


def mask(digits):
    return sum(2 ** (digit - 1) for digit in digits)


def fresh(clues):
    return [
        mask([clues[cell]])
        if clues[cell]
        else mask(digit for digit in range(1, 10) if all(clues[peer] != digit for peer in PEERS[cell]))
        for cell in range(81)
    ]


def first(test):
    return next((index for index in range(81) if test(index)), None)


def bad_clue(clues):
    return first(lambda cell: not 0 <= clues[cell] <= 9)


# document 02, F-6: entries count as clues
def joined(clues, entries):
    return [entry if digit(entry) and not digit(clue) else clue for clue, entry in zip(clues, entries)]


def digit(number):
    return number if 1 <= number <= 9 else 0


def refusal(clues, entries, masks):
    cell = bad_clue(clues)
    if cell is not None:
        return 3, cell
    cell = first(lambda cell: not 0 <= entries[cell] <= 9 or (entries[cell] and clues[cell]))
    if cell is not None:
        return 8, cell
    fixed = joined(clues, entries)
    new = fresh(fixed)
    cell = first(lambda cell: masks[cell] != new[cell] if fixed[cell] else masks[cell] & ~new[cell])
    return None if cell is None else (9, cell)


def parse(text):
    if len(text) != 81:
        return 1, len(text)
    index = first(lambda index: chr(text[index]) not in "0123456789.")
    if index is not None:
        return 2, index
    return 0, fold(0 if chr(byte) == "." else int(chr(byte)) for byte in text)


def sheet(pasted):
    if len(pasted) > 4096:
        return 10, len(pasted)
    cells = []
    for offset, byte in enumerate(pasted):
        if chr(byte) in "0123456789.":
            cells.append(0 if chr(byte) == "." else int(chr(byte)))
        elif chr(byte) not in " |-+\r\n":
            return 2, offset
    return (0, fold(cells)) if len(cells) == 81 else (11, len(cells))


def opened(clues):
    cell = bad_clue(clues)
    return (0, fold(fresh(clues))) if cell is None else (3, cell)


def verdict(masks):
    counts = [bin(number).count("1") for number in masks]
    # document 02, F-4: one digit in every cell is finished only if no two peers have the same
    repeats = any(masks[cell] == masks[peer] for cell in range(81) for peer in PEERS[cell])
    return "dead" if 0 in counts else "open" if counts != [1] * 81 else "dead" if repeats else "finished"


def calls(a, at, clues, masks, entries=[0] * 81):
    stopped = refusal(clues, entries, masks)
    left = masks if stopped else fresh(joined(clues, entries))
    line("puzzle", a, at, stopped or (0, fold(clues)))
    line("candidates", a, at, stopped or (0, fold(masks)))
    line("update", a, at, stopped or (0, fold(left)))
    line("left", a, at, (0, fold(left)))
    line("count", a, at, stopped or (0, sum(clue != 0 for clue in clues)))
    line("mask", a, at, stopped or ((0, masks[at]) if at <= 80 else (5, at)))
    line("verdict" if stopped else verdict(masks), a, at, stopped or (0, 0))


def pencil(name, a, cell, board, number):
    clues, entries, masks = board
    answer = refusal(clues, entries, masks)
    if not answer and cell > 80:
        answer = 5, cell
    if not answer and name == "enter" and not digit(number):
        answer = 4, number
    if not answer and clues[cell]:
        answer = 12, cell
    if not answer and (entries[cell] != 0) == (name == "enter"):
        answer = 13, cell
    if not answer:
        entries = put(entries, cell, number)
        masks = fresh(joined(clues, entries))
    line(name, a, cell, answer or (0, fold(masks)))
    line("entries", a, cell, (0, fold(map(digit, entries))))
    line("left", a, cell, (0, fold(masks)))


def pencils(board, cell):
    for place, number in enumerate(NUMBERS):
        pencil("enter", place, cell, board, number)
    pencil("rub_out", 0, cell, board, 0)


def write(name, a, lent, clues, text):
    kept = "x" * 100
    cell = bad_clue(clues)
    if lent < len(text):
        answer = 6, lent
    elif cell is not None:
        answer = 3, cell
    else:
        answer = 0, len(text)
        kept = text + kept[len(text) :]
    line(name, a, lent, answer)
    line("lent", a, lent, (0, fold(kept.encode())))


def writes(a, clues):
    text = "".join(".123456789"[clue] if 0 <= clue <= 9 else "?" for clue in clues)
    for lent in [0, 80, 81, 100]:
        write("write", a, lent, clues, text)
    sheet = "".join(text[9 * row : 9 * row + 9] + "\n" for row in range(9))
    for lent in [0, 89, 90, 91]:
        write("canonical", a, lent, clues, sheet)


def grid(**clues):
    return [clues.get(f"c{cell}", 0) for cell in range(81)]


def put(numbers, cell, number):
    return numbers[:cell] + [number] + numbers[cell + 1 :]


for length in [0, 80, 81, 82, 4096]:
    line("text", length, 0, parse(b"." * length))
for byte in range(256):
    line("byte", byte, 0, parse(bytes([byte]) + b"." * 80))
    line("byte", byte, 80, parse(b"." * 80 + bytes([byte])))
line("sheet", 0, 0, sheet(b""))
for which, after in enumerate([b".", b" ", b"x"]):
    for length in [80, 81, 82, 4096, 4097]:
        line("sheet", length, which, sheet((b"7" * 81 + after * 4096)[:length]))
for byte in range(256):
    line("sheet_byte", byte, 1, sheet(b" " + bytes([byte]) + b"." * 80))
    line("sheet_byte", byte, 88, sheet(b"5" * 40 + b"|-+\r\n" + b"5" * 41 + b" \n" + bytes([byte])))
PASTED = "53..7....6..195....98....6.8...6...34..8.3..17...2...6.6....28....419..5....8..79"
RULING = "+-------+-------+-------+\r\n"
ROWS = [PASTED[9 * row : 9 * row + 9] for row in range(9)]
LINES = ["| " + " | ".join(" ".join(row[block : block + 3]) for block in (0, 3, 6)) + " |\r\n" for row in ROWS]
line("ruled", 0, 0, sheet((RULING + "".join("".join(LINES[band : band + 3]) + RULING for band in (0, 3, 6))).encode()))
for place, number in enumerate(NUMBERS):
    line("open", place, 0, opened(grid(c0=number)))
    line("open", place, 80, opened(grid(c80=number)))

BESIDE, ON = grid(c1=1, c79=1), grid(c0=1, c80=1)
for at in [0, 80]:
    for a, (clues, number) in enumerate([(BESIDE, 511), (BESIDE, 512), (BESIDE, 0), (ON, 0), (ON, 3), (ON, 2)]):
        calls(a, at, clues, put(fresh(clues), at, number))
calls(6, 0, grid(c1=1, c80=10), [511] * 81)
calls(7, 0, grid(c0=-1, c1=1, c80=10), [511] * 81)
calls(8, 0, grid(c80=1), [511] * 81)
for place, number in enumerate(NUMBERS):
    for at in [0, 79]:
        entries = put([0] * 81, at, number)
        taken = BESIDE if at == 79 else put(BESIDE, at, digit(number))
        calls(20 + place, at, BESIDE, fresh(taken), entries)
TWO = grid(c1=2, c80=10)
calls(30, 0, grid(c1=1), [511] * 81, TWO)
calls(31, 0, grid(c1=1, c80=-1), [511] * 81, TWO)
calls(32, 0, grid(c1=1), fresh(grid(c1=1)), grid(c0=2))
calls(33, 0, grid(c1=1), put(fresh(grid(c1=1)), 0, 2), grid(c0=2))
CLUE, ENTRY = grid(c0=1), grid(c80=2)
MASKS = fresh(grid(c0=1, c80=2))
for cell in [0, 1, 40, 80, 81, 4294967295]:
    pencils((CLUE, ENTRY, put(MASKS, 40, 510)), cell)
pencils((CLUE, ENTRY, put(MASKS, 40, 512)), 81)
for a, text in [(9, A), (10, "." + A[1:80] + "."), (11, "0..4567893" + "." * 71), (12, "21" + A[2:])]:
    clues = [0 if letter == "." else int(letter) for letter in text]
    for at in [0, 80, 81, 4294967295]:
        calls(a, at, clues, fresh(clues))
    writes(a, clues)
writes(13, put([9] * 81, 80, 10))
