#!/usr/bin/env python3
"""What the program trial_check must print: trial rounds. Made from the words of document 02, F-11; it knows nothing of the program.

    python3 tools/trial_check.py > crates/trial_check/stdout

A line for each round, round SOLUTION START PERCENTAGE STOP DETAIL CLUES: STOP and DETAIL are 0 for a round that is made, and CLUES are the digits
that it keeps, `.` for open; beside a stop all are open.
"""

STARTS = [0, 1, 12345, 65536, 2147483647, 2147483648, 2147483649, 3000000000, 4294967294, 4294967295]
PERCENTAGES = [0, 1, 25, 50, 75, 99, 100, 101, 2147483648, 4294967295]
A = [int(digit) for digit in "123456789456789123789123456231564897564897231897231564312645978645978312978312645"]
B = [int(digit) for digit in "534678912672195348198342567859761423426853791713924856961537284287419635345286179"]
LINES = [[(n, k) for k in range(9)] for n in range(9)] + [[(k, n) for k in range(9)] for n in range(9)]
BOXES = [[(r + i, c + j) for i in range(3) for j in range(3)] for r in (0, 3, 6) for c in (0, 3, 6)]


def verified(grid):
    """1 to 9 in every cell, and no unit repeats one: every unit has the nine digits."""
    return all(sorted(grid[9 * r + c] for r, c in unit) == list(range(1, 10)) for unit in LINES + BOXES)


def kept(start, percentage):
    """For each cell, rising, one move and then the test."""
    state = start % 2147483648
    for _ in range(81):
        state = (1103515245 * state + 12345) % 2147483648
        yield state // 65536 % 100 < percentage


def trial_round(start, percentage, solution):
    if percentage > 100:
        return (17, percentage), [0] * 81
    if not verified(solution):
        return (18, 0), [0] * 81
    return (0, 0), [digit if keep else 0 for digit, keep in zip(solution, kept(start, percentage))]


def show(name, solution, starts):
    for start in starts:
        for percentage in PERCENTAGES:
            answer, clues = trial_round(start, percentage, solution)
            print("round", name, start, percentage, *answer, "".join(str(clue) if clue else "." for clue in clues))


def put(solution, cell, number):
    return solution[:cell] + [number] + solution[cell + 1 :]


show(0, A, STARTS)
show(1, B, STARTS)
show(2, put(A, 80, 0), [0])
show(3, put(A, 0, 10), [0])
show(4, put(A, 0, -2147483648), [0])
show(5, put(put(A, 0, 2), 1, 1), [0])
show(6, [0] * 81, [4294967295])
