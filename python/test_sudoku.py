#!/usr/bin/env python3
"""The module on the cases P1 to P11 of document 01, on the requests of document 02, and settling on what tools/station.py and tools/explain.py make of the
paper's words; no expected value comes from the engine. The module's numbers and parameters are held to include/sudoku.h.

    python3 -B python/test_sudoku.py
"""

import ctypes
import doctest
import pathlib
import re
import sys
import unittest

ROOT = pathlib.Path(__file__).resolve().parent.parent
sys.path[:0] = [str(ROOT / "python"), str(ROOT / "tools")]

import explain
import station
import sudoku
from sudoku import Board, CandidateSet, Kind, Single, Step, StepNumber, Stop, Verdict

A = explain.A.decode()
P1 = "." * 81
P5 = "." + A[1:]
P7 = "".join("." if cell in (0, 1, 27, 28, 54, 55) else digit for cell, digit in enumerate(A))
P8 = "...456789" + "3........" + "." * 63
P10 = "." * 9 + "456......" + "789......" + "." * 54
P11 = "55" + "." * 79
PASSES = [StepNumber(number) for number in (1, 2, 3, 7, 8, 9, 10, 11, 13, 14, 15)]
WIDE = [StepNumber(number) for number in (7, 8, 9, 10, 11, 14)]


def numbers(text):
    return [0 if character == "." else int(character) for character in text]


def masks(sets):
    return [sum(1 << (digit - 1) for digit in digits) for digits in sets]


def sets(board):
    return [{digit for digit in range(1, 10) if mask >> (digit - 1) & 1} for mask in board.masks]


def count(board):
    return sum(map(len, sets(board)))


class Case(unittest.TestCase):
    def stopped(self, number, detail, call, *boards):
        """The call is refused so, and the boards are then as they were."""
        before = [board.copy() for board in boards]
        with self.assertRaises(Stop) as caught:
            call()
        self.assertEqual((caught.exception.number, caught.exception.detail), (number, detail))
        self.assertEqual(list(boards), before)
        return caught.exception


class Paper(Case):
    def test_p1(self):
        board = Board.read(P1)
        self.assertEqual(board.masks.tolist(), [511] * 81)
        for number in PASSES:
            self.assertEqual(board.step(number), (False, [], None, None), number)
        settled = board.settle()
        self.assertEqual((settled.sweeps, settled.removed, settled.steps), (1, 0, []))
        self.assertEqual(board, Board.read(P1))
        self.assertEqual(board.write_record(), bytes(4))  # F-8
        self.assertEqual(board.verdict(), Verdict.OPEN)

    def test_p2_p3(self):
        self.stopped(1, 80, lambda: Board.read("." * 80))
        found = self.stopped(2, 80, lambda: Board.read("." * 80 + "a"))
        self.assertEqual((found.name, str(found)), ("OTHER_BYTE", "stop 2 (OTHER_BYTE), 80"))

    def test_p4(self):
        for open_board in (Board, Board.open):
            self.stopped(3, 0, lambda: open_board([-1] + [0] * 80))
            self.stopped(3, 80, lambda: open_board([0] * 80 + [10]))

    def test_p5(self):
        board = Board.read(P5)
        self.assertEqual(board.cell_mask(0), 1)
        self.assertEqual(board.step(StepNumber.NAKED_SINGLES).reports, [(0, 1)])
        self.assertEqual(board.step(StepNumber.HIDDEN_SINGLES).reports, [(0, 1)] * 3)

    def test_p6(self):
        grid = numbers(A)
        self.assertIs(sudoku.verify(grid), True)
        for last in (0, 10, -2147483648):
            self.assertIs(sudoku.verify(grid[:80] + [last]), False)
        self.assertIs(sudoku.verify([2, 1] + grid[2:]), False)

    def test_p7(self):
        board = Board.read(P7)
        self.assertEqual([board.masks[cell] for cell in (0, 1, 27, 28, 54, 55)], [3, 3, 6, 6, 5, 5])
        for number in PASSES:
            self.assertFalse(board.step(number).flag, number)
        self.assertEqual(board, Board.read(P7))

    def test_p8_p9(self):
        board = Board.read(P8)
        self.assertEqual(board.masks[:3].tolist(), [3, 3, 3])
        before = count(board)
        self.assertTrue(board.step(StepNumber.NAKED_PAIRS).flag)
        self.assertEqual((before - count(board), board.masks[2]), (12, 0))
        board = Board.read(P8)
        self.assertTrue(board.step(StepNumber.APPLY_ADVANCED_TECHNIQUES).flag)
        self.assertEqual(board, Board.read(P8))

    def test_p10(self):
        board = Board.read(P10)
        before = count(board)
        self.assertTrue(board.step(StepNumber.BOX_LINE).flag)
        self.assertEqual(before - count(board), 18)
        self.assertFalse(board.step(StepNumber.BOX_LINE).flag)
        self.assertEqual(board.clue_count(), 6)
        card = f"clues 6\nreported 0\nsweeps 2\nremoved 18\nverdict open\nline {P10}\n"
        self.assertEqual((sudoku.card(P10), sudoku.card(P10 + "\n")), (card, card))
        self.stopped(1, 82, lambda: sudoku.card(P10 + "\n\n"))
        self.stopped(2, 0, lambda: sudoku.card("x" + P10[1:]))

    def test_p11(self):
        board = Board.open([5, 5] + [0] * 79)
        self.assertTrue(all(5 not in digits for digits in sets(board)[2:9]))
        board.settle()
        self.assertEqual((board.masks[2:9].tolist(), board.verdict()), ([0] * 7, Verdict.DEAD))

    def test_verdicts(self):
        self.assertEqual(Board.read(A).verdict(), Verdict.FINISHED)
        self.assertEqual(Board.read("21" + A[2:]).verdict(), Verdict.DEAD)  # F-4

    def test_boards_that_do_not_fit(self):
        clues = numbers(P8)
        fresh = Board(clues).masks.tolist()
        for number, detail, board in (
            (3, 4, Board(clues[:4] + [10] + clues[5:], [1] * 81, [512] * 81)),
            (8, 3, Board(clues, [0, 1, 1] + [1] * 78, [512] * 81)),
            (8, 80, Board(clues, [0] * 80 + [-1], [512] * 81)),
            (9, 0, Board(clues, masks=[7] + fresh[1:])),
            (9, 5, Board(clues, masks=fresh[:5] + [0] + fresh[6:])),
            (9, 10, Board(clues, masks=fresh[:10] + [512] + fresh[11:])),
        ):
            for call in (board.clue_count, board.verdict, board.original_puzzle, board.get_candidates, board.settle, board.write_record):
                self.stopped(number, detail, call, board)
            for call in (lambda: board.cell_mask(81), lambda: board.step(0), lambda: board.check_steps(b"7"), lambda: board.enter(81, 0), lambda: board.rub_out(81)):
                self.stopped(number, detail, call, board)
        board = Board.read(P8)
        self.stopped(5, 81, lambda: board.cell_mask(81), board)
        self.stopped(-1, 16, lambda: board.step(16), board)
        self.assertEqual((board.original_puzzle(), board.get_candidates()), (clues, fresh))

    def test_sets(self):
        self.assertEqual((CandidateSet.new().mask, CandidateSet.full().mask, CandidateSet.single(9).mask), (0, 511, 256))
        found = CandidateSet(0b1_0010_0101)
        self.assertEqual((list(found), found.len(), len(found), found.is_empty()), ([1, 3, 6, 9], 4, 4, False))
        self.assertEqual((found.contains(3), 4 in found, found.remove(3), found.remove(3)), (True, False, True, False))
        found.insert(2)
        self.assertEqual((found.mask, found.single_candidate()), (0b1_0010_0011, Single.SEVERAL))
        for digit in (0, 10, -2147483648):
            for call in (found.contains, found.insert, found.remove, CandidateSet.single):
                self.stopped(4, digit, lambda: call(digit))
        self.assertEqual(found.mask, 0b1_0010_0011)
        found.clear()
        self.assertEqual((found.mask, found.is_empty(), found.single_candidate()), (0, True, Single.EMPTY))  # F-1
        self.assertEqual((CandidateSet(64).single_candidate(), list(CandidateSet(0xFE00))), (7, []))


class Requests(Case):
    def test_texts_and_sheets(self):
        board = Board.read(P10)
        canonical = "".join(P10[row : row + 9] + "\n" for row in range(0, 81, 9))
        self.assertEqual((board.write_text(), board.write_sheet()), (P10, canonical))
        ruled = "\r\n".join(["+---+"] + ["| " + line for line in canonical.split()])
        for sheet in (P10, canonical, ruled, ruled.encode(), bytearray(ruled.encode())):
            self.assertEqual(Board.read_sheet(sheet), board)
        for data, line in explain.REFUSED:
            _, number, detail = line.split()
            self.stopped(int(number), int(detail), lambda: Board.read_sheet(data))
        bad = Board(numbers(P10)[:4] + [10] + [0] * 76, masks=[0] * 81)
        self.stopped(3, 4, bad.write_text, bad)
        self.stopped(3, 4, bad.write_sheet, bad)
        room = ctypes.create_string_buffer(b"x" * 80, 80)
        self.stopped(6, 80, lambda: sudoku._call("write_text", bad.clues, room, 80))
        self.stopped(6, 80, lambda: sudoku._call("write_sheet", bad.clues, room, 80))
        self.assertEqual(room.raw, b"x" * 80)

    def test_entries(self):
        board = Board.read(P10)
        board.enter(0, 1)
        board.enter(80, 4)
        givens = [1] + numbers(P10)[1:80] + [4]
        self.assertEqual(board.masks.tolist(), masks(station.fresh(givens)))
        self.assertEqual(board, Board(numbers(P10), [1] + [0] * 79 + [4]))
        self.assertEqual((board.clue_count(), board.original_puzzle()), (6, numbers(P10)))
        for number, detail, call in (
            (5, 81, lambda: board.enter(81, 0)),
            (4, 0, lambda: board.enter(9, 0)),
            (4, 10, lambda: board.enter(0, 10)),
            (12, 9, lambda: board.enter(9, 1)),
            (13, 0, lambda: board.enter(0, 1)),
            (5, 4294967295, lambda: board.rub_out(4294967295)),
            (12, 9, lambda: board.rub_out(9)),
            (13, 1, lambda: board.rub_out(1)),
        ):
            self.stopped(number, detail, call, board)
        board.settle()
        board.rub_out(0)
        board.rub_out(80)
        self.assertEqual(board, Board.read(P10))
        # F-7: the same clues and masks, and not the same board
        one, other = Board.read(P5), Board.read(P5)
        one.enter(0, 1)
        self.assertEqual((one.masks, one.clues), (other.masks, other.clues))
        self.assertNotEqual(one, other)

    def test_records(self):
        board = Board.read(P10)
        clues = bytes([6, 9, 4, 10, 5, 11, 6, 18, 7, 19, 8, 20, 9])
        self.assertEqual(board.write_record(), clues + bytes(3))
        board.step(StepNumber.BOX_LINE)
        lost = bytes([18, 0]) + bytes(part for cell in range(3, 9) for digit in (1, 2, 3) for part in (cell, digit))
        self.assertEqual(board.write_record(), clues + b"\0" + lost)
        self.assertEqual(Board.read_record(clues + b"\0" + lost), board)
        self.assertEqual((sudoku.move_record(clues + lost), sudoku.move_record(clues + b"\0" + lost, back=True)), (clues + b"\0" + lost, clues + lost))
        board.enter(0, 1)
        entered = clues + bytes([1, 0, 1, 0, 0])
        self.assertEqual((board.write_record(), Board.read_record(entered)), (entered, board))
        self.stopped(14, 13, lambda: sudoku.move_record(entered, back=True))
        for number, detail, record in (
            (7, 0, b""),
            (7, 4, bytes(5)),
            (8, 1, bytes([1, 81, 1, 0, 0, 0])),
            (8, 4, bytes([1, 0, 5, 1, 0, 5, 0, 0])),
            (9, 6, bytes([1, 0, 5, 0, 1, 0, 0, 1])),
        ):
            self.stopped(number, detail, lambda: Board.read_record(record))
        every = Board([0] * 81, masks=[0] * 81)
        record = b"\0\0\xd9\x02" + bytes(part for cell in range(81) for digit in range(1, 10) for part in (cell, digit))
        self.assertEqual((every.write_record(), Board.read_record(record)), (record, every))

    def test_lists(self):
        board = Board.read(P10)
        board.step(StepNumber.BOX_LINE)
        once = board.copy()
        board.run([StepNumber.BOX_LINE, StepNumber.BOX_LINE])
        self.assertEqual(board, once)
        self.stopped(20, 1, lambda: board.run([0, 16, 17]), board)
        board.run([])
        self.assertEqual(board, Board.read(P10))

    def test_settling(self):
        cases = [(grid.decode(), {}) for grid in (explain.P8, explain.P11, explain.EASY, explain.NEEDS_CLAIMING, explain.EACH_KIND)]
        cases += [(explain.EACH_KIND.decode(), {45: 6, 72: 4}), (explain.EASY.decode(), {2: 1, 72: 3}), (P10, {0: 4, 1: 4})]
        kinds = set()
        for text, entries in cases:
            board = Board.read(text)
            for cell, digit in entries.items():
                board.enter(cell, digit)
            fresh, givens = board.copy(), numbers(text)
            for cell, digit in entries.items():
                givens[cell] = digit
            left = station.fresh(givens)
            sweeps, steps = station.settled(givens, left)
            found = board.settle()
            self.assertEqual((found.sweeps, found.removed), (sweeps, station.removed(steps)))
            self.assertEqual([str(step) for step in found.steps], [title for title, _ in steps])
            self.assertEqual((board.masks.tolist(), board.verdict().name.lower()), (masks(left), explain.verdict(left)))
            kinds.update(step.kind for step in found.steps)
            # F-10: the list is accepted, and gives the settled board
            for sent in (found.steps, b"".join(map(bytes, found.steps))):
                checked = fresh.copy()
                checked.check_steps(sent)
                self.assertEqual(checked, board)
            stepped = fresh.copy()
            self.assertEqual(stepped.step(StepNumber.SETTLING), (found.removed > 0, [], found.sweeps, found.removed))
            self.assertEqual(stepped, board)
            for number in WIDE:
                self.assertFalse(board.step(number).flag)
        self.assertEqual(kinds, set(Kind))

    def test_step_lists(self):
        # box 18 holds 1, 2 and 3 in row 0 alone
        steps = [Step(Kind.POINTING, (18, digit, 0)) for digit in (1, 2, 3)]
        self.assertEqual([bytes(step) for step in steps], [bytes([3, 18, digit, 0, 0, 0]) for digit in (1, 2, 3)])
        board = Board.read(P10)
        found = board.settle()
        self.assertEqual((found.sweeps, found.removed, found.steps), (2, 18, steps))
        settled = board.copy()
        for order in (steps, steps[::-1]):
            board.check_steps(order)
            self.assertEqual(board, settled)
        self.stopped(15, 1, lambda: board.check_steps([steps[0], steps[0]]), board)
        self.stopped(15, 1, lambda: board.check_steps(bytes(steps[0]) + b"\3"), board)
        self.stopped(15, 0, lambda: board.check_steps([Step(Kind.POINTING, (18, 4, 0))]), board)
        self.stopped(16, 730, lambda: board.check_steps(bytes(6 * 729 + 1)), board)
        board.check_steps([])
        self.assertEqual(board, Board.read(P10))
        with self.assertRaises(ValueError):
            bytes(Step(Kind.LONE, (1, 2, 3)))

    def test_difficulty(self):
        self.assertEqual(Board.read(P10).difficulty(), (0, 54, 75))
        board = Board.read(explain.EACH_KIND.decode())
        board.enter(45, 6)
        board.enter(72, 4)
        points = {"Lone": 1, "Place": 2, "Pair": 4, "Pointing": 3, "Claiming": 3, "Cross": 6}
        counts = dict.fromkeys(points, 0)
        givens = [clue or entry for clue, entry in zip(board.clues, board.entries)]
        for title, lost in station.settled(givens, station.fresh(givens))[1]:
            counts[title.split()[0]] += sum(map(len, lost.values()))
        total, cells = sum(points[kind] * counts[kind] for kind in counts), givens.count(0)
        self.assertEqual(board.difficulty(), (total // cells, total % cells, cells))
        self.assertEqual(board.settle().counts, list(counts.values()))
        self.assertEqual(board.difficulty(), (total // cells, total % cells, cells))
        full = Board.read(A)
        self.stopped(19, 0, full.difficulty, full)

    def test_trial_rounds(self):
        def kept(start, percentage):
            number = start % 2147483648
            for digit in numbers(A):
                number = (1103515245 * number + 12345) % 2147483648
                yield digit if number // 65536 % 100 < percentage else 0

        for start, percentage in ((0, 30), (1, 0), (4294967295, 50), (2147483648, 30), (7, 100)):
            self.assertEqual(sudoku.trial_round(start, percentage, numbers(A)), list(kept(start, percentage)))
        self.stopped(17, 101, lambda: sudoku.trial_round(0, 101, [0] * 81))
        self.stopped(18, 0, lambda: sudoku.trial_round(0, 100, [0] * 81))


class Module(Case):
    def test_what_does_not_fit(self):
        board = Board.read(P1)
        for wrong, call in (
            (OverflowError, lambda: Board([4294967301] + [0] * 80)),
            (OverflowError, lambda: board.enter(4294967296, 1)),
            (OverflowError, lambda: board.enter(-1, 1)),
            (OverflowError, lambda: board.enter(0, 4294967297)),
            (OverflowError, lambda: board.step(256)),
            (OverflowError, lambda: CandidateSet(65536).len()),
            (OverflowError, lambda: sudoku.trial_round(4294967296, 0, numbers(A))),
            (TypeError, lambda: board.enter("0", 1)),
            (TypeError, lambda: Board([0.0] * 81)),
            (TypeError, lambda: Board.read(81)),
            (ValueError, lambda: Board([0] * 80)),
            (ValueError, lambda: sudoku.verify([0] * 82)),
        ):
            self.assertRaises(wrong, call)
        self.assertEqual(board, Board.read(P1))
        board.masks.append(0)
        self.assertRaises(TypeError, board.settle)

    def test_the_header(self):
        text = re.sub(r"/\*.*?\*/", "", (ROOT / "include" / "sudoku.h").read_text(), flags=re.S)
        blocks = re.findall(r"enum (\w+) \{(.*?)\}", text, re.S)
        enums = {name: {key: int(value) for key, value in re.findall(r"(\w+) = (-?\d+)", body)} for name, body in blocks}
        sizes = enums.pop("sudoku_size")
        for key, value in sizes.items():
            self.assertEqual(getattr(sudoku, key.replace("SUDOKU_", "", 1)), value, key)
        self.assertEqual(list(enums.pop("sudoku_answer").values()), [0, 1, 2, 3])
        ours = {
            "sudoku_stop": ("STOP", sudoku.StopNumber),
            "sudoku_verdict": ("VERDICT", Verdict),
            "sudoku_question": ("ASK", sudoku.Question),
            "sudoku_step_number": ("STEP", StepNumber),
            "sudoku_kind": ("KIND", Kind),
            "sudoku_set_call": ("SET", sudoku.SetCall),
            "sudoku_single": ("SINGLE", Single),
        }
        self.assertEqual(enums, {name: {f"SUDOKU_{first}_{item.name}": item.value for item in kind} for name, (first, kind) in ours.items()})
        self.assertEqual(int(re.search(r"#define SUDOKU_ABI (\d+)u", text)[1]), sudoku.ABI)
        self.assertEqual(sudoku.abi(), sudoku.ABI)

        def kind(parameter):
            kept, brackets = re.fullmatch(r"(?:const )?(\w+ ?\*?)\w+(\[\w+\])?", " ".join(parameter.split())).groups()
            return kept.replace(" ", "") + re.sub(r"\w+", lambda size: str(sizes[size[0]]), brackets or "")

        functions = re.findall(r"\w+ (sudoku_\w+)\(([^)]*)\);", text)
        declared = {name: [kind(one) for one in parameters.split(",") if one != "void"] for name, parameters in functions}
        table = {"sudoku_" + name: [one.c_name for one in parameters] for name, parameters in sudoku._EXPORTS.items()}
        self.assertEqual(declared, {"sudoku_abi": [], **table})

    def test_the_docs(self):
        for found in (doctest.testmod(sudoku), doctest.testfile(str(ROOT / "README.md"), module_relative=False)):
            self.assertEqual((found.failed, found.attempted > 0), (0, True))


if __name__ == "__main__":
    unittest.main()
