"""The Sudoku step engine for Python: the exports of host/README.md over ctypes, in one file without dependencies (x86-64 Linux).

    >>> import sudoku
    >>> board = sudoku.Board.read("53..7....6..195....98....6.8...6...34..8.3..17...2...6.6....28....419..5....8..79")
    >>> board.enter(2, 4)
    >>> settled = board.settle()
    >>> board.verdict().name
    'FINISHED'

A cell is 9 times row + column, both from 0; bit d - 1 of a mask says that digit d is a candidate. What the engine refuses is raised as `Stop`, and
the board is then as it was. A number that does not fit its C type is an OverflowError, and what is no number a TypeError, before the engine is called.
Where bytes are taken, a str stands for its UTF-8 bytes.

The shared library is looked for at the path in the variable SUDOKU_LIBRARY, then as libsudoku.so beside this file, then in the folder target of the
repository.
"""

import ctypes
import enum
import os
from array import array
from typing import NamedTuple

# The number of the signatures in `_EXPORTS`.
ABI = 5

CELLS = 81
ANSWERS = 4
REPORTS = 648
STEP_BYTES = 6
MOST_STEPS = 729
STEPS = 4374
PASSES = 6
TEXT = 81
SHEET = 90
MOST_SHEET = 4096
RECORD = 1786
CARD = 256


# ---- the numbers of the exports: the names of include/sudoku.h without their first parts


class StopNumber(enum.IntEnum):
    NO_NUMBER = -1
    NONE = 0
    TEXT_LENGTH = 1
    OTHER_BYTE = 2
    BAD_CLUE = 3
    BAD_DIGIT = 4
    NO_CELL = 5
    TOO_FEW_BYTES = 6
    RECORD_BYTES = 7
    BAD_ENTRY = 8
    BAD_MASK = 9
    SHEET_LENGTH = 10
    SHEET_CELLS = 11
    CLUE_CELL = 12
    ENTERED = 13
    RECORD_ENTRIES = 14
    BAD_STEP = 15
    TOO_MANY_STEPS = 16
    BAD_PERCENTAGE = 17
    BAD_SOLUTION = 18
    NO_OPEN_CELL = 19
    NO_STEP = 20


class Verdict(enum.IntEnum):
    DEAD = 0
    FINISHED = 1
    OPEN = 2


class Question(enum.IntEnum):
    CLUE_COUNT = 0
    VERDICT = 1
    CELL_MASK = 2


class StepNumber(enum.IntEnum):
    UPDATE_CANDIDATES = 0
    NAKED_PAIRS = 1
    BOX_LINE = 2
    X_WING = 3
    NAKED_SINGLES = 4
    HIDDEN_SINGLES = 5
    APPLY_ADVANCED_TECHNIQUES = 6
    LONE = 7
    PLACE = 8
    PAIR = 9
    POINTING = 10
    CROSS = 11
    SETTLING = 12
    CHAIN = 13
    CLAIMING = 14
    X_CHAIN = 15


class Kind(enum.IntEnum):
    LONE = 0
    PLACE = 1
    PAIR = 2
    POINTING = 3
    CLAIMING = 4
    CROSS = 5
    CROSS_EXCHANGED = 6


class SetCall(enum.IntEnum):
    NEW = 0
    FULL = 1
    SINGLE = 2
    CONTAINS = 3
    INSERT = 4
    REMOVE = 5
    CLEAR = 6
    LEN = 7
    IS_EMPTY = 8
    SINGLE_CANDIDATE = 9
    ITER = 10


class Single(enum.IntEnum):
    EMPTY = 0
    DIGIT = 1
    SEVERAL = 2


class Stop(Exception):
    """A refusal: the stop's number, its name in `StopNumber`, and what stands beside it."""

    def __init__(self, number, detail):
        super().__init__(number, detail)
        self.number, self.detail = StopNumber(number), detail

    @property
    def name(self):
        return self.number.name

    def __str__(self):
        return f"stop {self.number:d} ({self.name}), {self.detail}"


# ---- the exports


class _Number:
    """A parameter that is a number; ctypes alone would cut it to its width."""

    def __init__(self, c_name, code, kind):
        self.c_name, self.code, self.kind = c_name, code, kind

    def __call__(self, value):
        return self.kind(array(self.code, (value,))[0])


class _Array:
    """A parameter that is an array of so many numbers, lent as it is."""

    def __init__(self, number, length):
        self.c_name, self.code, self.length, self.kind = f"{number.c_name}[{length}]", number.code, length, number.kind * length

    def __call__(self, value):
        if not isinstance(value, array) or value.typecode != self.code or len(value) != self.length:
            raise TypeError(f"an array of type {self.code!r} and length {self.length} is needed")
        return self.kind.from_buffer(value)


class _Bytes:
    """A parameter that leads to bytes, which are read or, in a buffer of ctypes, written."""

    c_name = "uint8_t*"

    def __call__(self, value):
        return ctypes.c_char_p(value) if isinstance(value, bytes) else value


_U8, _U16 = _Number("uint8_t", "B", ctypes.c_uint8), _Number("uint16_t", "H", ctypes.c_uint16)
_I32, _U32 = _Number("int32_t", "i", ctypes.c_int32), _Number("uint32_t", "I", ctypes.c_uint32)
_I64, _U64 = _Number("int64_t", "q", ctypes.c_int64), _Number("uint64_t", "Q", ctypes.c_uint64)
_BOOL = _Number("sudoku_bool", "B", ctypes.c_bool)
_GRID, _MASKS, _ANSWER = _Array(_I32, CELLS), _Array(_U16, CELLS), _Array(_I64, ANSWERS)
_BOARD = [_GRID, _GRID, _MASKS]
_BYTES = [_Bytes(), _U64]

_EXPORTS = {
    "verify": [_GRID],
    "set": [_U8, _U16, _I32, _ANSWER],
    "next": [_U16, _U8, _ANSWER],
    "read": [*_BYTES, _GRID, _ANSWER],
    "write_text": [_GRID, *_BYTES, _ANSWER],
    "read_sheet": [*_BYTES, _GRID, _ANSWER],
    "write_sheet": [_GRID, *_BYTES, _ANSWER],
    "open": [_GRID, _MASKS, _ANSWER],
    "enter": [_U32, _I32, *_BOARD, _ANSWER],
    "rub_out": [_U32, *_BOARD, _ANSWER],
    "ask": [_U8, _U32, *_BOARD, _ANSWER],
    "original_puzzle": [*_BOARD, _GRID, _ANSWER],
    "get_candidates": [*_BOARD, _MASKS, _ANSWER],
    "step": [_U8, *_BOARD, _Array(_U8, REPORTS), _ANSWER],
    "run": [*_BYTES, *_BOARD, _ANSWER],
    "settle": [*_BOARD, _Array(_U8, STEPS), _Array(_U64, PASSES), _ANSWER],
    "difficulty": [*_BOARD, _ANSWER],
    "check_steps": [*_BYTES, *_BOARD, _ANSWER],
    "write_record": [*_BOARD, *_BYTES, _ANSWER],
    "read_record": [*_BYTES, *_BOARD, _ANSWER],
    "move_record": [_BOOL, *_BYTES, *_BYTES, _ANSWER],
    "trial_round": [_U32, _U32, _GRID, _GRID, _ANSWER],
    "card": [*_BYTES, _Array(_U8, CARD), _ANSWER],
}


def _path():
    here = os.path.dirname(os.path.abspath(__file__))
    places = [os.path.join(here, "libsudoku.so"), os.path.join(os.path.dirname(here), "target", "libsudoku.so")]
    return os.environ.get("SUDOKU_LIBRARY") or next(filter(os.path.exists, places), "libsudoku.so")


def _library():
    # a PyDLL keeps other threads of Python from a board while a call works on it
    library = ctypes.PyDLL(_path())
    library.sudoku_abi.restype, library.sudoku_verify.restype = _U32.kind, _BOOL.kind
    if library.sudoku_abi() != ABI:
        raise ImportError(f"{_path()} has the signatures {library.sudoku_abi()}, this module those of {ABI}")
    for name in _EXPORTS.keys() - {"verify"}:
        getattr(library, "sudoku_" + name).restype = None
    return library


_LIBRARY = _library()


def _export(name, *values):
    """An export by its name; nothing is called with a parameter that it does not take."""
    parameters = _EXPORTS[name]
    if len(values) != len(parameters):
        raise TypeError(f"sudoku_{name} takes {len(parameters)} parameters, not {len(values)}")
    return getattr(_LIBRARY, "sudoku_" + name)(*[parameter(value) for parameter, value in zip(parameters, values)])


def _call(name, *values):
    """The four numbers of an answer; a stop is raised."""
    answer = _zeros(_I64, ANSWERS)
    _export(name, *values, answer)
    if answer[0]:
        raise Stop(answer[0], answer[1])
    return answer


def _numbers(kind, values, length=CELLS):
    """So many numbers in an array of their own."""
    numbers = array(kind.code, list(values))
    if len(numbers) != length:
        raise ValueError(f"{length} numbers are needed, not {len(numbers)}")
    return numbers


def _zeros(kind, length=CELLS):
    return _numbers(kind, [0] * length, length)


def _read(data):
    """The two parameters of bytes that are read."""
    held = data.encode("utf-8", "surrogateescape") if isinstance(data, str) else memoryview(data).tobytes()
    return held, len(held)


def _written(length, call):
    """The bytes that a call wrote into so many lent ones."""
    room = ctypes.create_string_buffer(length)
    count = call(room, length)[2]
    return room.raw[:count]


# ---- steps


def _cell(cell):
    return f"r{cell // 9 + 1}c{cell % 9 + 1}"


def _unit(unit):
    return f"{('row', 'column', 'box')[unit // 9]} {unit % 9 + 1}"


def _lines(first, second):
    return f"{('rows', 'columns')[first // 9]} {first % 9 + 1} {second % 9 + 1}"


# of each kind, how many parts it has, and its words
_KINDS = {
    Kind.LONE: (2, lambda cell, digit: f"Lone {_cell(cell)} {digit}"),
    Kind.PLACE: (3, lambda unit, digit, cell: f"Place {_cell(cell)} {digit} in {_unit(unit)}"),
    Kind.PAIR: (5, lambda unit, p, q, a, b: f"Pair {_cell(p)} {_cell(q)} {{{a},{b}}} in {_unit(unit)}"),
    Kind.POINTING: (3, lambda box, digit, line: f"Pointing {digit} in {_unit(box)} along {_unit(line)}"),
    Kind.CLAIMING: (3, lambda line, digit, box: f"Claiming {digit} in {_unit(line)} within {_unit(box)}"),
    Kind.CROSS: (5, lambda digit, i, j, a, b: f"Cross {digit} in {_lines(i, j)} at {_lines(a, b)}"),
    Kind.CROSS_EXCHANGED: (5, lambda digit, i, j, a, b: f"Cross {digit} in {_lines(i, j)} at {_lines(a, b)}"),
}


class Step(NamedTuple):
    """An instance of a wide pass: its kind and its parts, in the order of host/README.md. `bytes(step)` are its six bytes, `str(step)` its words, as the
    program explain has them."""

    kind: Kind
    parts: tuple

    def __bytes__(self):
        if len(self.parts) != _KINDS[self.kind][0]:
            raise ValueError(f"{Kind(self.kind).name} has {_KINDS[self.kind][0]} parts, not {len(self.parts)}")
        return bytes([self.kind, *self.parts]).ljust(STEP_BYTES, b"\0")

    def __str__(self):
        return _KINDS[self.kind][1](*self.parts)

    @classmethod
    def of(cls, six):
        """The step of six bytes, as settling hands them back."""
        kind = Kind(six[0])
        return cls(kind, tuple(six[1 : 1 + _KINDS[kind][0]]))


class Settled(NamedTuple):
    """What settling counts, the last sweep too, its steps that removed something, and the candidates that each wide pass removed, in a sweep's order."""

    sweeps: int
    removed: int
    steps: list
    counts: list


class Difficulty(NamedTuple):
    """Points divided by cells: the whole quotient and the remainder, which is below the cells."""

    quotient: int
    remainder: int
    cells: int


class Stepped(NamedTuple):
    """What a board call answers: whether there was progress, and the reports, each a cell and a digit. Sweeps and removed are settling's alone."""

    flag: bool
    reports: list
    sweeps: int = None
    removed: int = None


# ---- boards


class Board:
    """The printed clues, the entries and the masks, 81 each, 0 where a cell has no clue or no entry. Without masks it is the fresh board of clues and
    entries; masks that are handed in are checked by each call, not here."""

    def __init__(self, clues, entries=None, masks=None):
        self._clues = _numbers(_I32, clues)
        self._entries = _zeros(_I32) if entries is None else _numbers(_I32, entries)
        self._masks = _zeros(_U16) if masks is None else _numbers(_U16, masks)
        if masks is None:
            self.run([])

    @classmethod
    def read(cls, text):
        """The fresh board of a text of 81 characters."""
        clues = _zeros(_I32)
        _call("read", *_read(text), clues)
        return cls(clues)

    @classmethod
    def read_sheet(cls, sheet):
        """The fresh board of a pasted sheet."""
        clues = _zeros(_I32)
        _call("read_sheet", *_read(sheet), clues)
        return cls(clues)

    @classmethod
    def read_record(cls, record):
        """The board that a record was written of."""
        clues, entries, masks = _zeros(_I32), _zeros(_I32), _zeros(_U16)
        _call("read_record", *_read(record), clues, entries, masks)
        return cls(clues, entries, masks)

    @classmethod
    def open(cls, clues):
        """The fresh board of clues, without entries."""
        clues, masks = _numbers(_I32, clues), _zeros(_U16)
        _call("open", clues, masks)
        return cls(clues, masks=masks)

    @property
    def clues(self):
        return self._clues

    @property
    def entries(self):
        return self._entries

    @property
    def masks(self):
        return self._masks

    @property
    def _lent(self):
        return self._clues, self._entries, self._masks

    def __eq__(self, other):
        return self._lent == other._lent if isinstance(other, Board) else NotImplemented

    __hash__ = None

    def __repr__(self):
        return f"Board({self._clues.tolist()}, {self._entries.tolist()}, {self._masks.tolist()})"

    def copy(self):
        return Board(*self._lent)

    # -- entries

    def enter(self, cell, digit):
        """Enters a digit in an open cell; the masks are then those of the board worked out afresh."""
        _call("enter", cell, digit, *self._lent)

    def rub_out(self, cell):
        """Rubs a cell's entry out, likewise."""
        _call("rub_out", cell, *self._lent)

    # -- questions

    def clue_count(self):
        """How many printed clues there are."""
        return _call("ask", Question.CLUE_COUNT, 0, *self._lent)[2]

    def verdict(self):
        return Verdict(_call("ask", Question.VERDICT, 0, *self._lent)[2])

    def cell_mask(self, cell):
        return _call("ask", Question.CELL_MASK, cell, *self._lent)[2]

    def original_puzzle(self):
        """The printed clues."""
        puzzle = _zeros(_I32)
        _call("original_puzzle", *self._lent, puzzle)
        return puzzle.tolist()

    def get_candidates(self):
        candidates = _zeros(_U16)
        _call("get_candidates", *self._lent, candidates)
        return candidates.tolist()

    # -- steps

    def step(self, number):
        """A board call by its step number (`StepNumber`)."""
        reports = _zeros(_U8, REPORTS)
        _, _, value, second = _call("step", number, *self._lent, reports)
        if number == StepNumber.SETTLING:
            return Stepped(second > 0, [], value, second)
        return Stepped(value == 1, [(reports[2 * i], reports[2 * i + 1]) for i in range(second)])

    def run(self, numbers):
        """A list of step numbers from the fresh board of clues and entries, whatever the masks are."""
        _call("run", *_read(array("B", numbers)), *self._lent)

    def settle(self):
        """Sweeps of the six wide passes until one removes nothing."""
        steps, counts = _zeros(_U8, STEPS), _zeros(_U64, PASSES)
        _, count, sweeps, removed = _call("settle", *self._lent, steps, counts)
        return Settled(sweeps, removed, [Step.of(steps[STEP_BYTES * i : STEP_BYTES * (i + 1)]) for i in range(count)], counts.tolist())

    def difficulty(self):
        """The figure of the fresh board of clues and entries."""
        _, cells, quotient, remainder = _call("difficulty", *self._lent)
        return Difficulty(quotient, remainder, cells)

    def check_steps(self, steps):
        """Checks steps, or their bytes, from the fresh board of clues and entries; the board is then the final one."""
        data = steps if isinstance(steps, (bytes, bytearray, memoryview)) else b"".join(map(bytes, steps))
        _call("check_steps", *_read(data), *self._lent)

    # -- written

    def write_text(self):
        """The text of the printed clues, `.` for an open cell."""
        return _written(TEXT, lambda *room: _call("write_text", self._clues, *room)).decode()

    def write_sheet(self):
        """The canonical sheet of the printed clues: nine lines of nine characters."""
        return _written(SHEET, lambda *room: _call("write_sheet", self._clues, *room)).decode()

    def write_record(self):
        """The board's record, to be kept and read again."""
        return _written(RECORD, lambda *room: _call("write_record", *self._lent, *room))


# ---- what is no board's


def abi():
    """The number of the library's signatures, which was held to `ABI` when this module was loaded."""
    return _LIBRARY.sudoku_abi()


def verify(grid):
    """Whether 81 numbers are a correct filling."""
    return _export("verify", _numbers(_I32, grid))


def move_record(record, back=False):
    """An old record, without an entry section, in the new form, or a new one back in the old form."""
    return _written(RECORD, lambda *room: _call("move_record", bool(back), *_read(record), *room))


def trial_round(start, percentage, solution):
    """The clues that a trial round keeps of a solution."""
    clues = _zeros(_I32)
    _call("trial_round", start, percentage, _numbers(_I32, solution), clues)
    return clues.tolist()


def card(data):
    """The card of what the program scorecard would read; where the program prints `refused N P`, the stop N with P."""
    lines = _zeros(_U8, CARD)
    count = _call("card", *_read(data), lines)[2]
    return lines[:count].tobytes().decode()


class CandidateSet:
    """A set of digits, by its mask."""

    def __init__(self, mask=0):
        self.mask = mask

    def __eq__(self, other):
        return self.mask == other.mask if isinstance(other, CandidateSet) else NotImplemented

    __hash__ = None

    def __repr__(self):
        return f"CandidateSet({self.mask})"

    def _set(self, call, digit=0):
        answer = _call("set", call, self.mask, digit)
        self.mask = answer[3]
        return answer

    @classmethod
    def new(cls):
        return cls(_call("set", SetCall.NEW, 0, 0)[3])

    @classmethod
    def full(cls):
        return cls(_call("set", SetCall.FULL, 0, 0)[3])

    @classmethod
    def single(cls, digit):
        return cls(_call("set", SetCall.SINGLE, 0, digit)[3])

    def contains(self, digit):
        return self._set(SetCall.CONTAINS, digit)[2] == 1

    def insert(self, digit):
        self._set(SetCall.INSERT, digit)

    def remove(self, digit):
        """Whether the digit was there."""
        return self._set(SetCall.REMOVE, digit)[2] == 1

    def clear(self):
        self._set(SetCall.CLEAR)

    def len(self):
        return self._set(SetCall.LEN)[2]

    def is_empty(self):
        return self._set(SetCall.IS_EMPTY)[2] == 1

    def single_candidate(self):
        """The digit, `Single.EMPTY` or `Single.SEVERAL`."""
        _, which, digit, _ = self._set(SetCall.SINGLE_CANDIDATE)
        return digit if which == Single.DIGIT else Single(which)

    def iter(self):
        """The digits, rising."""
        mask, place = _call("set", SetCall.ITER, self.mask, 0)[3], 0
        while True:
            _, place, digit, mask = _call("next", mask, place)
            if not digit:
                return
            yield digit

    __contains__, __len__, __iter__ = contains, len, iter
