//! Refusals.

use std::error::Error;
use std::fmt;

use crate::calls::RawStop;
use crate::Cell;

/// A refusal: which stop it is, and what stands beside it. Whatever the call would have changed is then as it was. The names and the words are those of
/// include/sudoku.h.
///
/// ```
/// use sudoku::{Board, Stop};
///
/// let stop = Board::read("53..7....").unwrap_err();
/// assert_eq!(stop, Stop::TextLength(9));
/// assert_eq!((stop.number(), stop.detail()), (1, 9));
/// assert_eq!(stop.to_string(), "stop 1: a text is not of 81 bytes (its length: 9)");
/// ```
#[derive(Clone, Copy, Debug, PartialEq, Eq)]
#[non_exhaustive]
pub enum Stop {
    /// -1, a call, question or step number that stands for nothing: the number.
    NoNumber(i64),
    /// 1, a text is not of 81 bytes: its length.
    TextLength(usize),
    /// 2, a text or sheet has another byte: the first one's index.
    OtherByte(usize),
    /// 3, a clue is outside 0 to 9: the first such cell.
    BadClue(Cell),
    /// 4, a digit is outside 1 to 9: the digit.
    BadDigit(i32),
    /// 5, a cell is above 80: the cell.
    NoCell(u32),
    /// 6, too few bytes are lent: their number. The methods of this crate lend enough.
    TooFewBytes(usize),
    /// 7, a record's bytes are missing or left over: the offset of the first (of missing ones the length).
    RecordBytes(usize),
    /// 8, an entry beside a clue or outside 0 to 9: the first such cell.
    BadEntry(Cell),
    /// 8 in a record, a cell above 80, a digit outside 1 to 9, cells or candidates that do not rise, an entry on a clue: the offset.
    RecordEntry(usize),
    /// 9, a mask that does not fit: the first such cell.
    BadMask(Cell),
    /// 9 in a record, the removal of a candidate that is not fresh, or from a cell with a clue or an entry: the offset.
    RecordRemoval(usize),
    /// 10, a sheet is longer than 4,096 bytes: its length.
    SheetLength(usize),
    /// 11, a sheet has not 81 cells: their number.
    SheetCells(usize),
    /// 12, the cell has a clue: the cell.
    ClueCell(Cell),
    /// 13, the cell is already entered or, in rubbing out, is not: the cell.
    Entered(Cell),
    /// 14, a record with entries has no old form: the offset of its entry count.
    RecordEntries(usize),
    /// 15, a step names no instance, its condition does not hold, or it removes nothing: the first such step's index.
    BadStep(usize),
    /// 16, a list has more than 729 steps: their number.
    TooManySteps(usize),
    /// 17, a percentage is above 100: the percentage.
    BadPercentage(u32),
    /// 18, a solution does not pass the verifier.
    BadSolution,
    /// 19, no cell is open without an entry, so there is no figure.
    NoOpenCell,
    /// 20, a byte of the list is no step number: the first one's index. [`StepNumber`](crate::StepNumber) has no other.
    NoStep(usize),
    /// Another number than these, or one with another detail; no call answers so.
    Unknown(RawStop),
}

/// What stands beside a stop, with the words for it.
enum Beside {
    Number(&'static str, i64),
    Cell(&'static str, Cell),
    Nothing,
}

impl Stop {
    /// Its number in the table of stops.
    pub fn number(&self) -> i64 {
        self.parts().0
    }

    /// What stands beside it, as a number.
    pub fn detail(&self) -> i64 {
        match self.parts().2 {
            Beside::Number(_, number) => number,
            Beside::Cell(_, cell) => u32::from(cell).into(),
            Beside::Nothing => 0,
        }
    }

    /// The number, the words, and what stands beside them.
    fn parts(self) -> (i64, &'static str, Beside) {
        use Beside::{Cell, Nothing, Number};
        let size = |words, size: usize| Number(words, size as i64);
        match self {
            Stop::NoNumber(number) => (-1, "a call, question or step number that stands for nothing", Number("the number", number)),
            Stop::TextLength(length) => (1, "a text is not of 81 bytes", size("its length", length)),
            Stop::OtherByte(index) => (2, "a text or sheet has another byte", size("the first one's index", index)),
            Stop::BadClue(cell) => (3, "a clue is outside 0 to 9", Cell("the first such cell", cell)),
            Stop::BadDigit(digit) => (4, "a digit is outside 1 to 9", Number("the digit", digit.into())),
            Stop::NoCell(cell) => (5, "a cell is above 80", Number("the cell", cell.into())),
            Stop::TooFewBytes(number) => (6, "too few bytes are lent", size("their number", number)),
            Stop::RecordBytes(at) => (7, "a record's bytes are missing or left over", size("the offset of the first (of missing ones the length)", at)),
            Stop::BadEntry(cell) => (8, "an entry beside a clue or outside 0 to 9", Cell("the first such cell", cell)),
            Stop::RecordEntry(at) => {
                let words = "in a record, a cell above 80, a digit outside 1 to 9, cells or candidates that do not rise, an entry on a clue";
                (8, words, size("the offset", at))
            }
            Stop::BadMask(cell) => (9, "a mask that does not fit", Cell("the first such cell", cell)),
            Stop::RecordRemoval(at) => {
                let words = "in a record, the removal of a candidate that is not fresh, or from a cell with a clue or an entry";
                (9, words, size("the offset", at))
            }
            Stop::SheetLength(length) => (10, "a sheet is longer than 4,096 bytes", size("its length", length)),
            Stop::SheetCells(number) => (11, "a sheet has not 81 cells", size("their number", number)),
            Stop::ClueCell(cell) => (12, "the cell has a clue", Cell("the cell", cell)),
            Stop::Entered(cell) => (13, "the cell is already entered or, in rubbing out, is not", Cell("the cell", cell)),
            Stop::RecordEntries(at) => (14, "a record with entries has no old form", size("the offset of its entry count", at)),
            Stop::BadStep(index) => {
                let words = "a step names no instance, its condition does not hold, or it removes nothing";
                (15, words, size("the first such step's index", index))
            }
            Stop::TooManySteps(number) => (16, "a list has more than 729 steps", size("their number", number)),
            Stop::BadPercentage(percentage) => (17, "a percentage is above 100", Number("the percentage", percentage.into())),
            Stop::BadSolution => (18, "a solution does not pass the verifier", Nothing),
            Stop::NoOpenCell => (19, "no cell is open without an entry, so there is no figure", Nothing),
            Stop::NoStep(index) => (20, "a byte of the list is no step number", size("the first one's index", index)),
            Stop::Unknown(RawStop { number, detail }) => (number, "unknown", Number("beside it", detail)),
        }
    }

    /// The stop of its two numbers, where arrays are handed over.
    fn of(RawStop { number, detail }: RawStop) -> Option<Stop> {
        let size = || usize::try_from(detail).ok();
        let word = || u32::try_from(detail).ok();
        let cell = || Cell::try_from(word()?).ok();
        Some(match number {
            -1 => Stop::NoNumber(detail),
            1 => Stop::TextLength(size()?),
            2 => Stop::OtherByte(size()?),
            3 => Stop::BadClue(cell()?),
            4 => Stop::BadDigit(detail.try_into().ok()?),
            5 => Stop::NoCell(word()?),
            6 => Stop::TooFewBytes(size()?),
            7 => Stop::RecordBytes(size()?),
            8 => Stop::BadEntry(cell()?),
            9 => Stop::BadMask(cell()?),
            10 => Stop::SheetLength(size()?),
            11 => Stop::SheetCells(size()?),
            12 => Stop::ClueCell(cell()?),
            13 => Stop::Entered(cell()?),
            14 => Stop::RecordEntries(size()?),
            15 => Stop::BadStep(size()?),
            16 => Stop::TooManySteps(size()?),
            17 => Stop::BadPercentage(word()?),
            18 => Stop::BadSolution,
            19 => Stop::NoOpenCell,
            20 => Stop::NoStep(size()?),
            _ => return None,
        })
    }

    /// The stop of a call that read a record, where 8 and 9 have an offset beside them.
    pub(crate) fn in_record(raw: RawStop) -> Stop {
        match (raw.number, usize::try_from(raw.detail)) {
            (8, Ok(offset)) => Stop::RecordEntry(offset),
            (9, Ok(offset)) => Stop::RecordRemoval(offset),
            _ => raw.into(),
        }
    }
}

/// Of the calls on arrays; one that reads a record has an offset beside 8 and 9.
impl From<RawStop> for Stop {
    fn from(raw: RawStop) -> Self {
        Stop::of(raw).unwrap_or(Stop::Unknown(raw))
    }
}

impl fmt::Display for Stop {
    fn fmt(&self, f: &mut fmt::Formatter<'_>) -> fmt::Result {
        let (number, words, beside) = self.parts();
        write!(f, "stop {number}: {words}")?;
        match beside {
            Beside::Number(what, detail) => write!(f, " ({what}: {detail})"),
            Beside::Cell(what, cell) => write!(f, " ({what}: {cell})"),
            Beside::Nothing => Ok(()),
        }
    }
}

impl Error for Stop {}
