//! Steps: the board calls, and the instances of the wide passes.

use std::fmt;

use crate::calls::STEP_BYTES;
use crate::{Cell, Digit, Stop, Unit, UnitKind};

/// The board calls, by their step numbers.
#[derive(Clone, Copy, Debug, PartialEq, Eq, Hash)]
#[repr(u8)]
pub enum StepNumber {
    /// The masks worked out afresh.
    UpdateCandidates = 0,
    /// Naked pairs, as ported.
    NakedPairs = 1,
    /// Box-line, as ported.
    BoxLine = 2,
    /// X-wing, as ported.
    XWing = 3,
    /// Reports the cells with one candidate.
    NakedSingles = 4,
    /// Reports the digits with one place in a unit.
    HiddenSingles = 5,
    /// Reports both kinds of singles and removes by naked pairs, as ported.
    ApplyAdvancedTechniques = 6,
    /// The wide pass Lone.
    Lone = 7,
    /// The wide pass Place.
    Place = 8,
    /// The wide pass Pair.
    Pair = 9,
    /// The wide pass Pointing.
    Pointing = 10,
    /// The wide pass Cross.
    Cross = 11,
    /// Sweeps of the six wide passes until one removes nothing; [`Board::settle`](crate::Board::settle) tells more of it.
    Settling = 12,
    /// The ported chain pass, which can cost a correct filling.
    Chain = 13,
    /// The wide pass Claiming.
    Claiming = 14,
    /// X-chains, as published.
    XChain = 15,
}

impl StepNumber {
    /// All of them, by their numbers.
    pub const ALL: [StepNumber; 16] = [
        StepNumber::UpdateCandidates,
        StepNumber::NakedPairs,
        StepNumber::BoxLine,
        StepNumber::XWing,
        StepNumber::NakedSingles,
        StepNumber::HiddenSingles,
        StepNumber::ApplyAdvancedTechniques,
        StepNumber::Lone,
        StepNumber::Place,
        StepNumber::Pair,
        StepNumber::Pointing,
        StepNumber::Cross,
        StepNumber::Settling,
        StepNumber::Chain,
        StepNumber::Claiming,
        StepNumber::XChain,
    ];
}

/// By its number; another one is [`Stop::NoNumber`].
impl TryFrom<u8> for StepNumber {
    type Error = Stop;

    fn try_from(number: u8) -> Result<Self, Stop> {
        StepNumber::ALL.get(usize::from(number)).copied().ok_or(Stop::NoNumber(number.into()))
    }
}

/// A single that a step reported: the digit in its cell. It is written `r5c2=7`.
#[derive(Clone, Copy, Debug, PartialEq, Eq, Hash)]
pub struct Report {
    /// Where.
    pub cell: Cell,
    /// Which digit.
    pub digit: Digit,
}

impl Report {
    pub(crate) fn from_bytes([at, digit]: [u8; 2]) -> Option<Report> {
        Some(Report { cell: cell(at)?, digit: self::digit(digit)? })
    }
}

impl fmt::Display for Report {
    fn fmt(&self, f: &mut fmt::Formatter<'_>) -> fmt::Result {
        write!(f, "{}={}", self.cell, self.digit)
    }
}

/// An instance of a wide pass, as settling tells it and setters' lists have it: a technique at a place. It is written in the words of the program
/// `explain`.
///
/// ```
/// use sudoku::{Cell, Digit, Step};
///
/// let step = Step::from_bytes([1, 5, 6, 45, 0, 0]).unwrap();
/// assert!(matches!(step, Step::Place { digit, .. } if digit == Digit::ALL[5]));
/// assert_eq!(step.to_string(), "Place r6c1 6 in row 6");
/// assert_eq!(step.to_bytes(), [1, 5, 6, 45, 0, 0]);
/// assert_eq!(Step::from_bytes([1, 27, 6, 45, 0, 0]), None); // units go up to 26
/// ```
#[derive(Clone, Copy, Debug, PartialEq, Eq, Hash)]
#[allow(missing_docs)] // of the parts: their types and names say it
pub enum Step {
    /// The cell holds nothing but the digit, or nothing: the cells that it sees lose the digit.
    Lone { cell: Cell, digit: Digit },
    /// No other cell of the unit holds the digit: the cell loses all others.
    Place { unit: Unit, digit: Digit, cell: Cell },
    /// Both cells, rising, hold nothing but the two digits, rising: the unit's other cells lose both.
    Pair { unit: Unit, cells: [Cell; 2], digits: [Digit; 2] },
    /// All cells of the box that hold the digit are in the row or column: the other cells of that line lose it.
    Pointing { block: Unit, digit: Digit, line: Unit },
    /// All cells of the row or column that hold the digit are in the box: the other cells of the box lose it.
    Claiming { line: Unit, digit: Digit, block: Unit },
    /// All cells of the two rows that hold the digit are in the two columns, all rising: the other cells of the columns lose it.
    Cross { digit: Digit, rows: [Unit; 2], columns: [Unit; 2] },
    /// The same with rows and columns exchanged.
    CrossExchanged { digit: Digit, columns: [Unit; 2], rows: [Unit; 2] },
}

fn cell(byte: u8) -> Option<Cell> {
    Cell::try_from(u32::from(byte)).ok()
}

fn digit(byte: u8) -> Option<Digit> {
    Digit::try_from(i32::from(byte)).ok()
}

fn row(byte: u8) -> Option<Unit> {
    Unit::from_index(byte).filter(|unit| unit.kind() == UnitKind::Row)
}

fn column(byte: u8) -> Option<Unit> {
    Unit::from_index(byte).filter(|unit| unit.kind() == UnitKind::Column)
}

fn line(byte: u8) -> Option<Unit> {
    row(byte).or_else(|| column(byte))
}

fn block(byte: u8) -> Option<Unit> {
    Unit::from_index(byte).filter(|unit| unit.kind() == UnitKind::Box)
}

fn two<T>(part: fn(u8) -> Option<T>, first: u8, second: u8) -> Option<[T; 2]> {
    Some([part(first)?, part(second)?])
}

impl Step {
    /// The six bytes of the step: its kind, its parts, and zeros.
    pub fn to_bytes(self) -> [u8; STEP_BYTES] {
        match self {
            Step::Lone { cell, digit } => [0, cell.into(), digit.into(), 0, 0, 0],
            Step::Place { unit, digit, cell } => [1, unit.index(), digit.into(), cell.into(), 0, 0],
            Step::Pair { unit, cells: [p, q], digits: [a, b] } => [2, unit.index(), p.into(), q.into(), a.into(), b.into()],
            Step::Pointing { block, digit, line } => [3, block.index(), digit.into(), line.index(), 0, 0],
            Step::Claiming { line, digit, block } => [4, line.index(), digit.into(), block.index(), 0, 0],
            Step::Cross { digit, rows: [i, j], columns: [a, b] } => [5, digit.into(), i.index(), j.index(), a.index(), b.index()],
            Step::CrossExchanged { digit, columns: [i, j], rows: [a, b] } => [6, digit.into(), i.index(), j.index(), a.index(), b.index()],
        }
    }

    /// The step of six bytes, where they are a kind and its parts. Whether these go together, as the two cells of a pair do that rise and are in its
    /// unit, is for [`Board::check_steps`](crate::Board::check_steps) to say.
    pub fn from_bytes(six: [u8; STEP_BYTES]) -> Option<Step> {
        Some(match six {
            [0, at, d, 0, 0, 0] => Step::Lone { cell: cell(at)?, digit: digit(d)? },
            [1, u, d, at, 0, 0] => Step::Place { unit: Unit::from_index(u)?, digit: digit(d)?, cell: cell(at)? },
            [2, u, p, q, a, b] => Step::Pair { unit: Unit::from_index(u)?, cells: two(cell, p, q)?, digits: two(digit, a, b)? },
            [3, u, d, l, 0, 0] => Step::Pointing { block: block(u)?, digit: digit(d)?, line: line(l)? },
            [4, l, d, u, 0, 0] => Step::Claiming { line: line(l)?, digit: digit(d)?, block: block(u)? },
            [5, d, i, j, a, b] => Step::Cross { digit: digit(d)?, rows: two(row, i, j)?, columns: two(column, a, b)? },
            [6, d, i, j, a, b] => Step::CrossExchanged { digit: digit(d)?, columns: two(column, i, j)?, rows: two(row, a, b)? },
            _ => return None,
        })
    }
}

impl fmt::Display for Step {
    fn fmt(&self, f: &mut fmt::Formatter<'_>) -> fmt::Result {
        match self {
            Step::Lone { cell, digit } => write!(f, "Lone {cell} {digit}"),
            Step::Place { unit, digit, cell } => write!(f, "Place {cell} {digit} in {unit}"),
            Step::Pair { unit, cells: [p, q], digits: [a, b] } => write!(f, "Pair {p} {q} {{{a},{b}}} in {unit}"),
            Step::Pointing { block, digit, line } => write!(f, "Pointing {digit} in {block} along {line}"),
            Step::Claiming { line, digit, block } => write!(f, "Claiming {digit} in {line} within {block}"),
            Step::Cross { digit, rows, columns } => write!(f, "Cross {digit} in {} at {}", lines(rows), lines(columns)),
            Step::CrossExchanged { digit, columns, rows } => write!(f, "Cross {digit} in {} at {}", lines(columns), lines(rows)),
        }
    }
}

/// Two lines of a kind: `rows 4 9`.
fn lines([first, second]: &[Unit; 2]) -> String {
    format!("{}s {} {}", first.kind(), first.number(), second.number())
}
