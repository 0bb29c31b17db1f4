//! Cells.

use std::error::Error;
use std::fmt;
use std::str::FromStr;

use crate::{Stop, Unit, UnitKind};

/// One of the 81 cells. It is written `r5c2` for row 5, column 2, both from 1, and read so.
///
/// ```
/// use sudoku::{Cell, Stop};
///
/// let cell: Cell = "r5c2".parse()?;
/// assert_eq!(Some(cell), Cell::at(5, 2));
/// assert_eq!(cell.index(), 37);
/// assert_eq!(cell.block().to_string(), "box 4");
/// assert_eq!(Cell::try_from(81), Err(Stop::NoCell(81)));
/// # Ok::<(), sudoku::ParseCellError>(())
/// ```
#[derive(Clone, Copy, Debug, PartialEq, Eq, PartialOrd, Ord, Hash)]
pub struct Cell(u8);

impl Cell {
    /// The cell in a row and a column, both from 1 to 9.
    pub fn at(row: u8, column: u8) -> Option<Cell> {
        let lines = 1..=9;
        (lines.contains(&row) && lines.contains(&column)).then(|| Cell(9 * (row - 1) + (column - 1)))
    }

    /// All cells, row by row.
    pub fn all() -> impl DoubleEndedIterator<Item = Cell> + ExactSizeIterator + Clone {
        (0..81).map(Cell)
    }

    /// Its number from 0 to 80: 9 times row + column, both from 0.
    pub fn index(self) -> usize {
        self.0.into()
    }

    /// Its row.
    pub fn row(self) -> Unit {
        Unit::from_parts(UnitKind::Row, self.0 / 9)
    }

    /// Its column.
    pub fn column(self) -> Unit {
        Unit::from_parts(UnitKind::Column, self.0 % 9)
    }

    /// Its box.
    pub fn block(self) -> Unit {
        Unit::from_parts(UnitKind::Box, self.0 / 27 * 3 + self.0 % 9 / 3)
    }
}

/// By its number; one above 80 is [`Stop::NoCell`].
impl TryFrom<u32> for Cell {
    type Error = Stop;

    fn try_from(number: u32) -> Result<Self, Stop> {
        match u8::try_from(number) {
            Ok(cell @ 0..=80) => Ok(Cell(cell)),
            _ => Err(Stop::NoCell(number)),
        }
    }
}

impl From<Cell> for u8 {
    fn from(cell: Cell) -> u8 {
        cell.0
    }
}

impl From<Cell> for u32 {
    fn from(cell: Cell) -> u32 {
        cell.0.into()
    }
}

impl fmt::Display for Cell {
    fn fmt(&self, f: &mut fmt::Formatter<'_>) -> fmt::Result {
        write!(f, "r{}c{}", self.row().number(), self.column().number())
    }
}

impl FromStr for Cell {
    type Err = ParseCellError;

    fn from_str(word: &str) -> Result<Self, ParseCellError> {
        let &[b'r', row, b'c', column] = word.as_bytes() else { return Err(ParseCellError) };
        Cell::at(row.wrapping_sub(b'0'), column.wrapping_sub(b'0')).ok_or(ParseCellError)
    }
}

/// A word that is no cell.
#[derive(Clone, Copy, Debug, PartialEq, Eq)]
pub struct ParseCellError;

impl fmt::Display for ParseCellError {
    fn fmt(&self, f: &mut fmt::Formatter<'_>) -> fmt::Result {
        f.write_str("no cell, such as r5c2")
    }
}

impl Error for ParseCellError {}
