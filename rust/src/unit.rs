//! Rows, columns and boxes.

use std::fmt;

use crate::Cell;

/// What a unit is.
#[derive(Clone, Copy, Debug, PartialEq, Eq, PartialOrd, Ord, Hash)]
pub enum UnitKind {
    /// A row.
    Row,
    /// A column.
    Column,
    /// A box.
    Box,
}

impl fmt::Display for UnitKind {
    fn fmt(&self, f: &mut fmt::Formatter<'_>) -> fmt::Result {
        f.pad(match self {
            UnitKind::Row => "row",
            UnitKind::Column => "column",
            UnitKind::Box => "box",
        })
    }
}

/// A row, a column or a box. It is written `row 5`, numbered from 1.
///
/// ```
/// use sudoku::{Cell, Unit, UnitKind};
///
/// let centre = Unit::new(UnitKind::Box, 5).unwrap();
/// assert_eq!(centre.to_string(), "box 5");
/// assert_eq!(centre.cells().next(), Cell::at(4, 4));
/// assert_eq!(Unit::new(UnitKind::Row, 10), None);
/// ```
#[derive(Clone, Copy, Debug, PartialEq, Eq, PartialOrd, Ord, Hash)]
pub struct Unit {
    kind: UnitKind,
    place: u8,
}

impl Unit {
    /// The unit of a kind and its number from 1 to 9.
    pub fn new(kind: UnitKind, number: u8) -> Option<Unit> {
        (1..=9).contains(&number).then(|| Unit { kind, place: number - 1 })
    }

    /// `place` is below 9.
    pub(crate) fn from_parts(kind: UnitKind, place: u8) -> Unit {
        Unit { kind, place }
    }

    /// The unit of an index: rows 0 to 8, columns 9 to 17, boxes 18 to 26.
    pub fn from_index(index: u8) -> Option<Unit> {
        let kind = match index {
            0..=8 => UnitKind::Row,
            9..=17 => UnitKind::Column,
            18..=26 => UnitKind::Box,
            _ => return None,
        };
        Some(Unit { kind, place: index % 9 })
    }

    /// Its index among all units, as [`Unit::from_index`] has it.
    pub fn index(self) -> u8 {
        9 * self.kind as u8 + self.place
    }

    /// Whether it is a row, a column or a box.
    pub fn kind(self) -> UnitKind {
        self.kind
    }

    /// Its number among those of its kind, from 1 to 9.
    pub fn number(self) -> u8 {
        self.place + 1
    }

    /// Its nine cells, rising.
    pub fn cells(self) -> impl Iterator<Item = Cell> + Clone {
        Cell::all().filter(move |cell| [cell.row(), cell.column(), cell.block()].contains(&self))
    }
}

impl fmt::Display for Unit {
    fn fmt(&self, f: &mut fmt::Formatter<'_>) -> fmt::Result {
        write!(f, "{} {}", self.kind, self.number())
    }
}
