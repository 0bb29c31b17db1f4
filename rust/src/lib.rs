//! A proved step engine for Sudoku scoring, for Rust: it reads grids, works out candidates, runs the named solving steps and checks filled grids. The
//! engine is the archive libsudoku.a, whose every function is proved to meet its contract; this crate is what calls it.
//!
//! ```
//! use sudoku::{Board, Digit, Verdict};
//!
//! let mut board = Board::read(".........456......789............................................................")?;
//! board.enter("r1c1".parse()?, Digit::try_from(1)?)?;
//!
//! let settled = board.settle();
//! let first = settled.steps().next().unwrap();
//! assert_eq!(first.to_string(), "Pair r1c2 r1c3 {2,3} in row 1");
//! assert_eq!(board.verdict(), Verdict::Open);
//!
//! let stop = board.enter("r2c1".parse()?, Digit::try_from(1)?).unwrap_err();
//! assert_eq!(stop.to_string(), "stop 12: the cell has a clue (the cell: r2c1)");
//! # Ok::<(), Box<dyn std::error::Error>>(())
//! ```
//!
//! What the engine refuses is a [`Stop`]. Nothing here panics whatever the input is, but all calls do where the archive that was linked has other
//! signatures than these. [`calls`] has the same on plain numbers.

#![deny(unsafe_code)]
#![warn(missing_docs)]

mod board;
pub mod calls;
mod candidate_set;
mod cell;
mod digit;
#[allow(unsafe_code)]
mod exports;
mod step;
mod stop;
mod unit;

pub use board::{Board, Difficulty, Settled, Stepped, Verdict};
pub use candidate_set::{CandidateSet, Digits, SingleCandidate};
pub use cell::{Cell, ParseCellError};
pub use digit::Digit;
pub use step::{Report, Step, StepNumber};
pub use stop::Stop;
pub use unit::{Unit, UnitKind};

use calls::Clues;

/// What a call answers that, by the types of what it is handed, has nothing to refuse.
fn unrefused<T, E: Into<Stop>>(answer: Result<T, E>) -> T {
    answer.unwrap_or_else(|stop| unreachable!("the engine refused what it takes: {}", stop.into()))
}

/// Whether 81 numbers are a correct filling: all from 1 to 9, none twice in a row, column or box.
///
/// ```
/// let mut grid = std::array::from_fn(|cell| ((cell / 9 * 3 + cell / 27 + cell % 9) % 9 + 1) as i32);
/// assert!(sudoku::verify(&grid));
/// grid.swap(0, 1); // two columns now hold a digit twice
/// assert!(!sudoku::verify(&grid));
/// ```
pub fn verify(grid: &Clues) -> bool {
    calls::verify(grid)
}

/// The card of a text, with or without one final line feed: the lines that the program `scorecard` prints.
///
/// ```
/// use sudoku::{card, Stop};
///
/// let text = ".........456......789............................................................";
/// assert_eq!(card(text)?, format!("clues 6\nreported 0\nsweeps 2\nremoved 18\nverdict open\nline {text}\n"));
/// # Ok::<(), Stop>(())
/// ```
///
/// # Errors
///
/// [`Stop::TextLength`], then [`Stop::OtherByte`], where the program prints `refused`.
pub fn card(input: impl AsRef<[u8]>) -> Result<String, Stop> {
    let mut card = [0; 256];
    let length = calls::card(input.as_ref(), &mut card)?;
    Ok(card.iter().take(length as usize).copied().map(char::from).collect())
}

/// A trial round: the digits of a solution that a generator of numbers, begun with `start`, keeps as clues, about `percentage` in a hundred. The same
/// three make the same round everywhere.
///
/// ```
/// use sudoku::{trial_round, Stop};
///
/// let solution = std::array::from_fn(|cell| ((cell / 9 * 3 + cell / 27 + cell % 9) % 9 + 1) as i32);
/// // of cell 0 the generator makes 0, and of cell 1 it makes 68
/// let clues = trial_round(0, 68, &solution)?;
/// assert_eq!(clues[..2], [1, 0]);
/// assert_eq!(trial_round(0, 101, &solution), Err(Stop::BadPercentage(101)));
/// # Ok::<(), Stop>(())
/// ```
///
/// # Errors
///
/// [`Stop::BadPercentage`], then [`Stop::BadSolution`].
pub fn trial_round(start: u32, percentage: u32, solution: &Clues) -> Result<Clues, Stop> {
    let mut clues = [0; 81];
    calls::trial_round(start, percentage, solution, &mut clues)?;
    Ok(clues)
}

/// The form of a record, for [`move_record`].
#[derive(Clone, Copy, Debug, PartialEq, Eq, Hash)]
pub enum RecordForm {
    /// Without an entry section, as records were written before there were entries.
    Old,
    /// With one, as [`Board::write_record`] writes and [`Board::read_record`] reads.
    New,
}

/// A record of the other form moved to this one.
///
/// ```
/// use sudoku::{move_record, RecordForm, Stop};
///
/// // no clues, no removed candidates; and the same with no entries between them
/// assert_eq!(move_record([0, 0, 0], RecordForm::New)?, [0, 0, 0, 0]);
/// assert_eq!(move_record([0, 0, 0, 0], RecordForm::Old)?, [0, 0, 0]);
/// # Ok::<(), Stop>(())
/// ```
///
/// # Errors
///
/// [`Stop::RecordBytes`], [`Stop::RecordEntry`] and [`Stop::RecordRemoval`]; to the old form [`Stop::RecordEntries`].
pub fn move_record(record: impl AsRef<[u8]>, to: RecordForm) -> Result<Vec<u8>, Stop> {
    let mut moved = vec![0; calls::RECORD];
    let length = calls::move_record(to == RecordForm::Old, record.as_ref(), &mut moved).map_err(Stop::in_record)?;
    moved.truncate(length as usize);
    Ok(moved)
}
