//! What the engine is compared with, and the comparison. The engine is called on plain numbers, by ../rust/src/calls.rs.

pub mod cases;
pub mod clothes_cases;
pub mod figure_cases;
pub mod grids;
pub mod oracle;
pub mod plain;
pub mod random;
pub mod record_cases;
pub mod records;
pub mod round_cases;
pub mod sheet_cases;
pub mod shrink;
pub mod sides;
pub mod step_cases;
pub mod step_lists;
pub mod text_cases;

pub use sudoku::calls::{abi, card, cell_mask, check_steps, clue_count, difficulty, digits, enter, get_candidates, move_record, open, original_puzzle};
pub use sudoku::calls::{read, read_record, read_sheet, rub_out, run, set, settle, single_candidate, step, trial_round, verify};
pub use sudoku::calls::{write_record, write_sheet, write_text, RawBoard as Board, RawStop as Stop, SetAnswer, SetCall, SettledCounts};
pub use sudoku::calls::{CardBytes, Clues, Entries, Masks, PassCounts, ReportBytes, StepBytes, ABI, NO_ENTRIES};

/// With digits of any numbers.
pub type SingleCandidate = sudoku::SingleCandidate<i32>;

/// The verdict in its word.
pub fn verdict(board: &Board) -> Result<&'static str, Stop> {
    Ok(sudoku::calls::verdict(board)?.word())
}

/// How many of 81 numbers are clues, which the readers answer.
pub fn counted(clues: &Clues) -> i64 {
    clues.iter().filter(|&&clue| clue != 0).count() as i64
}
