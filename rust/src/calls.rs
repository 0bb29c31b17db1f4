//! The exports as safe functions on plain numbers, for whoever hands over any numbers: the comparison, and stations that keep the three arrays
//! themselves. What is wrong with the numbers is answered with a stop, and what is lent keeps its contents then. host/README.md says what each writes.
//!
//! The types of the crate's root are made of these. All but [`abi`] panic where the archive that was linked has other signatures than [`ABI`].

use crate::exports::{self, Answer};
pub use crate::exports::{CardBytes, Clues, Entries, Masks, PassCounts, ReportBytes, StepBytes, ABI};
use crate::{Difficulty, SingleCandidate, Verdict};

/// Bytes of a text.
pub const TEXT: usize = 81;
/// Bytes of a canonical sheet.
pub const SHEET: usize = 90;
/// The most bytes that a pasted sheet may have.
pub const MOST_SHEET: usize = 4096;
/// Bytes in which every record has room.
pub const RECORD: usize = 1786;
/// Bytes of one step of a list.
pub const STEP_BYTES: usize = 6;
/// The most steps that a list may have.
pub const MOST_STEPS: usize = 729;

/// The entries of a board that has none.
pub const NO_ENTRIES: Entries = [0; 81];

/// A board as it is lent, of any numbers: the printed clues, the entries and the masks.
#[derive(Clone, Copy, Debug, PartialEq, Eq)]
pub struct RawBoard {
    /// The printed clues, 0 where a cell has none.
    pub clues: Clues,
    /// The player's entries, 0 where a cell has none.
    pub entries: Entries,
    /// The candidates.
    pub masks: Masks,
}

impl RawBoard {
    /// The board of clues and masks, without entries.
    pub fn without_entries(clues: &Clues, masks: &Masks) -> Self {
        RawBoard { clues: *clues, entries: NO_ENTRIES, masks: *masks }
    }
}

/// A refusal by its numbers: the stop, and what stands beside it.
#[derive(Clone, Copy, Debug, PartialEq, Eq)]
pub struct RawStop {
    /// The stop's number.
    pub number: i64,
    /// What stands beside it.
    pub detail: i64,
}

/// Where the archive has other signatures nothing may be called.
fn same_signatures() {
    assert!(abi() == ABI, "libsudoku.a has the signatures {}, this crate those of {ABI}", abi());
}

/// The four numbers that a call writes.
fn four(call: impl FnOnce(&mut Answer)) -> Answer {
    same_signatures();
    let mut answer = [0; 4];
    call(&mut answer);
    answer
}

/// What stands beside the values and the two values, or the stop.
fn answered(call: impl FnOnce(&mut Answer)) -> Result<[i64; 3], RawStop> {
    let [number, detail, value, second] = four(call);
    if number == 0 {
        Ok([detail, value, second])
    } else {
        Err(RawStop { number, detail })
    }
}

/// The call's value, or the stop.
fn valued(call: impl FnOnce(&mut Answer)) -> Result<i64, RawStop> {
    answered(call).map(|[_, value, _]| value)
}

/// The archive's number of the signatures.
pub fn abi() -> u32 {
    exports::sudoku_abi()
}

// ---- the candidate set

/// The calls of the candidate set, by their numbers.
#[derive(Clone, Copy, Debug, PartialEq, Eq)]
#[repr(u8)]
pub enum SetCall {
    /// The empty set.
    New,
    /// All nine digits.
    Full,
    /// The digit alone.
    Single,
    /// Whether the digit is there.
    Contains,
    /// Takes the digit in.
    Insert,
    /// Takes the digit out, and says whether it was there.
    Remove,
    /// Takes all digits out.
    Clear,
    /// How many digits there are.
    Len,
    /// Whether there are none.
    IsEmpty,
    /// Whether there is one, none or several; [`single_candidate`] says which.
    SingleCandidate,
    /// The mask to hand to [`next`].
    Iter,
}

/// What a call of the set answers: its value or the stop, and in either case the mask that it leaves.
#[derive(Clone, Copy, Debug, PartialEq, Eq)]
pub struct SetAnswer {
    /// The call's value, or the stop.
    pub answer: Result<i64, RawStop>,
    /// The mask that the call leaves.
    pub mask: u16,
}

/// A call of the candidate set on a mask and a digit; one that takes no mask or no digit does not look at it.
pub fn set(call: SetCall, mask: u16, digit: i32) -> SetAnswer {
    let [number, detail, value, left] = four(|answer| exports::sudoku_set(call as u8, mask, digit, answer));
    let answer = if number == 0 { Ok(value) } else { Err(RawStop { number, detail }) };
    SetAnswer { answer, mask: left as u16 }
}

/// Whether a mask holds one digit, none or several.
pub fn single_candidate(mask: u16) -> SingleCandidate<i32> {
    match four(|answer| exports::sudoku_set(SetCall::SingleCandidate as u8, mask, 0, answer)) {
        [0, 0, 0, _] => SingleCandidate::Empty,
        [0, 1, digit, _] => SingleCandidate::Digit(digit as i32),
        [0, 2, 0, _] => SingleCandidate::Several,
        other => unreachable!("single_candidate of mask {mask} answered {other:?}"),
    }
}

/// One step of a walk over a mask's digits, rising: the first digit at the place or above, and the mask and the place to go on with. It begins with
/// place 0.
pub fn next(mask: u16, place: u8) -> Option<(i32, u16, u8)> {
    let [_, after, digit, left] = four(|answer| exports::sudoku_next(mask, place, answer));
    (digit != 0).then_some((digit as i32, left as u16, after as u8))
}

/// The digits of a mask, rising, one `next` after the other.
pub fn digits(mask: u16) -> Vec<i32> {
    let mut found = Vec::new();
    let (mut rest, mut place) = (mask, 0);
    while let Some((digit, left, after)) = next(rest, place) {
        found.push(digit);
        (rest, place) = (left, after);
    }
    found
}

// ---- grids, texts and boards

/// Whether 81 numbers are a correct filling.
pub fn verify(grid: &Clues) -> bool {
    same_signatures();
    exports::sudoku_verify(grid)
}

/// The clues of a text, and how many they are.
pub fn read(text: &[u8], clues: &mut Clues) -> Result<i64, RawStop> {
    valued(|answer| exports::read(text, clues, answer))
}

/// The fresh masks of the clues, and how many clues there are.
pub fn open(clues: &Clues, masks: &mut Masks) -> Result<i64, RawStop> {
    valued(|answer| exports::sudoku_open(clues, masks, answer))
}

fn ask(question: u8, cell: u32, RawBoard { clues, entries, masks }: &RawBoard) -> Result<i64, RawStop> {
    valued(|answer| exports::sudoku_ask(question, cell, clues, entries, masks, answer))
}

/// How many printed clues there are.
pub fn clue_count(board: &RawBoard) -> Result<i64, RawStop> {
    ask(0, 0, board)
}

/// The verdict.
pub fn verdict(board: &RawBoard) -> Result<Verdict, RawStop> {
    Ok([Verdict::Dead, Verdict::Finished, Verdict::Open][ask(1, 0, board)? as usize])
}

/// The mask of one cell.
pub fn cell_mask(board: &RawBoard, cell: u32) -> Result<u16, RawStop> {
    Ok(ask(2, cell, board)? as u16)
}

/// The printed clues.
pub fn original_puzzle(RawBoard { clues, entries, masks }: &RawBoard, puzzle: &mut Clues) -> Result<(), RawStop> {
    answered(|answer| exports::sudoku_original_puzzle(clues, entries, masks, puzzle, answer)).map(drop)
}

/// The masks of all cells.
pub fn get_candidates(RawBoard { clues, entries, masks }: &RawBoard, candidates: &mut Masks) -> Result<(), RawStop> {
    answered(|answer| exports::sudoku_get_candidates(clues, entries, masks, candidates, answer)).map(drop)
}

/// A digit entered in an open cell: its entry and the masks of the board worked out afresh.
pub fn enter(cell: u32, digit: i32, RawBoard { clues, entries, masks }: &mut RawBoard) -> Result<(), RawStop> {
    answered(|answer| exports::sudoku_enter(cell, digit, clues, entries, masks, answer)).map(drop)
}

/// The entry of a cell rubbed out, likewise.
pub fn rub_out(cell: u32, RawBoard { clues, entries, masks }: &mut RawBoard) -> Result<(), RawStop> {
    answered(|answer| exports::sudoku_rub_out(cell, clues, entries, masks, answer)).map(drop)
}

/// A board call by its step number, which changes the masks alone: the flag and the number of reports; for settling the sweeps and the
/// removed candidates.
pub fn step(step: u8, RawBoard { clues, entries, masks }: &mut RawBoard, reports: &mut ReportBytes) -> Result<(i64, i64), RawStop> {
    answered(|answer| exports::sudoku_step(step, clues, entries, masks, reports, answer)).map(|[_, value, second]| (value, second))
}

/// The masks after a list of steps from the fresh board of clues and entries.
pub fn run(steps: &[u8], clues: &Clues, entries: &Entries, masks: &mut Masks) -> Result<(), RawStop> {
    answered(|answer| exports::run(steps, clues, entries, masks, answer)).map(drop)
}

/// What settling counts: the last sweep too, and the steps that removed something.
#[derive(Clone, Copy, Debug, PartialEq, Eq)]
pub struct SettledCounts {
    /// The sweeps, the last one too.
    pub sweeps: i64,
    /// The removed candidates.
    pub removed: i64,
    /// The steps that removed something.
    pub steps: i64,
}

/// Settling, which changes the masks alone, its effective steps, six bytes each (the bytes after the last are 0), and what each wide pass
/// removed.
pub fn settle(RawBoard { clues, entries, masks }: &mut RawBoard, steps: &mut StepBytes, counts: &mut PassCounts) -> Result<SettledCounts, RawStop> {
    let [steps, sweeps, removed] = answered(|answer| exports::sudoku_settle(clues, entries, masks, steps, counts, answer))?;
    Ok(SettledCounts { sweeps, removed, steps })
}

/// A list of setters' steps, six bytes each, checked from the fresh board of clues and entries: the masks of the final board.
pub fn check_steps(steps: &[u8], RawBoard { clues, entries, masks }: &mut RawBoard) -> Result<(), RawStop> {
    answered(|answer| exports::check_steps(steps, clues, entries, masks, answer)).map(drop)
}

/// The difficulty figure of the fresh board of clues and entries: points over the open cells without entries.
pub fn difficulty(RawBoard { clues, entries, masks }: &RawBoard) -> Result<Difficulty, RawStop> {
    let [cells, quotient, remainder] = answered(|answer| exports::sudoku_difficulty(clues, entries, masks, answer))?.map(|number| number as usize);
    Ok(Difficulty { quotient, remainder, cells })
}

/// The text of the clues in the first 81 lent bytes, and how many were written.
pub fn write_text(clues: &Clues, text: &mut [u8]) -> Result<i64, RawStop> {
    valued(|answer| exports::write_text(clues, text, answer))
}

/// The clues of a pasted sheet, and how many they are.
pub fn read_sheet(sheet: &[u8], clues: &mut Clues) -> Result<i64, RawStop> {
    valued(|answer| exports::read_sheet(sheet, clues, answer))
}

/// The canonical sheet of the clues in the first 90 lent bytes, and how many were written.
pub fn write_sheet(clues: &Clues, sheet: &mut [u8]) -> Result<i64, RawStop> {
    valued(|answer| exports::write_sheet(clues, sheet, answer))
}

/// The record of a board in the first lent bytes, and how many were written.
pub fn write_record(RawBoard { clues, entries, masks }: &RawBoard, record: &mut [u8]) -> Result<i64, RawStop> {
    valued(|answer| exports::write_record(clues, entries, masks, record, answer))
}

/// The board of a record, and how many clues it has.
pub fn read_record(record: &[u8], RawBoard { clues, entries, masks }: &mut RawBoard) -> Result<i64, RawStop> {
    valued(|answer| exports::read_record(record, clues, entries, masks, answer))
}

/// An old record in the new form in the first lent bytes, or a new one back in the old form, and how many were written.
pub fn move_record(back: bool, record: &[u8], moved: &mut [u8]) -> Result<i64, RawStop> {
    valued(|answer| exports::move_record(back, record, moved, answer))
}

/// The clues of a trial round, and how many they are.
pub fn trial_round(start: u32, percentage: u32, solution: &Clues, clues: &mut Clues) -> Result<i64, RawStop> {
    valued(|answer| exports::sudoku_trial_round(start, percentage, solution, clues, answer))
}

/// The card of the bytes that the program `scorecard` read, in the first lent bytes, and how many were written.
pub fn card(input: &[u8], card: &mut CardBytes) -> Result<i64, RawStop> {
    valued(|answer| exports::card(input, card, answer))
}
