//! The exports of the archive, declared: the one place with `unsafe`. tests/header.rs holds them to ../include/sudoku.h, and host/README.md is their page.

/// 0 where a cell has no clue.
pub type Clues = [i32; 81];
/// 0 where a cell has no entry.
pub type Entries = [i32; 81];
/// Bit d - 1 says that digit d is a candidate.
pub type Masks = [u16; 81];
/// Room for 324 reports, two bytes each.
pub type ReportBytes = [u8; 648];
/// Room for 729 steps of wide passes, six bytes each.
pub type StepBytes = [u8; 4374];
/// What each of the six wide passes removed, in a sweep's order: Lone, Place, Pair, Pointing, Claiming, Cross.
pub type PassCounts = [usize; 6];
/// Room for a card.
pub type CardBytes = [u8; 256];
/// The stop, what stands beside it, and the two values.
pub type Answer = [i64; 4];

/// The number of the signatures below, which is raised with each change of one; `abi` says what the archive has.
pub const ABI: u32 = 5;

// SAFETY: an export is proved to read and write what it is lent and nothing else, whatever the numbers and bytes are, and it keeps no pointer. All that
// a caller owes is that pointers are valid, of the stated length, and do not overlap: references owe just that. Where bytes are lent as a pointer and
// their length, the functions below hand over those of a slice.
unsafe extern "C" {
    pub safe fn sudoku_abi() -> u32;
    pub safe fn sudoku_verify(grid: &Clues) -> bool;
    pub safe fn sudoku_set(call: u8, mask: u16, digit: i32, answer: &mut Answer);
    pub safe fn sudoku_next(mask: u16, place: u8, answer: &mut Answer);
    unsafe fn sudoku_read(text: *const u8, length: usize, clues: &mut Clues, answer: &mut Answer);
    pub safe fn sudoku_open(clues: &Clues, masks: &mut Masks, answer: &mut Answer);
    pub safe fn sudoku_ask(question: u8, cell: u32, clues: &Clues, entries: &Entries, masks: &Masks, answer: &mut Answer);
    pub safe fn sudoku_original_puzzle(clues: &Clues, entries: &Entries, masks: &Masks, puzzle: &mut Clues, answer: &mut Answer);
    pub safe fn sudoku_get_candidates(clues: &Clues, entries: &Entries, masks: &Masks, candidates: &mut Masks, answer: &mut Answer);
    pub safe fn sudoku_enter(cell: u32, digit: i32, clues: &Clues, entries: &mut Entries, masks: &mut Masks, answer: &mut Answer);
    pub safe fn sudoku_rub_out(cell: u32, clues: &Clues, entries: &mut Entries, masks: &mut Masks, answer: &mut Answer);
    pub safe fn sudoku_step(step: u8, clues: &Clues, entries: &Entries, masks: &mut Masks, reports: &mut ReportBytes, answer: &mut Answer);
    unsafe fn sudoku_run(steps: *const u8, length: usize, clues: &Clues, entries: &Entries, masks: &mut Masks, answer: &mut Answer);
    pub safe fn sudoku_settle(clues: &Clues, entries: &Entries, masks: &mut Masks, steps: &mut StepBytes, counts: &mut PassCounts, answer: &mut Answer);
    unsafe fn sudoku_check_steps(steps: *const u8, length: usize, clues: &Clues, entries: &Entries, masks: &mut Masks, answer: &mut Answer);
    pub safe fn sudoku_difficulty(clues: &Clues, entries: &Entries, masks: &Masks, answer: &mut Answer);
    unsafe fn sudoku_write_text(clues: &Clues, text: *mut u8, length: usize, answer: &mut Answer);
    unsafe fn sudoku_read_sheet(sheet: *const u8, length: usize, clues: &mut Clues, answer: &mut Answer);
    unsafe fn sudoku_write_sheet(clues: &Clues, sheet: *mut u8, length: usize, answer: &mut Answer);
    unsafe fn sudoku_write_record(clues: &Clues, entries: &Entries, masks: &Masks, record: *mut u8, length: usize, answer: &mut Answer);
    unsafe fn sudoku_read_record(record: *const u8, length: usize, clues: &mut Clues, entries: &mut Entries, masks: &mut Masks, answer: &mut Answer);
    unsafe fn sudoku_move_record(back: bool, record: *const u8, length: usize, moved: *mut u8, lent: usize, answer: &mut Answer);
    pub safe fn sudoku_trial_round(start: u32, percentage: u32, solution: &Clues, clues: &mut Clues, answer: &mut Answer);
    unsafe fn sudoku_card(input: *const u8, length: usize, card: &mut CardBytes, answer: &mut Answer);
}

pub fn read(text: &[u8], clues: &mut Clues, answer: &mut Answer) {
    unsafe { sudoku_read(text.as_ptr(), text.len(), clues, answer) }
}

pub fn run(steps: &[u8], clues: &Clues, entries: &Entries, masks: &mut Masks, answer: &mut Answer) {
    unsafe { sudoku_run(steps.as_ptr(), steps.len(), clues, entries, masks, answer) }
}

pub fn check_steps(steps: &[u8], clues: &Clues, entries: &Entries, masks: &mut Masks, answer: &mut Answer) {
    unsafe { sudoku_check_steps(steps.as_ptr(), steps.len(), clues, entries, masks, answer) }
}

pub fn write_text(clues: &Clues, text: &mut [u8], answer: &mut Answer) {
    unsafe { sudoku_write_text(clues, text.as_mut_ptr(), text.len(), answer) }
}

pub fn read_sheet(sheet: &[u8], clues: &mut Clues, answer: &mut Answer) {
    unsafe { sudoku_read_sheet(sheet.as_ptr(), sheet.len(), clues, answer) }
}

pub fn write_sheet(clues: &Clues, sheet: &mut [u8], answer: &mut Answer) {
    unsafe { sudoku_write_sheet(clues, sheet.as_mut_ptr(), sheet.len(), answer) }
}

pub fn write_record(clues: &Clues, entries: &Entries, masks: &Masks, record: &mut [u8], answer: &mut Answer) {
    unsafe { sudoku_write_record(clues, entries, masks, record.as_mut_ptr(), record.len(), answer) }
}

pub fn read_record(record: &[u8], clues: &mut Clues, entries: &mut Entries, masks: &mut Masks, answer: &mut Answer) {
    unsafe { sudoku_read_record(record.as_ptr(), record.len(), clues, entries, masks, answer) }
}

pub fn move_record(back: bool, record: &[u8], moved: &mut [u8], answer: &mut Answer) {
    unsafe { sudoku_move_record(back, record.as_ptr(), record.len(), moved.as_mut_ptr(), moved.len(), answer) }
}

pub fn card(input: &[u8], card: &mut CardBytes, answer: &mut Answer) {
    unsafe { sudoku_card(input.as_ptr(), input.len(), card, answer) }
}
