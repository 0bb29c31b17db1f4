//! The record a second time, plainly, from documents 01 and 02 alone: module 14, "Cells, masks, board", the table of stops, and F-8.

use crate::plain::{afresh, bit, check};
use crate::{Board, Clues, Entries, Masks, Stop, NO_ENTRIES};

const CELLS: usize = 81;

/// Document 01's record has no entries; "The new record has the clue section, then an entry section of the same form, then the removed
/// section measured from the fresh board with its entries."
#[derive(Clone, Copy, Debug, PartialEq, Eq)]
pub enum Form {
    Old,
    New,
}

fn stop<T>(number: i64, detail: usize) -> Result<T, Stop> {
    Err(Stop { number, detail: detail as i64 })
}

// ---- the writer

/// "clue count (1 byte), then cell and digit bytes, cells rising"
fn digits(numbers: &[i32; 81]) -> Vec<u8> {
    let given: Vec<[u8; 2]> = (0..CELLS).filter(|&cell| numbers[cell] != 0).map(|cell| [cell as u8, numbers[cell] as u8]).collect();
    [vec![given.len() as u8], given.concat()].concat()
}

/// "removed count (2 bytes, low first), then (cell, digit) bytes, rising: what the fresh mask has and the board lacks"
fn removed(board: &Board) -> Vec<u8> {
    let fresh = afresh(&board.clues, &board.entries).masks;
    let lacks = |cell: usize, digit: i32| fresh[cell] & bit(digit) != 0 && board.masks[cell] & bit(digit) == 0;
    let gone: Vec<[u8; 2]> = (0..CELLS).flat_map(|cell| (1..=9).filter(move |&digit| lacks(cell, digit)).map(move |digit| [cell as u8, digit as u8])).collect();
    [vec![(gone.len() % 256) as u8, (gone.len() / 256) as u8], gone.concat()].concat()
}

/// The record of a board that the check admits; in the old form, of one without entries.
pub fn bytes(form: Form, board: &Board) -> Vec<u8> {
    let entries = match form {
        Form::Old => Vec::new(),
        Form::New => digits(&board.entries),
    };
    [digits(&board.clues), entries, removed(board)].concat()
}

/// "lent bytes too few"; else the record's length, and "later bytes keep"
fn put(record: &[u8], lent: &mut [u8]) -> Result<usize, Stop> {
    if lent.len() < record.len() {
        return stop(6, lent.len());
    }
    lent[..record.len()].copy_from_slice(record);
    Ok(record.len())
}

/// "Boards are written and read in this form from now on": "the record writer after its board's 3 and 9", and 8 between them.
pub fn write(board: &Board, lent: &mut [u8]) -> Result<usize, Stop> {
    match check(board) {
        Some(stop) => Err(stop),
        None => put(&bytes(Form::New, board), lent),
    }
}

// ---- the moves

/// "An old record moves to the new form with an entry count of 0, and back to the same bytes."
pub fn moved(back: bool, record: &[u8], lent: &mut [u8]) -> Result<usize, Stop> {
    if !back {
        return put(&bytes(Form::New, &read(Form::Old, record)?), lent);
    }
    let board = read(Form::New, record)?;
    if board.entries != NO_ENTRIES {
        return stop(14, 1 + 2 * record[0] as usize); // "with the offset of its entry count"
    }
    put(&bytes(Form::Old, &board), lent)
}

// ---- the reader

/// "The record is checked front to back": what was not read yet begins at `at`.
struct Unread<'a> {
    record: &'a [u8],
    at: usize,
}

impl Unread<'_> {
    fn number(&mut self) -> Result<usize, Stop> {
        let Some(&byte) = self.record.get(self.at) else { return stop(7, self.record.len()) };
        self.at += 1;
        Ok(byte as usize)
    }

    /// "whole entry": both bytes are there before either is judged.
    fn entry(&mut self) -> Result<(usize, i32), Stop> {
        let at = self.at;
        let (cell, digit) = (self.number()?, self.number()?);
        if cell > 80 || !(1..=9).contains(&digit) {
            return stop(8, at);
        }
        Ok((cell, digit as i32))
    }

    /// "01's 8 also covers an entry on a clue cell": the clues are those beside which the section stands.
    fn digits(&mut self, clues: &Clues) -> Result<[i32; 81], Stop> {
        let mut numbers = [0; CELLS];
        let mut least = 0;
        for _ in 0..self.number()? {
            let at = self.at;
            let (cell, digit) = self.entry()?;
            if cell < least || clues[cell] != 0 {
                return stop(8, at);
            }
            numbers[cell] = digit;
            least = cell + 1;
        }
        Ok(numbers)
    }

    /// "01's 9 [also covers] a removal on an entered one"
    fn removed(&mut self, clues: &Clues, entries: &Entries) -> Result<Masks, Stop> {
        let fresh = afresh(clues, entries).masks;
        let mut masks = fresh;
        let mut before = (0, 0);
        let (low, high) = (self.number()?, self.number()?);
        for _ in 0..low + 256 * high {
            let at = self.at;
            let (cell, digit) = self.entry()?;
            if (cell, digit) <= before {
                return stop(8, at);
            }
            if clues[cell] != 0 || entries[cell] != 0 || fresh[cell] & bit(digit) == 0 {
                return stop(9, at);
            }
            masks[cell] &= !bit(digit);
            before = (cell, digit);
        }
        Ok(masks)
    }
}

pub fn read(form: Form, record: &[u8]) -> Result<Board, Stop> {
    let mut unread = Unread { record, at: 0 };
    let clues = unread.digits(&[0; CELLS])?;
    let entries = match form {
        Form::Old => NO_ENTRIES,
        Form::New => unread.digits(&clues)?,
    };
    let masks = unread.removed(&clues, &entries)?;
    if unread.at < record.len() {
        return stop(7, unread.at);
    }
    Ok(Board { clues, entries, masks })
}
