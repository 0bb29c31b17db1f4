//! The sides of a comparison: each takes a board through calls, steps by their numbers and enterings and rubbings out.

use crate::oracle::{self, SudokuSolver};
use crate::plain::{self, Outcome};
use crate::records::{self, Form};
use crate::{Board, Clues, Masks, Stop};

/// update_candidates, naked pairs, box-line, X-wing, both singles, apply_advanced_techniques; the chain pass.
pub const PORTED: [u8; 8] = [0, 1, 2, 3, 4, 5, 6, CHAIN];
/// The wide passes and settling.
pub const WIDE: [u8; 7] = [7, 8, 9, 10, CLAIMING, 11, SETTLING];
/// All calls but the two chain passes.
pub const SOUND: [u8; 14] = [0, 1, 2, 3, 4, 5, 6, 7, 8, 9, 10, 11, SETTLING, CLAIMING];
/// All calls but the ported chain pass: they cost no filling.
pub const KEEPING: [u8; 15] = [0, 1, 2, 3, 4, 5, 6, 7, 8, 9, 10, 11, SETTLING, CLAIMING, X_CHAIN];
/// Every step number, rising from 0.
pub const STEPS: [u8; 16] = [0, 1, 2, 3, 4, 5, 6, 7, 8, 9, 10, 11, SETTLING, CHAIN, CLAIMING, X_CHAIN];
pub const SETTLING: u8 = 12;
pub const CHAIN: u8 = 13;
pub const CLAIMING: u8 = 14;
pub const X_CHAIN: u8 = 15;

/// What lent bytes hold before, and those behind them, which no call may write.
pub const LENT_BYTE: u8 = 0xA5;
pub const BEHIND: usize = 16;

/// A member of a list.
#[derive(Clone, Copy, Debug, PartialEq, Eq)]
pub enum Call {
    Step(u8),
    /// The cell and the digit.
    Enter(u32, i32),
    RubOut(u32),
}

impl Call {
    pub fn is_entry_call(&self) -> bool {
        !matches!(self, Call::Step(_))
    }
}

pub fn steps(numbers: &[u8]) -> Vec<Call> {
    numbers.iter().map(|&number| Call::Step(number)).collect()
}

pub trait Side {
    fn start(board: &Board) -> Self;
    /// An entering or a rubbing out speaks of the masks alone.
    fn call(&mut self, call: Call) -> Result<Outcome, Stop>;
    /// The board that the last call left.
    fn board(&self) -> Board;
}

/// The accessors, asked together; one cell's mask is that of `cell`.
pub trait Accessors {
    fn ask(board: &Board, cell: u32) -> Asked;
}

/// What they answer, and what the lent arrays hold then.
#[derive(Clone, Debug, PartialEq, Eq)]
pub struct Asked {
    pub clue_count: Result<i64, Stop>,
    pub verdict: Result<&'static str, Stop>,
    pub cell_mask: Result<u16, Stop>,
    pub original_puzzle: (Result<(), Stop>, Clues),
    pub get_candidates: (Result<(), Stop>, Masks),
}

/// What lent arrays hold before.
pub const LENT: (Clues, Masks) = ([7; 81], [7; 81]);

/// What a lent board holds before.
pub const LENT_BOARD: Board = Board { clues: LENT.0, entries: LENT.0, masks: LENT.1 };

/// The record writer, the reader and the moves, from the old form to the new one or back: the bytes written, or the number of clues read.
pub trait Records {
    fn write(board: &Board, lent: &mut [u8]) -> Result<i64, Stop>;
    fn read(record: &[u8], board: &mut Board) -> Result<i64, Stop>;
    fn moved(back: bool, record: &[u8], lent: &mut [u8]) -> Result<i64, Stop>;
}

// ---- the Rust original

/// One solver goes through the list. It is handed clues and entries as one clue grid: a fresh one at each entering or rubbing out, which
/// it has not; their stops are the plain implementation's.
pub struct Original {
    board: Board,
    solver: SudokuSolver,
}

impl Side for Original {
    fn start(board: &Board) -> Self {
        Original { board: *board, solver: oracle::with_masks(&plain::together(&board.clues, &board.entries), &board.masks) }
    }

    fn call(&mut self, call: Call) -> Result<Outcome, Stop> {
        self.solver.reports.clear();
        let flag = match call {
            Call::Step(number) => self.step(number)?,
            Call::Enter(cell, digit) => self.opened(plain::enter(&self.board(), cell as usize, digit)?),
            Call::RubOut(cell) => self.opened(plain::rub_out(&self.board(), cell as usize)?),
        };
        Ok(Outcome { flag, reports: self.solver.reports.clone(), sweeps: 0, removed: 0, masks: self.solver.masks() })
    }

    fn board(&self) -> Board {
        Board { masks: self.solver.masks(), ..self.board }
    }
}

impl Original {
    fn step(&mut self, number: u8) -> Result<bool, Stop> {
        Ok(match number {
            0 => {
                self.solver.update_candidates();
                false
            }
            1 => self.solver.apply_naked_pairs(),
            2 => self.solver.apply_box_line_reduction(),
            3 => self.solver.apply_x_wing(),
            4 => self.solver.apply_naked_singles(),
            5 => self.solver.apply_hidden_singles(),
            6 => self.solver.apply_advanced_techniques(),
            CHAIN => self.solver.apply_alternating_inference_chains(),
            _ => return Err(Stop { number: -1, detail: number as i64 }),
        })
    }

    /// The solver of the clues and entries together; the masks are its own.
    fn opened(&mut self, Board { clues, entries, .. }: Board) -> bool {
        self.board.entries = entries;
        self.solver = oracle::opened(&plain::together(&clues, &entries));
        false
    }
}

// ---- the second, plain implementation

pub struct Plain(Board);

impl Side for Plain {
    fn start(board: &Board) -> Self {
        Plain(*board)
    }

    fn call(&mut self, call: Call) -> Result<Outcome, Stop> {
        match call {
            Call::Step(number) => {
                let outcome = plain::step(number, &self.0)?;
                self.0.masks = outcome.masks;
                return Ok(outcome);
            }
            Call::Enter(cell, digit) => self.0 = plain::enter(&self.0, cell as usize, digit)?,
            Call::RubOut(cell) => self.0 = plain::rub_out(&self.0, cell as usize)?,
        }
        Ok(plain::silent(&self.0.masks))
    }

    fn board(&self) -> Board {
        self.0
    }
}

impl Accessors for Plain {
    fn ask(board: &Board, cell: u32) -> Asked {
        let (puzzle, sets) = (plain::original_puzzle(board), plain::get_candidates(board));
        Asked {
            clue_count: plain::clue_count(board).map(|count| count as i64),
            verdict: plain::verdict(board),
            cell_mask: plain::one_mask(board, cell as usize),
            original_puzzle: (puzzle.map(drop), puzzle.unwrap_or(LENT.0)),
            get_candidates: (sets.map(drop), sets.unwrap_or(LENT.1)),
        }
    }
}

impl Records for Plain {
    fn write(board: &Board, lent: &mut [u8]) -> Result<i64, Stop> {
        Ok(records::write(board, lent)? as i64)
    }

    fn read(record: &[u8], board: &mut Board) -> Result<i64, Stop> {
        *board = records::read(Form::New, record)?;
        Ok(board.clues.iter().filter(|&&clue| clue != 0).count() as i64)
    }

    fn moved(back: bool, record: &[u8], lent: &mut [u8]) -> Result<i64, Stop> {
        Ok(records::moved(back, record, lent)? as i64)
    }
}

// ---- the engine itself, by its exports

pub struct Engine(Board);

/// What was lent holds something else than the page says: no stop of the engine's.
pub const BROKEN: Stop = Stop { number: i64::MIN, detail: 0 };

impl Side for Engine {
    fn start(board: &Board) -> Self {
        Engine(*board)
    }

    fn call(&mut self, call: Call) -> Result<Outcome, Stop> {
        let before = self.0;
        let answer = match call {
            Call::Step(number) => self.step(number),
            Call::Enter(cell, digit) => crate::enter(cell, digit, &mut self.0).map(|()| plain::silent(&self.0.masks)),
            Call::RubOut(cell) => crate::rub_out(cell, &mut self.0).map(|()| plain::silent(&self.0.masks)),
        };
        if answer.is_err() && self.0 != before {
            return Err(BROKEN);
        }
        answer
    }

    fn board(&self) -> Board {
        self.0
    }
}

impl Engine {
    fn step(&mut self, number: u8) -> Result<Outcome, Stop> {
        let mut bytes = [LENT_BYTE; 648];
        let (value, second) = match crate::step(number, &mut self.0, &mut bytes) {
            Err(_) if bytes != [LENT_BYTE; 648] => return Err(BROKEN),
            Err(stop) => return Err(stop),
            Ok(values) => values,
        };
        let counts = number == SETTLING;
        let used = if counts { 0 } else { second as usize };
        let reports = bytes.chunks(2).take(used).map(|report| (report[0] as usize, report[1] as i32)).collect();
        if bytes[2 * used..].iter().any(|&byte| byte != 0) || !counts && !(0..2).contains(&value) {
            return Err(BROKEN);
        }
        let (sweeps, removed) = if counts { (value as usize, second as usize) } else { (0, 0) };
        Ok(Outcome { flag: !counts && value == 1, reports, sweeps, removed, masks: self.0.masks })
    }
}

impl Accessors for Engine {
    fn ask(board: &Board, cell: u32) -> Asked {
        let (mut puzzle, mut sets) = LENT;
        let answers = (crate::original_puzzle(board, &mut puzzle), crate::get_candidates(board, &mut sets));
        Asked {
            clue_count: crate::clue_count(board),
            verdict: crate::verdict(board),
            cell_mask: crate::cell_mask(board, cell),
            original_puzzle: (answers.0, puzzle),
            get_candidates: (answers.1, sets),
        }
    }
}

impl Records for Engine {
    fn write(board: &Board, lent: &mut [u8]) -> Result<i64, Stop> {
        crate::write_record(board, lent)
    }

    fn read(record: &[u8], board: &mut Board) -> Result<i64, Stop> {
        crate::read_record(record, board)
    }

    fn moved(back: bool, record: &[u8], lent: &mut [u8]) -> Result<i64, Stop> {
        crate::move_record(back, record, lent)
    }
}
