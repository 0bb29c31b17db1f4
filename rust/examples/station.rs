//! A scoring station in small, as ../../examples/station/station.c is one: reads a grid, enters digits, settles, and prints what was done and the
//! verdict.
//!
//!     station [rRcC=DIGIT ..] <GRID
//!
//! At the first refusal, of the grid or of a digit, it prints `refused N P`, the stop and what stands beside it, and ends with status 1.

use std::env;
use std::error::Error;
use std::io::{self, Read};
use std::process::ExitCode;

use sudoku::calls::MOST_SHEET;
use sudoku::{Board, Cell, Digit, SingleCandidate, Stop};

fn main() -> ExitCode {
    let Err(failure) = station() else { return ExitCode::SUCCESS };
    match failure.downcast_ref::<Stop>() {
        Some(stop) => {
            println!("refused {} {}", stop.number(), stop.detail());
            ExitCode::from(1)
        }
        None => {
            eprintln!("station: {failure}");
            ExitCode::from(2)
        }
    }
}

fn station() -> Result<(), Box<dyn Error>> {
    let mut sheet = Vec::new();
    io::stdin().take(MOST_SHEET as u64 + 1).read_to_end(&mut sheet)?; // one byte more, so that a longer sheet is refused
    let mut board = Board::read_sheet(&sheet)?;
    println!("clues {}", board.clue_count());

    for word in env::args_os().skip(1) {
        let word = word.to_string_lossy();
        let (cell, digit) = entry(&word).ok_or_else(|| format!("{word} is no entry, such as r5c2=7"))?;
        board.enter(cell, Digit::try_from(digit)?)?;
        println!("entered {word}");
    }

    let settled = board.settle();
    for (step, number) in settled.steps().zip(1..) {
        println!("{number} {step}");
    }
    println!("sweeps {}\nremoved {}", settled.sweeps, settled.removed);
    println!("verdict {}", board.verdict());
    println!("line {}", Cell::all().map(|cell| only_digit(&board, cell)).collect::<String>());
    Ok(())
}

/// The cell and the digit of a word such as `r5c2=7`; 0 is left to be refused.
fn entry(word: &str) -> Option<(Cell, i32)> {
    let (cell, digit) = word.split_once('=')?;
    match digit.as_bytes() {
        &[digit @ b'0'..=b'9'] => Some((cell.parse().ok()?, (digit - b'0').into())),
        _ => None,
    }
}

/// A cell's only digit, `!` where it has none and `.` where it has several.
fn only_digit(board: &Board, cell: Cell) -> String {
    match board.candidates(cell).single_candidate() {
        SingleCandidate::Digit(digit) => digit.to_string(),
        SingleCandidate::Empty => "!".to_string(),
        SingleCandidate::Several => ".".to_string(),
    }
}
