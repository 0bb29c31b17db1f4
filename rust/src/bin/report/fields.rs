//! What is said of a grid, in the table and in its section: the verdict, the refusal and the check of the answer, each failure with its reason.

use sudoku::{Cell, Digit, Stop, Unit, Verdict};

use crate::escape;
use crate::round::{self, Check, Entry, Score};

/// A word that says what failed, and why.
fn failure(word: &str, why: &str) -> String {
    format!("<span class=\"bad\">{word}</span> <span class=\"why\">{why}</span>")
}

pub fn verdict(score: &Score) -> String {
    match score.board.verdict() {
        Verdict::Dead => failure("dead", &dead(score)),
        verdict => verdict.to_string(),
    }
}

/// Why a grid is dead: clues that clash; else a cell without candidates; else digits that clash.
fn dead(score: &Score) -> String {
    let clues = || repeated(|cell| score.board.clue(cell)).map(|twice| format!("clues: {twice}"));
    let without = || Cell::all().find(|&cell| score.candidates(cell).is_empty()).map(|cell| format!("no candidate left in {cell}"));
    clues().or_else(without).or_else(|| repeated(|cell| score.only_digit(cell))).unwrap_or_default()
}

/// A refusal with its stop in words.
pub fn refusal(entry: &Entry, stop: &Stop) -> String {
    let why = match *stop {
        Stop::TextLength(length) => counted(length),
        Stop::OtherByte(at) => format!("byte {} is <code>{}</code>, no digit or point", at + 1, escape::bytes(&entry.grid[at..=at])),
        _ => escape::text(&stop.to_string()),
    };
    failure(&format!("refused {} {}", stop.number(), stop.detail()), &why)
}

fn counted(bytes: usize) -> String {
    let plural = if bytes == 1 { "" } else { "s" };
    format!("{bytes} byte{plural}, not 81")
}

/// The check of a grid's answer.
pub fn answer(entry: &Entry, score: &Score) -> String {
    let bytes = entry.answer.unwrap_or_default();
    match score.answer {
        Check::Missing => "none".to_string(),
        Check::Right => "right".to_string(),
        Check::NotFilled => failure("wrong", &unfilled(bytes)),
        Check::BreaksClue(cell) => {
            let clue = score.board.clue(cell).map_or(String::new(), |clue| clue.to_string());
            let digit = escape::bytes(&bytes[cell.index()..=cell.index()]);
            failure(&format!("clue {cell}"), &format!("{clue} is printed, not {digit}"))
        }
        Check::Repeats => failure("wrong", &twice_in(bytes).unwrap_or_default()),
    }
}

/// The first unit of an answer that has a digit twice.
fn twice_in(answer: &[u8]) -> Option<String> {
    let filling = round::filling(answer)?;
    repeated(|cell| Digit::try_from(filling[cell.index()]).ok())
}

/// Why an answer is not 81 bytes `1` to `9`.
fn unfilled(answer: &[u8]) -> String {
    match answer.iter().position(|byte| !(b'1'..=b'9').contains(byte)) {
        Some(at) if answer.len() == 81 => format!("byte {} is <code>{}</code>, no digit 1 to 9", at + 1, escape::bytes(&answer[at..=at])),
        _ => counted(answer.len()),
    }
}

/// The first unit that has a digit twice, in words.
fn repeated(digit_in: impl Fn(Cell) -> Option<Digit>) -> Option<String> {
    let twice = |unit: Unit, digit: Digit| unit.cells().filter(|&cell| digit_in(cell) == Some(digit)).count() > 1;
    let first = |unit: Unit| Digit::ALL.into_iter().find(|&digit| twice(unit, digit)).map(|digit| format!("{digit} twice in {unit}"));
    (0..27).filter_map(Unit::from_index).find_map(first)
}
