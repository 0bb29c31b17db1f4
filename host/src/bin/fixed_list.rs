//! The cases and the answers of the program oracle_replay, from the Rust original alone.
//!
//!     fixed_list cases > crates/oracle_replay/stdin
//!     fixed_list answers < crates/oracle_replay/stdin > crates/oracle_replay/stdout
//!
//! A case is a line of 94 bytes: a grid, a space, up to eleven steps, each the byte of `0` and its number, and spaces. The answer to
//! it is the grid; then `refused STOP PLACE`, or `open`, the clues and a checksum of the fresh masks; then a line for each step: its
//! number, its flag, a checksum of the masks after it, and each report, its cell and its digit.

use std::io::Read;

use sudoku_host::cases::ported_case;
use sudoku_host::grids;
use sudoku_host::oracle::{self, SudokuSolver};
use sudoku_host::random::Random;
use sudoku_host::sides::{Call, Original, Side, CHAIN};
use sudoku_host::{Board, Masks};

const LINE: usize = 94;
const STEPS: usize = 11;
const PRIME: u64 = (1 << 56) - 5;

fn main() {
    match std::env::args().nth(1).as_deref() {
        Some("cases") => print!("{}", cases()),
        Some("answers") => {
            let mut lines = Vec::new();
            std::io::stdin().read_to_end(&mut lines).expect("standard input");
            lines.chunks(LINE).for_each(answer);
        }
        _ => {
            eprintln!("fixed_list cases|answers");
            std::process::exit(2);
        }
    }
}

// ---- the cases

fn cases() -> String {
    let published = grids::PUBLISHED.iter().map(|grid| line(grid, &[0, 1, 2, 3, 4, 5, 6, CHAIN, 1, 2, 5]));
    let random = (0..64).map(|at| {
        let case = ported_case(&mut Random::of_case(20261115, at));
        let steps: Vec<u8> = case.calls.iter().take(STEPS).filter_map(number).collect();
        line(&text(&case.clues), &steps)
    });
    let grid = grids::PUBLISHED[0];
    let refused = [0, 40, 80].into_iter().flat_map(|at| ["x", "/", ":", "-"].map(|other| line(&(grid[..at].to_string() + other + &grid[at + 1..]), &[])));
    published.chain(random).chain(refused).collect()
}

fn number(call: &Call) -> Option<u8> {
    if let Call::Step(number) = call { Some(*number) } else { None }
}

fn text(clues: &[i32; 81]) -> String {
    clues.iter().map(|&clue| if clue == 0 { '.' } else { (b'0' + clue as u8) as char }).collect()
}

fn line(grid: &str, steps: &[u8]) -> String {
    let steps: String = steps.iter().map(|step| (b'0' + step) as char).collect();
    format!("{grid} {steps:11}\n")
}

// ---- the answers

fn answer(line: &[u8]) {
    let grid = std::str::from_utf8(&line[..81]).expect("a grid");
    println!("{grid}");
    match SudokuSolver::parse_string(grid) {
        Ok(rows) => opened(&oracle::flat(&rows), &line[82..LINE - 1]),
        Err(message) => {
            let stop = if message.starts_with("Expected") { 1 } else { 2 };
            println!("refused {stop} {}", message.rsplit(' ').next().unwrap_or_default());
        }
    }
}

fn opened(clues: &[i32; 81], steps: &[u8]) {
    let masks = oracle::fresh(clues);
    println!("open {} {}", oracle::opened(clues).clue_count(), checksum(&masks));
    let mut side = Original::start(&Board::without_entries(clues, &masks));
    for step in steps.iter().filter(|&&byte| byte >= b'0').map(|byte| byte - b'0') {
        let outcome = side.call(Call::Step(step)).expect("a step");
        print!("{step} {} {}", outcome.flag as u8, checksum(&outcome.masks));
        outcome.reports.iter().for_each(|(cell, digit)| print!(" {cell} {digit}"));
        println!();
    }
}

fn checksum(masks: &Masks) -> u64 {
    masks.iter().fold(0, |sum, &mask| (sum * 31 + mask as u64) % PRIME)
}
