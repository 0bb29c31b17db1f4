//! Runs one call many times on a fixed mix of boards, for counting instructions.
//!
//!     measure SIDE CALL ROUNDS [BOARDS]
//!
//! SIDE is original, plain or engine; CALL a step number, 255 for no step, or one of `verify`, `repeat` (the verifier where the second cell
//! repeats the first), `read`, `open`, `count`, `puzzle`, `masks`, `mask` (the other accessors), `enter`, `rub_out`, `sheet`, `canonical` (a canonical sheet written), `record`, `card`,
//! `settle` (settling with its step list), `difficulty`, `steps` (that list checked) and `setN` (0 insert, 1 remove, 2 contains, 3 len, 4 single_candidate). A round is 64 boards; for a step of the engine the boards of the file
//! BOARDS in their place, where that is named: a line each, 81 clue characters, a space and 81 masks of three hexadecimal digits. What a call
//! costs is the difference of two runs, divided by the difference of their calls; for a step also less what making the board costs, which 255
//! has alone:
//!
//!     valgrind --tool=callgrind --callgrind-out-file=/dev/null target/release/measure original 1 100

use std::hint::black_box;

use sudoku_host::oracle::{self, SudokuCandidateSet, SudokuSolver};
use sudoku_host::random::Random;
use sudoku_host::sheet_cases::{ruled, BOXED};
use sudoku_host::sides::{Call, Original, Plain, Side};
use sudoku_host::records::{self, Form};
use sudoku_host::{card, cell_mask, check_steps, clue_count, difficulty, enter, get_candidates, grids, open, original_puzzle, plain, read, read_record, read_sheet, rub_out, set, settle, step, step_lists, verify};
use sudoku_host::{write_record, write_sheet, Board, Clues, SetCall, NO_ENTRIES};

const BOARDS: usize = 64;

fn main() {
    let words: Vec<String> = std::env::args().skip(1).collect();
    let (side, call, rounds, file) = match &words[..] {
        [side, call, rounds] => (side, call, rounds, None),
        [side, call, rounds, file] => (side, call, rounds, Some(file)),
        _ => usage(),
    };
    let Ok(rounds) = rounds.parse::<usize>() else { usage() };
    let mut random = Random::new(1);
    match (side.as_str(), call.as_str()) {
        (_, "verify") => verifying(side, &mut random, false, rounds),
        (_, "repeat") => verifying(side, &mut random, true, rounds),
        (_, "read") => reading(side, &mut random, rounds),
        (_, "open") => opening(side, &mut random, rounds),
        (_, "count" | "puzzle" | "masks") | ("engine", "mask") => asking(side, call, &mut random, rounds),
        (_, "enter") => entering(side, &mut random, rounds),
        (_, "rub_out") => rubbing_out(side, &mut random, rounds),
        ("plain" | "engine", "sheet") => pasting(side, &mut random, rounds),
        ("plain" | "engine", "canonical") => canonical(side, &mut random, rounds),
        ("plain" | "engine", "record") => recording(side, &mut random, rounds),
        ("plain" | "engine", "card") => carding(side, &mut random, rounds),
        ("plain" | "engine", "settle") => settling(side, &mut random, rounds),
        ("plain" | "engine", "difficulty") => rating(side, &mut random, rounds),
        ("plain" | "engine", "steps") => checking(side, &mut random, rounds),
        (_, call) if call.starts_with("set") => setting(side, call[3..].parse().unwrap_or_else(|_| usage()), rounds),
        ("original", step) => stepping::<Original>(&mut random, number(step), rounds),
        ("plain", step) => stepping::<Plain>(&mut random, number(step), rounds),
        ("engine", step) => engine_stepping(file.map_or_else(|| boards(&mut random), |file| boards_of(file)), number(step), rounds),
        _ => usage(),
    }
}

fn usage() -> ! {
    eprintln!("measure original|plain|engine STEP|verify|repeat|read|open|count|puzzle|masks|mask|enter|rub_out|sheet|canonical|record|card|settle|difficulty|steps|setN ROUNDS [BOARDS]");
    std::process::exit(2)
}

fn number(step: &str) -> u8 {
    step.parse().unwrap_or_else(|_| usage())
}

/// Puzzles and the boards on the way through them, without entries.
fn boards(random: &mut Random) -> Vec<Board> {
    let mixed = (0..BOARDS).map(|_| {
        let filling = grids::filling(random);
        let clues = grids::blanked(random, &filling, 20, 45);
        let mut board = plain::afresh(&clues, &NO_ENTRIES);
        for step in [1, 2, 3].into_iter().take(random.below(4)) {
            board.masks = plain::step(step, &board).unwrap().masks;
        }
        board
    });
    mixed.collect()
}

/// The boards of a file, without entries.
fn boards_of(file: &str) -> Vec<Board> {
    let text = std::fs::read_to_string(file).expect("a file of boards");
    let board = |line: &str| {
        let (clues, masks) = line.split_once(' ').expect("clues, a space and masks");
        let clue = |at: usize| clues.as_bytes()[at].checked_sub(b'0').map_or(0, i32::from);
        let mask = |at: usize| u16::from_str_radix(&masks[3 * at..3 * at + 3], 16).expect("a mask of three digits");
        Board { clues: std::array::from_fn(clue), entries: NO_ENTRIES, masks: std::array::from_fn(mask) }
    };
    text.lines().map(board).collect()
}

fn stepping<S: Side>(random: &mut Random, step: u8, rounds: usize) {
    for board in boards(random) {
        for _ in 0..rounds {
            let mut side = S::start(&board);
            if step != 255 {
                black_box(side.call(Call::Step(black_box(step)))).ok();
            }
            black_box(&side as *const S);
        }
    }
}

/// The export alone, its board check included.
fn engine_stepping(boards: Vec<Board>, number: u8, rounds: usize) {
    let mut reports = [0; 648];
    for mut board in boards {
        let before = board.masks;
        for _ in 0..rounds {
            board.masks = before;
            if number != 255 {
                black_box(step(black_box(number), &mut board, &mut reports)).ok();
            }
            black_box((&board.masks, &reports));
        }
    }
}

fn verifying(side: &str, random: &mut Random, repeat: bool, rounds: usize) {
    let mut grids: Vec<Clues> = (0..BOARDS).map(|_| grids::filling(random)).collect();
    if repeat {
        grids.iter_mut().for_each(|grid| grid[1] = grid[0]);
    }
    let rows: Vec<[[i32; 9]; 9]> = grids.iter().map(oracle::rows).collect();
    for _ in 0..rounds {
        for at in 0..BOARDS {
            black_box(match side {
                "original" => SudokuSolver::verify_solution(black_box(&rows[at])),
                "engine" => verify(black_box(&grids[at])),
                _ => plain::verify(black_box(&grids[at])),
            });
        }
    }
}

fn reading(side: &str, random: &mut Random, rounds: usize) {
    let texts: Vec<String> = (0..BOARDS).map(|_| grids::blanked(random, &grids::of_text(grids::GRID_A), 20, 45).map(|clue| clue.to_string()).concat()).collect();
    let mut clues = [0; 81];
    for _ in 0..rounds {
        for text in &texts {
            match side {
                "original" => drop(black_box(SudokuSolver::parse_string(black_box(text)))),
                "engine" => drop(black_box(read(black_box(text.as_bytes()), &mut clues))),
                _ => drop(black_box(plain::read_text(black_box(text.as_bytes())))),
            }
        }
    }
}

/// `new`: the original also makes its rows of sets.
fn opening(side: &str, random: &mut Random, rounds: usize) {
    let mut masks = [0; 81];
    for Board { clues, .. } in boards(random) {
        for _ in 0..rounds {
            match side {
                "original" => drop(black_box(oracle::opened(black_box(&clues)))),
                "engine" => drop(black_box(open(black_box(&clues), &mut masks))),
                _ => drop(black_box(plain::open(black_box(&clues)))),
            }
        }
    }
}

/// `clue_count`, `original_puzzle`, `get_candidates` and one cell's mask, for the engine with its board check. The original has no call for the last.
fn asking(side: &str, call: &str, random: &mut Random, rounds: usize) {
    let (mut puzzle, mut masks) = ([0; 81], [0; 81]);
    for board in boards(random) {
        let solver = oracle::with_masks(&board.clues, &board.masks);
        for _ in 0..rounds {
            let (board, solver) = (black_box(&board), black_box(&solver));
            match (side, call) {
                ("engine", "count") => drop(black_box(clue_count(board))),
                ("engine", "puzzle") => drop(black_box(original_puzzle(board, &mut puzzle))),
                ("engine", "masks") => drop(black_box(get_candidates(board, &mut masks))),
                ("engine", _) => drop(black_box(cell_mask(board, black_box(40)))),
                (_, "count") => drop(black_box(solver.clue_count())),
                (_, "puzzle") => drop(black_box(solver.original_puzzle())),
                (_, _) => drop(black_box(solver.get_candidates())),
            }
            black_box((&puzzle, &masks));
        }
    }
}

/// A digit in the first open cell; for the original a solver of the clues with it.
fn entering(side: &str, random: &mut Random, rounds: usize) {
    for board in boards(random) {
        let (cell, digit) = first_entry(&board);
        for _ in 0..rounds {
            let mut after = board;
            match side {
                "original" => {
                    after.clues[cell] = digit;
                    drop(black_box(oracle::opened(black_box(&after.clues))));
                }
                "engine" => drop(black_box(enter(cell as u32, black_box(digit), &mut after))),
                _ => drop(black_box(plain::enter(black_box(&board), cell, digit))),
            }
            black_box(&after);
        }
    }
}

/// That entry rubbed out; for the original a solver of the clues without it.
fn rubbing_out(side: &str, random: &mut Random, rounds: usize) {
    for board in boards(random) {
        let (cell, digit) = first_entry(&board);
        let entered = plain::enter(&board, cell, digit).unwrap();
        for _ in 0..rounds {
            let mut after = entered;
            match side {
                "original" => drop(black_box(oracle::opened(black_box(&after.clues)))),
                "engine" => drop(black_box(rub_out(black_box(cell as u32), &mut after))),
                _ => drop(black_box(plain::rub_out(black_box(&entered), cell))),
            }
            black_box(&after);
        }
    }
}

fn first_entry(board: &Board) -> (usize, i32) {
    let cell = board.clues.iter().position(|&clue| clue == 0).expect("an open cell");
    (cell, board.masks[cell].trailing_zeros() as i32 % 9 + 1)
}

/// The difficulty figure, which settles the fresh board.
fn rating(side: &str, random: &mut Random, rounds: usize) {
    for board in boards(random) {
        for _ in 0..rounds {
            match side {
                "engine" => drop(black_box(difficulty(black_box(&board)))),
                _ => drop(black_box(plain::difficulty(black_box(&board)))),
            }
        }
    }
}

/// A sheet as a program prints it, with rulings; the original has none.
fn pasting(side: &str, random: &mut Random, rounds: usize) {
    let mut clues = [0; 81];
    for Board { clues: grid, .. } in boards(random) {
        let sheet = ruled(grid.map(|clue| clue.to_string()).concat().as_bytes(), &BOXED);
        for _ in 0..rounds {
            match side {
                "engine" => drop(black_box(read_sheet(black_box(&sheet), &mut clues))),
                _ => drop(black_box(plain::read_sheet(black_box(&sheet)))),
            }
        }
    }
}

fn canonical(side: &str, random: &mut Random, rounds: usize) {
    let mut bytes = [0; 90];
    for Board { clues, .. } in boards(random) {
        for _ in 0..rounds {
            match side {
                "engine" => drop(black_box(write_sheet(black_box(&clues), &mut bytes))),
                _ => drop(black_box(plain::write_sheet(black_box(&clues), &mut bytes))),
            }
        }
    }
}

/// A record written and read again; the original has none.
fn recording(side: &str, random: &mut Random, rounds: usize) {
    let mut bytes = [0; 2000];
    for board in boards(random) {
        let mut read = board;
        for _ in 0..rounds {
            if side == "engine" {
                let length = write_record(black_box(&board), &mut bytes).unwrap() as usize;
                black_box(read_record(black_box(&bytes[..length]), &mut read)).ok();
            } else {
                let length = records::write(black_box(&board), &mut bytes).unwrap();
                black_box(records::read(Form::New, black_box(&bytes[..length]))).ok();
            }
        }
    }
}

/// The card of a text; the original has none.
fn carding(side: &str, random: &mut Random, rounds: usize) {
    let mut bytes = [0; 256];
    for Board { clues, .. } in boards(random) {
        let text = clues.map(|clue| clue.to_string()).concat();
        for _ in 0..rounds {
            match side {
                "engine" => drop(black_box(card(black_box(text.as_bytes()), &mut bytes))),
                _ => drop(black_box(plain::card(black_box(text.as_bytes())))),
            }
        }
    }
}

/// Settling with its step list, from the fresh board; the original has none.
fn settling(side: &str, random: &mut Random, rounds: usize) {
    let mut bytes = [0; 4374];
    for Board { clues, .. } in boards(random) {
        let fresh = plain::afresh(&clues, &NO_ENTRIES);
        for _ in 0..rounds {
            let mut board = fresh;
            match side {
                "engine" => drop(black_box(settle(black_box(&mut board), &mut bytes, &mut [0; 6]))),
                _ => drop(black_box(plain::settle(black_box(&board)))),
            }
        }
    }
}

/// The step list of settling, checked.
fn checking(side: &str, random: &mut Random, rounds: usize) {
    for Board { clues, .. } in boards(random) {
        let fresh = plain::afresh(&clues, &NO_ENTRIES);
        let (_, list) = plain::settle(&fresh).unwrap();
        for _ in 0..rounds {
            let mut board = fresh;
            match side {
                "engine" => drop(black_box(check_steps(black_box(&list), &mut board))),
                _ => drop(black_box(step_lists::check_steps(&board, black_box(&list)))),
            }
        }
    }
}

fn setting(side: &str, call: usize, rounds: usize) {
    let ours = [SetCall::Insert, SetCall::Remove, SetCall::Contains, SetCall::Len, SetCall::SingleCandidate];
    for round in 0..rounds * BOARDS {
        let (mask, digit) = ((round % 512) as u16, (round % 9) as i32 + 1);
        if side == "engine" {
            black_box(set(ours[call], black_box(mask), black_box(digit)));
            continue;
        }
        let mut theirs = SudokuCandidateSet::new();
        theirs.mask = black_box(mask);
        black_box(match call {
            0 => {
                theirs.insert(black_box(digit));
                0
            }
            1 => theirs.remove(black_box(digit)) as i32,
            2 => theirs.contains(black_box(digit)) as i32,
            3 => theirs.len() as i32,
            _ => theirs.single_candidate().unwrap_or(0),
        });
        black_box(theirs.mask);
    }
}
