//! The Rust original, derived by oracle.py when this is built; no line of it stands in the repository.

mod original {
    #![allow(dead_code, clippy::all)]
    include!(concat!(env!("OUT_DIR"), "/oracle.rs"));
}

pub use original::{SudokuCandidateSet, SudokuSolver};

use crate::{Clues, Masks};

pub fn rows(clues: &Clues) -> [[i32; 9]; 9] {
    std::array::from_fn(|row| std::array::from_fn(|col| clues[9 * row + col]))
}

pub fn flat(rows: &[[i32; 9]; 9]) -> Clues {
    std::array::from_fn(|cell| rows[cell / 9][cell % 9])
}

pub fn opened(clues: &Clues) -> SudokuSolver {
    SudokuSolver::new(rows(clues))
}

pub fn verify(grid: &Clues) -> bool {
    SudokuSolver::verify_solution(&rows(grid))
}

pub fn fresh(clues: &Clues) -> Masks {
    opened(clues).masks()
}

pub fn with_masks(clues: &Clues, masks: &Masks) -> SudokuSolver {
    let mut solver = opened(clues);
    solver.set_masks(masks);
    solver
}

/// What `get_candidates` hands out, as masks.
pub fn candidates(solver: &SudokuSolver) -> Masks {
    let rows = solver.get_candidates();
    std::array::from_fn(|cell| rows[cell / 9][cell % 9].mask)
}
