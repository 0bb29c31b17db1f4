//! Words: the lines that the program `round` prints, and the steps as `explain` prints them.

use sudoku::{Board, CandidateSet, Cell, Step};

use crate::round::{Check, Content, Entry, Line, Score};

// ---- the lines of `round`

/// The line of a line: what is no grid as it came.
pub fn round_line(line: &Line) -> Vec<u8> {
    match &line.content {
        Content::Grid(entry) => fields(entry).into_bytes(),
        Content::Empty | Content::Remark => line.bytes.to_vec(),
    }
}

fn fields(entry: &Entry) -> String {
    match &entry.score {
        Err(stop) => format!("refused {} {}", stop.number(), stop.detail()),
        Ok(score) => {
            let numbers = format!("{} {} {} {}", score.board.clue_count(), score.reported, score.settled.sweeps, score.settled.removed);
            format!("{numbers} {} {} {}", score.board.verdict(), difficulty(score), answer(score.answer))
        }
    }
}

fn answer(check: Check) -> String {
    match check {
        Check::Missing => "none".to_string(),
        Check::NotFilled | Check::Repeats => "wrong".to_string(),
        Check::BreaksClue(cell) => format!("clue {}", cell.index()),
        Check::Right => "right".to_string(),
    }
}

/// The figure as `quotient+remainder/cells`.
pub fn difficulty(score: &Score) -> String {
    score.difficulty.map_or("none".to_string(), |figure| figure.to_string())
}

// ---- steps

/// A step of settling: what it is, and what each cell lost by it.
#[derive(Debug, PartialEq, Eq)]
pub struct Told {
    pub title: String,
    pub losses: Vec<String>,
}

/// What each cell lost, cells rising.
fn losses(before: &Board, after: &Board) -> Vec<String> {
    let lost = |cell: Cell| CandidateSet::from_mask(before.raw().masks[cell.index()] & !after.raw().masks[cell.index()]);
    let loss = |cell: Cell| {
        let digits: Vec<String> = lost(cell).iter().map(|digit| digit.to_string()).collect();
        format!("-{cell}<{}>", digits.join(","))
    };
    Cell::all().filter(|&cell| !lost(cell).is_empty()).map(loss).collect()
}

/// The steps of settling: `explain`'s lines without their numbers, cut at their spaces. What a step removed is what the board, as the checker of step
/// lists leaves it, lacks after it.
pub fn steps(score: &Score) -> Vec<Told> {
    let steps: Vec<Step> = score.settled.steps().collect();
    // the empty list leaves the fresh board
    let mut board = score.board.clone();
    board.run(&[]);
    let mut told = Vec::new();
    for (index, step) in steps.iter().enumerate() {
        let before = board.clone();
        board.check_steps(&steps[..=index]).expect("settling's own steps");
        told.push(Told { title: format!("{step}:"), losses: losses(&before, &board) });
    }
    told
}
