//! What each wide pass removed in settling and the difficulty figure made of it (document 02, F-14): boards to rate, and what is asked of
//! them.

use crate::cases::{self, Case};
use crate::grids;
use crate::plain::{self, Difficulty};
use crate::random::Random;
use crate::sides::{BROKEN, LENT_BYTE};
use crate::{Board, Stop};

/// Settling's six counts of a board.
pub type Counter = fn(&Board) -> Result<[usize; 6], Stop>;

/// The figure of a board.
pub type Rater = fn(&Board) -> Result<Difficulty, Stop>;

/// A board with or without entries, its candidates gone or not; one that may be refused; one with few open cells or none, some entered.
pub fn to_rate(random: &mut Random) -> Case {
    let case = match random.below(10) {
        0 | 1 => cases::damaged_case(random),
        2 | 3 => nearly_full(random),
        _ => cases::wide_case(random),
    };
    Case { calls: Vec::new(), ..case }
}

fn nearly_full(random: &mut Random) -> Case {
    let mut case = Case::fresh(grids::filling(random), Vec::new());
    for _ in 0..random.below(4) {
        let cell = random.below(81);
        let digit = std::mem::take(&mut case.clues[cell]);
        if random.percent(70) && digit != 0 {
            case.entries[cell] = digit;
        }
    }
    if random.percent(30) {
        case.kept = cases::kept(random);
    }
    case
}

/// The engine's: `BROKEN` where what was lent holds something else than the page says.
pub fn engine_counts(board: &Board) -> Result<[usize; 6], Stop> {
    let lent = [usize::MAX - 7; 6];
    let (mut left, mut counts) = (*board, lent);
    match crate::settle(&mut left, &mut [LENT_BYTE; 4374], &mut counts) {
        Err(_) if counts != lent => Err(BROKEN),
        Err(stop) => Err(stop),
        Ok(settled) if counts.iter().sum::<usize>() as i64 != settled.removed => Err(BROKEN),
        Ok(_) => Ok(counts),
    }
}

/// The engine's counts against another's; "The counts add up to the removed total".
pub fn counts_differ(count: Counter, case: &Case) -> Option<String> {
    let board = case.board();
    let (ours, theirs) = (engine_counts(&board), count(&board));
    (ours != theirs).then(|| format!("\n  first  {ours:?}\n  second {theirs:?}"))
}

/// The figure or the stop, the engine's against another's.
pub fn figures_differ(rate: Rater, case: &Case) -> Option<String> {
    let board = case.board();
    let (ours, theirs) = (crate::difficulty(&board), rate(&board));
    (ours != theirs).then(|| format!("\n  first  {ours:?}\n  second {theirs:?}"))
}

/// The figure from counts and points of six passes over so many cells: how the engine makes it, and how a misreading does.
pub fn figure(counts: &[usize; 6], points: &[usize; 6], cells: usize) -> Difficulty {
    let points: usize = counts.iter().zip(points).map(|(count, points)| count * points).sum();
    Difficulty { quotient: points / cells, remainder: points % cells, cells }
}

/// The figure of a board's own fresh board has as many cells as are open and not entered.
pub fn open_cells(board: &Board) -> usize {
    plain::together(&board.clues, &board.entries).iter().filter(|&&digit| digit == 0).count()
}
