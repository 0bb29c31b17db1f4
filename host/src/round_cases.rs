//! Trial rounds, and what is asked of them.

use crate::cases::{self, Case};
use crate::random::Random;
use crate::shrink::{changed, Smaller};
use crate::sides::{Call, Engine, KEEPING, LENT, SETTLING};
use crate::{grids, plain, Clues};

#[derive(Clone)]
pub struct Round {
    pub start: u32,
    pub percentage: u32,
    pub solution: Clues,
    /// The list after which the solution must still stand in the masks.
    pub calls: Vec<Call>,
}

impl std::fmt::Display for Round {
    fn fmt(&self, out: &mut std::fmt::Formatter) -> std::fmt::Result {
        writeln!(out, "start {}, {} percent of {:?}, calls {:?}", self.start, self.percentage, self.solution, self.calls)
    }
}

/// Any start and percentage, and mostly a correct filling.
pub fn round(random: &mut Random) -> Round {
    let start = match random.below(3) {
        0 => *random.pick(&[0, 1, 1 << 31, (1 << 31) - 1, (1 << 31) + 1, u32::MAX - 1, u32::MAX]),
        _ => random.next() as u32,
    };
    let percentage = match random.below(20) {
        0 => u32::MAX,
        1 => random.next() as u32,
        _ => random.within(0, 101) as u32,
    };
    let solution = if random.percent(80) { grids::filling(random) } else { grids::filled(random) };
    Round { start, percentage, solution, calls: cases::list(random, &KEEPING, 6) }
}

impl Smaller for Round {
    fn smaller(&self) -> impl Iterator<Item = Self> {
        let starts = [0, self.start / 2].into_iter().filter(|&less| less < self.start).map(|start| Round { start, ..self.clone() });
        let parts = [0, self.percentage / 2].into_iter().filter(|&less| less < self.percentage).map(|percentage| Round { percentage, ..self.clone() });
        let calls = (0..self.calls.len()).map(|at| changed(self, |less| _ = less.calls.remove(at)));
        starts.chain(parts).chain(calls)
    }
}

/// The clues or the stop, engine and plain; beside a stop what is lent keeps its contents.
pub fn round_differs(round: &Round) -> Option<String> {
    let mut clues = LENT.0;
    let ours = crate::trial_round(round.start, round.percentage, &round.solution, &mut clues);
    let plain = plain::trial_round(round.start, round.percentage, &round.solution);
    let alike = match plain {
        Ok(grid) => ours == Ok(grid.iter().filter(|&&clue| clue != 0).count() as i64) && clues == grid,
        Err(stop) => ours == Err(stop) && clues == LENT.0,
    };
    (!alike).then(|| format!("\n  first  {ours:?} {clues:?}\n  second {plain:?}"))
}

/// A round that is made keeps its solution through a list and settling.
pub fn solution_lost(round: &Round) -> Option<String> {
    let mut clues = LENT.0;
    crate::trial_round(round.start, round.percentage, &round.solution, &mut clues).ok()?;
    if let Some(cell) = (0..81).find(|&cell| clues[cell] != 0 && clues[cell] != round.solution[cell]) {
        return Some(format!("the clue of cell {cell} is not the solution's digit"));
    }
    let calls = round.calls.iter().copied().chain([Call::Step(SETTLING)]).collect();
    cases::filling_lost::<Engine>(&Case::fresh(clues, calls), &round.solution)
}
