//! Setters' step lists a second time, plainly, after document 02's F-10: the instances in a sweep's order, their bytes, the checker. The
//! list that settling hands back is plain.rs's own; that its passes go through these instances in this order is tried by `settled_by`.

use std::collections::HashMap;
use std::sync::LazyLock;

use crate::plain::{afresh, bit, check, joint, peers, unit, Joint};
use crate::{Board, Stop};

/// An instance of a wide pass: cells 0 to 80, digits 1 to 9, units by their numbers.
#[derive(Clone, Copy, Debug, PartialEq, Eq)]
pub enum Step {
    Lone { cell: usize, digit: i32 },
    Place { unit: usize, digit: i32, cell: usize },
    Pair { unit: usize, cells: [usize; 2], digits: [i32; 2] },
    Pointing { block: usize, digit: i32, line: usize },
    Claiming { line: usize, digit: i32, block: usize },
    /// Rows and then columns, or columns and then rows.
    Cross { digit: i32, lines: [usize; 2], across: [usize; 2] },
}

/// Two of a range, the first below the second, the first rising and then the second.
fn twos(from: usize, to: usize) -> impl Iterator<Item = [usize; 2]> {
    (from..to).flat_map(move |first| (first + 1..to).map(move |second| [first, second]))
}

fn meeting(number: usize, others: std::ops::Range<usize>) -> impl Iterator<Item = usize> {
    others.filter(move |&other| unit(other).iter().any(|cell| unit(number).contains(cell)))
}

/// "The named parts run in that order, the first outermost, rising."
static SWEEP: LazyLock<Vec<Step>> = LazyLock::new(|| {
    let mut steps = Vec::new();
    for cell in 0..81 {
        steps.extend((1..=9).map(|digit| Step::Lone { cell, digit }));
    }
    for number in 0..27 {
        for digit in 1..=9 {
            steps.extend(unit(number).map(|cell| Step::Place { unit: number, digit, cell }));
        }
    }
    for number in 0..27 {
        for [first, second] in twos(0, 9) {
            let cells = [unit(number)[first], unit(number)[second]];
            steps.extend(twos(1, 10).map(|[a, b]| Step::Pair { unit: number, cells, digits: [a as i32, b as i32] }));
        }
    }
    for block in 18..27 {
        for digit in 1..=9 {
            steps.extend(meeting(block, 0..18).map(|line| Step::Pointing { block, digit, line }));
        }
    }
    for line in 0..18 {
        for digit in 1..=9 {
            steps.extend(meeting(line, 18..27).map(|block| Step::Claiming { line, digit, block }));
        }
    }
    for (from, to) in [(0, 9), (9, 0)] {
        for digit in 1..=9 {
            for lines in twos(from, from + 9) {
                steps.extend(twos(to, to + 9).map(|across| Step::Cross { digit, lines, across }));
            }
        }
    }
    steps
});

/// "its kind .., then its parts in the order of 01 and F-5 .., then zeros"
pub fn bytes(step: &Step) -> [u8; 6] {
    let [kind, p, q, r, s, t] = match *step {
        Step::Lone { cell, digit } => [0, cell, digit as usize, 0, 0, 0],
        Step::Place { unit, digit, cell } => [1, unit, digit as usize, cell, 0, 0],
        Step::Pair { unit, cells, digits } => [2, unit, cells[0], cells[1], digits[0] as usize, digits[1] as usize],
        Step::Pointing { block, digit, line } => [3, block, digit as usize, line, 0, 0],
        Step::Claiming { line, digit, block } => [4, line, digit as usize, block, 0, 0],
        Step::Cross { digit, lines, across } => [if lines[0] < 9 { 5 } else { 6 }, digit as usize, lines[0], lines[1], across[0], across[1]],
    };
    [kind, p, q, r, s, t].map(|part| part as u8)
}

static NAMED: LazyLock<HashMap<[u8; 6], Step>> = LazyLock::new(|| SWEEP.iter().map(|step| (bytes(step), *step)).collect());

/// "Other bytes name no instance, and a shorter last piece is a step that names none."
pub fn named(piece: &[u8]) -> Option<Step> {
    NAMED.get(<&[u8; 6]>::try_from(piece).ok()?).copied()
}

impl Step {
    /// Whether its condition holds: "Conditions read all 81 masks, clue cells too".
    fn holds(&self, board: &Joint) -> bool {
        let all_within = |numbers: &[usize], digit: i32, others: &[usize]| {
            let inside = |cell: usize| others.iter().any(|&other| unit(other).contains(&cell));
            numbers.iter().flat_map(|&number| unit(number)).all(|cell| !board.holds(cell, digit) || inside(cell))
        };
        match *self {
            Step::Lone { cell, digit } => board.masks[cell] & !bit(digit) == 0,
            Step::Place { unit: number, digit, cell } => unit(number).iter().all(|&other| other == cell || !board.holds(other, digit)),
            Step::Pair { cells, digits: [a, b], .. } => cells.iter().all(|&cell| board.masks[cell] & !(bit(a) | bit(b)) == 0),
            Step::Pointing { block, digit, line } => all_within(&[block], digit, &[line]),
            Step::Claiming { line, digit, block } => all_within(&[line], digit, &[block]),
            Step::Cross { digit, lines, across } => all_within(&lines, digit, &across),
        }
    }

    /// The cells that lose something, if they are open, and what.
    fn loses(&self) -> Vec<(usize, u16)> {
        let outside = |numbers: &[usize], digit: i32, others: &[usize]| {
            let inside = |cell: &usize| others.iter().any(|&other| unit(other).contains(cell));
            numbers.iter().flat_map(|&number| unit(number)).filter(|cell| !inside(cell)).map(|cell| (cell, bit(digit))).collect()
        };
        match *self {
            Step::Lone { cell, digit } => peers(cell).map(|peer| (peer, bit(digit))).collect(),
            Step::Place { digit, cell, .. } => vec![(cell, !bit(digit))],
            Step::Pair { unit: number, cells, digits: [a, b] } => unit(number).into_iter().filter(|cell| !cells.contains(cell)).map(|cell| (cell, bit(a) | bit(b))).collect(),
            Step::Pointing { block, digit, line } => outside(&[line], digit, &[block]),
            Step::Claiming { line, digit, block } => outside(&[block], digit, &[line]),
            Step::Cross { digit, lines, across } => outside(&across, digit, &lines),
        }
    }

    /// Its turn: whether it removed something.
    fn taken(&self, board: &mut Joint) -> bool {
        let before = board.masks;
        if self.holds(board) {
            for (cell, digits) in self.loses() {
                board.lose(cell, digits);
            }
        }
        board.masks != before
    }
}

/// "Up to 729 steps are checked from the fresh board of the handed board's clues and entries."
pub fn check_steps(board: &Board, list: &[u8]) -> Result<Board, Stop> {
    if let Some(stop) = check(board) {
        return Err(stop);
    }
    // "16, more than 729 steps, with their number, checked after the board and before any step"
    let steps = list.chunks(6).count();
    if steps > 729 {
        return Err(Stop { number: 16, detail: steps as i64 });
    }
    follow(&afresh(&board.clues, &board.entries), list)
}

/// The steps one after the other from a board that stands: "15, a step that names no instance, whose condition does not hold or that removes
/// nothing, with the index of the first such step".
pub fn follow(start: &Board, list: &[u8]) -> Result<Board, Stop> {
    let mut joint = joint(start);
    for (index, piece) in list.chunks(6).enumerate() {
        if !named(piece).is_some_and(|step| step.taken(&mut joint)) {
            return Err(Stop { number: 15, detail: index as i64 });
        }
    }
    Ok(Board { masks: joint.masks, ..*start })
}

/// The same list from the instances one by one, of settling on a board that stands, and the settled board.
pub fn settled_by(board: &Board) -> (Vec<u8>, Board) {
    let mut joint = joint(board);
    let mut list = Vec::new();
    loop {
        let before = joint.masks;
        list.extend(SWEEP.iter().filter(|step| step.taken(&mut joint)).flat_map(bytes));
        if joint.masks == before {
            return (list, Board { masks: joint.masks, ..*board });
        }
    }
}
