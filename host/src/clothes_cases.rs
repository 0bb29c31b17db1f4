//! Grids in other clothes (document 02, F-13): changes of cells and digits, and what is asked of a board and of the same board changed.

use crate::cases::{self, apart, Case};
use crate::plain::{bit, col, row, Outcome};
use crate::random::Random;
use crate::shrink::{changed, Smaller};
use crate::sides::{Call, Side, CHAIN, SETTLING, X_CHAIN};
use crate::{grids, Board};

/// Naked pairs, box-line, X-wing, and then the chain passes: what they do knows no order of digits.
pub const FOLLOWING: [u8; 5] = [1, 2, 3, CHAIN, X_CHAIN];

/// The six kinds; two rows, columns, bands or stacks are exchanged.
#[derive(Clone, Copy, Debug)]
pub enum Change {
    /// What each digit becomes; 0, which is none, stays.
    Labels([i32; 10]),
    Rows(usize, usize),
    Columns(usize, usize),
    Bands(usize, usize),
    Stacks(usize, usize),
    Turn,
}

fn exchanged(one: usize, two: usize, number: usize) -> usize {
    if number == one { two } else if number == two { one } else { number }
}

impl Change {
    /// Where what stands in a cell goes.
    fn cell(&self, cell: usize) -> usize {
        let (row, col) = (row(cell), col(cell));
        match *self {
            Change::Labels(_) => cell,
            Change::Rows(one, two) => 9 * exchanged(one, two, row) + col,
            Change::Columns(one, two) => 9 * row + exchanged(one, two, col),
            Change::Bands(one, two) => 9 * (3 * exchanged(one, two, row / 3) + row % 3) + col,
            Change::Stacks(one, two) => 9 * row + 3 * exchanged(one, two, col / 3) + col % 3,
            Change::Turn => 9 * col + row,
        }
    }

    fn digit(&self, digit: i32) -> i32 {
        match self {
            Change::Labels(labels) => labels[digit as usize],
            _ => digit,
        }
    }

    fn mask(&self, mask: u16) -> u16 {
        (1..=9).filter(|&digit| mask & bit(digit) != 0).fold(0, |labels, digit| labels | bit(self.digit(digit)))
    }

    fn board(&self, board: &Board) -> Board {
        let mut other = *board;
        for cell in 0..81 {
            let to = self.cell(cell);
            other.clues[to] = self.digit(board.clues[cell]);
            other.entries[to] = self.digit(board.entries[cell]);
            other.masks[to] = self.mask(board.masks[cell]);
        }
        other
    }
}

/// A board, a list, and changes that are made one after the other.
#[derive(Clone)]
pub struct Clothes {
    pub case: Case,
    pub changes: Vec<Change>,
}

impl std::fmt::Display for Clothes {
    fn fmt(&self, out: &mut std::fmt::Formatter) -> std::fmt::Result {
        write!(out, "{}", self.case)?;
        writeln!(out, "changes {:?}", self.changes)
    }
}

impl Smaller for Clothes {
    fn smaller(&self) -> impl Iterator<Item = Self> {
        let changes = (0..self.changes.len()).map(|at| changed(self, |less| _ = less.changes.remove(at)));
        let cases = self.case.smaller().map(|case| Clothes { case, ..self.clone() });
        changes.chain(cases)
    }
}

impl Clothes {
    fn worn(&self, board: &Board) -> Board {
        self.changes.iter().fold(*board, |board, change| change.board(&board))
    }
}

// ---- making them

/// Any one-to-one labels.
pub fn labels(random: &mut Random) -> Change {
    let mut digits = [1, 2, 3, 4, 5, 6, 7, 8, 9];
    random.shuffle(&mut digits);
    let mut labels = [0; 10];
    labels[1..].copy_from_slice(&digits);
    Change::Labels(labels)
}

fn change(random: &mut Random) -> Change {
    let (group, one, two) = (3 * random.below(3), random.below(3), random.below(3));
    match random.below(6) {
        0 => labels(random),
        1 => Change::Rows(group + one, group + two),
        2 => Change::Columns(group + one, group + two),
        3 => Change::Bands(one, two),
        4 => Change::Stacks(one, two),
        _ => Change::Turn,
    }
}

/// A board with or without entries, most often one that no list reaches.
fn board_case(random: &mut Random, calls: Vec<Call>) -> Case {
    let case = Case { kept: cases::kept(random), ..Case::fresh(grids::clues(random), calls) };
    cases::with_entries(random, case, None)
}

/// To settle: any chain of changes.
pub fn clothes(random: &mut Random) -> Clothes {
    let changes = (0..random.within(1, 6)).map(|_| change(random)).collect();
    Clothes { case: board_case(random, Vec::new()), changes }
}

/// For a list of eliminations: labels alone.
pub fn relabelled(random: &mut Random) -> Clothes {
    let mut calls = cases::list(random, &FOLLOWING[..3], 8);
    if random.percent(20) {
        let chains = &FOLLOWING[3..];
        calls.insert(random.within(0, calls.len()), Call::Step(*random.pick(chains)));
    }
    Clothes { changes: vec![labels(random)], case: board_case(random, calls) }
}

// ---- asking

/// One call on both boards: the sides' boards after it stand as they stood before, and what each side said.
fn called<S: Side>(clothes: &Clothes, (side, worn): (&mut S, &mut S), call: Call) -> Result<[Outcome; 2], String> {
    let both = (side.call(call), worn.call(call));
    let (Ok(one), Ok(two)) = both else { return Err(format!("{call:?} is refused: {both:?}")) };
    let (expected, found) = (clothes.worn(&side.board()), worn.board());
    if found != expected {
        return Err(format!("{call:?} leaves another board in other clothes: {}", apart(&found.masks, &expected.masks)));
    }
    Ok([one, two])
}

fn started<S: Side>(clothes: &Clothes) -> (S, S) {
    let board = clothes.case.board();
    (S::start(&board), S::start(&clothes.worn(&board)))
}

/// What settling leaves follows the changes; so do the fresh masks, and what settling leaves of them.
pub fn settled_apart<S: Side>(clothes: &Clothes) -> Option<String> {
    let (mut side, mut worn) = started::<S>(clothes);
    let calls = [SETTLING, 0, SETTLING].map(Call::Step);
    calls.into_iter().try_for_each(|call| called(clothes, (&mut side, &mut worn), call).map(drop)).err()
}

/// The masks of a list of eliminations follow the labels, and every flag is the same.
pub fn lists_apart<S: Side>(clothes: &Clothes) -> Option<String> {
    let (mut side, mut worn) = started::<S>(clothes);
    let run = clothes.case.calls.iter().try_for_each(|&call| {
        let [one, two] = called(clothes, (&mut side, &mut worn), call)?;
        if one.flag == two.flag { Ok(()) } else { Err(format!("{call:?} says {} and, relabelled, {}", one.flag, two.flag)) }
    });
    run.err()
}

/// Settling takes another number of sweeps on the changed board, as it may.
pub fn sweeps_apart<S: Side>(clothes: &Clothes) -> bool {
    let (mut side, mut worn) = started::<S>(clothes);
    let both = called(clothes, (&mut side, &mut worn), Call::Step(SETTLING));
    both.is_ok_and(|[one, two]| one.sweeps != two.sweeps)
}
