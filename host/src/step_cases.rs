//! Boards to settle and the step lists that settling hands back, lists to check, damaged ones too, and what is asked of them.

use crate::cases::{self, Case};
use crate::plain::{self, Outcome};
use crate::random::Random;
use crate::shrink::{changed, Smaller};
use crate::sides::{Plain, Side, BROKEN, CLAIMING, LENT_BYTE, X_CHAIN};
use crate::{Board, Stop};

#[derive(Clone)]
pub struct StepList {
    /// The board that is handed in; its calls play no part.
    pub case: Case,
    pub bytes: Vec<u8>,
}

impl std::fmt::Display for StepList {
    fn fmt(&self, out: &mut std::fmt::Formatter) -> std::fmt::Result {
        let steps: Vec<&[u8]> = self.bytes.chunks(6).collect();
        writeln!(out, "{}steps {steps:?}", self.case)
    }
}

impl Smaller for StepList {
    fn smaller(&self) -> impl Iterator<Item = Self> {
        let halves = (self.bytes.len() > 12).then(|| changed(self, |less| less.bytes.truncate(self.bytes.len() / 12 * 6)));
        let steps = (0..self.bytes.len().div_ceil(6)).map(|at| changed(self, |less| _ = less.bytes.drain(6 * at..(6 * at + 6).min(self.bytes.len()))));
        let boards = self.case.smaller().map(|case| StepList { case, ..self.clone() });
        halves.into_iter().chain(steps).chain(boards)
    }
}

// ---- settling with its list

/// The call on a board: what it answers, and the bytes of its steps.
pub type Settler = fn(&Board) -> Result<(Outcome, Vec<u8>), Stop>;

/// A board to settle: fresh, with candidates gone, in the middle of a list of passes, or one that may be refused.
pub fn to_settle(random: &mut Random) -> Case {
    match random.below(10) {
        0 => Case { calls: Vec::new(), ..cases::damaged_case(random) },
        1..=6 => Case { calls: Vec::new(), ..cases::wide_case(random) },
        _ => {
            let case = cases::wide_case(random);
            Case { calls: cases::list(random, &[7, 8, 9, 10, 11, CLAIMING, X_CHAIN], 3), ..case }
        }
    }
}

/// The board that the case's calls leave.
pub fn reached(case: &Case) -> Board {
    let mut side = Plain::start(&case.board());
    case.calls.iter().for_each(|&call| _ = side.call(call));
    side.board()
}

pub fn is_fresh(board: &Board) -> bool {
    plain::check(board).is_none() && *board == plain::afresh(&board.clues, &board.entries)
}

/// The engine's: `BROKEN` where what was lent holds something else than the page says.
pub fn engine_settles(board: &Board) -> Result<(Outcome, Vec<u8>), Stop> {
    let (mut left, mut bytes) = (*board, [LENT_BYTE; 4374]);
    match crate::settle(&mut left, &mut bytes, &mut [0; 6]) {
        Err(stop) if left == *board && bytes == [LENT_BYTE; 4374] => Err(stop),
        Ok(crate::SettledCounts { sweeps, removed, steps: steps @ 0..=729 }) if Board { masks: board.masks, ..left } == *board => {
            let (list, rest) = bytes.split_at(6 * steps as usize);
            let outcome = Outcome { sweeps: sweeps as usize, removed: removed as usize, ..plain::silent(&left.masks) };
            if rest.iter().all(|&byte| byte == 0) { Ok((outcome, list.to_vec())) } else { Err(BROKEN) }
        }
        _ => Err(BROKEN),
    }
}

/// The engine's settling against another's: the counts, the masks, and the list byte by byte.
pub fn settled_differs(settle: Settler, case: &Case) -> Option<String> {
    let board = reached(case);
    let (ours, theirs) = (engine_settles(&board), settle(&board));
    let shown = |answer: &Result<(Outcome, Vec<u8>), Stop>| match answer {
        Ok((outcome, list)) => format!("sweeps {}, removed {}, steps {:?}", outcome.sweeps, outcome.removed, list.chunks(6).collect::<Vec<_>>()),
        Err(stop) => format!("{stop:?}"),
    };
    (ours != theirs).then(|| format!("\n  first  {}\n  second {}", shown(&ours), shown(&theirs)))
}

/// "Where settling began on the fresh board, that list is always accepted and gives the settled board", on the engine.
pub fn own_refused(case: &Case) -> Option<String> {
    let board = reached(case);
    let Ok((settled, list)) = engine_settles(&board) else { return is_fresh(&board).then(|| "settling is refused".into()) };
    let mut last = board;
    let checked = crate::check_steps(&list, &mut last);
    let alike = checked == Ok(()) && last == Board { masks: settled.masks, ..board };
    (is_fresh(&board) && !alike).then(|| format!("{checked:?} of {:?}: {}", list.chunks(6).collect::<Vec<_>>(), cases::apart(&last.masks, &settled.masks)))
}

// ---- lists to check

/// The checker on a board and a list.
pub type Checker = fn(&Board, &[u8]) -> Result<Board, Stop>;

/// Settling's own list from the fresh board of clues and entries; the masks that are handed in with it are others as often as not.
pub fn own(random: &mut Random) -> StepList {
    let case = Case { calls: Vec::new(), ..cases::wide_case(random) };
    with_own(case)
}

/// The same on a board that may be refused.
pub fn refused(random: &mut Random) -> StepList {
    let case = Case { calls: Vec::new(), ..cases::damaged_case(random) };
    with_own(case)
}

fn with_own(case: Case) -> StepList {
    let (_, bytes) = plain::settle(&plain::afresh(&case.clues, &case.entries)).unwrap();
    StepList { case, bytes }
}

/// A list with a byte changed, a step doubled, exchanged, cut or put in its exchanged form, bytes cut at its end, too many steps, or any bytes.
pub fn damaged(random: &mut Random, list: &StepList) -> StepList {
    let mut list = list.clone();
    let bytes = &mut list.bytes;
    if bytes.is_empty() {
        bytes.extend((0..random.within(1, 13)).map(|_| random.below(7) as u8));
    }
    let step = 6 * random.below(bytes.len().div_ceil(6));
    let whole = step + 6 <= bytes.len();
    match random.below(8) {
        0 => {
            let most = *random.pick(&[28, 28, 256]);
            let at = random.below(bytes.len());
            bytes[at] = random.below(most) as u8;
        }
        1 if whole => {
            let again: Vec<u8> = bytes[step..step + 6].to_vec();
            bytes.splice(step..step, again);
        }
        2 if whole && step > 0 => bytes[step - 6..step + 6].rotate_left(6),
        3 if whole => _ = bytes.drain(step..step + 6),
        4 => bytes.truncate(bytes.len() - random.within(1, 5).min(bytes.len())),
        5 => {
            let most = 6 * random.within(728, 732) + random.below(6);
            *bytes = bytes.iter().copied().cycle().take(most).collect();
        }
        6 if whole => {
            // the last two parts before the two before them, in the other kind of Cross
            bytes[step] = *random.pick(&[5, 6]);
            bytes[step + 2..step + 6].rotate_left(2);
        }
        _ => {
            bytes.truncate(step);
            bytes.extend((0..random.within(1, 12)).map(|_| random.below(28) as u8));
        }
    }
    list
}

/// The stop or the final board, the engine's against another's; beside a stop the board keeps its contents.
pub fn answers_differ(check: Checker, list: &StepList) -> Option<String> {
    let board = list.case.board();
    let mut left = board;
    let ours = crate::check_steps(&list.bytes, &mut left);
    let theirs = check(&board, &list.bytes);
    let alike = match &theirs {
        Ok(last) => ours == Ok(()) && left == *last,
        Err(stop) => ours == Err(*stop) && left == board,
    };
    (!alike).then(|| format!("\n  first  {ours:?} {:?}\n  second {theirs:?}", left.masks))
}
