//! Cases: a board by its clues and entries, what is kept of its fresh masks and what is put in their place, and lists of calls; and
//! what is asked of a case.

use crate::plain::{self, Outcome};
use crate::random::Random;
use crate::sides::{steps, Accessors, Asked, Call, Engine, Side, CHAIN, KEEPING, LENT, PORTED, SETTLING, SOUND, STEPS, WIDE, X_CHAIN};
use crate::{grids, oracle, Board, Clues, Entries, Masks, Stop, NO_ENTRIES};

#[derive(Clone, PartialEq)]
pub struct Case {
    pub clues: Clues,
    /// Of cells that have no clue.
    pub entries: Entries,
    /// The board starts with the fresh masks, of which an open cell keeps these digits.
    pub kept: Masks,
    /// Numbers in the place of clues and of entries, and masks in the place of those: boards that may be refused.
    pub numbers: Vec<(usize, i32)>,
    pub entered: Vec<(usize, i32)>,
    pub masks: Vec<(usize, u16)>,
    pub calls: Vec<Call>,
    /// The second list, where two are compared.
    pub others: Vec<Call>,
}

pub const EVERYTHING: Masks = [511; 81];

impl Case {
    /// The fresh board of the clues, and a list.
    pub fn fresh(clues: Clues, calls: Vec<Call>) -> Self {
        Case { clues, entries: NO_ENTRIES, kept: EVERYTHING, numbers: Vec::new(), entered: Vec::new(), masks: Vec::new(), calls, others: Vec::new() }
    }

    /// The board that the first call is handed.
    pub fn board(&self) -> Board {
        let mut board = plain::afresh(&self.clues, &self.entries);
        let open = |cell: &usize| self.clues[*cell] == 0 && self.entries[*cell] == 0;
        (0..81).filter(open).for_each(|cell| board.masks[cell] &= self.kept[cell]);
        self.numbers.iter().for_each(|&(cell, number)| board.clues[cell] = number);
        self.entered.iter().for_each(|&(cell, number)| board.entries[cell] = number);
        self.masks.iter().for_each(|&(cell, mask)| board.masks[cell] = mask);
        board
    }
}

impl std::fmt::Display for Case {
    fn fmt(&self, out: &mut std::fmt::Formatter) -> std::fmt::Result {
        let text = |numbers: &[i32; 81]| {
            let mut text = [0; 81];
            plain::write_text(numbers, &mut text).unwrap();
            String::from_utf8_lossy(&text).into_owned()
        };
        writeln!(out, "grid  {}", text(&self.clues))?;
        if self.entries != NO_ENTRIES {
            writeln!(out, "entries {}", text(&self.entries))?;
        }
        let kept: Vec<String> = (0..81).filter(|&cell| self.kept[cell] != 511).map(|cell| format!("{cell}:{}", self.kept[cell])).collect();
        writeln!(out, "kept  {}", if kept.is_empty() { "all".into() } else { kept.join(" ") })?;
        if !self.numbers.is_empty() || !self.entered.is_empty() || !self.masks.is_empty() {
            writeln!(out, "put   numbers {:?}, entries {:?}, masks {:?}", self.numbers, self.entered, self.masks)?;
        }
        writeln!(out, "calls {:?}", self.calls)?;
        if !self.others.is_empty() {
            writeln!(out, "others {:?}", self.others)?;
        }
        Ok(())
    }
}

// ---- making them

pub fn list(random: &mut Random, from: &[u8], most: usize) -> Vec<Call> {
    (0..random.within(0, most)).map(|_| Call::Step(*random.pick(from))).collect()
}

/// The chain pass costs a hundred times what the others do, so it comes less often.
fn ported_list(random: &mut Random, most: usize) -> Vec<Call> {
    let mut calls = list(random, &PORTED[..7], most);
    for call in &mut calls {
        if random.percent(4) {
            *call = Call::Step(CHAIN);
        }
    }
    calls
}

/// Mostly the fresh masks; else masks with candidates gone, so that rarer patterns stand on the board.
pub fn kept(random: &mut Random) -> Masks {
    let gone = *random.pick(&[0, 0, 0, 0, 10, 30, 50, 65]);
    let mut kept = EVERYTHING;
    for mask in &mut kept {
        for digit in 1..=9 {
            if random.percent(gone) {
                *mask &= !plain::bit(digit);
            }
        }
    }
    kept
}

/// A board without entries, and ported calls.
pub fn ported_case(random: &mut Random) -> Case {
    let clues = grids::clues(random);
    let kept = kept(random);
    Case { kept, ..Case::fresh(clues, ported_list(random, 12)) }
}

/// The same with entries, and with enterings and rubbings out among the calls.
pub fn ported_with_entries(random: &mut Random) -> Case {
    let case = ported_case(random);
    let case = with_entries(random, case, None);
    with_entry_calls(random, case, None)
}

/// A board, most often one that no list reaches, and the wide passes, settling and the X-chain pass in some order.
pub fn wide_case(random: &mut Random) -> Case {
    let clues = grids::clues(random);
    let kept = kept(random);
    let mut numbers = [&WIDE[..], &[X_CHAIN]].concat();
    random.shuffle(&mut numbers);
    let case = with_entries(random, Case { kept, ..Case::fresh(clues, steps(&numbers)) }, None);
    if random.percent(50) { with_entry_calls(random, case, None) } else { case }
}

/// A board that some call may refuse, and one call.
pub fn damaged_case(random: &mut Random) -> Case {
    let case = Case { kept: kept(random), ..Case::fresh(grids::clues(random), vec![Call::Step(*random.pick(&STEPS))]) };
    let mut case = with_entries(random, case, None);
    if random.percent(40) {
        case.calls = vec![entry_call(random, &plain::afresh(&case.clues, &case.entries), None)];
    }
    let wrong = |random: &mut Random| *random.pick(&[-1, 10, i32::MIN, i32::MAX, 256, 265, -65535]);
    for _ in 0..random.below(3) {
        let number = wrong(random);
        case.numbers.push((random.below(81), if random.percent(40) { random.within(0, 9) as i32 } else { number }));
    }
    for _ in 0..random.below(3) {
        let number = wrong(random);
        case.entered.push((random.below(81), if random.percent(60) { random.within(0, 9) as i32 } else { number }));
    }
    for _ in 0..random.below(3) {
        let mask = *random.pick(&[0, 511, 512, 0x8000, 0xFFFF]);
        case.masks.push((random.below(81), if random.percent(50) { random.below(512) as u16 } else { mask }));
    }
    case
}

/// A list for `run` from a fresh board, with or without entries; now and then with bytes that are no steps, or with numbers that are no
/// clues or no entries.
pub fn run_case(random: &mut Random) -> Case {
    let fresh = Case::fresh(grids::clues(random), list(random, &STEPS, 12));
    let mut case = with_entries(random, fresh, None);
    if random.percent(20) {
        let at = random.within(0, case.calls.len());
        case.calls.insert(at, Call::Step(random.within(STEPS.len(), 255) as u8));
    }
    if random.percent(10) {
        case.numbers.push((random.below(81), *random.pick(&[-1, 10, i32::MIN, i32::MAX])));
    }
    if random.percent(10) {
        case.entered.push((random.below(81), *random.pick(&[1, 5, 9, -1, 10, i32::MIN, i32::MAX])));
    }
    case
}

/// Two lists from one fresh board, with or without entries on it; none has a chain pass, and none enters or rubs out.
pub fn sound_case(random: &mut Random) -> (Case, Option<Clues>) {
    let filling = grids::filling(random);
    let (clues, answer) = match random.below(4) {
        0 => (grids::clues(random), None),
        _ => (grids::blanked(random, &filling, 15, 60), Some(filling)),
    };
    let calls = list(random, &SOUND, 6);
    let others = list(random, &SOUND, 6);
    (with_entries(random, Case { others, ..Case::fresh(clues, calls) }, answer.as_ref()), answer)
}

/// A list from the fresh board that also enters and rubs out, mostly a filling's digits; it has not the ported chain pass.
pub fn filling_case(random: &mut Random) -> (Case, Clues) {
    let filling = grids::filling(random);
    let clues = grids::blanked(random, &filling, 5, 60);
    let calls = list(random, &KEEPING, 8);
    (with_entry_calls(random, Case::fresh(clues, calls), Some(&filling)), filling)
}

/// Two lists of enterings and rubbings out from one fresh board that leave the same entries.
pub fn entries_case(random: &mut Random) -> Case {
    let clues = grids::clues(random);
    let fresh = plain::afresh(&clues, &NO_ENTRIES);
    let (calls, left) = entry_calls(random, fresh, 12);
    let (mut others, detour) = entry_calls(random, fresh, 8);
    others.extend(leading(random, &detour, &left.entries));
    Case { others, ..Case::fresh(clues, calls) }
}

fn entry_calls(random: &mut Random, fresh: Board, most: usize) -> (Vec<Call>, Board) {
    let mut board = fresh;
    let mut calls = Vec::new();
    for _ in 0..random.within(0, most) {
        let call = entry_call(random, &board, None);
        board = after(&board, call);
        calls.push(call);
    }
    (calls, board)
}

/// From the board's entries to others, cell by cell in any order.
fn leading(random: &mut Random, board: &Board, entries: &Entries) -> Vec<Call> {
    let mut cells: Vec<usize> = (0..81).filter(|&cell| board.entries[cell] != entries[cell]).collect();
    random.shuffle(&mut cells);
    let rubbed = |cell: usize| (board.entries[cell] != 0).then_some(Call::RubOut(cell as u32));
    let entered = |cell: usize| (entries[cell] != 0).then_some(Call::Enter(cell as u32, entries[cell]));
    cells.into_iter().flat_map(|cell| [rubbed(cell), entered(cell)]).flatten().collect()
}

// ---- entries

/// The case with some entries on its board, of a filling's digits most often where there is one.
pub fn with_entries(random: &mut Random, case: Case, filling: Option<&Clues>) -> Case {
    let mut board = plain::afresh(&case.clues, &NO_ENTRIES);
    for _ in 0..*random.pick(&[0, 0, 0, 1, 2, 4, 10]) {
        let call = entering(random, &board, filling);
        board = after(&board, call);
    }
    Case { entries: board.entries, ..case }
}

/// The case with enterings and rubbings out among its calls.
fn with_entry_calls(random: &mut Random, case: Case, filling: Option<&Clues>) -> Case {
    let mut board = plain::afresh(&case.clues, &case.entries);
    let mut calls = Vec::new();
    for next in case.calls.iter().map(Some).chain([None]) {
        while random.percent(30) {
            let call = entry_call(random, &board, filling);
            board = after(&board, call);
            calls.push(call);
        }
        calls.extend(next);
    }
    Case { calls, ..case }
}

/// The board after an entering or a rubbing out; as it was beside a refusal.
fn after(board: &Board, call: Call) -> Board {
    let answer = match call {
        Call::Enter(cell, digit) => plain::enter(board, cell as usize, digit),
        Call::RubOut(cell) => plain::rub_out(board, cell as usize),
        Call::Step(_) => Ok(*board),
    };
    answer.unwrap_or(*board)
}

fn entry_call(random: &mut Random, board: &Board, filling: Option<&Clues>) -> Call {
    let rubs = random.percent(if board.entries == NO_ENTRIES { 5 } else { 45 });
    if rubs { rubbing_out(random, board) } else { entering(random, board, filling) }
}

/// Mostly in an open cell; of the filling's digits where there is one, else of any, so that it may contradict a clue or an entry.
fn entering(random: &mut Random, board: &Board, filling: Option<&Clues>) -> Call {
    let cell = mostly(random, |cell| board.clues[cell] == 0 && board.entries[cell] == 0);
    let (at, fits) = (cell as usize % 81, random.percent(70));
    let held: Vec<i32> = (1..=9).filter(|&digit| board.masks[at] & plain::bit(digit) != 0).collect();
    let digit = match filling {
        _ if random.percent(5) => *random.pick(&[0, 10, -1, i32::MIN, i32::MAX, 256 + 5]),
        Some(filling) if fits => filling[at],
        None if fits && !held.is_empty() => *random.pick(&held),
        _ => random.digit(),
    };
    Call::Enter(cell, digit)
}

/// Mostly of an entry.
fn rubbing_out(random: &mut Random, board: &Board) -> Call {
    Call::RubOut(mostly(random, |cell| board.entries[cell] != 0))
}

/// A cell of a kind, where there is one; now and then any other, and numbers that are no cells.
fn mostly(random: &mut Random, kind: impl Fn(usize) -> bool) -> u32 {
    let cells: Vec<usize> = (0..81).filter(|&cell| kind(cell)).collect();
    match random.below(20) {
        0 => *random.pick(&[81, 82, 255, 256, 1 << 31, u32::MAX]),
        1 | 2 => random.below(81) as u32,
        _ if cells.is_empty() => random.below(81) as u32,
        _ => *random.pick(&cells) as u32,
    }
}

// ---- asking

/// The first call on which two sides part, in what they answer or in the boards that they leave, and how.
pub fn differ<A: Side, B: Side>(case: &Case) -> Option<String> {
    let board = case.board();
    let (mut a, mut b) = (A::start(&board), B::start(&board));
    for (at, &call) in case.calls.iter().enumerate() {
        let (one, two) = (a.call(call), b.call(call));
        if one != two {
            return Some(format!("call {at} ({call:?}): {}", parted(&one, &two)));
        }
        if a.board() != b.board() {
            return Some(format!("call {at} ({call:?}) leaves two boards: {}", boards_apart(&a.board(), &b.board())));
        }
    }
    None
}

fn parted(one: &Result<Outcome, Stop>, two: &Result<Outcome, Stop>) -> String {
    let cells = match (one, two) {
        (Ok(one), Ok(two)) => apart(&one.masks, &two.masks),
        _ => String::new(),
    };
    format!("{cells}\n  first  {}\n  second {}", shown(one), shown(two))
}

fn shown(answer: &Result<Outcome, Stop>) -> String {
    match answer {
        Ok(Outcome { flag, reports, sweeps, removed, .. }) => format!("flag {flag}, reports {reports:?}, sweeps {sweeps}, removed {removed}"),
        Err(stop) => format!("stop {} beside {}", stop.number, stop.detail),
    }
}

/// The cells whose masks differ, with both.
pub fn apart(one: &Masks, two: &Masks) -> String {
    let cells = (0..81).filter(|&cell| one[cell] != two[cell]);
    cells.map(|cell| format!("cell {cell} has {} and {}; ", one[cell], two[cell])).collect()
}

pub fn boards_apart(one: &Board, two: &Board) -> String {
    let entries = (0..81).filter(|&cell| one.entries[cell] != two.entries[cell]);
    let entries: String = entries.map(|cell| format!("entry {cell} is {} and {}; ", one.entries[cell], two.entries[cell])).collect();
    entries + &apart(&one.masks, &two.masks)
}

pub fn fresh_differs(case: &Case) -> Option<String> {
    let mut ours = [1; 81];
    let opened = crate::open(&case.clues, &mut ours);
    let theirs = [oracle::fresh(&case.clues), plain::fresh(&case.clues)];
    let count = case.clues.iter().filter(|&&clue| clue != 0).count() as i64;
    let other = theirs.iter().find(|&other| *other != ours);
    let shows = other.map(|other| format!("fresh masks: {}", apart(&ours, other)));
    shows.or_else(|| (opened != Ok(count)).then(|| format!("opened as {opened:?}, {count} clues")))
}

/// What the accessors say of the case's board: two sides and, where the board stands, the original.
pub fn accessors_differ<A: Accessors, B: Accessors>(case: &Case) -> Option<String> {
    let board = case.board();
    let stop = plain::check(&board);
    let cell = board.clues.iter().fold(0, |sum: i32, &clue| sum.wrapping_add(clue)).rem_euclid(90) as u32;
    let (one, two) = (A::ask(&board, cell), B::ask(&board, cell));
    let fault = first_unlike(&[
        (one.clue_count == two.clue_count, "clue_count"),
        (one.verdict == two.verdict, "verdict"),
        (one.cell_mask == two.cell_mask, "one cell's mask"),
        (one.original_puzzle == two.original_puzzle, "original_puzzle"),
        (one.get_candidates == two.get_candidates, "get_candidates"),
    ]);
    let fault = fault.or_else(|| if stop.is_none() { original_differs(&board, &one) } else { None });
    fault.map(|what| format!("{what}, where the check of the board says {stop:?} and the cell is {cell}"))
}

/// The original gets the clues and entries together; for `clue_count` and `original_puzzle` "the oracle gets no entries".
fn original_differs(board: &Board, asked: &Asked) -> Option<&'static str> {
    let printed = oracle::opened(&board.clues);
    let solver = oracle::with_masks(&plain::together(&board.clues, &board.entries), &board.masks);
    first_unlike(&[
        (asked.clue_count == Ok(printed.clue_count() as i64), "clue_count of the original"),
        (asked.original_puzzle == (Ok(()), oracle::flat(&printed.original_puzzle())), "original_puzzle of the original"),
        (asked.get_candidates == (Ok(()), oracle::candidates(&solver)), "get_candidates of the original"),
    ])
}

fn first_unlike(asked: &[(bool, &'static str)]) -> Option<&'static str> {
    asked.iter().find(|(alike, _)| !alike).map(|&(_, what)| what)
}

/// What runs a list at once.
pub type Runner = fn(&[u8], &Clues, &Entries, &mut Masks) -> Result<(), Stop>;

/// A list of steps run at once against the steps one after the other, from the fresh board of clues and entries.
pub fn run_differs(run: Runner, case: &Case) -> Option<String> {
    let Board { clues, entries, .. } = case.board();
    let numbers: Vec<u8> = case.calls.iter().filter_map(|call| if let Call::Step(number) = call { Some(*number) } else { None }).collect();
    let mut ours = LENT.1;
    let answer = run(&numbers, &clues, &entries, &mut ours);
    let (expected, masks) = stepped(&numbers, &clues, &entries);
    (answer != expected || ours != masks).then(|| format!("run {answer:?}, one by one {expected:?}: {}", apart(&ours, &masks)))
}

fn stepped(numbers: &[u8], clues: &Clues, entries: &Entries) -> (Result<(), Stop>, Masks) {
    let opened = match plain::open_with(clues, entries) {
        Ok(board) => board,
        Err(stop) => return (Err(stop), LENT.1),
    };
    if let Some(index) = numbers.iter().position(|step| !STEPS.contains(step)) {
        return (Err(Stop { number: 20, detail: index as i64 }), LENT.1);
    }
    let mut side = Engine::start(&opened);
    for &number in numbers {
        if let Err(stop) = side.call(Call::Step(number)) {
            return (Err(stop), side.board().masks);
        }
    }
    (Ok(()), side.board().masks)
}

// ---- demand 3

/// A call of a list. A step is never refused there, and no call for its board.
fn called<S: Side>(side: &mut S, call: Call) -> Result<Option<Outcome>, String> {
    match side.call(call) {
        Ok(outcome) => Ok(Some(outcome)),
        Err(Stop { number: 4 | 5 | 12 | 13, .. }) if call.is_entry_call() => Ok(None),
        Err(stop) => Err(format!("{call:?} is refused: {stop:?}")),
    }
}

/// "a correct filling is one that passes the verifier and keeps clues and the entries then on the board"
fn fits(filling: &Clues, board: &Board) -> bool {
    let joint = plain::together(&board.clues, &board.entries);
    (0..81).all(|cell| joint[cell] == 0 || joint[cell] == filling[cell])
}

/// A filling that fits the board has its digits in the masks, and what is reported is one of them.
fn keeps(filling: &Clues, board: &Board, outcome: &Outcome, call: Call) -> Result<(), String> {
    if !fits(filling, board) {
        return Ok(());
    }
    if let Some(cell) = (0..81).find(|&cell| board.masks[cell] & plain::bit(filling[cell]) == 0) {
        return Err(format!("{call:?} costs the filling its digit in cell {cell}"));
    }
    match outcome.reports.iter().find(|&&(cell, digit)| filling[cell] != digit) {
        Some(report) => Err(format!("{call:?} reports {report:?}, which the filling has not")),
        None => Ok(()),
    }
}

/// Takes the side through a list, and holds it to the filling after each call.
fn played<S: Side>(side: &mut S, calls: &[Call], filling: Option<&Clues>) -> Result<(), String> {
    for &call in calls {
        if let (Some(outcome), Some(filling)) = (called(side, call)?, filling) {
            keeps(filling, &side.board(), &outcome, call)?;
        }
    }
    Ok(())
}

/// The filling half, on lists that may enter and rub out.
pub fn filling_lost<S: Side>(case: &Case, filling: &Clues) -> Option<String> {
    played(&mut S::start(&case.board()), &case.calls, Some(filling)).err()
}

/// Lists of enterings and rubbings out: each leaves the board worked out afresh, and two that leave the same entries equal boards.
pub fn entries_differ<S: Side>(case: &Case) -> Option<String> {
    let left = |calls: &[Call]| {
        let mut side = S::start(&case.board());
        played(&mut side, calls, None)?;
        let board = side.board();
        let afresh = plain::afresh(&board.clues, &board.entries);
        if board == afresh { Ok(board) } else { Err(format!("not the board worked out afresh: {}", boards_apart(&board, &afresh))) }
    };
    match (left(&case.calls), left(&case.others)) {
        (Err(fault), _) | (_, Err(fault)) => Some(fault),
        (Ok(one), Ok(two)) if one.entries == two.entries && one != two => Some(format!("equal entries, two boards: {}", boards_apart(&one, &two))),
        _ => None,
    }
}

/// The board after a list of steps, settled.
fn settled<S: Side>(case: &Case, calls: &[Call], filling: Option<&Clues>) -> Result<Board, String> {
    let mut side = S::start(&case.board());
    played(&mut side, calls, filling)?;
    let before = plain::candidates(&side.board().masks);
    let outcome = side.call(Call::Step(SETTLING)).map_err(|stop| format!("settling is refused: {stop:?}"))?;
    let left = plain::candidates(&outcome.masks);
    if left + outcome.removed != before || outcome.sweeps > outcome.removed + 1 {
        return Err(format!("settling counts: before {before}, left {left}, removed {}, sweeps {}", outcome.removed, outcome.sweeps));
    }
    let board = side.board();
    if let Some(filling) = filling {
        keeps(filling, &board, &outcome, Call::Step(SETTLING))?;
    }
    if let Some(step) = WIDE.iter().find(|&&step| side.call(Call::Step(step)).map(|after| after.masks) != Ok(outcome.masks)) {
        return Err(format!("step {step} changes what settling left"));
    }
    Ok(board)
}

/// The settling half, on lists that neither enter nor rub out, and the filling half with it.
pub fn unsound<S: Side>(case: &Case, filling: Option<&Clues>) -> Option<String> {
    let both = (settled::<S>(case, &case.calls, filling), settled::<S>(case, &case.others, filling));
    match both {
        (Err(fault), _) | (_, Err(fault)) => Some(fault),
        (Ok(one), Ok(two)) if one != two => Some(format!("two lists settle apart: {}", boards_apart(&one, &two))),
        _ => None,
    }
}
