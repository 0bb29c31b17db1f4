//! The comparison has teeth: each misreading of document 01 or 02 below is found within some thousand cases, and made small.

use std::fmt::Display;

use sudoku_host::cases::{accessors_differ, damaged_case, differ, ported_case, ported_with_entries, run_case, run_differs, Case, Runner, EVERYTHING};
use sudoku_host::clothes_cases::{clothes, lists_apart, relabelled, settled_apart, Change, Clothes};
use sudoku_host::figure_cases::{counts_differ, figure, figures_differ, open_cells, to_rate, Counter, Rater};
use sudoku_host::plain::{self, bit, block, col, row, see, unit, Outcome};
use sudoku_host::random::Random;
use sudoku_host::record_cases::{board_case, damaged, moves_differ, old_record, read_differs, record, written_differs, Record};
use sudoku_host::records::{bytes, read, Form};
use sudoku_host::sheet_cases::{sheet, sheet_differs};
use sudoku_host::shrink::{shrunk, Smaller};
use sudoku_host::sides::{Accessors, Asked, Call, Engine, Original, Plain, Records, Side, CHAIN};
use sudoku_host::step_cases::{self, answers_differ, own, settled_differs, to_settle, Checker, Settler, StepList};
use sudoku_host::step_lists::{check_steps, follow};
use sudoku_host::text_cases::Input;
use sudoku_host::{counted, run, Board, Clues, Masks, Stop, NO_ENTRIES};

/// The plain implementation with one step misread, on boards without entries.
struct Misread<const WHICH: usize>(Board);

type Pass = fn(&Clues, &mut Masks);

const MISREADINGS: [(u8, Pass); 5] =
    [(2, columns_after_all_boxes), (2, one_holder), (3, list_renewed), (1, tested_at_the_units_start), (CHAIN, strong_links_first)];

impl<const WHICH: usize> Side for Misread<WHICH> {
    fn start(board: &Board) -> Self {
        Misread(*board)
    }

    fn call(&mut self, call: Call) -> Result<Outcome, Stop> {
        let Call::Step(number) = call else { unreachable!("{call:?} among ported calls") };
        let mut outcome = plain::step(number, &self.0)?;
        match MISREADINGS.get(WHICH) {
            Some(&(step, pass)) if step == number => {
                outcome.masks = self.0.masks;
                pass(&self.0.clues, &mut outcome.masks);
                outcome.flag = outcome.masks != self.0.masks;
            }
            None if WHICH == 5 && number == 5 => repeats_dropped(&mut outcome),
            None if WHICH == 6 && number == 6 => outcome.masks = plain::step(1, &self.0)?.masks,
            _ => {}
        }
        self.0.masks = outcome.masks;
        Ok(outcome)
    }

    fn board(&self) -> Board {
        self.0
    }
}

fn repeats_dropped(outcome: &mut Outcome) {
    let mut seen = Vec::new();
    outcome.reports.retain(|report| !seen.contains(report) && { seen.push(*report); true });
}

fn holders(clues: &Clues, masks: &Masks, cells: &[usize], digit: i32) -> Vec<usize> {
    cells.iter().copied().filter(|&cell| clues[cell] == 0 && masks[cell] & bit(digit) != 0).collect()
}

fn lose(clues: &Clues, masks: &mut Masks, cell: usize, digits: u16) {
    if clues[cell] == 0 {
        masks[cell] &= !digits;
    }
}

fn box_to_line(clues: &Clues, masks: &mut Masks, number: usize, digit: i32, least: usize, line: fn(usize) -> usize, units: usize) {
    let held = holders(clues, masks, &unit(18 + number), digit);
    if held.len() < least || held.iter().any(|&cell| line(cell) != line(held[0])) {
        return;
    }
    for cell in unit(units + line(held[0])) {
        if block(cell) != number {
            lose(clues, masks, cell, bit(digit));
        }
    }
}

fn columns_after_all_boxes(clues: &Clues, masks: &mut Masks) {
    for (line, units) in [(row as fn(usize) -> usize, 0), (col, 9)] {
        for number in 0..9 {
            (1..=9).for_each(|digit| box_to_line(clues, masks, number, digit, 2, line, units));
        }
    }
}

fn one_holder(clues: &Clues, masks: &mut Masks) {
    for number in 0..9 {
        for digit in 1..=9 {
            box_to_line(clues, masks, number, digit, 1, row, 0);
            box_to_line(clues, masks, number, digit, 1, col, 9);
        }
    }
}

fn list_renewed(clues: &Clues, masks: &mut Masks) {
    for (lines, across) in [(0, col as fn(usize) -> usize), (9, row)] {
        for digit in 1..=9 {
            for first in 0..9 {
                for second in first + 1..9 {
                    let held = [first, second].map(|line| holders(clues, masks, &unit(lines + line), digit).into_iter().map(across).collect::<Vec<_>>());
                    if held[0].len() == 2 && held[0] == held[1] {
                        let others = (0..9).filter(|&line| line != first && line != second);
                        others.for_each(|line| held[0].iter().for_each(|&at| lose(clues, masks, unit(lines + line)[at], bit(digit))));
                    }
                }
            }
        }
    }
}

fn tested_at_the_units_start(clues: &Clues, masks: &mut Masks) {
    for cells in (0..27).map(unit) {
        let before = *masks;
        for first in cells {
            for second in cells.into_iter().filter(|&second| second > first) {
                let pair = before[first];
                if clues[first] == 0 && clues[second] == 0 && before[second] == pair && pair.count_ones() == 2 {
                    let others = cells.into_iter().filter(|&cell| cell != first && cell != second);
                    others.for_each(|cell| lose(clues, masks, cell, pair));
                }
            }
        }
    }
}

fn strong_links_first(clues: &Clues, masks: &mut Masks) {
    for digit in 1..=9 {
        let all: Vec<usize> = (0..81).collect();
        let starts = holders(clues, masks, &all, digit);
        starts.into_iter().any(|start| enter(clues, masks, digit, &mut Vec::new(), start));
    }
}

fn enter(clues: &Clues, masks: &mut Masks, digit: i32, path: &mut Vec<usize>, cell: usize) -> bool {
    path.push(cell);
    let all: Vec<usize> = (0..81).collect();
    let seen = holders(clues, masks, &all, digit).into_iter().find(|&other| see(other, path[0]) && see(other, cell));
    if path.len() >= 4 && see(path[0], cell) && seen.is_some() {
        lose(clues, masks, seen.unwrap(), bit(digit));
        return true;
    }
    let strong = || [row(cell), 9 + col(cell), 18 + block(cell)].map(|number| holders(clues, masks, &unit(number), digit)).into_iter().filter(|held| held.len() == 2).flatten().collect();
    let weak = || all.iter().copied().filter(|&other| see(cell, other)).filter(|other| holders(clues, masks, &[*other], digit).len() == 1).collect();
    let links: Vec<usize> = if path.len() % 2 == 1 { strong() } else { weak() };
    if path.len() < 7 {
        for next in links {
            if !path.contains(&next) && enter(clues, masks, digit, path, next) {
                return true;
            }
        }
    }
    path.pop();
    false
}

/// A case of a seeded run on which the misreading shows, made small.
fn smallest_case<T: Smaller + Display>(cases: fn(&mut Random) -> T, fault: &dyn Fn(&T) -> Option<String>) -> T {
    let case = (0..20_000).map(|at| cases(&mut Random::of_case(7, at))).find(|case| fault(case).is_some());
    let (smallest, shows) = shrunk(case.expect("the misreading is found"), fault);
    println!("{smallest}{shows}");
    smallest
}

/// One call, and few clues.
fn found<const WHICH: usize>(step: u8) {
    let smallest = smallest_case(ported_case, &differ::<Original, Misread<WHICH>>);
    assert_eq!(smallest.calls, [Call::Step(step)]);
}

#[test]
fn box_line_columns_after_all_boxes() {
    found::<0>(2);
}

#[test]
fn box_line_with_one_holder() {
    found::<1>(2);
}

#[test]
fn x_wing_list_renewed() {
    found::<2>(3);
}

#[test]
fn naked_pairs_tested_at_the_units_start() {
    found::<3>(1);
}

#[test]
fn chain_with_strong_links_first() {
    found::<4>(CHAIN);
}

#[test]
fn hidden_reports_without_repeats() {
    found::<5>(5);
}

#[test]
fn pair_removals_carried_through_apply_advanced_techniques() {
    found::<6>(6);
}

// ---- entries

/// The plain implementation with one sentence about entries misread.
struct MisreadEntries<const WHICH: usize>(Board);

const EIGHT_AFTER_NINE: usize = 0;
const EIGHT_BEFORE_THREE: usize = 1;
const ON_A_CLUE: usize = 2;
const STEPS_WITHOUT: usize = 3;
const REMOVALS_KEPT: usize = 4;
const TWELVE_BEFORE_FOUR: usize = 5;

impl<const WHICH: usize> Side for MisreadEntries<WHICH> {
    fn start(board: &Board) -> Self {
        MisreadEntries(*board)
    }

    fn call(&mut self, call: Call) -> Result<Outcome, Stop> {
        let mut side = Plain::start(&self.0);
        let answer = side.call(call);
        match (WHICH, answer, call) {
            (EIGHT_AFTER_NINE, Err(Stop { number: 8, detail }), _) => Err(wrong_mask(&self.0).unwrap_or(Stop { number: 8, detail })),
            (EIGHT_BEFORE_THREE, Err(Stop { number: 3, detail }), _) => Err(wrong_entry(&self.0).unwrap_or(Stop { number: 3, detail })),
            (ON_A_CLUE, Err(Stop { number: 8, .. }), _) => self.with_entries_dropped(|clue, entry| clue != 0 && (1..=9).contains(&entry), call),
            (STEPS_WITHOUT, _, Call::Step(_)) => self.with_entries_dropped(|_, _| true, call),
            (TWELVE_BEFORE_FOUR, Err(Stop { number: 4, .. }), Call::Enter(cell, _)) if self.0.clues[cell as usize] != 0 => {
                Err(Stop { number: 12, detail: cell.into() })
            }
            (REMOVALS_KEPT, Ok(_), Call::Enter(..)) => {
                let before = self.0.masks;
                self.0 = side.board();
                (0..81).filter(|&cell| self.0.entries[cell] == 0).for_each(|cell| self.0.masks[cell] &= before[cell]);
                Ok(plain::silent(&self.0.masks))
            }
            (_, answer, _) => {
                self.0 = side.board();
                answer
            }
        }
    }

    fn board(&self) -> Board {
        self.0
    }
}

impl<const WHICH: usize> MisreadEntries<WHICH> {
    /// The call on a board that lacks these entries, which are there again after it.
    fn with_entries_dropped(&mut self, dropped: fn(i32, i32) -> bool, call: Call) -> Result<Outcome, Stop> {
        let mut side = Plain::start(&without(&self.0, dropped));
        let answer = side.call(call);
        self.0.masks = side.board().masks;
        answer
    }
}

fn without(board: &Board, dropped: fn(i32, i32) -> bool) -> Board {
    let entries = std::array::from_fn(|cell| if dropped(board.clues[cell], board.entries[cell]) { 0 } else { board.entries[cell] });
    Board { entries, ..*board }
}

fn is_wrong(clue: i32, entry: i32) -> bool {
    entry != 0 && (clue != 0 || !(1..=9).contains(&entry))
}

fn wrong_entry(board: &Board) -> Option<Stop> {
    let cell = (0..81).find(|&cell| is_wrong(board.clues[cell], board.entries[cell]))?;
    Some(Stop { number: 8, detail: cell as i64 })
}

/// What stop 9 says without the wrong entries.
fn wrong_mask(board: &Board) -> Option<Stop> {
    plain::check(&without(board, is_wrong))
}

fn found_with_entries<A: Side, const WHICH: usize>(cases: fn(&mut Random) -> Case) -> Case {
    smallest_case(cases, &differ::<A, MisreadEntries<WHICH>>)
}

#[test]
fn wrong_entry_after_a_wrong_mask() {
    let smallest = found_with_entries::<Engine, EIGHT_AFTER_NINE>(damaged_case);
    assert_eq!((smallest.entered.len(), smallest.masks.len() + smallest.numbers.len()), (1, 1));
}

#[test]
fn wrong_entry_before_a_wrong_clue() {
    let smallest = found_with_entries::<Engine, EIGHT_BEFORE_THREE>(damaged_case);
    assert_eq!(smallest.numbers.len(), 1);
}

#[test]
fn entry_on_a_clue_admitted() {
    let board = found_with_entries::<Engine, ON_A_CLUE>(damaged_case).board();
    assert_eq!((counted(&board.clues), counted(&board.entries)), (1, 1));
}

#[test]
fn steps_that_pass_over_entries() {
    let smallest = found_with_entries::<Original, STEPS_WITHOUT>(ported_with_entries);
    assert_eq!(smallest.calls.iter().filter(|call| !call.is_entry_call()).count(), 1);
}

#[test]
fn entering_that_keeps_removals() {
    let smallest = found_with_entries::<Original, REMOVALS_KEPT>(ported_with_entries);
    assert!(matches!(smallest.calls[..], [Call::Enter(..)] | [Call::Step(_), Call::Enter(..)]));
}

#[test]
fn clue_cell_refused_before_the_digit() {
    let smallest = found_with_entries::<Engine, TWELVE_BEFORE_FOUR>(ported_with_entries);
    assert_eq!((counted(&smallest.clues), smallest.calls.len()), (1, 1));
}

/// Document 02, F-7: a list starts from the fresh board of clues and entries.
#[test]
fn lists_run_without_the_entries() {
    let forgets: Runner = |steps, clues, _, masks| run(steps, clues, &NO_ENTRIES, masks);
    let smallest = smallest_case(run_case, &|case| run_differs(forgets, case));
    assert_eq!((counted(&smallest.board().entries), smallest.calls.len()), (1, 0));
}

struct CountsEntries;

impl Accessors for CountsEntries {
    fn ask(board: &Board, cell: u32) -> Asked {
        let asked = Plain::ask(board, cell);
        Asked { clue_count: asked.clue_count.map(|count| count + counted(&board.entries)), ..asked }
    }
}

#[test]
fn clue_count_with_entries() {
    let smallest = smallest_case(ported_with_entries, &accessors_differ::<Engine, CountsEntries>);
    assert_eq!((counted(&smallest.clues), counted(&smallest.entries)), (0, 1));
}

// ---- other clothes

/// A board under one change.
fn with_change(random: &mut Random, change: Change) -> Clothes {
    let clothes = clothes(random);
    Clothes { changes: vec![change], ..clothes }
}

#[test]
fn rows_of_two_bands_exchanged() {
    let smallest = smallest_case(|random| with_change(random, Change::Rows(2, 3)), &settled_apart::<Engine>);
    assert!(counted(&smallest.case.clues) <= 1);
}

const TWO_TO_ONE: Change = Change::Labels([0, 2, 2, 3, 4, 5, 6, 7, 8, 9]);

#[test]
fn labels_not_one_to_one() {
    smallest_case(|random| with_change(random, TWO_TO_ONE), &settled_apart::<Engine>);
    let smallest = smallest_case(|random| Clothes { changes: vec![TWO_TO_ONE], ..relabelled(random) }, &lists_apart::<Engine>);
    assert_eq!(smallest.case.calls.len(), 1);
}

/// The plain implementation, whose chain pass ends with the first digit that loses anything.
struct FirstDigitAlone(Board);

impl Side for FirstDigitAlone {
    fn start(board: &Board) -> Self {
        FirstDigitAlone(*board)
    }

    fn call(&mut self, call: Call) -> Result<Outcome, Stop> {
        let mut side = Plain::start(&self.0);
        let mut outcome = side.call(call)?;
        let changed = |digit: &i32| (0..81).any(|cell| (outcome.masks[cell] ^ self.0.masks[cell]) & bit(*digit) != 0);
        if let (Call::Step(CHAIN), Some(digit)) = (call, (1..=9).find(changed)) {
            for (mask, before) in outcome.masks.iter_mut().zip(self.0.masks) {
                *mask = *mask & bit(digit) | before & !bit(digit);
            }
        }
        self.0.masks = outcome.masks;
        Ok(outcome)
    }

    fn board(&self) -> Board {
        self.0
    }
}

#[test]
fn chain_pass_of_one_digit() {
    let smallest = smallest_case(relabelled, &lists_apart::<FirstDigitAlone>);
    assert_eq!(smallest.case.calls, [Call::Step(CHAIN)]);
}

// ---- the record

/// The plain record with one sentence misread.
struct MisreadRecord<const WHICH: usize>;

const HIGH_FIRST: usize = 0;
const FRESH_FIRST: usize = 1;
const HALF_ENTRIES: usize = 2;
const FROM_PRINTED_CLUES: usize = 3;
const NINE_ON_A_CLUE: usize = 4;
const SIX_BEFORE_FOURTEEN: usize = 5;
const FOURTEEN_AT_0: usize = 6;
const REMOVALS_DROPPED: usize = 7;

impl<const WHICH: usize> Records for MisreadRecord<WHICH> {
    fn write(board: &Board, lent: &mut [u8]) -> Result<i64, Stop> {
        if WHICH == FROM_PRINTED_CLUES && plain::check(board).is_none() {
            // the removals of the same masks on a board without the entries
            let bare = bytes(Form::Old, &Board { entries: NO_ENTRIES, ..*board });
            let (old, new) = (bare.len() - end_of_clues(&bare), bytes(Form::New, board));
            let record = [&new[..end_of_entries(&new)], &bare[bare.len() - old..]].concat();
            lent.get_mut(..record.len()).map(|lent| lent.copy_from_slice(&record));
            return if lent.len() < record.len() { Err(Stop { number: 6, detail: lent.len() as i64 }) } else { Ok(record.len() as i64) };
        }
        let written = Plain::write(board, lent)?;
        if WHICH == HIGH_FIRST {
            let count = end_of_entries(lent);
            lent[count..count + 2].reverse();
        }
        Ok(written)
    }

    fn read(record: &[u8], board: &mut Board) -> Result<i64, Stop> {
        let answer = Plain::read(record, board);
        match answer {
            Err(Stop { number: 8, detail }) if WHICH == FRESH_FIRST && !removes_fresh(record, detail as usize) => Err(Stop { number: 9, detail }),
            Err(Stop { number: 7, detail }) if WHICH == HALF_ENTRIES && half_entry(record, detail as usize) => Err(Stop { number: 8, detail: detail - 1 }),
            Err(Stop { number: 8, detail }) if WHICH == NINE_ON_A_CLUE && entered_on_a_clue(record, detail as usize) => Err(Stop { number: 9, detail }),
            _ => answer,
        }
    }

    fn moved(back: bool, record: &[u8], lent: &mut [u8]) -> Result<i64, Stop> {
        let answer = Plain::moved(back, record, lent);
        match answer {
            Err(Stop { number: 14, .. }) if WHICH == SIX_BEFORE_FOURTEEN && lent.is_empty() => Err(Stop { number: 6, detail: 0 }),
            Err(Stop { number: 14, .. }) if WHICH == FOURTEEN_AT_0 => Err(Stop { number: 14, detail: 0 }),
            Ok(_) if WHICH == REMOVALS_DROPPED => {
                let count = if back { end_of_clues(lent) } else { end_of_entries(lent) };
                lent[count..count + 2].fill(0);
                Ok(count as i64 + 2)
            }
            _ => answer,
        }
    }
}

fn end_of_clues(record: &[u8]) -> usize {
    1 + 2 * record[0] as usize
}

fn end_of_entries(record: &[u8]) -> usize {
    let count = end_of_clues(record);
    count + 1 + 2 * record[count] as usize
}

/// Whether the entry is not a removal, or removes what the fresh mask has.
fn removes_fresh(record: &[u8], at: usize) -> bool {
    let (cell, digit) = (record[at] as usize, record[at + 1] as i32);
    if at < end_of_clues(record) || at < end_of_entries(record) || cell > 80 || !(1..=9).contains(&digit) {
        return true;
    }
    let board = read(Form::New, &[&record[..end_of_entries(record)], &[0, 0]].concat()).unwrap();
    board.clues[cell] == 0 && board.entries[cell] == 0 && board.masks[cell] & bit(digit) != 0
}

/// Whether the record ends after a cell: clues begin at odd offsets, entries at even ones and removals again at even ones.
fn half_entry(record: &[u8], end: usize) -> bool {
    if end != record.len() || end == 0 {
        return false;
    }
    let clues = end_of_clues(record);
    if end <= clues {
        return end % 2 == 0;
    }
    end % 2 == 1 && end != end_of_entries(record) + 1 && end > clues + 1
}

/// Whether the entry is one of the entry section, well formed, on a clue.
fn entered_on_a_clue(record: &[u8], at: usize) -> bool {
    let first = end_of_clues(record) + 1;
    let clues = || read(Form::Old, &[&record[..first - 1], &[0, 0]].concat()).unwrap().clues;
    at >= first && at < end_of_entries(record) && record[at] < 81 && clues()[record[at] as usize] != 0
}

/// Bytes of a seeded run which the misreading takes otherwise, made small.
fn found_in_bytes(some: fn(&Case) -> Record, fault: &dyn Fn(&Record) -> Option<String>) -> Vec<u8> {
    let some_bytes = |at| {
        let random = &mut Random::of_case(7, at);
        let record = some(&board_case(random));
        if random.percent(50) { damaged(random, &record) } else { record }
    };
    let bytes = (0..20_000).map(some_bytes).find(|bytes| fault(bytes).is_some());
    let (smallest, shows) = shrunk(bytes.expect("the misreading is found"), fault);
    println!("{smallest}{shows}");
    smallest.bytes
}

fn misread<const WHICH: usize>() -> Vec<u8> {
    found_in_bytes(record, &read_differs::<Engine, MisreadRecord<WHICH>>)
}

fn mismoved<const WHICH: usize>(some: fn(&Case) -> Record) -> Vec<u8> {
    found_in_bytes(some, &moves_differ::<Engine, MisreadRecord<WHICH>>)
}

#[test]
fn record_count_high_byte_first() {
    let smallest = smallest_case(board_case, &written_differs::<Engine, MisreadRecord<HIGH_FIRST>>);
    assert_eq!(record(&smallest).bytes[..4], [0, 0, 1, 0]);
}

#[test]
fn record_measured_from_the_printed_clues() {
    let smallest = smallest_case(board_case, &written_differs::<Engine, MisreadRecord<FROM_PRINTED_CLUES>>);
    assert_eq!((counted(&smallest.clues), counted(&smallest.board().entries)), (0, 1));
}

#[test]
fn record_removal_not_fresh_before_not_rising() {
    assert_eq!(misread::<FRESH_FIRST>().len(), 10);
}

#[test]
fn record_half_an_entry_told_as_a_wrong_one() {
    assert_eq!(misread::<HALF_ENTRIES>(), [1, 0]);
}

#[test]
fn record_entry_on_a_clue_told_as_9() {
    let smallest = misread::<NINE_ON_A_CLUE>();
    assert_eq!((smallest.len(), smallest[1]), (6, smallest[4]));
}

#[test]
fn record_moved_back_with_6_before_14() {
    assert_eq!(mismoved::<SIX_BEFORE_FOURTEEN>(record), [0, 1, 0, 1, 0, 0]);
}

#[test]
fn record_moved_back_with_14_at_offset_0() {
    assert_eq!(mismoved::<FOURTEEN_AT_0>(record), [0, 1, 0, 1, 0, 0]);
}

#[test]
fn record_moved_without_its_removals() {
    assert_eq!(mismoved::<REMOVALS_DROPPED>(old_record), [0, 1, 0, 0, 1]);
}

// ---- pasted sheets

type Reader = fn(&[u8]) -> Result<Clues, Stop>;

fn sheet_with(misread: Reader) -> Input {
    let sheets = (0..20_000).map(|at| sheet(&mut Random::of_case(7, at)));
    sheets.into_iter().find(|sheet| sheet_differs(misread, sheet).is_some()).expect("the misreading is found")
}

fn smallest_sheet(misread: Reader) -> Vec<u8> {
    let (smallest, shows) = shrunk(sheet_with(misread), &|sheet| sheet_differs(misread, sheet));
    println!("{smallest}{shows}");
    smallest.0
}

fn cells(bytes: &[u8]) -> impl Iterator<Item = &u8> {
    bytes.iter().filter(|byte| b"0123456789.".contains(byte))
}

#[test]
fn sheet_offset_counted_in_cells() {
    let in_cells: Reader = |sheet| match plain::read_sheet(sheet) {
        Err(Stop { number: 2, detail }) => Err(Stop { number: 2, detail: cells(&sheet[..detail as usize]).count() as i64 }),
        answer => answer,
    };
    assert_eq!(smallest_sheet(in_cells).len(), 2);
}

#[test]
fn sheet_cells_counted_before_a_later_byte_is_refused() {
    let counted_first: Reader = |sheet| match plain::read_sheet(sheet) {
        Err(Stop { number: 2, .. }) if cells(sheet).count() != 81 => Err(Stop { number: 11, detail: cells(sheet).count() as i64 }),
        answer => answer,
    };
    assert_eq!(smallest_sheet(counted_first).len(), 1);
}

#[test]
fn sheet_with_its_82nd_cell_ignored() {
    let first_cells: Reader = |sheet| match plain::read_sheet(sheet) {
        Err(Stop { number: 11, detail: 82.. }) => plain::read_text(&cells(sheet).copied().take(81).collect::<Vec<_>>()),
        answer => answer,
    };
    assert_eq!(smallest_sheet(first_cells), [b'.'; 82]);
}

#[test]
fn sheet_with_a_dash_for_an_open_cell() {
    let dashes: Reader = |sheet| plain::read_sheet(&sheet.iter().map(|&byte| if byte == b'-' { b'.' } else { byte }).collect::<Vec<_>>());
    assert_eq!(smallest_sheet(dashes), *b"-");
}

#[test]
fn sheet_whose_bytes_are_looked_at_before_its_length() {
    let bytes_first: Reader = |sheet| match sheet.iter().position(|byte| !b"0123456789. |-+\r\n".contains(byte)) {
        Some(offset) => Err(Stop { number: 2, detail: offset as i64 }),
        None => plain::read_sheet(sheet),
    };
    assert!(sheet_with(bytes_first).0.len() > 4096);
}

// ---- step lists

/// Settling's own list, or a damaged one.
fn some_list(random: &mut Random) -> StepList {
    let own = own(random);
    if random.percent(50) { step_cases::damaged(random, &own) } else { own }
}

fn smallest_list(misread: Checker) -> Vec<u8> {
    smallest_case(some_list, &|list| answers_differ(misread, list)).bytes
}

fn smallest_settling(misread: Settler) -> Case {
    smallest_case(to_settle, &|case| settled_differs(misread, case))
}

/// A list with each step's bytes put otherwise.
fn each_step(list: &[u8], put: fn(&mut [u8; 6])) -> Vec<u8> {
    let other = |piece: &[u8]| match <[u8; 6]>::try_from(piece) {
        Ok(mut step) => {
            put(&mut step);
            step.to_vec()
        }
        Err(_) => piece.to_vec(),
    };
    list.chunks(6).flat_map(other).collect()
}

fn kind_6_turned(step: &mut [u8; 6]) {
    if step[0] == 6 {
        step[2..].rotate_left(2);
    }
}

#[test]
fn kind_6_with_rows_first() {
    let smallest = smallest_list(|board, list| check_steps(board, &each_step(list, kind_6_turned)));
    assert_eq!(smallest[smallest.len() - 6], 6);
    smallest_settling(|board| plain::settle(board).map(|(outcome, list)| (outcome, each_step(&list, kind_6_turned))));
}

fn place_of(step: &mut [u8; 6]) {
    let place = |cell: u8, number: u8| unit(number.into()).iter().position(|&other| other == usize::from(cell)).map_or(cell, |place| place as u8);
    match step[0] {
        1 => step[3] = place(step[3], step[1]),
        2 => [2, 3].into_iter().for_each(|at| step[at] = place(step[at], step[1])),
        _ => {}
    }
}

fn cell_of(step: &mut [u8; 6]) {
    let cell = |place: u8, number: u8| if place < 9 && number < 27 { unit(number.into())[usize::from(place)] as u8 } else { 255 };
    match step[0] {
        1 => step[3] = cell(step[3], step[1]),
        2 => [2, 3].into_iter().for_each(|at| step[at] = cell(step[at], step[1])),
        _ => {}
    }
}

#[test]
fn places_in_the_place_of_cells() {
    let smallest = smallest_list(|board, list| check_steps(board, &each_step(list, cell_of)));
    assert!(smallest.len() == 6 && (1..=2).contains(&smallest[0]));
    smallest_settling(|board| plain::settle(board).map(|(outcome, list)| (outcome, each_step(&list, place_of))));
}

/// The condition of a step that was taken still holds: the masks have only shrunk.
fn idle_accepted(board: &Board, list: &[u8]) -> Result<Board, Stop> {
    let steps: Vec<&[u8]> = list.chunks(6).collect();
    let checked = check_steps(board, list);
    if !matches!(checked, Err(Stop { number: 15, .. })) {
        return checked;
    }
    let mut last = plain::afresh(&board.clues, &board.entries);
    for (at, step) in steps.iter().enumerate().filter(|(at, step)| !steps[..*at].contains(step)) {
        last = follow(&last, step).map_err(|_| Stop { number: 15, detail: at as i64 })?;
    }
    Ok(last)
}

#[test]
fn idle_step_accepted() {
    let smallest = smallest_list(idle_accepted);
    assert_eq!(smallest[smallest.len() - 12..smallest.len() - 6], smallest[smallest.len() - 6..]);
}

#[test]
fn short_last_piece_dropped() {
    let smallest = smallest_list(|board, list| check_steps(board, &list[..list.len() / 6 * 6]));
    assert_ne!(smallest.len() % 6, 0);
}

#[test]
fn handed_masks_in_the_place_of_the_fresh_ones() {
    let smallest = smallest_list(|board, list| check_steps(board, list).and_then(|_| follow(board, list)));
    assert_eq!(smallest, []);
}

#[test]
fn settling_that_tells_its_steps_from_the_fresh_board() {
    let from_fresh: Settler = |board| {
        let (outcome, _) = plain::settle(board)?;
        Ok((outcome, plain::settle(&plain::afresh(&board.clues, &board.entries))?.1))
    };
    let smallest = smallest_settling(from_fresh);
    assert!(smallest.kept != EVERYTHING || !smallest.calls.is_empty());
}

// ---- the difficulty figure

fn smallest_figure(misread: Rater) -> Case {
    smallest_case(to_rate, &|case| figures_differ(misread, case))
}

const POINTS: [usize; 6] = [1, 2, 4, 3, 3, 6];

/// What settling counts from the fresh board of clues and entries, where the board stands and has an open cell.
fn from_fresh(board: &Board) -> Result<[usize; 6], Stop> {
    plain::difficulty(board)?;
    plain::pass_counts(&plain::afresh(&board.clues, &board.entries))
}

#[test]
fn points_of_pair_and_pointing_exchanged() {
    let smallest = smallest_figure(|board| Ok(figure(&from_fresh(board)?, &[1, 2, 3, 4, 3, 6], open_cells(board))));
    let counts = plain::pass_counts(&plain::afresh(&smallest.clues, &smallest.entries)).unwrap();
    assert_ne!(counts[2], counts[3]);
}

#[test]
fn clue_cells_in_the_divisor() {
    let smallest = smallest_figure(|board| Ok(figure(&from_fresh(board)?, &POINTS, 81)));
    assert_eq!(counted(&smallest.clues) + counted(&smallest.entries), 1);
}

#[test]
fn entered_cells_in_the_divisor() {
    let smallest = smallest_figure(|board| Ok(figure(&from_fresh(board)?, &POINTS, 81 - counted(&board.clues) as usize)));
    assert_eq!((counted(&smallest.clues), counted(&smallest.entries)), (0, 1));
}

#[test]
fn handed_masks_settled() {
    let smallest = smallest_figure(|board| Ok(figure(&plain::difficulty(board).and_then(|_| plain::pass_counts(board))?, &POINTS, open_cells(board))));
    assert!(smallest.kept != EVERYTHING);
}

/// The figure of a full grid after settling it: its 0 points over no cell, told as a figure.
#[test]
fn no_figure_told_as_nothing() {
    let smallest = smallest_figure(|board| match plain::difficulty(board) {
        Err(Stop { number: 19, .. }) => Ok(plain::Difficulty { quotient: 0, remainder: 0, cells: 0 }),
        answer => answer,
    });
    assert_eq!(open_cells(&smallest.board()), 0);
}

/// 19 where settling leaves no cell open: found, and not made small, since the fewest clues of such a grid take long to find.
#[test]
fn nineteen_after_settling() {
    let after: Rater = |board| {
        let figure = plain::difficulty(board)?;
        let (settled, _) = plain::settle(&plain::afresh(&board.clues, &board.entries))?;
        if settled.masks.iter().all(|mask| mask.count_ones() == 1) { Err(Stop { number: 19, detail: 0 }) } else { Ok(figure) }
    };
    let found = (0..20_000).map(|at| to_rate(&mut Random::of_case(7, at))).find(|case| figures_differ(after, case).is_some());
    assert_ne!(open_cells(&found.expect("the misreading is found").board()), 0);
}

#[test]
fn counts_of_the_last_sweeps_alone() {
    // the last sweep removes nothing, so the one before it
    let last: Counter = |board| {
        let mut counts = plain::pass_counts(board)?;
        let mut board = *board;
        loop {
            let mut swept = board;
            for step in [7, 8, 9, 10, 14, 11] {
                swept.masks = plain::step(step, &swept)?.masks;
            }
            let rest = plain::pass_counts(&swept)?;
            if rest == [0; 6] {
                return Ok(counts);
            }
            (counts, board) = (rest, swept);
        }
    };
    smallest_case(to_rate, &|case| counts_differ(last, case));
}
