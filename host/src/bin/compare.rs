//! Compares the engine, the plain implementation and the Rust original.
//!
//!     compare --seed N --seconds S [--lists N] [--records N] [--settlings N]
//!
//! Runs until the seconds have passed (or, with --lists, until so many lists with ported calls were compared). With --records so many records
//! are compared and nothing else, with --settlings so many boards settled, each with its step list. The status is 0 where no difference was found; the last line says what was compared and how often. A
//! difference is printed with its smallest case.

use std::fmt::Display;
use std::io::{IsTerminal, Write};
use std::time::{Duration, Instant};

use sudoku_host::cases::{self, Case};
use sudoku_host::clothes_cases as clothes;
use sudoku_host::figure_cases as figures;
use sudoku_host::oracle::{self, SudokuCandidateSet, SudokuSolver};
use sudoku_host::random::Random;
use sudoku_host::record_cases as records;
use sudoku_host::round_cases as rounds;
use sudoku_host::sheet_cases as sheets;
use sudoku_host::shrink::{shrunk, Smaller};
use sudoku_host::sides::{steps, Call, Engine, Original, Plain, Side, PORTED, STEPS};
use sudoku_host::step_cases as lists;
use sudoku_host::text_cases as texts;
use sudoku_host::{abi, counted, digits, grids, plain, read, set, single_candidate, step_lists, verify, SetAnswer, SetCall, Stop, ABI};

struct Options {
    seed: u64,
    seconds: u64,
    lists: u64,
    records: Option<u64>,
    settlings: Option<u64>,
}

#[derive(Default)]
struct Counts {
    sets: u64,
    grids: u64,
    texts: u64,
    lists: u64,
    calls: u64,
    entry_calls: u64,
    boards: u64,
    damaged: u64,
    runs: u64,
    pairs: u64,
    fillings: u64,
    entries: u64,
    records: u64,
    bytes: u64,
    moves: u64,
    written: u64,
    sheets: u64,
    canonical: u64,
    cards: u64,
    rounds: u64,
    changed: u64,
    sweeps: u64,
    relabelled: u64,
    settled: u64,
    from_fresh: u64,
    step_lists: u64,
    bad_lists: u64,
    figures: u64,
    no_figures: u64,
}

impl std::fmt::Display for Counts {
    fn fmt(&self, out: &mut std::fmt::Formatter) -> std::fmt::Result {
        let Counts { sets, grids, texts, lists, calls, entry_calls, boards, damaged, runs, pairs, fillings, entries, .. } = self;
        let Counts { records, bytes, moves, written, sheets, canonical, cards, rounds, changed, sweeps, relabelled, .. } = self;
        let Counts { settled, from_fresh, step_lists, bad_lists, figures, no_figures, .. } = self;
        write!(out, "{sets} set calls, {grids} filled grids, {texts} texts, ")?;
        write!(out, "{lists} lists of {calls} ported calls and {entry_calls} enterings and rubbings out, ")?;
        write!(out, "{boards} boards through the wide passes, {damaged} damaged boards, {runs} runs of lists, {pairs} pairs of lists settled, ")?;
        write!(out, "{fillings} lists with enterings held to a filling, {entries} pairs of lists that leave the same entries, ")?;
        write!(out, "{records} boards written as records and read back, {bytes} damaged and random records read, {moves} old and new records moved, ")?;
        write!(out, "{written} texts written, {sheets} sheets read, {canonical} canonical sheets written, {cards} cards, {rounds} trial rounds, ")?;
        write!(out, "{changed} boards settled in other clothes, {sweeps} of them in another number of sweeps, {relabelled} lists relabelled, ")?;
        write!(out, "{settled} boards settled with their step lists, {from_fresh} of them from the fresh board and their lists checked, ")?;
        write!(out, "{step_lists} step lists on other masks, {bad_lists} damaged ones, ")?;
        write!(out, "{figures} boards rated and their settling counted pass by pass, {no_figures} of them without a figure")
    }
}

fn options() -> Options {
    let mut found = Options { seed: 1, seconds: 60, lists: u64::MAX, records: None, settlings: None };
    let words: Vec<String> = std::env::args().skip(1).collect();
    for pair in words.chunks(2) {
        let number = pair.get(1).and_then(|word| word.parse().ok());
        match (pair[0].as_str(), number) {
            ("--seed", Some(number)) => found.seed = number,
            ("--seconds", Some(number)) => found.seconds = number,
            ("--lists", Some(number)) => found.lists = number,
            ("--records", Some(number)) => found.records = Some(number),
            ("--settlings", Some(number)) => found.settlings = Some(number),
            _ => usage(),
        }
    }
    found
}

fn usage() -> ! {
    eprintln!("compare --seed N --seconds S [--lists N] [--records N] [--settlings N]");
    std::process::exit(2)
}

fn main() {
    let options = options();
    if abi() != ABI {
        eprintln!("compare: the archive's signatures have the number {}, these {ABI}: build it anew", abi());
        std::process::exit(2);
    }
    let mut counts = Counts::default();
    match run(&options, &mut counts) {
        Ok(()) => println!("compare: seed {}: no difference in {counts}", options.seed),
        Err(difference) => {
            println!("{difference}");
            println!("compare: seed {}: A DIFFERENCE, after {counts}", options.seed);
            std::process::exit(1);
        }
    }
}

fn run(options: &Options, counts: &mut Counts) -> Result<(), String> {
    let end = Instant::now() + Duration::from_secs(options.seconds);
    if options.records.is_none() && options.settlings.is_none() {
        all_sets(counts)?;
        published(counts)?;
    }
    let mut progress = Progress::new();
    let mut round = 0;
    let most = |number: Option<u64>| number.unwrap_or(u64::MAX);
    while Instant::now() < end && counts.lists < options.lists && counts.records < most(options.records) && counts.settled < most(options.settlings) {
        let mut random = Random::of_case(options.seed, round);
        match (options.records, options.settlings) {
            (Some(_), _) => a_record(&mut random, counts)?,
            (None, Some(_)) => a_settled_board(&mut random, counts)?,
            (None, None) => a_round(round, &mut random, counts)?,
        }
        round += 1;
        progress.show(counts);
    }
    progress.clear();
    Ok(())
}

fn a_round(round: u64, random: &mut Random, counts: &mut Counts) -> Result<(), String> {
    some_grids(random, counts)?;
    some_texts(random, counts)?;
    a_sheet(&sheets::sheet(random), counts)?;
    a_list(&cases::ported_with_entries(random), counts)?;
    a_damaged_board(random, counts)?;
    match round % 4 {
        0 | 2 => a_wide_board(random, counts)?,
        1 => two_lists(random, counts)?,
        _ => a_run(random, counts)?,
    }
    match round % 2 {
        0 => two_lists_of_entry_calls(random, counts)?,
        _ => a_filling(random, counts)?,
    }
    match round % 4 {
        0 => a_written_text(random, counts).and_then(|()| some_sheets(random, counts))?,
        2 => a_card(random, counts)?,
        _ => a_record(random, counts)?,
    }
    match round % 4 {
        0 => a_changed_board(random, counts)?,
        2 => a_relabelled_list(random, counts)?,
        _ => {}
    }
    a_settled_board(random, counts)?;
    a_figure(random, counts)?;
    if round % 8 == 5 {
        some_step_lists(random, counts)?;
    }
    a_trial_round(random, counts)
}

// ---- the candidate set

fn all_sets(counts: &mut Counts) -> Result<(), String> {
    for mask in 0..512 {
        for digit in 1..=9 {
            for call in [SetCall::Single, SetCall::Contains, SetCall::Insert, SetCall::Remove] {
                a_set(call, mask, digit, counts)?;
            }
        }
        for call in [SetCall::New, SetCall::Full, SetCall::Clear, SetCall::Len, SetCall::IsEmpty, SetCall::SingleCandidate, SetCall::Iter] {
            a_set(call, mask, 0, counts)?;
        }
        let (ours, theirs) = (digits(mask), original_set(mask).iter().collect::<Vec<_>>());
        same(ours == theirs, || format!("digits of mask {mask}: engine {ours:?}, original {theirs:?}"))?;
        counts.sets += 1;
    }
    all_singles(counts)?;
    bad_digits(counts)
}

/// Empty and several, which the original does not tell apart, and higher bits, which it does not drop.
fn all_singles(counts: &mut Counts) -> Result<(), String> {
    for mask in 0..=u16::MAX {
        let (ours, plain) = (single_candidate(mask), plain::single_candidate(mask));
        counts.sets += 1;
        same(ours == plain, || format!("single_candidate of mask {mask}: engine {ours:?}, plain {plain:?}"))?;
    }
    Ok(())
}

fn original_set(mask: u16) -> SudokuCandidateSet {
    let mut set = SudokuCandidateSet::new();
    set.mask = mask;
    set
}

fn a_set(call: SetCall, mask: u16, digit: i32, counts: &mut Counts) -> Result<(), String> {
    let (ours, theirs) = (set(call, mask, digit), original_answer(call, mask, digit));
    counts.sets += 1;
    same(ours == theirs, || format!("{call:?} on mask {mask}, digit {digit}: engine {ours:?}, original {theirs:?}"))
}

fn original_answer(call: SetCall, mask: u16, digit: i32) -> SetAnswer {
    let mut set = original_set(mask);
    let value = match call {
        SetCall::New => made(&mut set, SudokuCandidateSet::new()),
        SetCall::Full => made(&mut set, SudokuCandidateSet::full()),
        SetCall::Single => made(&mut set, SudokuCandidateSet::single(digit)),
        SetCall::Contains => set.contains(digit) as i64,
        SetCall::Insert => {
            set.insert(digit);
            0
        }
        SetCall::Remove => set.remove(digit) as i64,
        SetCall::Clear => {
            set.clear();
            0
        }
        SetCall::Len => set.len() as i64,
        SetCall::IsEmpty => set.is_empty() as i64,
        SetCall::SingleCandidate => set.single_candidate().unwrap_or(0) as i64,
        SetCall::Iter => 0,
    };
    SetAnswer { answer: Ok(value), mask: set.mask }
}

fn made(set: &mut SudokuCandidateSet, new: SudokuCandidateSet) -> i64 {
    *set = new;
    0
}

/// Digits outside 1 to 9, where the original asserts: stop 4 with the digit, and the mask as it was.
fn bad_digits(counts: &mut Counts) -> Result<(), String> {
    for mask in 0..=u16::MAX {
        for digit in [0, 10, -1, i32::MIN, i32::MAX] {
            for (call, left) in [(SetCall::Single, 0), (SetCall::Contains, mask), (SetCall::Insert, mask), (SetCall::Remove, mask)] {
                let ours = set(call, mask, digit);
                let stop = SetAnswer { answer: Err(Stop { number: 4, detail: digit as i64 }), mask: left };
                counts.sets += 1;
                same(ours == stop, || format!("{call:?} on mask {mask}, digit {digit}: engine {ours:?}"))?;
            }
        }
    }
    Ok(())
}

// ---- filled grids and texts

fn some_grids(random: &mut Random, counts: &mut Counts) -> Result<(), String> {
    for _ in 0..4 {
        let grid = grids::filled(random);
        let answers = [verify(&grid), oracle::verify(&grid), plain::verify(&grid)];
        counts.grids += 1;
        same(answers.iter().all(|&answer| answer == answers[0]), || format!("filled grid {grid:?}: engine, original, plain {answers:?}"))?;
    }
    Ok(())
}

/// The engine and the plain implementation on any bytes; the original on what a `&str` can hold.
fn some_texts(random: &mut Random, counts: &mut Counts) -> Result<(), String> {
    let text = grids::text(random);
    let mut clues = [7; 81];
    let ours = read(&text, &mut clues);
    let plain = plain::read_text(&text);
    counts.texts += 1;
    let alike = match plain {
        Ok(grid) => ours == Ok(counted(&grid)) && clues == grid,
        Err(stop) => ours == Err(stop) && clues == [7; 81],
    };
    same(alike, || format!("text {text:?}: engine {ours:?}, plain {plain:?}"))?;
    let Ok(words) = std::str::from_utf8(&text) else { return Ok(()) };
    let theirs = SudokuSolver::parse_string(words);
    let alike = match (&ours, &theirs) {
        (Ok(count), Ok(rows)) => clues == oracle::flat(rows) && *count == oracle::opened(&clues).clue_count() as i64,
        (Err(stop), Err(message)) => message.ends_with(&format!(" {}", stop.detail)) && (stop.number == 1) == message.starts_with("Expected"),
        _ => false,
    };
    same(alike, || format!("text {words:?}: engine {ours:?}, original {theirs:?}"))
}

// ---- lists of calls

fn published(counts: &mut Counts) -> Result<(), String> {
    for text in grids::PUBLISHED {
        for step in PORTED {
            a_list(&Case::fresh(grids::of_text(text), steps(&[step, 1, 2, 3, 4, 5, step])), counts)?;
        }
    }
    Ok(())
}

/// A list of ported calls, enterings and rubbings out on all three sides.
fn a_list(case: &Case, counts: &mut Counts) -> Result<(), String> {
    let entry_calls = case.calls.iter().filter(|call| call.is_entry_call()).count();
    counts.lists += 1;
    counts.calls += (case.calls.len() - entry_calls) as u64;
    counts.entry_calls += entry_calls as u64;
    sound(case, "fresh masks", &cases::fresh_differs)?;
    sound(case, "accessors", &cases::accessors_differ::<Engine, Plain>)?;
    sound(case, "engine and original", &cases::differ::<Engine, Original>)?;
    sound(case, "original and plain", &cases::differ::<Original, Plain>)
}

/// The wide passes and settling, for which the original has no counterpart.
fn a_wide_board(random: &mut Random, counts: &mut Counts) -> Result<(), String> {
    counts.boards += 1;
    sound(&cases::wide_case(random), "engine and plain", &cases::differ::<Engine, Plain>)
}

/// A board that may be refused, by a step, an entering or a rubbing out: the stop and its cell; and a number that is no step's.
fn a_damaged_board(random: &mut Random, counts: &mut Counts) -> Result<(), String> {
    let case = cases::damaged_case(random);
    counts.damaged += 1;
    sound(&case, "engine and plain", &cases::differ::<Engine, Plain>)?;
    sound(&case, "accessors", &cases::accessors_differ::<Engine, Plain>)?;
    let number = random.within(STEPS.len(), 255) as u8;
    let ours = Engine::start(&case.board()).call(Call::Step(number));
    same(ours == Err(Stop { number: -1, detail: number as i64 }), || format!("step {number}: engine {ours:?}\n{case}"))
}

fn a_run(random: &mut Random, counts: &mut Counts) -> Result<(), String> {
    counts.runs += 1;
    sound(&cases::run_case(random), "a list at once and one by one", &|case| cases::run_differs(sudoku_host::run, case))
}

fn two_lists(random: &mut Random, counts: &mut Counts) -> Result<(), String> {
    let (case, filling) = cases::sound_case(random);
    counts.pairs += 1;
    sound(&case, "demand 3 on the engine", &|case| cases::unsound::<Engine>(case, filling.as_ref()))
}

/// A list that enters and rubs out between the other calls, and a filling that it must keep while it fits.
fn a_filling(random: &mut Random, counts: &mut Counts) -> Result<(), String> {
    let (case, filling) = cases::filling_case(random);
    counts.fillings += 1;
    sound(&case, "demand 3 on the engine", &|case| cases::filling_lost::<Engine>(case, &filling))
}

fn two_lists_of_entry_calls(random: &mut Random, counts: &mut Counts) -> Result<(), String> {
    let case = cases::entries_case(random);
    counts.entries += 1;
    sound(&case, "engine and plain", &cases::differ::<Engine, Plain>)?;
    sound(&case, "entries on the engine", &cases::entries_differ::<Engine>)
}

// ---- other clothes

fn a_changed_board(random: &mut Random, counts: &mut Counts) -> Result<(), String> {
    let case = clothes::clothes(random);
    counts.changed += 1;
    counts.sweeps += clothes::sweeps_apart::<Engine>(&case) as u64;
    sound(&case, "the settled board in other clothes", &clothes::settled_apart::<Engine>)
}

fn a_relabelled_list(random: &mut Random, counts: &mut Counts) -> Result<(), String> {
    counts.relabelled += 1;
    sound(&clothes::relabelled(random), "a list on the relabelled board", &clothes::lists_apart::<Engine>)
}

// ---- what is written, and read from it

/// A board written as a record and read back, and moved; that record damaged, an old one, and other bytes.
fn a_record(random: &mut Random, counts: &mut Counts) -> Result<(), String> {
    let case = records::board_case(random);
    let (record, old) = (records::record(&case), records::old_record(&case));
    counts.records += 1;
    sound(&case, "a record written, engine and plain", &records::written_differs::<Engine, Plain>)?;
    sound(&case, "a board written and read", &records::returned_differs::<Engine>)?;
    sound(&record, "a record read, engine and plain", &records::read_differs::<Engine, Plain>)?;
    let mut others: Vec<_> = (0..4).map(|_| records::damaged(random, &record)).collect();
    others.push(records::loose(random));
    counts.bytes += others.len() as u64;
    others.iter().try_for_each(|bytes| sound(bytes, "a record read, engine and plain", &records::read_differs::<Engine, Plain>))?;
    others.extend([record, records::damaged(random, &old), old]);
    counts.moves += others.len() as u64;
    others.iter().try_for_each(|bytes| sound(bytes, "a record moved, engine and plain", &records::moves_differ::<Engine, Plain>))
}

fn a_written_text(random: &mut Random, counts: &mut Counts) -> Result<(), String> {
    counts.written += texts::LENGTHS.count() as u64;
    sound(&texts::text_case(random), "a text written, engine and plain", &|case| texts::written_differs(&texts::TEXTS, case))
}

fn a_sheet(sheet: &texts::Input, counts: &mut Counts) -> Result<(), String> {
    counts.sheets += 1;
    sound(sheet, "a sheet read, engine and plain", &sheets::plain_differs)
}

/// A sheet with each byte put in somewhere, and a canonical sheet written.
fn some_sheets(random: &mut Random, counts: &mut Counts) -> Result<(), String> {
    let sheet = sheets::sheet(random);
    sheets::with_every_byte(random, &sheet).iter().try_for_each(|sheet| a_sheet(sheet, counts))?;
    counts.canonical += texts::LENGTHS.count() as u64;
    sound(&texts::text_case(random), "a canonical sheet written, engine and plain", &|case| texts::written_differs(&texts::SHEETS, case))
}

fn a_card(random: &mut Random, counts: &mut Counts) -> Result<(), String> {
    counts.cards += 1;
    sound(&texts::input(random), "a card, engine and plain", &texts::card_differs)
}

fn a_trial_round(random: &mut Random, counts: &mut Counts) -> Result<(), String> {
    let round = rounds::round(random);
    counts.rounds += 1;
    sound(&round, "a trial round, engine and plain", &rounds::round_differs)?;
    sound(&round, "a trial round's solution on the engine", &rounds::solution_lost)
}

/// Settling with its step list; where it began on the fresh board, that list checked.
fn a_settled_board(random: &mut Random, counts: &mut Counts) -> Result<(), String> {
    let case = lists::to_settle(random);
    counts.settled += 1;
    sound(&case, "settling and its step list, engine and plain", &|case| lists::settled_differs(plain::settle, case))?;
    if !lists::is_fresh(&lists::reached(&case)) {
        return Ok(());
    }
    counts.from_fresh += 1;
    sound(&case, "settling's own list on the engine", &lists::own_refused)
}

/// What each wide pass removes of a board in settling, and the board's difficulty figure.
fn a_figure(random: &mut Random, counts: &mut Counts) -> Result<(), String> {
    let case = figures::to_rate(random);
    counts.figures += 1;
    counts.no_figures += plain::difficulty(&case.board()).is_err_and(|stop| stop.number == 19) as u64;
    sound(&case, "settling's counts, engine and plain", &|case| figures::counts_differ(plain::pass_counts, case))?;
    sound(&case, "a difficulty figure, engine and plain", &|case| figures::figures_differ(plain::difficulty, case))
}

/// Settling's own list, on other masks and on a board that may be refused, and damaged ones.
fn some_step_lists(random: &mut Random, counts: &mut Counts) -> Result<(), String> {
    let differ = |list: &lists::StepList| lists::answers_differ(step_lists::check_steps, list);
    let own = lists::own(random);
    counts.step_lists += 1;
    sound(&own, "a step list, engine and plain", &differ)?;
    let mut others: Vec<_> = (0..8).map(|_| lists::damaged(random, &own)).collect();
    others.push(lists::refused(random));
    counts.bad_lists += others.len() as u64;
    others.iter().try_for_each(|list| sound(list, "a step list, engine and plain", &differ))
}

fn sound<T: Smaller + Display>(case: &T, what: &str, fault: &dyn Fn(&T) -> Option<String>) -> Result<(), String> {
    if fault(case).is_none() {
        return Ok(());
    }
    let (smallest, shows) = shrunk(case.clone(), fault);
    Err(format!("{what}: {shows}\n{smallest}"))
}

fn same(alike: bool, difference: impl Fn() -> String) -> Result<(), String> {
    if alike {
        return Ok(());
    }
    Err(difference())
}

// ---- the progress line

struct Progress {
    shown: Option<Instant>,
}

impl Progress {
    fn new() -> Self {
        Progress { shown: std::io::stderr().is_terminal().then(Instant::now) }
    }

    fn show(&mut self, counts: &Counts) {
        let Some(last) = self.shown else { return };
        if last.elapsed() > Duration::from_millis(500) {
            self.shown = Some(Instant::now());
            eprint!("\r\x1b[K{counts}");
            let _ = std::io::stderr().flush();
        }
    }

    fn clear(&self) {
        if self.shown.is_some() {
            eprint!("\r\x1b[K");
        }
    }
}
