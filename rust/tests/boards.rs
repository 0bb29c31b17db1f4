//! Boards by the types: the cases that document 01 publishes, the requests of document 02, and what tools/explain.py made of the paper's words.

use sudoku::calls::{RawBoard, NO_ENTRIES};
use sudoku::{card, move_record, verify, Board, CandidateSet, Cell, Digit, RecordForm, Report, Settled, SingleCandidate};
use sudoku::{Step, StepNumber, Stop, Unit, UnitKind, Verdict};

const GRID_A: &str = "123456789456789123789123456234567891567891234891234567345678912678912345912345678";
const P10: &str = ".........456......789............................................................";

fn cell(word: &str) -> Cell {
    word.parse().unwrap()
}

fn digit(number: i32) -> Digit {
    number.try_into().unwrap()
}

fn board(text: &str) -> Board {
    Board::read(text).unwrap()
}

/// Grid A with some cells open.
fn opened(cells: &[usize]) -> Board {
    let text: String = GRID_A.char_indices().map(|(at, character)| if cells.contains(&at) { '.' } else { character }).collect();
    board(&text)
}

fn words<T: ToString>(told: impl Iterator<Item = T>) -> Vec<String> {
    told.map(|one| one.to_string()).collect()
}

fn candidate_count(board: &Board) -> usize {
    Cell::all().map(|cell| board.candidates(cell).len()).sum()
}

#[test]
fn cells_digits_and_units() {
    assert_eq!(Cell::all().map(u32::from).collect::<Vec<_>>(), (0..81).collect::<Vec<_>>());
    assert!(Cell::all().all(|at| cell(&at.to_string()) == at && Cell::try_from(u32::from(at)) == Ok(at)));
    for word in ["", "r0c1", "r1c0", "r10c1", "r1c10", "c1r1", "r1c:", "R1C1", " r1c1", "r1cé"] {
        assert!(word.parse::<Cell>().is_err(), "{word}");
    }
    assert_eq!((Cell::at(0, 1), Cell::at(9, 10), Cell::at(9, 9)), (None, None, Cell::all().last()));
    for number in [i32::MIN, -1, 0, 10, 257, i32::MAX] {
        assert_eq!(Digit::try_from(number), Err(Stop::BadDigit(number)));
    }
    for number in [81, 256, u32::MAX] {
        assert_eq!(Cell::try_from(number), Err(Stop::NoCell(number)));
    }
    let units: Vec<Unit> = (0..27).map_while(Unit::from_index).collect();
    assert!(units.len() == 27 && units.iter().zip(0..).all(|(unit, index)| unit.index() == index && unit.cells().count() == 9));
    assert_eq!(words(units.iter().step_by(13)), ["row 1", "column 5", "box 9"]);
    assert_eq!(words(units[22].cells()), ["r4c4", "r4c5", "r4c6", "r5c4", "r5c5", "r5c6", "r6c4", "r6c5", "r6c6"]);
    assert_eq!((Unit::from_index(27), Unit::new(UnitKind::Box, 0)), (None, None));
}

#[test]
fn candidate_sets() {
    let mut set = CandidateSet::full();
    assert_eq!((set.len(), set.mask(), set.to_string().as_str()), (9, 511, "123456789"));
    assert_eq!(set.single_candidate(), SingleCandidate::Several);
    assert!(set.remove(digit(5)) && !set.remove(digit(5)) && !set.contains(digit(5)));
    set.insert(digit(5));
    assert_eq!(set, CandidateSet::full());
    set.clear();
    assert!(set.is_empty() && set == CandidateSet::new() && set.iter().next().is_none());
    assert_eq!(set.single_candidate(), SingleCandidate::Empty);
    assert_eq!(CandidateSet::single(digit(9)).single_candidate(), SingleCandidate::Digit(digit(9)));
    assert_eq!(CandidateSet::from_mask(0xfe05), [digit(1), digit(3)].into_iter().collect());
}

/// P5: "grid A without its first digit" has one single, which both kinds report.
#[test]
fn singles_are_reported() {
    let one = Report { cell: cell("r1c1"), digit: digit(1) };
    assert_eq!(opened(&[0]).step(StepNumber::NakedSingles).reports().collect::<Vec<_>>(), [one]);
    assert!(opened(&[0]).step(StepNumber::HiddenSingles).reports().all(|report| report == one));
    assert_eq!(opened(&[]).step(StepNumber::NakedSingles).reports().len(), 0);
}

/// P10: 1, 2 and 3 are in the first three cells of row 1 alone, so the six others lose them; nothing else is found.
#[test]
fn progress() {
    let mut pointed = board(P10);
    let stepped = pointed.step(StepNumber::Pointing);
    assert_eq!((stepped.progress, stepped.reports().len()), (true, 0));
    assert_eq!(candidate_count(&pointed), candidate_count(&board(P10)) - 18);
    assert!(!pointed.step(StepNumber::Pointing).progress && !pointed.step(StepNumber::Cross).progress);
    assert!(!pointed.step(StepNumber::UpdateCandidates).progress);
    assert_eq!(pointed, board(P10));
}

/// P10: settling removes 18 candidates in its first sweep, and a second one finds nothing.
#[test]
fn settling() {
    let mut settled = board(P10);
    let before = candidate_count(&settled);
    let told = settled.settle();
    assert_eq!((told.sweeps, told.removed, told.counts), (2, 18, [0, 0, 0, 18, 0, 0]));
    assert_eq!(candidate_count(&settled), before - 18);
    assert_eq!(settled.difficulty().unwrap().to_string(), "0+54/75");
    let Settled { sweeps: 1, removed: 0, .. } = settled.clone().settle() else { panic!("it was not settled") };
    assert!(!settled.clone().step(StepNumber::Settling).progress && board(P10).step(StepNumber::Settling).progress);

    let mut run = board(P10);
    run.run(&[StepNumber::Settling]);
    assert_eq!(run, settled);
    run.run(&[]);
    assert_eq!(run, board(P10));
    run.run(&StepNumber::ALL);
    assert!(candidate_count(&run) < before);
}

/// crates/explain/stdout, which tools/explain.py made.
#[test]
fn the_steps_that_explain_prints() {
    let mut board: Board = include_str!("../../crates/explain/stdin").parse().unwrap();
    let fresh = board.clone();
    let told = board.settle();
    let expected = include_str!("../../crates/explain/stdout");
    let lines: Vec<&str> = expected.lines().map_while(|line| line.split_once(':')).map(|(step, _)| step).collect();
    assert_eq!(words(told.steps().zip(1..).map(|(step, number)| format!("{number} {step}"))), lines);
    assert!(lines.len() == 11 && expected.ends_with(&format!("difficulty {}\nverdict {}\n", board.difficulty().unwrap(), board.verdict())));

    let marks: Vec<&str> = expected.lines().skip(12).flat_map(|line| line.split([' ', '|'])).filter(|word| word.parse::<u32>().is_ok()).collect();
    assert_eq!(words(Cell::all().map(|cell| board.candidates(cell))), marks[..81]);

    let steps: Vec<Step> = told.steps().collect();
    let mut checked = fresh.clone();
    assert_eq!((checked.check_steps(&steps), &checked), (Ok(()), &board));
    let mut short = steps.iter().flat_map(|step| step.to_bytes()).collect::<Vec<u8>>();
    short.pop();
    assert_eq!((checked.check_step_bytes(&short), &checked), (Err(Stop::BadStep(10)), &board));
    assert_eq!((checked.check_steps(&[steps[0]; 730]), &checked), (Err(Stop::TooManySteps(730)), &board));
    assert_eq!((checked.check_steps(&[]), checked), (Ok(()), fresh));
}

#[test]
fn steps_there_and_back() {
    let edges = [0, 1, 8, 9, 10, 17, 18, 26, 27, 80, 81];
    let part = |number: usize, place: u32| edges[number / edges.len().pow(place) % edges.len()];
    for kind in 0..7 {
        let bytes = (0..edges.len().pow(5)).map(|number| [kind, part(number, 0), part(number, 1), part(number, 2), part(number, 3), part(number, 4)]);
        let steps: Vec<([u8; 6], Step)> = bytes.filter_map(|six| Some((six, Step::from_bytes(six)?))).collect();
        assert!(!steps.is_empty() && steps.iter().all(|(six, step)| step.to_bytes() == *six));
    }
    for six in [[7, 0, 0, 0, 0, 0], [0, 81, 1, 0, 0, 0], [0, 0, 10, 0, 0, 0], [0, 0, 1, 1, 0, 0], [3, 8, 1, 0, 0, 0], [3, 18, 1, 19, 0, 0], [5, 1, 9, 10, 0, 1]]
    {
        assert_eq!(Step::from_bytes(six), None);
    }
}

#[test]
fn verdicts() {
    assert_eq!((opened(&[]).verdict(), board(P10).verdict()), (Verdict::Finished, Verdict::Open));
    assert_eq!(board(&("55".to_owned() + &".".repeat(79))).clue_count(), 2); // P11: clues that contradict each other are taken
    let mut dead = opened(&[0]);
    dead.enter(cell("r1c1"), digit(2)).unwrap();
    assert_eq!(dead.verdict(), Verdict::Dead);
}

#[test]
fn entries() {
    let mut entered = board(P10);
    entered.settle();
    assert_eq!(entered.enter(cell("r9c9"), digit(4)), Ok(()));
    assert_eq!((entered.entry(cell("r9c9")), entered.clue(cell("r9c9")), entered.clue(cell("r2c1"))), (Some(digit(4)), None, Some(digit(4))));
    assert_eq!(entered.candidates(cell("r9c9")), CandidateSet::single(digit(4)));
    let mut entries = NO_ENTRIES;
    entries[80] = 4;
    assert_eq!(Board::with_entries(&entered.raw().clues, &entries), Ok(entered.clone())); // what settling removed is back
    let before = entered.clone();
    assert_eq!(entered.enter(cell("r9c9"), digit(5)), Err(Stop::Entered(cell("r9c9"))));
    assert_eq!(entered.enter(cell("r2c1"), digit(5)), Err(Stop::ClueCell(cell("r2c1"))));
    assert_eq!(entered.rub_out(cell("r2c1")), Err(Stop::ClueCell(cell("r2c1"))));
    assert_eq!(entered.rub_out(cell("r1c1")), Err(Stop::Entered(cell("r1c1"))));
    assert_eq!(entered, before);
    assert_eq!((entered.rub_out(cell("r9c9")), entered), (Ok(()), board(P10)));
}

#[test]
fn texts_and_sheets() {
    assert_eq!(board(P10).write_text(), P10);
    let sheet = board(P10).to_string();
    assert_eq!((sheet.len(), sheet.lines().nth(1), sheet.parse()), (90, Some("456......"), Ok(board(P10))));
    assert_eq!(Board::read("x".repeat(81)), Err(Stop::OtherByte(0)));
    assert_eq!(Board::read_sheet(" ".repeat(4097)), Err(Stop::SheetLength(4097)));
    assert_eq!("12|34".parse::<Board>(), Err(Stop::SheetCells(4)));
    assert_eq!("12x34".parse::<Board>(), Err(Stop::OtherByte(2)));
    assert_eq!((card("1"), card(P10.to_owned() + "\n\n")), (Err(Stop::TextLength(1)), Err(Stop::TextLength(82))));
}

#[test]
fn records() {
    let mut kept = board(P10);
    kept.enter(cell("r9c9"), digit(4)).unwrap();
    kept.settle();
    let record = kept.write_record();
    assert_eq!(Board::read_record(&record), Ok(kept));
    // six clues in 13 bytes, then the entry count
    assert_eq!(move_record(&record, RecordForm::Old), Err(Stop::RecordEntries(13)));
    assert_eq!(Board::read_record([1, 0]), Err(Stop::RecordBytes(2)));
    assert_eq!(Board::read_record([1, 81, 5, 0, 0, 0]), Err(Stop::RecordEntry(1)));
    assert_eq!(Board::read_record([1, 0, 5, 0, 1, 0, 1, 5]), Err(Stop::RecordRemoval(6)));
}

#[test]
fn arrays_that_do_not_fit() {
    let fits = *board(P10).raw();
    assert_eq!((Board::try_from(fits), RawBoard::from(board(P10))), (Ok(board(P10)), fits));
    let with = |change: fn(&mut RawBoard)| {
        let mut raw = fits;
        change(&mut raw);
        Board::try_from(raw)
    };
    assert_eq!(with(|raw| raw.clues[3] = 10), Err(Stop::BadClue(cell("r1c4"))));
    assert_eq!(with(|raw| raw.entries[9] = 1), Err(Stop::BadEntry(cell("r2c1"))));
    assert_eq!(with(|raw| raw.masks[80] = 512), Err(Stop::BadMask(cell("r9c9"))));
    let mut clues = fits.clues;
    clues[80] = -1;
    assert_eq!(Board::open(&clues), Err(Stop::BadClue(cell("r9c9"))));
}

#[test]
fn full_grids() {
    let full = opened(&[]);
    assert!(verify(&full.raw().clues));
    assert_eq!(full.difficulty(), Err(Stop::NoOpenCell));
    assert_eq!(sudoku::trial_round(7, 100, &full.raw().clues), Ok(full.raw().clues));
    assert_eq!(sudoku::trial_round(7, 100, &board(P10).raw().clues), Err(Stop::BadSolution));
}

/// Whatever bytes are handed over, what is refused has its name.
#[test]
fn any_bytes() {
    let mut seed = 1u64;
    let mut refused = 0;
    for _ in 0..3000 {
        let mut next = |bound: u64| {
            seed = seed.wrapping_mul(6_364_136_223_846_793_005).wrapping_add(1_442_695_040_888_963_407);
            (seed >> 33) % bound
        };
        let small = next(2) == 0; // as records and step lists have them
        let bytes: Vec<u8> = (0..next(100)).map(|_| if small { next(11) as u8 } else { next(256) as u8 }).collect();
        let answers = [
            Board::read(&bytes).err(),
            Board::read_sheet(&bytes).err(),
            Board::read_record(&bytes).err(),
            card(&bytes).err(),
            move_record(&bytes, RecordForm::New).err(),
            move_record(&bytes, RecordForm::Old).err(),
            board(P10).check_step_bytes(&bytes).err(),
        ];
        assert!(answers.iter().flatten().all(|stop| !matches!(stop, Stop::Unknown(_) | Stop::NoNumber(_) | Stop::TooFewBytes(_))), "{answers:?}");
        refused += answers.iter().flatten().count();
    }
    assert!(refused > 10_000, "{refused}");
}
