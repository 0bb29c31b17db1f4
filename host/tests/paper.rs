//! The published cases P1 to P11, the card and the stops of document 01, on the plain implementation; texts written, sheets, entries,
//! records, cards, trial rounds, step lists and difficulty figures on the engine too.

use sudoku_host::figure_cases::engine_counts;
use sudoku_host::grids::{completed, of_text, GRID_A, PUBLISHED};
use sudoku_host::plain::{self, fresh, Difficulty, Outcome};
use sudoku_host::random::Random;
use sudoku_host::sheet_cases::{ruled, Style, BOXED};
use sudoku_host::sides::{Accessors, Call, Engine, Original, Plain, Records, Side, LENT_BOARD};
use sudoku_host::step_cases::engine_settles;
use sudoku_host::{run, step_lists, Board, Clues, Entries, Masks, Stop, ABI, NO_ENTRIES};

const OPEN: Clues = [0; 81];

fn stop<T>(number: i64, detail: i64) -> Result<T, Stop> {
    Err(Stop { number, detail })
}

/// A step on a board without entries.
fn step(number: u8, clues: &Clues, masks: &Masks) -> Result<Outcome, Stop> {
    stepped_by::<Plain>(number, clues, masks)
}

fn stepped_by<S: Side>(number: u8, clues: &Clues, masks: &Masks) -> Result<Outcome, Stop> {
    S::start(&Board::without_entries(clues, masks)).call(Call::Step(number))
}

fn fresh_board(clues: &Clues) -> Board {
    plain::afresh(clues, &NO_ENTRIES)
}

fn with(rows: &[(usize, &str)]) -> Clues {
    let mut text = ".".repeat(81);
    for (row, cells) in rows {
        text.replace_range(9 * row..9 * row + 9, cells);
    }
    of_text(&text)
}

fn p8() -> Clues {
    with(&[(0, "...456789"), (1, "3........")])
}

fn p10() -> Clues {
    with(&[(1, "456......"), (2, "789......")])
}

fn removed(before: &Masks, after: &Masks) -> u32 {
    before.iter().zip(after).map(|(before, after)| before.count_ones() - after.count_ones()).sum()
}

#[test]
fn signatures() {
    assert_eq!(sudoku_host::abi(), ABI);
}

#[test]
fn p1_the_open_grid() {
    let masks = fresh(&OPEN);
    assert_eq!(masks, [511; 81]);
    for number in [1, 2, 3, 7, 8, 9, 10, 14, 11, 13, 15] {
        let outcome = step(number, &OPEN, &masks).unwrap();
        assert!(!outcome.flag && outcome.masks == masks, "step {number}");
    }
    let settled = step(12, &OPEN, &masks).unwrap();
    assert_eq!((settled.sweeps, settled.removed), (1, 0));
    written(&fresh_board(&OPEN), &[0, 0, 0, 0]);
}

#[test]
fn p2_p3_texts() {
    assert_eq!(plain::read_text(&[b'.'; 80]), stop(1, 80));
    let mut text = [b'.'; 81];
    text[80] = b'a';
    assert_eq!(plain::read_text(&text), stop(2, 80));
}

#[test]
fn p4_clues() {
    let mut clues = OPEN;
    clues[0] = -1;
    assert_eq!(plain::open(&clues), stop(3, 0));
    clues = OPEN;
    clues[80] = 10;
    assert_eq!(plain::open(&clues), stop(3, 80));
}

#[test]
fn p5_one_open_cell() {
    let mut clues = of_text(GRID_A);
    clues[0] = 0;
    let masks = fresh(&clues);
    assert_eq!(masks[0], 1);
    assert_eq!(step(4, &clues, &masks).unwrap().reports, [(0, 1)]);
    assert_eq!(step(5, &clues, &masks).unwrap().reports, [(0, 1); 3]);
}

#[test]
fn p6_the_verifier() {
    let mut grid = of_text(GRID_A);
    assert!(plain::verify(&grid) && sudoku_host::verify(&grid));
    for number in [0, 10, i32::MIN] {
        grid[80] = number;
        assert!(!plain::verify(&grid) && !sudoku_host::verify(&grid));
    }
    grid = of_text(GRID_A);
    grid.swap(0, 1);
    assert!(!plain::verify(&grid) && !sudoku_host::verify(&grid));
}

#[test]
fn p7_nothing_to_remove() {
    let cells = [0, 1, 27, 28, 54, 55];
    let mut clues = of_text(GRID_A);
    cells.iter().for_each(|&cell| clues[cell] = 0);
    let masks = fresh(&clues);
    assert_eq!(cells.map(|cell| masks[cell]), [3, 3, 6, 6, 5, 5]);
    for number in [1, 2, 3, 7, 8, 9, 10, 14, 11, 13, 15] {
        assert!(!step(number, &clues, &masks).unwrap().flag, "step {number}");
    }
}

#[test]
fn p8_p9_naked_pairs() {
    let masks = fresh(&p8());
    assert_eq!(masks[..3], [3; 3]);
    let pairs = step(1, &p8(), &masks).unwrap();
    assert_eq!((removed(&masks, &pairs.masks), pairs.masks[2]), (12, 0));
    let advanced = step(6, &p8(), &masks).unwrap();
    assert!(advanced.flag && advanced.masks == masks);
}

#[test]
fn p10_box_line_and_the_card() {
    let masks = fresh(&p10());
    let once = step(2, &p10(), &masks).unwrap();
    assert_eq!((once.flag, removed(&masks, &once.masks)), (true, 18));
    assert!(!step(2, &p10(), &once.masks).unwrap().flag);
    let mut text = [0; 82];
    text[81] = b'\n';
    plain::write_text(&p10(), &mut text).unwrap();
    let line = ".".repeat(9) + "456......789......" + &".".repeat(54);
    let card = format!("clues 6\nreported 0\nsweeps 2\nremoved 18\nverdict open\nline {line}\n");
    assert_eq!(plain::printed(&text), card);
    assert_eq!(plain::printed(&[b'.'; 5000]), "refused 1 4096\n");
    let mut lent = [7; 256];
    assert_eq!(sudoku_host::card(&text, &mut lent), Ok(card.len() as i64));
    assert_eq!((&lent[..card.len()], &lent[card.len()..]), (card.as_bytes(), &[7; 256][card.len()..]));
    for (input, number, detail) in [(&text[..80], 1, 80), (&[text, text].concat(), 1, 163), (&[b'\n'; 82], 2, 0), (b"\n", 1, 0), (b"", 1, 0)] {
        assert_eq!(plain::card(input), stop(number, detail));
        let mut lent = [7; 256];
        assert_eq!((sudoku_host::card(input, &mut lent), lent), (stop(number, detail), [7; 256]));
    }
}

/// Document 02, F-5: row 0 holds 1, 2 and 3 in its first box alone; no other wide pass removes anything, so a sweep of five would stop at once.
#[test]
fn claiming() {
    let clues = with(&[(0, "...456789")]);
    let masks = fresh(&clues);
    for number in [7, 8, 9, 10, 11] {
        assert!(!step(number, &clues, &masks).unwrap().flag, "step {number}");
    }
    let mut claimed = masks;
    [9, 10, 11, 18, 19, 20].iter().for_each(|&cell| claimed[cell] = 504);
    for outcome in [step(14, &clues, &masks), stepped_by::<Engine>(14, &clues, &masks)] {
        assert_eq!(outcome.map(|outcome| (outcome.flag, outcome.masks)), Ok((true, claimed)));
    }
    for settled in [step(12, &clues, &masks), stepped_by::<Engine>(12, &clues, &masks)] {
        assert_eq!(settled.map(|settled| (settled.sweeps, settled.removed, settled.masks)), Ok((2, 18, claimed)));
    }
}

#[test]
fn p11_conflicting_clues() {
    let mut clues = OPEN;
    (clues[0], clues[1]) = (5, 5);
    let masks = plain::open(&clues).unwrap();
    assert!(masks[2..9].iter().all(|mask| mask & plain::bit(5) == 0));
    let settled = step(12, &clues, &masks).unwrap();
    assert_eq!(settled.masks[2..9], [0; 7]);
}

/// Document 02, F-4: 81 clues are finished only where they pass the verifier.
#[test]
fn full_grids() {
    let right = of_text(GRID_A);
    let mut exchanged = right;
    exchanged.swap(0, 1);
    for (clues, verdict) in [(right, "finished"), (exchanged, "dead")] {
        assert_eq!(plain::verdict(&fresh_board(&clues)), Ok(verdict));
        assert_eq!(sudoku_host::verdict(&fresh_board(&clues)), Ok(verdict));
    }
}

/// docs/DIFFERENCES.md: the chain pass, in the Rust too, removes a digit that a correct filling takes.
#[test]
fn the_chain_pass_can_cost_a_filling() {
    let mut clues = OPEN;
    (clues[0], clues[12], clues[24]) = (1, 1, 2);
    let masks = fresh(&clues);
    let ours = step(13, &clues, &masks).unwrap();
    assert_eq!(masks[28] & !ours.masks[28], plain::bit(1));
    assert_eq!(stepped_by::<Original>(13, &clues, &masks), Ok(ours));
    clues[28] = 1;
    let filling = completed(&mut Random::new(1), &clues).unwrap();
    assert!(sudoku_host::verify(&filling));
}

#[test]
fn a_board_is_checked() {
    let clues = p8();
    let mut masks = fresh(&clues);
    masks[5] = 0;
    masks[0] |= 4;
    assert_eq!(step(1, &clues, &masks), stop(9, 0));
    masks[0] = 1;
    assert_eq!(step(1, &clues, &masks), stop(9, 5));
    assert_eq!(plain::verdict(&Board::without_entries(&clues, &masks)), stop(9, 5));
    assert_eq!(plain::one_mask(&fresh_board(&clues), 81), stop(5, 81));
    assert_eq!(plain::one_mask(&fresh_board(&clues), 0), Ok(3));
}

#[test]
fn the_text_writer() {
    let mut bad = OPEN;
    (bad[4], bad[80]) = (10, -1);
    let text = ".".repeat(9) + "456......789......" + &".".repeat(54);
    for (clues, lent, answer) in [(p10(), 80, stop(6, 80)), (p10(), 81, Ok(81)), (p10(), 90, Ok(81)), (bad, 80, stop(6, 80)), (bad, 81, stop(3, 4))] {
        let mut expected = vec![b'x'; lent];
        if answer.is_ok() {
            expected[..81].copy_from_slice(text.as_bytes());
        }
        let (mut ours, mut theirs) = (vec![b'x'; lent], vec![b'x'; lent]);
        assert_eq!((sudoku_host::write_text(&clues, &mut ours), &ours), (answer, &expected));
        assert_eq!((plain::write_text(&clues, &mut theirs), &theirs), (answer.map(|written| written as usize), &expected));
    }
}

// ---- pasted sheets (document 02, F-2), on both sides

fn sheet(pasted: &[u8]) -> Result<Clues, Stop> {
    let mut clues = [7; 81];
    let answer = sudoku_host::read_sheet(pasted, &mut clues);
    let expected = plain::read_sheet(pasted);
    assert_eq!(answer, expected.map(|grid| sudoku_host::counted(&grid)));
    assert_eq!(clues, expected.unwrap_or([7; 81]));
    expected
}

#[test]
fn sheets_with_rulings() {
    let text = "53..7....6..195....98....6.8...6...34..8.3..17...2...6.6....28....419..5....8..79";
    let ruled = String::from_utf8(ruled(text.as_bytes(), &Style { end: "\r\n", ..BOXED })).unwrap();
    assert!(ruled.starts_with("+-------+-------+-------+\r\n| 5 3 . | . 7 . | . . . |\r\n| 6 . . | 1 9 5 | . . . |\r\n"));
    assert_eq!(sheet(text.as_bytes()), Ok(of_text(text)));
    assert_eq!(sheet(ruled.as_bytes()), Ok(of_text(text)));
    assert_eq!(sheet(ruled.replace('.', "0").as_bytes()), Ok(of_text(text)));
    assert_eq!(sheet(ruled.replace("5 3", "5\n\n\n3").as_bytes()), Ok(of_text(text)));
    assert_eq!(sheet(ruled.replace('|', "/").as_bytes()), stop(2, 27));
    assert_eq!(sheet(ruled.replace("7 9 |", "7 - |").as_bytes()), stop(11, 80));
    assert_eq!(sheet(ruled.replace("7 9 |", "7 99 |").as_bytes()), stop(11, 82));
}

#[test]
fn sheets_refused() {
    assert_eq!(sheet(b""), stop(11, 0));
    for cells in [80, 82, 4096] {
        assert_eq!(sheet(&vec![b'.'; cells]), stop(11, cells as i64));
    }
    assert_eq!(sheet(&[b' '; 4096]), stop(11, 0));
    assert_eq!(sheet(&[b' '; 4097]), stop(10, 4097));
    assert_eq!(sheet(&[b'x'; 4097]), stop(10, 4097));
    assert_eq!(sheet(&[[b'.'; 81].as_slice(), &[b'\n'; 4015]].concat()), Ok(OPEN));
    assert_eq!(sheet(&[[b'.'; 81].as_slice(), b"\nx"].concat()), stop(2, 82));
    assert_eq!(sheet(&[[b'.'; 85].as_slice(), b"\nx"].concat()), stop(2, 86));
    assert_eq!(sheet(b" |x"), stop(2, 2));
}

#[test]
fn sheets_written() {
    let mut bad = OPEN;
    (bad[4], bad[80]) = (10, -1);
    let canonical = [".........\n456......\n789......\n", &".........\n".repeat(6)].concat();
    for (clues, lent, answer) in [(p10(), 0, stop(6, 0)), (p10(), 89, stop(6, 89)), (p10(), 90, Ok(90)), (p10(), 91, Ok(90)), (bad, 89, stop(6, 89)), (bad, 90, stop(3, 4))] {
        let mut expected = vec![b'x'; lent];
        if answer.is_ok() {
            expected[..90].copy_from_slice(canonical.as_bytes());
        }
        let (mut ours, mut theirs) = (vec![b'x'; lent], vec![b'x'; lent]);
        assert_eq!((sudoku_host::write_sheet(&clues, &mut ours), &ours), (answer, &expected));
        assert_eq!((plain::write_sheet(&clues, &mut theirs), &theirs), (answer.map(|written| written as usize), &expected));
    }
    assert_eq!(sheet(canonical.as_bytes()), Ok(p10()));
}

// ---- entries (document 02, F-6), on both sides

/// The board that a call leaves, or its stop, beside which the board is as it was.
fn called(board: &Board, call: Call) -> Result<Board, Stop> {
    let answer = called_by::<Plain>(board, call);
    assert_eq!(called_by::<Engine>(board, call), answer, "{call:?}");
    answer
}

fn called_by<S: Side>(board: &Board, call: Call) -> Result<Board, Stop> {
    let mut side = S::start(board);
    let answer = side.call(call);
    assert!(answer.is_ok() || side.board() == *board, "{call:?}");
    answer.map(|_| side.board())
}

fn played(board: &Board, calls: &[Call]) -> Board {
    calls.iter().fold(*board, |board, &call| called(&board, call).unwrap())
}

fn p5() -> Clues {
    let mut clues = of_text(GRID_A);
    clues[0] = 0;
    clues
}

/// Document 02, F-7: the same clues and masks as the fresh board, and another board.
#[test]
fn p5_with_its_cell_entered() {
    let fresh = fresh_board(&p5());
    let entered = played(&fresh, &[Call::Enter(0, 1)]);
    assert_eq!((entered.clues, entered.masks, entered.entries[0]), (fresh.clues, fresh.masks, 1));
    assert_eq!(entered.entries[1..], [0; 80]);
    assert_ne!(entered, fresh);
    assert_eq!(played(&entered, &[Call::RubOut(0)]), fresh);
    // the cell is not open any more: nothing is reported
    for number in [4, 5, 6] {
        for outcome in [Plain::start(&entered).call(Call::Step(number)), Engine::start(&entered).call(Call::Step(number))] {
            assert_eq!(outcome.map(|outcome| outcome.reports), Ok(Vec::new()), "step {number}");
        }
    }
    for asked in [Plain::ask(&entered, 0), Engine::ask(&entered, 0)] {
        assert_eq!((asked.clue_count, asked.verdict, asked.cell_mask), (Ok(80), Ok("finished"), Ok(1)));
        assert_eq!((asked.original_puzzle, asked.get_candidates), ((Ok(()), p5()), (Ok(()), fresh.masks)));
    }
    // another digit than the one that fits is taken too, and then the full grid does not pass the verifier
    let wrong = played(&fresh, &[Call::Enter(0, 2)]);
    assert_eq!((wrong.masks[0], wrong.masks[1..].to_vec()), (2, fresh.masks[1..].to_vec()));
    assert_eq!((plain::verdict(&wrong), sudoku_host::verdict(&wrong)), (Ok("dead"), Ok("dead")));
}

/// P11 with its second clue entered: the same masks, fresh and settled; and with both entered.
#[test]
fn an_entry_that_contradicts_a_clue() {
    let (mut one, mut two) = (OPEN, OPEN);
    one[0] = 5;
    (two[0], two[1]) = (5, 5);
    for (clues, calls) in [(one, &[Call::Enter(1, 5)][..]), (OPEN, &[Call::Enter(1, 5), Call::Enter(0, 5)])] {
        let entered = played(&fresh_board(&clues), calls);
        assert_eq!((entered.clues, entered.masks), (clues, fresh(&two)));
        let settled = played(&entered, &[Call::Step(12)]);
        assert_eq!((settled.masks, settled.entries), (step(12, &two, &fresh(&two)).unwrap().masks, entered.entries));
        assert_eq!(settled.masks[2..9], [0; 7]);
    }
}

/// P10's removals are gone again with the entering and with the rubbing out.
#[test]
fn entering_a_pass_and_rubbing_out() {
    let fresh = fresh_board(&p10());
    let removed_from = |board: &Board| removed(&board.masks, &played(board, &[Call::Step(2)]).masks);
    let entered = played(&fresh, &[Call::Step(2), Call::Enter(3, 1)]);
    let mut joint = p10();
    joint[3] = 1;
    assert_eq!((entered.clues, entered.masks), (p10(), plain::fresh(&joint)));
    assert_eq!((removed_from(&fresh), removed_from(&entered) > 0), (18, true));
    let after = played(&entered, &[Call::Step(2)]);
    assert_eq!((after.masks[3], after.entries), (1, entered.entries));
    assert_eq!(played(&after, &[Call::RubOut(3)]), fresh);
}

#[test]
fn lists_that_leave_the_same_entries() {
    let fresh = fresh_board(&p8());
    let one = played(&fresh, &[Call::Enter(0, 1), Call::Enter(40, 9), Call::RubOut(0), Call::Enter(80, 9)]);
    let two = played(&fresh, &[Call::Enter(80, 1), Call::RubOut(80), Call::Enter(80, 9), Call::Enter(40, 9)]);
    assert_eq!(one, two);
    assert_eq!(one, plain::afresh(&p8(), &one.entries));
}

/// Document 02, F-7: a list starts from "the fresh board of one clue grid with one set of entries". Its stops are 3, then 8, then the list's own.
#[test]
fn lists_run_from_clues_and_entries() {
    let mut entries = NO_ENTRIES;
    entries[80] = 1;
    let mut masks = [7; 81];
    assert_eq!(run(&[2, 4], &p10(), &entries, &mut masks), Ok(()));
    assert_eq!(masks, played(&fresh_board(&p10()), &[Call::Enter(80, 1), Call::Step(2), Call::Step(4)]).masks);
    let mut refused = |clues: &Clues, entries: &Entries, number, detail| {
        masks = [7; 81];
        assert_eq!((run(&[2, 255], clues, entries, &mut masks), masks), (stop(number, detail), [7; 81]));
    };
    refused(&p10(), &entries, 20, 1);
    entries[20] = 9;
    refused(&p10(), &entries, 8, 20);
    entries[20] = 10;
    refused(&OPEN, &entries, 8, 20);
    let mut clues = OPEN;
    clues[80] = -1;
    refused(&clues, &entries, 3, 80);
}

/// Each call has the board's stops, whatever else is wrong.
fn board_stopped(board: &Board, number: i64, detail: i64) {
    for call in [Call::Step(0), Call::Step(12), Call::Step(13), Call::Enter(81, 0), Call::Enter(40, 1), Call::RubOut(81), Call::RubOut(40)] {
        assert_eq!(called(board, call), stop(number, detail));
    }
    for asked in [Plain::ask(board, 81), Engine::ask(board, 81)] {
        assert_eq!((asked.clue_count, asked.verdict, asked.cell_mask), (stop(number, detail), stop(number, detail), stop(number, detail)));
        assert_eq!((asked.original_puzzle, asked.get_candidates), ((stop(number, detail), [7; 81]), (stop(number, detail), [7; 81])));
    }
    for write in [Plain::write, Engine::write] {
        let mut bytes = [7; 2];
        assert_eq!((write(board, &mut bytes), bytes), (stop(number, detail), [7; 2]));
    }
}

/// 3, then 8 with the first cell of either kind, then 9.
#[test]
fn boards_with_a_wrong_entry() {
    let mut board = fresh_board(&p10());
    board.masks[5] = 512;
    board_stopped(&board, 9, 5);
    board.entries[20] = 9; // the clue's own digit
    board_stopped(&board, 8, 20);
    for number in [10, -1, i32::MIN, i32::MAX, 256 + 1] {
        board.entries[70] = number;
        board_stopped(&board, 8, 20);
        board.entries[19] = number;
        board_stopped(&board, 8, 19);
        board.entries[0] = number;
        board_stopped(&board, 8, 0);
        (board.entries[0], board.entries[19]) = (0, 0);
    }
    board.clues[80] = 10;
    board_stopped(&board, 3, 80);
    board.clues[40] = -1;
    board_stopped(&board, 3, 40);
}

/// "stop 9 treat entries as clues": the entry's cell has its digit alone, and its peers have it not.
#[test]
fn boards_with_a_mask_that_an_entry_forbids() {
    let mut board = played(&fresh_board(&OPEN), &[Call::Enter(40, 7)]);
    board.masks[44] |= 64;
    board_stopped(&board, 9, 44);
    board.masks[40] = 0;
    board_stopped(&board, 9, 40);
    board.masks[40] = 511;
    board_stopped(&board, 9, 40);
    board = fresh_board(&OPEN);
    board.entries[40] = 7;
    board_stopped(&board, 9, 4);
}

/// "the order is 5, 4 (entering only), 12, 13"
#[test]
fn entries_refused() {
    let board = played(&fresh_board(&p10()), &[Call::Enter(40, 7), Call::Step(12)]);
    for (cell, digit, number, detail) in [
        (81, 10, 5, 81),
        (u32::MAX, 0, 5, 4_294_967_295),
        (256 + 40, 1, 5, 296),
        (9, 10, 4, 10),
        (40, 0, 4, 0),
        (0, i32::MIN, 4, -2_147_483_648),
        (0, -1, 4, -1),
        (9, 4, 12, 9),
        (20, 1, 12, 20),
        (40, 7, 13, 40),
        (40, 1, 13, 40),
    ] {
        assert_eq!(called(&board, Call::Enter(cell, digit)), stop(number, detail));
    }
    for (cell, number, detail) in [(81, 5, 81), (u32::MAX, 5, 4_294_967_295), (9, 12, 9), (0, 13, 0), (80, 13, 80)] {
        assert_eq!(called(&board, Call::RubOut(cell)), stop(number, detail));
    }
    assert_eq!(played(&board, &[Call::RubOut(40)]), fresh_board(&p10()));
}

// ---- records, on both sides

/// The board's record, and the board of the record; every length below it is stop 6.
fn written(board: &Board, record: &[u8]) {
    written_by::<Plain>(board, record);
    written_by::<Engine>(board, record);
}

fn written_by<S: Records>(board: &Board, record: &[u8]) {
    put(record, |lent| S::write(board, lent));
    let mut read = LENT_BOARD;
    assert_eq!(S::read(record, &mut read), Ok(record[0] as i64));
    assert_eq!(read, *board);
}

/// Bytes in every number of lent ones, up to two above the need.
fn put(bytes: &[u8], write: impl Fn(&mut [u8]) -> Result<i64, Stop>) {
    for length in 0..=bytes.len() + 2 {
        let mut lent = vec![7; length];
        let answer = write(&mut lent);
        if length < bytes.len() {
            assert_eq!((answer, lent), (stop(6, length as i64), vec![7; length]));
        } else {
            assert_eq!((answer, lent), (Ok(bytes.len() as i64), [bytes, &vec![7; length - bytes.len()]].concat()));
        }
    }
}

fn refused(record: &[u8], number: i64, detail: i64) {
    refused_by::<Plain>(record, number, detail);
    refused_by::<Engine>(record, number, detail);
}

fn refused_by<S: Records>(record: &[u8], number: i64, detail: i64) {
    let mut board = LENT_BOARD;
    assert_eq!(S::read(record, &mut board), stop(number, detail), "{record:?}");
    assert_eq!(board, LENT_BOARD, "{record:?}");
    let mut lent = [7; 3];
    assert_eq!((S::moved(true, record, &mut lent), lent), (stop(number, detail), [7; 3]), "{record:?}");
}

/// "P1 gives 00 00 00 00."
#[test]
fn records_written() {
    written(&fresh_board(&OPEN), &[0, 0, 0, 0]);
    let clues = [9, 4, 10, 5, 11, 6, 18, 7, 19, 8, 20, 9];
    let removed: Vec<u8> = (3..9).flat_map(|cell| [cell, 1, cell, 2, cell, 3]).collect();
    written(&played(&fresh_board(&p10()), &[Call::Step(2)]), &[&[6][..], &clues, &[0, 18, 0], &removed].concat());
    let removed: Vec<u8> = (0..81).flat_map(|cell| (1..=9).flat_map(move |digit| [cell, digit])).collect();
    written(&Board::without_entries(&OPEN, &[0; 81]), &[&[0, 0, 0xD9, 0x02][..], &removed].concat());
    let (mut clues, mut masks) = (OPEN, [511; 81]);
    (clues[0], clues[1]) = (5, 5);
    (2..9).chain([9, 10, 11, 18, 19, 20]).chain((27..81).step_by(9)).chain((28..81).step_by(9)).for_each(|cell| masks[cell] = 511 - 16);
    (masks[0], masks[1]) = (16, 16);
    written(&Board::without_entries(&clues, &masks), &[2, 0, 5, 1, 5, 0, 0, 0]);
    masks[80] = 255;
    written(&Board::without_entries(&clues, &masks), &[2, 0, 5, 1, 5, 0, 1, 0, 80, 9]);
}

/// "an entry section of the same form, then the removed section measured from the fresh board with its entries"
#[test]
fn records_of_boards_with_entries() {
    let entered = played(&fresh_board(&OPEN), &[Call::Enter(80, 1), Call::Enter(0, 9)]);
    written(&entered, &[0, 2, 0, 9, 80, 1, 0, 0]);
    let mut board = entered;
    board.masks[40] = 511 - 16;
    written(&board, &[0, 2, 0, 9, 80, 1, 1, 0, 40, 5]);
    // 5 beside a 5: both are taken, and nothing is removed
    let mut clues = OPEN;
    clues[0] = 5;
    written(&played(&fresh_board(&clues), &[Call::Enter(1, 5)]), &[1, 0, 5, 1, 1, 5, 0, 0]);
    let all: Vec<u8> = (0..81).flat_map(|cell| [cell, 7]).collect();
    let every: Vec<Call> = (0..81).map(|cell| Call::Enter(cell, 7)).collect();
    written(&played(&fresh_board(&OPEN), &every), &[&[0, 81][..], &all, &[0, 0]].concat());
    // P5's two boards, equal but for the entry
    let fresh = fresh_board(&p5());
    let (mut one, mut two) = ([7; 200], [7; 200]);
    assert_eq!(Engine::write(&fresh, &mut one), Ok(164));
    assert_eq!(Engine::write(&played(&fresh, &[Call::Enter(0, 1)]), &mut two), Ok(166));
}

/// The board's 3, then its 9, then the lent bytes' 6.
#[test]
fn records_not_written() {
    let mut board = fresh_board(&p10());
    let refused = |board: &Board, lent: usize, number: i64, detail: i64| {
        for write in [Plain::write, Engine::write] {
            let mut bytes = vec![7; lent];
            assert_eq!(write(board, &mut bytes), stop(number, detail));
            assert!(bytes.iter().all(|&byte| byte == 7));
        }
    };
    refused(&board, 15, 6, 15);
    (board.masks[30], board.masks[20]) = (512, 0);
    refused(&board, 15, 9, 20);
    refused(&board, 60, 9, 20);
    board.entries[20] = 1;
    refused(&board, 15, 8, 20);
    board.clues[80] = 10;
    refused(&board, 15, 3, 80);
}

#[test]
fn records_with_bytes_missing_or_left_over() {
    refused(&[], 7, 0);
    refused(&[1], 7, 1);
    refused(&[1, 81], 7, 2); // a cell without its digit is no whole entry
    refused(&[255], 7, 1);
    refused(&[0], 7, 1);
    refused(&[0, 0], 7, 2);
    refused(&[0, 0, 0], 7, 3); // the old form
    refused(&[1, 0, 1], 7, 3);
    refused(&[1, 0, 1, 0], 7, 4);
    refused(&[1, 0, 1, 0, 0], 7, 5);
    refused(&[0, 1], 7, 2);
    refused(&[0, 1, 81], 7, 3);
    refused(&[0, 1, 0, 1, 0], 7, 5);
    refused(&[0, 255, 0], 7, 3);
    refused(&[0, 0, 1, 0], 7, 4);
    refused(&[0, 0, 0, 1], 7, 4);
    refused(&[0, 0, 1, 0, 81], 7, 5);
    refused(&[0, 0, 2, 0, 4, 4], 7, 6);
    refused(&[0, 0, 0, 0, 9], 7, 4);
    refused(&[0, 0, 0, 0, 0, 0, 0], 7, 4);
    refused(&[1, 0, 1, 0, 0, 0, 5, 5], 7, 6);
    refused(&[0, 0, 1, 0, 4, 4, 4], 7, 6);
    refused(&[0, 1, 4, 4, 0, 0, 9], 7, 6);
}

#[test]
fn records_with_a_wrong_entry() {
    for (cell, digit) in [(81, 1), (255, 1), (0, 0), (0, 10), (81, 0)] {
        refused(&[1, cell, digit, 0, 0, 0], 8, 1);
        refused(&[0, 1, cell, digit, 0, 0], 8, 2);
        refused(&[0, 0, 1, 0, cell, digit], 8, 4);
    }
    refused(&[2, 0, 1, 81, 1, 0, 0, 0], 8, 3);
    refused(&[2, 4, 1, 3, 2, 0, 0, 0], 8, 3);
    refused(&[2, 3, 1, 3, 2, 0, 0, 0], 8, 3);
    refused(&[2, 3, 1, 3, 1, 0, 0, 0], 8, 3);
    refused(&[0, 2, 4, 1, 3, 2, 0, 0], 8, 4);
    refused(&[0, 2, 3, 1, 3, 2, 0, 0], 8, 4);
    refused(&[0, 0, 2, 0, 5, 1, 4, 9], 8, 6);
    refused(&[0, 0, 2, 0, 4, 5, 4, 3], 8, 6);
    refused(&[0, 0, 2, 0, 4, 4, 4, 4], 8, 6);
    let all: Vec<u8> = (0..81).flat_map(|cell| [cell, 1]).collect();
    refused(&[&[82][..], &all, &[80, 2, 0, 0, 0]].concat(), 8, 163);
    refused(&[&[0, 82][..], &all, &[80, 2, 0, 0]].concat(), 8, 164);
}

/// "01's 8 also covers an entry on a clue cell", whatever its digit; a cell that falls is told before.
#[test]
fn records_with_an_entry_on_a_clue() {
    refused(&[1, 3, 1, 1, 3, 1, 0, 0], 8, 4);
    refused(&[1, 3, 1, 1, 3, 9, 0, 0], 8, 4);
    refused(&[1, 3, 1, 2, 2, 5, 3, 9, 0, 0], 8, 6);
    refused(&[2, 3, 1, 80, 1, 1, 80, 2, 0, 0], 8, 6);
}

/// The clue 1 in cell 0: cells 1, 72 and 20 of its row, column and box cannot lose a 1, and itself loses nothing; and likewise of an entry.
#[test]
fn records_with_a_wrong_removal() {
    for (cell, digit) in [(1, 1), (72, 1), (20, 1), (0, 1), (0, 2)] {
        refused(&[1, 0, 1, 0, 1, 0, cell, digit], 9, 6);
        refused(&[0, 1, 0, 1, 1, 0, cell, digit], 9, 6);
    }
    refused(&[1, 0, 1, 0, 2, 0, 1, 2, 2, 1], 9, 8);
    refused(&[0, 1, 0, 1, 2, 0, 1, 2, 2, 1], 9, 8);
}

/// "checked front to back"
#[test]
fn records_with_two_faults() {
    refused(&[1, 81, 1], 8, 1);
    refused(&[2, 81, 1, 0, 1], 8, 1);
    refused(&[1, 0, 1, 1, 0, 2, 9], 8, 4);
    refused(&[1, 0, 1, 0, 2, 0, 1, 1, 81, 9], 9, 6);
    refused(&[1, 0, 1, 0, 2, 0, 2, 2, 1, 1], 8, 8);
    refused(&[1, 0, 1, 0, 1, 0, 1, 1, 7], 9, 6);
}

// ---- records moved

fn moved<S: Records>(old: &[u8], new: &[u8]) {
    put(new, |lent| S::moved(false, old, lent));
    put(old, |lent| S::moved(true, new, lent));
}

/// "An old record moves to the new form with an entry count of 0, and back to the same bytes."
#[test]
fn records_moved() {
    let clues = [9, 4, 10, 5, 11, 6, 18, 7, 19, 8, 20, 9];
    let removed: Vec<u8> = (3..9).flat_map(|cell| [cell, 1, cell, 2, cell, 3]).collect();
    let every: Vec<u8> = (0..81).flat_map(|cell| (1..=9).flat_map(move |digit| [cell, digit])).collect();
    for (first, last) in [(vec![0], vec![0, 0]), ([&[6][..], &clues].concat(), [&[18, 0][..], &removed].concat()), (vec![0], [&[0xD9, 0x02][..], &every].concat())] {
        let (old, new) = ([&first[..], &last].concat(), [&first[..], &[0], &last].concat());
        moved::<Plain>(&old, &new);
        moved::<Engine>(&old, &new);
    }
}

/// The old form's own stops; then 14 "after the record has been read and before 01's 6".
#[test]
fn records_not_moved() {
    for moved in [Plain::moved, Engine::moved] {
        let refused = |back: bool, record: &[u8], lent: usize, number: i64, detail: i64| {
            let mut bytes = vec![7; lent];
            assert_eq!((moved(back, record, &mut bytes), bytes), (stop(number, detail), vec![7; lent]), "{record:?}");
        };
        for lent in [0, 3, 9, 20] {
            refused(false, &[0, 0], lent, 7, 2);
            refused(false, &[0, 0, 0, 0], lent, 7, 3); // the new form
            refused(false, &[1, 81, 1, 0, 0], lent, 8, 1);
            refused(false, &[1, 0, 1, 1, 0, 0, 2], lent, 9, 5);
            refused(true, &[0, 1, 80, 1, 0, 0], lent, 14, 1);
            refused(true, &[2, 0, 5, 1, 5, 1, 80, 1, 0, 0], lent, 14, 5);
            refused(true, &[0, 1, 80, 1, 0, 0, 0], lent, 7, 6);
            refused(true, &[0, 1, 80, 1, 1, 0, 80, 2], lent, 9, 6);
        }
    }
}

fn trial_round(start: u32, percentage: u32, solution: &Clues) -> Result<Clues, Stop> {
    let mut clues = [7; 81];
    let ours = sudoku_host::trial_round(start, percentage, solution, &mut clues);
    let expected = plain::trial_round(start, percentage, solution);
    assert_eq!(ours, expected.map(|clues| clues.iter().filter(|&&clue| clue != 0).count() as i64));
    assert_eq!(clues, expected.unwrap_or([7; 81]));
    expected
}

#[test]
fn trial_rounds() {
    let solution = of_text(GRID_A);
    for start in [0, 1, 2_147_483_648, u32::MAX] {
        assert_eq!(trial_round(start, 0, &solution), Ok(OPEN));
        assert_eq!(trial_round(start, 100, &solution), Ok(solution));
    }
    // 12345 / 65536 is 0, and the next move goes to 1406932606: 21468, that is 68
    let round = trial_round(0, 68, &solution).unwrap();
    assert_eq!((round[0], round[1]), (1, 0));
    assert_eq!(trial_round(0, 69, &solution).unwrap()[1], 2);
    assert_eq!(trial_round(2_147_483_648, 30, &solution), trial_round(0, 30, &solution));
    assert_ne!(trial_round(u32::MAX, 30, &solution), trial_round(0, 30, &solution));
    assert_eq!(trial_round(0, 101, &OPEN), stop(17, 101));
    assert_eq!(trial_round(0, u32::MAX, &solution), stop(17, 4_294_967_295));
    assert_eq!(trial_round(0, 100, &OPEN), stop(18, 0));
}

// ---- document 02, F-13

fn turned(clues: &Clues) -> Clues {
    std::array::from_fn(|cell| clues[9 * (cell % 9) + cell / 9])
}

/// Rows with columns exchanged, a grid settles in three sweeps where it took two, to the same masks turned.
fn sweeps_in_other_clothes<S: Side>() {
    let clues = of_text(CLOTHED);
    let settled = |clues: &Clues| stepped_by::<S>(12, clues, &fresh(clues)).unwrap();
    let (one, two) = (settled(&clues), settled(&turned(&clues)));
    assert_eq!((one.sweeps, two.sweeps, one.removed), (2, 3, two.removed));
    assert_eq!(std::array::from_fn(|cell| one.masks[9 * (cell % 9) + cell / 9]), two.masks);
}

const CLOTHED: &str = "..3.19...8..36249......8.........63.....9.....8..2...914.......5..2....4.329....7";

#[test]
fn f13_sweeps_may_differ() {
    sweeps_in_other_clothes::<Plain>();
    sweeps_in_other_clothes::<Engine>();
}

/// Grid A with cells 1 and 9 open: 2 in cell 1, then 4 in cell 9; turned, 4 in cell 1, then 2 in cell 9.
#[test]
fn f13_order_of_reports_may_differ() {
    let mut clues = of_text(GRID_A);
    (clues[1], clues[9]) = (0, 0);
    let reports = |clues: &Clues| stepped_by::<Engine>(4, clues, &fresh(clues)).unwrap().reports;
    assert_eq!(reports(&clues), [(1, 2), (9, 4)]);
    assert_eq!(reports(&turned(&clues)), [(1, 4), (9, 2)]);
}

// ---- document 02, F-10

/// The checker on a board, engine and plain: the board that comes back.
fn checked(board: &Board, list: &[u8]) -> Result<Board, Stop> {
    let mut left = *board;
    let ours = sudoku_host::check_steps(list, &mut left);
    let expected = step_lists::check_steps(board, list);
    assert_eq!((ours, left), (expected.map(drop), expected.unwrap_or(*board)), "{list:?}");
    expected
}

/// P10: 1, 2 and 3 stand in row 0 alone of the first box, and Pointing takes each from six cells of that row.
const P10_STEPS: [[u8; 6]; 3] = [[3, 18, 1, 0, 0, 0], [3, 18, 2, 0, 0, 0], [3, 18, 3, 0, 0, 0]];

/// Settling with its list, engine and plain; it answers and leaves what step 12 does.
fn settled(board: &Board) -> Result<(Outcome, Vec<u8>), Stop> {
    let ours = engine_settles(board);
    assert_eq!(ours, plain::settle(board));
    assert_eq!(ours.clone().map(|(outcome, _)| outcome), Plain::start(board).call(Call::Step(12)));
    ours
}

#[test]
fn f10_settling_tells_its_steps() {
    let board = fresh_board(&p10());
    let (outcome, list) = settled(&board).unwrap();
    assert_eq!((outcome.sweeps, outcome.removed, &list), (2, 18, &P10_STEPS.concat()));
    // from the middle: what was done before is no step of this list
    let [one, two, three] = P10_STEPS;
    let middle = checked(&board, &two).unwrap();
    assert_eq!(settled(&middle).unwrap().1, [one, three].concat());
    let last = Board { masks: outcome.masks, ..board };
    assert_eq!(settled(&last).unwrap().1, []);
    assert_eq!(settled(&fresh_board(&OPEN)).unwrap().1, []);
    assert_eq!(checked(&fresh_board(&OPEN), &[]), Ok(fresh_board(&OPEN)));
    for text in PUBLISHED {
        let board = fresh_board(&of_text(text));
        let (outcome, list) = settled(&board).unwrap();
        assert_eq!(checked(&board, &list), Ok(Board { masks: outcome.masks, ..board }));
    }
}

/// Beside a stop everything that was lent keeps its contents.
#[test]
fn f10_settling_that_is_refused() {
    let board = fresh_board(&p10());
    let mut low = board;
    low.clues[80] = -1;
    assert_eq!(settled(&low), stop(3, 80));
    let mut entered = board;
    entered.entries[9] = 1;
    assert_eq!(settled(&entered), stop(8, 9));
    let mut more = board;
    more.masks[3] = 1023;
    assert_eq!(settled(&more), stop(9, 3));
}

#[test]
fn f10_steps_that_are_refused() {
    let board = fresh_board(&p10());
    let [one, two, three] = P10_STEPS;
    // any order will do, but each step once; the masks that are handed in are checked and play no other part
    assert!(checked(&board, &[three, one, two].concat()).is_ok());
    assert_eq!(checked(&board, &[one, two, two].concat()), stop(15, 2));
    let settled = checked(&board, &[one, two, three].concat()).unwrap();
    assert_eq!(checked(&settled, &[one, two, three].concat()), Ok(settled));
    assert_eq!(checked(&settled, &[]), Ok(board));
    // a shorter last piece, a zero that is none, a place for a cell, a line that does not meet the box, a digit 0, a kind past the last
    for bad in [&one[..5], &[3, 18, 1, 0, 0, 1], &[3, 18, 1, 3, 0, 0], &[3, 0, 1, 0, 0, 0], &[3, 18, 0, 0, 0, 0], &[3, 18, 10, 0, 0, 0], &[7, 18, 1, 0, 0, 0]] {
        assert_eq!(checked(&board, bad), stop(15, 0), "{bad:?}");
        assert_eq!(checked(&board, &[&one, bad].concat()), stop(15, 1), "{bad:?}");
    }
    // 16 before any step, counted with a shorter last piece; before it the board's own stops
    for (bytes, steps) in [(6 * 729 + 1, 730), (6 * 730, 730), (6 * 730 + 5, 731)] {
        assert_eq!(checked(&board, &vec![9; bytes]), stop(16, steps));
        let mut low = board;
        low.clues[80] = -1;
        assert_eq!(checked(&low, &vec![9; bytes]), stop(3, 80));
    }
    assert_eq!(checked(&board, &[9; 6 * 729]), stop(15, 0));
    let mut more = board;
    more.masks[3] = 1023;
    assert_eq!(checked(&more, &[]), stop(9, 3));
}

/// Every kind by hand: cells by their own numbers and not by their places in a unit, and columns first in the exchanged Cross.
#[test]
fn f10_one_step_of_each_kind() {
    let row = with(&[(0, "...456789")]);
    let mut ones = OPEN;
    for cell in [3, 15, 27, 55] {
        ones[cell] = 1;
    }
    let crossed = with(&[(0, ".234.5678"), (4, ".567.8234")]);
    let good: [(Clues, [u8; 6]); 7] = [
        (with(&[(0, "12345678.")]), [0, 8, 9, 0, 0, 0]),
        (ones, [1, 18, 1, 20, 0, 0]),
        (p8(), [2, 0, 0, 1, 1, 2]),
        (p10(), [3, 18, 1, 0, 0, 0]),
        (row, [4, 0, 1, 18, 0, 0]),
        (crossed, [5, 1, 0, 4, 9, 13]),
        (turned(&crossed), [6, 1, 9, 13, 0, 4]),
    ];
    for (clues, step) in good {
        assert!(checked(&fresh_board(&clues), &step).is_ok(), "{step:?}");
    }
    // cell 20 has place 8 in its box; cells and digits rise; rows come first in kind 5 and columns in kind 6; a condition that does not hold
    let bad: [(Clues, [u8; 6]); 8] = [
        (ones, [1, 18, 1, 8, 0, 0]),
        (ones, [1, 18, 1, 11, 0, 0]),
        (p8(), [2, 0, 1, 0, 1, 2]),
        (p8(), [2, 0, 0, 1, 2, 1]),
        (row, [4, 0, 1, 21, 0, 0]),
        (turned(&crossed), [6, 1, 0, 4, 9, 13]),
        (turned(&crossed), [5, 1, 9, 13, 0, 4]),
        (crossed, [6, 1, 9, 13, 0, 4]),
    ];
    for (clues, step) in bad {
        assert_eq!(checked(&fresh_board(&clues), &step), stop(15, 0), "{step:?}");
    }
}

// ---- F-14: the difficulty figure

/// The figure on the engine and on the plain implementation.
fn rated(board: &Board) -> Result<Difficulty, Stop> {
    let ours = sudoku_host::difficulty(board);
    assert_eq!(ours, plain::difficulty(board));
    ours
}

#[test]
fn f14_p10_has_54_points_over_75_cells() {
    let board = fresh_board(&p10());
    for counts in [engine_counts(&board), plain::pass_counts(&board)] {
        assert_eq!(counts, Ok([0, 0, 0, 18, 0, 0]));
    }
    let figure = Difficulty { quotient: 0, remainder: 54, cells: 75 };
    assert_eq!(rated(&board), Ok(figure));
    // the handed masks are checked and play no other part
    let settled = Board { masks: step(12, &board.clues, &board.masks).unwrap().masks, ..board };
    assert_eq!((engine_counts(&settled), rated(&settled)), (Ok([0; 6]), Ok(figure)));
    assert_eq!(rated(&fresh_board(&OPEN)), Ok(Difficulty { quotient: 0, remainder: 0, cells: 81 }));
}

/// The steps of this grid by hand: Place removes 10, Pair 2, Pointing 2, Claiming 4, Cross 7 and Lone 4, which is 92 points over 53 cells.
#[test]
fn f14_every_pass_has_its_points() {
    let rows = ["8...2.6.9", "...36....", "......5.3", ".9.63...4", "......96.", ".4...7...", "3..4...5.", "..6.7.3.2", ".1.283..6"];
    let board = fresh_board(&of_text(&rows.concat()));
    assert_eq!((engine_counts(&board), plain::pass_counts(&board)), (Ok([4, 10, 2, 2, 4, 7]), Ok([4, 10, 2, 2, 4, 7])));
    assert_eq!(rated(&board), Ok(Difficulty { quotient: 1, remainder: 39, cells: 53 }));
}

/// 19 after the board's own stops, and before settling; an entry's cell is not open.
#[test]
fn f14_no_open_cell() {
    let mut board = fresh_board(&of_text(GRID_A));
    assert_eq!(rated(&board), stop(19, 0));
    board.clues[0] = 0;
    assert_eq!(rated(&board), Ok(Difficulty { quotient: 0, remainder: 0, cells: 1 }));
    let mut entered = NO_ENTRIES;
    entered[0] = 2;
    board = plain::afresh(&board.clues, &entered);
    assert_eq!(rated(&board), stop(19, 0));
    let mut more = board;
    more.masks[3] = 1023;
    assert_eq!(rated(&more), stop(9, 3));
    more.entries[1] = 1;
    assert_eq!(rated(&more), stop(8, 1));
    more.clues[80] = 10;
    assert_eq!(rated(&more), stop(3, 80));
}
