//! The X-chain pass (document 02, F-9): it costs no filling, and chains by hand.

use sudoku_host::random::Random;
use sudoku_host::sides::{Call, Engine, Plain, Side, SETTLING, X_CHAIN};
use sudoku_host::{grids, plain, Board, Clues, Masks, NO_ENTRIES};

/// Both sides on one board.
fn both(board: &Board) -> Masks {
    let call = Call::Step(X_CHAIN);
    let (ours, theirs) = (Engine::start(board).call(call), Plain::start(board).call(call));
    assert_eq!(ours, theirs, "{board:?}");
    let outcome = ours.unwrap();
    assert_eq!(outcome.flag, outcome.masks != board.masks);
    outcome.masks
}

/// A board whose masks hold the filling, with other candidates gone so that strong links stand on it.
fn holding(random: &mut Random, filling: &Clues) -> Board {
    let clues = grids::blanked(random, filling, 5, 40);
    let mut board = plain::afresh(&clues, &NO_ENTRIES);
    let gone = *random.pick(&[0, 20, 40, 55, 65]);
    for cell in 0..81 {
        for digit in (1..=9).filter(|&digit| digit != filling[cell]) {
            if clues[cell] == 0 && random.percent(gone) {
                board.masks[cell] &= !plain::bit(digit);
            }
        }
    }
    board
}

#[test]
fn no_filling_is_lost() {
    let mut removed = 0;
    for case in 0..10_000 {
        let random = &mut Random::of_case(24, case);
        let filling = grids::filling(random);
        let board = holding(random, &filling);
        let left = both(&board);
        for cell in 0..81 {
            assert_ne!(left[cell] & plain::bit(filling[cell]), 0, "case {case}, cell {cell}");
        }
        removed += plain::candidates(&board.masks) - plain::candidates(&left);
    }
    assert!(removed > 10_000, "only {removed} candidates were removed");
}

/// An open grid of which only these cells hold the digit 1.
fn held_by(cells: &[usize]) -> Board {
    let mut board = plain::afresh(&[0; 81], &NO_ENTRIES);
    for cell in (0..81).filter(|cell| !cells.contains(cell)) {
        board.masks[cell] &= !1;
    }
    board
}

fn losers(cells: &[usize]) -> Vec<usize> {
    let board = held_by(cells);
    let left = both(&board);
    (0..81).filter(|&cell| left[cell] != board.masks[cell]).collect()
}

/// Strong in row 0, cells 0 and 4, and in row 4, cells 37 and 40; weak in column 4, which three cells hold. The cells that see both 0 and 37 lose the digit; other units have no two holders.
#[test]
fn a_chain_of_four() {
    assert_eq!(losers(&[0, 4, 10, 19, 27, 37, 40, 45, 76]), [10, 19, 27, 45]);
}

/// A cell that sees one end alone keeps the digit, and so do the ends.
#[test]
fn both_ends_are_seen() {
    assert!(losers(&[0, 4, 37, 40]).is_empty());
    assert!(losers(&[0, 4, 9, 18, 37, 40]).is_empty());
}

/// Why lists with this pass are left out where settled boards are compared: a settled board loses a candidate to an X-chain, and the filling stays.
#[test]
fn a_settled_board_can_lose_more() {
    let filling = grids::of_text("849763521273518649165429378718354962526971483934286157682195734351847296497632815");
    let clues = plain::trial_round(3_703_510_967, 42, &filling).unwrap();
    let mut board = plain::afresh(&clues, &NO_ENTRIES);
    board.masks = plain::step(SETTLING, &board).unwrap().masks;
    let left = both(&board);
    assert_ne!(left, board.masks);
    let again = plain::step(SETTLING, &Board { masks: left, ..board }).unwrap();
    assert_ne!(again.masks, board.masks);
    assert!((0..81).all(|cell| again.masks[cell] & plain::bit(filling[cell]) != 0));
}
