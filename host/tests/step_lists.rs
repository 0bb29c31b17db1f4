//! Settling's step list in the second implementation (document 02, F-10): plain.rs logs it in the loops of its passes; here it is held to the
//! instances taken one by one and to the checker.

use sudoku_host::plain;
use sudoku_host::random::Random;
use sudoku_host::step_cases::{is_fresh, reached, to_settle};
use sudoku_host::step_lists::{check_steps, settled_by};
use sudoku_host::Board;

#[test]
fn plain_lists_are_those_of_the_instances() {
    let (mut fresh, mut steps) = (0, 0);
    for case in 0..300 {
        let board = reached(&to_settle(&mut Random::of_case(10, case)));
        let Ok((outcome, list)) = plain::settle(&board) else { continue };
        let last = Board { masks: outcome.masks, ..board };
        assert_eq!(settled_by(&board), (list.clone(), last), "{board:?}");
        // each step removes something
        assert!(list.len() % 6 == 0 && list.len() / 6 <= outcome.removed, "{board:?}");
        steps += list.len() / 6;
        if is_fresh(&board) {
            assert_eq!(check_steps(&board, &list), Ok(last), "{board:?}");
            fresh += 1;
        }
    }
    assert!(fresh > 50 && steps > 3_000, "{fresh} fresh boards, {steps} steps");
}
