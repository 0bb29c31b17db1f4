//! The names, numbers and words of the types, held to include/sudoku.h.

use std::fmt::Debug;

use sudoku::calls::{RawStop, SetCall, MOST_SHEET, MOST_STEPS, RECORD, SHEET, STEP_BYTES, TEXT};
use sudoku::{Step, StepNumber, Stop, Verdict};

const HEADER: &str = include_str!("../../include/sudoku.h");

/// A member of an enum of the header: `SUDOKU_STOP_CLUE_CELL = 12, /* the cell has a clue: the cell */`, as `ClueCell`, 12 and the comment.
struct Member {
    name: String,
    number: i64,
    comment: String,
}

/// The members of an enum, which begin with the prefix.
fn members(of: &str, prefix: &str) -> Vec<Member> {
    let body = HEADER.split_once(&format!("enum {of} {{")).unwrap().1.split_once("};").unwrap().0;
    body.split(prefix).skip(1).map(member).collect()
}

fn member(text: &str) -> Member {
    let (name, rest) = text.split_once(" = ").unwrap();
    let number: String = rest.chars().take_while(|&character| character == '-' || character.is_ascii_digit()).collect();
    let comment = rest.split_once("/*").map_or("", |(_, comment)| comment.split_once("*/").unwrap().0);
    Member {
        name: name.split('_').map(|word| word[..1].to_string() + &word[1..].to_lowercase()).collect(),
        number: number.parse().unwrap(),
        comment: comment.split_whitespace().collect::<Vec<_>>().join(" "),
    }
}

/// Names and numbers alone.
fn numbered(of: &str, prefix: &str) -> Vec<(String, i64)> {
    members(of, prefix).into_iter().map(|member| (member.name, member.number)).collect()
}

/// The name of a variant, without its parts.
fn variant(value: impl Debug) -> String {
    format!("{value:?}").chars().take_while(char::is_ascii_alphanumeric).collect()
}

#[test]
fn sizes() {
    let header = numbered("sudoku_size", "SUDOKU_");
    for (name, size) in [("Text", TEXT), ("Sheet", SHEET), ("MostSheet", MOST_SHEET), ("Record", RECORD), ("StepBytes", STEP_BYTES), ("MostSteps", MOST_STEPS)]
    {
        assert!(header.contains(&(name.to_string(), size as i64)), "{name}");
    }
}

#[test]
fn step_numbers() {
    assert_eq!(numbered("sudoku_step_number", "SUDOKU_STEP_"), StepNumber::ALL.map(|number| (variant(number), number as i64)));
    assert_eq!(StepNumber::try_from(15), Ok(StepNumber::XChain));
    assert_eq!(StepNumber::try_from(16), Err(Stop::NoNumber(16)));
}

#[test]
fn verdicts() {
    let verdicts = [Verdict::Dead, Verdict::Finished, Verdict::Open];
    assert_eq!(numbered("sudoku_verdict", "SUDOKU_VERDICT_"), verdicts.map(|verdict| (variant(verdict), verdict as i64)));
}

#[test]
fn calls_of_the_set() {
    use SetCall::*;
    let calls = [New, Full, Single, Contains, Insert, Remove, Clear, Len, IsEmpty, SingleCandidate, Iter];
    assert_eq!(numbered("sudoku_set_call", "SUDOKU_SET_"), calls.map(|call| (variant(call), call as i64)));
}

#[test]
fn kinds_of_steps() {
    let steps =
        [[0, 0, 1, 0, 0, 0], [1, 0, 1, 0, 0, 0], [2, 0, 0, 1, 1, 2], [3, 18, 1, 0, 0, 0], [4, 0, 1, 18, 0, 0], [5, 1, 0, 1, 9, 10], [6, 1, 9, 10, 0, 1]];
    assert_eq!(numbered("sudoku_kind", "SUDOKU_KIND_"), steps.map(|six| (variant(Step::from_bytes(six).unwrap()), six[0].into())));
}

/// What a comment says of a stop, as it is written with 7 beside it: `WORDS: WHAT` is `WORDS (WHAT: 7)`.
fn said(number: i64, words: &str, seven: &str) -> String {
    let (words, beside) = words.rsplit_once(": ").unwrap();
    if beside == "0" {
        return format!("stop {number}: {words}");
    }
    format!("stop {number}: {words} ({beside}: {seven})")
}

#[test]
fn stops() {
    let at_cell = ["BadClue", "BadEntry", "BadMask", "ClueCell", "Entered"];
    let mut seen = 0;
    for Member { name, number, comment } in members("sudoku_stop", "SUDOKU_STOP_") {
        if number == 0 {
            continue;
        }
        let stop = Stop::from(RawStop { number, detail: 7 });
        let (words, _) = comment.split_once(". In a record, ").unwrap_or((&comment, ""));
        let words = words.trim_start_matches("sudoku_run: ");
        assert_eq!((variant(stop), stop.number()), (name.clone(), number));
        assert_eq!(stop.to_string(), said(number, words, if at_cell.contains(&name.as_str()) { "r1c8" } else { "7" }));
        assert_eq!(stop.detail(), if matches!(stop, Stop::BadSolution | Stop::NoOpenCell) { 0 } else { 7 });
        seen += 1;
    }
    assert_eq!(seen, 21);
}

#[test]
fn stops_in_a_record() {
    for (stop, number) in [(Stop::RecordEntry(7), 8), (Stop::RecordRemoval(7), 9)] {
        let comment = members("sudoku_stop", "SUDOKU_STOP_").into_iter().find(|member| member.number == number).unwrap().comment;
        let (_, words) = comment.split_once(". In a record, ").unwrap();
        assert_eq!(stop.to_string(), said(number, &format!("in a record, {words}"), "7"));
        assert_eq!((stop.number(), stop.detail()), (number, 7));
    }
}

#[test]
fn what_is_no_stop() {
    for (number, detail) in [(0, 0), (21, 5), (12, 81), (5, -1), (4, 1 << 40)] {
        let raw = RawStop { number, detail };
        assert_eq!(Stop::from(raw), Stop::Unknown(raw));
        assert_eq!((Stop::from(raw).number(), Stop::from(raw).detail()), (number, detail));
    }
}
