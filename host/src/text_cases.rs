//! Texts and sheets to be written and inputs of the card, and what is asked of them.

use crate::cases::Case;
use crate::random::Random;
use crate::shrink::{changed, Smaller};
use crate::sides::{BEHIND, LENT_BYTE};
use crate::{grids, plain, Clues, Stop};

// ---- texts and canonical sheets

/// How many bytes are lent to a writer: from 0 to 100.
pub const LENGTHS: std::ops::RangeInclusive<usize> = 0..=100;

/// A writer of 81 clues on both sides, how many bytes it writes, and the engine's reader of them.
pub struct Writer {
    first: fn(&Clues, &mut [u8]) -> Result<i64, Stop>,
    second: fn(&Clues, &mut [u8]) -> Result<usize, Stop>,
    bytes: usize,
    read: fn(&[u8], &mut Clues) -> Result<i64, Stop>,
}

pub const TEXTS: Writer = Writer { first: crate::write_text, second: plain::write_text, bytes: 81, read: crate::read };
pub const SHEETS: Writer = Writer { first: crate::write_sheet, second: plain::write_sheet, bytes: 90, read: crate::read_sheet };

/// Clues, and now and then numbers that are none.
pub fn text_case(random: &mut Random) -> Case {
    let mut case = Case::fresh(grids::clues(random), Vec::new());
    for _ in 0..*random.pick(&[0, 0, 1, 2]) {
        case.numbers.push((random.below(81), *random.pick(&[-1, 10, i32::MIN, i32::MAX, 256, 261, -65535])));
    }
    case
}

/// What is written into lent bytes of each length: the answer, every lent byte and those behind; and reading it gives the clues.
pub fn written_differs(writer: &Writer, case: &Case) -> Option<String> {
    let clues = case.board().clues;
    LENGTHS.into_iter().find_map(|length| {
        let (mut ours, mut theirs) = (vec![LENT_BYTE; length + BEHIND], vec![LENT_BYTE; length + BEHIND]);
        let answer = (writer.first)(&clues, &mut ours[..length]);
        let expected = (writer.second)(&clues, &mut theirs[..length]).map(|written| written as i64);
        let mut read = [7; 81];
        let mut returned = || answer.is_err() || (writer.read)(&ours[..writer.bytes], &mut read).is_ok() && read == clues;
        let alike = answer == expected && ours == theirs && returned();
        (!alike).then(|| format!("{length} bytes lent\n  first  {answer:?} {}\n  second {expected:?} {}", shown(&ours), shown(&theirs)))
    })
}

/// Lent bytes without those that hold at the end what they held before.
fn shown(bytes: &[u8]) -> String {
    let end = bytes.iter().rposition(|&byte| byte != LENT_BYTE).map_or(0, |last| last + 1);
    format!("\"{}\"", bytes[..end].escape_ascii())
}

// ---- cards

/// Bytes that are read: by the program, or as a sheet.
#[derive(Clone)]
pub struct Input(pub Vec<u8>);

impl std::fmt::Display for Input {
    fn fmt(&self, out: &mut std::fmt::Formatter) -> std::fmt::Result {
        writeln!(out, "input \"{}\"", self.0.escape_ascii())
    }
}

/// Mostly a grid's text; it and the others with ends of lines.
pub fn input(random: &mut Random) -> Input {
    let mut bytes = match random.below(10) {
        0 => (0..random.within(0, 200)).map(|_| random.next() as u8).collect(),
        1 => vec![*random.pick(b"1.a\n"); random.within(0, 5000)],
        2 | 3 => grids::text(random),
        _ => grid_text(random),
    };
    bytes.extend(*random.pick(&[&b""[..], b"", b"", b"\n", b"\n", b"\n", b"\n", b"\n\n", b"\r\n", b"\r"]));
    Input(bytes)
}

pub fn grid_text(random: &mut Random) -> Vec<u8> {
    let open = *random.pick(&[&b"."[..], b"0", b"0."]);
    grids::clues(random).iter().map(|&clue| if clue == 0 { *random.pick(open) } else { b'0' + clue as u8 }).collect()
}

impl Smaller for Input {
    fn smaller(&self) -> impl Iterator<Item = Self> {
        let halves = [self.0.len() / 2, 0].map(|length| changed(self, |less| less.0.truncate(length)));
        let halves = halves.into_iter().filter(|less| less.0.len() < self.0.len());
        let opened = (0..self.0.len()).filter(|&at| self.0[at] != b'.').map(|at| changed(self, |less| less.0[at] = b'.'));
        halves.chain((0..self.0.len()).map(|at| changed(self, |less| _ = less.0.remove(at)))).chain(opened)
    }
}

/// The card in the lent bytes, or the stop; every other byte keeps.
pub fn card_differs(input: &Input) -> Option<String> {
    let (mut ours, mut theirs) = ([LENT_BYTE; 256], [LENT_BYTE; 256]);
    let answer = crate::card(&input.0, &mut ours);
    let expected = plain::card(&input.0);
    if let Ok(card) = &expected {
        theirs[..card.len()].copy_from_slice(card.as_bytes());
    }
    let written = expected.map(|card| card.len() as i64);
    let alike = answer == written && ours == theirs;
    (!alike).then(|| format!("\n  first  {answer:?} {}\n  second {written:?} {}", shown(&ours), shown(&theirs)))
}
