//! Records: boards to be written, bytes to be read, and what is asked of both.

use crate::cases::{boards_apart, damaged_case, kept, list, with_entries, Case, EVERYTHING};
use crate::random::Random;
use crate::records::{self, Form};
use crate::shrink::{changed, Smaller};
use crate::sides::{Call, Engine, Records, Side, BEHIND, LENT_BOARD, LENT_BYTE, STEPS};
use crate::{counted, grids, plain, Board, Masks, Stop, NO_ENTRIES};

/// Bytes for the reader and the moves, and the form that they were made in.
#[derive(Clone)]
pub struct Record {
    pub form: Form,
    pub bytes: Vec<u8>,
}

impl std::fmt::Display for Record {
    fn fmt(&self, out: &mut std::fmt::Formatter) -> std::fmt::Result {
        writeln!(out, "record in the {:?} form{}", self.form, hexadecimal(&self.bytes))
    }
}

fn hexadecimal(bytes: &[u8]) -> String {
    bytes.iter().map(|byte| format!(" {byte:02x}")).collect()
}

// ---- boards

/// A board for the writer: fresh, after some calls, with candidates gone, or one that the check may refuse; with entries or without.
pub fn board_case(random: &mut Random) -> Case {
    let fresh = Case::fresh(grids::clues(random), Vec::new());
    let case = with_entries(random, fresh, None);
    let kept = match random.below(5) {
        0 => EVERYTHING,
        1 => left_after(&case.board(), &list(random, &STEPS, 6)),
        2 | 3 => kept(random),
        _ => return Case { calls: Vec::new(), ..damaged_case(random) },
    };
    Case { kept, ..case }
}

/// All but the candidates that the list removes from the fresh board.
fn left_after(fresh: &Board, calls: &[Call]) -> Masks {
    let mut side = Engine::start(fresh);
    calls.iter().for_each(|&call| _ = side.call(call)); // compared elsewhere
    let masks = side.board().masks;
    std::array::from_fn(|cell| 511 & !(fresh.masks[cell] & !masks[cell]))
}

/// The record of the case's board; where that is refused, of the fresh one of its clues.
pub fn record(case: &Case) -> Record {
    let board = case.board();
    let refused = plain::check(&board).is_some();
    let board = if refused { plain::afresh(&case.clues, &NO_ENTRIES) } else { board };
    Record { form: Form::New, bytes: records::bytes(Form::New, &board) }
}

/// The old record of the case's board without its entries; where that is refused, of the fresh one of its clues.
pub fn old_record(case: &Case) -> Record {
    let board = Case { entries: NO_ENTRIES, ..case.clone() }.board();
    let refused = plain::check(&board).is_some() || board.entries != NO_ENTRIES;
    let board = if refused { plain::afresh(&case.clues, &NO_ENTRIES) } else { board };
    Record { form: Form::Old, bytes: records::bytes(Form::Old, &board) }
}

// ---- damage

/// A section as far as the bytes go: where its count stands, in how many bytes, and where its entries begin and end.
struct Section {
    count: usize,
    width: usize,
    first: usize,
    end: usize,
}

impl Section {
    fn entries(&self) -> impl Iterator<Item = usize> {
        (self.first..self.end.saturating_sub(1)).step_by(2)
    }

    /// The count with so many more.
    fn count_more(&self, bytes: &mut [u8], more: u16) {
        let count = number(&bytes[self.count..self.first]).wrapping_add(more).to_le_bytes();
        bytes[self.count..self.first].copy_from_slice(&count[..self.width]);
    }
}

const ONE_LESS: u16 = u16::MAX;

fn number(bytes: &[u8]) -> u16 {
    bytes.iter().rev().fold(0, |number, &byte| 256 * number + byte as u16)
}

fn sections(Record { form, bytes }: &Record) -> Vec<Section> {
    let widths: &[usize] = match form {
        Form::Old => &[1, 2],
        Form::New => &[1, 1, 2],
    };
    let mut found = Vec::new();
    let mut count = 0;
    for (at, &width) in widths.iter().enumerate() {
        let first = count + width;
        if first > bytes.len() {
            break;
        }
        let next = first + 2 * number(&bytes[count..first]) as usize;
        let end = if at + 1 == widths.len() { bytes.len() } else { next.min(bytes.len()) };
        found.push(Section { count, width, first, end });
        count = next;
    }
    found
}

/// A record with one thing changed, or two.
pub fn damaged(random: &mut Random, record: &Record) -> Record {
    let mut record = record.clone();
    for _ in 0..*random.pick(&[1, 1, 1, 2]) {
        let bytes = &mut record.bytes;
        match random.below(5) {
            0 => bytes.extend((0..random.within(1, 3)).map(|_| some_byte(random))),
            _ if bytes.is_empty() => {}
            1 => bytes.truncate(random.below(bytes.len())),
            2 => byte_changed(random, bytes),
            _ => section_changed(random, &mut record),
        }
    }
    record
}

/// The ends of what a record's bytes may be, and others.
fn some_byte(random: &mut Random) -> u8 {
    if random.percent(50) { random.next() as u8 } else { *random.pick(&[0, 1, 2, 9, 10, 80, 81, 255]) }
}

fn byte_changed(random: &mut Random, bytes: &mut [u8]) {
    let at = random.below(bytes.len());
    match random.below(4) {
        0 => bytes.swap(at, random.below(bytes.len())),
        1 => bytes[at] = some_byte(random),
        2 => bytes[at] = bytes[at].wrapping_add(1),
        _ => bytes[at] = bytes[at].wrapping_sub(1),
    }
}

/// An entry less, twice or in another's place with the count adjusted, one more in its place, or the count alone.
fn section_changed(random: &mut Random, record: &mut Record) {
    let sections = sections(record);
    let bytes = &mut record.bytes;
    let section = random.pick(&sections);
    let entries: Vec<usize> = section.entries().collect();
    match random.below(5) {
        0 if !entries.is_empty() => drop_entry(bytes, section, *random.pick(&entries)),
        1 if !entries.is_empty() => {
            let at = *random.pick(&entries);
            insert(bytes, section, at, [bytes[at], bytes[at + 1]]);
        }
        2 if !entries.is_empty() => {
            let (one, two) = (*random.pick(&entries), *random.pick(&entries));
            bytes.swap(one, two);
            bytes.swap(one + 1, two + 1);
        }
        3 => {
            let entry = [random.below(81) as u8, random.digit() as u8];
            let above = entries.iter().find(|&&at| bytes[at..at + 2] > entry[..]);
            insert(bytes, section, above.map_or(section.end, |&at| at), entry);
        }
        _ => {
            let any = random.next() as u16;
            section.count_more(bytes, *random.pick(&[1, 2, 256, ONE_LESS, ONE_LESS - 1, any]));
        }
    }
}

fn drop_entry(bytes: &mut Vec<u8>, section: &Section, at: usize) {
    section.count_more(bytes, ONE_LESS);
    bytes.drain(at..at + 2);
}

fn insert(bytes: &mut Vec<u8>, section: &Section, at: usize, entry: [u8; 2]) {
    section.count_more(bytes, 1);
    bytes.splice(at..at, entry);
}

/// Few bytes that no board was written in: any, mostly low ones, or sections of any entries.
pub fn loose(random: &mut Random) -> Record {
    let length = random.within(0, 16);
    let bytes = match random.below(3) {
        0 => (0..length).map(|_| random.next() as u8).collect(),
        1 => (0..length).map(|_| *random.pick(&[0, 0, 0, 1, 1, 2, 3, 9, 10, 80, 81, 255])).collect(),
        _ => {
            let (given, entered, removed) = (entries(random, 3), entries(random, 2), entries(random, 4));
            [vec![given.len() as u8], given.concat(), vec![entered.len() as u8], entered.concat(), vec![removed.len() as u8, 0], removed.concat()].concat()
        }
    };
    Record { form: Form::New, bytes }
}

/// Mostly rising; now and then a cell or digit out of range.
fn entries(random: &mut Random, most: usize) -> Vec<[u8; 2]> {
    let mut entries: Vec<[u8; 2]> = (0..random.within(0, most)).map(|_| [random.below(81) as u8, random.digit() as u8]).collect();
    if random.percent(80) {
        entries.sort();
    }
    if random.percent(20) {
        entries.push([random.within(79, 82) as u8, random.within(0, 10) as u8]);
    }
    entries
}

impl Smaller for Record {
    fn smaller(&self) -> impl Iterator<Item = Self> {
        let sections = sections(self).into_iter().flat_map(move |section| {
            let entries: Vec<usize> = section.entries().collect();
            entries.into_iter().map(move |at| changed(self, |less| drop_entry(&mut less.bytes, &section, at)))
        });
        let dropped = (0..self.bytes.len()).map(|at| changed(self, |less| _ = less.bytes.remove(at)));
        let lower = |at: usize| [0, self.bytes[at] / 2, self.bytes[at].saturating_sub(1)].map(|byte| (at, byte));
        let lowered = (0..self.bytes.len()).flat_map(lower).filter(|&(at, byte)| byte < self.bytes[at]);
        sections.chain(dropped).chain(lowered.map(|(at, byte)| changed(self, |less| less.bytes[at] = byte)))
    }
}

// ---- asking

/// What two writers answer and leave in lent bytes and behind them.
fn puts_differ(length: usize, one: impl Fn(&mut [u8]) -> Result<i64, Stop>, two: impl Fn(&mut [u8]) -> Result<i64, Stop>) -> Option<String> {
    let (mut ours, mut theirs) = (vec![LENT_BYTE; length + BEHIND], vec![LENT_BYTE; length + BEHIND]);
    let answers = (one(&mut ours[..length]), two(&mut theirs[..length]));
    let alike = answers.0 == answers.1 && ours == theirs;
    (!alike).then(|| format!("{length} bytes lent\n  first  {:?}{}\n  second {:?}{}", answers.0, hexadecimal(&ours), answers.1, hexadecimal(&theirs)))
}

/// Lent lengths for a record that needs so many bytes: every one up to two above the need, of long records the ends and some between.
fn lengths(needed: usize) -> Vec<usize> {
    if needed <= 100 {
        return (0..=needed + 2).collect();
    }
    (0..=4).chain((4..needed - 2).step_by(needed / 5)).chain(needed - 2..=needed + 2).chain([needed + 50]).collect()
}

/// The record of the case's board in lent bytes, too few, just enough and more: the answer, every lent byte and those behind.
pub fn written_differs<A: Records, B: Records>(case: &Case) -> Option<String> {
    let board = case.board();
    let needed = record(case).bytes.len();
    lengths(needed).into_iter().find_map(|length| puts_differ(length, |lent| A::write(&board, lent), |lent| B::write(&board, lent)))
}

/// Reading what was written gives the board back.
pub fn returned_differs<S: Records>(case: &Case) -> Option<String> {
    let board = case.board();
    let mut record = record(case);
    S::write(&board, &mut record.bytes).ok()?;
    let mut read = LENT_BOARD;
    let answer = S::read(&record.bytes, &mut read);
    (answer != Ok(counted(&board.clues)) || read != board).then(|| format!("{record}read back as {answer:?}: {}", boards_apart(&read, &board)))
}

/// What both sides read; and the first side's writing of what was read gives the bytes.
pub fn read_differs<A: Records, B: Records>(record: &Record) -> Option<String> {
    let (mut ours, mut theirs) = (LENT_BOARD, LENT_BOARD);
    let answers = (A::read(&record.bytes, &mut ours), B::read(&record.bytes, &mut theirs));
    if answers.0 != answers.1 {
        return Some(format!("\n  first  {:?}\n  second {:?}", answers.0, answers.1));
    }
    if ours != theirs {
        return Some(format!("clues {:?} and {:?}; {}", ours.clues, theirs.clues, boards_apart(&ours, &theirs)));
    }
    answers.0.ok()?;
    let mut again = vec![LENT_BYTE; record.bytes.len()];
    let answer = A::write(&ours, &mut again);
    (answer != Ok(record.bytes.len() as i64) || again != record.bytes).then(|| format!("written again {answer:?}{}", hexadecimal(&again)))
}

/// The bytes moved to either form by both sides, into lent bytes too few, just enough and more; and what the first side moved is moved
/// back to the same bytes.
pub fn moves_differ<A: Records, B: Records>(record: &Record) -> Option<String> {
    [false, true].into_iter().find_map(|back| move_differs::<A, B>(back, &record.bytes).map(|shows| format!("moved {}: {shows}", if back { "back" } else { "onward" })))
}

fn move_differs<A: Records, B: Records>(back: bool, bytes: &[u8]) -> Option<String> {
    let mut moved = vec![LENT_BYTE; bytes.len() + 1];
    let needed = B::moved(back, bytes, &mut moved).map_or(bytes.len().min(8), |length| length as usize);
    let differ = |length| puts_differ(length, |lent| A::moved(back, bytes, lent), |lent| B::moved(back, bytes, lent));
    if let Some(shows) = lengths(needed).into_iter().find_map(differ) {
        return Some(shows);
    }
    let length = A::moved(back, bytes, &mut moved).ok()? as usize;
    let mut again = vec![LENT_BYTE; bytes.len()];
    let answer = A::moved(!back, &moved[..length], &mut again);
    (answer != Ok(bytes.len() as i64) || again != bytes).then(|| format!("and again {answer:?}{}", hexadecimal(&again)))
}
