//! A round: bytes cut into lines, and what the engine says of each grid.

use sudoku::calls::Clues;
use sudoku::{Board, CandidateSet, Cell, Difficulty, Digit, Settled, SingleCandidate, StepNumber, Stop, Verdict};

/// A line of a round.
pub struct Line<'a> {
    /// From 1.
    pub number: usize,
    /// As it came, without the byte 10 at its end.
    pub bytes: &'a [u8],
    pub content: Content<'a>,
}

pub enum Content<'a> {
    /// Nothing, or nothing but a carriage return.
    Empty,
    /// A line that begins with `#`.
    Remark,
    Grid(Box<Entry<'a>>),
}

/// A grid, its printed answer where there is a separator, and what the engine says of the two.
pub struct Entry<'a> {
    pub grid: &'a [u8],
    pub answer: Option<&'a [u8]>,
    pub score: Result<Score, Stop>,
}

/// What is said of a grid that was read.
pub struct Score {
    /// The board that settling leaves.
    pub board: Board,
    /// The singles that the fresh board shows.
    pub reported: usize,
    pub settled: Settled,
    /// None for a full grid.
    pub difficulty: Option<Difficulty>,
    pub answer: Check,
}

/// What is said of a printed answer.
#[derive(Clone, Copy, Debug, PartialEq, Eq)]
pub enum Check {
    /// There is no separator.
    Missing,
    /// Not 81 bytes `1` to `9`.
    NotFilled,
    /// The first cell where the answer has another digit than the clue.
    BreaksClue(Cell),
    /// The verifier's no.
    Repeats,
    Right,
}

impl Score {
    pub fn candidates(&self, cell: Cell) -> CandidateSet {
        CandidateSet::from_mask(self.board.raw().masks[cell.index()])
    }

    /// The only digit that a cell has left.
    pub fn only_digit(&self, cell: Cell) -> Option<Digit> {
        match self.candidates(cell).single_candidate() {
            SingleCandidate::Digit(digit) => Some(digit),
            SingleCandidate::Empty | SingleCandidate::Several => None,
        }
    }
}

impl Check {
    /// An answer was given, and it is not right.
    pub fn failed(self) -> bool {
        !matches!(self, Check::Missing | Check::Right)
    }
}

/// The lines of a round: what follows the last byte 10 is one where there is anything.
pub fn lines(bytes: &[u8]) -> impl Iterator<Item = Line<'_>> {
    let ended = bytes.strip_suffix(b"\n").unwrap_or(bytes);
    let pieces = ended.split(|&byte| byte == b'\n');
    pieces.enumerate().filter(|_| !bytes.is_empty()).map(|(index, bytes)| Line { number: index + 1, bytes, content: content(bytes) })
}

fn content(line: &[u8]) -> Content<'_> {
    let line = line.strip_suffix(b"\r").unwrap_or(line);
    match line.first() {
        None => Content::Empty,
        Some(b'#') => Content::Remark,
        Some(_) => Content::Grid(Box::new(entry(line))),
    }
}

/// "The grid is the bytes before the first space, tab, comma or semicolon; what follows that one separator is the printed answer."
fn entry(line: &[u8]) -> Entry<'_> {
    let separator = line.iter().position(|byte| b" \t,;".contains(byte));
    let (grid, answer) = match separator {
        None => (line, None),
        Some(at) => (&line[..at], Some(&line[at + 1..])),
    };
    Entry { grid, answer, score: Board::read(grid).map(|fresh| scored(fresh, answer)) }
}

fn scored(fresh: Board, answer: Option<&[u8]>) -> Score {
    let mut board = fresh.clone();
    let settled = board.settle();
    Score {
        reported: fresh.clone().step(StepNumber::ApplyAdvancedTechniques).reports().len(),
        settled,
        // a fresh board is refused with 19 alone, where no cell is open
        difficulty: fresh.difficulty().ok(),
        answer: checked(&board, answer),
        board,
    }
}

/// "In this order: no separator; not 81 bytes `1` to `9`; the first broken clue; the verifier's no; else right."
fn checked(board: &Board, answer: Option<&[u8]>) -> Check {
    let Some(answer) = answer else {
        return Check::Missing;
    };
    let Some(filling) = filling(answer) else {
        return Check::NotFilled;
    };
    let broken = |cell: &Cell| board.clue(*cell).is_some_and(|clue| i32::from(clue) != filling[cell.index()]);
    if let Some(cell) = Cell::all().find(broken) {
        return Check::BreaksClue(cell);
    }
    if sudoku::verify(&filling) {
        Check::Right
    } else {
        Check::Repeats
    }
}

/// The digits of 81 bytes `1` to `9`.
pub fn filling(answer: &[u8]) -> Option<Clues> {
    let bytes: &[u8; 81] = answer.try_into().ok()?;
    bytes.iter().all(|byte| (b'1'..=b'9').contains(byte)).then(|| bytes.map(|byte| i32::from(byte - b'0')))
}

/// What a round comes to. Answers are counted where the grid was read.
#[derive(Clone, Copy, Debug, Default, PartialEq, Eq)]
pub struct Totals {
    pub grids: usize,
    pub finished: usize,
    pub open: usize,
    pub dead: usize,
    pub refused: usize,
    pub right: usize,
    pub not_right: usize,
}

impl Totals {
    pub fn of<'a>(entries: impl Iterator<Item = &'a Entry<'a>>) -> Totals {
        let mut totals = Totals::default();
        entries.for_each(|entry| totals.add(entry));
        totals
    }

    fn add(&mut self, entry: &Entry) {
        self.grids += 1;
        let Ok(score) = &entry.score else {
            self.refused += 1;
            return;
        };
        match score.board.verdict() {
            Verdict::Dead => self.dead += 1,
            Verdict::Finished => self.finished += 1,
            Verdict::Open => self.open += 1,
        }
        self.right += usize::from(score.answer == Check::Right);
        self.not_right += usize::from(score.answer.failed());
    }
}
