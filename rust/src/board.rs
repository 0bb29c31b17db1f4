//! Boards.

use std::fmt;
use std::str::FromStr;

use crate::calls::{self, Clues, Entries, PassCounts, RawBoard, RECORD, SHEET, STEP_BYTES, TEXT};
use crate::{unrefused, CandidateSet, Cell, Digit, Report, Step, StepNumber, Stop};

/// How a board stands.
#[derive(Clone, Copy, Debug, PartialEq, Eq, Hash)]
pub enum Verdict {
    /// Some cell has no candidate, or all have one and the verifier does not pass them.
    Dead,
    /// All cells have one candidate, and the verifier passes them.
    Finished,
    /// Neither.
    Open,
}

impl Verdict {
    /// Its word, as on the card: `dead`, `finished` or `open`.
    pub fn word(self) -> &'static str {
        match self {
            Verdict::Dead => "dead",
            Verdict::Finished => "finished",
            Verdict::Open => "open",
        }
    }
}

impl fmt::Display for Verdict {
    fn fmt(&self, f: &mut fmt::Formatter<'_>) -> fmt::Result {
        f.pad(self.word())
    }
}

/// The difficulty figure: points divided by cells. It is written `1+39/53`.
#[derive(Clone, Copy, Debug, PartialEq, Eq, Hash)]
pub struct Difficulty {
    /// The whole quotient.
    pub quotient: usize,
    /// The remainder, which is below the cells.
    pub remainder: usize,
    /// The cells with neither clue nor entry.
    pub cells: usize,
}

impl fmt::Display for Difficulty {
    fn fmt(&self, f: &mut fmt::Formatter<'_>) -> fmt::Result {
        write!(f, "{}+{}/{}", self.quotient, self.remainder, self.cells)
    }
}

/// What a board call answered.
#[derive(Clone, Debug, PartialEq, Eq)]
pub struct Stepped {
    /// Whether there was progress; [`StepNumber::UpdateCandidates`] does not say.
    pub progress: bool,
    reports: Vec<Report>,
}

impl Stepped {
    /// The singles that it reported, in order; the calls that look for others report none.
    pub fn reports(&self) -> impl ExactSizeIterator<Item = Report> + DoubleEndedIterator + Clone + '_ {
        self.reports.iter().copied()
    }
}

/// What settling did.
#[derive(Clone, Debug, PartialEq, Eq)]
pub struct Settled {
    /// The sweeps, the last one too, which removed nothing.
    pub sweeps: usize,
    /// The removed candidates.
    pub removed: usize,
    /// How many of them each wide pass removed, in a sweep's order: Lone, Place, Pair, Pointing, Claiming, Cross.
    pub counts: PassCounts,
    steps: Vec<Step>,
}

impl Settled {
    /// The steps that removed something, in the order done.
    pub fn steps(&self) -> impl ExactSizeIterator<Item = Step> + DoubleEndedIterator + Clone + '_ {
        self.steps.iter().copied()
    }
}

/// A board: printed clues, a player's entries and the candidates of each cell. Entries count as clues.
///
/// A board fits together: candidates are within what clues and entries leave. So the calls that could only be refused for a board that does not are
/// without a [`Stop`].
///
/// ```
/// use sudoku::{Board, Stop, Verdict};
///
/// let mut board: Board = "
///     +-------+-------+-------+
///     | 8 . . | . 2 . | 6 . 9 |
///     | . . . | 3 6 . | . . . |
///     | . . . | . . . | 5 . 3 |
///     +-------+-------+-------+
///     | . 9 . | 6 3 . | . . 4 |
///     | . . . | . . . | 9 6 . |
///     | . 4 . | . . 7 | . . . |
///     +-------+-------+-------+
///     | 3 . . | 4 . . | . 5 . |
///     | . . 6 | . 7 . | 3 . 2 |
///     | . 1 . | 2 8 3 | . . 6 |
///     +-------+-------+-------+
/// "
/// .parse()?;
/// assert_eq!(board.difficulty()?.to_string(), "1+39/53");
///
/// let settled = board.settle();
/// let words: Vec<String> = settled.steps().map(|step| step.to_string()).collect();
/// assert_eq!(words.len(), 11);
/// assert_eq!(words[4], "Pair r3c2 r3c7 {5,6} in row 3");
/// assert_eq!(words[8], "Cross 5 in rows 4 9 at columns 1 3");
/// assert_eq!(board.verdict(), Verdict::Open);
/// # Ok::<(), Stop>(())
/// ```
#[derive(Clone, Debug, PartialEq, Eq)]
pub struct Board {
    raw: RawBoard,
}

impl Board {
    // -- opened

    /// The fresh board of 81 clues, 0 where a cell has none. Clues that contradict each other are taken.
    ///
    /// # Errors
    ///
    /// [`Stop::BadClue`].
    pub fn open(clues: &Clues) -> Result<Board, Stop> {
        let mut raw = RawBoard::without_entries(clues, &[0; 81]);
        calls::open(clues, &mut raw.masks)?;
        Ok(Board { raw })
    }

    /// The fresh board of clues and entries, 0 where a cell has none.
    ///
    /// # Errors
    ///
    /// [`Stop::BadClue`], then [`Stop::BadEntry`].
    pub fn with_entries(clues: &Clues, entries: &Entries) -> Result<Board, Stop> {
        let mut masks = [0; 81];
        calls::run(&[], clues, entries, &mut masks)?;
        Ok(Board { raw: RawBoard { clues: *clues, entries: *entries, masks } })
    }

    /// The fresh board of a text: 81 bytes, `1` to `9` for a clue, `0` or `.` for an open cell.
    ///
    /// ```
    /// use sudoku::{Board, Stop};
    ///
    /// let board = Board::read(".........456......789............................................................")?;
    /// assert_eq!(board.clue_count(), 6);
    /// assert_eq!(Board::read("456"), Err(Stop::TextLength(3)));
    /// # Ok::<(), Stop>(())
    /// ```
    ///
    /// # Errors
    ///
    /// [`Stop::TextLength`], then [`Stop::OtherByte`].
    pub fn read(text: impl AsRef<[u8]>) -> Result<Board, Stop> {
        let mut clues = [0; 81];
        calls::read(text.as_ref(), &mut clues)?;
        Board::open(&clues)
    }

    /// The fresh board of a pasted sheet: rulings, spaces and the ends of lines are passed over, and the other bytes are read as those of a text.
    ///
    /// # Errors
    ///
    /// [`Stop::SheetLength`], then [`Stop::OtherByte`], then [`Stop::SheetCells`].
    pub fn read_sheet(sheet: impl AsRef<[u8]>) -> Result<Board, Stop> {
        let mut clues = [0; 81];
        calls::read_sheet(sheet.as_ref(), &mut clues)?;
        Board::open(&clues)
    }

    /// The board that a record was written of.
    ///
    /// # Errors
    ///
    /// [`Stop::RecordBytes`], [`Stop::RecordEntry`] and [`Stop::RecordRemoval`], the record read front to back.
    pub fn read_record(record: impl AsRef<[u8]>) -> Result<Board, Stop> {
        let mut raw = RawBoard::without_entries(&[0; 81], &[0; 81]);
        calls::read_record(record.as_ref(), &mut raw).map_err(Stop::in_record)?;
        Ok(Board { raw })
    }

    // -- entries

    /// Enters a digit in an open cell. The candidates are then those of the board worked out afresh, so that what steps had removed is back. The digit
    /// may contradict a clue or another entry.
    ///
    /// ```
    /// use sudoku::{Board, Cell, Digit, Stop};
    ///
    /// let mut board = Board::read(".........456......789............................................................")?;
    /// let (open, clue) = (Cell::try_from(0)?, Cell::try_from(9)?);
    /// let one = Digit::try_from(1)?;
    /// board.enter(open, one)?;
    /// assert_eq!(board.entry(open), Some(one));
    /// assert_eq!(board.enter(clue, one), Err(Stop::ClueCell(clue)));
    /// assert_eq!(board.enter(open, one), Err(Stop::Entered(open)));
    /// # Ok::<(), Stop>(())
    /// ```
    ///
    /// # Errors
    ///
    /// [`Stop::ClueCell`], then [`Stop::Entered`].
    pub fn enter(&mut self, cell: Cell, digit: Digit) -> Result<(), Stop> {
        Ok(calls::enter(cell.into(), digit.into(), &mut self.raw)?)
    }

    /// Rubs a cell's entry out; the candidates are those of the board worked out afresh.
    ///
    /// # Errors
    ///
    /// [`Stop::ClueCell`], then [`Stop::Entered`] where the cell has no entry.
    pub fn rub_out(&mut self, cell: Cell) -> Result<(), Stop> {
        Ok(calls::rub_out(cell.into(), &mut self.raw)?)
    }

    // -- asked

    /// How many printed clues there are.
    pub fn clue_count(&self) -> usize {
        unrefused(calls::clue_count(&self.raw)) as usize
    }

    /// How it stands.
    pub fn verdict(&self) -> Verdict {
        unrefused(calls::verdict(&self.raw))
    }

    /// The printed clue of a cell.
    pub fn clue(&self, cell: Cell) -> Option<Digit> {
        Digit::try_from(self.raw.clues[cell.index()]).ok()
    }

    /// The player's entry of a cell.
    pub fn entry(&self, cell: Cell) -> Option<Digit> {
        Digit::try_from(self.raw.entries[cell.index()]).ok()
    }

    /// The candidates of a cell; that of a clue or an entry is the digit alone.
    pub fn candidates(&self, cell: Cell) -> CandidateSet {
        CandidateSet::from_mask(unrefused(calls::cell_mask(&self.raw, cell.into())))
    }

    /// The difficulty figure of the fresh board of clues and entries: points for each candidate that settling removes (Lone 1, Place 2, Pair 4, Pointing
    /// 3, Claiming 3, Cross 6), divided by the cells with neither clue nor entry.
    ///
    /// # Errors
    ///
    /// [`Stop::NoOpenCell`].
    pub fn difficulty(&self) -> Result<Difficulty, Stop> {
        Ok(calls::difficulty(&self.raw)?)
    }

    // -- steps

    /// A board call.
    ///
    /// ```
    /// use sudoku::{Board, Report, StepNumber, Stop};
    ///
    /// // of a correct filling the first digit is left out
    /// let mut board = Board::read(".23456789456789123789123456234567891567891234891234567345678912678912345912345678")?;
    /// let stepped = board.step(StepNumber::NakedSingles);
    /// assert!(stepped.progress);
    /// assert_eq!(stepped.reports().map(|report| report.to_string()).collect::<Vec<_>>(), ["r1c1=1"]);
    /// # Ok::<(), Stop>(())
    /// ```
    pub fn step(&mut self, number: StepNumber) -> Stepped {
        let mut bytes = [0; 648];
        let (value, second) = unrefused(calls::step(number as u8, &mut self.raw, &mut bytes));
        if number == StepNumber::Settling {
            return Stepped { progress: second > 0, reports: Vec::new() };
        }
        let reports = bytes.chunks_exact(2).take(second as usize).map(|two| told(Report::from_bytes([two[0], two[1]])));
        Stepped { progress: value == 1, reports: reports.collect() }
    }

    /// Board calls one after the other, from the fresh board of clues and entries. With none of them the candidates are the fresh ones.
    pub fn run(&mut self, numbers: &[StepNumber]) {
        let RawBoard { clues, entries, masks } = &mut self.raw;
        let steps: Vec<u8> = numbers.iter().map(|&number| number as u8).collect();
        unrefused(calls::run(&steps, clues, entries, masks));
    }

    /// Sweeps of the six wide passes until one removes nothing.
    pub fn settle(&mut self) -> Settled {
        let (mut bytes, mut counts) = ([0; 4374], [0; 6]);
        let settled = unrefused(calls::settle(&mut self.raw, &mut bytes, &mut counts));
        let steps = bytes.chunks_exact(STEP_BYTES).take(settled.steps as usize).map(|six| told(six.try_into().ok().and_then(Step::from_bytes)));
        Settled { sweeps: settled.sweeps as usize, removed: settled.removed as usize, counts, steps: steps.collect() }
    }

    /// Takes a setter's steps one after the other, from the fresh board of clues and entries: each must hold at its turn and remove something. The
    /// candidates are then those that are left.
    ///
    /// ```
    /// use sudoku::{Board, Stop};
    ///
    /// let fresh = Board::read(".........456......789............................................................")?;
    /// let mut settled = fresh.clone();
    /// let steps: Vec<_> = settled.settle().steps().collect();
    ///
    /// let mut checked = fresh.clone();
    /// checked.check_steps(&steps)?;
    /// assert_eq!(checked, settled);
    ///
    /// let twice = [steps[0], steps[0]]; // the second time there is nothing left to remove
    /// assert_eq!(checked.check_steps(&twice), Err(Stop::BadStep(1)));
    /// # Ok::<(), Stop>(())
    /// ```
    ///
    /// # Errors
    ///
    /// [`Stop::TooManySteps`], then [`Stop::BadStep`].
    pub fn check_steps(&mut self, steps: &[Step]) -> Result<(), Stop> {
        let bytes: Vec<u8> = steps.iter().flat_map(|step| step.to_bytes()).collect();
        self.check_step_bytes(&bytes)
    }

    /// The same of a list in bytes, six for each step. A shorter last piece counts as a step, and is a bad one.
    ///
    /// # Errors
    ///
    /// [`Stop::TooManySteps`], then [`Stop::BadStep`].
    pub fn check_step_bytes(&mut self, steps: &[u8]) -> Result<(), Stop> {
        Ok(calls::check_steps(steps, &mut self.raw)?)
    }

    // -- written

    /// The text of the printed clues, `.` for an open cell.
    pub fn write_text(&self) -> String {
        let mut text = [0; TEXT];
        unrefused(calls::write_text(&self.raw.clues, &mut text));
        text.map(char::from).iter().collect()
    }

    /// The canonical sheet of the printed clues: nine lines of nine characters, `.` for an open cell.
    pub fn write_sheet(&self) -> String {
        let mut sheet = [0; SHEET];
        unrefused(calls::write_sheet(&self.raw.clues, &mut sheet));
        sheet.map(char::from).iter().collect()
    }

    /// The board's record, to be kept and read again.
    ///
    /// ```
    /// use sudoku::{Board, Stop};
    ///
    /// let mut board = Board::read(".........456......789............................................................")?;
    /// board.settle();
    /// assert_eq!(Board::read_record(board.write_record()), Ok(board));
    /// # Ok::<(), Stop>(())
    /// ```
    pub fn write_record(&self) -> Vec<u8> {
        let mut record = vec![0; RECORD];
        let length = unrefused(calls::write_record(&self.raw, &mut record));
        record.truncate(length as usize);
        record
    }

    /// The three arrays, for [`calls`].
    pub fn raw(&self) -> &RawBoard {
        &self.raw
    }
}

/// What the engine told, in bytes that by its contracts are a step or a report.
fn told<T>(part: Option<T>) -> T {
    part.unwrap_or_else(|| unreachable!("the engine told a step or a report that is none"))
}

/// Three arrays that fit together.
///
/// # Errors
///
/// [`Stop::BadClue`], then [`Stop::BadEntry`], then [`Stop::BadMask`].
impl TryFrom<RawBoard> for Board {
    type Error = Stop;

    fn try_from(raw: RawBoard) -> Result<Self, Stop> {
        calls::clue_count(&raw)?;
        Ok(Board { raw })
    }
}

impl From<Board> for RawBoard {
    fn from(board: Board) -> RawBoard {
        board.raw
    }
}

/// As [`Board::read_sheet`]; a text is a sheet too.
impl FromStr for Board {
    type Err = Stop;

    fn from_str(sheet: &str) -> Result<Self, Stop> {
        Board::read_sheet(sheet)
    }
}

/// The canonical sheet of the printed clues, as [`Board::write_sheet`] has it; entries and candidates do not show.
impl fmt::Display for Board {
    fn fmt(&self, f: &mut fmt::Formatter<'_>) -> fmt::Result {
        f.write_str(&self.write_sheet())
    }
}
