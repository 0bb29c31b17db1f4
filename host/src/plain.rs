//! The engine a second time, plainly, sentence by sentence after documents 01 and 02; it shares no code with the Rust, the engine or its
//! definitions. Its author had read all three, so agreement shows that the words fit the Rust, not that they allow nothing else.

use std::sync::LazyLock;

use crate::{Board, Clues, Entries, Masks, SingleCandidate, Stop};

const CELLS: usize = 81;

/// What a board call answers: "What a call does not speak of" is false, empty or 0.
#[derive(Clone, Debug, PartialEq, Eq)]
pub struct Outcome {
    pub flag: bool,
    pub reports: Vec<(usize, i32)>,
    pub sweeps: usize,
    pub removed: usize,
    pub masks: Masks,
}

// ---- cells, units, masks

pub fn bit(digit: i32) -> u16 {
    1 << (digit - 1)
}

pub fn row(cell: usize) -> usize {
    cell / 9
}

pub fn col(cell: usize) -> usize {
    cell % 9
}

pub fn block(cell: usize) -> usize {
    3 * (row(cell) / 3) + col(cell) / 3
}

static UNITS: LazyLock<[[usize; 9]; 27]> = LazyLock::new(|| std::array::from_fn(unit_cells));
static PEERS: LazyLock<[Vec<usize>; 81]> = LazyLock::new(|| std::array::from_fn(|cell| (0..CELLS).filter(|&other| see(cell, other)).collect()));

/// The cells of a unit, rising: rows, then columns, then boxes.
fn unit_cells(unit: usize) -> [usize; 9] {
    std::array::from_fn(|place| match unit {
        0..=8 => 9 * unit + place,
        9..=17 => 9 * place + (unit - 9),
        _ => {
            let (down, right) = ((unit - 18) / 3, (unit - 18) % 3);
            9 * (3 * down + place / 3) + 3 * right + place % 3
        }
    })
}

pub fn unit(number: usize) -> [usize; 9] {
    UNITS[number]
}

/// "Two cells see each other if they are peers."
pub fn see(a: usize, b: usize) -> bool {
    a != b && (row(a) == row(b) || col(a) == col(b) || block(a) == block(b))
}

pub(crate) fn peers(cell: usize) -> impl Iterator<Item = usize> {
    PEERS[cell].iter().copied()
}

/// "It shall say the digit, or empty, or several." (document 02, F-1)
pub fn single_candidate(mask: u16) -> SingleCandidate {
    let held: Vec<i32> = (1..=9).filter(|&digit| mask & bit(digit) != 0).collect();
    match held[..] {
        [] => SingleCandidate::Empty,
        [digit] => SingleCandidate::Digit(digit),
        _ => SingleCandidate::Several,
    }
}

pub fn candidates(masks: &Masks) -> usize {
    masks.iter().map(|mask| mask.count_ones() as usize).sum()
}

// ---- a board

/// A board with its entries among its clues, as the calls take it: "All board calls and stop 9 treat entries as clues" (document 02, F-6).
#[derive(Clone)]
pub(crate) struct Joint {
    pub(crate) clues: Clues,
    pub(crate) masks: Masks,
    /// The instances of wide passes that removed something, in the order done, as six bytes each (document 02, F-10).
    pub(crate) effective: Vec<[u8; 6]>,
}

impl Joint {
    fn is_open(&self, cell: usize) -> bool {
        self.clues[cell] == 0
    }

    pub(crate) fn holds(&self, cell: usize, digit: i32) -> bool {
        self.masks[cell] & bit(digit) != 0
    }

    fn open_holds(&self, cell: usize, digit: i32) -> bool {
        self.is_open(cell) && self.holds(cell, digit)
    }

    /// "only open cells lose digits": whether it lost any.
    pub(crate) fn lose(&mut self, cell: usize, digits: u16) -> bool {
        let loses = self.is_open(cell) && self.masks[cell] & digits != 0;
        if loses {
            self.masks[cell] &= !digits;
        }
        loses
    }

    fn open_holders(&self, cells: &[usize], digit: i32) -> Vec<usize> {
        cells.iter().copied().filter(|&cell| self.open_holds(cell, digit)).collect()
    }

    fn all_holders(&self, cells: &[usize], digit: i32) -> Vec<usize> {
        cells.iter().copied().filter(|&cell| self.holds(cell, digit)).collect()
    }
}

/// "an open cell holds d exactly if no peer's clue is d"
pub fn fresh(clues: &Clues) -> Masks {
    std::array::from_fn(|cell| {
        if clues[cell] != 0 {
            return bit(clues[cell]);
        }
        (1..=9).filter(|&digit| peers(cell).all(|peer| clues[peer] != digit)).map(bit).sum()
    })
}

fn bad_clue(clues: &Clues) -> Option<Stop> {
    let cell = clues.iter().position(|clue| !(0..=9).contains(clue))?;
    Some(Stop { number: 3, detail: cell as i64 })
}

/// "an entry on a clue cell, or an entry outside 0 to 9 (0 = none) .. and the first such cell" (document 02, F-6)
fn bad_entry(board: &Board) -> Option<Stop> {
    let bad = |&cell: &usize| match board.entries[cell] {
        0 => false,
        1..=9 => board.clues[cell] != 0,
        _ => true,
    };
    (0..CELLS).find(bad).map(|cell| Stop { number: 8, detail: cell as i64 })
}

fn bad_mask(Joint { clues, masks, .. }: &Joint) -> Option<Stop> {
    let fresh = fresh(clues);
    let bad = |&cell: &usize| masks[cell] & !fresh[cell] != 0 || clues[cell] != 0 && masks[cell] != bit(clues[cell]);
    (0..CELLS).find(bad).map(|cell| Stop { number: 9, detail: cell as i64 })
}

/// The check of a handed board: stop 3, then 8, "between 01's 3 and 9", then 9.
pub fn check(board: &Board) -> Option<Stop> {
    bad_clue(&board.clues).or_else(|| bad_entry(board)).or_else(|| bad_mask(&joint(board)))
}

fn checked(board: &Board) -> Result<Joint, Stop> {
    check(board).map_or_else(|| Ok(joint(board)), Err)
}

pub(crate) fn joint(board: &Board) -> Joint {
    Joint { clues: together(&board.clues, &board.entries), masks: board.masks, effective: Vec::new() }
}

/// "the printed clues and the remaining entries together"
pub fn together(clues: &Clues, entries: &Entries) -> Clues {
    std::array::from_fn(|cell| if clues[cell] != 0 { clues[cell] } else { entries[cell] })
}

/// The board with these entries, worked out afresh.
pub fn afresh(clues: &Clues, entries: &Entries) -> Board {
    Board { clues: *clues, entries: *entries, masks: fresh(&together(clues, entries)) }
}

pub fn open(clues: &Clues) -> Result<Masks, Stop> {
    bad_clue(clues).map_or_else(|| Ok(fresh(clues)), Err)
}

/// "the fresh board of one clue grid with one set of entries" (document 02, F-7): their stops are 3, then 8.
pub fn open_with(clues: &Clues, entries: &Entries) -> Result<Board, Stop> {
    let board = Board { clues: *clues, entries: *entries, masks: [0; 81] };
    bad_clue(clues).or_else(|| bad_entry(&board)).map_or_else(|| Ok(afresh(clues, entries)), Err)
}

// ---- entries (document 02, F-6)

/// After the board's own stops "the order is 5, 4 (entering only), 12, 13".
pub fn enter(board: &Board, cell: usize, digit: i32) -> Result<Board, Stop> {
    checked(board)?;
    if cell > 80 {
        return Err(Stop { number: 5, detail: cell as i64 });
    }
    if !(1..=9).contains(&digit) {
        return Err(Stop { number: 4, detail: digit.into() });
    }
    if board.clues[cell] != 0 {
        return Err(Stop { number: 12, detail: cell as i64 });
    }
    if board.entries[cell] != 0 {
        return Err(Stop { number: 13, detail: cell as i64 });
    }
    Ok(with_entry(board, cell, digit))
}

pub fn rub_out(board: &Board, cell: usize) -> Result<Board, Stop> {
    checked(board)?;
    if cell > 80 {
        return Err(Stop { number: 5, detail: cell as i64 });
    }
    if board.clues[cell] != 0 {
        return Err(Stop { number: 12, detail: cell as i64 });
    }
    if board.entries[cell] == 0 {
        return Err(Stop { number: 13, detail: cell as i64 });
    }
    Ok(with_entry(board, cell, 0))
}

/// "makes the masks those of a fresh board whose clues are the printed clues and the remaining entries together"
fn with_entry(board: &Board, cell: usize, entry: i32) -> Board {
    let mut entries = board.entries;
    entries[cell] = entry;
    afresh(&board.clues, &entries)
}

// ---- the ported passes

impl Joint {
    fn naked_pairs(&mut self) {
        for cells in (0..27).map(unit) {
            for first in 0..9 {
                for second in first + 1..9 {
                    self.naked_pair(&cells, cells[first], cells[second]);
                }
            }
        }
    }

    fn naked_pair(&mut self, cells: &[usize; 9], first: usize, second: usize) {
        let pair = self.masks[first];
        if !self.is_open(first) || !self.is_open(second) || self.masks[second] != pair || pair.count_ones() != 2 {
            return;
        }
        for &cell in cells {
            if cell != first && cell != second {
                self.lose(cell, pair);
            }
        }
    }

    fn box_line(&mut self) {
        for number in 0..9 {
            for digit in 1..=9 {
                let holders = self.open_holders(&unit(18 + number), digit);
                if holders.len() < 2 {
                    continue;
                }
                self.box_to_line(number, digit, &holders, row, 0);
                self.box_to_line(number, digit, &holders, col, 9);
            }
        }
    }

    fn box_to_line(&mut self, number: usize, digit: i32, holders: &[usize], line: fn(usize) -> usize, units: usize) {
        let at = line(holders[0]);
        if holders.iter().any(|&cell| line(cell) != at) {
            return;
        }
        for cell in unit(units + at) {
            if block(cell) != number {
                self.lose(cell, bit(digit));
            }
        }
    }

    fn x_wing(&mut self) {
        for (lines, across) in [(0, col as fn(usize) -> usize), (9, row)] {
            for digit in 1..=9 {
                self.x_wing_of(digit, lines, across);
            }
        }
    }

    /// "list all rows with exactly two open cells holding d .. The list is not renewed between."
    fn x_wing_of(&mut self, digit: i32, lines: usize, across: fn(usize) -> usize) {
        let places = |line: usize| self.open_holders(&unit(lines + line), digit).into_iter().map(across).collect::<Vec<_>>();
        let listed: Vec<(usize, Vec<usize>)> = (0..9).map(|line| (line, places(line))).filter(|(_, held)| held.len() == 2).collect();
        for (at, (first, held)) in listed.iter().enumerate() {
            for (second, others) in &listed[at + 1..] {
                if held == others {
                    self.x_wing_removes(digit, lines, [*first, *second], held);
                }
            }
        }
    }

    fn x_wing_removes(&mut self, digit: i32, lines: usize, pair: [usize; 2], held: &[usize]) {
        for line in (0..9).filter(|line| !pair.contains(line)) {
            for &place in held {
                self.lose(unit(lines + line)[place], bit(digit));
            }
        }
    }

    fn naked_singles(&self) -> Vec<(usize, i32)> {
        let single = |cell: &usize| self.is_open(*cell) && self.masks[*cell].count_ones() == 1;
        (0..CELLS).filter(single).map(|cell| (cell, self.masks[cell].trailing_zeros() as i32 + 1)).collect()
    }

    fn hidden_singles(&self) -> Vec<(usize, i32)> {
        let mut reports = Vec::new();
        for cells in (0..27).map(unit) {
            for digit in 1..=9 {
                if let [cell] = self.open_holders(&cells, digit)[..] {
                    reports.push((cell, digit));
                }
            }
        }
        reports
    }
}

// ---- the chain pass

impl Joint {
    fn chain_pass(&mut self) {
        for digit in 1..=9 {
            let starts: Vec<usize> = (0..CELLS).filter(|&cell| self.open_holds(cell, digit)).collect();
            for start in starts {
                if self.go_on(digit, &mut Vec::new(), start) {
                    break;
                }
            }
        }
    }

    /// Goes on from a cell that the path does not have; yes where a candidate was lost.
    fn go_on(&mut self, digit: i32, path: &mut Vec<usize>, cell: usize) -> bool {
        path.push(cell);
        let lost = self.chain_removes(digit, path[0], cell, path.len());
        if !lost && path.len() < 7 {
            let weak = path.len() % 2 == 1;
            let links = if weak { self.weak_links(digit, cell) } else { self.strong_links(digit, cell) };
            for next in links {
                if !path.contains(&next) && self.go_on(digit, path, next) {
                    return true;
                }
            }
        }
        path.pop();
        lost
    }

    fn chain_removes(&mut self, digit: i32, start: usize, end: usize, cells: usize) -> bool {
        if cells < 4 || !see(start, end) {
            return false;
        }
        let seen = |&cell: &usize| self.open_holds(cell, digit) && see(cell, start) && see(cell, end);
        let Some(cell) = (0..CELLS).find(seen) else { return false };
        self.lose(cell, bit(digit));
        true
    }

    fn weak_links(&self, digit: i32, cell: usize) -> Vec<usize> {
        peers(cell).filter(|&peer| self.open_holds(peer, digit)).collect()
    }

    fn strong_links(&self, digit: i32, cell: usize) -> Vec<usize> {
        let mut links = Vec::new();
        for number in [row(cell), 9 + col(cell), 18 + block(cell)] {
            let holders = self.open_holders(&unit(number), digit);
            if holders.len() == 2 {
                links.extend(holders.into_iter().filter(|&other| other != cell));
            }
        }
        links
    }
}

// ---- the X-chain pass (document 02, F-9)

impl Joint {
    /// "Digits run rising. For each digit the links .. are taken from the masks at its start."
    fn x_chains(&mut self) {
        for digit in 1..=9 {
            let ends = self.x_chain_ends(digit);
            let sees_both = |cell: usize| ends.iter().any(|&(one, other)| see(cell, one) && see(cell, other));
            for cell in (0..CELLS).filter(|&cell| sees_both(cell)) {
                self.lose(cell, bit(digit));
            }
        }
    }

    /// The two ends of every chain: "4 or 6 different open cells, its links in turn strong and weak, strong at both ends", so two or three
    /// strong links, each one joined to the next by a weak one.
    fn x_chain_ends(&self, digit: i32) -> Vec<(usize, usize)> {
        let pairs = (0..27).map(|number| self.open_holders(&unit(number), digit)).filter(|held| held.len() == 2);
        let strong: Vec<[usize; 2]> = pairs.flat_map(|held| [[held[0], held[1]], [held[1], held[0]]]).collect();
        let joined = |from: &[usize], to: &[usize; 2]| see(from[from.len() - 1], to[0]) && !from.contains(&to[0]) && !from.contains(&to[1]);
        let longer = |chains: &[Vec<usize>]| -> Vec<Vec<usize>> {
            let one = |chain: &Vec<usize>| strong.iter().filter(|next| joined(chain, next)).map(|next| [&chain[..], &next[..]].concat()).collect::<Vec<_>>();
            chains.iter().flat_map(one).collect()
        };
        let four = longer(&strong.iter().map(|link| link.to_vec()).collect::<Vec<_>>());
        let six = longer(&four);
        four.iter().chain(&six).map(|chain| (chain[0], chain[chain.len() - 1])).collect()
    }
}

// ---- the wide passes and settling

impl Joint {
    /// An instance whose condition holds: these cells lose these digits. Its bytes are "its kind .., then its parts in the order of 01 and
    /// F-5 .., then zeros" (document 02, F-10).
    fn instance(&mut self, kind: usize, parts: &[usize], cells: impl IntoIterator<Item = usize>, digits: u16) {
        let mut removed = false;
        for cell in cells {
            removed |= self.lose(cell, digits);
        }
        if removed {
            let mut bytes = [kind as u8, 0, 0, 0, 0, 0];
            for (byte, &part) in bytes[1..].iter_mut().zip(parts) {
                *byte = part as u8;
            }
            self.effective.push(bytes);
        }
    }

    fn lone(&mut self) {
        for cell in 0..CELLS {
            for digit in 1..=9 {
                if self.masks[cell] & !bit(digit) == 0 {
                    self.instance(0, &[cell, digit as usize], peers(cell), bit(digit));
                }
            }
        }
    }

    fn place(&mut self) {
        for number in 0..27 {
            let cells = unit(number);
            for digit in 1..=9 {
                for cell in cells {
                    if cells.iter().all(|&other| other == cell || !self.holds(other, digit)) {
                        self.instance(1, &[number, digit as usize, cell], [cell], !bit(digit));
                    }
                }
            }
        }
    }

    fn pair(&mut self) {
        for number in 0..27 {
            let cells = unit(number);
            for first in 0..9 {
                for second in first + 1..9 {
                    self.pair_of(number, cells[first], cells[second]);
                }
            }
        }
    }

    fn pair_of(&mut self, number: usize, first: usize, second: usize) {
        let others: Vec<usize> = unit(number).into_iter().filter(|&cell| cell != first && cell != second).collect();
        for a in 1..=9 {
            for b in a + 1..=9 {
                let both = bit(a) | bit(b);
                if (self.masks[first] | self.masks[second]) & !both == 0 {
                    self.instance(2, &[number, first, second, a as usize, b as usize], others.iter().copied(), both);
                }
            }
        }
    }

    fn pointing(&mut self) {
        for block in 18..27 {
            let inside = unit(block);
            let lines: Vec<usize> = (0..3).map(|at| row(inside[3 * at])).chain((0..3).map(|at| 9 + col(inside[at]))).collect();
            for digit in 1..=9 {
                for &line in &lines {
                    self.locked(3, block, digit, line);
                }
            }
        }
    }

    /// All cells of a unit that hold the digit are in another one: the other cells of that one lose it.
    fn locked(&mut self, kind: usize, number: usize, digit: i32, other: usize) {
        let (cells, others) = (unit(number), unit(other));
        if self.all_holders(&cells, digit).iter().all(|cell| others.contains(cell)) {
            let outside = others.into_iter().filter(|cell| !cells.contains(cell));
            self.instance(kind, &[number, digit as usize, other], outside, bit(digit));
        }
    }

    /// Document 02, F-5: all cells of a row or column that hold the digit are in one box, and the other cells of that box lose it.
    fn claiming(&mut self) {
        for line in 0..18 {
            let cells = unit(line);
            let blocks: Vec<usize> = (18..27).filter(|&block| unit(block).iter().any(|cell| cells.contains(cell))).collect();
            for digit in 1..=9 {
                for &block in &blocks {
                    self.locked(4, line, digit, block);
                }
            }
        }
    }

    fn cross(&mut self) {
        for (kind, lines, across, place) in [(5, 0, 9, col as fn(usize) -> usize), (6, 9, 0, row)] {
            for digit in 1..=9 {
                for first in lines..lines + 9 {
                    for second in first + 1..lines + 9 {
                        let others: Vec<usize> = (lines..lines + 9).filter(|&line| line != first && line != second).collect();
                        self.cross_of(kind, digit, [first, second], &others, across, place);
                    }
                }
            }
        }
    }

    /// Two of nine lines and the seven others; the lines across them are numbered from `across` on, and a cell is on the one of its `place`.
    fn cross_of(&mut self, kind: usize, digit: i32, [first, second]: [usize; 2], others: &[usize], across: usize, place: fn(usize) -> usize) {
        // no step of this pair changes its own two lines
        let held: Vec<usize> = [first, second].iter().flat_map(|&line| self.all_holders(&unit(line), digit)).map(place).collect();
        for c1 in 0..9 {
            for c2 in c1 + 1..9 {
                if held.iter().all(|&at| at == c1 || at == c2) {
                    let outside = others.iter().flat_map(|&line| [UNITS[line][c1], UNITS[line][c2]]);
                    self.instance(kind, &[digit as usize, first, second, across + c1, across + c2], outside, bit(digit));
                }
            }
        }
    }

    fn sweep(&mut self) {
        self.lone();
        self.place();
        self.pair();
        self.pointing();
        self.claiming();
        self.cross();
    }

    /// "sweep until one removes nothing", that last one counted.
    fn settle(&mut self) -> usize {
        let mut sweeps = 0;
        loop {
            let before = self.masks;
            self.sweep();
            sweeps += 1;
            if self.masks == before {
                return sweeps;
            }
        }
    }
}

// ---- the calls by number

/// 0 update_candidates, 1 naked pairs, 2 box-line, 3 X-wing, 4 naked singles, 5 hidden singles, 6 apply_advanced_techniques,
/// 7 Lone, 8 Place, 9 Pair, 10 Pointing, 11 Cross, 12 settling, 13 the chain pass, 14 Claiming, 15 the X-chain pass.
pub fn step(number: u8, board: &Board) -> Result<Outcome, Stop> {
    let mut board = checked(board)?;
    let before = board.masks;
    match number {
        0 => Ok(Outcome { masks: fresh(&board.clues), ..silent(&before) }),
        1 => Ok(removing(&mut board, Joint::naked_pairs)),
        2 => Ok(removing(&mut board, Joint::box_line)),
        3 => Ok(removing(&mut board, Joint::x_wing)),
        4 => Ok(reporting(&before, board.naked_singles())),
        5 => Ok(reporting(&before, board.hidden_singles())),
        6 => Ok(advanced(&mut board)),
        7 => Ok(removing(&mut board, Joint::lone)),
        8 => Ok(removing(&mut board, Joint::place)),
        9 => Ok(removing(&mut board, Joint::pair)),
        10 => Ok(removing(&mut board, Joint::pointing)),
        11 => Ok(removing(&mut board, Joint::cross)),
        12 => Ok(settling(&mut board)),
        13 => Ok(removing(&mut board, Joint::chain_pass)),
        14 => Ok(removing(&mut board, Joint::claiming)),
        15 => Ok(removing(&mut board, Joint::x_chains)),
        _ => Err(Stop { number: -1, detail: number as i64 }),
    }
}

/// What a call answers that speaks of the masks alone.
pub fn silent(masks: &Masks) -> Outcome {
    Outcome { flag: false, reports: Vec::new(), sweeps: 0, removed: 0, masks: *masks }
}

fn reporting(masks: &Masks, reports: Vec<(usize, i32)>) -> Outcome {
    Outcome { flag: !reports.is_empty(), reports, ..silent(masks) }
}

fn removing(board: &mut Joint, pass: fn(&mut Joint)) -> Outcome {
    let before = board.masks;
    pass(board);
    Outcome { flag: board.masks != before, ..silent(&board.masks) }
}

fn advanced(board: &mut Joint) -> Outcome {
    let before = board.masks;
    let mut reports = board.naked_singles();
    reports.extend(board.hidden_singles());
    board.naked_pairs();
    let flag = !reports.is_empty() || board.masks != before;
    let masks = if flag { fresh(&board.clues) } else { before };
    Outcome { flag, reports, ..silent(&masks) }
}

/// "The settling call shall hand back the list of its own effective steps, in the order done" (document 02, F-10), beside what it answers.
pub fn settle(board: &Board) -> Result<(Outcome, Vec<u8>), Stop> {
    let mut board = checked(board)?;
    let outcome = settling(&mut board);
    Ok((outcome, board.effective.concat()))
}

fn settling(board: &mut Joint) -> Outcome {
    let before = candidates(&board.masks);
    let sweeps = board.settle();
    Outcome { sweeps, removed: before - candidates(&board.masks), ..silent(&board.masks) }
}

// ---- the difficulty figure (document 02, F-14)

/// "points divided by open cells without entries, as a whole quotient and the exact remainder"
pub use sudoku::Difficulty;

/// The wide passes in a sweep's order.
const WIDE: [fn(&mut Joint); 6] = [Joint::lone, Joint::place, Joint::pair, Joint::pointing, Joint::claiming, Joint::cross];

/// "Points for each removed candidate are Lone 1, Place 2, Pointing 3, Claiming 3, Pair 4, Cross 6."
const POINTS: [usize; 6] = [1, 2, 4, 3, 3, 6];

/// "Settling shall count what each wide pass removed": the six in a sweep's order.
pub fn pass_counts(board: &Board) -> Result<[usize; 6], Stop> {
    let mut board = checked(board)?;
    let mut counts = [0; 6];
    loop {
        let start = board.masks;
        for (count, pass) in counts.iter_mut().zip(WIDE) {
            let before = candidates(&board.masks);
            pass(&mut board);
            *count += before - candidates(&board.masks);
        }
        if board.masks == start {
            return Ok(counts);
        }
    }
}

/// "A full grid has no figure and stops with 19, no open cell without an entry, with detail 0, checked before settling."
pub fn difficulty(board: &Board) -> Result<Difficulty, Stop> {
    let cells = checked(board)?.clues.iter().filter(|&&clue| clue == 0).count();
    if cells == 0 {
        return Err(Stop { number: 19, detail: 0 });
    }
    // "The figure, from settling the fresh board"
    let counts = pass_counts(&afresh(&board.clues, &board.entries))?;
    let points: usize = counts.iter().zip(POINTS).map(|(count, points)| count * points).sum();
    Ok(Difficulty { quotient: points / cells, remainder: points % cells, cells })
}

// ---- verifier, verdict, and what a board is asked

pub fn verify(grid: &Clues) -> bool {
    grid.iter().all(|number| (1..=9).contains(number)) && (0..27).map(unit).all(|cells| (1..=9).all(|digit| cells.iter().any(|&cell| grid[cell] == digit)))
}

pub fn verdict(board: &Board) -> Result<&'static str, Stop> {
    let masks = checked(board)?.masks;
    if masks.contains(&0) {
        return Ok("dead");
    }
    if masks.iter().any(|mask| mask.count_ones() > 1) {
        return Ok("open");
    }
    // "`finished` is printed only if the 81 digits also pass the verifier" (document 02, F-4)
    let digits = masks.map(|mask| mask.trailing_zeros() as i32 + 1);
    Ok(if verify(&digits) { "finished" } else { "dead" })
}

pub fn one_mask(board: &Board, cell: usize) -> Result<u16, Stop> {
    checked(board)?.masks.get(cell).copied().ok_or(Stop { number: 5, detail: cell as i64 })
}

/// "`clue_count` and `original_puzzle` give the printed clues alone" (document 02, F-6)
pub fn original_puzzle(board: &Board) -> Result<Clues, Stop> {
    checked(board).map(|_| board.clues)
}

pub fn clue_count(board: &Board) -> Result<usize, Stop> {
    Ok(original_puzzle(board)?.iter().filter(|&&clue| clue != 0).count())
}

pub fn get_candidates(board: &Board) -> Result<Masks, Stop> {
    Ok(checked(board)?.masks)
}

// ---- text

/// "`1` to `9`; `0` and `.` are open"
fn cell(byte: u8) -> Option<i32> {
    match byte {
        b'1'..=b'9' => Some((byte - b'0') as i32),
        b'0' | b'.' => Some(0),
        _ => None,
    }
}

pub fn read_text(text: &[u8]) -> Result<Clues, Stop> {
    if text.len() != CELLS {
        return Err(Stop { number: 1, detail: text.len() as i64 });
    }
    let mut clues = [0; CELLS];
    for (at, &byte) in text.iter().enumerate() {
        clues[at] = cell(byte).ok_or(Stop { number: 2, detail: at as i64 })?;
    }
    Ok(clues)
}

fn byte(clue: i32) -> u8 {
    if clue == 0 { b'.' } else { b'0' + clue as u8 }
}

/// Stop 6, then stop 3, of a writer of so many bytes.
fn unwritable(clues: &Clues, needed: usize, lent: &[u8]) -> Option<Stop> {
    if lent.len() < needed {
        return Some(Stop { number: 6, detail: lent.len() as i64 });
    }
    bad_clue(clues)
}

pub fn write_text(clues: &Clues, lent: &mut [u8]) -> Result<usize, Stop> {
    if let Some(stop) = unwritable(clues, CELLS, lent) {
        return Err(stop);
    }
    for (cell, &clue) in clues.iter().enumerate() {
        lent[cell] = byte(clue);
    }
    Ok(CELLS)
}

// ---- pasted sheets (document 02, F-2)

/// "passes over space, `|`, `-`, `+`, carriage return and line feed, and takes the other bytes as 01's text reader does"
pub fn read_sheet(sheet: &[u8]) -> Result<Clues, Stop> {
    // "longer than 4,096 bytes, with its length, checked first"
    if sheet.len() > 4096 {
        return Err(Stop { number: 10, detail: sheet.len() as i64 });
    }
    let mut cells = Vec::new();
    for (offset, &byte) in sheet.iter().enumerate() {
        if !b" |-+\r\n".contains(&byte) {
            cells.push(cell(byte).ok_or(Stop { number: 2, detail: offset as i64 })?);
        }
    }
    // "not 81 cells after the last byte, with the number of cells"
    cells.try_into().map_err(|cells: Vec<i32>| Stop { number: 11, detail: cells.len() as i64 })
}

/// "nine lines of nine characters, `.` for open, each with a line feed, and returns 90"
pub fn write_sheet(clues: &Clues, lent: &mut [u8]) -> Result<usize, Stop> {
    if let Some(stop) = unwritable(clues, 90, lent) {
        return Err(stop);
    }
    let mut sheet = Vec::new();
    for row in clues.chunks(9) {
        sheet.extend(row.iter().map(|&clue| byte(clue)));
        sheet.push(b'\n');
    }
    lent[..90].copy_from_slice(&sheet);
    Ok(90)
}

// ---- trial rounds (document 02, F-11)

/// "17, percentage above 100, with the percentage, checked first; then 18, the solution does not pass the verifier, with detail 0"
pub fn trial_round(start: u32, percentage: u32, solution: &Clues) -> Result<Clues, Stop> {
    if percentage > 100 {
        return Err(Stop { number: 17, detail: percentage.into() });
    }
    if !verify(solution) {
        return Err(Stop { number: 18, detail: 0 });
    }
    let modulus = 2_147_483_648;
    let mut state = u64::from(start) % modulus;
    Ok(std::array::from_fn(|cell| {
        state = (1_103_515_245 * state + 12_345) % modulus;
        let kept = (state / 65_536) % 100 < u64::from(percentage);
        if kept { solution[cell] } else { 0 }
    }))
}

// ---- the program's card

/// What the program prints.
pub fn printed(input: &[u8]) -> String {
    let read = &input[..input.len().min(4096)];
    card(read).unwrap_or_else(|stop| format!("refused {} {}\n", stop.number, stop.detail))
}

/// The card for the bytes that it read.
pub fn card(read: &[u8]) -> Result<String, Stop> {
    let text = read.strip_suffix(b"\n").unwrap_or(read);
    Ok(lines(&read_text(text)?))
}

fn lines(clues: &Clues) -> String {
    let board = Board::without_entries(clues, &fresh(clues));
    let reported = step(6, &board).unwrap().reports.len();
    let settled = step(12, &board).unwrap();
    let given = clues.iter().filter(|&&clue| clue != 0).count();
    let line: String = settled.masks.iter().map(shown).collect();
    format!(
        "clues {given}\nreported {reported}\nsweeps {}\nremoved {}\nverdict {}\nline {line}\n",
        settled.sweeps,
        settled.removed,
        verdict(&Board { masks: settled.masks, ..board }).unwrap()
    )
}

fn shown(mask: &u16) -> char {
    match mask.count_ones() {
        0 => '!',
        1 => char::from(b'1' + mask.trailing_zeros() as u8),
        _ => '.',
    }
}

// ---- a round's line

/// What the program `round` prints of a line, with its byte 10.
pub fn round_line(line: &[u8]) -> Vec<u8> {
    let text = line.strip_suffix(b"\r").unwrap_or(line);
    if text.is_empty() || line[0] == b'#' {
        return [line, b"\n"].concat();
    }
    let mut parts = text.splitn(2, |byte| b" \t,;".contains(byte));
    let grid = parts.next().unwrap_or_default();
    let fields = read_text(grid).map(|clues| fields(&clues, grid, parts.next()));
    fields.unwrap_or_else(|stop| format!("refused {} {}\n", stop.number, stop.detail)).into_bytes()
}

fn fields(clues: &Clues, grid: &[u8], answer: Option<&[u8]>) -> String {
    let board = Board::without_entries(clues, &fresh(clues));
    let reported = step(6, &board).unwrap().reports.len();
    let settled = step(12, &board).unwrap();
    let given = clues.iter().filter(|&&clue| clue != 0).count();
    let figure = difficulty(&board).map_or("none".to_string(), |figure| format!("{}+{}/{}", figure.quotient, figure.remainder, figure.cells));
    let verdict = verdict(&Board { masks: settled.masks, ..board }).unwrap();
    let answer = answer.map_or("none".to_string(), |answer| judged(grid, answer));
    format!("{given} {reported} {} {} {verdict} {figure} {answer}\n", settled.sweeps, settled.removed)
}

/// "not 81 bytes `1` to `9` `wrong`; the first broken clue `clue CELL`; the verifier's no `wrong`; else `right`"
fn judged(grid: &[u8], answer: &[u8]) -> String {
    if answer.len() != CELLS || !answer.iter().all(|byte| (b'1'..=b'9').contains(byte)) {
        return "wrong".to_string();
    }
    let broken = (0..CELLS).find(|&cell| !b"0.".contains(&grid[cell]) && grid[cell] != answer[cell]);
    match broken {
        Some(cell) => format!("clue {cell}"),
        None if verify(&std::array::from_fn(|cell| (answer[cell] - b'0').into())) => "right".to_string(),
        None => "wrong".to_string(),
    }
}
