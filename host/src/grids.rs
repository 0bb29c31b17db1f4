//! Grids: correct fillings, clue grids of every kind, texts.

use std::sync::LazyLock;

use crate::plain;
use crate::random::Random;
use crate::Clues;

/// Grid A of document 01.
pub const GRID_A: &str = "123456789456789123789123456231564897564897231897231564312645978645978312978312645";

/// Published puzzles: Wikipedia's example, AI Escargot, Easter Monster, Golden Nugget, one with 17 clues.
pub const PUBLISHED: [&str; 5] = [
    "53..7....6..195....98....6.8...6...34..8.3..17...2...6.6....28....419..5....8..79",
    "1....7.9..3..2...8..96..5....53..9...1..8...26....4...3......1..4......7..7...3..",
    "1.......2.9.4...5...6...7...5.9.3.......7.......85..4.7.....6...3...9.8...2.....1",
    ".......39.....1..5..3.5.8....8.9...6.7...2...1..4.......9.8..5..2....6..4..7.....",
    ".......1.4.........2...........5.4.7..8...3....1.9....3..4..2...5.1........8.6...",
];

pub fn of_text(text: &str) -> Clues {
    plain::read_text(text.as_bytes()).expect("a grid of 81 cells")
}

// ---- fillings

/// Grid A and 63 fillings found by search.
static BASES: LazyLock<Vec<Clues>> = LazyLock::new(|| {
    let mut random = Random::new(1);
    std::iter::once(of_text(GRID_A)).chain((1..64).map(|_| searched(&mut random))).collect()
});

/// A correct filling: one of few, its digits, lines, bands, stacks and sides exchanged.
pub fn filling(random: &mut Random) -> Clues {
    let base = BASES[random.below(BASES.len())];
    shuffled(random, &base)
}

fn shuffled(random: &mut Random, grid: &Clues) -> Clues {
    let mut digits = [1, 2, 3, 4, 5, 6, 7, 8, 9];
    random.shuffle(&mut digits);
    let (rows, cols) = (lines(random), lines(random));
    let turned = random.percent(50);
    std::array::from_fn(|cell| {
        let (row, col) = (rows[cell / 9], cols[cell % 9]);
        let from = if turned { 9 * col + row } else { 9 * row + col };
        digits[grid[from] as usize - 1]
    })
}

/// The nine lines, mixed within their bands, and the bands mixed.
fn lines(random: &mut Random) -> [usize; 9] {
    let mut bands = [0, 1, 2];
    random.shuffle(&mut bands);
    let mut within = [[0, 1, 2]; 3];
    within.iter_mut().for_each(|band| random.shuffle(band));
    std::array::from_fn(|line| 3 * bands[line / 3] + within[line / 3][line % 3])
}

/// A filling by search.
fn searched(random: &mut Random) -> Clues {
    completed(random, &[0; 81]).expect("the empty grid has fillings")
}

/// A correct filling that keeps the clues, where there is one.
pub fn completed(random: &mut Random, clues: &Clues) -> Option<Clues> {
    let mut grid = *clues;
    (search(random, &mut grid) && plain::verify(&grid)).then_some(grid)
}

/// Fills the open cells, the one with the fewest digits first.
fn search(random: &mut Random, grid: &mut Clues) -> bool {
    let masks = plain::fresh(grid);
    let Some(cell) = (0..81).filter(|&cell| grid[cell] == 0).min_by_key(|&cell| masks[cell].count_ones()) else {
        return true;
    };
    let mut digits: Vec<i32> = (1..=9).filter(|&digit| masks[cell] & plain::bit(digit) != 0).collect();
    random.shuffle(&mut digits);
    for digit in digits {
        grid[cell] = digit;
        if search(random, grid) {
            return true;
        }
    }
    grid[cell] = 0;
    false
}

// ---- clue grids

/// Some `low` to `high` cells of a filling.
pub fn blanked(random: &mut Random, filling: &Clues, low: usize, high: usize) -> Clues {
    let mut cells: Vec<usize> = (0..81).collect();
    random.shuffle(&mut cells);
    let mut clues = [0; 81];
    for &cell in &cells[..random.within(low, high)] {
        clues[cell] = filling[cell];
    }
    clues
}

/// A clue grid of any kind: sparse, a puzzle's, dense, nearly full, conflicting, wholly random, published.
pub fn clues(random: &mut Random) -> Clues {
    let filling = filling(random);
    match random.below(8) {
        0 => blanked(random, &filling, 0, 16),
        1 | 2 => blanked(random, &filling, 17, 35),
        3 => blanked(random, &filling, 36, 65),
        4 => blanked(random, &filling, 66, 81),
        5 => conflicting(random, &filling),
        6 => wholly_random(random),
        _ => published(random),
    }
}

fn conflicting(random: &mut Random, filling: &Clues) -> Clues {
    let mut clues = blanked(random, filling, 5, 70);
    for _ in 0..random.within(1, 4) {
        clues[random.below(81)] = random.digit();
    }
    clues
}

fn wholly_random(random: &mut Random) -> Clues {
    let often = random.within(1, 100);
    std::array::from_fn(|_| if random.percent(often) { random.digit() } else { 0 })
}

/// A published puzzle, as it is or with some cells blanked.
fn published(random: &mut Random) -> Clues {
    let mut clues = of_text(PUBLISHED[random.below(PUBLISHED.len())]);
    for _ in 0..random.below(6) {
        clues[random.below(81)] = 0;
    }
    clues
}

// ---- filled grids for the verifier

pub fn filled(random: &mut Random) -> Clues {
    let mut grid = filling(random);
    let cell = random.below(81);
    match random.below(8) {
        0 => {}
        1 => grid[cell] = random.digit(),
        2 => grid.swap(cell, random.below(81)),
        3 => grid[cell] = *random.pick(&[0, 10, -1, i32::MIN, i32::MAX, 16, 256 + 5, 65536 + 1]),
        4 => return std::array::from_fn(|_| random.digit()),
        5 => return std::array::from_fn(|_| random.next() as i32),
        6 => rectangle(random, &mut grid),
        _ => exchanged(random, &mut grid),
    }
    grid
}

/// Two cells of a row exchanged, in two rows: boxes and columns may or may not notice.
fn rectangle(random: &mut Random, grid: &mut Clues) {
    let (a, b) = (random.below(9), random.below(9));
    for row in [random.below(9), random.below(9)] {
        grid.swap(9 * row + a, 9 * row + b);
    }
}

/// Two whole lines exchanged, of one band or of two.
fn exchanged(random: &mut Random, grid: &mut Clues) {
    let (a, b) = (random.below(9), random.below(9));
    for at in 0..9 {
        grid.swap(9 * a + at, 9 * b + at);
    }
}

// ---- texts

pub fn text(random: &mut Random) -> Vec<u8> {
    let clues = clues(random);
    let open = *random.pick(b"0.");
    let mut text: Vec<u8> = clues.iter().map(|&clue| if clue == 0 { open } else { b'0' + clue as u8 }).collect();
    match random.below(6) {
        0 => text.truncate(random.below(81)),
        1 => text.extend(std::iter::repeat_n(b'1', random.within(1, 100))),
        2 => text[random.below(81)] = random.next() as u8,
        3 => accented(random, &mut text),
        4 => text.extend(b"\n"),
        _ => {}
    }
    text
}

/// A letter of two bytes in the place of two.
fn accented(random: &mut Random, text: &mut [u8]) {
    let at = random.below(80);
    text[at..at + 2].copy_from_slice("é".as_bytes());
}
