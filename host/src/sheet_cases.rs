//! Pasted sheets to be read, and what is asked of them.

use crate::random::Random;
use crate::text_cases::{grid_text, Input};
use crate::{counted, plain, Clues, Stop};

const PASSED_OVER: &[u8] = b" |-+\r\n";

/// Mostly a grid as programs print it; also with cells missing or too many, ruled up to the greatest length, and bytes of all kinds.
pub fn sheet(random: &mut Random) -> Input {
    let mut sheet = printed(random);
    match random.below(8) {
        0 => miscounted(random, &mut sheet),
        1 => lengthened(random, &mut sheet),
        2 => sheet = (0..random.within(0, 200)).map(|_| random.next() as u8).collect(),
        3 => sheet = mostly_cells(random),
        4 => sheet.push(random.next() as u8),
        _ => {}
    }
    Input(sheet)
}

/// The sheet with each of the 256 bytes more, somewhere.
pub fn with_every_byte(random: &mut Random, sheet: &Input) -> Vec<Input> {
    let with = |byte| {
        let mut bytes = sheet.0.clone();
        bytes.insert(random.within(0, bytes.len()), byte);
        Input(bytes)
    };
    (0..=255).map(with).collect()
}

/// How a program prints a grid: its rulings, what stands between boxes and between cells, and the end of a line.
pub struct Style {
    pub ruling: &'static str,
    pub bar: &'static str,
    pub gap: &'static str,
    pub end: &'static str,
}

/// `+-------+-------+-------+` and `| 5 3 . | . 7 . | . . . |`
pub const BOXED: Style = Style { ruling: "+-------+-------+-------+", bar: "|", gap: " ", end: "\n" };

/// A grid as a program prints it.
fn printed(random: &mut Random) -> Vec<u8> {
    let (ruling, bar, gap) = *random.pick(&[(BOXED.ruling, "|", " "), ("------+-------+------", "|", " "), ("---+---+---", "|", ""), ("", "", ""), ("", " ", "")]);
    let end = *random.pick(&["\n", "\r\n", "\n\n", ""]);
    ruled(&grid_text(random), &Style { ruling, bar, gap, end })
}

/// A ruling that begins with `+` stands above and below too, and its lines have bars at both ends.
pub fn ruled(text: &[u8], style: &Style) -> Vec<u8> {
    let Style { ruling, bar, gap, end } = style;
    let outer = ruling.starts_with('+');
    let mut lines: Vec<String> = Vec::new();
    for (row, cells) in text.chunks(9).enumerate() {
        if row % 3 == 0 && (outer || row > 0) && !ruling.is_empty() {
            lines.push(ruling.to_string());
        }
        let three = |cells: &[u8]| cells.iter().map(|&byte| char::from(byte).to_string()).collect::<Vec<_>>().join(gap);
        let line = cells.chunks(3).map(three).collect::<Vec<_>>().join(&[*gap, bar, gap].concat());
        lines.push(if outer { [bar, gap, line.as_str(), gap, bar].concat() } else { line });
    }
    if outer {
        lines.push(ruling.to_string());
    }
    lines.iter().flat_map(|line| [line, *end].concat().into_bytes()).collect()
}

/// A cell or two fewer or more, and now and then a byte that is no cell behind them.
fn miscounted(random: &mut Random, sheet: &mut Vec<u8>) {
    for _ in 0..random.within(1, 2) {
        let at = random.within(0, sheet.len() - 1);
        match random.below(2) {
            0 => sheet.insert(at, *random.pick(b"0123456789.")),
            _ => drop(sheet.remove(at)),
        }
    }
    if random.percent(30) {
        sheet.extend(b" x");
    }
}

/// With passed-over bytes, some of them in one place, up to a length about 4,096; now and then with a byte that is no cell.
fn lengthened(random: &mut Random, sheet: &mut Vec<u8>) {
    let length = random.within(4090, 4101);
    let at = random.within(0, sheet.len());
    let many = length - sheet.len() - random.within(0, 40);
    sheet.splice(at..at, (0..many).map(|_| *random.pick(PASSED_OVER)).collect::<Vec<_>>());
    while sheet.len() < length {
        sheet.insert(random.within(0, sheet.len()), *random.pick(PASSED_OVER));
    }
    if random.percent(20) {
        let at = random.below(length);
        sheet[at] = random.next() as u8;
    }
}

/// Cells, about 81 or very many, with few other bytes between them.
fn mostly_cells(random: &mut Random) -> Vec<u8> {
    let (low, high) = *random.pick(&[(0, 3), (79, 84), (79, 84), (160, 170), (4090, 4100)]);
    let length = random.within(low, high);
    let others = *random.pick(&[0, 0, 1, 5]);
    (0..length).map(|_| if random.percent(others) { *random.pick(b" |-+\r\n\t_=,x/:\0\xff") } else { *random.pick(b"0123456789.") }).collect()
}

/// The clues of the sheet, or the stop; clues that are lent keep beside a stop.
pub fn sheet_differs(second: fn(&[u8]) -> Result<Clues, Stop>, sheet: &Input) -> Option<String> {
    let mut clues = [7; 81];
    let answer = crate::read_sheet(&sheet.0, &mut clues);
    let expected = second(&sheet.0);
    let alike = match &expected {
        Ok(grid) => answer == Ok(counted(grid)) && clues == *grid,
        Err(stop) => answer == Err(*stop) && clues == [7; 81],
    };
    (!alike).then(|| format!("\n  first  {answer:?} {clues:?}\n  second {expected:?}"))
}

/// The plain reader.
pub fn plain_differs(sheet: &Input) -> Option<String> {
    sheet_differs(plain::read_sheet, sheet)
}
