//! The drawing of a grid as SVG. Rulings and marks are drawn once, in `SHARED`, and used by every drawing; all digits of a sort are one text whose
//! characters have a place each. The page's style has the classes.

use sudoku::{Cell, Digit};

use crate::round::{Check, Score};

/// A cell is so wide and high.
const SIDE: usize = 30;

/// What all drawings use: the rulings, and what marks a cell.
pub const SHARED: &str = r##"<svg class="shared" width="0" height="0" aria-hidden="true"><defs>
<g id="rulings"><path class="thin" d="M30 0v270M60 0v270M120 0v270M150 0v270M210 0v270M240 0v270
M0 30h270M0 60h270M0 120h270M0 150h270M0 210h270M0 240h270"/>
<path class="thick" d="M0 0h270v270h-270zM90 0v270M180 0v270M0 90h270M0 180h270"/></g>
<g id="without"><path class="tint" d="M0 0h30v30h-30z"/><path class="cross" d="M6 6l18 18M24 6l-18 18"/></g>
<g id="clash"><path class="tint" d="M0 0h30v30h-30z"/><circle class="ring" cx="15" cy="15" r="12.5"/></g>
<g id="broken"><path class="tint" d="M0 0h30v30h-30z"/><path class="frame" d="M3 3h24v24h-24z"/></g>
</defs></svg>
"##;

/// The left upper corner of a cell.
fn corner(cell: Cell) -> (usize, usize) {
    (SIDE * (cell.index() % 9), SIDE * (cell.index() / 9))
}

/// Characters with their places.
#[derive(Default)]
struct Placed {
    characters: String,
    x: Vec<String>,
    y: Vec<String>,
}

impl Placed {
    fn put(&mut self, digit: Digit, x: usize, y: usize) {
        self.characters.push_str(&digit.to_string());
        self.x.push(x.to_string());
        self.y.push(y.to_string());
    }

    /// In the middle of a cell.
    fn put_in(&mut self, cell: Cell, digit: Digit) {
        let (x, y) = corner(cell);
        self.put(digit, x + 15, y + 22);
    }

    /// A pencil mark: the cell's own three rows of three.
    fn mark(&mut self, cell: Cell, digit: Digit) {
        let (x, y) = corner(cell);
        let place = usize::from(digit.get()) - 1;
        self.put(digit, x + 6 + 9 * (place % 3), y + 9 + 9 * (place / 3));
    }

    fn text(&self, class: &str) -> String {
        if self.characters.is_empty() {
            return String::new();
        }
        format!("<text class=\"{class}\" x=\"{}\" y=\"{}\">{}</text>\n", self.x.join(" "), self.y.join(" "), self.characters)
    }
}

/// The drawing of a scored grid; its title is for those who do not see it.
pub fn drawing(score: &Score, title: &str) -> String {
    let mut clues = Placed::default();
    let mut found = Placed::default();
    let mut pencil = Placed::default();
    for cell in Cell::all() {
        match (score.board.clue(cell), score.only_digit(cell)) {
            (Some(clue), _) => clues.put_in(cell, clue),
            (None, Some(digit)) => found.put_in(cell, digit),
            (None, None) => score.candidates(cell).iter().for_each(|digit| pencil.mark(cell, digit)),
        }
    }
    let texts = [clues.text("clues"), found.text("found"), pencil.text("pencil")].concat();
    let begin = "<svg class=\"grid\" viewBox=\"-2 -2 274 274\" role=\"img\">";
    format!("{begin}<title>{title}</title>\n{}{texts}<use href=\"#rulings\"/></svg>\n", marks(score))
}

fn marks(score: &Score) -> String {
    Cell::all().filter_map(|cell| Some(mark(marked(score, cell)?, cell))).collect()
}

fn mark(name: &str, cell: Cell) -> String {
    let (x, y) = corner(cell);
    format!("<use href=\"#{name}\" x=\"{x}\" y=\"{y}\"/>\n")
}

/// The mark of a cell: its clue is broken by the answer, it has no candidate, or its digit clashes.
fn marked(score: &Score, cell: Cell) -> Option<&'static str> {
    if score.answer == Check::BreaksClue(cell) {
        return Some("broken");
    }
    if score.candidates(cell).is_empty() {
        return Some("without");
    }
    clashes(score, cell).then_some("clash")
}

/// Another cell of one of its units has the same digit alone.
fn clashes(score: &Score, cell: Cell) -> bool {
    let digit = score.only_digit(cell);
    let sees = |other: Cell| other.row() == cell.row() || other.column() == cell.column() || other.block() == cell.block();
    digit.is_some() && Cell::all().any(|other| other != cell && sees(other) && score.only_digit(other) == digit)
}
