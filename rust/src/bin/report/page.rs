//! A round as one page of HTML that needs nothing else: what it comes to, a table of all grids, and a section for each grid in the round's order.

use sudoku::Cell;

use crate::drawing::{self, drawing};
use crate::escape;
use crate::fields::{answer, refusal, verdict};
use crate::round::{Content, Entry, Line, Score, Totals};
use crate::table::table;
use crate::words::{self, Told};

const STYLE: &str = include_str!("style.css");

/// Nothing is loaded and nothing runs, whatever stands in the page.
const POLICY: &str = "default-src 'none'; style-src 'unsafe-inline'; base-uri 'none'; form-action 'none'";

/// The page of a round that has a name, or none.
pub fn page(name: &str, lines: &[Line]) -> String {
    let title = if name.is_empty() { "Round".to_string() } else { format!("Round {}", escape::text(name)) };
    let grids: Vec<(usize, &Entry)> = lines.iter().filter_map(grid).collect();
    let mut page = head(&title);
    page.push_str(&format!("<body>\n{}<main>\n<h1>{title}</h1>\n", drawing::SHARED));
    page.push_str(&totals(&Totals::of(grids.iter().map(|&(_, entry)| entry))));
    page.push_str(&table(&grids));
    page.push_str(&sections(lines));
    page.push_str(LEGEND);
    page.push_str("</body>\n</html>\n");
    page
}

fn grid<'a>(line: &'a Line) -> Option<(usize, &'a Entry<'a>)> {
    match &line.content {
        Content::Grid(entry) => Some((line.number, entry)),
        Content::Empty | Content::Remark => None,
    }
}

fn head(title: &str) -> String {
    format!(
        "<!DOCTYPE html>\n<html lang=\"en\">\n<head>\n<meta charset=\"utf-8\">\n<meta http-equiv=\"Content-Security-Policy\" content=\"{POLICY}\">\n\
         <meta name=\"viewport\" content=\"width=device-width, initial-scale=1\">\n<title>{title}</title>\n<style>\n{STYLE}</style>\n</head>\n"
    )
}

fn totals(totals: &Totals) -> String {
    let total = |count: usize, words: &str, bad: bool| {
        let class = if bad && count > 0 { " class=\"bad\"" } else { "" };
        format!("<li{class}><b>{count}</b> {words}</li>\n")
    };
    let items = [
        total(totals.grids, if totals.grids == 1 { "grid" } else { "grids" }, false),
        total(totals.finished, "finished", false),
        total(totals.open, "open", false),
        total(totals.dead, "dead", true),
        total(totals.refused, "refused", true),
        total(totals.right, "answers right", false),
        total(totals.not_right, "answers not right", true),
    ];
    format!("<ul class=\"totals\">\n{}</ul>\n", items.concat())
}

/// The sections of all grids in the round's order. A remark is a heading over the grids that follow; those that follow it at once stand below it.
fn sections(lines: &[Line]) -> String {
    let mut sections = String::new();
    let mut headed = Headed::No;
    for line in lines {
        match &line.content {
            Content::Empty => {}
            Content::Remark => headed = remark(&mut sections, line.bytes, headed),
            Content::Grid(entry) => {
                if headed == Headed::No {
                    sections.push_str("<h2>The grids</h2>\n");
                }
                headed = Headed::Yes;
                sections.push_str(&section(line, entry));
            }
        }
    }
    sections
}

/// Whether a heading of the second rank stands above, and whether nothing but remarks follows it.
#[derive(Clone, Copy, PartialEq, Eq)]
enum Headed {
    No,
    JustNow,
    Yes,
}

/// A remark without the signs at its begin; one that says nothing is left out.
fn remark(sections: &mut String, line: &[u8], headed: Headed) -> Headed {
    let signs = line.iter().take_while(|&&byte| byte == b'#').count();
    let text = line[signs..].trim_ascii();
    if text.is_empty() {
        return headed;
    }
    let words = escape::bytes(text);
    let element = if headed == Headed::JustNow { format!("<p class=\"remark\">{words}</p>\n") } else { format!("<h2>{words}</h2>\n") };
    sections.push_str(&element);
    Headed::JustNow
}

fn section(line: &Line, entry: &Entry) -> String {
    let number = line.number;
    let body = match &entry.score {
        Err(stop) => format!("<p>{}</p>\n<p>{}</p>\n", refusal(entry, stop), source(line)),
        Ok(score) => scored(line, entry, score),
    };
    format!("<section id=\"line-{number}\">\n<p class=\"up\"><a href=\"#all\">All grids</a></p>\n<h3>Line {number}</h3>\n{body}</section>\n")
}

/// The drawing, and beside it what is said of the grid.
fn scored(line: &Line, entry: &Entry, score: &Score) -> String {
    let drawing = drawing(score, &caption(line.number, score));
    format!("<div class=\"both\">\n{drawing}<div class=\"facts\">\n{}{}</div>\n</div>\n", facts(line, entry, score), steps(score))
}

/// A line as it came.
fn source(line: &Line) -> String {
    format!("<code>{}</code>", escape::bytes(line.bytes))
}

/// What a drawing shows, for those who do not see it.
fn caption(line: usize, score: &Score) -> String {
    let clues = score.board.clue_count();
    let found = Cell::all().filter(|&cell| score.board.clue(cell).is_none() && score.only_digit(cell).is_some()).count();
    format!("Grid of line {line}: {clues} clues, {found} digits found, {} cells left open", 81 - clues - found)
}

fn facts(line: &Line, entry: &Entry, score: &Score) -> String {
    let fact = |name: &str, value: &str| format!("<dt>{name}</dt><dd>{value}</dd>\n");
    let facts = [
        fact("Verdict", &verdict(score)),
        fact("Difficulty", &words::difficulty(score)),
        fact("Answer", &answer(entry, score)),
        fact("Clues", &score.board.clue_count().to_string()),
        fact("Reported", &score.reported.to_string()),
        fact("Sweeps", &score.settled.sweeps.to_string()),
        fact("Removed", &score.settled.removed.to_string()),
        fact("Text", &source(line)),
    ];
    format!("<dl>\n{}</dl>\n", facts.concat())
}

fn steps(score: &Score) -> String {
    let steps: String = words::steps(score).iter().map(step).collect();
    let summary = match score.settled.steps().len() {
        0 => return "<p>No step removed anything.</p>\n".to_string(),
        1 => "1 step".to_string(),
        count => format!("{count} steps"),
    };
    format!("<details>\n<summary>{summary}</summary>\n<ol>\n{steps}</ol>\n</details>\n")
}

/// A step; what a cell lost is not torn apart at the end of a line.
fn step(step: &Told) -> String {
    let losses: String = step.losses.iter().map(|loss| format!(" <span>{}</span>", escape::text(loss))).collect();
    format!("<li>{}{losses}</li>\n", escape::text(&step.title))
}

const LEGEND: &str = r##"</main>
<footer>
<p>In a drawing the printed clues are bold, the digits that the steps found are lighter and blue, and small digits are the candidates that are left.
A crossed cell has none, a ring is around digits that clash, and a frame is around the clue that the answer does not keep.</p>
<p>Finished: the digits are the puzzle’s one solution. Dead: it has none. Open: the steps do not decide.
Reported: singles that the fresh board shows. Sweeps: how often all steps were tried, until none removed anything. Removed: the candidates that they removed.
Difficulty: points for each removed candidate, divided by the open cells: the whole quotient, the remainder, the cells.</p>
</footer>
"##;
