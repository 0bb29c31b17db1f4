//! The table of all grids, failures first.

use sudoku::Verdict;

use crate::fields::{answer, refusal, verdict};
use crate::round::Entry;
use crate::words;

/// Where a grid stands in the table: failures first.
#[derive(Clone, Copy, PartialEq, Eq, PartialOrd, Ord)]
enum Rank {
    Refused,
    Dead,
    AnswerNotRight,
    Open,
    Finished,
}

fn rank(entry: &Entry) -> Rank {
    match &entry.score {
        Err(_) => Rank::Refused,
        Ok(score) if score.board.verdict() == Verdict::Dead => Rank::Dead,
        Ok(score) if score.answer.failed() => Rank::AnswerNotRight,
        Ok(score) if score.board.verdict() == Verdict::Open => Rank::Open,
        Ok(_) => Rank::Finished,
    }
}

/// The groups of the table, each with the last rank that it holds.
const GROUPS: [(&str, Rank); 3] = [("Failures", Rank::AnswerNotRight), ("Open", Rank::Open), ("Finished", Rank::Finished)];

const COLUMNS: &str = "<thead>\n<tr><th scope=\"col\">Line</th><th scope=\"col\">Verdict</th><th scope=\"col\">Difficulty</th><th scope=\"col\">Answer</th>\
    <th scope=\"col\" class=\"number wide\">Clues</th><th scope=\"col\" class=\"number wide\">Reported</th><th scope=\"col\" class=\"number wide\">Sweeps</th>\
    <th scope=\"col\" class=\"number wide\">Removed</th></tr>\n</thead>\n";

/// The table of the grids, each with its line; each number leads to the section of the line.
pub fn table(grids: &[(usize, &Entry)]) -> String {
    if grids.is_empty() {
        return "<h2 id=\"all\">All grids</h2>\n<p>The round has no grid.</p>\n".to_string();
    }
    let mut ranked: Vec<(Rank, &(usize, &Entry))> = grids.iter().map(|grid| (rank(grid.1), grid)).collect();
    // those of one rank stay in the order of their lines
    ranked.sort_by_key(|&(rank, _)| rank);
    let mut table = format!("<h2 id=\"all\">All grids</h2>\n<table>\n<caption>Failures first. A line’s number leads to the grid.</caption>\n{COLUMNS}");
    let mut rest = &ranked[..];
    for (name, last) in GROUPS {
        let (group, others) = rest.split_at(rest.partition_point(|&(rank, _)| rank <= last));
        table.push_str(&rows(name, group.iter().map(|&(_, grid)| *grid)));
        rest = others;
    }
    table.push_str("</table>\n");
    table
}

fn rows<'a>(name: &str, grids: impl ExactSizeIterator<Item = (usize, &'a Entry<'a>)>) -> String {
    let count = grids.len();
    if count == 0 {
        return String::new();
    }
    let rows: String = grids.map(|(line, entry)| row(line, entry)).collect();
    let group = format!("<tr class=\"group\"><th scope=\"rowgroup\" colspan=\"4\">{name}: {count}</th><td colspan=\"4\" class=\"wide\"></td></tr>\n");
    format!("<tbody>\n{group}{rows}</tbody>\n")
}

fn row(line: usize, entry: &Entry) -> String {
    let cells = match &entry.score {
        Err(stop) => format!("<td colspan=\"3\">{}</td><td colspan=\"4\" class=\"wide\"></td>", refusal(entry, stop)),
        Ok(score) => format!(
            "<td>{}</td><td>{}</td><td>{}</td><td class=\"number wide\">{}</td><td class=\"number wide\">{}</td><td class=\"number wide\">{}</td>\
             <td class=\"number wide\">{}</td>",
            verdict(score),
            words::difficulty(score),
            answer(entry, score),
            score.board.clue_count(),
            score.reported,
            score.settled.sweeps,
            score.settled.removed
        ),
    };
    format!("<tr><th scope=\"row\"><a href=\"#line-{line}\">{line}</a></th>{cells}</tr>\n")
}
