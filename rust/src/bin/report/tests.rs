//! The seams: bytes to data, data to words, data to a page. What is expected comes from the words of the request, from README.md, and from the files that
//! tools/explain.py makes; tools/report.py tries the whole program.

use sudoku::{Cell, Difficulty, Verdict};

use crate::page::page;
use crate::round::{lines, Check, Content, Entry, Line, Totals};
use crate::{drawing, escape, words};

/// README.md's grid with a step of each kind.
const EACH_KIND: &[u8] = include_bytes!("../../../../crates/explain/stdin");
const EXPLAINED: &str = include_str!("../../../../crates/explain/stdout");

/// A filling, and a grid of some of its digits.
const FILLED: &[u8] = b"123456789456789123789123456231564897564897231897231564312645978645978312978312645";

fn with(text: &[u8], changes: &[(usize, u8)]) -> Vec<u8> {
    let mut changed = text.to_vec();
    changes.iter().for_each(|&(at, byte)| changed[at] = byte);
    changed
}

/// The digits and points of a sheet.
fn each_kind() -> Vec<u8> {
    EACH_KIND.iter().copied().filter(|byte| b"0123456789.".contains(byte)).collect()
}

fn entry(line: Line) -> Entry {
    match line.content {
        Content::Grid(entry) => *entry,
        _ => panic!("line {} is no grid", line.number),
    }
}

fn printed(bytes: &[u8]) -> Vec<u8> {
    lines(bytes).flat_map(|line| [words::round_line(&line), b"\n".to_vec()].concat()).collect()
}

fn page_of(bytes: &[u8]) -> String {
    page("", &lines(bytes).collect::<Vec<_>>())
}

// ---- bytes to lines

#[test]
fn what_follows_the_last_newline_is_a_line_where_there_is_anything() {
    let numbers = |bytes: &[u8]| lines(bytes).map(|line| line.number).collect::<Vec<_>>();
    assert_eq!(numbers(b""), []);
    assert_eq!(numbers(b"\n"), [1]);
    assert_eq!(numbers(b"a"), [1]);
    assert_eq!(numbers(b"a\n"), [1]);
    assert_eq!(numbers(b"a\n\nb"), [1, 2, 3]);
    assert_eq!(numbers(b"\n\n"), [1, 2]);
}

#[test]
fn empty_lines_and_remarks_are_no_grids() {
    let kinds: String = lines(b"\n\r\n#\n# a\r\n #\n,\n\r\r\nx")
        .map(|line| match line.content {
            Content::Empty => 'e',
            Content::Remark => 'r',
            Content::Grid(_) => 'g',
        })
        .collect();
    assert_eq!(kinds, "eerrgggg");
}

#[test]
fn a_grid_ends_at_the_first_separator_and_one_carriage_return_is_dropped() {
    let cut = |line: &'static [u8]| {
        let entry = entry(lines(line).next().unwrap());
        (entry.grid, entry.answer)
    };
    assert_eq!(cut(b"ab"), (&b"ab"[..], None));
    assert_eq!(cut(b"ab\r"), (&b"ab"[..], None));
    assert_eq!(cut(b"ab\r\r"), (&b"ab\r"[..], None));
    for line in [b"ab cd".as_slice(), b"ab\tcd", b"ab,cd", b"ab;cd\r"] {
        assert_eq!(cut(line), (&b"ab"[..], Some(&b"cd"[..])));
    }
    assert_eq!(cut(b"ab  ,cd"), (&b"ab"[..], Some(&b" ,cd"[..])));
    assert_eq!(cut(b"ab \r"), (&b"ab"[..], Some(&b""[..])));
    assert_eq!(cut(b" ab"), (&b""[..], Some(&b"ab"[..])));
}

#[test]
fn bad_grids_are_refused_with_the_readers_stop() {
    let refusal = |line: &[u8]| printed(line);
    assert_eq!(refusal(b";"), b"refused 1 0\n");
    assert_eq!(refusal(&[b'.'; 80]), b"refused 1 80\n");
    assert_eq!(refusal(&[b'.'; 82]), b"refused 1 82\n");
    assert_eq!(refusal(&with(FILLED, &[(7, b'x'), (80, b'y')])), b"refused 2 7\n");
    assert_eq!(refusal(&with(FILLED, &[(80, 0)])), b"refused 2 80\n");
    assert_eq!(refusal(&vec![b'1'; 1_000_000]), b"refused 1 1000000\n");
}

// ---- what is said of a grid

#[test]
fn answers_are_checked_in_the_order_of_the_request() {
    let grid = with(FILLED, &[(0, b'.'), (1, b'0'), (9, b'.')]);
    let cell = |number: u32| Cell::try_from(number).unwrap();
    let check = |answer: &[u8]| entry(lines(&[&grid, answer].concat()).next().unwrap()).score.unwrap().answer;
    let given = |answer: &[u8]| check(&[b" ", answer].concat());
    assert_eq!(check(b""), Check::Missing);
    assert_eq!(check(b" "), Check::NotFilled);
    assert_eq!(given(&FILLED[..80]), Check::NotFilled);
    assert_eq!(given(&[FILLED, b"1"].concat()), Check::NotFilled);
    assert_eq!(given(&[FILLED, b" "].concat()), Check::NotFilled);
    assert_eq!(given(&with(FILLED, &[(0, b'0')])), Check::NotFilled);
    assert_eq!(given(&with(FILLED, &[(2, b'9'), (80, b'.')])), Check::NotFilled);
    assert_eq!(given(&with(FILLED, &[(2, b'9'), (80, b'1')])), Check::BreaksClue(cell(2)));
    assert_eq!(given(&with(FILLED, &[(0, b'9'), (80, b'1')])), Check::BreaksClue(cell(80)));
    assert_eq!(given(&with(FILLED, &[(0, b'9')])), Check::Repeats);
    assert_eq!(given(FILLED), Check::Right);
}

#[test]
fn the_lines_are_those_of_the_request() {
    // README.md's card of P10, and the figures below its explained grid
    let p10 = [&[b'.'; 9][..], b"456......789......", &[b'.'; 54]].concat();
    assert!(printed(&p10).starts_with(b"6 0 2 18 open "));
    let line = String::from_utf8(printed(&each_kind())).unwrap();
    assert!(line.starts_with("28 ") && line.ends_with(" open 1+39/53 none\n"), "{line}");
    assert_eq!(printed(&[FILLED, b",", FILLED, b"\r\n"].concat()), b"81 0 1 0 finished none right\n");
    assert_eq!(printed(&[&with(FILLED, &[(0, b'2')]), &b";"[..], FILLED].concat()), b"81 0 1 0 dead none clue 0\n");
    assert_eq!(printed(b"#a\r\n\r\n\n# \xff\0"), b"#a\r\n\r\n\n# \xff\0\n");
}

#[test]
fn totals_count_answers_of_grids_that_were_read() {
    let right = [FILLED, b" ", FILLED, b"\n"].concat();
    let wrong = [FILLED, b" ", &FILLED[1..], b"\n"].concat();
    let round = [&right[..], &wrong, &right, b"x ", FILLED, b"\n#\n\n", &[b'.'; 81], b"\n", &[b'5'; 81]].concat();
    let entries: Vec<Entry> = lines(&round).filter(|line| matches!(line.content, Content::Grid(_))).map(entry).collect();
    let totals = Totals { grids: 6, finished: 3, open: 1, dead: 1, refused: 1, right: 2, not_right: 1 };
    assert_eq!(Totals::of(entries.iter()), totals);
}

#[test]
fn the_steps_are_those_of_explain() {
    let text = each_kind();
    let score = entry(lines(&text).next().unwrap()).score.unwrap();
    let steps = words::steps(&score);
    let told = steps.iter().enumerate().map(|(index, step)| format!("{} {} {}", index + 1, step.title, step.losses.join(" ")));
    let expected: Vec<&str> = EXPLAINED.split("\n\n").next().unwrap().lines().collect();
    assert_eq!(told.collect::<Vec<_>>(), expected);
    assert_eq!(score.board.verdict(), Verdict::Open);
    assert_eq!(score.difficulty, Some(Difficulty { quotient: 1, remainder: 39, cells: 53 }));
}

// ---- foreign text

#[test]
fn foreign_text_stays_text() {
    assert_eq!(escape::bytes(b"<script>alert('1' & \"2\")</script>"), "&lt;script&gt;alert(&#39;1&#39; &amp; &quot;2&quot;)&lt;/script&gt;");
    assert_eq!(escape::bytes(b"a\0b\tc\r\x7f\x1b["), "a\\u{0}b\\tc\\r\\u{7f}\\u{1b}[");
    assert_eq!(escape::bytes(b"\xff\xc3\xa9\xc3"), "\\xffé\\xc3");
    assert_eq!(escape::bytes("a\u{202e}b\u{ffff}\u{85}\u{2028}".as_bytes()), "a\\u{202e}b\\u{ffff}\\u{85}\\u{2028}");
    assert_eq!(escape::text("数独 ⚀"), "数独 ⚀");
}

#[test]
fn very_long_text_is_cut_and_counted() {
    assert_eq!(escape::bytes(&[b'<'; 240]), "&lt;".repeat(240));
    assert_eq!(escape::bytes(&[b'<'; 241]), "&lt;".repeat(240) + "… (241 bytes)");
    assert_eq!(escape::bytes(&[255; 5000]), "\\xff".repeat(240) + "… (5000 bytes)");
}

#[test]
fn no_line_and_no_name_brings_an_element_into_the_page() {
    let foreign: &[u8] = b"<script>alert(1)</script>\n# </h2><script>\n<img src=x onerror=1>;<b>\n\"'&\0\xff\n";
    let answer = [&[b'.'; 81][..], b" </code><script>\n"].concat();
    let page = page("</title><script>.txt", &lines(&[foreign, &answer].concat()).collect::<Vec<_>>());
    assert!(!page.contains("<script") && !page.contains("<img") && !page.contains("</h2><") && !page.contains('\0'));
    assert!(page.contains("<title>Round &lt;/title&gt;&lt;script&gt;.txt</title>"));
    assert!(page.contains("<h2>&lt;/h2&gt;&lt;script&gt;</h2>"));
    assert!(page.contains("<code>&quot;&#39;&amp;\\u{0}\\xff</code>"));
}

// ---- the page

#[test]
fn a_round_without_grids_has_a_page() {
    for round in [b"".as_slice(), b"\n\r\n", b"# nothing\n"] {
        let page = page_of(round);
        assert!(page.contains("<h1>Round</h1>") && page.contains("<b>0</b> grids") && page.contains("no grid") && !page.contains("<section"));
    }
}

#[test]
fn failures_come_first_and_then_what_is_open() {
    let finished = FILLED;
    let wrong = [FILLED, b" 1"].concat();
    let dead = [b'5'; 81];
    let round = [finished, b"\n", &[b'.'; 81], b"\n", &wrong, b"\n", &dead, b"\nx\n", finished, b"\n", &dead, b"\ny"].concat();
    let page = page_of(&round);
    let table = &page[page.find("<table>").unwrap()..page.find("</table>").unwrap()];
    let order: Vec<&str> = table.split("href=\"#line-").skip(1).map(|rest| rest.split('"').next().unwrap()).collect();
    assert_eq!(order, ["5", "8", "4", "7", "3", "2", "1", "6"]);
    let sections: Vec<&str> = page.split("<section id=\"line-").skip(1).map(|rest| rest.split('"').next().unwrap()).collect();
    assert_eq!(sections, ["1", "2", "3", "4", "5", "6", "7", "8"]);
}

#[test]
fn the_first_of_some_remarks_is_a_heading() {
    let page = page_of(b"x\n# A\n#\n## B\nx\n#C");
    let from = page.find("<h2>").unwrap();
    let headings: Vec<&str> = page[from..].lines().filter(|line| line.starts_with("<h2") || line.starts_with("<h3") || line.contains("remark")).collect();
    let expected = ["<h2>The grids</h2>", "<h3>Line 1</h3>", "<h2>A</h2>", "<p class=\"remark\">B</p>", "<h3>Line 5</h3>", "<h2>C</h2>"];
    assert_eq!(headings, expected);
}

/// The drawing of one line.
fn drawn(line: &[u8]) -> String {
    drawing::drawing(&entry(lines(line).next().unwrap()).score.unwrap(), "t")
}

#[test]
fn digits_stand_in_their_cells() {
    // r1c1 is found; the cells of a full grid are clues
    let found = drawn(&with(FILLED, &[(0, b'.')]));
    assert!(found.contains("<text class=\"found\" x=\"15\" y=\"22\">1</text>"));
    assert!(!found.contains("pencil") && !found.contains("href=\"#without\""));
    assert!(drawn(FILLED).contains(std::str::from_utf8(FILLED).unwrap()));
    // nine pencil marks in each cell, in three rows of three
    let open = drawn(&[b'.'; 81]);
    assert!(open.contains("<text class=\"pencil\" x=\"6 15 24 6 15 24 6 15 24 36 "));
    assert!(open.contains(" y=\"9 9 9 18 18 18 27 27 27 9 "));
    assert!(open.contains(&format!(">{}</text>", "123456789".repeat(81))));
}

#[test]
fn marked_cells_are_those_that_the_request_names() {
    let broken = drawn(&[FILLED, b" ", &with(FILLED, &[(10, b'4')])].concat());
    assert!(broken.contains("<use href=\"#broken\" x=\"30\" y=\"30\"/>") && broken.matches("<use").count() == 2);
    // r1c1 sees all nine digits
    let empty = drawn(b"...4567893.......................................................................");
    assert!(empty.contains("<use href=\"#without\" x=\"0\" y=\"0\"/>") && !empty.contains("x=\"90\" y=\"0\""));
    // 2 stands twice in row 1 and in box 1, and a second time in column 1
    let clashing = drawn(&with(FILLED, &[(0, b'2')]));
    for place in ["x=\"0\" y=\"0\"", "x=\"30\" y=\"0\"", "x=\"0\" y=\"90\""] {
        assert!(clashing.contains(&format!("<use href=\"#clash\" {place}/>")));
    }
    assert_eq!(clashing.matches("#clash").count(), 3);
}
