//! The exports as crates/sudoku/src/lib.rt has them, as src/exports.rs declares them and as include/sudoku.h does: the same names, each with the same
//! parameters, their kinds, lengths and what is written of them, and the same result.

use std::collections::BTreeMap;

const EXPORTED: &str = include_str!("../../crates/sudoku/src/lib.rt");
const DECLARED: &str = include_str!("../src/exports.rs");
const HEADER: &str = include_str!("../../include/sudoku.h");
const PAGE: &str = include_str!("../../host/README.md");

/// Of each export the kinds of its parameters and then that of its result: a number, `bool`, or where a pointer leads, such as `const i32 81`, with no
/// length for the bytes of a slice, whose length is the next parameter.
type Exports = BTreeMap<String, Vec<String>>;

fn words(text: &str) -> String {
    text.split_whitespace().collect::<Vec<_>>().join(" ")
}

/// What stands between two marks, as often as they do.
fn between<'a>(text: &'a str, open: &'a str, close: &'a str) -> impl Iterator<Item = &'a str> {
    text.split(open).skip(1).map(move |rest| rest.split(close).next().unwrap())
}

/// The functions of a text in Rust's order: `NAME(PARAMETER: KIND, ..) -> RESULT` up to the mark.
fn rust_exports(text: &str, open: &str, close: &str, kinds: impl Fn(&str) -> Vec<String>) -> Exports {
    between(text, open, close)
        .map(|function| {
            let (name, rest) = function.split_once('(').unwrap();
            let (parameters, result) = rest.rsplit_once(')').unwrap();
            let parameters = parameters.split(',').filter_map(|parameter| parameter.split_once(':'));
            let mut found: Vec<String> = parameters.flat_map(|(_, kind)| kinds(kind.trim())).collect();
            found.push(result.trim().trim_start_matches("-> ").to_string());
            (name.to_string(), found)
        })
        .collect()
}

/// `&mut [u16; 81]` is `mut u16 81`; a slice is where its bytes are and their length.
fn exported() -> Exports {
    let kinds = |kind: &str| {
        let Some(lent) = kind.strip_prefix('&') else { return vec![kind.to_string()] };
        let (access, lent) = lent.strip_prefix("mut ").map_or(("const", lent), |lent| ("mut", lent));
        let lent = lent.trim_matches(['[', ']']);
        match lent.split_once("; ") {
            Some((number, length)) => vec![format!("{access} {number} {length}")],
            None => vec![format!("{access} {lent}"), "usize".to_string()],
        }
    };
    rust_exports(EXPORTED, "pub extern \"C\" fn ", "\n    ensures", kinds)
}

/// `&mut Masks` by the type of that name; `*const u8` is where the bytes of a slice are.
fn declared() -> Exports {
    let types: BTreeMap<&str, String> = between(DECLARED, "type ", ";\n")
        .filter_map(|line| line.split_once(" = ["))
        .map(|(name, array)| (name, array.trim_end_matches(']').replace("; ", " ")))
        .collect();
    let kinds = |kind: &str| {
        if let Some(pointer) = kind.strip_prefix('*') {
            return vec![pointer.to_string()];
        }
        let Some(lent) = kind.strip_prefix('&') else { return vec![kind.to_string()] };
        let (access, named) = lent.strip_prefix("mut ").map_or(("const", lent), |named| ("mut", named));
        vec![format!("{access} {}", types[named])]
    };
    rust_exports(declarations(), "safe fn ", ";", kinds) // `safe fn` and `unsafe fn`
}

fn declarations() -> &'static str {
    DECLARED.split_once("extern \"C\" {").unwrap().1.split_once("\n}").unwrap().0
}

/// `const int32_t clues[SUDOKU_CELLS]` is `const i32 81`.
fn header() -> Exports {
    let text: String = HEADER.split("/*").map(|part| part.split_once("*/").map_or(part, |(_, after)| after)).collect();
    let sizes: BTreeMap<&str, &str> = text.lines().filter_map(|line| line.trim().trim_end_matches([' ', ',']).split_once(" = ")).collect();
    let number = |name: &str| match name {
        "void" => String::new(),
        "uint64_t" => "usize".to_string(),
        "sudoku_bool" => "bool".to_string(),
        name => name.trim_end_matches("_t").replace("uint", "u").replace("int", "i"),
    };
    let kind = |parameter: &str| {
        let (access, rest) = parameter.strip_prefix("const ").map_or(("mut", parameter), |rest| ("const", rest));
        let (name, rest) = rest.split_once(' ').unwrap();
        match rest.split_once('[') {
            Some((_, size)) => format!("{access} {} {}", number(name), sizes[size.trim_end_matches(']')]),
            None if rest.starts_with('*') => format!("{access} {}", number(name)),
            None => number(name),
        }
    };
    let functions = text.rsplit_once("};").unwrap().1.split(';').map(words).filter(|function| function.contains('('));
    functions
        .map(|function| {
            let (result, rest) = function.split_once(' ').unwrap();
            let (name, parameters) = rest.trim_end_matches(')').split_once('(').unwrap();
            let mut found: Vec<String> = parameters.split(", ").filter(|&parameter| parameter != "void").map(kind).collect();
            found.push(number(result));
            (name.to_string(), found)
        })
        .collect()
}

#[test]
fn the_exports_are_those_of_the_header() {
    let (exported, declared, header) = (exported(), declared(), header());
    assert_eq!(exported["sudoku_run"], ["const u8", "usize", "const i32 81", "const i32 81", "mut u16 81", "mut i64 4", ""]);
    assert_eq!((exported["sudoku_verify"].join(", "), exported["sudoku_abi"].join(", ")), ("const i32 81, bool".to_string(), "u32".to_string()));
    assert_eq!(exported.len(), EXPORTED.matches("#[unsafe(no_mangle)]").count());
    assert_eq!(declared, exported);
    assert_eq!(header, exported);
}

#[test]
fn what_takes_a_pointer_is_not_declared_safe() {
    for line in declarations().lines().filter(|line| !line.is_empty()) {
        assert_eq!(line.starts_with("    unsafe fn "), line.contains('*'), "{line}");
    }
}

#[test]
fn the_header_has_the_number_of_these_signatures() {
    assert!(HEADER.contains(&format!("#define SUDOKU_ABI {}u\n", sudoku::calls::ABI)));
}

#[test]
fn the_page_names_each_export() {
    let rows: Vec<&str> = PAGE.lines().filter_map(|line| line.strip_prefix("| `sudoku_")?.split('`').next()).collect();
    let names: Vec<String> = header().into_keys().collect();
    let mut named: Vec<String> = rows.iter().map(|name| format!("sudoku_{name}")).collect();
    named.sort();
    assert_eq!(named, names);
}
