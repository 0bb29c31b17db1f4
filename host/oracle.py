#!/usr/bin/env python3
"""The oracle: the Rust original as a module that can be called step by step.

    python3 host/oracle.py OUT

Reads sudoku.rs (../shared/docs/src/src--src--solvers--sudoku.rs.txt beside the checkout, or the path in SUDOKU_RS) and writes it
to OUT with its private functions opened, the model replaced by a list of reports, and what needs the model dropped. Nothing
else is changed. Each edit says how often it must apply; one that applies more or less often is an error.
"""

import os
import pathlib
import re
import sys

HERE = pathlib.Path(__file__).resolve().parent
USUAL = HERE.parent.parent / "shared/docs/src/src--src--solvers--sudoku.rs.txt"

# What the module gains: its own lines, none of the source.
ADDED = """
impl SudokuSolver {
    pub fn set_masks(&mut self, masks: &[u16; 81]) {
        for (cell, &mask) in masks.iter().enumerate() {
            self.candidates[cell / 9][cell % 9].mask = mask;
        }
    }

    pub fn masks(&self) -> [u16; 81] {
        std::array::from_fn(|cell| self.candidates[cell / 9][cell % 9].mask)
    }
}
"""


def source():
    path = pathlib.Path(os.environ.get("SUDOKU_RS") or USUAL)
    if not path.is_file():
        sys.exit(f"oracle.py: no Rust source at {path}; name it in SUDOKU_RS")
    return path.read_text(encoding="utf-8")


def replace(text, pattern, new, times):
    """Every match of the pattern becomes `new`; there must be exactly `times`."""
    text, found = re.subn(pattern, new, text, flags=re.MULTILINE | re.DOTALL)
    if found != times:
        sys.exit(f"oracle.py: {pattern!r} applies {found} times, not {times}: another source?")
    return text


def drop(text, pattern, times=1):
    return replace(text, pattern, "", times)


def drop_item(text, head):
    """The one item whose first line holds `head`, to the brace that closes it at the same indent."""
    return drop(text, rf"^( *)(?:pub )?{head}[^\n]*\{{\n.*?^\1\}}\n")


def opened(text):
    """The functions of the solver, each `pub`; trait functions stay."""
    start = text.index("impl SudokuSolver {")
    return text[:start] + replace(text[start:], r"^    fn ", "    pub fn ", 17)


def oracle(text):
    text = drop(text, r"^//![^\n]*\n", 5)
    text = drop(text, r"^ *///[^\n]*\n", 133)
    text = drop(text, r"^use [^\n]*;\n", 3)

    text = replace(text, r"^    mask: u16,\n\}", "    pub mask: u16,\n}", 1)
    text = replace(text, r"^    model: Model,\n", "    pub reports: Vec<(usize, i32)>,\n", 1)
    text = drop(text, r"^    grid: Vec<Vec<VarId>>,\n")

    text = drop(text, r"^ *let mut (?:model|grid|grid_row) = (?:Model|Vec)[^\n]*\n", 3)
    text = drop(text, r"^( *)let var = if .*?^\1\};\n")
    text = drop(text, r"^ *grid(?:_row)?\.push\([^\n]*\n", 2)
    text = replace(text, r"^ {12}model,\n {12}grid,\n", "            reports: Vec::new(),\n", 1)
    text = drop(text, r"^ *solver\.add_basic_constraints\(\);\n")

    text = drop(text, r"^#\[derive\([^\n]*\)\]\n(?=pub struct SudokuResult)")
    text = drop_item(text, "struct SudokuResult")
    text = drop_item(text, "fn add_basic_constraints")
    text = drop_item(text, r"fn solve\(")
    text = drop_item(text, r"fn solve_sudoku\(")
    text = drop_item(text, r"fn solve_sudoku_string\(")

    text = replace(
        text,
        r"self\.model\.props\.equals\(self\.grid\[row\]\[col\], Val::int\(digit\)\)",
        "self.reports.push((9 * row + col, digit))",
        4,
    )
    text = opened(text)
    drop(text, r"model|VarId|Val::|Instant|self\.grid", 0)
    return text + ADDED


if __name__ == "__main__":
    if len(sys.argv) != 2:
        sys.exit(__doc__)
    pathlib.Path(sys.argv[1]).write_text(oracle(source()), encoding="utf-8")
