#!/usr/bin/env python3
"""The files that a reader must believe, in reading order, with their lines of definitions: the table of docs/PROOFS.md.

    python3 tools/believed.py          prints the table
    python3 tools/believed.py --check  fails where docs/PROOFS.md has another one

Both fail where a file of specs/ is not in the list, or imports from a crate's specs/code/ or proofs/: a reader who believes the files of the table needs no
others but the kit's. A line of definitions is no import, no comment and not blank. Files of specs/code/ need no belief and are left out.
"""
import os
import re
import sys

ROOT = os.path.dirname(os.path.dirname(os.path.abspath(__file__)))
ORDER = [
    ("stops/specs/Stops", "the paper's table of stops"),
    ("stops/specs/Answer", "answers: a value or a stop, and one call after the other"),
    ("candidates/specs/Masks", "masks of digits"),
    ("candidates/specs/Sets", "module 1: what each call of the set answers"),
    ("grid/specs/Lists", "lists in their order"),
    ("grid/specs/Cells", "cells, who sees whom, the peer table"),
    ("grid/specs/Units", "the unit table and its rule"),
    ("grid/specs/PeerRows", "the promise on the peer table"),
    ("grid/specs/Fillings", "correct fillings and the verifier"),
    ("grid/specs/Marks", "the verifier's marks, and the promise on its one pass"),
    ("steps/specs/Loops", "ranges, first finds"),
    ("steps/specs/Boards", "boards, givens, fresh masks"),
    ("steps/specs/Steps", "a step: a condition and an effect"),
    ("steps/specs/Instances", "module 8: the instances and their steps"),
    ("steps/specs/Passes", "module 8 and 9: passes, sweeps, settling, settled"),
    ("steps/specs/Ported", "modules 3 to 5: naked pairs, box-line, X-wing"),
    ("steps/specs/Singles", "module 6: singles and their reports"),
    ("steps/specs/Chains", "module 11: the chain pass"),
    ("steps/specs/Calls", "the check of a board, what each call answers, lists of calls"),
    ("steps/specs/Entries", "document 02, F-6: entering and rubbing out, lists with them, and the promise on entries"),
    ("steps/specs/Fillings", "how a filled grid stands to a board"),
    ("steps/specs/Published", "the published descriptions of the ported steps"),
    ("steps/specs/Demand2", "demand 2: the ported calls are these"),
    ("steps/specs/Wide", "module 8 in plain words, and the promise that the steps are these"),
    ("steps/specs/XChains", "document 02, F-9: X-chains in words, their search, and the promise that it finds just these"),
    ("steps/specs/SinglesHold", "beyond the demands: what a reported single means"),
    ("steps/specs/StepLists", "document 02, F-10: steps as bytes, the checker of step lists, effective steps"),
    ("steps/specs/StepPromises", "the promise on step lists"),
    ("steps/specs/Difficulty", "document 02, F-14: what each pass removed, points, the difficulty figure"),
    ("steps/specs/DifficultyPromises", "the promise on the figure"),
    ("symmetries/specs/Changes", "document 02, F-13: changes of cells and digits, and the six kinds"),
    ("symmetries/specs/OtherClothes", "the promise on grids in other clothes"),
    ("board/specs/Boards", "opener, accessors, verdict"),
    ("board/specs/Entering", "what entering and rubbing out hand back"),
    ("board/specs/Verdicts", "what a verdict says of the puzzle"),
    ("text/specs/Texts", "module 12: texts"),
    ("text/specs/Sheets", "document 02, F-2: pasted sheets"),
    ("text/specs/SheetLaws", "the promise on sheets"),
    ("record/specs/Sections", "module 14: the sections of a record"),
    ("record/specs/Records", "module 14, document 02, F-8: the record of a board"),
    ("record/specs/Moves", "document 02, F-8: records moved to the other form"),
    ("record/specs/Laws", "the promise on records"),
    ("step_lists/specs/StepChecks", "what the checker of step lists hands back"),
    ("techniques/specs/Reports", "the value that reports stand in"),
    ("techniques/specs/Techniques", "what the calls that report hand back"),
    ("eliminations/specs/Eliminations", "what the calls that remove candidates hand back"),
    ("passes/specs/Settlings", "what settling hands back"),
    ("difficulty/specs/Ratings", "what the difficulty call answers"),
    ("chains/specs/Costly", "that the chain pass can cost a filling"),
    ("calls/specs/StepNumbers", "the calls by number, and what a step hands back"),
    ("calls/specs/Replays", "lists of step numbers"),
    ("calls/specs/Demand3", "demand 3, of what the calls hand back"),
    ("calls/specs/Verdicts", "on which boards a verdict says it"),
    ("trial_rounds/specs/Rounds", "document 02, F-11: trial rounds"),
    ("trial_rounds/specs/Promises", "the promise on trial rounds"),
    ("output/specs/Decimals", "numbers in decimal"),
    ("output/specs/Lent", "bytes over lent ones"),
    ("table_text/specs/Tables", "document 02, F-12: the two tables as bytes"),
    ("card/specs/Layout", "the lines of the card"),
    ("card/specs/Cards", "module 15: the card, and what its verdict says"),
    ("rounds/specs/Lines", "a round: the lines of an input, a line's grid and answer"),
    ("rounds/specs/Answers", "the check of an answer"),
    ("rounds/specs/Rounds", "what comes of a line, its bytes, the whole output"),
    ("rounds/specs/Summaries", "the tally of a round, and the summary's bytes"),
    ("rounds/specs/Promises", "the promises on answers and on pieces that end anywhere"),
    ("cases/specs/Grids", "the paper's grids"),
    ("cases/specs/Bytes", "the bytes that it prints"),
    ("cases/specs/Cases", "P1 to P11"),
    ("sudoku/specs/Codes", "answers as numbers"),
    ("sudoku/specs/Sets", "the exports of the set"),
    ("sudoku/specs/Boards", "the exports of the board"),
    ("sudoku/specs/Entries", "the exports that enter and rub out"),
    ("sudoku/specs/Steps", "the exports of steps and lists"),
    ("sudoku/specs/StepLists", "the export of the checker of step lists"),
    ("sudoku/specs/Settlings", "the export of settling with its step list and its counts"),
    ("sudoku/specs/Texts", "the exports of texts and cards"),
    ("sudoku/specs/Sheets", "the exports of sheets"),
    ("sudoku/specs/Records", "the exports of records"),
    ("sudoku/specs/Rounds", "the export of trial rounds"),
    ("sudoku/specs/Ratings", "the export of the difficulty figure"),
]
PASSED_OVER = re.compile(r"\s*($|--|use |pub use |unfoldable pub use |pub mod |mod )")
CRATES = "|".join(sorted(os.listdir(os.path.join(ROOT, "crates"))))
UNBELIEVED = re.compile(rf"\s*(unfoldable )?(pub )?use Rattle\.({CRATES})\.(specs\.code|proofs)\b")


def lines(path):
    with open(path, encoding="utf8") as spec:
        return sum(1 for line in spec if not PASSED_OVER.match(line))


def check_imports(path):
    with open(path, encoding="utf8") as spec:
        for number, line in enumerate(spec, 1):
            if UNBELIEVED.match(line):
                sys.exit(f"{path}:{number}: a file that a reader must believe imports what needs no belief: {line.strip()}")


def main():
    os.chdir(ROOT)
    believed, code = set(), 0
    for folder, _, files in os.walk("crates"):
        for name in files:
            path = os.path.join(folder, name)
            parts = path.split(os.sep)
            if name.endswith(".antt") and len(parts) > 3 and parts[2] == "specs":
                if parts[3] in ("code", "code.antt"):
                    code += lines(path)
                    continue
                check_imports(path)
                if lines(path):
                    believed.add("/".join(parts[1:])[: -len(".antt")])
    listed = [file for file, _ in ORDER]
    for file in sorted(believed.symmetric_difference(listed)):
        sys.exit(f"{file} is {'not in the list of this script' if file in believed else 'no file of definitions'}")
    rows = ["| file | what it is for | lines |", "|---|---|---|"]
    counts = [lines(f"crates/{file}.antt") for file in listed]
    rows += [f"| {file} | {what} | {n} |" for (file, what), n in zip(ORDER, counts)]
    rows.append(f"| in all | | {sum(counts):,} |")
    table = "\n".join(rows)
    if sys.argv[1:] == ["--check"]:
        with open("docs/PROOFS.md", encoding="utf8") as page:
            if table not in page.read():
                sys.exit("docs/PROOFS.md has another table: tools/believed.py prints it")
    else:
        print(table)
        print(f"specs/code: {code} lines", file=sys.stderr)


main()
