#!/usr/bin/env python3
"""Turns the repository's own names to the spelling of today's Rattle: words in snake case.

usage: python3 tools/respell.py            at the top of the repository, once, right after the kit's port.py

A name of specs/ or proofs/ that has a capital inside a word (`unitCell`, `at-upTo`) is turned to snake case
(`unit_cell`, `at-up_to`) wherever it stands: in .antt and .rt files outside strings, in edits and in pages. Types keep
their capitals, names of Rust code and dashes of lemmas stay. A lemma that would then have its function's name gets
`_lem` (LEMMAS).
"""
import os
import re

TOKEN = re.compile(r"[^\W\d]['\w\-]*")
HUMP = re.compile(r"^[a-z][a-z0-9_']*[a-z0-9][A-Z]|^[a-z][A-Z]")
SIGNATURE = re.compile(r"(?m)^\s*(?:(?:pub|abbrev|unfoldable)\s+)*([^\s:(){}=,;]+(?:\s+[^\s:(){}=,;]+)*)\s+:\s")
STRING = re.compile(r'b?"(?:\\.|[^"\\])*"')

# lemmas that are called as a function will be
LEMMAS = """box_in box_of fresh_at handed_out is_digit is_open joined_at lone_row mask_at no_digit no_number none_of on_line
pair_turn passed_over put_six same_number same_row""".split()


def files(root, folders, endings):
    for folder in folders:
        if os.path.isfile(os.path.join(root, folder)):
            yield os.path.join(root, folder)
        for where, inside, names in os.walk(os.path.join(root, folder)):
            inside[:] = sorted(d for d in inside if d not in ("out", "target", ".git"))
            for name in sorted(names):
                if name.endswith(endings):
                    yield os.path.join(where, name)


def has_hump(name):
    return any(HUMP.match(part) for part in name.split("-"))


def turned(name):
    parts = []
    for part in name.split("-"):
        if HUMP.match(part):
            part = re.sub(r"([a-z0-9])([A-Z])", r"\1_\2", part)
            part = re.sub(r"([A-Z])([A-Z][a-z])", r"\1_\2", part).lower()
        parts.append(part)
    return "-".join(parts)


def read(path):
    with open(path, encoding="utf-8") as f:
        return f.read()


def own_names(root):
    names = set()
    for path in files(root, ["crates"], (".antt",)):
        text = read(path)
        for match in SIGNATURE.finditer(text):
            names.update(n for n in match.group(1).split() if has_hump(n))
        # lemmas that cite such a name within theirs, and names bound in a term
        names.update(t for t in TOKEN.findall(text) if "-" in t and has_hump(t))
    return names


def main():
    root = os.getcwd()
    if not os.path.isdir(os.path.join(root, "crates")):
        raise SystemExit("run it at the top of the repository")
    names = own_names(root)
    words = {n: turned(n) for n in names} | {"isFree": "is_free"}

    def word(match):
        return words.get(match.group(0), match.group(0))

    lemma = re.compile(r"(?<![\w'.:\-])(" + "|".join(LEMMAS) + r")(?![\w'\-])(?!\.)")
    for path in files(root, ["crates", "tools", "docs", "README.md"], (".antt", ".rt", ".edit", ".md")):
        text = old = read(path)
        if path.endswith(".antt"):
            text = lemma.sub(lambda m: m.group(1) + "_lem", text)
        if path.endswith(".rt"):
            at, parts = 0, []
            for string in STRING.finditer(text):
                parts += [TOKEN.sub(word, text[at : string.start()]), string.group(0)]
                at = string.end()
            text = "".join(parts) + TOKEN.sub(word, text[at:])
        else:
            text = TOKEN.sub(word, text)
        if text != old:
            with open(path, "w", encoding="utf-8") as f:
                f.write(text)


if __name__ == "__main__":
    main()
