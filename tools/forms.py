#!/usr/bin/env python3
"""The places that docs/DESIGN-PASS.md counts, point by point, in the sources of a commit.

    python3 tools/forms.py [COMMIT] [--list POINT ..]

COMMIT is HEAD where none is named. Each point has a rule that goes by the text alone, and the page says of each place whether it was changed or
stays, and why. --list prints the places of a point.

1  enums of two cases of which one holds a `Stop` or nothing (Option, Result); struct fields named `answer`; matches on number literals
2  functions whose bodies are the same but for names and numbers (20 tokens or more), by groups
3  `while`
4  functions that only cast or compare: one expression `x as T`, `a == b` or `a != b`, and matches from an enum's cases to numbers
5  facts that stand in the `requires` of three functions or more, and three parameters or more that stand together in four signatures or more
6  structs with an array and a count, a length or an end beside it, or two arrays; signatures with an array and `count`, `held`, `length`, `end` or `at`
7  matches of which three arms or more call a function with the same last argument
8  files Invariants.antt and Answers.antt, and their lines
"""
import argparse
import collections
import itertools
import re
import subprocess

KEYWORDS = set("as break const else enum fn for if impl in let loop match mod mut pub return self Self struct use while true false".split())
TOKEN = re.compile(r'b?"(?:\\.|[^"\\])*"|b?\'(?:\\.|[^\'\\])\'|[A-Za-z_]\w*|\d[\w]*|[^\s\w]')


def sources(commit):
    names = subprocess.run(["git", "ls-tree", "-r", "--name-only", commit, "crates"], capture_output=True, text=True, check=True).stdout.split("\n")
    for name in names:
        if re.fullmatch(r"crates/\w+/src/.*\.rt", name):
            text = subprocess.run(["git", "show", f"{commit}:{name}"], capture_output=True, text=True, check=True).stdout
            yield name, "\n".join(re.sub(r"//.*", "", line) for line in text.split("\n"))


def block(text, start):
    """The text between the braces that open at or after start."""
    open_at = text.index("{", start)
    depth = 0
    for at in range(open_at, len(text)):
        depth += {"{": 1, "}": -1}.get(text[at], 0)
        if depth == 0:
            return text[open_at + 1 : at], at
    raise ValueError("no closing brace")


def functions(text):
    """Name, line, parameters, clauses and body of each function with a body."""
    for found in re.finditer(r"^ *(?:pub )?(?:extern \"C\" )?fn (\w+)", text, re.M):
        at = text.index("(", found.end())
        depth = 0
        for end in range(at, len(text)):
            depth += {"(": 1, ")": -1}.get(text[end], 0)
            if depth == 0:
                break
        parameters = [" ".join(p.split()) for p in re.split(r",\s*(?![^\[(<]*[\])>])", text[at + 1 : end]) if p.strip()]
        here = end + 1
        clauses = []
        while True:
            clause = re.match(r"(?:\[[^\]]*\]|[^{;\[])*?\b(requires|ensures)\b[^{]*", text[here:])
            if not clause or "{" in text[here : here + clause.start(1)]:
                break
            inside, last = block(text, here + clause.end(1))
            clauses.append((clause.group(1), " ".join(inside.split())))
            here = last + 1
        if "{" not in text[here:] or ";" in re.sub(r"\[[^\]]*\]", "", text[here : text.index("{", here)]):
            continue
        yield found.group(1), text.count("\n", 0, found.start()) + 1, parameters, clauses, block(text, here)[0]


def shape(body):
    return tuple(t if t in KEYWORDS or not re.match(r"[\w\"b']", t) else ("0" if t[0].isdigit() else "x") for t in TOKEN.findall(body))


def conjuncts(fact):
    depth, part = 0, ""
    for sign in fact:
        depth += {"(": 1, ")": -1}.get(sign, 0)
        if sign == "×" and depth == 0:
            yield part.strip()
            part = ""
        else:
            part += sign
    yield part.strip()


def places(commit):
    found = collections.defaultdict(list)
    shapes, facts, together = collections.defaultdict(list), collections.defaultdict(list), collections.defaultdict(list)
    for name, text in sources(commit):
        here = name.removeprefix("crates/").replace("/src/", "/")
        for enum in re.finditer(r"\benum (\w+)", text):
            cases = [" ".join(c.split()) for c in re.split(r",\s*(?![^(]*\))", block(text, enum.end())[0]) if c.strip()]
            bare = [c for c in cases if re.fullmatch(r"\w+", c)]
            if (len(cases) == 2 and len(bare) == 1) or any("(Stop)" in c for c in cases) or "Refused" in bare:
                found[1].append(f"{here} enum {enum.group(1)}")
        for struct in re.finditer(r"\bstruct (\w+)(?:<[^>]*>)?\s*\{", text):
            fields = re.findall(r"(\w+):\s*([^,\n]+)", block(text, struct.end() - 1)[0])
            if any(n == "answer" for n, _ in fields):
                found[1].append(f"{here} struct {struct.group(1)}")
            arrays = [n for n, t in fields if re.match(r"(&(mut )?)?(&'\w+ (mut )?)?\[", t)]
            if arrays and any(n in ("count", "length", "end") for n, _ in fields) or (len(arrays) > 1 and "Board" not in struct.group(1)):
                found[6].append(f"{here} struct {struct.group(1)}")
        for fn, line, parameters, clauses, body in functions(text):
            at = f"{here}:{line} {fn}"
            for _ in re.finditer(r"^\s*while\b", body, re.M):
                found[3].append(at)
            for match in re.finditer(r"\bmatch\b", body):
                arms = block(body, match.end())[0]
                if re.search(r"^\s*\d+ =>", arms, re.M):
                    found[1].append(f"{at} match on numbers")
                calls = re.findall(r"=> (?:\w+::)*\w+\((.*)\),?$", arms, re.M)
                last = collections.Counter(c.rsplit(",", 1)[-1].strip() for c in calls)
                if calls and max(last.values()) >= 3:
                    found[7].append(at)
                results = re.findall(r"=> (-?\d+),$", arms, re.M)
                if len(results) >= 2 and len(results) >= arms.count("=>") - 1:
                    found[4].append(f"{at} enum to number")
            if re.fullmatch(r"\s*\*?[\w.]+ (as \w+|[!=]= \*?[\w.]+)\s*", body):
                found[4].append(at)
            tokens = shape(body)
            if len(tokens) >= 20:
                shapes[tokens].append(at)
            for kind, fact in clauses:
                if kind == "requires":
                    for one in conjuncts(fact):
                        facts[one].append(at)
            for three in itertools.combinations(sorted(p for p in parameters if ":" in p), 3):
                together[three].append(at)
            names = {p.split(":")[0].removeprefix("mut ").strip(): p for p in parameters if ":" in p}
            counts = [n for n in names if n in ("count", "held", "length", "end", "at") and re.search(r": usize$", names[n])]
            if counts and any(re.search(r"\[u8(; \d+)?\]|: &mut (Lines|Text)\b", p) for p in parameters):
                found[6].append(at)
    found[2] = [" ~ ".join(group) for group in shapes.values() if len(group) > 1]
    found[5] = [f"{len(group)} functions require {fact}" for fact, group in facts.items() if len(group) > 2 and fact != "⊤"]
    best = {}
    for three, group in together.items():
        if len(group) > 3:
            best.setdefault(tuple(group), set()).update(three)
    found[5] += [f"{len(group)} functions take {'; '.join(sorted(names))}" for group, names in best.items()]
    listed = subprocess.run(["git", "ls-tree", "-r", "--name-only", commit, "crates"], capture_output=True, text=True, check=True).stdout.split("\n")
    for name in listed:
        if name.endswith(("/Invariants.antt", "/Answers.antt")):
            found[8].append(name)
    return found


def main():
    parser = argparse.ArgumentParser(description=__doc__.split("\n")[0])
    parser.add_argument("commit", nargs="?", default="HEAD")
    parser.add_argument("--list", nargs="*", type=int, default=[])
    given = parser.parse_args()
    found = places(given.commit)
    for point in range(1, 9):
        print(f"{point}: {len(found[point])}")
        for place in found[point] if point in given.list else []:
            print(f"   {place}")


if __name__ == "__main__":
    main()
