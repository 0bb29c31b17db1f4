#!/usr/bin/env python3
"""Tries the program report: the page of a round, and its lines.

    python3 tools/report.py PROGRAM [ROUND]

makes pages of rounds with grids of every sort, of odd bytes and of no grid at all, and holds each to what a page must be: elements that are closed in
order, no other elements and attributes than those that it needs, each id once, links that lead somewhere, headings in order, drawings that an XML parser
reads. Then it reads the page back, the digits of the drawings by their places too, and compares it and the lines of `--lines` with what the words of the
documents make of the same bytes: the settling of tools/explain.py and the card of tools/card_check.py. With ROUND, a file of the program round, the lines
are compared with that one's too.

    python3 tools/report.py --sorts

prints a round with a grid of each sort.
"""

import collections
import functools
import html
import html.parser
import random
import re
import subprocess
import sys
import tempfile
import xml.etree.ElementTree

import card_check
import explain
from round import check, outcome, parts_of

# ---- the page as a tree, read strictly

ALONE = {"meta", "path", "circle", "use"}
# of each element, what may stand in it besides text; None for text alone
WITHIN = {
    "html": "head body",
    "head": "meta title style",
    "body": "svg main footer",
    "main": "h1 h2 h3 p ul table section",
    "footer": "p",
    "ul": "li",
    "ol": "li",
    "li": "b span",
    "table": "caption thead tbody",
    "thead": "tr",
    "tbody": "tr",
    "tr": "th td",
    "th": "a",
    "td": "span",
    "span": "code",
    "section": "p h3 div",
    "div": "svg div dl p details",
    "p": "a span code",
    "dl": "dt dd",
    "dd": "span code",
    "details": "summary ol",
    "svg": "defs title use text",
    "defs": "g",
    "g": "path circle",
}
NO_TEXT = {"html", "head", "body", "main", "footer", "ul", "ol", "table", "thead", "tbody", "tr", "section", "div", "dl", "details", "svg", "defs", "g"}
ATTRIBUTES = set("lang charset http-equiv content name class width height aria-hidden id d cx cy r viewbox role x y href scope colspan".split())
REFERENCES = {"amp", "lt", "gt", "quot"}


class Node:
    def __init__(self, tag, attributes):
        self.tag, self.attributes, self.children = tag, attributes, []

    def __iter__(self):
        """The element and all in it, in the page's order."""
        yield self
        for child in self.children:
            if isinstance(child, Node):
                yield from child

    def all(self, tag, name=None):
        return [node for node in self if node.tag == tag and (name is None or name in node.attributes.get("class", "").split())]

    def one(self, tag, name=None):
        (node,) = self.all(tag, name)
        return node

    @property
    def text(self):
        return "".join(child if isinstance(child, str) else child.text for child in self.children)


class Reader(html.parser.HTMLParser):
    def __init__(self):
        super().__init__(convert_charrefs=False)
        self.root = Node("page", {})
        self.stack = [self.root]

    def handle_decl(self, decl):
        assert decl == "DOCTYPE html" and not self.root.children, decl

    def begin(self, tag, attributes, alone):
        names = [name for name, _ in attributes]
        assert len(set(names)) == len(names) and set(names) <= ATTRIBUTES and None not in dict(attributes).values(), (tag, attributes)
        parent = self.stack[-1]
        assert parent is self.root or tag in (WITHIN.get(parent.tag) or "").split(), f"{tag} in {parent.tag}"
        assert alone == (tag in ALONE and tag != "meta"), tag
        node = Node(tag, dict(attributes))
        parent.children.append(node)
        return node

    def handle_starttag(self, tag, attributes):
        node = self.begin(tag, attributes, False)
        if tag not in ALONE:
            self.stack.append(node)

    def handle_startendtag(self, tag, attributes):
        self.begin(tag, attributes, True)

    def handle_endtag(self, tag):
        assert self.stack.pop().tag == tag, f"</{tag}> closes another element"

    def words(self, words):
        assert not words.strip() or self.stack[-1].tag not in NO_TEXT | {"page"}, words
        self.stack[-1].children.append(words)

    def handle_data(self, data):
        assert not set(data) & set("<>&") or self.stack[-1].tag == "style", data
        self.words(data)

    def handle_entityref(self, name):
        assert name in REFERENCES, name
        self.words(html.unescape(f"&{name};"))

    def handle_charref(self, name):
        assert name == "39", name
        self.words("'")

    def unknown(self, data):
        raise AssertionError(data)

    handle_comment = handle_pi = unknown_decl = unknown


def tree(page):
    """The page's root; what is not laid out as it must be is an AssertionError."""
    text = page.decode()
    assert not re.search(r"[\0-\x09\x0b-\x1f\x7f-\x9f\ufdd0-\ufdef\ufffe\uffff]", text)
    assert all(reference.startswith(("&amp;", "&lt;", "&gt;", "&quot;", "&#39;")) for reference in re.findall("&.{0,6}", text))
    reader = Reader()
    reader.feed(text)
    reader.close()
    assert reader.stack == [reader.root]
    for drawing in re.findall("<svg.*?</svg>", text, re.S):
        xml.etree.ElementTree.fromstring(drawing)
    return reader.root.one("html")


def check_layout(page):
    """What holds of every page, whatever the round."""
    head = page.one("head")
    assert page.attributes["lang"] and head.one("title").text and head.children[1].attributes == {"charset": "utf-8"}
    assert any(meta.attributes.get("name") == "viewport" for meta in head.all("meta"))
    ids = [node.attributes["id"] for node in page if "id" in node.attributes]
    assert len(set(ids)) == len(ids)
    links = [(node.tag, node.attributes["href"]) for node in page if "href" in node.attributes]
    assert all(link[0] == "#" and link[1:] in ids for _, link in links), links
    shared = {node.attributes.get("id") for node in page.one("defs")}
    assert all(link[1:] in shared for tag, link in links if tag == "use")
    levels = [int(node.tag[1]) for node in page if re.fullmatch("h[1-6]", node.tag)]
    assert levels.count(1) == 1 and levels[0] == 1 and all(after <= before + 1 for before, after in zip(levels, levels[1:]))
    assert all(node.text.strip() for node in page if re.fullmatch("h[1-6]|title|summary|caption|a|li|dt|dd", node.tag))
    for table in page.all("table"):
        assert table.one("caption") and all(th.attributes["scope"] == "col" for th in table.one("thead").all("th"))
        assert all(th.attributes["scope"] in ("row", "rowgroup") for body in table.all("tbody") for th in body.all("th"))
        assert all(sum(int(cell.attributes.get("colspan", 1)) for cell in row.all("th") + row.all("td")) == 8 for row in table.all("tr"))
    for drawing in page.all("svg", "grid"):
        assert drawing.attributes["role"] == "img" and drawing.children[0].tag == "title" and drawing.children[0].text


# ---- the page read back

NAMES = ["grids", "finished", "open", "dead", "refused", "answers right", "answers not right"]
SIDE = 30


def cell_at(x, y):
    return 9 * (y // SIDE) + x // SIDE


def placed(drawing, name):
    """The characters of a class, each with its place."""
    found = [(int(x), int(y), int(character)) for text in drawing.all("text", name) for x, y, character in strict_zip(text)]
    assert all(0 < x < 270 and 0 < y < 270 for x, y, _ in found)
    return found


def strict_zip(text):
    x, y = text.attributes["x"].split(), text.attributes["y"].split()
    assert len(x) == len(y) == len(text.text)
    return zip(x, y, text.text)


def drawn(drawing):
    """What a drawing shows: the clues, the digits found and the pencil marks by cell, and the marked cells."""
    shown = {}
    for name in ("clues", "found"):
        shown[name] = {cell_at(x, y): digit for x, y, digit in placed(drawing, name)}
        assert len(shown[name]) == len(placed(drawing, name))
    pencil = collections.defaultdict(set)
    for x, y, digit in placed(drawing, "pencil"):
        # the third of the cell that a mark stands in; y is the foot of the digit
        assert digit == 3 * ((y - 1) % SIDE // 10) + x % SIDE // 10 + 1, (x, y, digit)
        pencil[cell_at(x, y)].add(digit)
    shown["pencil"] = dict(pencil)
    uses = [node.attributes for node in drawing.all("use")]
    assert uses.pop() == {"href": "#rulings"}
    shown["marks"] = {(use["href"][1:], cell_at(int(use["x"]), int(use["y"]))) for use in uses}
    return shown


def read_back(page):
    """Totals, rows of the table, and sections, all as text."""
    totals = {li.text.split(" ", 1)[1]: int(li.text.split(" ")[0]) for li in page.one("ul", "totals").all("li")}
    grids = [row for body in page.all("tbody") for row in body.all("tr") if "group" not in row.attributes.get("class", "")]
    rows = [[cell.text for cell in row.all("th") + row.all("td")] for row in grids]
    sections = collections.OrderedDict((int(section.attributes["id"][len("line-") :]), section) for section in page.all("section"))
    return totals, rows, sections


# ---- what must be there


def lines_of(data):
    parts = data.split(b"\n")
    return parts if parts[-1] else parts[:-1]


@functools.lru_cache(None)
def scored(grid):
    """What is known of a grid without its answer; a pair of numbers for one that is refused."""
    card = card_check.card(grid)
    if isinstance(card, tuple):
        return card
    fields = dict(line.split(" ", 1) for line in card.decode().splitlines())
    clues = [0 if byte == ord(".") else byte - ord("0") for byte in grid]
    sets = card_check.fresh(clues)
    steps = list(explain.settle(clues, sets))
    fields.update(grid=clues, sets=sets, steps=[explain.line(0, *step)[2:] for step in steps], difficulty=explain.difficulty(clues, steps))
    return fields


def round_line(line):
    return outcome(line)[0]


def shown(data, most=240):
    """Foreign bytes as a reader of the page sees them."""
    signs = []
    for character in data.decode("utf-8", "surrogateescape"):
        code = ord(character)
        if 0xDC80 <= code <= 0xDCFF:
            signs.append(f"\\x{code - 0xDC00:02x}")
        elif character in "\t\r":
            signs.append({"\t": "\\t", "\r": "\\r"}[character])
        elif re.match(r"[\0-\x1f\x7f-\x9f\u061c\u200e\u200f\u2028-\u202e\u2066-\u2069\ufdd0-\ufdef\ufeff\ufffe\uffff]", character) or code & 0xFFFE == 0xFFFE:
            signs.append(f"\\u{{{code:x}}}")
        else:
            signs.append(character)
    return "".join(signs[:most]) + (f"… ({len(data)} bytes)" if len(signs) > most else "")


def answer_words(answer):
    """The page names cells by row and column."""
    return "clue " + explain.name(int(answer[5:])) if answer.startswith("clue") else answer


def check_drawing(drawing, known, answer):
    clues, sets = known["grid"], known["sets"]
    seen = drawn(drawing)
    assert seen["clues"] == {cell: clue for cell, clue in enumerate(clues) if clue}
    assert seen["found"] == {cell: min(sets[cell]) for cell in range(81) if not clues[cell] and len(sets[cell]) == 1}
    assert seen["pencil"] == {cell: sets[cell] for cell in range(81) if not clues[cell] and len(sets[cell]) > 1}
    broken = {("broken", int(answer[5:]))} if answer.startswith("clue") else set()
    without = {("without", cell) for cell in range(81) if not sets[cell]}
    alone = lambda cell: any(len(sets[cell]) == 1 and sets[peer] == sets[cell] for peer in explain.PEERS[cell])
    clash = {("clash", cell) for cell in range(81) if alone(cell)} - {("clash", cell) for _, cell in broken}
    assert seen["marks"] == broken | without | clash, seen["marks"]


def check_section(section, line):
    grid, answer = parts_of(line)
    known = scored(grid)
    if isinstance(known, tuple):
        assert section.one("span", "bad").text == "refused %d %d" % known and section.all("p")[-1].text == shown(line)
        return
    said = check(grid, answer)
    facts = {dt.text: dd for dt, dd in zip(section.all("dt"), section.all("dd"))}
    wanted = {name.capitalize(): known[name] for name in ("verdict", "difficulty", "clues", "reported", "sweeps", "removed")}
    wanted.update(Answer=answer_words(said), Text=shown(line))
    for name, want in wanted.items():
        got = facts.pop(name)
        assert (got.one("span", "bad") if got.all("span") else got).text == want, (name, got.text, want)
    assert not facts
    assert [li.text for li in section.all("li")] == known["steps"] and len(section.all("details")) == bool(known["steps"])
    check_drawing(section.one("svg", "grid"), known, said)


def rank(line):
    words = round_line(line).decode().split()
    if words[0] == "refused":
        return 0
    if words[4] == "dead":
        return 1
    return 2 if words[6] in ("wrong", "clue") else 3 if words[4] == "open" else 4


def check_page(data, page):
    root = tree(page)
    check_layout(root)
    totals, rows, sections = read_back(root)
    lines = {number: line for number, line in enumerate(lines_of(data), 1) if parts_of(line)}
    said = [round_line(line).decode().split() for line in lines.values()]
    verdicts = collections.Counter(words[0] if words[0] == "refused" else words[4] for words in said)
    answers = collections.Counter(words[6] for words in said if words[0] != "refused")
    wanted = [len(said), verdicts["finished"], verdicts["open"], verdicts["dead"], verdicts["refused"], answers["right"], answers["wrong"] + answers["clue"]]
    assert [totals.get(name, totals.get(name[:-1])) for name in NAMES] == wanted, totals
    assert [int(row[0]) for row in rows] == sorted(lines, key=lambda number: (rank(lines[number]), number))
    for row in rows:
        words = round_line(lines[int(row[0])]).decode().split(" ", 6)
        if words[0] == "refused":
            assert row[1].startswith(" ".join(words) + " "), row
        else:
            assert row[2] == words[5] and row[4:] == words[:4] and row[1].startswith(words[4]) and row[3].startswith(answer_words(words[6])), row
    assert list(sections) == list(lines)
    for number, section in sections.items():
        check_section(section, lines[number])
    remarks = [line.lstrip(b"#").strip(b" \t\r\f") for line in lines_of(data) if line.startswith(b"#")]
    told = [node.text for node in root.one("main") if node.tag == "h2" or node.attributes.get("class") == "remark"]
    assert [text for text in told if text not in ("All grids", "The grids")] == [shown(remark) for remark in remarks if remark], told


# ---- rounds to try

FILLED = explain.A
EASY, EACH_KIND = explain.EASY, explain.EACH_KIND
SOLVED = b"534678912672195348198342567859761423426853791713924856961537284287419635345286179"


def changed(text, *changes):
    data = bytearray(text)
    for at, byte in changes:
        data[at : at + 1] = byte
    return bytes(data)


# A grid of each sort, and the reason that stands beside its failure.
SORTS = [
    (EASY + b" " + SOLVED, None),
    (EASY, None),
    (EACH_KIND + b"\r", None),
    (explain.HARD, None),
    (explain.NEEDS_CLAIMING, None),
    (FILLED + b"\t" + FILLED, None),
    (b"." * 81 + b"," + FILLED, None),
    (explain.P10, None),
    (b"<script>alert(1)</script>", "25 bytes, not 81"),
    (b";", "0 bytes, not 81"),
    (b"x" * 5000, "5000 bytes, not 81"),
    (b"1", "1 byte, not 81"),
    (changed(EASY, (80, b"\0")), "byte 81 is \\u{0}, no digit or point"),
    (changed(EASY, (2, b"<")), "byte 3 is <, no digit or point"),
    (changed(EASY, (0, b"\xff")), "byte 1 is \\xff, no digit or point"),
    (explain.P11, "clues: 5 twice in row 1"),
    (b"5" * 81, "clues: 5 twice in row 1"),
    (explain.P8, "no candidate left in r1c1"),
    (changed(b"." * 81, (33, b"1"), (43, b"1")), "clues: 1 twice in box 6"),
    (changed(b"." * 81, (4, b"2"), (76, b"2")), "clues: 2 twice in column 5"),
    (changed(FILLED, (9, b".")) + b" " + FILLED, None),
    (EASY + b";" + changed(SOLVED, (1, b"5"), (0, b"3")), "5 is printed, not 3"),
    (EASY + b" " + SOLVED[:80], "80 bytes, not 81"),
    (EASY + b"  " + SOLVED, "82 bytes, not 81"),
    (EASY + b" ", "0 bytes, not 81"),
    (EASY + b" " + changed(SOLVED, (80, b"0")), "byte 81 is 0, no digit 1 to 9"),
    (EASY + b" " + changed(SOLVED, (40, b"&")), "byte 41 is &, no digit 1 to 9"),
    (EASY + b" " + changed(SOLVED, (2, b"3")), "3 twice in row 1"),
    (EACH_KIND + b"," + FILLED, "8 is printed, not 1"),
]
ODD = b"# Club round & \"finals\" <b>\r\n\n\r\n#\n## set by \xff\0 \xe2\x80\xae Ana\n%s\n#\n# <script>\n%s\n#last"


def sorts():
    lines = [line for line, _ in SORTS]
    return ODD % (b"\n".join(lines[:9]), b"\n".join(lines[9:]))


def some_clues(source):
    """Clues of the filling, few or many."""
    kept = source.choice([0.3, 0.5, 0.9])
    return bytes(byte if source.random() < kept else ord(".") for byte in FILLED)


def any_round(source, grids):
    """Some lines of anything: grids with and without an answer, a byte changed in either, any bytes."""
    lines = []
    for _ in range(source.randrange(1, 8)):
        grid = source.choice(grids)
        other = changed(FILLED, (source.randrange(81), b"%d" % source.randrange(10)))
        line = grid + source.choice([b"", b" " + FILLED, b";" + other, b"," + source.randbytes(81)])
        damaged = changed(line, (source.randrange(81), bytes([source.choice(b"\0<>&'\"\r\t x-\x80\xff")])))
        lines.append(source.choice([line, line, line, damaged, source.randbytes(source.randrange(40)), b"#" + source.randbytes(20), b""]))
    return source.choice([b"\n", b"\r\n"]).join(lines) + source.choice([b"", b"\n"])


def check_reasons(page):
    """The reasons of SORTS, by hand."""
    sections = read_back(tree(page))[2]
    for section, (line, why) in zip(sections.values(), SORTS):
        assert [span.text for span in section.all("span", "why")] == ([why] if why else []), (line, why)


def output(program, data, *options):
    return subprocess.run([program, *options], input=data, capture_output=True, check=True).stdout


def run(program, round_program=None):
    source = random.Random(1)
    grids = [some_clues(source) for _ in range(6)]
    rounds = [b"", b"\n", b"\r\n\n", b"# alone", b"#", b"x", b"." * 81, sorts()] + [any_round(source, grids) for _ in range(100)]
    for data in rounds:
        lines = b"".join(round_line(line) + b"\n" for line in lines_of(data))
        assert output(program, data, "--lines") == lines, data
        if round_program:
            assert output(round_program, data) == lines, data
        check_page(data, output(program, data))
    check_reasons(output(program, sorts()))
    large = b"\n".join([EASY, EACH_KIND + b" " + FILLED, explain.HARD] * 100)
    page = output(program, large)
    check_layout(tree(page))
    assert len(page) < 12_000 * 300
    with tempfile.NamedTemporaryFile(suffix="<&'\".txt") as file:
        file.write(sorts())
        file.flush()
        named = subprocess.run([program, file.name], stdout=subprocess.PIPE, check=True).stdout
        assert tree(named).one("h1").text == "Round " + file.name.rsplit("/", 1)[1]
    assert subprocess.run([program, "/none/such"], stderr=subprocess.PIPE).returncode == 1
    assert subprocess.run([program, "--other"], stderr=subprocess.PIPE).returncode == 2
    print(f"report: {len(rounds)} rounds, {sum(len(lines_of(data)) for data in rounds)} lines; {len(page) // 300} bytes of page for a grid")


if __name__ == "__main__":
    if sys.argv[1:] == ["--sorts"]:
        sys.stdout.buffer.write(sorts())
    else:
        run(*sys.argv[1:])
