"""What holds the promises of the pages: docs/promises.txt, which `tools/check docs` reads.

    tools/pages promises                lists the promises that changed since what holds them was read
    tools/pages promises --read PAGE..  marks those of a page as read: whoever calls it has read both

Below the path of a page stand its promises: a mark, the first words of a paragraph, of an item or of a row, and indented
what holds it, parted by semicolons:

    docs/GUARANTEES.md

    1f0c9a Answers are exact. A look-up finds the item
        iddqd_map Map::find ensures; spec iddqd_map Map.IsMap

A row is named by its first cell, as `| CELL |`. The mark is made of all words of the promise: if one changes, the check
says so. What holds it is one of

    CRATE CALL CLAUSE, CLAUSE    a function of the crate, `name`, `Type::name` or `Trait::name`, has these clauses; if CALL
                                 is a pattern, as of names of files, each function that fits. `ensures` is the clause without
                                 a name, and `no requires` says that it has no condition
    lemma CRATE FILE.NAME        crates/CRATE/proofs/FILE.antt has this lemma, or names it as one that it re-exports
    spec CRATE FILE.NAME         crates/CRATE/specs/FILE.antt defines this
    test PLACE/FILE NAME         a test in FILE below tests/PLACE or crates/PLACE
    file PATH                    a program that is run by hand, or an example that the gate proves
    nothing: WORDS               no clause and no test can hold it, for this reason
"""

import glob
import hashlib
import os
import re
from collections import namedtuple
from fnmatch import fnmatchcase
from functools import cache

from lib import rt_functions
from lib.commands import Parser, refuse
from lib.repository import TOP, read, sources_of, write

FILE = "docs/promises.txt"
# The parts of pages of which each of these has a promise in the file: a page, a heading (none for the whole page below its
# first heading), and which blocks.
PARTS = [("docs/GUARANTEES.md", "Four guarantees", {"paragraph"}),
         ("docs/GUARANTEES.md", "What is proved, tested, neither", {"item"}),
         ("docs/FROM_C.md", "What is proved", {"paragraph", "row"}),
         ("docs/LAYER.md", "What is proved", {"paragraph", "row"}),
         ("docs/CALLING.md", "A collection for n items", {"item"}),
         ("docs/PROVING.md", "The names that a key index gives", {"row"}),
         ("docs/PROVING.md", "What to cite", {"row"}),
         ("docs/PROVING.md", "Answer files and lemmas for callers", {"row"}),
         ("docs/KEYS.md", "The kinds of key", {"row"})]
# How many of its words name a promise.
NAMING = 8
# A block of a page: which kind, its words, and for a row its first cell.
Block = namedtuple("Block", "kind text cell")
# A promise: its page, its mark, its first words, and what holds it.
Promise = namedtuple("Promise", "page mark words things")


def without_code(text):
    """A page without its blocks of code, comments and pictures of text."""
    text = re.sub(r"(?ms)^ *```.*?^ *```\n?", "", text)
    text = re.sub(r"(?s)<!--.*?-->\n?", "", text)
    return re.sub(r"(?m)(?:\A|(?<=\n\n))(?: {4}.*\n+)+", "", text)


def cell_of(row):
    """The first cell of a row."""
    return re.split(r"(?<!\\)\|", row)[1].strip()


def blocks(text):
    """The paragraphs, items and rows of a page's text, without code and headings."""
    found = []
    for part in re.split(r"\n{2,}", re.sub(r"(?m)^#+ .*$", "\n", without_code(text)).strip("\n")):
        if part.startswith("  ") and found and found[-1].kind == "item":
            found[-1] = Block("item", f"{found[-1].text} {' '.join(part.split())}", None)
            continue
        table = []
        for piece in re.split(r"(?m)^(?=- |\d+\. |\|)", part):
            words = " ".join(piece.split())
            if piece.startswith("|"):
                table.append(Block("row", words, cell_of(words)))
            elif words:
                found.append(Block("item" if re.match(r"- |\d+\. ", piece) else "paragraph", words, None))
        found += table[2:]
    return found


def named(block):
    """The words that name a block."""
    return f"| {block.cell} |" if block.kind == "row" else " ".join(re.sub(r"^(?:- |\d+\. )", "", block.text).split()[:NAMING])


def mark(block):
    """What changes with any word of a block."""
    return hashlib.sha256(block.text.encode()).hexdigest()[:6]


def promises():
    """The promises of the file."""
    page, found = None, []
    for line in read(f"{TOP}/{FILE}").split("\n"):
        if line.startswith("    "):
            found[-1].things.extend(it.strip() for it in line.split(";") if it.strip())
        elif re.match(r"[0-9a-f]{6} ", line):
            found.append(Promise(page, line[:6], line[7:], []))
        elif line and not line.startswith("#"):
            page = line
    return found


def lines_of(promise):
    """The lines of a promise in the file."""
    lines, things = [f"{promise.mark} {promise.words}"], []
    for thing in [*promise.things, None]:
        if thing is None or len("; ".join([*things, thing])) > 115:
            lines.append("    " + "; ".join(things) + ("" if thing is None else ";"))
            things = []
        things.append(thing)
    return lines


def save(found):
    """Writes the promises to the file, page by page."""
    parts = []
    for page in dict.fromkeys(it.page for it in found):
        parts.append("\n\n".join([page, *("\n".join(lines_of(it)) for it in found if it.page == page)]))
    head = "# What holds each promise of the pages: `tools/pages promises --help` says how to read it."
    write(f"{TOP}/{FILE}", "\n\n".join([head, *parts]) + "\n")


@cache
def heads(crate):
    """The functions of a crate, each by its block and name, with its head."""
    return [(f"{it.owner}::{it.name}", text[it.start : it.body])
            for text in map(read, sources_of(crate)) for it in rt_functions.functions(text).values()]


@cache
def tests(place):
    """The tests in a file of a place."""
    folder, _, file = place.partition("/")
    paths = [path for top in ("tests", "crates")
             for path in glob.glob(f"{TOP}/{top}/{folder}/**/{file}.rt*", recursive=True)]
    return {name for path in paths for name in re.findall(r"#\[test\]\n(?:\s*#\[.*\n)*\s*fn (\w+)", read(path))}


def has_clause(head, clause):
    """Whether a function's head has this clause."""
    if clause == "no requires":
        return not re.search(r"\brequires\b", head)
    name = "" if clause == "ensures" else f" {re.escape(clause)}"
    return re.search(rf"\bensures\*?{name} \{{", head)


def defined(path, name):
    """Whether a file of definitions or lemmas declares this name, or re-exports it."""
    own = rf"^\s*(?:(?:abbrev|unfoldable|data|record|pub) )+{re.escape(name)}(?![\w-])"
    re_exported = rf"^pub use .*[{{ ]{re.escape(name)}[,}}]"
    return os.path.exists(path) and re.search(f"{own}|{re_exported}", read(path), re.M)


def lacking(crate, call, clauses):
    """Of the functions that a call fits, the clauses that one of them lacks: all if there is no such function."""
    fitting = [head for name, head in heads(crate) if fnmatchcase(name, call if "::" in call else f"::{call}")]
    names = [name for name in clauses if not fitting or not all(has_clause(head, name) for head in fitting)]
    return f"{crate} {call} {', '.join(names)}" if names else None


def missing(thing):
    """What isn't there of a thing that holds a promise; nothing if all is."""
    kind, _, named = thing.partition(" ")
    place, _, name = named.partition(" ")
    if kind == "nothing:":
        return None
    if kind in ("lemma", "spec"):
        file, _, name = name.partition(".")
        there = defined(f"{TOP}/crates/{place}/{'proofs' if kind == 'lemma' else 'specs'}/{file}.antt", name)
    elif kind == "test":
        there = name in tests(place)
    elif kind == "file":
        there = os.path.exists(f"{TOP}/{named}")
    else:
        return lacking(kind, place, name.split(", "))
    return None if there else thing


def part_of(page, heading):
    """The text of a page below a heading; nothing if it has no such part."""
    inner = r"\Z" if heading is None else r"^## |\Z"
    found = re.search(rf"(?ms)^## {'' if heading is None else re.escape(heading) + '$'}(.*?)(?={inner})", read(f"{TOP}/{page}"))
    return found and found[1]


def unheld():
    """The blocks of the parts for which the file has no promise, and parts that aren't there."""
    told = {(it.page, it.words) for it in promises()}
    for page, heading, kinds in PARTS:
        part = part_of(page, heading) if os.path.exists(f"{TOP}/{page}") else None
        if part is None:
            yield f"{page} has no part '{heading or 'of its own'}', which tools/lib/pages/promises.py names"
        for block in blocks(part or ""):
            if block.kind in kinds and not block.text.endswith(":") and (page, named(block)) not in told:
                yield f"{page}: {FILE} doesn't name what holds '{named(block)}'"


@cache
def blocks_of(page):
    """The blocks of a page; none if there is no such page."""
    return blocks(read(f"{TOP}/{page}")) if os.path.exists(f"{TOP}/{page}") else []


def fitting(promise):
    """The blocks of its page that a promise names."""
    return [block for block in blocks_of(promise.page) if named(block) == promise.words]


def wrong_promises(pages):
    """Promises that the file lacks, those that changed, and names in it that nothing has."""
    yield from unheld()
    for page in pages:
        if "held by:" in read(f"{TOP}/{page}"):
            yield f"{page} has a comment 'held by:': what holds a promise stands in {FILE}"
    for it in promises():
        marks = [mark(block) for block in fitting(it)]
        if it.mark not in marks:
            what = "changed: read what holds it, then run tools/pages promises --read" if marks else "isn't there"
            yield f"{it.page}: the promise '{it.words}' {what}"
        if not it.things:
            yield f"{it.page}: {FILE} names nothing that holds '{it.words}'"
        for thing in filter(None, map(missing, it.things)):
            yield f"{it.page}: '{it.words}' is held by '{thing}', which isn't there"


def run(words):
    parser = Parser(__doc__)
    parser.add_argument("--read", metavar="PAGE", nargs="+", default=[])
    pages = parser.parse_args(words).read
    found = promises()
    unknown = {*pages} - {it.page for it in found}
    if unknown:
        refuse(f"{FILE} has no page '{min(unknown)}'")
    for at, it in enumerate(found):
        marks = [mark(block) for block in fitting(it)]
        if marks and it.mark not in marks:
            print(f"{it.page}: {it.words}")
            found[at] = it._replace(mark=marks[0]) if it.page in pages else it
    if pages:
        save(found)
