"""Checks that the docs say what is there.

- docs/CONTRACTS.md names each edit of must-fail/ in the section of its crate. Each name in the last column of its tables is
  an edit, of must-fail/ or of wrong/, or a test function; so is each in the table of refusals, and each name in its last
  section with two underscores or more. Each name in the other columns is declared in the crate or in one below it: a call,
  a type, a clause, a definition of specs/.
- Each public call of a type that callers name has a mutant, passes its work on to a function that has one, or stands in
  docs/tested.txt, with a test or with the reason why it has none. What that file names is there.
- The code of the pages stands so in a file of crates/, or is what tools/new-map makes of the command that docs/CALLING.md
  shows. The functions in the table below that command are those that it makes.
- docs/CALLS.md and docs/MUTANTS.md are what the sources and the mutants make, and docs/speed.svg what the tables of
  docs/SPEED.md make.
- No page has more words than tools/lib/checks/prose.py allows it, no sentence more than 35, and none has a word that it
  refuses.
- Each call that docs/CALLS.md lists has a caller in a crate above its own, which the gate proves.
- docs/ELSEWHERE.md names the crate of each module that `iddqd_maps` and `iddqd_keyed` re-export.
- No link in README.md, CHANGELOG.md or docs/ leads to a file that isn't there.
- docs/promises.txt names what holds each promise of the parts that tools/lib/pages/promises.py lists; each promise stands in
  its page as it was when what holds it was read, and all that the file names is there.
"""

import glob
import os
import re
import shlex

from lib import edits
from lib.checks.prose import GENERATED, wrong_prose
from lib.mutants import page as mutants
from lib.new_map.mix import read_mix
from lib.new_map.text import text_of
from lib.pages import calls, pictures, speed
from lib.pages.made import stale
from lib.pages.promises import wrong_promises
from lib.repository import TOP, below, crates_in, dead_links, read, sources_of

# The types whose calls callers make: the store, tables, maps, `KeyedItems`, `TriItems`, and what these hand out.
CALLED = {"ItemSet", "ItemIndex", "ItemSlot", "IndexRemap", "GrowHandle", "MapHash", "MapHashTable", "OpenHashTable", "HashTable",
          "MapBTreeTable", "Asking", "OccupiedEntry", "VacantEntry", "PreparedBTreeInsert", "PreparedBTreeRemove",
          "PreparedBTreeMove", "OrderedTable", "PreparedInsert", "PreparedRemove", "Map", "ByHashOf", "ByOrderOf", "ByOrderMultiOf",
          "ByHashMultiOf", "OrdMapBy", "KeyedItems", "TriItems", "Parts", "LinkedTable"}
# The crates that call these and have no calls of their own for others.
CALLERS = {"uses", "table_uses", "iddqd_examples"}
# What makes pages and pictures, with the words of the command that writes them.
MAKERS = {"tools/pages calls": calls, "tools/mutants page": mutants, "tools/pages speed": speed, "tools/pages pictures": pictures}


def pages():
    """The pages that the checks read, by their paths."""
    return ["README.md", "CHANGELOG.md", *sorted(os.path.relpath(path, TOP) for path in glob.glob(f"{TOP}/docs/*.md"))]


def page_text(page):
    return read(f"{TOP}/{page}")


def sections(text):
    """The lines below each heading, by the crate that the heading names."""
    found = {}
    for part in re.split(r"(?m)^## ", text)[1:]:
        named = re.match(r"`(\w+)`", part)
        if named:
            found[named[1]] = found.get(named[1], "") + part
    return found


def last_column(section):
    """The names in backticks in the last cell of each row."""
    rows = [line for line in section.split("\n") if line.startswith("|") and not line.startswith("|---")]
    return {name for row in rows[1:] for name in re.findall(r"`([a-z]\w*)`", row.rstrip().rstrip("|").rpartition("|")[2])}


def cells(section):
    """The cells of each row of a section's tables of calls."""
    rows = (re.split(r"(?<!\\)\|", line)[1:-1] for line in section.split("\n") if re.match(r"\|(?!---)", line))
    return [row for row in rows if row[0].strip() != "call"]


def declared(crate, crates):
    """What the sources of a crate and of those below it declare: calls, types, clauses, definitions, files of lemmas."""
    names = set()
    for low in below([crate], crates):
        for text in map(read, sources_of(low)):
            names |= set(re.findall(r"\b(?:(?:const )?fn|struct|enum|trait|const|type|mod|ghost)\s+(\w+)", text))
            names |= set(re.findall(r"\b(?:ensures|requires)\*? (\w+) \{", text))
            names |= set(re.findall(r"^\s+(\w+)(?=\(|,| \{)", text, re.M))
        for text in map(read, glob.glob(f"{TOP}/crates/{low}/specs/**/*.antt", recursive=True)):
            names |= set(re.findall(r"^\s*(?:(?:abbrev|unfoldable|data|pub) )*([\w-]+)(?= ?:| \()", text, re.M))
            names |= set(re.findall(r"\brecord (\w+)", text))
    return names


def wrong_calls():
    """Names in the tables of calls that nothing declares."""
    page, crates = page_text("docs/CONTRACTS.md"), crates_in(f"{TOP}/crates.txt")
    for crate, section in sections(page).items():
        known = declared(crate, crates)
        for row in cells(section):
            for name in re.findall(r"`(?:\w+::)*([a-zA-Z]\w*)`", "".join(row[:2])):
                if name not in known and name not in crates and name != "for":
                    yield f"docs/CONTRACTS.md: `{crate}` names {name}, which nothing there declares"


def wrong_edits():
    """Mutants of the gate that docs/CONTRACTS.md doesn't name, and names in it that are no mutant and no test."""
    text = page_text("docs/CONTRACTS.md")
    told, tests = sections(text), mutants.test_names()
    for crate in crates_in(f"{TOP}/crates.txt"):
        gate, both = ({os.path.basename(path)[:-len(".edit")] for path in edits.paths(kinds, (crate,))}
                      for kinds in (edits.GATE, edits.KINDS))
        section = told.get(crate, "")
        for edit in sorted(gate - set(re.findall(r"`(\w+)`", section))):
            yield f"docs/CONTRACTS.md: `{crate}` doesn't name the edit {edit}"
        for name in sorted(last_column(section) - both - tests):
            yield f"docs/CONTRACTS.md: `{crate}` names {name}, which is no edit of it and no test"
    refusals = text[text.index("## Refusals"):text.index("## What no clause refuses")]
    for name in sorted(last_column(refusals) - tests):
        yield f"docs/CONTRACTS.md names {name} in its table of refusals, which is no test"
    for name in re.findall(r"`([a-z0-9]+(?:_[a-z0-9]+){2,})`", text[text.index("## What no clause refuses"):]):
        if name not in tests:
            yield f"docs/CONTRACTS.md names {name} at its end, which is no test"


def callers_pages():
    """The text of the pages for those who write programs and contracts over a map."""
    return "\n".join(map(page_text, ["docs/CALLING.md", "docs/KEYS.md", "docs/PROVING.md"]))


def new_map():
    """What tools/new-map makes: of the command in the pages for callers the code and the definitions, and the code of all keys
    in the table below it, with the functions that the table names."""
    page = callers_pages()
    shown = re.search(r"^tools/new-map --in \S+ ((?:.*\\\n)*.*)$", page, re.M)
    if not shown:
        return "", "", "", set()
    name, item, *fields = shlex.split(shown[1].replace("\\\n", " "))
    rows = re.findall(r"^\| `'(\w+(?:: |, ).*?)'`.*? \| (.*) \|$", page[shown.end():], re.M)
    code, definitions, _ = text_of(read_mix(name, item, fields), name)
    of_rows, _, _ = text_of(read_mix(name, item, [argument for argument, _ in rows]), name)
    return code, definitions, of_rows, {name for _, functions in rows for name in re.findall(r"`(\w+_\w+)`", functions)}


def wrong_functions():
    """Functions in that table that tools/new-map doesn't write, and those of the command that the table leaves out."""
    code, _, of_rows, named = new_map()
    if not code:
        yield "no page for callers shows a command of tools/new-map"
    for name in sorted(named - set(re.findall(r"^pub fn (\w+)", of_rows, re.M))):
        yield f"docs/CALLING.md: tools/new-map writes no function {name}"
    for name in sorted(set(re.findall(r"^pub fn (\w+)", code, re.M)) - named - {"add"}):
        yield f"docs/CALLING.md doesn't name the function {name} that tools/new-map writes"


def wrong_code():
    """Code of the pages that isn't there. The README's program is a file of its own, which `tools/tests quick-start` runs."""
    texts = {"rust": [read(path) for path in glob.glob(f"{TOP}/crates/*/src/**/*.rt", recursive=True)],
             "antt": [read(path) for part in ("specs", "proofs")
                      for path in glob.glob(f"{TOP}/crates/*/{part}/**/*.antt", recursive=True)]}
    texts["rust"] += [read(path) for path in glob.glob(f"{TOP}/rust/examples/*.rs")]
    texts["c"] = [read(path) for path in glob.glob(f"{TOP}/tests/c/*.c")]
    for kind, text in zip(("rust", "antt"), new_map()):
        texts[kind].append(text)
    for page in sorted({*pages()} - GENERATED):
        shown = page_text(page)
        if page == "README.md":
            shown = re.sub(r"(?s)\n## A program\n.*?(?=\n## |\Z)", "\n", shown)
        for kind, code in re.findall(r"(?s)```(rust|antt|c)\n(.*?)```", shown):
            if not any(code in text for text in texts[kind]):
                first = code.split("\n")[0]
                yield f"{page}: the code from '{first}' on stands in no file of crates or tests/c"


def unheld_calls():
    """Public calls that no mutant and no test holds."""
    yield from mutants.unheld([crate for crate in crates_in(f"{TOP}/crates.txt") if crate not in CALLERS], CALLED)


def wrong_pages():
    """Comments of which no page can be made, and pages and pictures that aren't as they are made."""
    yield from calls.wrong_comments()
    for command, maker in MAKERS.items():
        for path in stale(maker.made()):
            yield f"{path} isn't as it is made: run {command}"


def uncalled():
    """The calls without a proved caller, a line for each type that has such."""
    for line in calls.uncalled():
        yield f"no proved crate above calls, of {line}"


def re_exported(crate):
    """What a crate re-exports: the path that it is of, and its name there."""
    for path, several, one in re.findall(r"^pub use ([\w:]+)::(?:\{([^}]*)\}|(\w+)(?: as \w+)?);", read(f"{TOP}/crates/{crate}/src/lib.rt"), re.M):
        for name in re.findall(r"(\w+)(?: as \w+)?", several or one):
            yield path, name


def wrong_modules():
    """Modules that docs/ELSEWHERE.md names in another row, or not at all."""
    rows, facade = set(), ""
    for first, path, modules in re.findall(r"(?m)^\|(.*)\| `([\w:]+)` \|(.*)\|$", page_text("docs/ELSEWHERE.md")):
        facade = first.strip(" `") or facade
        rows |= {(facade, path, name) for name in re.findall(r"`(\w+)`", modules)}
    there = {(crate, *it) for crate in ("iddqd_maps", "iddqd_keyed") for it in re_exported(crate)}
    for crate, path, name in sorted(there - rows):
        if (crate, *path.rpartition("::")[::2]) not in rows:
            yield f"docs/ELSEWHERE.md: no row says that {name} of {crate} is of {path}"
    for crate, path, name in sorted(rows - there):
        yield f"docs/ELSEWHERE.md: {crate} re-exports no {name} of {path}"


def wrong_links():
    for page in pages():
        for link in dead_links(f"{TOP}/{page}", TOP):
            yield f"{page} links to {link}, which isn't there"


def check():
    """What is wrong, and a line for where nothing is."""
    wrong = [*wrong_calls(), *unheld_calls(), *wrong_edits(), *wrong_code(), *wrong_functions(), *wrong_pages(), *uncalled(),
             *wrong_modules(), *wrong_links(), *wrong_prose(pages()), *wrong_promises(pages())]
    return wrong, "the docs name each edit of the gate, and say what the sources do"
