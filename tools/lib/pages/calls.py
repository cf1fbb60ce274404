"""Writes docs/CALLS.md from the sources: the public calls of maps, collections and parts of a map, and what these answer.

    tools/pages calls                 writes the page
    tools/pages calls --check         fails where the page isn't what the sources make
    tools/pages calls --only CRATE..  prints the page as these crates alone make it, as `tools/copy-to` copies it
    tools/pages calls --uncalled      lists the calls that no proved crate above the type's own makes, and fails if there are

A call's comment begins with what it does; a paragraph "Cost: .." says what it costs, comparisons, hashes and memory, and one
"Asks: .." what its `requires` ask. --check fails where one is missing.

A caller is found by its text: a call on an argument, a variable or a field whose type names the map, or on the map itself.
"""

import glob
import os
import re
import sys
from functools import cache

from lib import rt_functions
from lib.commands import Parser, refuse
from lib.pages.made import write_or_check
from lib.pages.map_calls import INDEXES, KeyIndexes, fits, impls, own_call
from lib.repository import ADDED, MAPS, TOP, crate_of, crates_in, file_of, own_sources, read, sources_of, stands_for

PAGE = "docs/CALLS.md"
HEAD = """# All calls

Every public call of the maps, of `KeyedItems` and of `TriItems`, as each of them has it: what it does, what it costs, and what
it asks of its caller. Then come a map's parts, its iterators, and what calls answer. `tools/pages calls` makes this page
from the sources, where each call's comment goes on and its contract stands. [CALLING.md](CALLING.md) shows how to use the
calls, and [MUTANTS.md](MUTANTS.md) names the wrong bodies that their contracts refuse.

The costs in these words:

- A **look-up** by a hashed key hashes the query once, and compares it with keys of the same 64-bit hash alone. By a key in
  order it is one search.
- A **search** of an ordered table compares keys, a number of times that grows as the logarithm of the number of items.
- A **removal** from a hash table hashes the item's key once and compares none; one from an ordered table is one search. An
  **insertion** comes after a look-up, and hashes and compares no more.
- **Room** is how many inserts need no memory: `room()`.

What a call **asks** is a condition: the check of the caller's program shows that it holds, or refuses the program. The
**clauses** are the names under which a proof cites what the call promises, as [PROVING.md](PROVING.md) says; `ensures` is
one without a name.
"""
# Where `iddqd_map` is among the crates.
KEY_OF_ONE = """
`E` is the key of a map with one key: of an `IdHashMap` and an `IdOrdMap` the field that the item's trait names. The calls of
an `IdHashMap` are those of every `HashMapBy<T, E>`, those of an `IdOrdMap` of every `OrdMapBy<T, E>`, and those of a
`BiHashMap` and a `TriHashMap` of every `BiHashMapBy<T, A, B>` and `TriHashMapBy<T, A, B, C>`; the traits aren't, unless
they name `E`. `P` is the place of a key.
"""
PARTS = """
## Parts of a map

A mix has a key index for each key. The parts of a map lead to each of them, and have its look-ups of indexes alone.
"""
ITERATORS = """
## Iterators

What calls give that is read item by item. "From both ends" is `DoubleEndedIterator`, "counted" `ExactSizeIterator`.

| iterator | gives | from both ends | counted | other traits |
|---|---|---|---|---|
"""
# The crates whose iterators callers of maps and collections get.
ITERATED = ["iddqd", "iddqd_by_order", "iddqd_order", "iddqd_groups", "iddqd_ord_map"]
REFUSALS = """
## What calls answer: conflicts, refusals, indexes and errors

What a call answers that doesn't take an item, and what `validate` finds. `KeyedItems` and `TriItems` have refusals of their
own, which stand in their crates.
"""
# The types of these two parts, with the crate that defines each.
PART_TYPES = [("iddqd_map", "Parts"), ("iddqd_groups", "ByHashMultiOf")]
REFUSAL_TYPES = [("iddqd_map", "InsertRefusal"), ("iddqd_map", "OverwriteRefusal"), ("iddqd_map", "ReplaceRefusal"),
                 ("iddqd_map", "Stopped"), ("iddqd_map", "StoppedOverwrite"),
                 ("iddqd_map", "PairConflict"), ("iddqd_map", "NoConflict"),
                 ("iddqd_map", "BiClash"), ("iddqd_map", "TriClash"), ("iddqd_map", "StoppedAppend"),
                 ("iddqd", "GrowError"), ("iddqd", "ItemIndex"), ("iddqd", "IndexRemap"), ("iddqd_driver", "InsertRefusal"),
                 ("iddqd_tri", "TriRefusal"), ("iddqd", "ValidateRefusal"),
                 ("iddqd", "ValidationError"), ("iddqd", "TableValidationError")]
# Whose refusals those of a crate are, where a map has one of the same name.
OWNERS = {"iddqd_driver": " of `KeyedItems`", "iddqd_tri": " of `TriItems`"}
# The groups of calls, by how the first argument reads.
GROUPS = [("", "makes one"), ("&self", "reads it"), ("&mut self", "changes it"), ("self", "consumes it")]
# Traits that only contracts see.
GHOSTLY = {"Model", "Keyed", "TriKeyed"}


def one_line(code):
    """The head of an item on one line, however it was laid out."""
    code = re.sub(r"([(\[<]) ", r"\1", " ".join(code.split()))
    return re.sub(r",? ([)\]>])", r"\1", code).rstrip(", ")


def comment(text, at):
    """The paragraphs of the `///` comment above this place, attributes between them apart."""
    lines = []
    for line in reversed(text[:at].split("\n")[:-1]):
        line = line.strip()
        if line.startswith("///"):
            lines.insert(0, line[3:].strip())
        elif not re.match(r"#\[", line):
            break
    return [" ".join(part.split()) for part in "\n".join(lines).split("\n\n")]


def first_sentence(text, at):
    """The first sentence of the `///` comment above this place."""
    sentence = re.split(r"(?<=[.:]) (?=[A-Z`])", comment(text, at)[0])[0]
    return re.sub(r":$", ".", sentence)


def said(text, at):
    """What a call does, what it asks, and what it costs, as its comment says it."""
    words = {word: part.removeprefix(f"{word}: ") for part in comment(text, at) for word in ("Cost", "Asks")
             if part.startswith(f"{word}: ")}
    asks = f" It asks: {words['Asks']}" if "Asks" in words else ""
    return first_sentence(text, at) + asks, words.get("Cost", "")


def module_of(path, crates):
    """The path of a file's module, as `use` names it; where one of these crates re-exports that module, by that one."""
    crate, inner = re.fullmatch(r".*/crates/(\w+)/src/(.*)\.rt", path).groups()
    module = "::".join([] if inner == "lib" else inner.split("/"))
    reexports = rf"^pub use {crate}::(?:{module}\b|{{[^}}]*\b{module} as\b)"
    for root in sorted(glob.glob(f"{TOP}/crates/*/src/lib.rt")):
        above = crate_of(root)
        if above in crates and re.search(reexports, read(root), re.M):
            return "::".join([above, module.rpartition("::")[2]])
    return "::".join(part for part in [crate, module] if part)


def signature(head):
    """A function's head without `pub fn`, its clauses, and the `mut` of an argument that only the body needs."""
    plain = re.split(r"\b(?:requires|ensures)\b", head)[0]
    return re.sub(r"(?<=[(,\s])mut (?=\w+:)", "", one_line(re.sub(r"^pub (const )?fn ", "", plain)))


def receiver(call):
    """The first argument, where it is some `self`."""
    found = re.search(r"\((&(?:'\w+ )?(?:mut )?)?(?:mut )?self\b", call)
    return re.sub(r"'\w+ ", "", found[1] or "") + "self" if found else ""


def clauses(head):
    """The names of the clauses of a function's head that say what it ensures."""
    names = re.findall(r"\bensures\*?(?: (\w+))? \{", head)
    return ", ".join(f"`{name or 'ensures'}`" for name in dict.fromkeys(names))


@cache
def functions(text):
    """The functions of a file's text."""
    return list(rt_functions.functions(text).values())


def calls_of(name, texts):
    """Each public call of a type: its signature, what it does, what it costs, its clauses, and the impl in which it stands."""
    for text in texts:
        blocks = [it for whose, _, it in impls(text) if whose == name]
        for it in functions(text):
            head = rt_functions.without(rt_functions.COMMENT, text[it.start : it.body])
            if it.owner == name and not it.is_impl and re.match(r"pub (const )?fn ", head):
                block = next((block for block in blocks if block.start <= it.start < block.end), None)
                yield signature(head), *said(text, it.start), clauses(head), block


def added_to(name):
    """The traits that add calls to a type, each with the path of its file."""
    return [(trait, file_of(trait)) for trait in ADDED.get(name, [])]


def calls_of_trait(trait, text):
    """Each call of a trait that adds calls: its signature, what it does, what it costs, its clauses, and no impl."""
    for it in functions(text):
        if it.owner == trait and not it.is_impl:
            head = rt_functions.without(rt_functions.COMMENT, text[it.start : it.body])
            yield signature("pub " + head.split(";")[0]), *said(text, it.start), clauses(head), None


def traits_of(name, texts):
    """The head of each impl of a trait for a type or for a reference to it, with that impl."""
    for text in texts:
        for whose, trait, it in impls(text, True):
            if whose == name and re.sub(r"<.*", "", trait).split("::")[-1] not in GHOSTLY:
                yield one_line(text[it.start : text.index("{", it.start)]), it


def derived(text, at):
    """The traits that an attribute above a type derives, without `Drop`."""
    above = text[:at].rstrip().split("\n")
    found = re.search(r"#\[derive\(([^)]*)\)\]", "\n".join(above[-6:])) if above[-1].startswith("#[") else None
    return [name for name in found[1].split(", ") if name != "Drop"] if found else []


def name_of(call):
    """A call's name, of its signature."""
    return re.match(r"\w+", call)[0]


def holders(kinds, text):
    """The arguments, variables and fields in a text whose type is one of these names or a borrow of it."""
    named = rf"(\w+)\s*:\s*(?:&\s*)?(?:'\w+ )?(?:mut )?(?:{kinds})\b"
    made = rf"\blet (?:mut )?(\w+) = (?:{kinds})::"
    return {it[1] for pattern in (named, made) for it in re.finditer(pattern, text)}


def called_in(names, texts):
    """The names of the calls that the files of a crate make of a type, which may have several names."""
    texts = [rt_functions.without(rt_functions.COMMENT, text) for text in texts]
    named = "|".join(names)
    aliases = rf"\btype (\w+)(?:<[^;]*>)? =\s+(?:{named})\b"
    kinds = "|".join([named, *(name for text in texts for name in re.findall(aliases, text))])
    made = rf"\b(?:{kinds})(?:::<[^()]*>)?::(\w+)"
    structs = [it[1] for text in texts for it in re.finditer(r"\bstruct [^{};]*\{([^}]*)\}", text)]
    fields = {field for struct in structs for field in holders(kinds, struct)}
    for text in texts:
        for it in functions(text):
            body = text[it.start : it.end]
            receivers = "|".join([*holders(kinds, body), *(rf"self\s*\.\s*{field}" for field in fields)])
            yield from re.findall(made, body)
            yield from re.findall(rf"\b(?:{receivers})\s*\.\s*(\w+)\s*(?:\(|::)", body) if receivers else ()


def uncalled():
    """For each type with such calls a line: those that no file of a crate but its own makes."""
    for name in MAPS:
        own = crate_of(file_of(name))
        aliases = rf"^pub type (\w+)\b[^;]*> = {name}<"
        names = sorted({name, *(other for text in map(read, sources_of(own)) for other in re.findall(aliases, text, re.M)),
                        *(other for other in MAPS if stands_for(other) == name)})
        crates = [crate for crate in map(os.path.basename, glob.glob(f"{TOP}/crates/*")) if crate != own]
        called = {call for crate in crates for call in called_in(names, list(map(read, sources_of(crate))))}
        calls = [name_of(it[0]) for it in calls_of(stands_for(name), map(read, own_sources(name)))]
        calls += [name_of(it[0]) for trait, path in added_to(name) for it in calls_of_trait(trait, read(path))]
        left = sorted({*calls} - called)
        if left:
            yield f"{name}: {' '.join(left)}"


def cell(text):
    return text.replace("|", "\\|")


def tables(calls):
    """A table for each way in which calls take the type; with costs and clauses, if the calls say what they cost."""
    for kind, title in GROUPS:
        rows = [row for row in calls if receiver(row[0]) == kind]
        if not rows:
            continue
        if any(cost for _, _, cost, _ in rows):
            head = [f"| {title} | what it does | cost | clauses |", "|---|---|---|---|"]
            lines = [f"| `{cell(call)}` | {cell(what)} | {cell(cost)} | {names} |" for call, what, cost, names in rows]
        else:
            head, lines = [f"| {title} | |", "|---|---|"], [f"| `{cell(call)}` | {cell(what)} |" for call, what, _, _ in rows]
        yield "\n".join([*head, *lines, ""])


def own_calls(name, calls, known):
    """Of these calls of a `Map`, those that a map has, each as that map has it; all calls of another type."""
    if name not in INDEXES:
        return [row[:-1] for row in calls]
    struct = INDEXES[name][0]
    there = [(own_call(call, it, struct, name, known), *rest) for call, *rest, it in calls
             if it is None or fits(it, struct, known)]
    return [row for row in there if row[0]]


def added_section(name, owner, crates, known):
    """The calls that traits of these crates add to a type."""
    for trait, path in [it for it in added_to(owner) if crate_of(it[1]) in crates]:
        calls = own_calls(name, list(calls_of_trait(trait, read(path))), known)
        if calls:
            yield f"With `use {module_of(path, crates)}::{trait};` it also has these.\n"
            yield from tables(calls)


def own_traits(name, owner, texts, known):
    """The heads of the impls of traits that a type has."""
    for head, it in traits_of(owner, texts):
        if name not in INDEXES or fits(it, INDEXES[name][0], known):
            yield head
    yield from (head for head, _ in traits_of(name, texts) if name != owner)


def section(name, crates, known):
    path, owner = file_of(name), stands_for(name)
    own, texts = read(path), [read(file) for file in own_texts(name)]
    defined = re.search(rf"^pub (?:struct {name}\b[^{{;]*|type {name}\b[^;]*;)", own, re.M)
    mix = " These are the calls of a map by a mix of keys: by a `Pair` of key indexes." if name == "Map" else ""
    yield f"\n## `{name}`\n\n{first_sentence(own, defined.start())}{mix}\n"
    yield f"```rust\nuse {module_of(path, crates)}::{name};\n\n{one_line(defined[0])}\n```\n"
    if name in INDEXES:
        places = known.places(INDEXES[name][0])
        yield f"Places of its keys: {', '.join(f'`{it}<P>`' if name == 'Map' else f'`{it}`' for it in places)}.\n"
    yield from tables(own_calls(name, list(calls_of(owner, texts)), known))
    yield from added_section(name, owner, crates, known)
    traits = sorted({*own_traits(name, owner, texts, known)})
    if traits:
        yield "\n".join(["Traits:\n", "```rust", *traits, "```"])


def own_texts(name):
    """The files that have the calls and traits of a type: of a `Map` those of its crate."""
    return sources_of(crate_of(file_of("Map"))) if name in INDEXES else own_sources(name)


def iterators(crates):
    """A row for each iterator that calls give."""
    for crate in [crate for crate in ITERATED if crate in crates]:
        texts = list(map(read, sources_of(crate)))
        for path in sources_of(crate):
            text = read(path)
            for whose, trait, it in impls(text, True):
                item = re.search(r"^    type Item = ([^;]*);", text[it.start : it.end], re.M)
                if trait == "Iterator" and item:
                    yield iterator_row(crate, path, whose, item[1], texts, crates)


def iterator_row(crate, path, name, item, texts, crates):
    """The row of an iterator: what it gives, and its traits."""
    text = read(path)
    names = {re.sub(r"<.*", "", trait).split("::")[-1] for other in texts for whose, trait, _ in impls(other, True)
             if whose == name and f"{other}" == text}
    names |= {*derived(text, re.search(rf"^pub struct {name}\b", text, re.M).start())}
    rest = sorted(names - {"Iterator", "DoubleEndedIterator", "ExactSizeIterator", *GHOSTLY})
    answers = ["yes" if trait in names else "no" for trait in ("DoubleEndedIterator", "ExactSizeIterator")]
    where = module_of(seen_from(path, name), crates)
    return f"| `{where}::{name}` | `{item}` | {' | '.join(answers)} | {', '.join(f'`{it}`' for it in rest)} |"


def wrong_comments():
    """The calls of maps and collections whose comments don't say what they cost, or what they ask if they ask something."""
    for path in sorted({path for name in MAPS for path in [*own_texts(name), *(it for _, it in added_to(name))]}):
        text, traits = read(path), {trait for name in MAPS for trait, _ in added_to(name)}
        for it in functions(text):
            head = rt_functions.without(rt_functions.COMMENT, text[it.start : it.body])
            is_public = it.owner in traits or it.owner in map(stands_for, MAPS) and re.match(r"pub (const )?fn ", head)
            if is_public and not it.is_impl:
                what, cost = said(text, it.start)
                if "memory" not in cost:
                    yield f"{it.owner}::{it.name} doesn't say what it costs, with its memory"
                if (" It asks: " in what) != bool(re.search(r"\brequires\b", head)):
                    yield f"{it.owner}::{it.name} doesn't say what it asks, or asks nothing"


def parts_of(kind, text, at):
    """The variants of an enum or the public fields of a struct whose head ends here: each with what it is."""
    body = text[at : rt_functions.closing(text, at)] if text[at] == "{" else ""
    part = r"^    ([A-Z]\w*(?: \{.*?\n    \}|[^\n]*?)),?$" if kind == "enum" else r"^    pub (?!ghost )(\w+: [^\n]*?),?$"
    for it in re.finditer(part, body, re.M | re.S):
        yield one_line(it[1]).replace(", }", " }"), first_sentence(body, it.start())


def seen_from(path, name):
    """The file of the module from which a type is used: where its own is private, the one above, which re-exports it."""
    above, inner = os.path.dirname(path) + ".rt", os.path.basename(path)[:-3]
    reexports = rf"^pub use (?:crate::)?{inner}::(?:{name}\b|{{[^}}]*\b{name}\b)"
    return above if os.path.exists(above) and re.search(reexports, read(above), re.M) else path


def small_section(crate, name, crates):
    """A type that isn't a map: what it is, its parts and its calls."""
    defined = rf"^pub (struct|enum) {name}\b[^{{;(]*"
    path, = [path for path in sources_of(crate) if re.search(defined, read(path), re.M)]
    text = read(path)
    head = re.search(defined, text, re.M)
    yield f"\n### `{name}`{OWNERS.get(crate, '')}\n\n{first_sentence(text, head.start())}\n"
    yield f"```rust\nuse {module_of(seen_from(path, name), crates)}::{name};\n\n{one_line(head[0])}\n```\n"
    title = {"struct": "has", "enum": "is one of"}[head[1]]
    rows = [f"| `{cell(part)}` | {cell(what)} |" for part, what in parts_of(head[1], text, head.end())]
    if rows:
        yield "\n".join([f"| {title} | |", "|---|---|", *rows, ""])
    texts = [text, *map(read, sorted(glob.glob(f"{path[:-3]}/**/*.rt", recursive=True)))]
    yield from tables([row[:-1] for row in calls_of(name, texts)])
    yield from added_section(name, name, crates, None)
    others = {re.sub(r"<.*", "", trait).split("::")[-1] for other in texts for whose, trait, _ in impls(other, True) if whose == name}
    traits = sorted({*derived(text, head.start()), *others} - GHOSTLY)
    if traits:
        yield f"Traits: {', '.join(f'`{it}`' for it in traits)}.\n"


def page_of(crates):
    """The page as these crates make it."""
    known = KeyIndexes([read(path) for crate in crates for path in sources_of(crate)])
    parts = [part for name in MAPS if crate_of(file_of(name)) in crates for part in section(name, crates, known)]
    small = [part for crate, name in PART_TYPES if crate in crates for part in small_section(crate, name, crates)]
    parts += [PARTS, *small] if small else []
    parts.append(ITERATORS + "\n".join(iterators(crates)) + "\n")
    parts += [REFUSALS, *(part for crate, name in REFUSAL_TYPES if crate in crates for part in small_section(crate, name, crates))]
    head = HEAD + (KEY_OF_ONE if "iddqd_map" in crates else "")
    return head + re.sub(r"\n{3,}", "\n\n", "\n".join(parts)).rstrip("\n") + "\n"


def made():
    """The page by its path."""
    return {PAGE: page_of(crates_in(f"{TOP}/crates.txt"))}


def arguments(words):
    parser = Parser(__doc__)
    forms = parser.add_mutually_exclusive_group()
    forms.add_argument("--check", action="store_true")
    forms.add_argument("--uncalled", action="store_true")
    forms.add_argument("--only", metavar="CRATE", nargs="+")
    given = parser.parse_args(words)
    unknown = {*(given.only or ())} - {*crates_in(f"{TOP}/crates.txt")}
    if unknown:
        refuse(f"there is no crate '{min(unknown)}'")
    return given


def run(words):
    given = arguments(words)
    wrong = list(uncalled() if given.uncalled else wrong_comments() if given.check else ())
    if wrong:
        sys.exit("\n".join(wrong))
    if given.only:
        sys.stdout.reconfigure(encoding="utf-8")
        sys.stdout.write(page_of(given.only))
    elif not given.uncalled:
        write_or_check(made(), given.check, "isn't what the sources make: run tools/pages calls")
