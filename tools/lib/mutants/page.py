"""Writes docs/MUTANTS.md: which functions the mutants of must-fail/ and wrong/ turn, read from the edits themselves.

    tools/mutants page            writes the page
    tools/mutants page --check    fails where the page isn't what the edits make

docs/tested.txt has a line for each call that a test holds, or that has no mutant of its own:

    CRATE TYPE::CALL, CALL: TEST, TEST
    CRATE TYPE::CALL: by CRATE TYPE::CALL    it passes its work on to this one, which has a mutant
    CRATE TYPE::CALL: none: WORDS            why there is no mutant
"""

import glob
import os
import re
from collections import defaultdict, namedtuple
from functools import cache

from lib import rt_functions
from lib.edits import pairs_of, paths
from lib.pages.made import run_maker
from lib.repository import TOP, crates_in, read, sources_of

# A mutant: its crate, its name, whether the gate tries it, and the functions and constants that it changes: each by its block,
# or by its module if it stands in none, and its name.
Mutant = namedtuple("Mutant", "crate name is_gate functions")


def block_of(path, owner):
    """The block of a function; of one that stands in none, its module."""
    return owner or re.sub(r"(?:.*/)?(\w+)\.rt$", r"\1", path)


@cache
def known(text):
    """The functions of a file's text."""
    return list(rt_functions.functions(text).values())


def added(text, at, new):
    """The functions that a text has in place of others of its block, where it stands outside of all."""
    blocks = [rt_functions.owner_of(*it.groups())[0] for it in rt_functions.BLOCK.finditer(text, 0, at + 1)]
    return [(blocks[-1], name) for name in re.findall(r"\bfn (\w+)", new)] if blocks else []


def turned(crate, path, pairs):
    """What these replacements of a file change: functions, or a constant outside of all."""
    own = text = read(f"{TOP}/crates/{crate}/{path}")
    found = []
    for old, new in pairs:
        at = text.find(old)
        inside = [(it.owner, it.name) for it in known(text) if at < it.end and it.start < at + len(old)]
        line = text[text.rfind("\n", 0, at) + 1 : at + len(old)]
        constants = [("", name) for name in re.findall(r"\bconst (\w+):", line)]
        found += inside or constants or added(text, at, new)
        text = text if old in own else text.replace(old, new)
    return list(dict.fromkeys((block_of(path, owner), name) for owner, name in found))


def mutants():
    """All mutants of the crates."""
    found = []
    for file in paths():
        folder, name = os.path.split(file)
        crate, kind = os.path.relpath(folder, f"{TOP}/crates").split(os.sep)
        by_file = defaultdict(list)
        for path, old, new in pairs_of(read(file)):
            by_file[path].append((old, new))
        functions = [key for path, pairs in by_file.items() for key in turned(crate, path, pairs)]
        found.append(Mutant(crate, name[: -len(".edit")], kind == "must-fail", functions))
    return found


# A function: its file, its block or else its module, its name, its head and body, and whether other crates may call it.
Found = namedtuple("Found", "path owner name head body is_public")
FILE = "docs/tested.txt"
PAGE = "docs/MUTANTS.md"
HEAD = """# Which mutants and tests hold which function

A mutant is a wrong body that the proofs have to refuse. `tools/mutants page` makes this page from the edits of
`crates/*/must-fail/`, whose names are bold here and which the gate tries, from those of `crates/*/wrong/`, and from
[tested.txt](tested.txt), which names tests. Of a public call without a mutant of its own, "by" names the functions to which
it passes its work on; those have some. [CONTRACTS.md](CONTRACTS.md) says what the mutants of `must-fail/` show, and
[DEVELOPING.md](DEVELOPING.md) how to try them.
"""
# A call in a body: on the function's own block or another, by its name, or of a function that stands in no block.
CALL = r"(?:(?<![\w.)])|(?<=\bself\.))(?:(\w+)(?:::<[^()]*?>)?::)?(\w+)(?:::<[^()]*?>)?\("


@cache
def functions_of(crate):
    """The functions of a crate."""
    found = []
    for path in sources_of(crate):
        text, file = read(path), os.path.relpath(path, f"{TOP}/crates/{crate}")
        traits = set(re.findall(r"^pub trait (\w+)", text, re.M))
        for it in known(text):
            head = rt_functions.without(rt_functions.COMMENT, text[it.start : it.body])
            body = rt_functions.without(rt_functions.COMMENT, text[it.body : it.end])
            is_public = not it.is_impl and (it.owner in traits or bool(re.match(r"pub (?:const )?(?:unsafe )?fn ", head)))
            found.append(Found(file, block_of(file, it.owner), it.name, head, body, is_public))
    return found


def title(owner, name):
    return f"{owner}::{name}"


class Held:
    """What holds each function: mutants, tests, and the functions to which it passes its work on."""

    def __init__(self, crates):
        self.by, self.tests, self.others = defaultdict(list), defaultdict(list), {}
        for it in mutants():
            for owner, name in it.functions:
                self.by[it.crate, owner, name].append((not it.is_gate, it.name))
        for crate in crates:
            for owner, name in {(it.owner, it.name) for it in functions_of(crate) if it.is_public}:
                self.by[crate, owner, name] += [made for (low, whose, which), held in list(self.by.items())
                                                if low in crates and which == name and whose.endswith(owner) and whose != owner
                                                and owner in TRAITS for made in held]
        for crate, owner, names, said in lines_of(read(f"{TOP}/{FILE}")):
            for name in names:
                if said.startswith(("by ", "none: ")):
                    self.others[crate, owner, name] = said
                else:
                    self.tests[crate, owner, name] += said.split(", ")

    def passed_on(self, crate, it):
        """The functions of its own crate, with mutants, that a function's body calls."""
        body, called = re.sub(r"\s*\.\s*", ".", it.body), set()
        for call in re.finditer(CALL, body):
            of_self = call[1] == "Self" or body[: call.start()].endswith("self.")
            called.add((it.owner if of_self else call[1] or "", call[2]))
        bare = {name for owner, name in called if not owner}
        own = {(other.owner, other.name) for other in functions_of(crate)
               if (other.owner, other.name) in called or other.name in bare and other.owner.islower()} - {(it.owner, it.name)}
        near = {key for key in own if key[0] == block_of(it.path, "")}
        near |= {key for key in own if key[1] not in {name for _, name in near}}
        return sorted(title(*key) for key in near if self.by.get((crate, *key)))

    def line(self, crate, it):
        """What holds a function: its mutants, what it passes on to, its tests, or why there is nothing."""
        key = crate, it.owner, it.name
        edits = [f"`{name}`" if is_wrong else f"**`{name}`**" for is_wrong, name in sorted(set(self.by.get(key, [])))]
        parts = [", ".join(edits)]
        if not edits and it.is_public:
            others = self.others.get(key, "")
            by = [f"`{name}`" for name in self.passed_on(crate, it)]
            other = re.sub(r"^by (\w+) ([\w:]+)$", r"by `\2` of `\1`", others.removeprefix("none: "))
            parts = [other or (f"by {', '.join(by)}" if by else "")]
        tests = self.tests.get(key, [])
        return "; ".join([*filter(None, parts), *([f"{'tests' if tests[1:] else 'test'} {', '.join(f'`{name}`' for name in tests)}"] if tests else [])])


TRAITS = {"InOrder", "InGroups", "OrderedParts"}


def lines_of(text):
    """The lines of the file of tests: crate, block, names of functions, and what is said of them."""
    for line in text.split("\n"):
        it = re.match(r"(\w+) (?:(\w+)::)?([\w, ]+): (.*)", line)
        if it and not line.startswith("#"):
            yield it[1], it[2] or "", it[3].split(", "), it[4]


def page_of(crates):
    """The page as these crates make it."""
    held, parts = Held(crates), [HEAD]
    for crate in crates:
        rows = {}
        for it in functions_of(crate):
            said = held.line(crate, it)
            if said:
                rows.setdefault(title(it.owner, it.name), []).append(said)
        own = {(it.owner, it.name) for it in functions_of(crate)}
        for low, owner, name in sorted(set(held.by) - {(crate, *it) for it in own}):
            if low == crate:
                rows.setdefault(title(owner, name), []).append(", ".join(f"`{edit}`" for _, edit in sorted(held.by[low, owner, name])))
        if rows:
            parts += [f"\n## `{crate}`\n", "| function | mutants and tests |", "|---|---|"]
            parts += [f"| `{name}` | {'; '.join(dict.fromkeys(said))} |" for name, said in rows.items()]
    return "\n".join(parts) + "\n"


def unheld(crates, types):
    """The public calls of these types that no mutant and no test holds, and for which the file gives no reason; and what the file
    says of functions that aren't there."""
    held = Held(crates)
    known_keys = {(crate, it.owner, it.name) for crate in crates for it in functions_of(crate)}
    for crate in crates:
        for it in functions_of(crate):
            if it.is_public and it.owner in {*types, *TRAITS} and not held.line(crate, it):
                yield f"no mutant and no test holds {crate} {title(it.owner, it.name)}: {FILE} gives no reason"
    for key in sorted({*held.tests, *held.others} - known_keys):
        yield f"{FILE} names {key[0]} {title(*key[1:])}, which isn't there"
    for key, said in sorted(held.others.items()):
        target = re.match(r"by (\w+) (?:(\w+)::)?(\w+)", said)
        if said.startswith("by ") and not (target and held.by.get((target[1], target[2] or "", target[3]))):
            yield f"{FILE} says of {key[0]} {title(*key[1:])} '{said}', which has no mutant"
        if held.by.get(key):
            yield f"{FILE} gives a reason for {key[0]} {title(*key[1:])}, which has a mutant"
    tests = test_names()
    for key, names in sorted(held.tests.items()):
        for name in names:
            if name not in tests:
                yield f"{FILE} names {name}, which is no test"


def test_names():
    """The functions of tests and worked examples."""
    patterns = ["tests/**/*.rt.in", "crates/iddqd_examples/src/**/*.rt"]
    files = [path for pattern in patterns for path in glob.glob(f"{TOP}/{pattern}", recursive=True)]
    return {name for path in files for name in re.findall(r"\bfn (\w+)", read(path))}


def made():
    """The page by its path."""
    return {PAGE: page_of(list(crates_in(f"{TOP}/crates.txt")))}


def run(words):
    return run_maker(__doc__, words, made, "isn't what the edits make: run tools/mutants page")
