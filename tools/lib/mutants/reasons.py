"""Tells why each mutant of must-fail/ is refused, and which are refused for a missing name alone.

    tools/mutants reasons [NAME..]              tries those of must-fail/, as `rt must-fail` does; with no name, of all crates
    tools/mutants reasons --log FILE            reads what `rt must-fail` or `tools/mutants try --all` said, and tries none
    tools/mutants reasons --suspects [NAME..]   tries none: lists those of must-fail/ and wrong/ that may take a name away
    tools/mutants reasons --suspects --gate     the same of must-fail/ alone: what `tools/check edits` does

A proof file names what its function's body calls and binds. Where a mutant takes such a name away, the check refuses
the proof file, whatever the contract says. So such a refusal shows nothing of the contract: the mutant should keep the
name and change a value.

For each mutant it tells the first thing that the check said of it: a goal that it can't show, or an answer that
doesn't fit, or that only a name is gone, or that a limit of the prover was met. The status is 1 if any mutant is
refused for a name or by a limit alone, or isn't refused. A suspect is a mutant whose text of a function lacks a word that the
function's own proof files name, and that its text had: such a mutant may be refused for the name alone. The status is 1 if a
mutant of must-fail/ is one.
"""

import collections
import glob
import os
import re
import subprocess
import sys

from lib import edits, rt_functions
from lib.commands import Parser, refuse
from lib.repository import TOP, crates_in, read

# the words of `rt must-fail` and of `tools/mutants try` for a refusal that shows little, and for what is said of a
# name that is gone
ALONE = re.compile(r"only because a proof file names what the edit took away|by names alone")
LIMIT = re.compile(r"only by a limit of the prover|by a limit alone")
NAME = re.compile(r"has no field|is not in scope|has no `|\(nearest: |was not admitted|which was rejected")
SAID = re.compile(r"^(?:rt: )?(?:must-fail )?(\w+)/(\w+)\.edit: (.*)$", re.M)


def kind_of(why):
    """What a refusal shows: a goal or answer of the contract, a name that is gone, a limit; or that it is none."""
    if ALONE.search(why) or why.startswith("refused") and NAME.search(why):
        return "name"
    if LIMIT.search(why):
        return "limit"
    return "goal" if why.startswith("refused") else "no refusal"


def tried(names):
    """What `rt must-fail` says of the crates' mutants."""
    if not names:
        names = sorted({edits.crate_of(path) for path in edits.paths(edits.GATE)})
    how = {"stdout": subprocess.PIPE, "stderr": subprocess.STDOUT, "text": True}
    return subprocess.run(["rt", "must-fail", *names], cwd=TOP, **how).stdout


def told(said):
    """Tells the reason of each refusal, and how many show nothing."""
    kinds = collections.Counter()
    for crate, edit, why in SAID.findall(said):
        kind = kind_of(why)
        kinds[kind] += 1
        print(f"{kind}: {crate}/{edit}: {why}")
    if not kinds:
        sys.exit(f"no mutant was tried:\n{said[-2000:]}")
    print(", ".join(f"{count} {kind}" for kind, count in sorted(kinds.items())))
    return 1 if set(kinds) - {"goal"} else 0


def proofs_of(path, function):
    """What the proof files of a function say."""
    crate, _, inside = path.partition("/src/")
    module = re.sub(r"(^|/)(lib|main|mod)\.rt$", "", inside).removesuffix(".rt")
    above = "/".join(part for part in [crate, "proofs", module, function.owner] if part)
    folders = [f"{above}/{function.name}", f"{above}/+{function.name}"]
    return "\n".join(read(file) for folder in folders for file in sorted(glob.glob(f"{folder}/*.antt")))


def words(text):
    """How often each word stands in a text, its comments apart."""
    return collections.Counter(re.findall(r"[A-Za-z_]\w*", rt_functions.without(rt_functions.COMMENT, text)))


def cited(proofs):
    """The words of which the names in proof files are made, and how often each has to stand in the body.

    `c.in_ok-walk_chain` names `walk_chain`, and `c.remap_indexes-2` the second `remap_indexes`.
    """
    found = collections.Counter()
    for name in re.findall(r"\b[clw]\.([\w-]+)|\bw\.[\w-]+\.([\w-]+)|\bgoal\.([\w-]+)", proofs):
        parts = re.sub(r"-clause-.*", "", "".join(name)).split("-")
        for part, following in zip(parts, [*parts[1:], ""]):
            found[part] = max(found[part], int(following) if following.isdigit() else 1)
    found.pop("self", None)  # of a method it is always there
    return found


def lost(edit):
    """The words that a mutant takes away from a function, and that the function's proof files name."""
    pairs, found = edits.pairs_of(read(edit)), []
    before = edits.texts_of(edit, pairs)
    after = edits.edited(pairs, before)
    if after is None:
        return ["(it doesn't apply)"]
    for path in before:
        old, new = (rt_functions.functions(text[path]) for text in (before, after))
        for key in old.keys() & new.keys():
            was, now = (words(text[path][of[key].body:of[key].end]) for text, of in ((before, old), (after, new)))
            named = cited(proofs_of(f"{edits.folder_of(edit)}/{path}", old[key])) if was != now else {}
            found += sorted(word for word, times in named.items() if now[word] < times <= was[word])
    return found


def suspects(names, kinds):
    """A line for each mutant that takes away a word which its function's proof files name."""
    for edit in edits.paths(kinds, names):
        gone = lost(edit)
        if gone:
            yield f"{os.path.relpath(edit, TOP)} takes away what a proof file names: {' '.join(gone)}"


def list_suspects(names, kinds):
    """Prints the suspects, and returns 1 if one of must-fail/ is among them."""
    found = list(suspects(names, kinds))
    print("\n".join([*found, f"{len(found)} suspects"]))
    return 1 if any("/must-fail/" in line for line in found) else 0


def run(words):
    parser = Parser(__doc__)
    parser.add_argument("--log", metavar="FILE")
    parser.add_argument("--suspects", action="store_true")
    parser.add_argument("--gate", action="store_true")
    parser.add_argument("names", metavar="NAME", nargs="*")
    given = parser.parse_args(words)
    unknown = set(given.names) - set(crates_in(f"{TOP}/crates.txt"))
    if unknown:
        refuse(f"there is no crate '{min(unknown)}'")
    if given.gate and not given.suspects:
        refuse("--gate goes with --suspects")
    if given.suspects:
        return list_suspects(given.names, edits.GATE if given.gate else edits.KINDS)
    return told(read(given.log) if given.log else tried(given.names))
