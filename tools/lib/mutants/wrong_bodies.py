"""Tries the wrong bodies that the gate leaves out: crates/NAME/wrong/*.edit.

    tools/mutants try [--all] [--jobs N] [--built FOLDER | --checked] [NAME | NAME/EDIT]..     with no name, those of all

Each is a must-fail edit in the toolchain's form. Most of the time that one takes is start-up, so many are tried in
one check: a batch has one edit at most for each function, on a copy of the crate over what a check of it kept.
Contracts stay, so no edit disturbs the proof of another function; an edit of more than bodies is tried alone. An edit
is refused where the check tells of a goal of its function that it can't show, or of an answer there that doesn't fit,
be it for a name that is gone, as for the toolchain; such are listed, since they say little. One that gives an impl
other values is refused by a law that these don't meet. A callee without a proof is no refusal. A batch that doesn't
compile is parted until it does. What is not seen refused is tried alone, and is refused then where the crate isn't
proved with it.

Each crate is proved first, from nothing, over statements of those below it. FOLDER keeps what is proved for the next
run, which proves a crate anew where it, or one below it, changed since. --checked takes what `rt check` of the crate
keeps in the crate's folder, which it runs first. --jobs says how many checks run side by side,
else one a processor. --all tells of each edit why it is refused; else only those are told that are let through or
don't apply. Then comes the count, and the status is 1 if there are any such.
"""

import collections
import os
import re
import shutil
import tempfile
import threading
import time
from concurrent.futures import ThreadPoolExecutor

from lib import rooms, rt_functions
from lib.commands import Parser, refuse
from lib.edits import edited, pairs_of, paths
from lib.proofs.kit import sources_in, words_for
from lib.repository import TOP, crates_in, read, write

MOST = 24  # edits in a batch
LANES = 8  # of these that one crate has at once, where as many checks may run side by side
NAMES = re.compile(r"has no field|is not in scope|has no `|\(nearest: ")
ERROR = r"^(?:\./)?(?:src|specs)/\S+:\d+:\d+: error: "
LAW = r"`[\w-]+-value`: "  # where what stands in an impl for a law of its trait doesn't show it
AFTER = re.compile(r"was not admitted|which was rejected")  # what only follows from another error
LIMIT = re.compile(r"^.*antt ran out of (?:stack|the (?:steps|memory)).*$", re.M)

# An edit: its file, its replacements as (file, old, new), and the files and functions that it changes and adds (None
# where it changes more than bodies).
Edit = collections.namedtuple("Edit", "name pairs keys")
printing = threading.Lock()


def tell(text):
    with printing:
        print(text, flush=True)


def read_edit(file, texts):
    """The edit of a crate with these texts."""
    name, pairs = os.path.basename(file), pairs_of(read(file))
    after, keys = edited(pairs, texts), []
    for path in {path for path, _, _ in pairs} if after else []:
        parts = rt_functions.changed(texts[path], after[path]) if path.startswith("src/") else None
        if parts is None:
            return Edit(name, pairs, None)
        keys += [(path, key, part == 0) for part in (0, 1) for key in parts[part]]
    return Edit(name, pairs, keys or None)


def batches_of(edits, texts):
    """The edits of bodies in batches, in which no two change one function, and all apply together."""
    batches = []
    for edit in edits:
        for batch in batches:
            taken = {key[:2] for it in batch for key in it.keys}
            if len(batch) < MOST and not taken & {key[:2] for key in edit.keys} and together([*batch, edit], texts):
                batch.append(edit)
                break
        else:
            batches.append([edit])
    return batches


def together(edits, texts):
    """The texts with all the edits, or None where they don't apply together."""
    for edit in edits:
        texts = texts and edited(edit.pairs, texts)
    return texts


def is_proved(said):
    return bool(re.search(r"^logic=proved ", said, re.M))


def link(source, to):
    """Copies a file, what was checked by a link, since a check replaces such a file and changes none."""
    try:
        if source.endswith(".oantt"):
            return os.link(source, to)
    except OSError:
        pass
    return shutil.copy2(source, to)


def sources(name):
    """The files of a crate, by their paths in it."""
    own = f"{TOP}/crates/{name}"
    return {path: f"{own}/{path}" for path in sources_in(own)}


class Shop:
    """Where crates are proved: each once, over the statements of those below it."""

    def __init__(self, folder, jobs, is_checked):
        self.folder, self.deps, self.lanes = folder, crates_in(f"{TOP}/crates.txt"), threading.Semaphore(jobs)
        self.is_checked = is_checked
        self.turns = {made: threading.Lock() for name in self.deps for made in (self.rlib(name), self.kept(name))}

    def run(self, verb, name, folder, *more):
        """What the compiler says of a crate whose files stand in the folder."""
        root = next(it for it in ("src/lib.rt", "src/main.rt") if os.path.isfile(f"{folder}/{it}"))
        with self.lanes:
            return rooms.said([*words_for(verb, name, self.deps[name], self.folder, 1), *more, root], folder)

    def is_new(self, name, made):
        """Whether what an earlier run made of a crate stands on these very files."""
        if not os.path.isfile(f"{made}.log") or not os.path.isdir(made):
            return False
        below = [f"{self.rlib(it)}.log" for it in self.deps[name]]
        made_at = os.path.getmtime(f"{made}.log")
        return all(os.path.isfile(it) and os.path.getmtime(it) < made_at for it in [*sources(name).values(), *below])

    def made(self, name, made, *how):
        """What a check of the crate as it stands says, which makes this folder, once those below it are proved."""
        with ThreadPoolExecutor(len(self.deps[name]) + 1) as below:
            list(below.map(self.stated, self.deps[name]))
        with self.turns[made]:
            if not self.is_new(name, made):
                shutil.rmtree(made, ignore_errors=True)
                said = self.run(how[0], name, f"{TOP}/crates/{name}", *how[1:])
                if not is_proved(said):
                    return said
                write(f"{made}.log", said)
            return read(f"{made}.log")

    def rlib(self, name):
        return f"{self.folder}/{name}.rlib"

    def kept(self, name):
        return f"{self.folder}/{name}.kept"

    def stated(self, name):
        return self.made(name, self.rlib(name), "build", "--statements", "-o", self.rlib(name))

    def checked(self, name):
        """What `rt check` says of a crate; what it keeps of the crate and of those below is taken over."""
        said = rooms.said(["rt", "check"], f"{TOP}/crates/{name}")
        if not is_proved(said):
            return said
        for low in self.deps:
            built = f"{TOP}/crates/{low}/out/rlib/{low}.rlib"
            with self.turns[self.rlib(low)]:
                if os.path.isdir(built) and not os.path.lexists(self.rlib(low)):
                    os.symlink(built, self.rlib(low))
        shutil.copytree(f"{TOP}/crates/{name}/out/incremental", self.kept(name), copy_function=link)
        return said

    def proved(self, name):
        if self.is_checked:
            return self.checked(name)
        return self.made(name, self.kept(name), "check", "--incremental", self.kept(name))


class Room:
    """A crate that is proved, copies of which are tried with edits."""

    def __init__(self, name, shop):
        self.name, self.shop = name, shop
        self.texts = {path: read(file) for path, file in sources(name).items()}

    def check(self, texts):
        """What a check says of the crate with these texts in place of its own."""
        with tempfile.TemporaryDirectory(prefix="wrong-bodies-") as folder:
            for path, text in {**self.texts, **texts}.items():
                os.makedirs(os.path.dirname(f"{folder}/{path}"), exist_ok=True)
                write(f"{folder}/{path}", text)
            shutil.copytree(self.shop.kept(self.name), f"{folder}/kept", copy_function=link)
            return self.shop.run("check", self.name, folder, "--incremental", f"{folder}/kept")


class Report:
    """What a check says, function by function."""

    def __init__(self, said):
        said = re.sub(r"`\n +has no ", "` has no ", said)  # the message of a missing name may go on in another line
        self.said = said
        self.of = dict(re.findall(r"^fn (\S+): (.*)$", said, re.M))
        self.misfits = re.findall(r"^(?:\./)?proofs/(\S+)/\w+\.antt:\d+:\d+: error: (.*)$", said, re.M)
        is_unread = re.search(rf"{ERROR}(?!{LAW})|Run the lower steps again", said, re.M)
        self.laws = [why for why in re.findall(rf"{ERROR}({LAW}.*)$", said, re.M) if not NAMES.search(why)]
        self.goals = re.findall(r"^note: (?:\./)?(src/\S+\.rt):(\d+):\d+: it is not proved that (.*)$", said, re.M)
        self.has_open_impl = bool(re.search(r"^(?:impl|struct|enum|trait) \S+: (?!proved)", said, re.M))
        self.is_judged = not is_unread and bool(re.search(r"^logic=(not-)?proved", said, re.M))

    def misfits_of(self, name):
        """What the check says of a function's answers and invariants."""
        # a function that calls itself has a folder whose name begins with a plus sign
        place = "/".join(name.split("::")[1:]).replace("+", "")
        return [why for folder, why in self.misfits if folder.replace("+", "") == place]

    def open_at(self, name):
        """The goal or answer for which a function has no proof, if that is why."""
        line = self.of.get(name, "proved")
        goal = re.search(r"`search` did not prove `[^;]*", line)
        if goal or not re.match("not proved|no proof", line):
            return goal and goal[0]
        misfits = [why for why in self.misfits_of(name) if not NAMES.search(why) and not AFTER.search(why)]
        return f"answers: {misfits[0]}" if misfits else None

    def state_of(self, name):
        return f"{name}: {'; '.join([self.of.get(name, 'not told'), *self.misfits_of(name)])[:300]}"

    def goals_at(self, path, first, last):
        """The goals that the check can't show between two lines of a file."""
        return [why for file, line, why in self.goals if file == path and first <= int(line) <= last]

    def open_within(self, name):
        """The same of a function or of a closure in it."""
        inner = [it for it in self.of if it.replace("::fn::", "::", 1).startswith(f"{name}::")]
        return next((why for it in [name, *inner] for why in [self.open_at(it)] if why), None)


class Trial:
    """The trial of a crate's edits. `names` are those of the crate's functions as it stands."""

    def __init__(self, room, names, edits, tells_all):
        self.room, self.names, self.edits, self.tells_all = room, names, edits, tells_all
        self.refused, self.by_names, self.failed, self.begun = set(), [], {}, time.time()
        sources = [path for path in room.texts if path.startswith("src/")]
        self.known = {path: rt_functions.functions(room.texts[path]) for path in sources}

    def say(self, text):
        tell(f"{self.room.name} ({time.time() - self.begun:.0f} s): {text}")

    def refuse(self, edit, why):
        self.refused.add(edit.name)
        if self.tells_all:
            tell(f"{self.room.name}/{edit.name}: refused: {why[:200]}")

    def names_of(self, edit, report):
        """The names under which the check tells of the functions that the edit changes."""
        old = [(path, key) for path, key, is_old in edit.keys if is_old]
        found = [rt_functions.reported(self.known[path][key], self.room.name, path, report.of) for path, key in old]
        return [name for name in found if name]

    def is_refused(self, edit, names, report, texts):
        """Whether the check of these texts shows that the edit is refused at one of these functions."""
        found = [f"{name}: {why}" for name in names for why in [report.open_within(name)] if why]
        # a function that the edit adds may stand in the same line
        if edit.keys and all(is_old for _, _, is_old in edit.keys):
            places = [(path, *rt_functions.lines(texts[path], key)) for path, key, _ in edit.keys]
            found += [f"{place[0]}: {why}" for place in places for why in report.goals_at(*place)]
        found += [f"law {why}" for why in ([] if edit.keys else report.laws)]
        missed = [f"{name}: {why}" for name in names for why in report.misfits_of(name) if NAMES.search(why)]
        if found:
            self.refuse(edit, found[0])
        elif missed:
            self.refuse(edit, f"by names alone: {missed[0]}")
            self.by_names.append(edit.name)
        return bool(found or missed)

    def batch(self, edits):
        texts = together(edits, self.room.texts)
        report = Report(self.room.check(texts))
        if not report.is_judged:
            return self.parts(edits, report)
        for edit in edits:
            names = self.names_of(edit, report)
            if not self.is_refused(edit, names, report, texts):
                self.say(f"{edit.name} not seen refused: {' '.join(report.state_of(it) for it in names)}")
        self.say(f"{len(edits)} at once, {sum(it.name in self.refused for it in edits)} refused")

    def parts(self, edits, report):
        """Tries a batch that doesn't compile in two: the edits of files where it doesn't and the others, or halves."""
        self.say(f"{len(edits)} do not compile at once: {' '.join(it.name for it in edits)}")
        named = re.findall(r"^(?:\./)?(src/[\w/]+\.rt):\d+:\d+: error", report.said, re.M)
        bad = [it for it in edits if {path for path, _, _ in it.pairs} & {*named}]
        bad = bad if 0 < len(bad) < len(edits) else edits[: len(edits) // 2]
        if bad:
            self.batch([it for it in edits if it not in bad])
            self.batch(bad)

    def alone(self, edit):
        texts = edited(edit.pairs, self.room.texts)
        report = Report(self.room.check(texts))
        limit = LIMIT.search(report.said)
        told = [it for it in report.said.split("\n") if re.match(r"(note: )?\S+:\d+:\d+: ", it)]
        first = next((it for it in told if "error" in it), "no error")[:300]
        lacking = [name for name in self.names if report.of.get(name) != "proved"]
        if is_proved(report.said):
            self.fail(edit, "LET THROUGH: all that stands is still proved with it")
        elif not report.is_judged and limit:
            self.refuse(edit, f"by a limit alone: {limit[0]}")
        elif not report.is_judged:
            self.fail(edit, f"DOES NOT COMPILE: {first}")
        elif not self.is_refused(edit, lacking, report, texts):
            self.refuse(edit, f"the crate is not proved: {first}")

    def fail(self, edit, why):
        self.failed[edit.name] = f"{self.room.name}/{edit.name}: {why}"
        tell(self.failed[edit.name])

    def rest(self):
        return [it for it in self.edits if it.name not in self.refused and it.name not in self.failed]

    def run(self):
        """Tries the edits: how many are refused, and the words on those that are let through or don't apply."""
        for edit in self.edits:
            if not edited(edit.pairs, self.room.texts):
                self.fail(edit, "DOES NOT APPLY: an old text doesn't stand exactly once")
        batches = batches_of([it for it in self.rest() if it.keys], self.room.texts)
        self.say(f"{len(self.edits)} edits, {len(batches)} batches")
        with ThreadPoolExecutor(LANES) as side_by_side:
            list(side_by_side.map(self.batch, batches))
            list(side_by_side.map(self.alone, self.rest()))
        if self.by_names:
            self.say(f"refused by names alone, which says little of the contract: {' '.join(self.by_names)}")
        self.say(f"{len(self.refused)} refused, {len(self.failed)} let through or not applicable")
        return len(self.refused), list(self.failed.values())


def tried(shop, name, chosen, tells_all):
    """How many of a crate's edits are refused, and the words on those that are let through or don't apply."""
    said = shop.proved(name)
    if not is_proved(said):
        tell(f"{name}: the crate is not proved, so no edit of it was tried:\n{said[-2000:]}")
        return 0, [f"{name} is not proved"]
    names = [it for it, state in Report(said).of.items() if state == "proved"]
    room, files = Room(name, shop), paths(("wrong",), (name,))
    edits = [read_edit(it, room.texts) for it in files if not chosen or os.path.basename(it) in chosen]
    return Trial(room, names, edits, tells_all).run()


def asked(words, deps):
    """The edits asked for, by crate: none of a crate stands for all."""
    found = {}
    for word in words or [it for it in deps if os.path.isdir(f"{TOP}/crates/{it}/wrong")]:
        name, _, edit = word.partition("/")
        file = f"{edit.removesuffix('.edit')}.edit"
        if name not in deps:
            refuse(f"there is no crate '{name}'")
        if edit and not os.path.isfile(f"{TOP}/crates/{name}/wrong/{file}"):
            refuse(f"there is no edit crates/{name}/wrong/{file}")
        found.setdefault(name, set()).update({file} if edit else ())
    return found


def arguments(words):
    parser = Parser(__doc__)
    parser.add_argument("--all", action="store_true")
    parser.add_argument("--jobs", metavar="N", type=int, default=len(os.sched_getaffinity(0)))
    parser.add_argument("--built", metavar="FOLDER")
    parser.add_argument("--checked", action="store_true")
    parser.add_argument("names", metavar="NAME", nargs="*")
    given = parser.parse_args(words)
    if given.built and given.checked:
        refuse("--built and --checked exclude each other")
    return given


def run(words):
    given = arguments(words)
    edits, refused, failed = asked(given.names, crates_in(f"{TOP}/crates.txt")), 0, []
    with tempfile.TemporaryDirectory(prefix="wrong-bodies-") as room, ThreadPoolExecutor(len(edits)) as lanes:
        folder = os.path.abspath(given.built or room)
        os.makedirs(folder, exist_ok=True)
        shop = Shop(folder, given.jobs, given.checked)
        for number, words in lanes.map(lambda it: tried(shop, it, edits[it], given.all), edits):
            refused, failed = refused + number, failed + words
    print("\n".join([*failed, f"{refused} refused, {len(failed)} let through or not applicable"]))
    return 1 if failed else 0
