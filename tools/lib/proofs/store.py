"""One proof a checkout: proves crates, several side by side, and keeps their statements for all scripts.

The store is the folder out/store. It has an entry for each proved crate, out/store/NAME/STAMP. The stamp is a checksum of
the crate's sources, of those below it and of the kit. An entry is made under another name and then renamed, so it is whole
or absent. It has checksums of its files: what was damaged since is proved anew. Its files are numbered, since `rt ci`
refuses a source file outside a crate. Whoever needs an entry takes it into a folder of its own, by hard links where they
work. So no entry has to be locked while it is read, and two generations of each crate are enough.
"""

import fcntl
import hashlib
import json
import os
import re
import shutil
import signal
import subprocess
import sys
import tempfile
import time

from lib.commands import Refused
from lib.proofs.kit import VERDICT, kit, marks_of, sources_in, sum_of, words_for
from lib.repository import TOP, below, crates_in, read

GENERATIONS = 2
# What an entry of a program or of a static library has in place of statements.
OBJECT = "object"
# What a crate's proof may take, in kilobytes, and how often the scheduler looks at its proofs, in seconds.
MEMORY_OF_A_JOB, MEMORY_OF_A_PROOF, PAUSE = 2_000_000, 3_000_000, 0.2
# After so many seconds without news the scheduler says what it is at.
SILENCE = 60


def link_or_copy(old, new):
    try:
        os.link(old, new)
    except OSError:
        shutil.copyfile(old, new)


def files_below(folder):
    """The paths of all files in a folder, relative to it."""
    return sorted(os.path.relpath(f"{at}/{name}", folder) for at, _, names in os.walk(folder) for name in names)


def sum_of_sums(sums):
    """One checksum of the files with these."""
    return hashlib.sha256(json.dumps(sums, sort_keys=True).encode()).hexdigest()


class Lock:
    """A lock on a path that ends with its process, however it ends."""

    def __init__(self, path):
        os.makedirs(os.path.dirname(path), exist_ok=True)
        self.path, self.file = path, None

    def taken(self):
        """Takes the lock, if nobody holds it."""
        file = open(self.path, "w")
        try:
            fcntl.flock(file, fcntl.LOCK_EX | fcntl.LOCK_NB)
            is_there = os.path.exists(self.path) and os.fstat(file.fileno()).st_ino == os.stat(self.path).st_ino
        except OSError:
            is_there = False
        if not is_there:
            file.close()
            return False
        self.file = file
        return True

    def release(self):
        if self.file:
            self.file.close()
            self.file = None


class Store:
    """The crates of a repository, and what of them is proved."""

    def __init__(self, top=TOP, folder=None):
        self.top, self.folder = top, folder or f"{top}/out/store"
        self.crates = crates_in(f"{top}/crates.txt")
        self.marks = marks_of(kit())
        self.stamps = {}

    def read_stamp(self, name):
        """The checksum of a crate's sources as they are now, of those below it and of the kit."""
        found = hashlib.sha256(repr((sorted(self.marks.items()), name, sorted(self.crates[name]))).encode())
        found.update(b"staticlib" if self.kind(name) == "staticlib" else b"")
        own = f"{self.top}/crates/{name}"
        for path in sources_in(own):
            found.update(repr((path, sum_of(f"{own}/{path}"))).encode())
        for low in sorted(self.crates[name]):
            found.update(self.stamp(low).encode())
        return found.hexdigest()[:32]

    def stamp(self, name):
        """The same, as it was when this process asked first."""
        if name not in self.stamps:
            self.stamps[name] = self.read_stamp(name)
        return self.stamps[name]

    def is_changed(self, name):
        """Whether a source changed since its stamp was read."""
        now = Store(self.top, self.folder)
        return not set(below([name], self.crates)) <= set(now.crates) or now.stamp(name) != self.stamp(name)

    def kind(self, name):
        """Whether a crate is a `library`, which others stand on, a `program` or a `staticlib`."""
        if os.path.isfile(f"{self.top}/crates/{name}/src/main.rt"):
            return "program"
        line = re.search(rf"^{name}\s+staticlib\b", read(f"{self.top}/crates.txt"), re.M)
        return "staticlib" if line else "library"

    def words(self, name, room, jobs):
        """What makes a crate's statements, or the object file or archive of what nothing stands on."""
        made, kind = f"{room}/{name}.rlib", self.kind(name)
        words = words_for("build", name, self.crates[name], room, jobs)
        if kind == "library":
            return [*words, "--statements", "-o", made, "src/lib.rt"]
        os.makedirs(made)
        words += ["--toolchain", f"{kit()}/toolchain", "--backend", "llvm", "-o", f"{made}/{OBJECT}"]
        return [*words, "src/main.rt"] if kind == "program" else [*words, "--crate-type", "staticlib", "src/lib.rt"]

    def place(self, name):
        return f"{self.folder}/{name}/{self.stamp(name)}"

    def lock(self, name):
        return Lock(f"{self.place(name)}.lock")

    def take(self, name, room, sums):
        """Puts a crate's statements into a room, and returns what is known of them; None if the store lacks them.

        They have to be whole, and made over the statements that the room has of the crates below, as `sums` has it.
        """
        place, to = self.place(name), f"{room}/{name}.rlib"
        try:
            with open(f"{place}/entry.json", encoding="utf-8") as file:
                entry = json.load(file)
            fits = all(sums.get(low) == sum_ for low, sum_ in entry["over"].items())
            fits = fits and self.lay_out(entry, place, to)
            os.utime(place)
        except (OSError, ValueError, KeyError, AttributeError):
            fits = False
        if not fits:
            shutil.rmtree(to, ignore_errors=True)
            return None
        return entry

    def lay_out(self, entry, place, to):
        """Writes an entry's files under their own names, and returns whether all are as they were."""
        for at, path in enumerate(sorted(entry["files"])):
            os.makedirs(os.path.dirname(f"{to}/{path}"), exist_ok=True)
            link_or_copy(f"{place}/{at}", f"{to}/{path}")
            if sum_of(f"{to}/{path}") != entry["files"][path]:
                return False
        return sum_of_sums(entry["files"]) == entry["sum"]

    def keep(self, name, made, sums, told):
        """Makes an entry of the statements in a folder. Its lock is held."""
        place = self.place(name)
        shutil.rmtree(f"{place}.new", ignore_errors=True)
        try:
            entry = self.fill(name, made, sums, told)
            shutil.rmtree(place, ignore_errors=True)
            os.rename(f"{place}.new", place)
        finally:
            shutil.rmtree(f"{place}.new", ignore_errors=True)
        self.prune(name)
        return entry

    def fill(self, name, made, sums, told):
        """Writes an entry under its other name."""
        new = f"{self.place(name)}.new"
        os.makedirs(new)
        files = {path: sum_of(f"{made}/{path}") for path in files_below(made)}
        for at, path in enumerate(sorted(files)):
            link_or_copy(f"{made}/{path}", f"{new}/{at}")
        lows = [low for low in below([name], self.crates) if low != name]
        entry = {"files": files, "sum": sum_of_sums(files), "over": {low: sums[low] for low in lows}, **told}
        with open(f"{new}/entry.json", "w", encoding="utf-8") as file:
            json.dump(entry, file, indent=1)
        return entry

    def prune(self, name):
        """Removes all generations of a crate but the last ones, and what killed runs left."""
        own = f"{self.folder}/{name}"
        places = sorted({f"{own}/{it.partition('.')[0]}" for it in os.listdir(own)}, reverse=True,
                        key=lambda it: os.path.getmtime(it) if os.path.isdir(it) else 0)
        for place in places:
            lock = Lock(f"{place}.lock")
            if place == self.place(name) or not lock.taken():
                continue
            shutil.rmtree(f"{place}.new", ignore_errors=True)
            if place not in places[:GENERATIONS] or not os.path.isdir(place):
                shutil.rmtree(place, ignore_errors=True)
                os.remove(f"{place}.lock")
            lock.release()


def processors():
    """How many processors this process may use; RT_JOBS can say fewer, as it does for rt."""
    said = os.environ.get("RT_JOBS", "")
    return int(said) if said.isdigit() and int(said) else len(os.sched_getaffinity(0))


def free_memory():
    """The memory that is free, in kilobytes."""
    with open("/proc/meminfo", encoding="utf-8") as file:
        return next(int(line.split()[1]) for line in file if line.startswith("MemAvailable:"))


def jobs_beside(others):
    """How many jobs a proof gets beside so many others: one a processor that these leave, if its memory is free."""
    return max(1, min(processors() - others, free_memory() // MEMORY_OF_A_JOB))


class Proof:
    """A run of the prover."""

    def __init__(self, words, folder, lock=None):
        self.lock, self.said, self.words, self.folder = lock, tempfile.TemporaryFile("w+", errors="replace"), words, folder
        how = {"stdin": subprocess.DEVNULL, "stdout": self.said, "stderr": subprocess.STDOUT}
        # It has a group of its own, so that all of it can be stopped. It holds the lock, too: if this process is killed,
        # no other run proves the crate beside what it leaves.
        held = [lock.file.fileno()] if lock else []
        self.process = subprocess.Popen(words, cwd=folder, start_new_session=True, pass_fds=held, **how)
        self.usage = None

    def ended(self):
        """Whether it has ended; then `status` and `usage` are there."""
        pid, status, usage = os.wait4(self.process.pid, os.WNOHANG)
        if pid:
            self.usage = usage
            self.process.returncode = -os.WTERMSIG(status) if os.WIFSIGNALED(status) else os.WEXITSTATUS(status)
        return bool(pid)

    def text(self):
        self.said.seek(0)
        return self.said.read().rstrip("\n")

    def is_proved(self):
        return self.process.returncode == 0 and bool(VERDICT.match(self.text().rpartition("\n")[2]))

    def told(self):
        """What the entry keeps of it."""
        return {"said": self.text().rpartition("\n")[2], "kilobytes": self.usage.ru_maxrss,
                "processor_seconds": round(self.usage.ru_utime + self.usage.ru_stime, 1)}

    def stop(self):
        if self.process.returncode is None:
            try:
                os.killpg(self.process.pid, signal.SIGKILL)
                self.process.wait()
            except (OSError, ChildProcessError):
                pass


class Prover:
    """Proves crates, each as soon as those below it are proved, and has all statements in a room."""

    def __init__(self, store, names, room, say):
        self.store, self.room, self.say = store, room, say
        self.names = below(names, store.crates)
        self.entries, self.running, self.waiting, self.made_here = {}, {}, set(), []
        self.start = self.news = time.monotonic()
        self.sizes = {name: self.size(name) for name in self.names}

    def size(self, name):
        own = f"{self.store.top}/crates/{name}"
        return sum(os.path.getsize(f"{own}/{path}") for path in sources_in(own))

    def sums(self):
        return {name: entry["sum"] for name, entry in self.entries.items()}

    def left(self):
        return [name for name in self.names if name not in self.entries]

    def tell(self, text):
        self.news = time.monotonic()
        passed = int(self.news - self.start)
        self.say(f"{passed // 60} min {passed % 60} s: {text}")

    def take_kept(self):
        """Takes what the store has, lowest first, and returns whether nothing is left to prove."""
        for name in self.names:
            if all(low in self.entries for low in self.store.crates[name]):
                self.take(name)
        return not self.left()

    def take(self, name):
        entry = self.store.take(name, self.room, self.sums())
        if entry:
            self.entries[name] = entry
        return bool(entry)

    def ready(self):
        """The crates that may begin now, those with more to prove first."""
        found = [name for name in self.left() if name not in self.running
                 and all(low in self.entries for low in self.store.crates[name])]
        return sorted(found, key=lambda name: -self.sizes[name])

    def begin(self, name, jobs):
        """Begins a proof; if another run is at the same crate, waits for it."""
        lock = self.store.lock(name)
        if not lock.taken():
            if name not in self.waiting:
                self.tell(f"waits for another run, which proves {name}")
                self.waiting.add(name)
            return
        if self.take(name):  # by another run, meanwhile
            lock.release()
            return
        self.running[name] = Proof(self.store.words(name, self.room, jobs), f"{self.store.top}/crates/{name}", lock)

    def finish(self, name):
        """Keeps what was proved."""
        proof = self.running.pop(name)
        try:
            if not proof.is_proved():
                raise Refused(f"{name} isn't proved:\n{proof.text()}")
            if self.store.is_changed(name):
                raise Refused(f"a source of {name}, or of a crate below it, changed while it was proved: run this again")
            self.entries[name] = self.store.keep(name, f"{self.room}/{name}.rlib", self.sums(), proof.told())
            self.made_here.append(name)
        finally:
            proof.lock.release()
        left = self.left()
        self.tell(f"{name} is proved" + (f"; left: {', '.join(left)}" if left else ""))

    def step(self):
        """Begins what can begin, and ends what has ended."""
        for name in self.ready():
            has_room = not self.running or free_memory() > MEMORY_OF_A_PROOF
            if len(self.running) < processors() and has_room:
                self.begin(name, jobs_beside(len(self.running)))
        for name in [name for name, proof in self.running.items() if proof.ended()]:
            self.finish(name)
        if time.monotonic() - self.news > SILENCE and self.running:
            self.tell(f"proves {', '.join(self.running)}; done: {len(self.entries)} of {len(self.names)}")

    def prove_all(self):
        """Proves what the store lacks. What is proved by then stays, however this ends."""
        try:
            while self.left():
                self.step()
                if self.left():
                    time.sleep(PAUSE)
        finally:
            for proof in self.running.values():
                proof.stop()
                proof.lock.release()


def end_as_interrupted(*_):
    raise KeyboardInterrupt


def stop_cleanly():
    """Has signals that end this process stop its proofs first."""
    for it in (signal.SIGTERM, signal.SIGHUP):
        if signal.getsignal(it) != signal.SIG_IGN:  # as under nohup
            signal.signal(it, end_as_interrupted)


def build(name, file, caller):
    """Proves a program or a static library with all below it, and writes its object file or its archive."""
    with tempfile.TemporaryDirectory(prefix="proofs-") as room:
        prover = Prover(Store(), [name], room, lambda text: print(f"{caller}: {text}", file=sys.stderr, flush=True))
        if not prover.take_kept():
            if prover.entries:
                prover.tell(f"proved before: {', '.join(prover.entries)}")
            prover.prove_all()
        shutil.copyfile(f"{room}/{name}.rlib/{OBJECT}", file)
