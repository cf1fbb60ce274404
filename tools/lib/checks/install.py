"""Checks of tools/install, of the store and of the rt of a toolchain, in a repository of two crates.

Most of them call a kit that only looks like one: its prover writes down that it was called, and makes statements in no
time. One crate of a few lines is proved by the real kit, and another one over it.
"""

import fcntl
import glob
import hashlib
import io
import json
import lzma
import os
import resource
import shutil
import signal
import subprocess
import sys
import tarfile

from lib.checks.script_calls import FAILING_RENAME, call, expect, refused
from lib.proofs.kit import kit
from lib.repository import add, write

# The prover of the kit that only looks like one. Files beside it say what it shall do to a crate.
PROVER = """#!{python}
import hashlib, os, sys, time
kit, words = "{kit}", sys.argv[1:]
name, to = words[words.index("--crate-name") + 1], words[words.index("-o") + 1]
with open(f"{{kit}}/log", "a") as log:
    log.write(name + "\\n")
if os.path.exists(f"{{kit}}/slow"):
    time.sleep(float(open(f"{{kit}}/slow").read()))
if os.path.exists(f"{{kit}}/edits"):
    open("src/lib.rt", "a").write("// later\\n")
if os.path.exists(f"{{kit}}/fails-{{name}}"):
    print("logic=not-proved")
    sys.exit(1)
source = open(words[-1]).read()
if words[-1] == "src/main.rt":
    open(to, "w").write(source)
    print("{verdict}")
    sys.exit()
os.makedirs(f"{{to}}/interface")
for path in ("format", "interface/lib.rt"):
    open(f"{{to}}/{{path}}", "w").write(path + source * 50)
print("{verdict}")
"""
VERDICT = "logic=proved functions=1 sum=1 native=nat,char,string logic-built=trusted libraries-built=trusted statements=trusted"
# The linker of that kit: the program prints the source of which it was made.
LINK = """#!/bin/sh
while [ "$1" != -o ]; do shift; done
(echo "#!/bin/sh"; echo "cat <<END"; cat "$3"; echo END) > "$2"
chmod +x "$2"
"""
RT = """#!/bin/sh
if [ "$1" = doc ]; then
    echo {kit}/START-HERE.md
else
    echo "$0 $*"
fi
"""
# A crate with a definition for callers' contracts, and a crate that calls it.
LOW = """//! A crate of a few lines.
#![tactic(auto)]

ghost use Rattle.low.specs.Same.{same};
ghost use Rattle.std.specs.Prelude.{◌≡◌};

/// Its argument.
pub fn echo(number: usize) -> usize
    ensures is_same { result ≡ same number }
{
    number
}
"""
SAME = """use Rattle.std.specs.Prelude.{ℕ}

abbrev pub same : ℕ → ℕ
same x = x
"""
CALLER = """//! A crate that calls it.
#![tactic(auto)]

ghost use Rattle.low.specs.Same.{same};
ghost use Rattle.std.specs.Prelude.{◌≡◌};

/// The same.
pub fn twice(number: usize) -> usize
    ensures is_same { result ≡ same number }
{
    low::echo(low::echo(number))
}
"""


class Place:
    """A repository of a few crates, a kit that only looks like one, and what the scripts make of them."""

    def __init__(self, top, room):
        self.room, self.top, self.kit = room, f"{room}/top", f"{room}/kit"
        self.install, self.folder = f"{self.top}/tools/install", f"{room}/made"
        shutil.copytree(f"{top}/tools", f"{self.top}/tools")
        write(f"{self.top}/CHANGELOG.md", "# Changes\n\n## 0.1\n")
        write(f"{self.top}/crates.txt", "low:\niddqd_maps: low\nuses: iddqd_maps\n")
        write(f"{self.top}/crates/low/src/lib.rt", LOW)
        write(f"{self.top}/crates/low/specs/Lib.antt", "pub mod Same\n")
        write(f"{self.top}/crates/low/specs/Same.antt", SAME)
        write(f"{self.top}/crates/iddqd_maps/src/lib.rt", "//! All maps, which are none.\n")
        write(f"{self.top}/crates/iddqd_maps/specs/Lib.antt", "")
        write(f"{self.top}/crates/iddqd_maps/proofs/+merge/Answers.antt", "")
        self.make_kit()
        self.env = {**os.environ, "PATH": f"{self.kit}/bin:{os.environ['PATH']}"}

    def make_kit(self):
        for path in ("KIT-ID", "WHAT", "START-HERE.md", "bin/rtlib.py", "rlibs/std.rlib/format", "rattle/std/src/lib.rt",
                     "rattle/logic/antt-project.json", "logic_built/x"):
            write(f"{self.kit}/{path}", f"{path}\n")
        for path, text in (("rt", RT), ("rattle", PROVER), ("rattle-link", LINK)):
            write(f"{self.kit}/bin/{path}", text.format(kit=self.kit, python=sys.executable, verdict=VERDICT))
            os.chmod(f"{self.kit}/bin/{path}", 0o755)

    def how(self, **more):
        return {"env": self.env, **more}

    def does(self, *words, folder=None, **more):
        """Calls tools/install, and expects that it succeeds."""
        ran = call([self.install, *words], folder or self.top, **self.how(**more))
        expect(ran.returncode == 0, f"install {' '.join(words)}: status {ran.returncode}, {ran.stdout}{ran.stderr}")
        return ran

    def refuses(self, *words, because, **more):
        """Expects a refusal that leaves everything outside the store as it is."""
        before = snapshot(self.room)
        refused([self.install, *words], self.room, because, 1, **self.how(**more))
        after = snapshot(self.room)
        differs = sorted({path for path in {*before, *after} if before.get(path) != after.get(path)})
        expect(not differs, f"install {' '.join(words)}: refused, and yet {differs[:3]} changed")

    def proofs(self):
        """The crates that were proved since this was asked last, in the order in which they began."""
        path = f"{self.kit}/log"
        found = open(path, encoding="utf-8").read().split() if os.path.exists(path) else []
        write(path, "")
        return found

    def told(self, what, text=""):
        """Tells the prover to do something until the file is removed."""
        write(f"{self.kit}/{what}", text)
        return f"{self.kit}/{what}"


def snapshot(folder):
    """Each file in a folder with its content, each link with where it leads to, and each folder; the store is left out."""
    found = {}
    for at, folders, names in os.walk(folder):
        folders[:] = [it for it in folders if f"{at}/{it}" != f"{folder}/top/out" and it != "__pycache__"]
        for name in [*folders, *names]:
            path = f"{at}/{name}"
            if os.path.islink(path):
                found[path] = os.readlink(path)
            else:
                found[path] = None if os.path.isdir(path) else hashlib.sha256(open(path, "rb").read()).digest()
    return {path: content for path, content in found.items() if not path.endswith("/kit/log")}


def check_places(it):
    """Folders where no toolchain may come."""
    write(f"{it.room}/file", "")
    write(f"{it.room}/other/mine", "")
    it.refuses(f"{it.room}/file", because="is no folder")
    it.refuses(f"{it.room}/other", because="has other things in it")
    it.refuses(it.top, because="lies in the repository")
    it.refuses(f"{it.top}/new", because="lies in the repository")
    it.refuses(it.room, because="lies in ")
    it.refuses(it.kit, because="lies in the kit")
    it.refuses(f"{it.room}/nothing/new", because="there is no folder")
    it.refuses(it.folder, "IdHushMap", because="there is no map 'IdHushMap'")
    it.refuses("/proc/new", because="no folder can be put in the place of")
    write(f"{it.room}/no_kit/rt", "#!/bin/sh\necho it has no kit >&2\nexit 1\n")
    os.chmod(f"{it.room}/no_kit/rt", 0o755)
    it.refuses(it.folder, because="names no kit", env={**it.env, "PATH": f"{it.room}/no_kit:{it.env['PATH']}"})
    expect(not it.proofs(), "install: it proves before it refuses a folder")


def check_made(it):
    """The toolchain is there, whatever FOLDER was called, and nothing is proved twice."""
    os.symlink("made", f"{it.room}/link")
    os.mkdir(it.folder)
    made = it.does("link", folder=it.room)
    fits = it.proofs() == ["low", "iddqd_maps"] and "    mine: iddqd_maps\n" in made.stdout
    expect(fits, f"install: {made.stdout}{made.stderr}")
    it.does(it.folder, "low")
    it.does(".", folder=it.folder)
    expect(not it.proofs(), "install: it proves again what is proved")
    with open("/dev/full", "w", encoding="utf-8") as full:
        ran = subprocess.run([it.install, it.folder], stdout=full, stderr=subprocess.PIPE, text=True, env=it.env)
    fits = ran.returncode == 1 and "all was made, but standard output took no more" in ran.stderr
    expect(fits, f"install: a full standard output, {ran.returncode}, {ran.stderr}")
    for path in ("KIT-ID", "rlibs/std.rlib/format", "rlibs/low.rlib/interface/lib.rt", "rattle/low/specs/Same.antt", "bin/rattle"):
        expect(os.path.isfile(f"{it.folder}/{path}"), f"install: there is no {path}")
    expect(not glob.glob(f"{it.room}/.*"), f"install: it left {glob.glob(f'{it.room}/.*')}")
    write(f"{it.folder}/bin/mine", "")
    it.refuses(it.folder, because="bin/mine' wasn't put there")
    os.remove(f"{it.folder}/bin/mine")
    with open(f"{it.folder}/INSTALLED.json", "rb") as file:
        fcntl.flock(file, fcntl.LOCK_SH)
        it.refuses(it.folder, because="is in use")
    lines = open(f"{it.top}/crates.txt", encoding="utf-8").read()
    write(f"{it.top}/crates.txt", "low:\n")
    it.refuses(it.folder, because="has iddqd_maps, which this checkout lacks")
    write(f"{it.top}/crates.txt", lines)


def check_store(it):
    """Two generations stay, what was damaged is proved again, and no entry is named as a source."""
    source = f"{it.top}/crates/low/src/lib.rt"
    texts = [LOW, LOW + "// 1\n", LOW + "// 2\n"]
    for text in texts[1:]:
        write(source, text)
        it.does(it.folder)
        expect(it.proofs() == ["low", "iddqd_maps"], "install: a changed source isn't proved")
    entries = glob.glob(f"{it.top}/out/store/*/*/entry.json")
    expect(len(entries) == 4, f"store: {len(entries)} entries, and not two generations of two crates")
    write(source, texts[1])
    it.does(it.folder)
    expect(not it.proofs(), "store: the generation before is proved again")
    found = glob.glob(f"{it.top}/out/**/*", recursive=True)
    expect(not [path for path in found if path.endswith((".rt", ".antt"))], "store: it has sources, which rt ci refuses")
    for damage in (lambda path: add(path, "x"), os.remove):
        for entry in entries:
            for path in glob.glob(f"{os.path.dirname(entry)}/0"):
                write(f"{path}.new", open(path, encoding="utf-8").read())
                os.rename(f"{path}.new", path)  # a file of its own, where others have a link to it
                damage(path)
        it.does(it.folder)
        expect(it.proofs() == ["low", "iddqd_maps"], "store: a damaged entry is taken")
    write(source, LOW)
    it.does(it.folder)
    it.proofs()


def check_failing(it):
    """A proof that fails, a source that changes, a step that fails, and a full disk leave what was there."""
    source, new = f"{it.top}/crates/iddqd_maps/src/lib.rt", "//! Another one.\n"
    was = open(source, encoding="utf-8").read()
    before = snapshot(it.folder)
    write(source, new)
    told = it.told("fails-iddqd_maps")
    ran = call([it.install, it.folder], it.top, **it.how())
    expect(ran.returncode == 1 and "iddqd_maps isn't proved" in ran.stderr, f"install: a false proof, {ran.stderr}")
    os.remove(told)
    told = it.told("edits")
    ran = call([it.install, it.folder], it.top, **it.how())
    expect(ran.returncode == 1 and "changed while it was proved" in ran.stderr, f"install: a change, {ran.stderr}")
    os.remove(told)
    write(source, new)
    write(f"{it.room}/patch/sitecustomize.py", FAILING_RENAME)
    failing = {**it.env, "PYTHONPATH": f"{it.room}/patch", "FAILS_AT": it.folder}
    ran = call([it.install, it.folder], it.top, env=failing)
    expect(ran.returncode == 1 and "the step fails" in ran.stderr, f"install: a step that fails, {ran.stderr}")
    write(source, new + "// longer\n")
    ran = call([it.install, it.folder], it.top, **it.how(preexec_fn=fill_disk))
    expect(ran.returncode == 1 and "nothing was changed" in ran.stderr, f"install: a full disk, {ran.stderr}")
    expect(snapshot(it.folder) == before, "install: FOLDER changed where a step failed")
    left = [*glob.glob(f"{it.room}/.*"), *glob.glob(f"{it.top}/out/store/*/*.new")]
    expect(not left, f"install: it left {left}")
    write(source, was)
    it.proofs()


def fill_disk():
    """Lets no file of this process and of its children have more bytes than these."""
    resource.setrlimit(resource.RLIMIT_FSIZE, (1000, 1000))


def check_interrupt(it):
    """An interrupted run leaves FOLDER as it was, and the next one goes on; two runs at once prove each crate once."""
    write(f"{it.top}/crates/low/src/lib.rt", LOW + "// interrupted\n")
    before, told = snapshot(it.folder), it.told("slow", "2")
    run = subprocess.Popen([it.install, it.folder], stdout=subprocess.PIPE, stderr=subprocess.PIPE, text=True, env=it.env)
    next((line for line in run.stderr if "low is proved" in line), None)
    run.send_signal(signal.SIGINT)
    said = run.communicate()[1]
    expect(run.returncode == 130 and "goes on from there" in said, f"install: an interrupt, status {run.returncode}, {said}")
    expect(snapshot(it.folder) == before, "install: FOLDER changed where it was interrupted")
    it.proofs()
    it.does(it.folder)
    expect(it.proofs() == ["iddqd_maps"], "install: it doesn't go on where it was interrupted")
    write(f"{it.top}/crates/low/src/lib.rt", LOW + "// twice\n")
    how = {"stdout": subprocess.DEVNULL, "stderr": subprocess.PIPE, "text": True, "env": it.env}
    runs = [subprocess.Popen([it.install, f"{it.room}/{name}"], **how) for name in ("first", "second")]
    said = [run.communicate()[1] for run in runs]
    expect([run.returncode for run in runs] == [0, 0] and it.proofs() == ["low", "iddqd_maps"], f"install: two at once, {said}")
    os.remove(told)
    write(f"{it.top}/crates/low/src/lib.rt", LOW)
    it.does(it.folder)
    it.proofs()


def check_arrivals(it):
    """A file that comes to FOLDER during a proof stays there, and a run under nohup outlives its terminal."""
    source, told = f"{it.top}/crates/low/src/lib.rt", it.told("slow", "1")
    how = {"stdout": subprocess.PIPE, "stderr": subprocess.PIPE, "text": True, "env": it.env}
    write(source, LOW + "// kept\n")
    run = subprocess.Popen([it.install, f"{it.room}/kept"], **how)
    next((line for line in run.stderr if "install: proves" in line), None)
    write(f"{it.room}/kept/mine", "")
    said = run.communicate()[1]
    fits = run.returncode == 1 and "has other things in it" in said and os.listdir(f"{it.room}/kept") == ["mine"]
    expect(fits, f"install: what came to FOLDER during the proof, status {run.returncode}, {said}")
    write(source, LOW + "// under nohup\n")
    run = subprocess.Popen([it.install, it.folder], preexec_fn=lambda: signal.signal(signal.SIGHUP, signal.SIG_IGN), **how)
    next((line for line in run.stderr if "install: proves" in line), None)
    run.send_signal(signal.SIGHUP)
    said = run.communicate()[1]
    expect(run.returncode == 0, f"install: under nohup, status {run.returncode}, {said}")
    os.remove(told)
    write(source, LOW)
    it.does(it.folder)
    it.proofs()


def check_program(top, it):
    """Two runs of `run` at once build the program once; an edit with an old date and a link to `run` do as any other."""
    own = f"{it.top}/crates/keyed/src/main.rt"
    shutil.copy(f"{top}/run", it.top)
    add(f"{it.top}/crates.txt", "keyed: low\n")
    write(own, "first\n")
    os.symlink(f"{it.top}/run", f"{it.room}/run")
    told = it.told("slow", "1")
    runs = [subprocess.Popen([run], cwd=it.room, stdin=subprocess.DEVNULL, stdout=subprocess.PIPE, stderr=subprocess.PIPE,
                             text=True, env=it.env) for run in (f"{it.top}/run", f"{it.room}/run")]
    said = [run.communicate() for run in runs]
    fits = [run.returncode for run in runs] == [0, 0] and [out for out, _ in said] == ["first\n", "first\n"]
    expect(fits and it.proofs() == ["keyed"], f"run: two at once, {said}")
    os.remove(told)
    write(f"{it.room}/older", "second\n")
    os.utime(f"{it.room}/older", (0, 0))
    shutil.copy2(f"{it.room}/older", own)
    ran = call([f"{it.top}/run"], it.room, **it.how())
    expect(ran.returncode == 0 and ran.stdout == "second\n", f"run: an edit with an old date, {ran.stdout}{ran.stderr}")
    ran = call([f"{it.top}/run"], it.room, **it.how())
    expect(ran.stdout == "second\n" and not ran.stderr and it.proofs() == ["keyed"], f"run: built again, {ran.stderr}")


def check_rt(it):
    """The rt of a toolchain calls the kit's, unless something changed, or the repository has such crates itself."""
    rt, caller = f"{it.folder}/bin/rt", f"{it.room}/caller"
    write(f"{caller}/crates.txt", "mine: iddqd_maps\n")
    ran = call([rt, "check", "it"], caller)
    expect(ran.stdout == f"{it.folder}/bin/kits-rt check it\n", f"rt of a toolchain: {ran.stdout}{ran.stderr}")
    for path, because in ((f"{it.kit}/KIT-ID", "the kit in"), (f"{it.folder}/rattle/low/src/lib.rt", "rattle/low/src/lib.rt changed"),
                          (f"{it.folder}/rlibs/low.rlib/format", "low.rlib/format changed")):
        was = open(path, encoding="utf-8").read()
        write(f"{path}.new", was + "x")
        os.rename(f"{path}.new", path)
        refused([rt, "check"], caller, because, 2)
        write(path, was)
    for gone, because in ((it.kit, "isn't in"), (f"{it.folder}/INSTALLED.json", "is gone or damaged")):
        os.rename(gone, f"{gone}.away")
        refused([rt, "check"], caller, because, 2)
        os.rename(f"{gone}.away", gone)
    write(f"{caller}/crates.txt", "low:\niddqd_maps: low\nmine: iddqd_maps\n")
    ran = call([rt, "check"], caller)
    expect(ran.stdout == f"{it.kit}/bin/rt check\n" and "proved here" in ran.stderr, f"rt beside copies: {ran.stdout}{ran.stderr}")
    write(f"{caller}/crates.txt", "low:\nmine: iddqd_maps\n")
    refused([rt, "check"], caller, "or copy iddqd_maps as well", 2)


def check_pack(it, file):
    """An archive of a toolchain, and where there can be none."""
    made, source = f"{it.folder}/rlibs/low.rlib/interface/lib.rt", f"{it.top}/crates/low/src/lib.rt"
    write(f"{it.room}/file", "")
    it.refuses("--pack", file, f"{it.room}/other", because="is no toolchain")
    it.refuses("--pack", f"{it.room}/file", it.folder, because="is there already")
    it.refuses("--pack", f"{it.room}/nothing/file", it.folder, because="there is no folder")
    it.refuses("--pack", f"{it.folder}/file", it.folder, because="lies in")
    add(source, "// later\n")
    it.refuses("--pack", file, it.folder, because="the sources of low changed")
    write(source, LOW)
    was = open(made, encoding="utf-8").read()
    write(f"{made}.new", "other")
    os.rename(f"{made}.new", made)
    it.refuses("--pack", file, it.folder, because="isn't what tools/install put there")
    write(made, was)
    it.refuses("--pack", file, it.folder, because="nothing was changed", preexec_fn=lambda: limit(100))
    packed = it.does("--pack", file, it.folder)
    expect("for the kit 'KIT-ID'" in packed.stdout and not glob.glob(f"{it.room}/.*"), f"pack: {packed.stdout}")


def limit(size):
    resource.setrlimit(resource.RLIMIT_FSIZE, (size, size))


def remade(it, file, change):
    """An archive like another one but for what a function changes of its list and of its members."""
    with tarfile.open(file) as archive:
        found = [(member, archive.extractfile(member).read()) for member in archive]
    record, rest = json.loads(found[0][1]), found[1:]
    rest = change(record, rest) or rest
    with tarfile.open(f"{it.room}/remade", "w:xz", preset=0) as archive:
        for member, content in [(tarfile.TarInfo("list.json"), json.dumps(record).encode()), *rest]:
            member.size = len(content)
            archive.addfile(member, io.BytesIO(content))
    return f"{it.room}/remade"


def put(record, name, content, path=None):
    """A member that the list of an archive has."""
    record["files"][path or name] = hashlib.sha256(content).hexdigest()
    return [(tarfile.TarInfo(name), content)]


def linked(record, rest):
    """A member that is a link out of the folder, and one that lies behind it."""
    link = tarfile.TarInfo("rlibs/low.rlib/out")
    link.type, link.linkname = tarfile.SYMTYPE, "/tmp"
    return [*rest, (link, b""), *put(record, "rlibs/low.rlib/out/x", b"x")]


def named_std(record, rest):
    record["crates"]["std"] = record["crates"]["low"]


def other_kit(record, rest):
    record["kit"]["KIT-ID"] = "0"


def other_format(record, rest):
    record["format"] = 0


def shortened(record, rest):
    return rest[:-1]


def listed_alone(record, rest):
    record["crates"]["other"] = record["crates"]["low"]


def without_sum(record, rest):
    del record["crates"]["low"]["sum"]


# What is wrong with an archive, and words of the refusal.
CHANGES = [
    (lambda record, rest: [*rest, *put(record, "../x", b"x")], "leads out of"),
    (lambda record, rest: [*rest, *put(record, "/tmp/x", b"x")], "leads out of"),
    (lambda record, rest: [*rest, *put(record, "rlibs/low.rlib/../../x", b"x")], "leads out of"),
    (lambda record, rest: [*rest, *put(record, "rlibs/other.rlib/x", b"x")], "leads out of"),
    (lambda record, rest: [*rest, *put(record, "bin/rt", b"x")], "leads out of"),
    (lambda record, rest: [*rest, (tarfile.TarInfo("../x"), b"x")], "which its list lacks"),
    (lambda record, rest: [*rest, rest[0]], "or has it twice"),
    (linked, "is no plain file"),
    (named_std, "a crate 'std', as the kit has"),
    (other_kit, "was made over another kit"),
    (other_format, "is of format 0"),
    (shortened, "is cut off: it lacks"),
    (listed_alone, "lacks the statements of 'other'"),
    (without_sum, "is damaged"),
    (lambda record, rest: [(rest[0][0], b"x"), *rest[1:]], "is damaged"),
]


def check_refused_archives(it, file):
    """What isn't an archive, or was changed: it is refused before anything comes to FOLDER."""
    new, content = f"{it.room}/new", open(file, "rb").read()
    it.refuses("--from", f"{it.room}/nothing", new, because="there is no file")
    it.refuses("--from", f"{it.top}/CHANGELOG.md", new, because="no archive that tools/install made")
    it.refuses("--from", file, f"{it.room}/other", because="has other things in it")
    for at, part in enumerate((content[: len(content) // 2], content[:-10], content[:400] + b"damage" + content[406:], lzma.compress(b"x"))):
        with open(f"{it.room}/part", "wb") as out:
            out.write(part)
        it.refuses("--from", f"{it.room}/part", [new, it.folder][at % 2], because="is damaged, cut off, or no archive")
    for change, because in CHANGES:
        it.refuses("--from", remade(it, file, change), new, because=because)
    it.refuses("--verify", remade(it, file, other_kit), because="was made over another kit")
    it.refuses("--from", file, it.folder, because="nothing was changed", preexec_fn=fill_disk)
    it.does(f"{it.room}/lower", "low")
    it.does("--pack", f"{it.room}/lower.tar.xz", f"{it.room}/lower")
    it.refuses("--from", f"{it.room}/lower.tar.xz", it.folder, because="has iddqd_maps, which '")


def check_verify(it, file):
    """Proves an archive anew, and sees statements that its sources don't make."""
    verified = it.does("--verify", file)
    expect(it.proofs() == ["low", "iddqd_maps"], "verify: it proves nothing")
    fits = "the same, byte for byte" in verified.stdout and "are those of this checkout" in verified.stdout
    expect(fits, f"verify: {verified.stdout}")

    def weakened(record, rest):
        member, _ = next(it for it in rest if it[0].name == "rlibs/low.rlib/interface/lib.rt")
        return [*(it for it in rest if it[0] is not member), *put(record, member.name, b"weaker")]

    ran = call([it.install, "--verify", remade(it, file, weakened)], it.top, **it.how())
    fits = ran.returncode == 1 and "isn't what its sources make" in ran.stderr and "rlibs/low.rlib/interface/lib.rt" in ran.stderr
    expect(fits and not ran.stdout, f"verify: other statements, {ran.stdout}{ran.stderr}")
    it.proofs()


def check_from(it, file):
    """A toolchain out of an archive is that out of which it was made, and needs neither the checkout nor the archive."""
    new = f"{it.room}/new"
    made = it.does("--from", file, new)
    expect("rests on whoever made" in made.stdout and not it.proofs(), f"from: {made.stdout}")
    same, theirs = ({path[len(folder):]: content for path, content in snapshot(folder).items()
                     if not path.endswith("/INSTALLED.json")} for folder in (it.folder, new))
    expect(same == theirs, f"from: another toolchain, {sorted({*same.items()} ^ {*theirs.items()}, key=str)[:3]}")
    it.refuses("--pack", f"{it.room}/second", new, because="nothing in it was proved here")
    os.rename(it.top, f"{it.top}.away")
    os.rename(file, f"{file}.away")
    write(f"{it.room}/caller/crates.txt", "mine: iddqd_maps\n")
    ran = call([f"{new}/bin/rt", "check"], f"{it.room}/caller")
    expect(ran.stdout == f"{new}/bin/kits-rt check\n", f"from: without the checkout, {ran.stdout}{ran.stderr}")
    os.rename(f"{it.top}.away", it.top)
    os.rename(f"{file}.away", file)


def check_real(it):
    """The kit proves a crate of a few lines, and over it another crate, whose contract cites the crate's definition."""
    env = {**os.environ, "PATH": f"{kit()}/bin:{os.environ['PATH']}"}
    made = call([it.install, f"{it.room}/real", "low"], it.top, env=env, timeout=600)
    expect(made.returncode == 0, f"install: the kit doesn't prove a crate, {made.stdout}{made.stderr}")
    caller = f"{it.room}/above"
    os.makedirs(f"{caller}/.git")
    write(f"{caller}/crates.txt", "mine: low\n")
    write(f"{caller}/crates/mine/src/lib.rt", CALLER)
    ran = call([f"{it.room}/real/bin/rt", "check"], f"{caller}/crates/mine", timeout=600)
    fits = ran.returncode == 0 and "logic=proved functions=1" in ran.stdout and "statements low:" in ran.stdout
    expect(fits, f"rt of a toolchain: {ran.stdout}{ran.stderr}")


def steps_of_install(top, room):
    """The checks of a place, in which each goes on from what those before it left."""
    it = Place(top, os.path.realpath(room))
    file = f"{it.room}/maps.tar.xz"
    before = [(check, it) for check in (check_places, check_made, check_store, check_failing, check_interrupt, check_arrivals, check_rt)]
    archives = [(check, it, file) for check in (check_pack, check_refused_archives, check_verify, check_from)]
    return [*before, *archives, (check_program, top, it), (check_real, it)]
