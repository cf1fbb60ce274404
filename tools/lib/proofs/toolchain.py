"""Toolchains: folders of links to the kit, with proved crates among its libraries, and an rt that finds them."""

import contextlib
import fcntl
import json
import os
import shutil
import signal
import subprocess
import tempfile

from lib.proofs.kit import MARKS, RECORD, identity, kit, marks_of, sources_in, sum_of
from lib.repository import TOP, release
from lib.commands import Refused
from lib.proofs.store import files_below, link_or_copy

FORMAT = 1
# These folders of a toolchain have entries of their own beside links to the kit's.
MIXED = ["rlibs", "rattle"]
KITS_RT = "kits-rt"


def commit():
    """The commit of this checkout, and whether crates changed since."""
    words = ["git", "--no-optional-locks", "-C", TOP]
    try:
        head = subprocess.run([*words, "rev-parse", "HEAD"], capture_output=True, text=True)
        changed = subprocess.run([*words, "status", "--porcelain", "--", "crates", "crates.txt"], capture_output=True, text=True)
    except OSError:
        return None
    is_top = os.path.exists(f"{TOP}/.git")
    return head.stdout.strip() + (" with changes" if changed.stdout.strip() else "") if is_top and not head.returncode else None


def record_in(folder):
    """What tools/install wrote of the toolchain in a folder; None where it wrote nothing there."""
    try:
        with open(f"{folder}/{RECORD}", encoding="utf-8") as file:
            record = json.load(file)
        return record if record["format"] == FORMAT else None
    except (OSError, ValueError, KeyError, TypeError):
        return None


def paths_in(folder):
    """All files, links and empty folders in a folder, by their paths in it."""
    found = set()
    for at, folders, names in os.walk(folder):
        links = [name for name in folders if os.path.islink(f"{at}/{name}")]
        found |= {os.path.relpath(f"{at}/{name}", folder) for name in [*names, *links]}
        if not folders and not names:
            found.add(os.path.relpath(at, folder))
    return found


def takes_folders(folder):
    """Whether a new folder can be made in this one."""
    try:
        os.rmdir(tempfile.mkdtemp(prefix=".tried-", dir=folder))
    except OSError:
        return False
    return True


def check_place(folder):
    """Refuses a folder that isn't there for a toolchain alone."""
    real = os.path.realpath(folder)
    for other, what in ((TOP, "the repository"), (kit(), "the kit")):
        if os.path.commonpath([real, other]) == other:
            raise Refused(f"'{folder}' lies in {what}: name a folder elsewhere")
        if os.path.commonpath([real, other]) == real:
            raise Refused(f"{what} lies in '{folder}': name a new folder")
    if not os.path.isdir(os.path.dirname(real)):
        raise Refused(f"there is no folder '{os.path.dirname(folder.rstrip('/'))}' to put it in")
    if os.path.ismount(real) or not takes_folders(os.path.dirname(real)):
        raise Refused(f"no folder can be put in the place of '{folder}': name one in a folder that can be written to")
    if os.path.lexists(folder) and not os.path.isdir(folder):
        raise Refused(f"'{folder}' is no folder: name a new one")
    if not os.path.isdir(real) or not os.listdir(real):
        return real
    record = record_in(real)
    if not record:
        raise Refused(f"'{folder}' has other things in it: name a new folder, or an empty one")
    added = sorted(paths_in(real) - set(record["paths"]))
    if added:
        raise Refused(f"'{folder}/{added[0]}' wasn't put there by tools/install: move it away first")
    return real


def make_links(own, to, crates):
    """Links to all of a kit but its folder bin, whose scripts find their kit by their own place.

    Of WHAT, by which rt sees that what it built is of another kit, there is a copy with a line for each crate.
    """
    shutil.copyfile(f"{own}/WHAT", f"{to}/WHAT")
    with open(f"{to}/WHAT", "a", encoding="utf-8") as file:
        file.writelines(f"{name} {crate['sum']}\n" for name, crate in crates.items())
    for name in os.listdir(own):
        if name not in [*MIXED, "bin", "WHAT", RECORD]:
            os.symlink(f"{own}/{name}", f"{to}/{name}")
    for part in MIXED:
        os.makedirs(f"{to}/{part}", exist_ok=True)
        for name in os.listdir(f"{own}/{part}"):
            os.symlink(f"{own}/{part}/{name}", f"{to}/{part}/{name}")


def make_bin(own, to):
    """Copies of the kit's scripts and links to its programs; `rt` comes from this repository, and calls the kit's."""
    os.mkdir(f"{to}/bin")
    for name in os.listdir(f"{own}/bin"):
        with open(f"{own}/bin/{name}", "rb") as file:
            is_program = file.read(4) == b"\x7fELF"
        if not is_program:
            shutil.copy2(f"{own}/bin/{name}", f"{to}/bin/{KITS_RT if name == 'rt' else name}")
        else:
            os.symlink(f"{own}/bin/{name}", f"{to}/bin/{name}")
    shutil.copy2(f"{TOP}/tools/lib/proofs/installed-rt", f"{to}/bin/rt")


def put_crate(name, top, rlib, to):
    """Puts a crate's statements and its sources into a toolchain."""
    for path in files_below(rlib):
        os.makedirs(os.path.dirname(f"{to}/rlibs/{name}.rlib/{path}"), exist_ok=True)
        link_or_copy(f"{rlib}/{path}", f"{to}/rlibs/{name}.rlib/{path}")
    for path in sources_in(f"{top}/crates/{name}"):
        os.makedirs(os.path.dirname(f"{to}/rattle/{name}/{path}"), exist_ok=True)
        shutil.copyfile(f"{top}/crates/{name}/{path}", f"{to}/rattle/{name}/{path}")


def own_files(names, folder):
    """The checksums of the files of crates in a toolchain, by their paths in it."""
    parts = [part for name in names for part in (f"rlibs/{name}.rlib", f"rattle/{name}")]
    return {f"{part}/{path}": sum_of(f"{folder}/{part}/{path}") for part in parts for path in files_below(f"{folder}/{part}")}


def record_of(prover, to, date):
    """What is known of a toolchain: the kit, the crates, and what their proofs rest on."""
    store = prover.store
    crates = {name: {"names": store.crates[name], "stamp": store.stamp(name), **told(prover.entries[name])}
              for name in prover.names}
    return {"format": FORMAT, "kit": marks_of(kit()), "kit_names_itself": identity(kit()), "commit": commit(),
            "release": release(), "proved": date, "crates": crates, "files": own_files(prover.names, to)}


def told(entry):
    return {key: entry[key] for key in ("said", "processor_seconds", "kilobytes", "sum")}


def finish(record, to, folder, from_archive):
    """Completes a toolchain, and moves it to its place: what was there before goes only once the new one is whole."""
    make_links(kit(), to, record["crates"])
    make_bin(kit(), to)
    paths = sorted(paths_in(to) | {RECORD})
    record = {**record, "kit_folder": kit(), "from_archive": from_archive, "paths": paths}
    with open(f"{to}/{RECORD}", "w", encoding="utf-8") as file:
        json.dump(record, file, indent=1)
    os.chmod(to, 0o755)
    with in_use(folder), undisturbed():
        check_place(folder)  # again, since a proof takes an hour
        old = f"{to}.old"
        if os.path.isdir(folder):
            os.rename(folder, old)
        try:
            os.rename(to, folder)
        except BaseException:
            if os.path.isdir(old):
                os.rename(old, folder)
            raise
        shutil.rmtree(old, ignore_errors=True)


@contextlib.contextmanager
def undisturbed():
    """Has signals wait that would interrupt a few steps."""
    before = signal.pthread_sigmask(signal.SIG_BLOCK, [signal.SIGINT, signal.SIGTERM, signal.SIGHUP])
    try:
        yield
    finally:
        signal.pthread_sigmask(signal.SIG_SETMASK, before)


@contextlib.contextmanager
def in_use(folder):
    """Keeps a toolchain from being used while it is replaced."""
    try:
        file = open(f"{folder}/{RECORD}", "rb")
    except OSError:
        yield
        return
    with file:
        try:
            fcntl.flock(file, fcntl.LOCK_EX | fcntl.LOCK_NB)
        except OSError:
            raise Refused(f"'{folder}' is in use: try again when no rt of it runs") from None
        yield


@contextlib.contextmanager
def beside(folder):
    """A new folder beside another, for what shall take its place."""
    above = os.path.dirname(folder)
    room = tempfile.mkdtemp(prefix=f".{os.path.basename(folder)}-", dir=above)
    try:
        yield room
    finally:
        shutil.rmtree(room, ignore_errors=True)


def check_kit(record, what):
    """Refuses what was made over another kit."""
    here = marks_of(kit())
    other = sorted(mark for mark in MARKS if here.get(mark) != record["kit"].get(mark))
    if other:
        raise Refused(f"{what} was made over another kit, '{record['kit_names_itself']}'; here is '{identity(kit())}'"
                      f" (they differ in {other[0]})")


def check_whole(record, folder, shown):
    """Refuses a toolchain of which a file of its crates isn't what was put there."""
    found = own_files(record["crates"], folder)
    for path in sorted({*found, *record["files"]}):
        if found.get(path) != record["files"].get(path):
            raise Refused(f"'{shown}/{path}' isn't what tools/install put there: run tools/install {shown} again")


def lines_of(record):
    """The crates of a toolchain, with those that they name."""
    return {name: crate["names"] for name, crate in record["crates"].items()}
