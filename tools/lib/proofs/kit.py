"""The kit: where it stands, which one it is, and the words that its prover takes."""

import glob
import hashlib
import json
import os
import re
import shutil
import subprocess
from functools import lru_cache

# What tools/install writes into the toolchains that it makes.
RECORD = "INSTALLED.json"
# Files that differ between two kits. The last has the checksums of std and of what std stands on.
MARKS = ["KIT-ID", "WHAT", "bin/rt", "bin/rtlib.py", "rlibs/std.rlib/format"]
# The last line of a check that rests on nothing but the kit and what was proved before: no word tells of work that an
# earlier check kept, of a module that the check couldn't finish, or of code in C.
VERDICT = re.compile(r"^logic=proved(?!.* (?:incremental|batches|crate-checked|cache|pinned|hides|bugs|foreign)=)( [\w-]+=\S+)*$")


def sum_of(path):
    """The checksum of a file, by SHA-256."""
    found = hashlib.sha256()
    with open(path, "rb") as file:
        for part in iter(lambda: file.read(1 << 20), b""):
            found.update(part)
    return found.hexdigest()


@lru_cache(maxsize=None)
def kit():
    """The folder of the kit. If `rt` is that of a toolchain which tools/install made, the kit is the one below it."""
    if not shutil.which("rt"):
        raise SystemExit("rt isn't installed: put the kit's folder bin into PATH")
    said = subprocess.run(["rt", "doc"], capture_output=True, text=True)
    folder = os.path.dirname(said.stdout.strip())
    if said.returncode or not os.path.isfile(f"{folder}/KIT-ID"):
        raise SystemExit(f"{shutil.which('rt')} names no kit: put the kit's folder bin first in PATH."
                         f" It says: {(said.stderr or said.stdout).strip()}")
    if os.path.isfile(f"{folder}/{RECORD}"):
        with open(f"{folder}/{RECORD}", encoding="utf-8") as file:
            return json.load(file)["kit_folder"]
    return folder


def marks_of(folder):
    """The checksums that tell a kit from another."""
    return {mark: sum_of(f"{folder}/{mark}") for mark in MARKS if os.path.isfile(f"{folder}/{mark}")}


def identity(folder):
    """The line by which a kit names itself."""
    with open(f"{folder}/KIT-ID", encoding="utf-8") as file:
        return file.read().strip()


def words_for(verb, name, lows, room, jobs):
    """What the prover is told to do with a crate: its name, the libraries that it names, and where their statements lie."""
    own = kit()
    words = ["--crate-name", name, "--extern", f"std={own}/rlibs/std.rlib", "-L", f"dependency={own}/rlibs",
             "-L", f"dependency={room}", "--antt-project", f"{own}/rattle/logic/antt-project.json",
             "--logic-built", f"{own}/logic_built", "--jobs", str(jobs)]
    for low in lows:
        words += ["--extern", f"{low}={room}/{low}.rlib"]
    return [f"{own}/bin/rattle", verb, *words]


def sources_in(folder):
    """The files of a crate that the prover reads, by their paths in its folder."""
    found = []
    for part in ("src", "specs", "proofs"):
        found += glob.glob(f"{glob.escape(folder)}/{part}/**/*.*", recursive=True)
    return sorted(os.path.relpath(path, folder) for path in found if path.endswith((".rt", ".antt")) and os.path.isfile(path))
