"""Proves what a script laid out over the library that tools/install makes of out/store, and tells what that costs."""

import os
import shutil
import subprocess
import tempfile
import time

from lib.proofs.store import PAUSE, Proof, files_below
from lib.repository import TOP, add, below, crates_in, write
from lib.rooms import line_of

# An edit that a check has to look at: a function more.
EDIT = "\n/// A number.\npub fn added() -> u8 {\n    1\n}\n"


def leave_out_library(room):
    """Removes the library's crates, which the toolchain has, and returns those that are left, lowest first."""
    own = {name: lows for name, lows in crates_in(f"{room}/crates.txt").items() if not os.path.isdir(f"{TOP}/crates/{name}")}
    for name in set(os.listdir(f"{room}/crates")) - set(own):
        shutil.rmtree(f"{room}/crates/{name}")
    write(f"{room}/crates.txt", "".join(line_of(name, lows) for name, lows in own.items()))
    return sorted(own, key=lambda name: len(below([name], own)))


def checked(rt, folder):
    """A check of a crate, once it has ended, and how long it took."""
    start, proof = time.monotonic(), Proof([rt, "check", "--jobs", "2"], folder)
    try:
        while not proof.ended():
            time.sleep(PAUSE)
    finally:
        proof.stop()
    return proof, time.monotonic() - start


def cost(proof, seconds):
    used = proof.usage.ru_utime + proof.usage.ru_stime
    return f"{seconds:.0f} s, {used:.0f} of processor, {proof.usage.ru_maxrss >> 10} MB of memory"


def prove_crate(rt, folder):
    """Checks a crate from nothing, and once more after an edit, and returns why it isn't proved."""
    name = os.path.basename(folder)
    root = next(path for path in (f"{folder}/src/lib.rt", f"{folder}/src/main.rt") if os.path.isfile(path))
    proof, seconds = checked(rt, folder)
    if proof.process.returncode:
        return f"{name} isn't proved:\n{proof.text()}"
    size = sum(os.path.getsize(f"{folder}/out/{path}") for path in files_below(f"{folder}/out"))
    add(root, EDIT)
    again, later = checked(rt, folder)
    with open(root, "r+", encoding="utf-8") as file:
        file.truncate(os.path.getsize(root) - len(EDIT))
    if again.process.returncode:
        return f"{name} isn't proved after an edit:\n{again.text()}"
    print(f"{name}: proved in {cost(proof, seconds)}, {size >> 20} MB in out/; after an edit in {cost(again, later)}", flush=True)
    return None


def prove_over_library(room):
    """Proves the crates of a room that aren't the library's, and returns why one isn't proved."""
    with tempfile.TemporaryDirectory() as other:
        made = subprocess.run(["tools/install", f"{other}/toolchain", "maps"], cwd=TOP, stdin=subprocess.DEVNULL,
                              stdout=subprocess.DEVNULL)
        if made.returncode:
            return "the library isn't there"
        names = leave_out_library(room)
        return next(filter(None, (prove_crate(f"{other}/toolchain/bin/rt", f"{room}/crates/{name}") for name in names)), None)
