"""Rooms: folders apart from the repository, in which scripts lay crates and tests out and run rt over them."""

import glob
import os
import shutil
import subprocess

from lib.repository import TOP, write

PARTS = ["src", "specs", "proofs"]


def line_of(name, lows):
    """A line of crates.txt."""
    return f"{name}: {' '.join(lows)}\n"


def empty(crate, room):
    """Makes the folder of a crate, without what an earlier run laid out there; what was proved stays."""
    os.makedirs(f"{room}/crates/{crate}", exist_ok=True)
    for part in PARTS:
        shutil.rmtree(f"{room}/crates/{crate}/{part}", ignore_errors=True)


def lay_out(names, crates, room):
    """Copies these crates into a room, and writes their lines of crates.txt."""
    os.makedirs(f"{room}/.git", exist_ok=True)  # `rt` looks for crates.txt no higher than this
    write(f"{room}/crates.txt", "".join(line_of(name, crates[name]) for name in names))
    for name in names:
        empty(name, room)
        for part in PARTS:
            if os.path.isdir(f"{TOP}/crates/{name}/{part}"):
                shutil.copytree(f"{TOP}/crates/{name}/{part}", f"{room}/crates/{name}/{part}")


def add_tests(folder, to):
    """Adds the files of a folder of tests, each without its ending `.in`."""
    for file in glob.glob(f"{folder}/**/*.in", recursive=True):
        place = f"{to}/{os.path.relpath(file, folder)[:-len('.in')]}"
        os.makedirs(os.path.dirname(place), exist_ok=True)
        shutil.copyfile(file, place)


def run(words, folder, **how):
    """Runs a command without input, and returns what it did and said."""
    how = {"stdin": subprocess.DEVNULL, "stdout": subprocess.PIPE, "stderr": subprocess.PIPE, "encoding": "utf-8",
           "errors": "replace", **how}
    return subprocess.run(words, cwd=folder, **how)


def said(words, folder):
    """All that a command says, on both outputs."""
    return run(words, folder, stderr=subprocess.STDOUT).stdout
