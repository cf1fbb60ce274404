"""Checks that sources, specs and proofs are laid out as `rt fmt` does it, which the gate wants and would say late.

It also checks that no body of a function has more than 40 lines, and that a file of more than 450 says at its head why it is
one file.
"""

import glob
import os
import shutil
import tempfile

from lib import rooms, rt_functions
from lib.repository import TOP, crates_in, read, sources_of

MOST_IN_A_FILE = 450
MOST_IN_A_BODY = 40


def laid_out(crate, room):
    """Lays a copy of the crate out, and gives the files that then differ."""
    rooms.run(["rt", "fmt"], f"{room}/crates/{crate}", check=True)
    modules = glob.glob(f"{TOP}/crates/{crate}/*/**/*.antt", recursive=True)
    files = [os.path.relpath(path, TOP) for path in [*sources_of(crate), *sorted(modules)] if "/out/" not in path]
    return [path for path in files if read(f"{TOP}/{path}") != read(f"{room}/{path}")]


def too_long(crate):
    """The files and the functions of a crate that are too long."""
    for path in sources_of(crate):
        text, place = read(path), os.path.relpath(path, TOP)
        head = " ".join(line.removeprefix("//!").strip() for line in text.split("\n") if line.startswith("//!"))
        lines = text.count("\n")
        if lines > MOST_IN_A_FILE and "one file" not in head:
            yield f"{place} has {lines} lines, and its head doesn't say why it is one file"
        for it in rt_functions.functions(text).values():
            body = text.count("\n", it.body, it.end) + 1
            if body > MOST_IN_A_BODY:
                yield f"{place}: the body of {it.name} has {body} lines"


def check():
    """What is wrong, and a line for where nothing is."""
    crates = crates_in(f"{TOP}/crates.txt")
    with tempfile.TemporaryDirectory() as room:
        rooms.lay_out(list(crates), crates, room)
        shutil.copy(f"{TOP}/HANDLES", room)
        others = {crate: files for crate in crates if (files := laid_out(crate, room))}
    wrong = [f"run rt fmt in crates/{crate}: {', '.join(files)}" for crate, files in others.items()]
    return [*wrong, *(it for crate in crates for it in too_long(crate))], f"{len(crates)} crates are laid out"
