"""What the last check of a crate kept of its steps in the crate's out/.

These are files of the toolchain that have no promised form: where nothing is found, they changed.
"""

import json
import os
import re

from lib.commands import fail
from lib.repository import TOP, crates_in

ENDING = ".decls.oantt"


def records_in(file):
    """Each declaration that is recorded in a checked module: its name, its steps, the tactics that it called."""
    with open(file, "rb") as kept:
        data = kept.read()
    marks = [mark.start() for mark in re.finditer(rb'\[\{"aux":', data)] + [len(data)]
    for begin, end in zip(marks, marks[1:]):
        try:
            yield from json.JSONDecoder().raw_decode(data[begin:end].decode(errors="replace"))[0]
        except ValueError:
            fail(f"{file}: the toolchain writes its records in another form now")


def steps_of(record):
    """The steps that a declaration took."""
    return sum(record["steps"][:2])


def modules_of(crate):
    """Each checked module of a crate, with its records."""
    if crate not in crates_in(f"{TOP}/crates.txt"):
        fail(f"crates.txt has no crate '{crate}'")
    top = f"{TOP}/crates/{crate}/out/incremental"
    if not os.path.isdir(top):
        fail(f"crates/{crate}/out keeps no check: run rt check there first")
    for folder, _, files in os.walk(top):
        for file in sorted(files):
            if file.endswith(ENDING):
                yield file.removesuffix(ENDING), list(records_in(f"{folder}/{file}"))
