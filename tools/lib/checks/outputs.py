"""Runs each program unproved, and compares what it writes with its file stdout. The gate does so by `rt ci`, after all proofs."""

import glob
import os

from lib import rooms
from lib.repository import TOP


def differs(folder):
    """Whether a program writes something else than its file stdout has."""
    given = f"{folder}/stdin" if os.path.exists(f"{folder}/stdin") else os.devnull
    with open(given, "rb") as stdin, open(f"{folder}/stdout", "rb") as stdout:
        ran = rooms.run(["rt", "try"], folder, stdin=stdin, encoding=None, errors=None)
        return ran.returncode != 0 or ran.stdout != stdout.read()


def check():
    """What is wrong, and a line for where nothing is."""
    programs = [os.path.dirname(path) for path in sorted(glob.glob(f"{TOP}/crates/*/stdout"))]
    wrong = [f"{os.path.basename(it)} doesn't write what its file stdout has" for it in programs if differs(it)]
    return wrong, f"{len(programs)} programs write what their files stdout have"
