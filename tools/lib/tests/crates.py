"""Runs the tests, tests/NAME, with no proof. Each is a crate over those of crates.txt, laid out in a folder of its own.

    tools/tests crates [--models | --prove] [--in FOLDER] [NAME..]      with no name, all

--models adds the modules below tests/NAME/models, which go through many calls beside a plain list, and take minutes.
--prove proves the tests and runs them then. FOLDER/NAME keeps each laid out, say for `rt check --test`, with what was
proved, for the next run.

The last line says how many tests passed, and which crates of tests failed; the status is 1 if any did.
"""

import glob
import os
import re
import subprocess
import tempfile

from lib import rooms
from lib.commands import Parser, refuse
from lib.repository import TOP, add, below, crates_in

RESULT = re.compile(r"^test result: .* (\d+) passed;")


def add_models(name, own):
    """Adds the modules of models to a crate of tests, and names them in the modules above."""
    models = f"{TOP}/tests/{name}/models"
    rooms.add_tests(models, f"{own}/src")
    for file in sorted(glob.glob(f"{models}/*/*.rt.in")):
        above, inner = os.path.relpath(file, models)[: -len(".rt.in")].split("/")
        add(f"{own}/src/{above}.rt", f"mod {inner};\n")


def lay_out(name, crates, room, has_models):
    """Lays a crate of tests out, with those that it stands on."""
    own = f"{room}/crates/{name}"
    rooms.lay_out(below([name], crates), crates, room)
    for part in rooms.PARTS:
        rooms.add_tests(f"{TOP}/tests/{name}/{part}", f"{own}/{part}")
    if has_models:
        add_models(name, own)


def tried(folder, words):
    """Runs tests, prints what they say as they say it, and returns how many passed; None where one failed."""
    passed = 0
    how = {"stdin": subprocess.DEVNULL, "stdout": subprocess.PIPE, "encoding": "utf-8", "errors": "replace"}
    with subprocess.Popen(words, cwd=folder, **how) as tests:
        for line in tests.stdout:
            print(line, end="", flush=True)
            result = RESULT.match(line)
            passed = int(result[1]) if result else passed
    return None if tests.returncode else passed


def arguments(words, known):
    parser = Parser(__doc__)
    kinds = parser.add_mutually_exclusive_group()
    kinds.add_argument("--models", action="store_true")
    kinds.add_argument("--prove", action="store_true")
    parser.add_argument("--in", dest="folder", metavar="FOLDER")
    parser.add_argument("names", metavar="NAME", nargs="*")
    given = parser.parse_args(words)
    given.names = given.names or known
    given.folder = given.folder and os.path.realpath(given.folder)
    if given.folder and os.path.commonpath([given.folder, TOP]) == TOP:
        refuse(f"{given.folder} is in the repository")
    for name in given.names:
        if name not in known:
            refuse(f"there are no tests '{name}'; there are {', '.join(known)}")
    return given


def run(words):
    own = crates_in(f"{TOP}/tests/crates.in")
    crates = {**crates_in(f"{TOP}/crates.txt"), **own}
    given = arguments(words, list(own))
    command = ["rt", "test"] if given.prove else ["rt", "try", "--test", "--seconds", "600"]
    passed = {}
    for name in given.names:
        print(f"{name}:", flush=True)
        with tempfile.TemporaryDirectory(prefix="tests-") as folder:
            room = f"{given.folder or folder}/{name}"
            lay_out(name, crates, room, given.models)
            passed[name] = tried(f"{room}/crates/{name}", command)
    failed = [name for name, count in passed.items() if count is None]
    total = sum(count or 0 for count in passed.values())
    told = f"{len(passed) - len(failed)} crates of tests were proved and passed" if given.prove else f"{total} tests passed"
    print(told + (f"; failed: {' '.join(failed)}" if failed else ""))
    return 1 if failed else 0
