"""Calls every function that C calls, from the tests of tests/exports, without a proof: the gate does this.

    tools/tests exports

A static library has no crate above it, so the tests of iddqd_c are laid out as a module of the crate, in a copy outside
the repository. `rt try` builds and runs them under the address sanitizer, in a processor minute. Each test has to free
all memory that its calls took, which tests/refused-memory.c counts: a function may forget the table that it takes out of
its handle, and no clause says that it doesn't. It links no C program with the functions: tests/c/run does, over the
proved library.
"""

import re
import sys
import tempfile

from lib import rooms
from lib.commands import Parser
from lib.repository import TOP, add, below, crates_in, read, write
from lib.tests import memory

CRATE = "iddqd_c"


def lay_out(room):
    """Lays the crate out in a room, with the tests as a module of it."""
    crates = crates_in(f"{TOP}/crates.txt")
    rooms.lay_out(below([CRATE], crates), crates, room)
    source = f"{room}/crates/{CRATE}/src"
    add(f"{source}/handle.rt", read(f"{TOP}/tests/exports/handles.rt.in"))
    add(f"{source}/tests.rt", read(f"{TOP}/tests/exports/tests.rt.in"))
    add(f"{source}/layer_tests.rt", read(f"{TOP}/tests/exports/layer.rt.in"))
    add(f"{source}/lib.rt", "\n#[cfg(test)]\nmod tests;\n#[cfg(test)]\nmod layer_tests;\n")
    for module in ("keyed", "layer"):
        path = f"{source}/{module}.rt"
        write(path, re.sub(r"^mod (\w+);", r"pub(crate) mod \1;", read(path), flags=re.M))


def passed():
    """Runs the tests, and returns how many passed: all of them."""
    with tempfile.TemporaryDirectory(prefix="exports-") as room:
        lay_out(room)
        ran = memory.tried(CRATE, room, "-DUNMARKED")
    found = re.findall(r"^test \S+ \.\.\. ok$", ran.stdout, re.M)
    if ran.returncode or not found:
        sys.exit(ran.stdout + ran.stderr)
    return len(found)


def run(words):
    Parser(__doc__).parse_args(words)
    memory.check_tools()
    print(f"{passed()} tests of the functions that C calls, 0 failed")
