"""Makes three maps by tools/new-map, calls each of their functions, and compares the answers with tests/new_map/stdout.

    tools/tests new-map [--prove-samples]

Two maps are crates, the third is a module of the program that calls them, tests/new_map/src. All are made in a folder of
their own beside copies of the crates that they stand on. `rt fmt` has to leave what new-map wrote as it is, and `rt try`
runs the program, which proves nothing. With --prove-samples `rt check` proves all three, and the program, over the
library that tools/install makes of what is proved in out/store.
"""

import os
import re
import tempfile

from lib import rooms
from lib.commands import Parser, fail
from lib.repository import TOP, add, below, crates_in, read, write
from lib.tests.proved import prove_over_library

PROGRAM = "calls"
# The arguments of new-map, and the crate of a map that is a module.
SAMPLES = [
    ("orders Order", ["number: u64 unique hash", "customer: u32 many hash", "day: u32 many order", "amount: u64"], None),
    ("bookings Booking", ["id: u64 unique hash", "room: u32", "start: u32", "guest: String many hash",
                          "room, start unique order"], None),
    ("releases Release", ["name: String", "version: String", "name, version unique hash", "rating: i32 many order",
                          "publisher: String unique order"], PROGRAM),
]


def lay_out(room):
    """The library's crates, and the program without its module."""
    known = crates_in(f"{TOP}/crates.txt")
    rooms.lay_out(below(["iddqd_maps"], known), known, room)
    write(f"{room}/crates/{PROGRAM}/src/main.rt", read(f"{TOP}/tests/new_map/src/main.rt.in"))
    add(f"{room}/crates.txt", rooms.line_of(PROGRAM, ["orders", "bookings"]))


def make(room):
    """Makes the maps, and returns the files with their code."""
    codes = []
    for names, fields, crate in SAMPLES:
        words = ["tools/new-map", "--in", room, *(["--crate", crate] if crate else []), *names.split(), *fields]
        made = rooms.run(words, TOP)
        if made.returncode:
            fail(f"{' '.join(words)} fails:\n{made.stdout}{made.stderr}")
        name = names.split()[0]
        codes.append(f"{room}/crates/{crate}/src/{name}.rt" if crate else f"{room}/crates/{name}/src/lib.rt")
    return codes


def check_layout(room, codes):
    """Fails where `rt fmt` would lay out what new-map wrote in another way."""
    before = {path: read(path) for path in codes}
    for crate in {os.path.dirname(os.path.dirname(path)) for path in codes}:
        rooms.run(["rt", "fmt"], crate)
    for path, text in before.items():
        if read(path) != text:
            fail(f"`rt fmt` lays out another {os.path.relpath(path, room)}")


def check_calls(codes):
    """Fails where the program leaves out a function that new-map wrote."""
    program = read(f"{TOP}/tests/new_map/src/main.rt.in")
    for (names, _, _), path in zip(SAMPLES, codes):
        module = names.split()[0]
        for name in re.findall(r"^pub fn (\w+)", read(path), re.M):
            if not re.search(rf"\b{module}::{name}\(", program):
                fail(f"tests/new_map never calls {module}::{name}")


def check_output(room):
    tried = rooms.run(["rt", "try"], f"{room}/crates/{PROGRAM}")
    expected = read(f"{TOP}/tests/new_map/stdout")
    if tried.returncode:
        fail(f"the program doesn't run:\n{tried.stdout}{tried.stderr}")
    if tried.stdout != expected:
        fail(f"the program prints\n{tried.stdout}and not\n{expected}")


def run(words):
    parser = Parser(__doc__)
    parser.add_argument("--prove-samples", action="store_true")
    given = parser.parse_args(words)
    with tempfile.TemporaryDirectory() as room:
        lay_out(room)
        codes = make(room)
        check_layout(room, codes)
        check_calls(codes)
        check_output(room)
        why = prove_over_library(room) if given.prove_samples else None
        if why:
            fail(why)
    print("the maps that new-map writes run, and answer what they should")
