"""Shows that the compiler refuses wrong calls, with the words that their authors are told.

    tools/tests compile-errors

Each file of tests/compile_errors is a program over `iddqd_maps`. A line that ends with `//~ WORDS` is a wrong call.
Without those lines `rt try` has to run the program; with all of them it has to report an error with WORDS at each, and
none elsewhere.
"""

import glob
import os
import re
import subprocess
import tempfile

from lib import rooms
from lib.commands import Parser, fail
from lib.repository import TOP, add, below, crates_in, read, write

LOWEST = "iddqd_maps"
MARK = re.compile(r"//~ (.*)$")
ERROR = re.compile(r"^src/main\.rt:(\d+):\d+: error(.*)$", re.M)


def tried(crate, lines, room):
    """What `rt try` does with a program of these lines."""
    write(f"{room}/crates/{crate}/src/main.rt", "\n".join(lines))
    return rooms.run(["rt", "try"], f"{room}/crates/{crate}", stderr=subprocess.STDOUT)


def wrong_calls(crate, lines, room):
    """The number of a program's wrong calls, once it is seen that each is refused and that nothing else is."""
    words = {number: mark[1] for number, line in enumerate(lines, 1) for mark in [MARK.search(line)] if mark}
    right = tried(crate, ["" if number in words else line for number, line in enumerate(lines, 1)], room)
    if right.returncode:
        fail(f"{crate}: the program without its wrong calls is refused\n{right.stdout}")
    said = tried(crate, lines, room).stdout
    errors = {int(number): text for number, text in ERROR.findall(said)}
    for number in sorted({*words, *errors}):
        if number not in words or words[number] not in errors.get(number, ""):
            fail(f"{crate}:{number}: expected `{words.get(number, 'no error')}`, but the compiler says\n{said}")
    return len(words)


def run(words):
    Parser(__doc__).parse_args(words)
    programs = {os.path.basename(path).removesuffix(".rt.in"): path
                for path in sorted(glob.glob(f"{TOP}/tests/compile_errors/*.rt.in"))}
    known = crates_in(f"{TOP}/crates.txt")
    with tempfile.TemporaryDirectory() as room:
        rooms.lay_out(below([LOWEST], known), known, room)
        add(f"{room}/crates.txt", "".join(rooms.line_of(crate, [LOWEST]) for crate in programs))
        for crate, path in programs.items():
            write(f"{room}/crates/{crate}/src/main.rt", read(path))
        counts = [wrong_calls(crate, read(path).split("\n"), room) for crate, path in programs.items()]
    print(f"the compiler refuses {sum(counts)} wrong calls with the words that they expect")
