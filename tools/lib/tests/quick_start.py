"""Runs the quick start of README.md as a reader would, and compares what it prints with what the README says.

    tools/tests quick-start [--prove] [README]

The program is the first block of Rust in the section "A program", and its output the block after "It prints:". In the
section "Quick start" the block of `sh` that writes crates.txt makes the reader's repository, and "Put the program above
into" names its file. Beside it are put copies of the crates that it stands on, in place of an installed library. `rt fmt`
has to leave the program as it is, and `rt try` runs it, which proves nothing. With --prove `rt check` then proves it, over
the library that tools/install makes of what is proved in out/store.
"""

import difflib
import os
import re
import tempfile

from lib import commands, rooms
from lib.repository import TOP, add, below, crates_in, read, write
from lib.tests.proved import prove_over_library


def fail(page, why):
    commands.fail(f"{page}: the quick start {why}")


def section(page, name):
    found = re.search(rf"(?ms)^## {name}\n(.*?)(?=^## |\Z)", read(page))
    return found[1] if found else ""


def parts(page):
    """The program that the page shows, its path, the output that it promises, and the commands that make the repository."""
    shown, start = section(page, "A program"), section(page, "Quick start")
    program = re.search(r"(?ms)^```rust\n(.*?)^```$", shown)
    output = re.search(r"(?ms)^It prints:\n\n```\w*\n(.*?)^```$", shown)
    path = re.search(r"Put the program above\s+into\s+`([\w/.]+)`", start)
    blocks = [block for block in re.findall(r"(?ms)^```sh\n(.*?)^```$", start) if "crates.txt" in block]
    if not (program and output and path and len(blocks) == 1):
        fail(page, "lacks the lines that write `crates.txt`, or the program, its path, or the output after 'It prints:'")
    return program[1], path[1], output[1], blocks[0]


def lay_out(page, program, path, shown, room):
    """Does what the quick start says before the program runs, and returns the folder of the repository and the crate."""
    done = rooms.run(["sh", "-ec", shown], room)
    made = os.listdir(room)
    if done.returncode or len(made) != 1 or not os.path.isfile(f"{room}/{made[0]}/crates.txt"):
        fail(page, f"has commands that fail, or make no repository:\n{shown}{done.stdout}{done.stderr}")
    top = f"{room}/{made[0]}"
    lines = read(f"{top}/crates.txt")
    added, known = crates_in(f"{top}/crates.txt"), crates_in(f"{TOP}/crates.txt")
    crate = path.split("/")[1]
    if [crate] != list(added) or crate in known or not os.path.isdir(f"{top}/{os.path.dirname(path)}"):
        fail(page, f"has the program {path}: crates.txt has to list its crate alone, and the commands have to make its folder")
    rooms.lay_out(below(added[crate], known), known, top)
    add(f"{top}/crates.txt", lines)
    write(f"{top}/{path}", program)
    return top, crate


def check_layout(page, path, crate, top):
    """Fails where `rt fmt` would lay the program out in another way, since `rt ci` refuses that."""
    before = read(f"{top}/{path}")
    rooms.run(["rt", "fmt"], f"{top}/crates/{crate}")
    lines = difflib.unified_diff(before.split("\n"), read(f"{top}/{path}").split("\n"), "README", "rt fmt", lineterm="")
    differs = "\n".join(lines)
    if differs:
        fail(page, f"has {path} in another layout than `rt fmt`:\n{differs}")


def check_output(page, crate, output, room):
    tried = rooms.run(["rt", "try"], f"{room}/crates/{crate}")
    if tried.returncode:
        fail(page, f"doesn't run:\n{tried.stdout}{tried.stderr}")
    if tried.stdout != output:
        fail(page, f"prints\n{tried.stdout}and not, as it says,\n{output}")


def run(words):
    parser = commands.Parser(__doc__)
    parser.add_argument("--prove", action="store_true")
    parser.add_argument("page", metavar="README", nargs="?", default=f"{TOP}/README.md")
    given = parser.parse_args(words)
    page = os.path.abspath(given.page)
    if not os.path.isfile(page):
        commands.refuse(f"there is no file {given.page}")
    program, path, output, shown = parts(page)
    with tempfile.TemporaryDirectory() as room:
        top, crate = lay_out(page, program, path, shown, room)
        check_layout(page, path, crate, top)
        check_output(page, crate, output, top)
        why = prove_over_library(top) if given.prove else None
        if why:
            fail(page, f"isn't proved: {why}")
    print(f"the quick start of {os.path.basename(page)} runs, and prints what it says")
