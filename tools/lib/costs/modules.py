"""Tells the processor seconds that a check of a crate takes, by module and by function.

    tools/costs modules [--test] CRATE

It runs `rt check --jobs 1` in the crate, with its tests if so asked, and gives each function the time since the one
before was told. What was checked before costs nothing, so the figures of a fresh clone are whole. The first functions
also bear the reading of the libraries. Beside other work a processor second does less: up to twice as many are told.
"""

import collections
import re
import subprocess
import sys

from lib.commands import Parser, fail
from lib.costs.processes import TICKS, below
from lib.repository import TOP, crates_in

SHOWN = 12


def seconds_of(root):
    """The processor seconds of a process and of all below it, the ended ones included."""
    return sum(it.own + it.ended for it in below(root)) / TICKS


def lines_of(crate, options):
    """Each line of the check, with the seconds since the last one."""
    words = ["rt", "check", *options, "--jobs", "1"]
    how = {"stdout": subprocess.PIPE, "stderr": subprocess.STDOUT, "text": True, "errors": "replace"}
    line, before = "", 0.0
    with subprocess.Popen(words, cwd=f"{TOP}/crates/{crate}", **how) as check:
        for line in check.stdout:
            now = max(seconds_of(check.pid), before)
            yield line.rstrip("\n"), now - before
            before = now
    if check.returncode:
        print(line, end="")
        sys.exit(f"crates/{crate} isn't proved")


def run(words):
    parser = Parser(__doc__)
    parser.add_argument("--test", action="store_true")
    parser.add_argument("crate", metavar="CRATE")
    given = parser.parse_args(words)
    if given.crate not in crates_in(f"{TOP}/crates.txt"):
        fail(f"crates.txt has no crate '{given.crate}'")
    modules, functions, since = collections.Counter(), collections.Counter(), 0.0
    for line, seconds in lines_of(given.crate, ["--test"] * given.test):
        since += seconds
        checked = re.match(rf"checked {given.crate}::(\S+?),? ", line)
        if checked:
            path = checked[1].removesuffix("+run").split("::")
            functions["::".join(path)] += since
            modules[path[0]] += since
            since = 0.0
    for title, counts in [("module", modules), ("function", functions)]:
        print(f"seconds  {title}")
        for name, seconds in counts.most_common(SHOWN):
            print(f"{seconds:7.1f}  {name}")
