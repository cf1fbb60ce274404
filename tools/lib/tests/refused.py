"""Makes each allocation of the calls in tests/refused fail in turn.

    tools/tests refused                   each allocation alone; the gate runs this
    tools/tests refused --from            each alone, then each with all that follow it
    tools/tests refused --prove FOLDER    proves the tests first; FOLDER keeps the proofs for the next run

`rt try` builds the tests without a proof and runs them, in about two processor minutes. A test makes its call between
two marks. At the first mark it forks a child for each allocation of the call, and in that child the allocation fails,
by tests/refused-memory.c. Each child has to pass the test and to free all of its memory. A call in `refused` has to
allocate, one in `total` must not.

--from and --prove can be combined. It needs rt and a C compiler: cc, or the one that CC names.
"""

import os
import re
import shutil
import subprocess
import tempfile

from lib import rooms
from lib.commands import Parser, refuse
from lib.repository import TOP, add, crates_in
from lib.tests import memory

TESTS = "iddqd_refused"
BELOW = ["iddqd", "iddqd_hash", "iddqd_order", "iddqd_order_reference", "iddqd_keys", "iddqd_by_hash", "iddqd_by_order", "iddqd_map",
         "iddqd_groups", "iddqd_ord_map", "iddqd_tri", "iddqd_driver", "iddqd_layer"]
# A test's line of `rt try --test`, with what the test wrote, which is indented.
TEST = re.compile(r"^test (\S+) \.\.\. (\w+)\n((?: +.*\n)*)", re.M)
STOOD = re.compile(r"^ +memory: (\d+) refusals stood$", re.M)


def lay_out(room):
    """Lays the crates and the tests of tests/refused out in a room, over what an earlier run left there."""
    rooms.lay_out(BELOW, crates_in(f"{TOP}/crates.txt"), room)
    add(f"{room}/crates.txt", rooms.line_of(TESTS, BELOW))
    rooms.empty(TESTS, room)
    rooms.add_tests(f"{TOP}/tests/refused", f"{room}/crates/{TESTS}")


def keep_proved(room):
    """Copies the proofs that the crates' checks kept, where the room has none."""
    for name in BELOW:
        if os.path.isdir(f"{TOP}/crates/{name}/out") and not os.path.isdir(f"{room}/crates/{name}/out"):
            shutil.copytree(f"{TOP}/crates/{name}/out", f"{room}/crates/{name}/out", symlinks=True)


def judged(name, ended, said):
    """What is wrong with a test, if something is, and how many failed allocations it stood."""
    told = STOOD.search(said)
    stood = int(told[1]) if told else 0
    if ended != "ok":
        return f"{name}: {ended}\n{said}", stood
    if not told:
        return f"{name}: it makes no mark", stood
    if ("::refused::" in name) != (stood > 0):
        return f"{name}: its call makes {stood or 'no'} allocations", stood
    return None, stood


def tried(room, flags):
    """Builds and runs the tests, and prints what failed and a closing line. Whether all passed."""
    print("tools/tests refused: building the tests", flush=True)
    ran = memory.tried(TESTS, room, flags)
    found = [judged(*test) for test in TEST.findall(ran.stdout)]
    failed = [wrong for wrong, _ in found if wrong]
    if not found or ran.returncode and not failed:
        failed.append(ran.stdout + ran.stderr)
    for wrong in failed:
        print(wrong)
    print(f"{len(found)} tests, {len(failed)} failed, {sum(stood for _, stood in found)} refusals stood")
    return not failed


def run(words):
    parser = Parser(__doc__)
    parser.add_argument("--from", dest="has_rest", action="store_true")
    parser.add_argument("--prove", metavar="FOLDER")
    given = parser.parse_args(words)
    memory.check_tools()
    proved = given.prove and os.path.realpath(given.prove)
    if proved and os.path.commonpath([proved, TOP]) == TOP:
        refuse(f"{given.prove} is in the repository")
    with tempfile.TemporaryDirectory(prefix="refused-") as folder:
        room = proved or folder
        lay_out(room)
        if proved:
            keep_proved(room)
            if subprocess.run(["rt", "test"], cwd=f"{room}/crates/{TESTS}", stdin=subprocess.DEVNULL).returncode:
                return 1
        return 0 if tried(room, "-DFROM" * given.has_rest) else 1
