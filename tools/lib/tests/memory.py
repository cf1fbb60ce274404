"""Tests whose allocations are counted, and made to fail, by tests/refused-memory.c in place of malloc, realloc and free."""

import os
import shlex
import shutil

from lib import rooms
from lib.commands import fail
from lib.repository import TOP

ALLOCATOR = f"{TOP}/tests/refused-memory.c"


def check_tools():
    """Fails where there is no rt or no C compiler: cc, or the one that CC names."""
    for word in ("rt", shlex.split(os.environ.get("CC") or "cc")[0]):
        if not shutil.which(word):
            fail(f"{word} isn't installed")


def tried(crate, room, flags):
    """Runs the tests of a crate with that allocator, which these flags compile, and returns what they did and said."""
    own = f"{room}/crates/{crate}"
    os.makedirs(f"{own}/c", exist_ok=True)
    shutil.copy2(ALLOCATOR, f"{own}/c")
    words = {**os.environ, "RT_ALLOW_C": crate, "CFLAGS": flags}
    return rooms.run(["rt", "try", "--test", "--seconds", "600"], own, env=words)
