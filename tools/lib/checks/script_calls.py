"""What the checks of scripts share: calls of a script, and what is expected of it."""

import os
import subprocess

from lib.repository import read

# A module that Python loads before a script: it makes one rename fail, that to the place which the environment names.
FAILING_RENAME = """
import os

rename, places = os.rename, [os.environ["FAILS_AT"]]


def fail_once(before, after):
    if after in places:
        places.remove(after)
        raise OSError("the step fails")
    rename(before, after)


os.rename = fail_once
"""


# The same, but a signal comes once that rename is done.
INTERRUPTED_RENAME = """
import os, signal

rename, places = os.rename, [os.environ["FAILS_AT"]]


def interrupted_once(before, after):
    rename(before, after)
    if after in places:
        places.remove(after)
        signal.raise_signal(signal.SIGTERM)


os.rename = interrupted_once
"""


def call(words, folder, **how):
    how = {"stdin": subprocess.DEVNULL, "timeout": 240, **how}
    return subprocess.run(words, cwd=folder, capture_output=True, text=True, **how)


class Wrong(Exception):
    """What a script did otherwise than it should."""


def expect(truth, what):
    if not truth:
        raise Wrong(what)


def wrong_in(steps):
    """What was wrong in each of these checks in which something was. A check is a function with its arguments."""
    for check, *arguments in steps:
        try:
            check(*arguments)
        except Wrong as why:
            yield str(why)


def refused(words, folder, because, status=None, **how):
    """Expects one line on standard error that has these words, nothing on standard output, and no status of success."""
    ran = call(words, folder, **how)
    one_line = ran.stderr.count("\n") == 1 and not ran.stdout and because in ran.stderr
    fits = ran.returncode == status if status else ran.returncode != 0
    expect(one_line and fits, f"{' '.join(words)}: status {ran.returncode}, {ran.stdout}{ran.stderr}")


def files_in(folder):
    return sorted(os.path.join(at, name) for at, _, names in os.walk(folder) for name in names)


def all_in(folder):
    """Each file in a folder with its text, and each folder there."""
    return {**{at: None for at, _, _ in os.walk(folder)}, **{path: read(path) for path in files_in(folder)}}
