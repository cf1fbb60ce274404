"""Pages and pictures that scripts make: writing them, and telling which aren't as they are made."""

import os

from lib.commands import Parser, fail
from lib.repository import TOP, read, write


def stale(made):
    """The paths of those that aren't as they are made."""
    return [path for path, text in made.items() if not os.path.exists(f"{TOP}/{path}") or read(f"{TOP}/{path}") != text]


def write_or_check(made, is_check, told):
    """Writes pages by their paths; or fails with `told` at the first that isn't as it is made."""
    for path in stale(made) if is_check else []:
        fail(f"{path} {told}")
    for path, text in made.items() if not is_check else []:
        write(f"{TOP}/{path}", text)


def run_maker(text, words, made, told):
    """A part of a command that makes pages: it writes them, or with --check fails where one isn't as it is made."""
    parser = Parser(text)
    parser.add_argument("--check", action="store_true")
    write_or_check(made(), parser.parse_args(words).check, told)
