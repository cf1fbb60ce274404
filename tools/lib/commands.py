"""What the commands of tools/ share: the help at their heads, the words that they take, and how they refuse others.

A command with parts calls the part that its first word names. A part is a module: its head is the help of the part, and
its function `run` takes the other words and returns the status.
"""

import argparse
import importlib
import os
import sys

WRONG_WORDS = 2


class Refused(Exception):
    """Why something can't be done, in one line."""


def name():
    """How a command names itself in what it says."""
    return f"tools/{os.path.basename(sys.argv[0])}"


def refuse(why, status=WRONG_WORDS):
    """Ends the command with one line on standard error."""
    print(f"{name()}: {why}", file=sys.stderr)
    sys.exit(status)


def fail(why):
    """The same where the words are right, and yet it can't be done or something isn't as it should be."""
    refuse(why, 1)


class Parser(argparse.ArgumentParser):
    """Reads the words of a command or of a part, whose help is the text at its head. Other words are refused in a line."""

    def __init__(self, text):
        super().__init__(allow_abbrev=False)
        self.text = text

    def format_help(self):
        return f"{self.text.strip()}\n"

    def error(self, message):
        refuse(f"{message}: see --help")


def part(parts, word):
    """The module of the part that a word names, of those that are told by their words."""
    if word not in parts:
        refuse(f"there is no part '{word}'; there are {', '.join(parts)}")
    return importlib.import_module(parts[word])


def run_part(text, parts):
    """Calls the part that the first word names, and ends with its status; with no word, prints the command's help."""
    word, *rest = sys.argv[1:] or ["--help"]
    if word in ("--help", "-h"):
        print(text.strip())
        sys.exit(0 if sys.argv[1:] else WRONG_WORDS)
    sys.exit(part(parts, word).run(rest))
