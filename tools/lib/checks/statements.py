"""Checks that statements can be read: a clause of a public call has at most 160 characters, and a line of a statement
at most 120 columns. Imports, attributes and terms of proofs may be longer."""

import glob
import os
import re

from lib.repository import TOP, read
from lib.rt_functions import closing

MOST_OF_CLAUSE = 160
MOST_COLUMNS = 120

FUNCTION = re.compile(r"^ *(pub )?(?:const )?(?:extern \"C\" )?fn (\w+)|^ *pub\((?:crate|super)\) (?:const )?fn", re.M)
CLAUSE = re.compile(r"^ *(?:ensures|requires)\b[^{\n]*\{", re.M)
IMPORT = re.compile(r" *(?:(?:pub |ghost )*use |#\[)")
# In a proof: a type, the head of a module, a comment, a line that goes on with a premise or a part of a product.
STATEMENT = re.compile(r" *(?:(?:pub |abbrev |unfoldable )*[^\s:=]+ : (?!.* = )|module _|--|→|×)")


def long_clauses(path):
    """The clauses of a file's public functions that are too long: their lines, the function and the length."""
    text = read(path)
    functions = list(FUNCTION.finditer(text))
    for found in CLAUSE.finditer(text):
        of = [function for function in functions if function.start() < found.start()]
        if not of or not of[-1][1]:
            continue
        clause = " ".join(text[found.start() : closing(text, found.end() - 1)].split())
        if len(clause) > MOST_OF_CLAUSE:
            yield text.count("\n", 0, found.start()) + 1, f"a clause of {of[-1][2]} has {len(clause)} characters"


def wide_lines(path):
    """The lines of a file's statements that are too wide."""
    every_line = "/proofs/" not in path
    for number, line in enumerate(read(path).split("\n"), 1):
        if len(line) > MOST_COLUMNS and not IMPORT.match(line) and (every_line or STATEMENT.match(line)):
            yield number, f"{len(line)} columns"


def check():
    """What is wrong, and a line for where nothing is."""
    sources = sorted(glob.glob(f"{TOP}/crates/*/src/**/*.rt", recursive=True))
    proofs = [path for part in ("specs", "proofs")
              for path in sorted(glob.glob(f"{TOP}/crates/*/{part}/**/*.antt", recursive=True))]
    wrong = [f"{os.path.relpath(path, TOP)}:{number}: {why}" for path in sources + proofs
             for number, why in [*(long_clauses(path) if path.endswith(".rt") else []), *wide_lines(path)]]
    return wrong, f"{len(sources) + len(proofs)} files read, no statement is too long"
