"""The form of an edit, the file of a mutant: lines `file:`, `old:` and `new:`. Each old text stands exactly once in its file."""

import glob
import os

from lib.repository import TOP, read

# Those that guard the theorem, which the gate tries, and all others.
GATE = ("must-fail",)
KINDS = (*GATE, "wrong")


def paths(kinds=KINDS, names=()):
    """The files of the edits of these kinds, by crate; with names only those of these crates."""
    found = [path for kind in kinds for path in glob.glob(f"{TOP}/crates/*/{kind}/*.edit")]
    return sorted(path for path in found if not names or crate_of(path) in names)


def crate_of(edit):
    """The crate whose text an edit changes."""
    return os.path.basename(folder_of(edit))


def folder_of(edit):
    return os.path.dirname(os.path.dirname(edit))


def pairs_of(text):
    """The replacements of an edit, as (file, old, new)."""
    pairs, path, old = [], "", ""
    for line in text.split("\n"):
        word, _, rest = line.partition(" ")
        path = rest.strip() if word == "file:" else path
        old = rest if word == "old:" else old
        if word == "new:":
            pairs.append((path, old, rest))
    return pairs


def edited(pairs, texts):
    """The texts with these replacements, or None where an old text doesn't stand exactly once."""
    texts = dict(texts) if pairs else None
    for path, old, new in pairs:
        if not old or texts.get(path, "").count(old) != 1:
            return None
        texts[path] = texts[path].replace(old, new)
    return texts


def texts_of(edit, pairs):
    """The texts of the files that these replacements name, by their paths in the crate; a file that isn't there has none."""
    paths = {path for path, _, _ in pairs if os.path.isfile(f"{folder_of(edit)}/{path}")}
    return {path: read(f"{folder_of(edit)}/{path}") for path in paths}


def misfit(edit):
    """Why an edit doesn't apply, if it doesn't."""
    pairs, place = pairs_of(read(edit)), os.path.relpath(folder_of(edit), TOP)
    texts = texts_of(edit, pairs)
    for path, old, new in pairs:
        if path not in texts:
            return f"there is no {place}/{path}"
        found = texts[path].count(old) if old else 0
        if found != 1:
            return f"{place}/{path} has {found} times: {old}"
        texts[path] = texts[path].replace(old, new)
    return None if pairs else "it changes no file"
