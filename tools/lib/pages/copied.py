"""The pages that `tools/copy-to` brings with crates into another repository."""

import os
import re

from lib.pages import calls
from lib.repository import LICENCES, TOP, crates_in, read, release

# Where they stand there.
FOLDER = "docs/iddqd"
# The pages that serve a caller. docs/DECISIONS.md says why the others stay.
PAGES = ["README.md", "CHANGELOG.md", "docs/GUARANTEES.md", "docs/CALLING.md", "docs/KEYS.md", "docs/PROVING.md",
         "docs/CALLS.md", "docs/CONTRACTS.md", "docs/DIFFERENCES.md", "docs/ARCHITECTURE.md", "docs/ELSEWHERE.md"]
# A link to a file: its label, the path, and the heading there, if it names one.
LINK = re.compile(r"\[([^\[\]]*)\]\(([^()#:\s]+)(#[^()\s]*)?\)")
NOTE = """> This page was copied from Yellowtuff, as of '{release}' in [CHANGELOG.md](CHANGELOG.md). "This repository" means
> Yellowtuff, whose scripts, tests, mutants and examples were not copied.
"""
NOTE_OF_CUT = "> Sections on crates that were not copied are left out.\n"


def cut(text, crates):
    """A page without its sections on other crates than these: the heading of such a section is the crate's name."""
    others = "|".join({*crates_in(f"{TOP}/crates.txt")} - {*crates})
    return "".join(part for part in re.split(r"(?m)^(?=## )", text) if not re.match(rf"## `(?:{others})`\n", part))


def place_of(path, crates):
    """Where a file of this repository stands, seen from a copied page; nothing if it isn't copied with these crates."""
    if path in PAGES or path in LICENCES:
        return os.path.basename(path)
    crate = re.match(r"crates/(\w+)/(?:src|specs|proofs)\b", path)
    return os.path.relpath(path, FOLDER) if crate and crate[1] in crates else None


def with_links(text, page, crates):
    """A page's text with links as they hold there; of a link to what isn't copied the path stays, as text."""
    def link(found):
        label, path = found[1], os.path.normpath(os.path.join(os.path.dirname(page), found[2]))
        place, is_path = place_of(path, crates), label.strip("`") == path
        if place:
            return f"[{place if is_path and path in PAGES else label}]({place}{found[3] or ''})"
        return f"`{path}` of Yellowtuff" if is_path else f"{label} (`{path}` of Yellowtuff)"

    return LINK.sub(link, text)


def pages_for(crates):
    """The pages for callers of these crates, each by its name in their folder."""
    pages = {}
    for page in PAGES:
        whole = read(f"{TOP}/{page}")
        text = calls.page_of(crates) if page == "docs/CALLS.md" else cut(whole, crates)
        note = NOTE.format(release=release()) + ("" if text == whole else NOTE_OF_CUT)
        title, rest = with_links(text, page, crates).split("\n", 1)
        pages[os.path.basename(page)] = f"{title}\n\n{note}{rest}".encode()
    return pages
