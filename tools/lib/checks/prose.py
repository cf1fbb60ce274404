"""The words and sentences of the pages: how many a page may have, and which words none has.

What counts as a word: what stands between spaces in paragraphs, lists, headings and tables, if it has a letter or a digit; a
piece of code in backticks and a link are as many words as their text has. Blocks of code aren't counted: they are programs
and commands, which other checks compile or run. Of docs/SPEED.md tables aren't counted either.
"""

import re

from lib.repository import TOP, read

# The most words of each page that is written by hand. docs/CALLS.md and docs/MUTANTS.md are generated; the figures of
# docs/PROOF-COSTS.md are, and docs/SPEED-NOTES.md keeps what was tried.
BOUNDS = {"README.md": 1500, "CHANGELOG.md": 300, "docs/GUARANTEES.md": 2200, "docs/CALLING.md": 3500, "docs/KEYS.md": 2200,
          "docs/PROVING.md": 4000, "docs/CONTRACTS.md": 2500, "docs/FROM_C.md": 3200, "docs/LAYER.md": 2500, "docs/SPEED.md": 1800,
          "docs/DEVELOPING.md": 2000, "docs/ARCHITECTURE.md": 3000, "docs/DECISIONS.md": 4000, "docs/DIFFERENCES.md": 3000,
          "docs/ELSEWHERE.md": 1500, "docs/KEYED.md": 400, "docs/SPEED-NOTES.md": None, "docs/PROOF-COSTS.md": None}
GENERATED = {"docs/CALLS.md", "docs/MUTANTS.md"}
# The most words of a sentence, where a piece of code and a link are one word each.
MOST = 35
# Words of our own, for which the field has others.
REFUSED = re.compile(r"\b(?:clash\w*|untold|lenders?|let go|refused memory|want of memory)\b", re.I)
# Where a sentence ends: at a full stop, question or exclamation mark, before what begins the next.
END = re.compile(r"(?<=[.?!])[)\"”*_]*\s+(?=[\"“(*_\[]*[A-Z0-9¤])")


def plain(text):
    """A page's text without blocks of code, comments and the lines between the rows of a table."""
    text = re.sub(r"(?ms)^ *```.*?^ *```\n?", "\n", text)
    text = re.sub(r"(?s)<!--.*?-->\n?", "", text)
    text = re.sub(r"(?m)(?:\A|(?<=\n\n))(?: {4}.*\n+)+", "", text)
    return re.sub(r"(?m)^\|[-:| ]+\|?$\n?", "", text)


def without_tables(text):
    return re.sub(r"(?m)^\|.*$\n?", "", text)


def count(page):
    """How many words a page has."""
    text = plain(read(f"{TOP}/{page}"))
    text = without_tables(text) if page == "docs/SPEED.md" else text
    text = re.sub(r"!?\[((?:[^\[\]]|\[[^\]]*\])*)\]\([^)]*\)", r"\1", text)
    return sum(bool(re.search(r"\w", word)) for word in text.split())


def as_one_word(text):
    """A text in which each piece of code and each link is one word: ¤."""
    text = re.sub(r"`+[^`]+`+", "¤", text)
    return re.sub(r"!?\[[^\[\]]*\]\([^)]*\)", "¤", text)


def sentences(text):
    """The sentences of a page's text: of paragraphs, items of lists, headings and cells of tables."""
    for part in re.split(r"\n{2,}", re.sub(r"(?m)^(#+ .*|>.*)$", r"\n\1\n", plain(text))):
        for piece in re.split(r"(?m)^(?=\s*(?:- |\* |\d+\. |\|))", part):
            cells = re.split(r"(?<!\\)\|", piece) if piece.lstrip().startswith("|") else [piece]
            for cell in cells:
                words = " ".join(as_one_word(re.sub(r"^\s*(?:- |\* |\d+\. |#+ )", "", cell)).split())
                yield from (it for it in END.split(words) if it)


def wrong_prose(pages):
    """Pages that are too long or have no bound, sentences that are too long, and words that aren't the field's."""
    for page in pages:
        text = read(f"{TOP}/{page}")
        if page not in GENERATED:
            bound, words = BOUNDS.get(page, 0), count(page)
            if bound is not None and words > bound:
                told = f"has {words} words, and may have {bound}" if bound else "has no bound in tools/lib/checks/prose.py"
                yield f"{page} {told}"
            for sentence in sentences(text):
                long = len([word for word in sentence.split() if re.search(r"[\w¤]", word)])
                if long > MOST:
                    yield f"{page} has a sentence of {long} words: {sentence[:90]}"
        for word in sorted({it[0].lower() for it in REFUSED.finditer(" ".join(as_one_word(plain(text)).split()))}):
            yield f"{page} has a word that isn't the field's: {word}"
        if page == "README.md" and "<!--" in text:
            yield f"{page} has a hidden comment"
