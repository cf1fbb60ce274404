"""The functions of a Rattle file, found in its text: what `tools/mutants try` has to know of an edit.

It reads no more of the language than that: comments and strings are blanked first, a function's head goes on over the
braces of its clauses, and a block of an `impl` or a `trait` says whose method a function is.
"""

import re
from collections import namedtuple

# A function: its block's name ("" for none), its name, whether it is a method of a trait's impl, where it and its body
# begin and where it ends. The first three and a number (there may be several of one name) tell it from all others.
Function = namedtuple("Function", "owner name is_impl start body end")

COMMENT = r"//[^\n]*|/\*.*?\*/"
QUOTED = r"\"(?:\\.|[^\"\\])*\"|'(?:\\[^']+|[^'\\])'"
HEAD = re.compile(r"(?:\bpub(?:\([^)]*\))?\s+)?(?:\bconst\s+)?\bfn\s+(\w+)")
BLOCK = re.compile(r"^[ ]*(?:pub(?:\([^)]*\))?\s+)?(impl|trait)\b([^{;]*)\{", re.MULTILINE)
BRACKET = re.compile(r"[(\[{)\]}]")
CLAUSE = re.compile(r"(?:\b(?:requires|ensures)\*?(?:\s+[\w-]+)?|\bghost\s+\w+\s*:)\s*\Z")


def without(pattern, text):
    """The text with spaces in place of what fits the pattern, line feeds apart."""
    return re.sub(pattern, lambda it: re.sub(r"[^\n]", " ", it[0]), text, flags=re.DOTALL)


def closing(text, at):
    """Where the bracket closes that opens at this place, and the place behind it."""
    depth = 0
    for it in BRACKET.finditer(text, at):
        depth += 1 if it[0] in "([{" else -1
        if depth == 0:
            return it.end()
    return len(text)


def body_of(text, at):
    """Where the body begins of the function whose name ends here; where its declaration ends, if it has none."""
    while at < len(text):
        if text[at] == ";" or text[at] == "{" and not CLAUSE.search(text, max(0, at - 200), at):
            return at
        at = closing(text, at) if text[at] in "([{" else at + 1
    return at


def plain(path):
    """The last name of a type's or trait's path, without its arguments, in the words of a check: `&str` is `RefStr`."""
    if re.fullmatch(r"\((?:\w+<\w+>, )+\w+<\w+>\)", path):
        parts = path[1:-1].split(", ")
        return f"Tuple{len(parts)}{''.join(map(plain, parts))}"
    behind = re.match(r"&(?:'\w+ )?(?:mut )?", path.strip())
    name = re.sub(r"<.*", "", path.strip()[behind.end() if behind else 0 :], flags=re.DOTALL).split("::")[-1].strip()
    # of a reference to a parameter only the reference is told
    return f"Ref{name[0].upper() + name[1:] if len(name) > 1 else ''}" if behind else name


def owner_of(kind, head):
    """The name under which a check reports a block's functions, and whether it is a trait's impl."""
    head = head.split(" where ")[0].split("\nwhere")[0].strip()
    if kind == "trait":
        return plain(head.split(":")[0]), False
    if head.startswith("<"):
        depth, at = 1, 1
        while depth:
            depth += (head[at] == "<") - (head[at] == ">" and head[at - 1] not in "-=")
            at += 1
        head = head[at:]
    trait, is_impl, kept = head.rpartition(" for ")
    return plain(kept) + (plain(trait) if is_impl else ""), bool(is_impl)


def functions(text):
    """The functions of a file by their keys, in its order. A function inside another belongs to that one."""
    text = without(QUOTED, without(COMMENT, text))
    blocks = [(it.start(), closing(text, it.end() - 1), owner_of(*it.groups())) for it in BLOCK.finditer(text)]
    found, end = {}, 0
    for head in HEAD.finditer(text):
        if head.start() < end:
            continue
        body = body_of(text, head.end())
        end = closing(text, body) if text[body : body + 1] == "{" else body + 1
        inside = [whose for first, last, whose in blocks if first < head.start() < last]
        owner, is_impl = inside[-1] if inside else ("", False)
        number = sum(key[:2] == (owner, head[1]) for key in found)
        found[owner, head[1], number] = Function(owner, head[1], is_impl, head.start(), body, end)
    return found


def lines(text, key):
    """The first and the last line of a function."""
    it = functions(text)[key]
    return text.count("\n", 0, it.start) + 1, text.count("\n", 0, it.end) + 1


def words(text):
    """The text without comments and layout."""
    return " ".join(without(COMMENT, text).split())


def outside(text, known, added):
    """The words of a file with a mark in place of each function, and none in place of those added."""
    parts, at = [], 0
    for key, it in known.items():
        parts += [text[at : it.start], "" if key in added else f" fn {key} "]
        at = it.end
    return words("".join([*parts, text[at:]]))


def changed(old, new):
    """The keys of the functions whose bodies an edit of a file changes, and of those that it adds.

    None where it changes more than that, or where others may see such a body: of a constant function, or in a cycle.
    """
    before, after = functions(old), functions(new)
    added = set(after) - set(before)
    if "#[cycle(" in old or set(before) - set(after) or outside(old, before, ()) != outside(new, after, added):
        return None
    changes = []
    for key, it in before.items():
        then = after[key]
        heads = words(old[it.start : it.body]), words(new[then.start : then.body])
        if heads[0] != heads[1]:
            return None
        if words(old[it.body : it.end]) != words(new[then.body : then.end]):
            changes.append(key)
            if "const fn" in heads[0]:
                return None
    return (changes, sorted(added)) if changes else None


def reported(it, crate, path, names):
    """The name, of those that a check tells of, under which it tells of this function of the file; None if in doubt."""
    inner = re.sub(r"^src/|(/mod)?\.rt$", "", path).split("/")
    module = "::".join([crate, *([] if inner in (["lib"], ["main"]) else inner)])
    whole = "::".join(part for part in [module, it.owner, it.name] if part)
    if whole in names or not it.owner:
        return whole if whole in names else None
    # an impl is told with its trait's arguments, another method where its type stands
    fits = rf"{module}::{it.owner}\w*::{it.name}" if it.is_impl else rf"{crate}::(\w+::)*{it.owner}::{it.name}"
    found = [name for name in names if re.fullmatch(fits, name)]
    return found[0] if len(found) == 1 else None
