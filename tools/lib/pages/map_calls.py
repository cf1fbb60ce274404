"""Which calls a map has, by the bounds of the impls in which they stand.

A map is a `Map<T, X, S>` by a key index X. An impl for every X, and a call of it, may bound X by traits of key indexes; a map
has the call if its own X has an impl of each. A trait of keys by their place has one impl for each place that X has: `Here`,
`First`, `Second`, `Third`, or `Left` and `Right` of a pair.
"""

import re
from collections import defaultdict, namedtuple
from functools import cache

from lib import rt_functions

# An impl of a type: the text of its parameters, the type's arguments, its where clause, and where it begins and ends.
Impl = namedtuple("Impl", "parameters arguments where start end")
# The key index of each map that is a `Map`: the struct, and how the map's own type names it.
INDEXES = {"Map": ("Pair", "X"), "IdHashMap": ("ByHashOf", "IdIndex<T>"), "BiHashMap": ("BiIndexOf", "BiIndex<T>"),
           "TriHashMap": ("TriIndexOf", "TriIndex<T>")}
# Names for these structs with arguments of their own.
STRUCTS = {named.partition("<")[0]: struct for struct, named in INDEXES.values()}


def parts_at(text, at=0):
    """The parts between commas of the arguments in angle brackets that open at this place, and where they close."""
    depth, parts, last = 0, [], at + 1
    for place in range(at, len(text)):
        depth += (text[place] in "<([") - (text[place] in ">)]" and text[place - 1] not in "-=")
        if text[place] == "," and depth == 1 or depth == 0:
            parts.append(" ".join(text[last:place].split()))
            last = place + 1
        if depth == 0:
            return [part for part in parts if part], place + 1
    return parts, len(text)


def head_of(name):
    """The struct of a key index's type: its name without arguments."""
    plain = re.sub(r"<.*", "", name)
    return STRUCTS.get(plain, plain)


@cache
def impls(text, is_of_trait=False):
    """The inherent impls in a text, or those of traits: each with its type's name, and with that of the trait."""
    return list(found_impls(text, is_of_trait))


def found_impls(text, is_of_trait):
    text = rt_functions.without(rt_functions.QUOTED, rt_functions.without(rt_functions.COMMENT, text))
    for it in re.finditer(r"^impl\b", text, re.M):
        at = it.end()
        parameters, at = parts_at(text, at) if text[at] == "<" else ([], at)
        end = rt_functions.closing(text, text.index("{", at))
        head = " ".join(text[at : text.index("{", at)].split())
        whole, _, where = head.partition(" where ")
        trait, is_trait, kept = whole.rpartition(" for ")
        if bool(is_trait) == is_of_trait:
            name = (re.match(r"(?:&(?:'\w+ )?)?(\w+)", kept) or [None, ""])[1]
            arguments = parts_at(kept, kept.index("<"))[0] if "<" in kept else []
            yield name, trait, Impl(parameters, arguments, where, it.start(), end)


class KeyIndexes:
    """The traits that each struct of a key index has, with the first argument of each impl."""

    def __init__(self, texts):
        self.traits, self.types = defaultdict(set), defaultdict(dict)
        for text in texts:
            for name, trait, it in impls(text, True):
                arguments = parts_at(trait, trait.index("<"))[0] if "<" in trait else [""]
                self.traits[name, re.sub(r"<.*", "", trait)].add(arguments[0])
                for which, what in re.findall(r"^    type (Conflict|Taken) = ([^;]*);", text[it.start : it.end], re.M):
                    self.types[name][which] = what

    def places(self, struct):
        """The places of a key index's unique keys, as callers write them."""
        found = {re.sub(r"<.*", "", place) for place in self.traits[struct, "UniqueAt"] | self.traits[struct, "GroupedAt"]}
        return [place for place in ("Here", "First", "Second", "Third", "Left", "Right") if place in found]

    def has(self, struct, bound):
        """Whether the struct of a key index has a trait, at the place that the bound names."""
        name, first = re.sub(r"<.*", "", bound), parts_at(bound, bound.index("<"))[0][0] if "<" in bound else ""
        there = self.traits.get((struct, name), set())
        is_place = first in {"Here", "First", "Second", "Third"}
        return name in ("Drop", "Sized") or bool(there) and (not is_place or first in there)


def bounds_of(parameters, where, name):
    """The bounds on a parameter, in a list of parameters and in a where clause."""
    bounds = []
    for part in [*parameters, *parts_at(f"<{where}>")[0]]:
        whose, colon, said = part.partition(":")
        if colon and whose.strip() == name:
            bounds += [bound.strip() for bound in parts_at(f"<{said.replace(' + ', ', ')}>")[0]]
    return [bound for bound in bounds if not bound.startswith("'")]


def index_of(it):
    """The second argument of an impl's `Map`: a parameter, or a type."""
    return it.arguments[1] if len(it.arguments) > 1 else ""


def fits(it, struct, known):
    """Whether an impl for a `Map` holds for maps by this key index."""
    index = index_of(it)
    names = {re.split(r"[: ]", part)[0] for part in it.parameters}
    if index in names:
        return all(known.has(struct, bound) for bound in bounds_of(it.parameters, it.where, index))
    return head_of(index) == struct


def own_call(call, it, struct, map_name, known):
    """A call's signature as the map has it; None where the map doesn't have it."""
    index = index_of(it) if it else "X"
    head, _, where = call.partition(" where ")
    clauses = parts_at(f"<{where}>")[0]
    bounds = bounds_of([], where, index)
    if not all(known.has(struct, bound) for bound in bounds):
        return None
    kept = [clause for clause in clauses if clause.partition(":")[0].strip() != index]
    if map_name == "Map":
        placed = [bound for bound in bounds if "<P, " in bound]
        kept = [*([f"{index}: {' + '.join(placed)}"] if placed else []), *kept]
    text = head + (f" where {', '.join(kept)}" if kept else "")
    if map_name == "Map":
        return text
    for which, what in known.types[struct].items():
        text = text.replace(f"X::{which}", what)
    text = re.sub(r"\bMap<T, \w+(?:<[^<>]*>)?, DefaultHashBuilder>", f"{map_name}<T>", text)
    text = re.sub(r"\bMap<T, \w+(?:<[^<>]*>)?, S>", f"{map_name}<T, S>", text)
    return re.sub(r"\bX\b", INDEXES[map_name][1], text)
