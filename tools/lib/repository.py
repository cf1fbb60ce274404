"""What the scripts read of the repository and write to files: its crates, and where a type stands."""

import glob
import os
import re
from collections import defaultdict
from functools import cache

TOP = os.path.dirname(os.path.dirname(os.path.dirname(os.path.realpath(__file__))))

LICENCES = ["LICENSE-APACHE", "LICENSE-MIT"]
# The types that callers hold; `Map` is what the three names after it stand for, each with its own mix of keys.
MAPS = ["Map", "IdHashMap", "BiHashMap", "TriHashMap", "IdOrdMap", "KeyedItems", "TriItems"]
# The traits of crates above that add calls to such a type.
ADDED = {"Map": ["InOrder", "InGroups"], "Parts": ["OrderedParts"]}


def read(path):
    with open(path, encoding="utf-8") as file:
        return file.read()


def write(path, text, mode="w"):
    """Writes a text to a file, whose folder is made where it isn't there; or adds it to its end."""
    os.makedirs(os.path.dirname(os.path.abspath(path)), exist_ok=True)
    with open(path, mode, encoding="utf-8") as file:
        file.write(text)


def add(path, text):
    write(path, text, "a")


def dead_links(page, top):
    """The links of a page that lead to no file below this folder."""
    places = {link: os.path.abspath(os.path.join(os.path.dirname(page), link))
              for link in re.findall(r"\]\(([^)#:]+)(?:#[^)]*)?\)", read(page))}
    return [link for link, place in places.items() if not (place.startswith(f"{top}/") and os.path.exists(place))]


def crates_in(path):
    """The lines of a crates.txt: each crate with those that it names."""
    lines = (line.partition("#")[0] for line in read(path).split("\n"))
    return {name.split()[0]: named.split() for name, colon, named in (line.partition(":") for line in lines) if colon}


def release():
    """The release of these files: the first heading of the change log."""
    return re.search(r"^## (.*)", read(f"{TOP}/CHANGELOG.md"), re.M)[1]


def below(names, crates):
    """These crates and all that they stand on, lowest first, in the order of crates.txt."""
    found = set()

    def add(name):
        if name in crates and name not in found:
            found.add(name)
            for low in crates[name]:
                add(low)

    for name in names:
        add(name)
    return [name for name in crates if name in found]


def sources_of(crate):
    """The source files of a crate."""
    return sorted(glob.glob(f"{TOP}/crates/{crate}/src/**/*.rt", recursive=True))


@cache
def definitions():
    """The files of the crates that define each public struct, trait and name for another type."""
    found = defaultdict(list)
    for path in glob.glob(f"{TOP}/crates/*/src/**/*.rt", recursive=True):
        for name in {*re.findall(r"^pub (?:struct|type|trait) (\w+)", read(path), re.M)}:
            found[name].append(path)
    return found


def file_of(name):
    """The one file of the crates that defines this public struct or trait, or this name for another type."""
    found = definitions()[name]
    if len(found) != 1:
        raise SystemExit(f"{len(found)} files define a public type {name}")
    return found[0]


def stands_for(name):
    """The struct that a public type is a name for; itself, where it is a struct."""
    alias = re.search(rf"^pub type {name}\b[^;]*> = (\w+)<", read(file_of(name)), re.M)
    return alias[1] if alias else name


def own_sources(name):
    """The files that have a type's calls: those of its module where it shares a crate with others, else all of its crate."""
    path = file_of(name)
    others = {file_of(other) for other in MAPS if crate_of(file_of(other)) == crate_of(path)}
    if others == {path}:
        return [path, *(other for other in sources_of(crate_of(path)) if other != path)]
    return [path, *sorted(glob.glob(f"{path[:-3]}/**/*.rt", recursive=True))]


def crate_of(path):
    """The crate of a file."""
    return os.path.relpath(path, f"{TOP}/crates").split(os.sep)[0]


def libraries():
    """The crates that others stand on, with what they name: no program and no example."""
    crates = crates_in(f"{TOP}/crates.txt")
    used = {low for named in crates.values() for low in named}
    return {name: named for name, named in crates.items() if name in used}


def crate_named(name):
    """The crate of a map, by the name of its type or its own."""
    crates, types = libraries(), {kind: crate_of(definitions()[kind][0]) for kind in MAPS if definitions()[kind]}
    for fits in (types.get(name), f"iddqd_{name}", name):
        if fits in crates:
            return fits
    known = [f"{kind} ({crate.removeprefix('iddqd_')})" for kind, crate in types.items()]
    others = [crate for crate in crates if crate not in types.values()]
    raise LookupError(f"there is no map '{name}'; there are {', '.join(known)}, and the crates {', '.join(others)}")


def named_beside(crate):
    """The crates that a caller of this one names too: those whose modules, definitions or lemmas `iddqd_maps` re-exports.

    `iddqd_keyed` re-exports all that its callers name but indexes, hashers and queries.
    """
    if crate == "iddqd_keyed":
        return {"iddqd", "iddqd_keys"}
    own = f"{TOP}/crates/iddqd_maps"
    named = re.findall(r"^pub use (\w+)::", read(f"{own}/src/lib.rt"), re.M)
    for path in [f"{own}/specs/Lib.antt", *glob.glob(f"{own}/proofs/*.antt")]:
        named += re.findall(r"^pub use Rattle\.(\w+)\.", read(path), re.M)
    return set(named) & set(below([crate], libraries()))


def caller_names(wanted, needed):
    """What a caller's line lists: the crates that it asked for, and those below that it names."""
    named = set() if "iddqd_maps" in wanted else {low for crate in wanted for low in named_beside(crate)}
    return [crate for crate in needed if crate in {*wanted, *named}]
