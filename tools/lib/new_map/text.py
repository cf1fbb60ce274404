"""The files of a map: its code, its definitions and its proofs."""

import re

from lib.new_map import layout
from lib.new_map.definitions import Definitions
from lib.new_map.functions import Functions
from lib.new_map.names import Names, ghost_uses, rust_uses
from lib.new_map.types import Types, describe


def text_of(mix, crate, module=None):
    """The code of a mix in a crate, as its root or as a module; its definitions; and proofs by the functions' names."""
    names = Names(mix, crate, module)
    definitions, types, functions = Definitions(names), Types(names), Functions(names)
    body = "\n".join([*types.parts, *functions.parts])
    return head(names, definitions, body, module is None) + body, definitions.text(), functions.proofs


def head(names, definitions, body, is_root):
    """The comment and the imports of the code."""
    clauses = "\n".join(re.findall(r"^    ensures .*(?:\n {8}.*)*", body, re.M))
    ghost = ghost_uses(clauses, {names.definitions: definitions.defined})
    comment = layout.comment(f"{names.plural.capitalize()} {'; '.join(map(describe, names.mix.keys))}.", "//!")
    comment += "//!\n//! Written by Yellowtuff's `tools/new-map`. It is yours to edit.\n"
    tactic = "#![tactic(auto)]\n\n" if is_root else ""
    return comment + tactic + "".join(f"ghost use {it};\n" for it in ghost) + "\n" + rust_uses(body) + "\n"
