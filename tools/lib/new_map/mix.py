"""The mix of keys that the arguments of tools/new-map name, and why one is refused."""

import re
from dataclasses import dataclass

from lib.commands import Refused

# The library nests pairs for any number of keys, but a check pays for each table in each call.
MOST_KEYS = 5
# The library has keys of two or three fields.
MOST_PARTS = 3

UNSIGNED = ["u8", "u16", "u32", "u64", "u128", "usize"]
SIGNED = ["i8", "i16", "i32", "i64", "i128", "isize"]
KEY_TYPES = [*UNSIGNED, *SIGNED, "char", "String"]
FLOATS = ["f32", "f64"]
# What a field without a key can be made of, alone or in these.
OTHER_TYPES = ["bool", *FLOATS]
WRAPPERS = ["Option", "Vec"]

RUST_WORDS = set("""
    abstract as async await become box break const continue crate do dyn else enum extern false final fn for gen if impl
    in let loop macro match mod move mut override priv pub ref return self Self static struct super trait true try type
    typeof union unsafe unsized use virtual where while yield ghost requires ensures std core alloc
""".split())
# Words of the logic in which contracts are written, and those of generated clauses that name a field.
CONTRACT_WORDS = set("""
    data record deriving module where use mod package open as unfoldable abbrev axiom unfold unfolding ruleset mutual
    infix infixl infixr elim let in do coe fcoe tcoe hcom com rw simp search grw cc omega grind hlevel assumption
    first_of cap yes no refl tt absurd ground syntax result old new now live_count option_copied is_eq is_within
    ordering_then nat_cmp int_cmp int_eq slice_cmp bytes_eq string_bytes q x y
""".split())
# Those of generated clauses that name the map or an item.
CLAUSE_WORDS = CONTRACT_WORDS | {"length", "inserted", "next_index", "shown", "room", "option_map", "get", "rebound"}


@dataclass(frozen=True)
class Field:
    name: str
    type: str

    @property
    def words(self):
        return self.name.replace("_", " ")


@dataclass(frozen=True)
class Key:
    fields: tuple
    is_unique: bool
    by: str  # "hash" or "order"

    @property
    def name(self):
        return "_and_".join(field.name for field in self.fields)

    @property
    def words(self):
        *others, last = (field.words for field in self.fields)
        return f"{', '.join(others)} and {last}" if others else last


@dataclass(frozen=True)
class Mix:
    name: str
    item: str
    fields: tuple
    keys: tuple

    @property
    def map(self):
        return camel(self.name)

    @property
    def plain_fields(self):
        """The fields of no key."""
        keyed = {field for key in self.keys for field in key.fields}
        return [field for field in self.fields if field not in keyed]

    @property
    def is_copy(self):
        return all(re.fullmatch(r"[a-z]\w*", field.type) for field in self.fields)


def joined(keys, leaf, pair):
    """What the keys of a map make, joined in pairs as the pairs of its type are: by halves, the greater one last."""
    return pair(*(joined(half, leaf, pair) for half in halves(keys))) if keys[1:] else leaf(keys[0])


def halves(keys):
    return keys[:len(keys) // 2], keys[len(keys) // 2:]


def camel(name):
    return "".join(word.capitalize() for word in name.split("_"))


def snake(name):
    return re.sub(r"(?<!^)(?=[A-Z])", "_", name).lower()


def check_name(name, what):
    """Refuses what is no name in small letters."""
    if not re.fullmatch(r"[a-z]\w*", name, re.A) or name != name.lower() or "__" in name or name.endswith("_"):
        raise Refused(f"'{name}' is no name for {what}: small letters, digits and single '_' between them")
    if name in RUST_WORDS:
        raise Refused(f"'{name}' is a keyword, and no name for {what}")
    if name in CONTRACT_WORDS:
        raise Refused(f"'{name}' is a word of contracts, and no name for {what}")


def check_item(item):
    if not re.fullmatch(r"[A-Z][A-Za-z0-9]*", item):
        raise Refused(f"'{item}' is no name for the items' type: give one such as Order")
    if item in RUST_WORDS or item in [*KEY_TYPES, *WRAPPERS]:
        raise Refused(f"'{item}' is a name of the language, and none for the items' type")


def is_known_type(kind):
    inner = re.fullmatch(r"(\w+)<(.+)>", kind)
    return is_known_type(inner[2]) if inner and inner[1] in WRAPPERS else kind in [*KEY_TYPES, *OTHER_TYPES]


def key_words(words, argument):
    """Whether a key is unique, and whether it goes by its hash or its order."""
    for word in words:
        if word not in ("unique", "many", "hash", "order"):
            raise Refused(f"the word '{word}' of '{argument}' is unknown: a key is 'unique' or 'many', by 'hash' or "
                          "'order'")
    if len(words) != 2 or words[0] not in ("unique", "many") or words[1] not in ("hash", "order"):
        raise Refused(f"'{argument}' is no key: write 'unique' or 'many', and then 'hash' or 'order'")
    return words[0] == "unique", words[1]


def read_field(argument):
    """A field, and the words that make it a key."""
    name, _, rest = argument.partition(":")
    kind, *words = rest.split() or [""]
    check_name(name.strip(), "a field")
    if not is_known_type(kind):
        known = ", ".join([*KEY_TYPES, *OTHER_TYPES])
        raise Refused(f"the type '{kind}' of '{argument}' is unknown: write one of {known}, or an Option<..> or a "
                      "Vec<..> of one, and change it afterwards")
    if words and kind in FLOATS:
        raise Refused(f"'{argument}' is no key: {kind} has no equality and no order that is total")
    if words and kind not in KEY_TYPES:
        raise Refused(f"'{argument}' is no key that new-map writes: it writes keys of {', '.join(KEY_TYPES)}")
    return Field(name.strip(), kind), words


def read_parts(argument, fields):
    """The fields of a composite key, and the words behind them."""
    *names, last = [part.strip() for part in argument.split(",")]
    last, *words = last.split() or [""]
    parts = []
    for name in [*names, last]:
        field = next((field for field in fields if field.name == name), None)
        if not field:
            raise Refused(f"the key '{argument}' names the field '{name}', which no argument gives")
        if field.type not in KEY_TYPES:
            raise Refused(f"'{argument}' is no key that new-map writes: '{name}' is none of {', '.join(KEY_TYPES)}")
        parts.append(field)
    if len(set(parts)) < len(parts):
        raise Refused(f"the key '{argument}' names a field twice")
    if len(parts) > MOST_PARTS:
        raise Refused(f"the key '{argument}' has {len(parts)} fields: the library has keys of two or three")
    return tuple(parts), words


def check_signed(key, argument):
    """Refuses keys of signed numbers whose calls the check doesn't prove."""
    signed = next((field for field in key.fields if field.type in SIGNED), None)
    if signed and (key.is_unique or key.by == "hash" or key.fields[1:]):
        raise Refused(f"'{argument}' is no key that new-map writes: the signed field '{signed.name}' can only be "
                      "'many order', and alone")


def read_keys(arguments):
    """All fields, and the keys in the order of the arguments."""
    fields = [read_field(argument) for argument in arguments if ":" in argument]
    names = [field.name for field, _ in fields]
    for name in names:
        if names.count(name) > 1:
            raise Refused(f"the field '{name}' is given twice")
    own, all_fields = iter(fields), [field for field, _ in fields]
    keys = []
    for argument in arguments:
        if ":" in argument:
            field, words = next(own)
            parts = (field,)
            if not words:
                continue
        else:
            parts, words = read_parts(argument, all_fields)
        if parts in [key.fields for key in keys]:
            raise Refused(f"the key '{argument}' is given twice")
        keys.append(Key(parts, *key_words(words, argument)))
        check_signed(keys[-1], argument)
    return tuple(all_fields), keys


def read_mix(name, item, arguments):
    """The mix that the arguments name."""
    check_name(name, "a map")
    check_item(item)
    if not arguments:
        raise Refused("no field is given: write one such as 'number: u64 unique hash'")
    fields, keys = read_keys(arguments)
    unique = next((key for key in keys if key.is_unique), None)
    if not unique:
        raise Refused("no key is unique: '==' of two maps finds items by one, so give a field such as "
                      "'number: u64 unique hash'")
    if len(keys) > MOST_KEYS:
        raise Refused(f"{len(keys)} keys are too many: new-map writes up to {MOST_KEYS}. The library nests pairs "
                      "without a limit, but the check of each call pays for each table")
    # `==` looks items up by the first key, so that one is unique.
    return Mix(name, item, fields, (unique, *(key for key in keys if key != unique)))
