"""The types of a map: its items, a marker for each field of a key, the key indexes, the places, and the map."""

from lib.new_map import layout
from lib.new_map.definitions import tuple_of
from lib.new_map.mix import halves
from lib.new_map.names import article

# A key index that is longer gets a name of its own; that of the whole map may be longer.
LONG_INDEX = 45
LONG_MAP = 60
# The conflicts of more keys have names of their own.
MOST_CONFLICTS = 3


def places(keys):
    """The place of each key."""
    if not keys[1:]:
        return ["Here"]
    return [f"{side}<{place}>" for side, half in zip(("Left", "Right"), halves(keys)) for place in places(half)]


def describe(key):
    many = "" if key.is_unique else ", which many may have"
    return f"by {key.words}{many}" if key.by == "hash" else f"in the order of {key.words}{many}"


def markers_of(names, key):
    """The type that says what the key is."""
    return tuple_of([f"Field<{names.markers[field]}, {field.type}>" for field in key.fields])


class Types:
    """The text of the types, in parts."""

    def __init__(self, names):
        self.names, self.mix, self.parts = names, names.mix, []
        self.add_item()
        for field, marker in names.markers.items():
            self.add_marker(field, marker)
        self.add_conflicts()
        self.add_map()

    def add(self, comment, text):
        self.parts.append((layout.comment(comment) if comment else "") + text)

    def add_alias(self, comment, name, kind):
        """A name for a type, which is public if a comment says what it is."""
        self.add(comment, ("pub " if comment else "") + layout.type_alias(name, kind))

    def add_item(self):
        unique = " or ".join(f"the same {key.words}" for key in self.mix.keys if key.is_unique)
        fields = "".join(f"    pub {field.name}: {field.type},\n" for field in self.mix.fields)
        derived = "Clone, Copy, Debug" if self.mix.is_copy else "Drop"
        self.add(f"{article(self.names.word).capitalize()}. No two have {unique}.",
                 f"#[derive({derived})]\npub struct {self.mix.item} {{\n{fields}}}\n")

    def add_marker(self, field, marker):
        item, kind = self.names.item, self.mix.item
        self.add(f"Names the {field.words}.", f"pub enum {marker} {{}}\n")
        self.add("", f"""impl KeyOf<{kind}> for {marker} {{
    type Key = {field.type};

    ghost key_of = {{ λ {item}. {item}.{field.name} }};

    fn key({item}: &{kind}) -> &{field.type} {{
        &{item}.{field.name}
    }}
}}
""")

    def add_conflicts(self):
        unique = " or ".join(f"the {key.words}" for key in self.mix.keys if key.is_unique)
        conflict = self.conflict(self.mix.keys)
        self.add_alias(f"Which {self.names.plural} have {unique} of a refused one.", "Taken", conflict)

    def conflict(self, keys):
        """What a conflict by these keys reports; if there are many, the halves get names."""
        if not keys[1:]:
            return "ItemIndex" if keys[0].is_unique else "NoConflict"
        reported = f"PairConflict<{', '.join(map(self.conflict, halves(keys)))}>"
        if keys == self.mix.keys or len(self.mix.keys) <= MOST_CONFLICTS:
            return reported
        name = self.names.new_type("Taken" + self.joined_names(keys))
        self.add_alias(f"What a refusal reports of {' and '.join(key.words for key in keys)}.", name, reported)
        return name

    def add_map(self):
        keys = self.mix.keys
        index = self.pairs(keys)
        for key, place in zip(keys, places(keys)):
            self.add_alias("", self.names.places[key], place)
        self.add_alias(f"{self.names.plural.capitalize()} {'; '.join(map(describe, keys))}.", self.mix.map,
                       f"Map<{self.mix.item}, {index}>")

    def joined_names(self, keys):
        return "And".join(self.names.places[key].removeprefix("By") for key in keys)

    def index_of(self, key):
        kind = f"By{key.by.capitalize()}{'' if key.is_unique else 'Multi'}"
        if key.fields[1:]:
            return f"{kind}Of<{markers_of(self.names, key)}>"
        return f"{kind}<{self.names.markers[key.fields[0]]}, {key.fields[0].type}>"

    def pairs(self, keys):
        """The key index by these keys; a long one gets a name."""
        index = f"Pair<{', '.join(map(self.pairs, halves(keys)))}>" if keys[1:] else self.index_of(keys[0])
        is_whole = keys == self.mix.keys
        if len(index) <= LONG_INDEX or is_whole and len(index) <= LONG_MAP:
            return index
        by = self.joined_names(keys)
        name = self.names.new_type("Keys" if is_whole else by if keys[1:] else f"{by}Index")
        self.add_alias("", name, index)
        return name
