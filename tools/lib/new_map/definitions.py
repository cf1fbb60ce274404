"""The definitions that the contracts of a map cite."""

import re
from string import Template

from lib.new_map import layout
from lib.new_map.mix import FLOATS, SIGNED, joined
from lib.new_map.names import article, ghost_uses

# Definitions that are the same for all keys, each with its comment.
WHY_NOT_ADDED = [(
    "Why $an_item comes back that was to be added: another one shares a unique key with it, there are as many as the "
    "limit allows, or there was no room and memory ran out.",
    """
abbrev pub IsWhyNotAdded : {C : Type 0} → $Item → MapState $Item → InsertRefusal $Item C → Type 0
IsWhyNotAdded $item old (Duplicate back at) =
    (back ≡ $item) × ((ix : ℕ) × IsHit old.store (share_key $item) ix)
IsWhyNotAdded $item old (Full back) =
    (back ≡ $item) × HasNoHit old.store (share_key $item) × IsFull old.store
IsWhyNotAdded $item old (Memory back) =
    (back ≡ $item) × HasNoHit old.store (share_key $item) × (room old ≡ 0)
""")]
EXCHANGES = [(
    "The one $word that passes the test was replaced by this one, which shares no unique key with another. All else "
    "stays.",
    """
pub record Exchanges
      (test : $Item → Bool) ($item : $Item) (old : MapState $Item) (was : $Item) (new : MapState $Item)
      : Type 0 where
  pub ix : ℕ
  pub found : IsOnly old.store test ix was
  pub unlike : HasNoOther old.store (share_key $item) ix
  pub left : new.store ≡ rebound old.store ix $item
  pub memory : new.memory ≡ old.memory
"""), (
    "Why $an_item comes back that was to replace the one that passes the test: none passes, or another one shares a "
    "unique key with it$past.",
    """
abbrev pub IsWhyNotExchanged :
    {C : Type 0} → ($Item → Bool) → $Item → MapState $Item → ReplaceRefusal $Item C → Type 0
IsWhyNotExchanged test $item old (Missing back) = (back ≡ $item) × HasNoHit old.store test
IsWhyNotExchanged test $item old (Taken back at) =
    (back ≡ $item)
    × ((ix : ℕ) × AnswersScan old.store test (Some ix) × HitsOther old.store (share_key $item) ix)
IsWhyNotExchanged test $item old (Refused back) = (back ≡ $item) × $lacks
""")]
UPDATES = [(
    "What an update of the $word that passes the test may return and leave; `becomes` says what it is then. It returns "
    "`None` if and only if none passes, and then nothing changes.",
    """
abbrev pub Updates :
    MapState $Item → ($Item → Bool) → ($Item → $Item) → Option (Unit {0}) → MapState $Item → Type 0
Updates old test becomes (Some done) new =
    (ix : ℕ) × (was : $Item) × IsOnly old.store test ix was
    × (new.store ≡ rebound old.store ix (becomes was)) × (new.memory ≡ old.memory)
Updates old test becomes None new = HasNoHit old.store test × (new ≡ old)
""")]
CHANGES = [(
    "What a call may return and leave that replaces the $word which passes the test by what `becomes` makes of it. It "
    "returns `None` if and only if none passes, and then nothing changes.",
    """
abbrev pub ExchangesIfFound :
    ($Item → Bool) → ($Item → $Item) → MapState $Item → Option $Item → MapState $Item → Type 0
ExchangesIfFound test becomes old (Some was) new = Exchanges test (becomes was) old was new
ExchangesIfFound test becomes old None new = HasNoHit old.store test × (new ≡ old)
"""), (
    "Why what `becomes` makes of the $word that passes the test comes back: another one shares a unique key with "
    "it$past.",
    """
abbrev pub IsWhyNotChanged :
    {C : Type 0} → ($Item → Bool) → ($Item → $Item) → MapState $Item → ReplaceRefusal $Item C → Type 0
IsWhyNotChanged test becomes old (Missing back) = ⊥
IsWhyNotChanged test becomes old (Taken back at) =
    (ix : ℕ) × (was : $Item) × IsOnly old.store test ix was
    × ((back ≡ becomes was) × HitsOther old.store (share_key (becomes was)) ix)
IsWhyNotChanged test becomes old (Refused back) =
    (ix : ℕ) × (was : $Item) × IsOnly old.store test ix was
    × ((back ≡ becomes was) × $lacks)
""")]


def ghost_type(field):
    """What a value of the field is to a contract."""
    return {"String": "List ℕ", "bool": "Bool"}.get(field.type, "ℤ" if field.type in SIGNED else "ℕ")


def value_of(field, item):
    return f"(string_bytes {item}.{field.name})" if field.type == "String" else f"{item}.{field.name}"


def equals(field, query, item):
    if field.type == "String":
        return f"bytes_eq {query} {value_of(field, item)}"
    return f"int_eq {query} {item}.{field.name}" if field.type in SIGNED else f"{query} == {item}.{field.name}"


def compares(field, query, item):
    compare = {"String": "slice_cmp nat_cmp"}.get(field.type, "int_cmp" if field.type in SIGNED else "nat_cmp")
    return f"{compare} {query} {value_of(field, item)}"


def in_turn(terms):
    """How keys in turn compare."""
    first, *rest = terms
    return f"ordering_then ({first}) ({in_turn(rest)})" if rest else first


def all_of(terms):
    first, *rest = terms
    if not rest:
        return first
    return f"{first} && " + (f"({all_of(rest)})" if len(rest) > 1 else rest[0])


def has(key, queries, item):
    """The test whether the item has the key."""
    if key.by == "hash":
        return all_of([equals(field, query, item) for field, query in zip(key.fields, queries)])
    return f"is_eq ({in_turn([compares(field, query, item) for field, query in zip(key.fields, queries)])})"


def share(key):
    """Whether two items share the key, if no two may."""
    values = " ".join(value_of(field, "x") for field in key.fields)
    return f"(λ x. has_{key.name} {values})" if key.is_unique else "never_alike"


def these(fields):
    return "this " + " and this ".join(field.words for field in fields)


def bounds(key):
    """The names of two bounds of the last field of a key."""
    return ("lower", "upper") if {"from", "to"} & {field.name for field in key.fields} else ("from", "to")


def tuple_of(terms):
    return terms[0] if len(terms) == 1 else f"({', '.join(terms)})"


def settable(mix):
    """The fields that a function sets: those of no key, if items own no memory.

    Of such items the check sees what a closure makes of one, but for a float and a signed number.
    """
    return [field for field in mix.plain_fields if mix.is_copy and field.type not in [*FLOATS, *SIGNED]]


def changeable(mix):
    """The fields of other keys than the first unique one, in such items: a function changes each by that key."""
    keyed = [field for key in mix.keys for field in key.fields if mix.is_copy and field not in mix.keys[0].fields]
    return [field for field in dict.fromkeys(keyed) if field.type not in SIGNED]


class Definitions:
    """The definitions of a mix."""

    def __init__(self, names):
        self.names, self.item, self.kind = names, names.item, names.mix.item
        self.parts, self.defined = [], []
        for key in names.mix.keys:
            self.add_key(key)
        self.add_share_key()
        self.add_calls()

    def add(self, comment, name, kind, equations):
        """A definition, once; an equation is its arguments and its right side."""
        if name in self.defined:
            return
        self.defined.append(name)
        lines = "".join(layout.equation(" ".join([name, *arguments]), right) for arguments, right in equations)
        self.parts.append(f"{layout.comment(comment, '--')}{layout.statement(f'abbrev pub {name}', kind)}{lines}")

    def add_key(self, key):
        fields, kinds = [field.name for field in key.fields], [ghost_type(field) for field in key.fields]
        self.add(f"the {self.names.word} has {these(key.fields)}", f"has_{key.name}",
                 " → ".join([*kinds, self.kind, "Bool"]), [([*fields, self.item], has(key, fields, self.item))])
        if key.by == "order":
            self.add_order(key)

    def add_order(self, key):
        first, *rest = key.fields
        by = ", and then by ".join(field.words for field in key.fields)
        answers = in_turn([compares(field, value_of(field, "x"), "y") for field in key.fields])
        self.add(f"how two {self.names.plural} compare by {by}", f"compare_by_{key.name}",
                 f"{self.kind} → {self.kind} → Ordering", [(["x", "y"], answers)])
        test = f"{ghost_type(first)} → {self.kind} → Bool"
        if rest:
            self.add(f"the {self.names.word} has {these([first])}, with which a key begins",
                     f"begins_with_{first.name}", test,
                     [([first.name, self.item], f"is_eq ({compares(first, first.name, self.item)})")])
        elif first.type == "String":
            self.add(f"the {self.names.word} has {article(first.words)} that begins with this text",
                     f"{first.name}_begins", test,
                     [(["text", self.item], f"is_eq (begin_cmp text {value_of(first, self.item)})")])
        self.add_between(key)

    def add_between(self, key):
        *fixed, last = key.fields
        kinds, ends = [ghost_type(field) for field in key.fields], bounds(key)
        queries = [f"q.{place}" for place in range(len(key.fields))] if fixed else ["q"]
        query_type = " × ".join(f"({it})" if " " in it and fixed else it for it in kinds)
        compare = in_turn([compares(field, query, self.item) for field, query in zip(key.fields, queries)])
        lower, upper = (tuple_of([*(field.name for field in fixed), end]) for end in ends)
        answer = layout.filled(f"(λ (q : {query_type}) ({self.item} : {self.kind}). {compare})", "    ")
        right = f"is_within\n{answer}    (Included {lower}) (Included {upper})"
        of = f"{these(fixed)}, and " if fixed else ""
        self.add(f"the {self.names.word} has {of}{article(last.words)} within these bounds", f"has_{key.name}_between",
                 " → ".join([*kinds, kinds[-1], self.kind, "Bool"]),
                 [([*(field.name for field in fixed), *ends], right)])

    def add_share_key(self):
        """Whether two items are alike, for each key in the order of the map's type."""
        keys = self.names.mix.keys
        many = " or ".join(key.words for key in keys if not key.is_unique)
        shares = joined(keys, share, lambda one, other: f"(either_key {one} {other})")
        comment = f"the {self.names.plural} share a unique key" + (f"; by {many} no two are alike" if many else "")
        self.add(comment, "share_key", f"{self.kind} → {self.kind} → Bool", [([], shares[1:-1])])

    def add_calls(self):
        """What calls leave that add, replace, set or change an item, and why they refuse."""
        an_item, word = article(self.names.word), self.names.word
        is_ordered = any(key.by == "order" for key in self.names.mix.keys)
        # Memory for a change runs out only where a key goes by its order, and past the capacity.
        past = ", or memory ran out, which comes only past the capacity" if is_ordered else ""
        words = {"Item": self.kind, "item": self.item, "an_item": an_item, "word": word, "past": past,
                 "lacks": "(old.memory.capacity < live_count old.store)" if is_ordered else "⊥"}
        self.add_all(WHY_NOT_ADDED, words)
        self.add_all(EXCHANGES, words)
        for field in [*settable(self.names.mix), *changeable(self.names.mix)]:
            self.add(f"the {word}, but with this {field.words}", f"but_with_{field.name}",
                     f"{ghost_type(field)} → {self.kind} → {self.kind}",
                     [([field.name, self.item], f"record {self.item} {{ {field.name} = {field.name} }}")])
        if settable(self.names.mix):
            self.add_all(UPDATES, words)
        if changeable(self.names.mix):
            self.add_all(CHANGES, words)

    def add_all(self, templates, words):
        for comment, template in templates:
            text = Template(template.lstrip("\n")).substitute(words)
            self.defined += re.findall(r"(?:abbrev pub|pub record) (\w+)", text)
            self.parts.append(layout.comment(Template(comment).substitute(words), "--") + text)

    def text(self):
        body = "\n".join(self.parts)
        # A field's name is a variable here, but `room` also says why an insert is refused.
        fields = {field.name for field in self.names.mix.fields} - {"room"}
        uses = ghost_uses(body, {self.names.declared: [self.kind]}, fields)
        comment = layout.comment(f"{self.names.plural.capitalize()} by their keys.", "--")
        return comment + "".join(f"use {it}\n" for it in uses) + "\n" + body
