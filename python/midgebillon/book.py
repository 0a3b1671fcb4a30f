"""A rule book in bytes: its records, and which field each byte is. docs/BOOK.md has the format.

Nothing here decides whether a book is accepted: the reader's own check does.
"""
from dataclasses import dataclass
from enum import IntEnum


class Associativity(IntEnum):
    """How an operator is read beside others of its level: `1-2-3` as `(1-2)-3`, `1-(2-3)`, neither, or either."""

    LEFT = 0
    RIGHT = 1
    NONE = 2
    BOTH = 3


LEFT, RIGHT, NONE, BOTH = Associativity
ASSOCIATIVITIES = tuple(each.name.lower() for each in Associativity)

PLAIN, CLAIMING, IDENTIFIER_MARK, BINDER_MARK = range(4)

COMMITTED, PASSING = 1, 2  # the flags of a variant
DEFAULT_LEVEL = 255

# how many records a section may have, and a nonterminal or variant
MOST_WORDS, MOST_NAMES, MOST_NONTERMINALS, MOST_VARIANTS, MOST_STEPS = 64, 64, 32, 128, 255
VARIANTS_EACH, STEPS_EACH = 16, 8
LAST_KIND = 7

# the kinds of steps
CHARACTER, WORD, IDENTIFIER, NUMBER, VARIABLE, VARIABLE_OF_KIND, NO_VARIABLE, NO_RESERVED = range(8)
NONTERMINAL, OPTIONAL, MANY, COMMA_LIST, DELIMITED, OPTIONAL_DELIMITED, BINDER = range(8, 15)
LISTS = (MANY, COMMA_LIST, DELIMITED, OPTIONAL_DELIMITED)
TAKES_NONTERMINAL = (NONTERMINAL, OPTIONAL, *LISTS, BINDER)
BETWEEN_CHARACTERS = (DELIMITED, OPTIONAL_DELIMITED, BINDER)


@dataclass(frozen=True)
class Entry:
    """A word or a starting name. The label is 1 for a reserved word, else 0; of a name it is the kind."""

    label: int
    spelling: str


@dataclass(frozen=True)
class Step:
    kind: int
    a: int = 0
    b: int = 0
    c: int = 0


@dataclass(frozen=True)
class Variant:
    level: int
    associativity: int
    flags: int
    steps: tuple

    @property
    def committed(self):
        return bool(self.flags & COMMITTED)

    @property
    def passing(self):
        return bool(self.flags & PASSING)


@dataclass(frozen=True)
class Nonterminal:
    mark: int
    variants: tuple


@dataclass(frozen=True)
class Book:
    words: tuple
    names: tuple
    nonterminals: tuple

    @property
    def variants(self):
        """All variants, by their numbers in the book."""
        return [variant for nonterminal in self.nonterminals for variant in nonterminal.variants]

    def owner(self, variant):
        """The number of the nonterminal that has the variant of this number."""
        owners = [i for i, nonterminal in enumerate(self.nonterminals) for _ in nonterminal.variants]
        return owners[variant]

    @property
    def declares(self):
        """Whether a rule may declare names."""
        return any(nonterminal.mark == BINDER_MARK for nonterminal in self.nonterminals)

    @property
    def kind_words(self):
        """The words that stand before declared names, with the kinds that they mean: of equal words the least."""
        found = {}
        for kind, word in enumerate(self.words[: LAST_KIND + 1]):
            found.setdefault(word.spelling, kind)
        return found


@dataclass(frozen=True)
class Field:
    """A field of one byte, or one byte of a spelling: the section, the record's number in it (None for the section's
    count), and what it is called. The value is None where the book ends before it."""

    place: int
    section: str
    record: int
    name: str
    value: int


# the fields of each section's records; those of the first two go on with a spelling
SECTIONS = (
    ("word", ("reserved", "length")),
    ("name", ("kind", "length")),
    ("nonterminal", ("mark", "variants")),
    ("variant", ("level", "associativity", "flags", "steps")),
    ("step", ("kind", "a", "b", "c")),
)


def fields(data):
    """The fields of a book in order, as far as its bytes go, and the first that is missing; what is left over behind
    the book has none."""
    place = 0
    for section, names in SECTIONS:
        count = data[place] if place < len(data) else None
        yield Field(place, section, None, "count", count)
        if count is None:
            return
        place += 1
        for record in range(count):
            todo = list(names)
            while todo:
                name = todo.pop(0)
                value = data[place] if place < len(data) else None
                yield Field(place, section, record, name, value)
                if value is None:
                    return
                place += 1
                if name == "length":
                    todo = ["spelling"] * value


def field_at(data, place):
    """The field at a place, or None behind the book."""
    return next((field for field in fields(data) if field.place == place), None)


def _records(data):
    """The records of each section, as lists of values."""
    found = {section: {} for section, _ in SECTIONS}
    for field in fields(data):
        if field.value is None:
            raise ValueError("the book ends too early")
        if field.record is not None:
            found[field.section].setdefault(field.record, []).append(field.value)
    return [list(found[section].values()) for section, _ in SECTIONS]


def _entries(rows):
    return tuple(Entry(label, bytes(spelling).decode("latin-1")) for label, _, *spelling in rows)


def decode(data):
    """The records of a book. Of bytes that are no accepted book: anything, or a ValueError."""
    words, names, nonterminals, variants, steps = _records(data)
    step = iter([Step(*row) for row in steps])
    variant = iter([Variant(*head, tuple(next(step) for _ in range(count))) for *head, count in variants])
    found = [Nonterminal(mark, tuple(next(variant) for _ in range(count))) for mark, count in nonterminals]
    return Book(_entries(words), _entries(names), tuple(found))


def encode(book):
    """The bytes of a book. ValueError where a number is above 255."""
    variants = book.variants
    steps = [step for variant in variants for step in variant.steps]
    entry = lambda e: [e.label, len(e.spelling), *e.spelling.encode("latin-1")]
    sections = [
        [entry(e) for e in book.words],
        [entry(e) for e in book.names],
        [[n.mark, len(n.variants)] for n in book.nonterminals],
        [[v.level, v.associativity, v.flags, len(v.steps)] for v in variants],
        [[s.kind, s.a, s.b, s.c] for s in steps],
    ]
    return b"".join(bytes([len(records)]) + bytes(sum(records, [])) for records in sections)
