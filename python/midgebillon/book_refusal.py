"""Why the reader's check refuses a book (3 to 8), in words: which field, what it is, what it may be."""
from . import book as books
from .notation import BINDER_EXAMPLE, is_text
from .notation_tokens import shown
from .refusal import Refusal

CHARACTERS = "a character is one of 33 to 126 in ASCII: no space and no control character"
KINDS = f"a kind is 0 to {books.LAST_KIND}"

# What the fields are called, and their ranges.
FIELDS = {
    ("word", "reserved"): ("the byte that says whether word {n} is reserved", "0 or 1"),
    ("word", "length"): ("the length of word {n}", "1 to 15"),
    ("word", "spelling"): ("the spelling of word {n}", ""),
    ("name", "kind"): ("the kind of name {n}", "0 to 7"),
    ("name", "length"): ("the length of name {n}", "1 to 15"),
    ("name", "spelling"): ("the spelling of name {n}", ""),
    ("nonterminal", "mark"): ("the mark of nonterminal {n}", "0 to 3"),
    ("nonterminal", "variants"): (
        "the number of variants of nonterminal {n}",
        "0 to 16, and 0 with mark 2, 1 with mark 3",
    ),
    ("variant", "level"): ("the level of variant {n}", "0 to 255"),
    ("variant", "associativity"): ("the associativity of variant {n}", "0 to 3"),
    ("variant", "flags"): ("the byte of flags of variant {n}", "0 to 3"),
    ("variant", "steps"): ("the number of steps of variant {n}", "0 to 8"),
    ("step", "kind"): ("the kind of step {n}", "0 to 13, and 14 with mark 3"),
    ("step", "a"): ("byte a of step {n}", ""),
    ("step", "b"): ("byte b of step {n}", ""),
    ("step", "c"): ("byte c of step {n}", ""),
}
COUNTS = {
    "word": f"0 to {books.MOST_WORDS}",
    "name": f"0 to {books.MOST_NAMES}",
    "nonterminal": f"1 to {books.MOST_NONTERMINALS}",
}
# What a nonterminal of mark 3 has: its variant's bytes, and its step's kind.
OF_BINDER = {
    "level": books.DEFAULT_LEVEL,
    "associativity": books.BOTH,
    "flags": books.COMMITTED,
    "steps": 1,
    "kind": books.BINDER,
}


def _called(field):
    if field.record is None:
        return f"the count of {field.section}s"
    return FIELDS[field.section, field.name][0].format(n=field.record)


def _values(data, section, name):
    """A field of all records of a section, as far as the book goes."""
    return [field.value or 0 for field in books.fields(data) if (field.section, field.name) == (section, name)]


def _owner(counts, record):
    """The number of the record that has this one, by how many each has."""
    return [number for number, count in enumerate(counts) for _ in range(count)][record]


def _is_of_binder(data, field):
    """Whether a field belongs to a nonterminal of mark 3, to its variants or to their steps."""
    if field.section not in ("nonterminal", "variant", "step"):
        return False
    record = field.record
    if field.section == "step":
        record = _owner(_values(data, "variant", "steps"), record)
    if field.section != "nonterminal":
        record = _owner(_values(data, "nonterminal", "variants"), record)
    return _values(data, "nonterminal", "mark")[record] == books.BINDER_MARK


def _count(data, field):
    if field.section in COUNTS:
        return f"it has to be {COUNTS[field.section]}"
    above = "nonterminal" if field.section == "variant" else "variant"
    total = sum(_values(data, above, f"{field.section}s"))
    most = books.MOST_VARIANTS if field.section == "variant" else books.MOST_STEPS
    if total > most:
        return f"the {above}s have {total} {field.section}s in all, and {most} are the most"
    return f"the {above}s have {total} in all"


def _step(data, field):
    """What byte a, b or c of a step has to be, by the step's kind."""
    kind = next(f.value for f in books.fields(data) if (f.section, f.record, f.name) == ("step", field.record, "kind"))
    counts = {f.section: f.value for f in books.fields(data) if f.record is None}
    if field.name == "a" and kind == books.CHARACTER or field.name != "a" and kind in books.BETWEEN_CHARACTERS:
        return CHARACTERS
    if field.name == "a" and kind == books.VARIABLE_OF_KIND:
        return KINDS
    if field.name == "a" and kind == books.WORD:
        return f"words are numbered from 0, and the book has {counts['word']}"
    if field.name == "a" and kind in books.TAKES_NONTERMINAL:
        return f"nonterminals are numbered from 0, and the book has {counts['nonterminal']}"
    return f"a step of kind {kind} doesn't use it, so it has to be 0"


def _spelling(data, field):
    size = field.value
    spelling = data[field.place + 1 : field.place + 1 + size].decode("latin-1")
    shape = "a spelling is a letter or underscore, then letters, digits or underscores, 1 to 15 in all"
    return f"{spelling!r} can't be spelled so: {shape}" if size else f"it is empty: {shape}"


def reason(refusal, place, data):
    """The refusal in a sentence."""
    field = books.field_at(data, place)
    if refusal == Refusal.BYTES_LEFT_OVER:
        left = len(data) - place
        return f"behind the book's end {left} byte{' is' if left == 1 else 's are'} left over"
    if refusal == Refusal.BOOK_ENDS_EARLY:
        return f"the book ends too early: {_called(field)} is missing"
    if refusal == Refusal.BAD_PASSING:
        return f"variant {field.record} is passing, and then it has to be one nonterminal and nothing else"
    said = f"{_called(field)} is {field.value}"
    if refusal == Refusal.BAD_COUNT:
        return f"{said}: {_count(data, field)}"
    if refusal == Refusal.BAD_SPELLING:
        return f"{field.section} {field.record}: {_spelling(data, field)}"
    if field.name in OF_BINDER and _is_of_binder(data, field):
        return f"{said}: in a nonterminal of mark 3 it has to be {OF_BINDER[field.name]}"
    if field.name == "associativity" and field.value <= books.BOTH:
        associativity = books.ASSOCIATIVITIES[field.value]
        return f"level 255 goes with both alone, and variant {field.record} has {associativity} with it"
    if field.section == "step" and field.name != "kind":
        return f"{said}: {_step(data, field)}"
    return f"{said}: it has to be {FIELDS[field.section, field.name][1]}"


def _of_binder(field):
    """What is wrong in a nonterminal that declares names, in the terms of the notation."""
    if field.name in ("level", "associativity"):
        return "a nonterminal that (declares names) has no level"
    if field.name == "flags":
        return "a nonterminal that (declares names) is neither passing nor uncommitted"
    return f"a nonterminal that (declares names) has one variant, of one step: {BINDER_EXAMPLE}"


def in_notation(refusal, field, view):
    """The refusal in the terms of the notation, which makes no other wrong fields than these."""
    if refusal == Refusal.BAD_COUNT:
        return f"a book has {COUNTS.get(field.section, f'at most {books.MOST_VARIANTS}')} {field.section}s"
    if refusal == Refusal.BAD_SPELLING:
        return _spelling(view.data, field)
    if refusal == Refusal.BAD_PASSING:
        return "a passing variant is one nonterminal and nothing else"
    if field.name in (*OF_BINDER, "variants") and _is_of_binder(view.data, field):
        return _of_binder(field)
    if field.name == "associativity":
        return "255 is the level of variants that are no operators; an operator's is at most 254"
    if field.name == "variants":
        plain = f"a nonterminal has at most {books.VARIANTS_EACH} variants"
        return plain if field.value > books.VARIANTS_EACH else "a nonterminal that is (identifier) has no variants"
    if field.name == "steps":
        return f"a variant has at most {books.STEPS_EACH} steps"
    if field.section == "step" and field.name == "kind":
        return "such a step stands alone in a nonterminal, which has (declares names) behind its name"
    return KINDS if field.name == "kind" else _step(view.data, field)


def explained(refusal, place, view, file):
    """The refusal with the byte, or with the line of the notation that made it."""
    number = f" (refusal {refusal.value})"
    if view.source is None:
        why = reason(refusal, place, view.data) + number
        return f"{file}: byte {place}: {why}\n{around(view.data, place)}{_text_after_all(view.data)}"
    field = books.field_at(view.data, place)
    why = in_notation(refusal, field, view) + number
    if refusal == Refusal.BAD_PASSING:  # its place is the variant's first byte
        field = books.field_at(view.data, place + 2)
    return shown(view.source.text, view.source.span(field), why, file)


def _text_after_all(data):
    """A remark on bytes that were meant as text: the notation, or with a control character that text has not."""
    if data and is_text(data):
        return "\nThe book looks like text: it has to be encoded first."
    printable = sum(32 <= byte < 127 or byte in b"\t\n\r" for byte in data)
    if b"\n" not in data or printable < 0.8 * len(data):
        return ""
    place = next(i for i, byte in enumerate(data) if byte < 32 and byte not in b"\t\n\r")
    line = data.count(b"\n", 0, place) + 1
    return f"\nThe file looks like text, but line {line} has a control character, so it was taken for bytes."


def around(data, place):
    """A picture of the bytes around a place."""
    start = max(0, place - 8)
    row = [f"{byte:02X}" for byte in data[start : place + 8]]
    return f"    {' '.join(row)}\n    {'   ' * (place - start)}^^"
