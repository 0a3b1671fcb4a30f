"""The list of the crate layer_cases: books, and what documents 01 and 02 d make of each.

The books are the boundaries below, whose refusals were written down by hand, and then each book of files of vectors,
once. The fields of an accepted book are taken straight from its bytes; nothing is checked.

A case is: the book's length (two bytes, the high one first) and bytes; the refusal's number, 0 for none, and its place
(two bytes); then, for an accepted book, five sections of a count and records: words and names (label, length, bytes),
nonterminals (mark, first variant, number of variants), variants (level, associativity, committed, passing, first step,
number of steps), steps (kind, a, b, c).
"""
from cases.books import BINDER, BOTH, COMMITTED, IDENTIFIER, NONTERMINAL, PASSING, book, sections, word
from cases.vectors import PLACE, REFUSAL

IDENTIFIER_STEP = (IDENTIFIER, 0, 0, 0)
NONTERMINAL_STEP = (NONTERMINAL, 0, 0, 0)
BINDER_VARIANT = (255, BOTH, COMMITTED, 1)
BINDER_STEP = (BINDER, 0, 60, 62)
CALL_REFUSALS = 1, 2  # in which the book isn't looked at
BOOK_REFUSALS = range(3, 9)


def with_first(records):
    """Each record with the number of the first of those that it counts, in its last byte, in the next section."""
    first = 0
    for record in records:
        yield record, first
        first += record[-1]


def fields(content):
    """The five sections of an accepted book, in the form described above."""
    words, names, nonterminals, variants, steps = sections(content)
    nonterminals = [bytes([mark, first, count]) for (mark, count), first in with_first(nonterminals)]
    variants = [
        bytes([level, associativity, flags % PASSING, flags // PASSING, first, count])
        for (level, associativity, flags, count), first in with_first(variants)
    ]
    made = words, names, nonterminals, variants, steps
    return b"".join(bytes([len(records)]) + b"".join(records) for records in made)


def case(content, refusal, place):
    made = len(content).to_bytes(2, "big") + content + bytes([refusal]) + place.to_bytes(2, "big")
    return made if refusal else made + fields(content)


def from_vectors(vectors):
    """Each book once, with its refusal and place."""
    seen = set()
    for _, vector in vectors:
        refusal, place = vector["answer"][REFUSAL], vector["answer"][PLACE]
        if refusal in CALL_REFUSALS or vector["book"] in seen:
            continue
        seen.add(vector["book"])
        refused = (refusal, place) if refusal in BOOK_REFUSALS else (0, 0)
        yield bytes.fromhex(vector["book"]), *refused


def cases(vectors):
    return [case(*found) for found in [*boundaries(), *from_vectors(vectors)]]


def one(step, words=(), flags=COMMITTED):
    """A book with one variant of one step."""
    return book(words, (), ((0, 1),), ((255, BOTH, flags, 1),), (step,))


def binder(variant=BINDER_VARIANT, step=BINDER_STEP):
    """A book with one nonterminal, a binder with this variant and this step."""
    return book(nonterminals=((3, 1),), variants=(variant,), steps=(step,))


def changed(record, i, byte):
    return record[:i] + (byte,) + record[i + 1 :]


def boundaries():
    """(book, refusal, place), 0 0 for an accepted one."""
    yield b"", 3, 0
    # counts
    yield bytes([64]) + word(b"a") * 64 + bytes.fromhex("00 01 00 00 00 00"), 0, 0
    yield bytes([65]) + word(b"a") * 65 + bytes.fromhex("00 01 00 00 00 00"), 4, 0
    yield bytes([0, 64]) + word(b"a") * 64 + bytes.fromhex("01 00 00 00 00"), 0, 0
    yield bytes([0, 65]) + word(b"a") * 65 + bytes.fromhex("01 00 00 00 00"), 4, 1
    yield book(nonterminals=()), 4, 2
    yield book(nonterminals=((0, 0),) * 32), 0, 0
    yield book(nonterminals=((0, 0),) * 33), 4, 2
    yield book(nonterminals=((0, 16),) * 8, variants=((0, 0, 0, 0),) * 128), 0, 0
    yield book(nonterminals=((0, 16),) * 8 + ((0, 1),), variants=((0, 0, 0, 0),) * 129), 4, 21
    yield book(nonterminals=((0, 16),) * 8 + ((0, 1),), variants=((0, 0, 0, 0),) * 128), 4, 21
    yield book(nonterminals=((0, 1),)), 4, 5
    yield book(nonterminals=((0, 1),), variants=((0, 0, 0, 0),) * 2), 4, 5
    full = ((0, 0, 0, 8),) * 31
    yield book(nonterminals=((0, 16),) * 2, variants=full + ((0, 0, 0, 7),), steps=(IDENTIFIER_STEP,) * 255), 0, 0
    yield book(nonterminals=((0, 16),) * 2, variants=full + ((0, 0, 0, 8),), steps=(IDENTIFIER_STEP,) * 255), 4, 136
    yield book(nonterminals=((0, 16),) * 2, variants=full + ((0, 0, 0, 8),)), 4, 136
    yield book(nonterminals=((0, 1),), variants=((0, 0, 0, 1),)), 4, 10
    # spellings
    for label, head in ((1, b"\x01"), (7, b"\x00\x01")):
        at = len(head) + 1
        tail = bytes.fromhex("00 01 00 00 00 00")[len(head) - 1 :]
        yield head + word(b"") + tail, 5, at
        yield head + word(b"a", label) + tail, 0, 0
        yield head + word(b"a" * 15, label) + tail, 0, 0
        yield head + word(b"a" * 16, label) + tail, 5, at
        yield head + word(b"a", label + 1) + tail, 6, at - 1
        yield head + word(b"_Zz09") + tail, 0, 0
        for bad in (b"0a", b"a-", b" a", b"ab\xe9", b"a\x00b"):
            yield head + word(bad) + tail, 5, at
        yield head + b"\x00", 3, at
        yield head + b"\x00\x02", 3, at + 1
        yield head + b"\x00\x02a", 3, at + 2
        yield head + b"\x00\x021", 5, at
        yield head + b"\x00\x03a-", 5, at
        yield head, 3, at - 1
    # nonterminals
    for n in range(4):
        yield bytes.fromhex("00 00 01 00 00 00")[: 2 + n], 3, 2 + n
    yield book(nonterminals=((4, 0),)), 6, 3
    yield book(nonterminals=((1, 0),)), 0, 0
    yield book(nonterminals=((2, 0),)), 0, 0
    yield book(nonterminals=((2, 1),), variants=((0, 0, 0, 0),)), 6, 4
    yield book(nonterminals=((0, 16),), variants=((0, 0, 0, 0),) * 16), 0, 0
    yield book(nonterminals=((1, 17),), variants=((0, 0, 0, 0),) * 17), 6, 4
    # variants
    for a in range(5):
        yield book(nonterminals=((0, 1),), variants=((255, a, 0, 0),)), 0 if a == 3 else 6, 0 if a == 3 else 7
        yield book(nonterminals=((0, 1),), variants=((254, a, 0, 0),)), 0 if a < 4 else 6, 0 if a < 4 else 7
    yield book(nonterminals=((0, 1),), variants=((0, 0, 1, 0),)), 0, 0
    yield book(nonterminals=((0, 1),), variants=((0, 0, 4, 0),)), 6, 8
    yield book(nonterminals=((0, 1),), variants=((0, 0, 0, 8),), steps=(IDENTIFIER_STEP,) * 8), 0, 0
    yield book(nonterminals=((0, 1),), variants=((0, 0, 0, 9),), steps=(IDENTIFIER_STEP,) * 9), 6, 9
    yield from binders()
    # steps: the step's first byte stands at 11
    for a, good in ((32, 0), (33, 1), (126, 1), (127, 0)):
        yield one((0, a, 0, 0)), 0 if good else 6, 0 if good else 12
        for kind in (12, 13):
            yield one((kind, 0, a, 40)), 0 if good else 6, 0 if good else 13
            yield one((kind, 0, 40, a)), 0 if good else 6, 0 if good else 14
    yield one((1, 0, 0, 0)), 6, 12
    yield one((1, 0, 0, 0), (word(b"a"),)), 0, 0
    yield one((1, 1, 0, 0), (word(b"a"),)), 6, 15
    yield one((5, 7, 0, 0)), 0, 0
    yield one((5, 8, 0, 0)), 6, 12
    for kind in (2, 3, 4, 6, 7):
        yield one((kind, 0, 0, 0)), 0, 0
        yield one((kind, 1, 0, 0)), 6, 12
    for kind in (8, 9, 10, 11):
        yield one((kind, 0, 0, 0)), 0, 0
        yield one((kind, 1, 0, 0)), 6, 12
    for kind in range(12):
        a = 33 if kind == 0 else 0
        yield one((kind, a, 1, 0), (word(b"a"),)), 6, 16
        yield one((kind, a, 0, 1), (word(b"a"),)), 6, 17
    yield one((12, 1, 40, 41)), 6, 12
    yield one((14, 0, 0, 0)), 6, 11
    yield one((255, 0, 0, 0)), 6, 11
    for n in range(5):
        whole = one(IDENTIFIER_STEP)
        yield whole[: 11 + n], 3 if n < 4 else 0, 11 + n if n < 4 else 0
    # passing variants
    for flags in (2, 3):
        yield one(NONTERMINAL_STEP, (), flags), 0, 0
        yield one((9, 0, 0, 0), (), flags), 7, 6
        yield book(nonterminals=((0, 1),), variants=((0, 0, flags, 0),)), 7, 6
        yield book(nonterminals=((0, 1),), variants=((0, 0, flags, 2),), steps=(NONTERMINAL_STEP,) * 2), 7, 6
    both = NONTERMINAL_STEP, IDENTIFIER_STEP
    yield book(nonterminals=((0, 2),), variants=((0, 0, 0, 1), (0, 0, 2, 1)), steps=both), 7, 10
    yield book(nonterminals=((0, 2),), variants=((0, 0, 2, 1), (0, 0, 2, 1)), steps=(IDENTIFIER_STEP,) * 2), 7, 6
    # 7 before 8, and after every step
    yield one(IDENTIFIER_STEP, (), 2) + b"\x00", 7, 6
    yield book(nonterminals=((0, 1),), variants=((0, 0, 2, 1),), steps=((2, 0, 0, 1),)), 6, 14
    yield book(nonterminals=((0, 0),), rest=b"\x00"), 8, 7
    yield one(IDENTIFIER_STEP) + b"\xff\xff", 8, 15
    # the largest book
    names = tuple(word(b"a" * 14 + bytes([97 + i % 26]), i % 8) for i in range(64))
    words = tuple(word(b"b" * 14 + bytes([65 + i % 26]), i % 2) for i in range(64))
    sizes = ((0, 0, 1, 2),) * 127 + ((0, 0, 1, 1),)
    largest = book(words, names, ((0, 4),) * 32, sizes, ((12, 31, 126, 33),) * 255)
    assert len(largest) == 3777
    yield largest, 0, 0
    yield largest + b"\x00", 8, 3777
    yield largest[:-1], 3, 3776


def binders():
    """The like, of books with a nonterminal of mark 3 or a step of kind 14."""
    yield binder(), 0, 0
    for n in range(4, 15):
        yield binder()[:n], 3, n
    # its number of variants, before a missing byte too
    for n in (0, 2, 16):
        yield book(nonterminals=((3, n),), variants=(BINDER_VARIANT,) * n, steps=(BINDER_STEP,) * n), 6, 4
        yield bytes([0, 0, 1, 3, n]), 6, 4
    # its variant: 255, 3, 1, 1 from 6 on; flags of a passing variant are 6, too
    for i, bad in enumerate(((0, 254), (0, 2, 4), (0, 2, 3, 4), (0, 2, 8))):
        for byte in bad:
            yield binder(changed(BINDER_VARIANT, i, byte)), 6, 6 + i
    # its step, from 11 on
    for kind in (*range(14), 15, 255):
        yield binder(step=(kind, 0, 60, 62)), 6, 11
        yield binder(step=(kind, 0, 0, 0)), 6, 11
    yield binder(step=(BINDER, 1, 60, 62)), 6, 12
    for i in (2, 3):
        for byte in (33, 126):
            yield binder(step=changed(BINDER_STEP, i, byte)), 0, 0
        for byte in (0, 32, 127):
            yield binder(step=changed(BINDER_STEP, i, byte)), 6, 11 + i
    # kind 14 of another nonterminal's step: alone, before a binder's and behind it
    for mark in (0, 1):
        yield book(nonterminals=((mark, 1),), variants=(BINDER_VARIANT,), steps=(BINDER_STEP,)), 6, 11
        for nonterminals, at in ((((mark, 1), (3, 1)), 17), (((3, 1), (mark, 1)), 21)):
            yield book(nonterminals=nonterminals, variants=(BINDER_VARIANT,) * 2, steps=(BINDER_STEP,) * 2), 6, at
    yield book(nonterminals=((0, 1),), variants=((0, 0, 0, 2),), steps=(IDENTIFIER_STEP, BINDER_STEP)), 6, 15
    # a binder behind and before others, whose variants and steps are as free as ever
    mixed = (0, 0), (3, 1), (1, 2), (2, 0), (3, 1), (0, 1)
    variants = BINDER_VARIANT, (0, 0, 0, 0), (7, 2, 1, 3), BINDER_VARIANT, (254, 1, 2, 1)
    steps = (BINDER, 5, 40, 41), *(IDENTIFIER_STEP,) * 3, (BINDER, 1, 91, 91), (NONTERMINAL, 4, 0, 0)
    yield book(nonterminals=mixed, variants=variants, steps=steps), 0, 0
    for i, at in ((0, 16), (3, 28)):
        yield book(nonterminals=mixed, variants=changed(variants, i, (254, 3, 1, 1)), steps=steps), 6, at
    for i in (0, 4):
        yield book(nonterminals=mixed, variants=variants, steps=changed(steps, i, NONTERMINAL_STEP)), 6, 37 + 4 * i
    for i in (1, 2, 3, 5):
        yield book(nonterminals=mixed, variants=variants, steps=changed(steps, i, BINDER_STEP)), 6, 37 + 4 * i
    # 7 of a variant beside a binder's
    yield book(nonterminals=mixed, variants=variants, steps=changed(steps, 5, (9, 4, 0, 0))), 7, 32
    # as many binders as there may be
    most = book(nonterminals=((3, 1),) * 32, variants=(BINDER_VARIANT,) * 32, steps=((BINDER, 31, 33, 126),) * 32)
    yield most, 0, 0
    yield most + b"\x00", 8, len(most)
