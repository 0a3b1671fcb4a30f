"""Random books that the reader accepts, of every mark, step and attribute, up to the limits."""
import random

from midgebillon import book as books

LETTERS = "abcXYZ_"


def _spelling(choose):
    return choose.choice(LETTERS) + "".join(choose.choice(LETTERS + "019") for _ in range(choose.randrange(15)))


def _entries(choose, labels, most):
    found = [books.Entry(choose.randrange(labels), _spelling(choose)) for _ in range(choose.randrange(most + 1))]
    return tuple(found + choose.choices(found, k=min(2, most - len(found)))) if found else ()  # some spelled alike


def _character(choose):
    return choose.randrange(33, 127)


def _step(choose, words, nonterminals):
    kind = choose.randrange(books.BINDER)
    if kind == books.CHARACTER:
        return books.Step(kind, _character(choose))
    if kind == books.WORD:
        return books.Step(kind, choose.randrange(words)) if words else books.Step(books.NUMBER)
    if kind == books.VARIABLE_OF_KIND:
        return books.Step(kind, choose.randrange(8))
    if kind in (books.DELIMITED, books.OPTIONAL_DELIMITED):
        return books.Step(kind, choose.randrange(nonterminals), _character(choose), _character(choose))
    return books.Step(kind, choose.randrange(nonterminals) if kind in books.TAKES_NONTERMINAL else 0)


def _variant(choose, words, nonterminals, most_steps):
    level = choose.choice((0, 1, 2, 100, 254, 255))
    associativity = books.BOTH if level == 255 else choose.randrange(4)
    flags, steps = choose.randrange(4), choose.randrange(min(8, most_steps) + 1)
    if flags & books.PASSING and most_steps > 0:
        child = books.Step(books.NONTERMINAL, choose.randrange(nonterminals))
        return books.Variant(level, associativity, flags, (child,))
    flags &= books.COMMITTED
    return books.Variant(level, associativity, flags, tuple(_step(choose, words, nonterminals) for _ in range(steps)))


def _binder(choose, nonterminals):
    step = books.Step(books.BINDER, choose.randrange(nonterminals), _character(choose), _character(choose))
    return books.Variant(books.DEFAULT_LEVEL, books.BOTH, books.COMMITTED, (step,))


def _variants(choose, mark, most, words, nonterminals, most_steps):
    if mark == books.IDENTIFIER_MARK:
        return ()
    if mark == books.BINDER_MARK:
        return (_binder(choose, nonterminals),)
    found = []
    for _ in range(choose.randrange(most + 1)):
        found.append(_variant(choose, words, nonterminals, most_steps))
        most_steps -= len(found[-1].steps)
    return tuple(found)


def random_book(seed):
    """The records of a book; the same for the same seed."""
    choose = random.Random(seed)
    small = choose.random() < 0.7
    words, names = (_entries(choose, labels, 4 if small else 64) for labels in (2, 8))
    count = choose.randint(1, 3 if small else 32)
    nonterminals, variants_left, steps_left = [], 128, 255
    for _ in range(count):
        mark = choose.randrange(4 if variants_left and steps_left else 3)
        most = min(4 if small else 16, variants_left)
        variants = _variants(choose, mark, most, len(words), count, steps_left)
        variants_left -= len(variants)
        steps_left -= sum(len(variant.steps) for variant in variants)
        nonterminals.append(books.Nonterminal(mark, variants))
    return books.Book(words, names, tuple(nonterminals))
