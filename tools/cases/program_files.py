"""The files of the crate program_cases: books and long texts for the program's worked cases.

example.book is document 01's example book; right, none and both are the same with another associativity of minus.
forms.book has a variant with every form of items. longest.book and longest.txt are as long as an accepted book and text
can be; the longer ones are not accepted. tabs.txt has the greatest column that a text can have.
"""
from cases.books import BOTH, COMMITTED, LEFT, NONE, RIGHT, book, word
from cases.books import CHARACTER, COMMA_LIST, DELIMITED, IDENTIFIER, NONTERMINAL, NUMBER, OPTIONAL, OPTIONAL_DELIMITED
from cases.books import VARIABLE


def character(a):
    return CHARACTER, ord(a), 0, 0


NUMBER_STEP = (NUMBER, 0, 0, 0)
SUM = (NONTERMINAL, 0, 0, 0)


def example(minus):
    """Number; minus; times; parentheses."""
    variants = [(255, BOTH, COMMITTED, 1), (1, minus, COMMITTED, 3), (2, LEFT, COMMITTED, 3), (255, BOTH, COMMITTED, 3)]
    steps = [NUMBER_STEP, SUM, character("-"), SUM, SUM, character("*"), SUM, character("("), SUM, character(")")]
    return book(nonterminals=[(0, 4)], variants=variants, steps=steps)


def forms():
    """Nonterminal 0: identifier, number, variable, child, optional, delimited, optional delimited, comma list.
    Nonterminal 1: number."""
    items = [(IDENTIFIER, 0, 0, 0), NUMBER_STEP, (VARIABLE, 0, 0, 0), (NONTERMINAL, 1, 0, 0), (OPTIONAL, 1, 0, 0)]
    lists = [(DELIMITED, 1, ord("("), ord(")")), (OPTIONAL_DELIMITED, 1, ord("["), ord("]")), (COMMA_LIST, 1, 0, 0)]
    names = [word(b"price", 1), word(b"yield", 2)]
    variants = [(255, BOTH, COMMITTED, 8), (255, BOTH, COMMITTED, 1)]
    return book([word(b"max", 1)], names, [(0, 1), (0, 1)], variants, [*items, *lists, NUMBER_STEP])


def longest():
    """64 words and names of 15 bytes, 32 nonterminals, 128 variants, 255 steps. The first variant is a number, all
    others are two."""
    words = [word(b"w%014d" % i, 1) for i in range(64)]
    names = [word(b"n%014d" % i, 7) for i in range(64)]
    nonterminals = [(0, 16 if i < 8 else 0) for i in range(32)]
    variants = [(255, BOTH, COMMITTED, 1 if i == 0 else 2) for i in range(128)]
    return book(words, names, nonterminals, variants, [NUMBER_STEP] * 255)


def files():
    """The content of each file, by its name."""
    return {
        "example.book": example(LEFT),
        "right.book": example(RIGHT),
        "none.book": example(NONE),
        "both.book": example(BOTH),
        "forms.book": forms(),
        "longest.book": longest(),
        "longer.book": longest() + b"\0",
        "far_longer.book": longest() + b"\xff" * 10000,
        "longest.txt": b"1" + b" " * 4095,
        "longer.txt": b"1" + b" " * 4096,
        "far_longer.txt": b"\x80" * 10000,
        "tabs.txt": b"\t" * 4096,
    }
