"""The margin rule reader for Python: reads a rule's text by a rule book.

    >>> import midgebillon
    >>> source = midgebillon.from_text('''
    ... expression
    ...   | number
    ...   | expression '-' expression ; left 1
    ... ''')
    >>> reading = midgebillon.read(source, b"5 - 3 - 1")
    >>> print(reading.value)
    (1 (1 (0 5) (0 3)) (0 1))
    >>> minus, fives = reading.value, reading.value.items[0].items[0]
    >>> minus.number, fives
    (1, Variant(number=0, items=(Number(value=5),)))

A refusal has a number and a name; an explanation has its place and what was wanted there:

    >>> reading = midgebillon.read(source, b"5 - x")
    >>> print(reading.refusal)
    refusal 31, none whole
    >>> print(midgebillon.explain(reading, source))
    rule:1:3: the rule is read up to here, and the rest of it is left over (refusal 31)
        5 - x
          ^
    Read so far: 5, as the value (0 5)
    If the rule is meant to go on, the steps of the book fit up to here:
    rule:1:5: wanted here: expression
        5 - x
            ^
    expression begins with a number

The reading itself is the library's, which is proved; this package, with the notation for books and all explanations, is
not. Where the library was built without its proofs there is a warning, `NotProved`.
"""
from .book import Associativity, Book, decode, encode
from .explanation import explain
from .library import NoLibrary, NotProved
from .notation import to_text
from .notation_reader import Source, from_text
from .notation_tokens import NotationError
from .reading import MOST_WORK, Answer, Parse, Reading, check, furthest, read
from .refusal import Error, ErrorKind, Refusal
from .tree import Absent, Declared, Identifier, List, Number, Tree, Variable, Variant, printed
from .view import View, view

__version__ = "0.1.0"

__all__ = [
    *("MOST_WORK", "Answer", "Associativity", "Parse", "Reading", "check", "furthest", "read"),
    *("Error", "ErrorKind", "Refusal", "explain"),
    *("Absent", "Declared", "Identifier", "List", "Number", "Tree", "Variable", "Variant", "printed"),
    *("Book", "decode", "encode", "NotationError", "Source", "from_text", "to_text", "View", "view"),
    *("NoLibrary", "NotProved"),
]
