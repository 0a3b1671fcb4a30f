"""Refusals and errors by the names that the reader's own code gives them. docs/READING.md tells what each means."""
from dataclasses import dataclass
from enum import IntEnum


class Refusal(IntEnum):
    """Why a text has no value. Book: 3 to 8; limits: 20 to 23 and 41; the text's end: 30 to 32."""

    SHORT_LISTS = 1
    BAD_ALLOWANCE = 2
    BOOK_ENDS_EARLY = 3
    BAD_COUNT = 4
    BAD_SPELLING = 5
    BAD_FIELD = 6
    BAD_PASSING = 7
    BYTES_LEFT_OVER = 8
    UNKNOWN_START = 9
    LONG_TEXT = 10
    HIGH_BYTE = 11
    NO_UNIT = 20
    TOO_DEEP = 21
    TOO_MANY_PARSES = 22
    TOO_MANY_CELLS = 23
    NO_PARSE = 30
    NONE_WHOLE = 31
    DIFFERENT_VALUES = 32
    TOO_MANY_NAMES = 41

    def __str__(self):
        return f"refusal {self.value}, {self.name.lower().replace('_', ' ')}"

    @property
    def of_book(self):
        return Refusal.BOOK_ENDS_EARLY <= self <= Refusal.BYTES_LEFT_OVER

    @property
    def of_limit(self):
        return Refusal.NO_UNIT <= self <= Refusal.TOO_MANY_CELLS or self == Refusal.TOO_MANY_NAMES


class ErrorKind(IntEnum):
    """What refusal 30 says of the furthest error."""

    CHARACTER_WANTED = 1
    WORD_WANTED = 2
    IDENTIFIER_WANTED = 3
    TEXT_ENDED = 4
    VARIABLE_FOUND = 5
    RESERVED_FOUND = 6
    UNKNOWN_NAME = 7
    WRONG_KIND = 8
    DIGITS_WANTED = 9
    TOO_LARGE = 10
    NONTERMINAL_WANTED = 11
    MORE_WANTED = 12


DECLARED_NAME = 32  # in place of a nonterminal's number, where a declared name was wanted


@dataclass(frozen=True)
class Error:
    """An error of refusal 30. The argument is a character's code, or the number of a word, a kind or a nonterminal."""

    place: int
    kind: ErrorKind
    argument: int
