"""A text read by a book, through the library."""
from array import array
from dataclasses import dataclass
from typing import NamedTuple

from . import book as books
from .library import as_bytes, loaded
from .refusal import Error, ErrorKind, Refusal
from .tree import Tree, trees

MOST_WORK = 1_000_000
PARSE_SIZE = 4
SHORTEST_ROOM = 256


class Answer(NamedTuple):
    """The seven numbers of document 01, "The answer"."""

    refusal: int
    place: int
    kind: int
    argument: int
    work: int
    parses: int
    value: int


@dataclass(frozen=True)
class Parse:
    """A way to read the text from its beginning up to its rest."""

    rest: int
    level: int
    associativity: books.Associativity
    value: Tree


def skip(text, place):
    """The place behind whitespace and comments, as document 01, "Characters", has it."""
    while place < len(text):
        if text[place] in b"\t\n\v\f\r ":
            place += 1
        elif text[place : place + 2] == b"//":
            place = text.find(b"\n", place) + 1 or len(text)
        else:
            break
    return place


def last_end(text):
    """The place behind the last byte that isn't skipped."""
    place, end = skip(text, 0), 0
    while place < len(text):
        end = place + 1
        place = skip(text, end)
    return end


class Reading:
    """What a call answers. `value` is a tree of midgebillon.tree, or None; then `refusal` says why, `error` what was
    wanted in refusal 30 (`midgebillon.explain` has all of it in words). `parses` are all ways to read the text from its
    beginning; `answer` has the seven numbers, and `cells` the list, as docs/READING.md tells them."""

    def __init__(self, book, text, answer, cells, parses, start=0, allowance=MOST_WORK):
        self.book, self.text, self.answer = book, text, Answer(*answer)
        self.cells, self.start, self.allowance = array("I", cells), start, allowance
        self._parses = array("I", parses)
        self.refusal = Refusal(self.answer.refusal) if self.answer.refusal else None
        self.error = None
        if self.refusal == Refusal.NO_PARSE:
            self.error = Error(self.answer.place, ErrorKind(self.answer.kind), self.answer.argument)
        self.value, self.parses = None, []
        if self.answer.parses:
            self._make_trees()

    def _make_trees(self):
        made = trees(self.cells, self.text, books.decode(self.book).names)
        numbers = self._parses[: PARSE_SIZE * self.answer.parses]
        for i in range(0, len(numbers), PARSE_SIZE):
            rest, level, associativity, cell = numbers[i : i + PARSE_SIZE]
            self.parses.append(Parse(rest, level, books.Associativity(associativity), made[cell]))
        if self.refusal is None:
            self.value = made[self.answer.value]

    def is_whole(self, parse):
        """Whether nothing but skipped text follows a parse."""
        return skip(self.text, parse.rest) == len(self.text)

    @property
    def whole_values(self):
        """The different values of whole parses, in the order in which they were found."""
        values = []
        for parse in self.parses:
            if self.is_whole(parse) and not any(parse.value is value for value in values):
                values.append(parse.value)
        return values

    def line(self, most=1 << 20):
        """Document 01's line with its line feed, or None where it has more than `most` bytes. The room grows from small
        on, since a value can be far longer than its text."""
        room = min(most, SHORTEST_ROOM)
        while True:
            line = loaded().line(self.book, self.text, self.cells, self.answer, room)
            if line is not None or room == most:
                return line
            room = min(most, 2 * room)


def read(book, text, start=0, allowance=MOST_WORK):
    """Reads a text by a book, both in bytes (or a book as `from_text` or `view` gives it), from a nonterminal by its
    number."""
    book = as_bytes("book", getattr(book, "data", book))
    text = as_bytes("text", text)
    answer, cells, parses = loaded().read(book, text, start, allowance)
    return Reading(book, text, answer, cells, parses, start, allowance)


def furthest(errors):
    """The furthest of some errors; of those at its place that of least kind, then of least argument. None of none."""
    found = loaded().furthest([(e.place, e.kind, e.argument) for e in errors])
    return Error(found[0], ErrorKind(found[1]), found[2]) if found else None


def check(book):
    """The refusal of a book and its place, or None where it is accepted: a call on an empty text, with one unit."""
    answer = Answer(*loaded().read(as_bytes("book", getattr(book, "data", book)), b"", 0, 1)[0])
    refusal = Refusal(answer.refusal) if answer.refusal else None
    return (refusal, answer.place) if refusal and refusal.of_book else None
