"""A book as people see it: with the names of its nonterminals, and of variants where the notation has them."""
import re

from . import book as books
from .notation import default_names, is_text, step_text, variant_text
from .library import as_bytes
from .notation_reader import Source, from_text
from .notation_tokens import NotationError, Problem, Span
from .wanted import DECLARATION, NEW_NAME, NO_CHARACTER, Part, variables

SHOWN_NAMES = 6  # of variables, in a sentence


def one_of(things):
    """A list in words: a, b or c."""
    things = list(things)
    return " or ".join([", ".join(things[:-1])] * (len(things) > 1) + things[-1:])


class View:
    """A book in bytes, with names. Where it is written in the notation, `source` has its text."""

    def __init__(self, data, source=None):
        self.data, self.source = data, source
        self._book = None

    @property
    def book(self):
        """The records. The book has to be accepted."""
        if self._book is None:
            self._book = books.decode(self.data)
        return self._book

    @property
    def names(self):
        return self.source.names if self.source else default_names(self.book)

    def label(self, variant):
        """What a variant's comment in the notation calls it, behind a number; or nothing."""
        labels = self.source.labels if self.source else ()
        comment = labels[variant] if variant < len(labels) else ""
        return re.sub(r"^\d+\s*", "", comment).strip()

    def steps(self, variant):
        """A variant's steps, in the notation."""
        return variant_text(self.book.variants[variant], self.book.words, self.names)

    def title(self, variant):
        """A variant by its nonterminal, its number, its name and its steps."""
        label = self.label(variant)
        owner = self.names[self.book.owner(variant)]
        return f"{owner} {variant}{f' ({label})' if label else ''}: {self.steps(variant)}"

    def _variables(self, scope, kind=None):
        """The variables of a scope, or those of a kind, as a remark; what the rule declares comes first."""
        names = [name for name, of in scope.items() if kind in (None, of)]
        names.sort(key=variables(self.book).keys().__contains__)
        listed = names[:SHOWN_NAMES] + ["..."] * (len(names) > SHOWN_NAMES)
        none = " (there is none here)" if self.book.declares else " (the book has none)"
        return f" ({', '.join(listed)})" if names else none

    def terminal(self, terminal, scope):
        """What a terminal takes, in words, where these are the variables."""
        kind, a = terminal.kind, terminal.a
        if kind == books.CHARACTER:
            return f"'{chr(a)}'"
        if kind == books.WORD:
            return f'"{self.book.words[a].spelling}"'
        if kind == books.VARIABLE_OF_KIND:
            return f"a variable of kind {a}{self._variables(scope, a)}"
        if kind == NO_CHARACTER:
            return f"anything but '{chr(a)}'"
        return {
            books.IDENTIFIER: "an identifier",
            books.NUMBER: "a number",
            NEW_NAME: "a name to declare",
            books.VARIABLE: f"a variable{self._variables(scope)}",
            books.NO_VARIABLE: "anything but a variable",
            books.NO_RESERVED: "anything but a reserved word",
        }[kind]

    def part(self, part):
        return "a declared name" if part.kind == DECLARATION else self.names[part.a]

    def symbol(self, symbol, scope):
        return self.part(symbol) if isinstance(symbol, Part) else self.terminal(symbol, scope)

    def begins(self, grammar, part, scope):
        """How a nonterminal or a declared name begins, in words."""
        first, name = [self.terminal(each, scope) for each in grammar.first(part)], self.part(part)
        if part.kind == DECLARATION and not first:
            return f"{name} begins with a word of the book, which has none"
        return f"{name} begins with {one_of(first)}" if first else f"{name} has no variant to read"

    def step(self, step):
        return step_text(step, self.book.words, self.names)


def as_view(book):
    """The view of a view, of a `Source`, or of bytes."""
    if isinstance(book, View):
        return book
    return View(book.data, book) if isinstance(book, Source) else View(book)


def view(data):
    """The view of a book in either form, or of a str in the notation. NotationError where it is text and no book in the
    notation."""
    data = data.encode() if isinstance(data, str) else as_bytes("book", data)
    if not is_text(data):
        return View(data)
    try:
        source = from_text(data.decode("utf-8-sig"))
    except UnicodeDecodeError as error:
        text = data.decode("latin-1")
        message = "this is no UTF-8: save the book as UTF-8 or ASCII"
        raise NotationError(text, [Problem(Span(error.start, error.start + 1), message)]) from None
    return View(source.data, source)
