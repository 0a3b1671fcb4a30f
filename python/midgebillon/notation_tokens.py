"""The notation's tokens, and problems with a part of its text."""
import difflib
import re
from dataclasses import dataclass

from .picture import line_and_column, picture

LARGEST_BYTE = 255


@dataclass(frozen=True)
class Span:
    """A part of the text, from a character to behind another."""

    start: int
    end: int


@dataclass(frozen=True)
class Problem:
    span: Span
    message: str


class NotationError(Exception):
    """A text that is no book in the notation: what is wrong, and where."""

    def __init__(self, text, problems):
        self.text, self.problems = text, sorted(problems, key=lambda problem: problem.span.start)
        super().__init__(self.shown("book"))

    def places(self):
        """Each problem's line, column and message."""
        starts = [len(self.text[: problem.span.start].encode()) for problem in self.problems]
        data = self.text.encode()
        return [(*line_and_column(data, start), p.message) for start, p in zip(starts, self.problems)]

    def shown(self, file):
        """All problems, with pictures of their places in the file."""
        return "\n".join(shown(self.text, p.span, p.message, file) for p in self.problems)


def shown(text, span, message, file):
    """A message with the place it is about, and a picture of it."""
    data, start = text.encode(), len(text[: span.start].encode())
    line, column = line_and_column(data, start)
    return f"{file}:{line}:{column}: {message}\n" + picture(data, start, len(text[: span.end].encode()))


@dataclass(frozen=True)
class Token:
    sort: str
    text: str
    span: Span


TOKEN = re.compile(
    r"""(?P<space>\s+) | (?P<comment>\#.*) | (?P<character>'.') | (?P<several>'[^']*'?) | (?P<word>"[^"]*"?)
    | (?P<name>[A-Za-z_](?:-?[A-Za-z0-9_])*) | (?P<number>[0-9]+) | (?P<sign>,\*|.)""",
    re.VERBOSE,
)


def tokens_of(line, offset):
    """The tokens of a line, without spaces, and its comment."""
    found, comment = [], ""
    for m in TOKEN.finditer(line):
        if m.lastgroup == "comment":
            comment = m.group().lstrip("#").strip()
        elif m.lastgroup != "space":
            found.append(Token(m.lastgroup, m.group(), Span(offset + m.start(), offset + m.end())))
    return found, comment


class Wrong(Exception):
    """A problem that ends the reading of one line."""

    def __init__(self, span, message):
        super().__init__(message)
        self.problem = Problem(span, message)


def near(name, names):
    """Did you mean .., in whatever case."""
    by_case = {each.lower(): each for each in names}
    close = difflib.get_close_matches(name.lower(), by_case, 1)
    return f"; did you mean {by_case[close[0]]}?" if close else ""


def byte(token, what, most=LARGEST_BYTE):
    """A token's number, which must be one of a byte. The most that is told may be less: the reader checks that."""
    if token.sort != "number":
        raise Wrong(token.span, f"{what} is a number")
    digits = token.text.lstrip("0") or "0"
    if len(digits) > 3 or int(digits) > LARGEST_BYTE:
        raise Wrong(token.span, f"{what} is at most {most}")
    return int(digits)


class Line:
    """The tokens of a line, taken one by one."""

    def __init__(self, tokens, end):
        self.tokens, self.end, self.place = tokens, Span(end, end), 0

    def next(self):
        return self.tokens[self.place] if self.place < len(self.tokens) else None

    def is_next(self, text):
        token = self.next()
        return token is not None and token.sort in ("sign", "name") and token.text == text

    def take(self):
        token = self.next()
        self.place += 1
        return token

    def take_if(self, text):
        return self.take() if self.is_next(text) else None

    def here(self):
        token = self.next()
        return token.span if token else self.end

    def number(self, what, most=LARGEST_BYTE):
        if self.next() is None:
            raise Wrong(self.end, f"{what} is missing: a number")
        return byte(self.take(), what, most)
