"""Reads the notation for rule books: text to bytes. docs/BOOK.md has its grammar.

The notation checks only what it needs to make bytes; the reader's own check does the rest, and `Source.span` leads its
places back to the text.
"""
import re
from dataclasses import dataclass

from . import book as books
from .notation import EMPTY, ENTRIES, MARKS, NOT_FOR_NONTERMINALS
from .notation_steps import Steps, attributes_of
from .notation_tokens import LARGEST_BYTE, Line, NotationError, Problem, Span, Token, Wrong, byte, near, tokens_of

ENTRY = re.compile(r"[^\s#]+")
EXAMPLES = {"words": "words kg tonnes", "reserved": "reserved if then", "names": "names price:0 volume:1"}
MOST = {
    "word": books.MOST_WORDS,
    "name": books.MOST_NAMES,
    "nonterminal": books.MOST_NONTERMINALS,
    "variant": books.MOST_VARIANTS,
    "step": books.MOST_STEPS,
}
MOST_VARIANTS = {books.IDENTIFIER_MARK: 0, books.BINDER_MARK: 1}  # of a nonterminal, by its mark


class _Reader:
    """Reads a text line by line: entries and headers at once, and the variants when all names are known."""

    def __init__(self, text):
        self.text, self.problems, self.spans, self.labels = text, [], {}, []
        self.words, self.names, self.headers, self.lines = [], [], [], []
        self.variant_lines = []
        self.beyond_a_byte = set()  # the sections whose count is no byte
        offset = 0
        for line in text.split("\n"):
            self._guarded(self._line, line, offset)
            offset += len(line) + 1
        self._count("nonterminal", [span for _, _, span in self.headers])
        if not self.headers:
            self.problems.append(Problem(Span(len(text), len(text)), "the book has no nonterminal"))

    def _guarded(self, call, *arguments):
        try:
            return call(*arguments)
        except Wrong as wrong:
            self.problems.append(wrong.problem)

    # -- lines
    def _line(self, line, offset):
        entry = ENTRY.match(line, len(line) - len(line.lstrip()))
        if entry and entry.group() in ENTRIES:
            return self._entries(entry.group(), line, offset, entry.end())
        tokens, comment = tokens_of(line, offset)
        if not tokens:
            return
        end = tokens[-1].span.end
        if tokens[0].text == "|":
            if not self.headers:
                raise Wrong(tokens[0].span, "a variant stands below its nonterminal's name")
            self.lines.append((len(self.headers) - 1, Line(tokens, end), comment))
        else:
            self._heading(Line(tokens, end))

    def _entries(self, keyword, line, offset, start):
        if self.headers:
            raise Wrong(Span(offset, offset + start), f"{keyword} stand before the first nonterminal")
        before = ""
        for found in ENTRY.finditer(line.split("#")[0], start):
            if not before.endswith(":"):  # else the problem is told of what stands before
                span = Span(offset + found.start(), offset + found.end())
                self._guarded(self._entry, keyword, found.group(), span)
            before = found.group()
        if not before:
            things = "names" if keyword == "names" else "words"
            raise Wrong(Span(offset + start - len(keyword), offset + start), f"no {things} stand on this line")

    def _entry(self, keyword, text, span):
        if set(text) & set("\"',"):
            raise Wrong(span, f"{keyword} stand without quotation marks and commas, as in `{EXAMPLES[keyword]}`")
        if keyword != "names":
            return self._add("word", self.words, books.Entry(int(keyword == "reserved"), text), span, span)
        spelling, colon, kind = text.partition(":")
        at = Span(span.start + len(spelling) + 1, span.end)
        if not colon or not kind:
            raise Wrong(span, f"a name has its kind, 0 to 7, right behind a colon: {spelling}:0")
        sort = "number" if kind.isascii() and kind.isdecimal() else "other"
        number = byte(Token(sort, kind, at), "the kind of a name", books.LAST_KIND)
        self._add("name", self.names, books.Entry(number, spelling), Span(span.start, at.start - 1), at)

    def _add(self, section, entries, entry, spelling, label):
        if not entry.spelling.isascii() or len(entry.spelling) > LARGEST_BYTE:
            raise Wrong(spelling, "a spelling is a letter or underscore, then letters, digits or underscores")
        number = len(entries)
        entries.append(entry)
        for name in ("reserved", "kind"):
            self.spans[section, number, name] = label
        for name in ("length", "spelling"):
            self.spans[section, number, name] = spelling
        self._count(section, [spelling] * len(entries))

    def _count(self, section, spans):
        """A section's count is wrong at the first record beyond the most, if there is one."""
        most = MOST[section]
        if len(spans) > most:
            self.spans.setdefault((section, None, "count"), spans[most])
        if len(spans) > LARGEST_BYTE and section not in self.beyond_a_byte:
            self.beyond_a_byte.add(section)
            self.problems.append(Problem(spans[LARGEST_BYTE], f"a book has no more than {most} {section}s"))

    def _heading(self, line):
        token = line.take()
        if token.text == "/":
            raise Wrong(token.span, "a comment begins with #")
        if token.text in ENTRIES:
            raise Wrong(token.span, f"behind {token.text} stands a space, as in `{EXAMPLES[token.text]}`")
        if token.sort != "name":
            message = "a line is a nonterminal's name, a variant behind |, or words, reserved or names"
            more = {"<": "; a name has no < >", "%": "; levels stand behind a variant, as in ; left 1"}
            raise Wrong(token.span, message + more.get(token.text, ""))
        if token.text in NOT_FOR_NONTERMINALS:
            message = f"{token.text} can't be a nonterminal's name; if this is a variant, a | is missing before it"
            raise Wrong(token.span, message)
        if any(token.text == name for name, _, _ in self.headers):
            message = f"there is a nonterminal {token.text} already; if this is a variant, a | is missing before it"
            raise Wrong(token.span, message)
        number, span = len(self.headers), token.span
        self.headers.append((token.text, books.PLAIN, span))
        for name in ("mark", "variants"):
            self.spans["nonterminal", number, name] = span
        if line.next() is not None:
            mark = self._mark(line)
            self.headers[number] = (token.text, mark, span)

    @staticmethod
    def _mark(line):
        start = line.here()
        if not line.take_if("("):
            close = near(line.tokens[0].text, ENTRIES)
            message = f"a nonterminal's name stands alone on its line; each of its variants below it, behind |{close}"
            raise Wrong(start, message)
        words = []
        while line.next() is not None and not line.is_next(")"):
            words.append(line.take().text)
        if not line.take_if(")") or line.next() is not None or " ".join(words) not in MARKS[1:]:
            *marks, last = (f"({mark})" for mark in MARKS[1:])
            message = f"behind a nonterminal's name may stand {', '.join(marks)} or {last}"
            raise Wrong(Span(start.start, line.end.start), message)
        return MARKS.index(" ".join(words))

    # -- variants
    def _variant(self, number, line, steps_before, mark):
        """A variant, and the spans of its bytes and of its steps' bytes."""
        line.take()
        reader = Steps(self.words, self.names, [name for name, _, _ in self.headers], self.problems)
        steps = []
        if line.next() is None or line.is_next(";"):
            raise Wrong(line.tokens[0].span, f"a variant without steps is written | {EMPTY}")
        if not line.take_if(EMPTY):
            while line.next() is not None and not line.is_next(";"):
                steps.append(reader.step(line))
        if line.next() is not None and not line.is_next(";"):
            raise Wrong(line.here(), f"behind {EMPTY} stands no step")
        if len(steps) > LARGEST_BYTE:
            raise Wrong(steps[LARGEST_BYTE][1][0], f"a variant has no more than {books.STEPS_EACH} steps")
        (level, associativity, flags), spans = attributes_of(line)
        most = 1 if mark == books.BINDER_MARK else books.STEPS_EACH
        last = steps[min(most, len(steps) - 1)][1][0] if steps else spans[0]
        for name, span in zip(("level", "associativity", "flags", "steps"), (*spans, last)):
            self.spans["variant", number, name] = span
        for i, (_, bytes_of) in enumerate(steps):
            for name, span in zip(("kind", "a", "b", "c"), bytes_of):
                self.spans["step", steps_before + i, name] = span
        return books.Variant(level, associativity, flags, tuple(step for step, _ in steps))

    def read(self):
        """The book. NotationError where there is a problem."""
        groups, number, steps, step_lines = [[] for _ in self.headers], 0, 0, []
        for owner, line, comment in self.lines:
            variant = self._guarded(self._variant, number, line, steps, self.headers[owner][1])
            if variant is None:
                continue
            self.labels.append(comment)
            self.variant_lines.append(line.tokens[0].span)
            groups[owner].append((variant, line.tokens[0].span))
            number, steps = number + 1, steps + len(variant.steps)
            step_lines += [line.tokens[0].span] * len(variant.steps)
        self._count("variant", [span for group in groups for _, span in group])
        self._count("step", step_lines)
        for i, group in enumerate(groups):
            beyond = MOST_VARIANTS.get(self.headers[i][1], books.VARIANTS_EACH)
            if len(group) > beyond:
                self.spans["nonterminal", i, "variants"] = group[beyond][1]
            if len(group) > LARGEST_BYTE:
                message = f"a nonterminal has no more than {books.VARIANTS_EACH} variants"
                self.problems.append(Problem(group[LARGEST_BYTE][1], message))
        if self.problems:
            raise NotationError(self.text, self.problems)
        nonterminals = [
            books.Nonterminal(mark, tuple(v for v, _ in group)) for (_, mark, _), group in zip(self.headers, groups)
        ]
        return books.Book(tuple(self.words), tuple(self.names), tuple(nonterminals))


@dataclass(frozen=True)
class Source:
    """A book in the notation: its bytes, its nonterminals' names, its variants' comments and lines, and the part of the
    text that made each field."""

    text: str
    data: bytes
    names: tuple
    labels: tuple
    lines: tuple
    spans: dict

    def span(self, field):
        """What made a field. A count that no record is too many for is the whole book's."""
        return self.spans.get((field.section, field.record, field.name), Span(0, 0))


def from_text(text):
    """A book in the notation. NotationError where it is none."""
    if not isinstance(text, str):
        raise TypeError(f"the text of a book has to be a str, not {type(text).__name__}")
    reader = _Reader(text)
    book = reader.read()
    names = tuple(name for name, _, _ in reader.headers)
    lines = tuple(reader.variant_lines)
    return Source(text, books.encode(book), names, tuple(reader.labels), lines, reader.spans)
