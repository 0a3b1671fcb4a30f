"""Reads a variant's line in the notation: its steps, and what stands behind its semicolon."""
import re

from . import book as books
from .notation import BINDER_EXAMPLE, DECLARED, ENTRIES, NOT_FOR_NONTERMINALS, PLAIN_STEPS, SUFFIXES
from .notation_tokens import Problem, Span, Token, Wrong, near

IDENTIFIER = re.compile(r"[A-Za-z_][A-Za-z0-9_]*")
QUOTES = "\u2018\u2019\u201a\u201c\u201d\u201e`\u00b4"
ATTRIBUTES = (*books.ASSOCIATIVITIES, "passing", "uncommitted")


class Steps:
    """Reads the steps of a variant's line."""

    def __init__(self, words, starting, names, problems):
        self.words, self.names, self.problems = words, names, problems
        self.starting = {name.spelling: name.label for name in starting}

    def step(self, line):
        """A step, and the spans of its four bytes."""
        token = line.take()
        if token.sort == "character":
            self._no_suffix(token, line)
            return self._simple(books.CHARACTER, token, self._code(token))
        if token.sort == "word":
            self._no_suffix(token, line)
            return self._simple(books.WORD, token, self._word(token, line))
        if token.sort == "name":
            return self._named(token, line)
        if token.text == "!":
            return self._refusing(token, line)
        if token.text == "(":
            return self._delimited(token, line)
        raise Wrong(token.span, self._no_step(token))

    @staticmethod
    def _simple(kind, token, a=0):
        return books.Step(kind, a), [token.span] * 4

    @staticmethod
    def _code(token):
        if ord(token.text[1]) > 127:
            raise Wrong(token.span, "a character of a rule is one of ASCII, 33 to 126")
        return ord(token.text[1])

    def _word(self, token, line):
        spelling = token.text[1:-1]
        numbers = [i for i, word in enumerate(self.words) if word.spelling == spelling]
        if not numbers or len(token.text) < 2 or token.text[-1] != '"':
            return self._wrong(token.span, self._no_word(token))
        if not line.take_if(":"):
            return numbers[0]
        at, number = line.here(), line.number("the number of a word")
        if number not in numbers:
            raise Wrong(at, f"word {number} isn't spelled {spelling}: that one has number {numbers[0]}")
        return number

    def _no_word(self, token):
        spelling = token.text[1:-1]
        if len(token.text) < 2 or token.text[-1] != '"':
            return "the quotation mark that ends the word is missing"
        if len(spelling) == 1 and not IDENTIFIER.fullmatch(spelling):
            return f"a character stands between apostrophes: '{spelling}'"
        if not IDENTIFIER.fullmatch(spelling):
            return f"no word can be spelled so; characters stand between apostrophes: {_characters(spelling)}"
        declare = f": put a line `words {spelling}` before the nonterminals"
        return f"{spelling} is no word of this book{near(spelling, [w.spelling for w in self.words]) or declare}"

    def _named(self, token, line):
        plain = next((kind for kind, name in PLAIN_STEPS.items() if name == token.text), None)
        if plain == books.VARIABLE and line.take_if(":"):
            at = line.here()
            kind = line.number("the kind of a variable", books.LAST_KIND)
            return books.Step(books.VARIABLE_OF_KIND, kind), [token.span, at, at, at]
        if plain is not None:
            self._no_suffix(token, line)
            return self._simple(plain, token)
        return books.Step(self._suffix(token, line), self._nonterminal(token)), [token.span] * 4

    @staticmethod
    def _suffix(token, line):
        """The kind of a nonterminal's step, by what stands right behind its name."""
        suffix = line.next()
        if suffix is None or suffix.sort != "sign" or suffix.span.start != token.span.end:
            return books.NONTERMINAL
        if suffix.text == "+":
            raise Wrong(suffix.span, f"no step reads one or more: write {token.text} {token.text}*")
        if suffix.text == ",":
            raise Wrong(suffix.span, f"a list with commas between is written {token.text},*; a comma itself ','")
        kind = next((kind for kind, text in SUFFIXES.items() if text == suffix.text), books.NONTERMINAL)
        if kind != books.NONTERMINAL:
            line.take()
        return kind

    @staticmethod
    def _no_suffix(token, line):
        following = line.next()
        if following and following.text in ("?", "*", ",*", "+") and following.span.start == token.span.end:
            more = "; then x x* is one or more" if following.text == "+" else ""
            message = f"only a nonterminal may have ?, * or ,*: give {token.text} a nonterminal x of its own{more}"
            raise Wrong(following.span, message)

    def _nonterminal(self, token):
        if token.text not in self.names:
            known = [*self.names, *NOT_FOR_NONTERMINALS - set(ENTRIES)]
            close = near(token.text, known) or f'; for the word, write "{token.text}"'
            message = f"{token.text} is no nonterminal of this book{close}"
            if any(word.spelling == token.text for word in self.words):
                message = f'a word stands between quotation marks: "{token.text}"'
            elif token.text.lower() in ATTRIBUTES:
                raise Wrong(token.span, f"a semicolon stands before {token.text.lower()}")
            elif token.text in self.starting:
                kind = self.starting[token.text]
                message = f"{token.text} is a starting name: write variable, or variable:{kind} for those of its kind"
            elif token.text in ("name", "names"):
                message = "a starting name is taken by variable, or variable:1 for those of kind 1; any by identifier"
                message += f"; names that a rule declares are written {BINDER_EXAMPLE}"
            return self._wrong(token.span, message)
        return self.names.index(token.text)

    def _wrong(self, span, message):
        """A problem that doesn't end the line."""
        self.problems.append(Problem(span, message))
        return 0

    def _refusing(self, token, line):
        following = line.take()
        text = "!" + (following.text if following else "")
        kind = next((kind for kind, name in PLAIN_STEPS.items() if name == text), None)
        if kind is None:
            raise Wrong(token.span, "behind ! stands variable or reserved")
        return self._simple(kind, Token("sign", text, Span(token.span.start, following.span.end)))

    def _delimited(self, token, line):
        parts = [line.take() for _ in range(5)]
        if [part and (part.sort if part.sort != "sign" else part.text) for part in parts] != [
            "character", "name", ",*", "character", ")",
        ]:
            message = "parentheses hold a list between two characters, as ('[' amount,* ']')"
            declared = any(part and part.text == DECLARED for part in parts)
            other = f"names that a rule declares are written {BINDER_EXAMPLE}"
            raise Wrong(token.span, other if declared else f"{message}; any other group has a nonterminal of its own")
        opening, name, _, closing, end = parts
        codes, spans = [self._code(opening), self._code(closing)], [opening.span, closing.span]
        if name.text == DECLARED:
            body = self._body(line, end)
            whole = Span(token.span.start, body.span.end)
            return books.Step(books.BINDER, self._nonterminal(body), *codes), [whole, body.span, *spans]
        kind = books.OPTIONAL_DELIMITED if line.take_if("?") else books.DELIMITED
        return books.Step(kind, self._nonterminal(name), *codes), [token.span, name.span, *spans]

    def _body(self, line, end):
        """The name of the nonterminal that stands behind declared names, which end with this token."""
        if not line.take_if("?"):
            message = f"a ? stands behind declared names, since a rule may leave them out: {BINDER_EXAMPLE}"
            raise Wrong(end.span, message)
        body = line.next()
        if body is None or body.sort != "name" or body.text in NOT_FOR_NONTERMINALS:
            message = f"behind declared names stands what they are declared for, a nonterminal: {BINDER_EXAMPLE}"
            raise Wrong(line.here(), message)
        line.take()
        at = line.here()
        if self._suffix(body, line) != books.NONTERMINAL:
            message = "declared names are for one nonterminal; a list or an optional has a nonterminal of its own"
            raise Wrong(at, message)
        return body

    @staticmethod
    def _no_step(token):
        if token.sort == "several":
            return _several(token.text)
        if token.text == "|":
            return "each variant has a line of its own"
        if token.text in QUOTES:
            return "this is another character than an apostrophe (') or a quotation mark (\")"
        if token.text in "[{":
            return f"an optional part is a nonterminal with ? behind it, as amount?; the character is '{token.text}'"
        if token.text in "\u03b5\u03bb":
            return "a variant without steps is written empty"
        if token.text in ("?", "*", ",*", "+"):
            return f"{token.text} stands right behind a nonterminal's name; the character is {_characters(token.text)}"
        if token.text.isascii():
            comment = "; a comment begins with #" if token.text == "/" else ""
            return f"a character stands between apostrophes: '{token.text}'{comment}"
        return "no step begins so; a character stands between apostrophes, a word between quotation marks"


def _characters(spelling):
    return " ".join(f"'{c}'" for c in spelling)


def _several(text):
    """What is wrong with apostrophes that don't hold one character."""
    inside = text.strip("'")
    if len(text) < 2 or text[-1] != "'":
        return "the apostrophe behind the character is missing"
    if not inside:
        return "a character is missing between the apostrophes"
    if IDENTIFIER.fullmatch(inside):
        return f'a word stands between quotation marks: "{inside}"'
    if inside[0] == "\\":
        return "a character stands between the apostrophes as it is, without a backslash; spaces are skipped anyway"
    apart = _characters(inside)
    return f"apostrophes hold one character; write {apart}, which reads them with or without spaces between"


def attributes_of(line):
    """Level, associativity and flags behind a variant's steps, and the spans of the three."""
    whole = Span(line.tokens[0].span.start, line.end.start)
    level, associativity, flags, spans = None, books.BOTH, books.COMMITTED, [whole] * 3
    if line.next() is None:
        return (books.DEFAULT_LEVEL, associativity, flags), spans
    line.take()
    if line.next() is None:
        raise Wrong(line.end, "behind ; stands a level, as left 1, or passing or uncommitted")
    while line.next() is not None:
        token = line.take()
        if token.text in books.ASSOCIATIVITIES and level is None:
            at = line.here()
            if line.is_next(","):
                raise Wrong(at, "spaces stand between, no commas")
            level = line.number("the level of an operator", books.DEFAULT_LEVEL - 1)
            associativity, spans[:2] = books.ASSOCIATIVITIES.index(token.text), [at, token.span]
        elif token.text == "passing" and not flags & books.PASSING:
            flags, spans[2] = flags + books.PASSING, token.span
        elif token.text == "uncommitted" and flags & books.COMMITTED:
            flags -= books.COMMITTED
            if not flags & books.PASSING:  # of both, passing is what refusal 7 is about
                spans[2] = token.span
        else:
            raise Wrong(token.span, _no_attribute(token))
    return (books.DEFAULT_LEVEL if level is None else level, associativity, flags), spans


def _no_attribute(token):
    if token.text in ATTRIBUTES:
        return "this is said twice"
    if token.sort == "number":
        return f"a level has its associativity before it: left {token.text}, right, none or both"
    if token.text == ",":
        return "spaces stand between, no commas"
    close = near(token.text, ATTRIBUTES)
    return f"behind ; stands left, right, none or both with a level, passing or uncommitted{close}"
