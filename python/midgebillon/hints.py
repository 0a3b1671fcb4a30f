"""What stands at a place of a text, and what the steps of the book want there, in words."""
import difflib
import re

from . import book as books
from .reading import last_end
from .view import one_of
from .wanted import DIGITS, NEW_NAME, Grammar, Part, Tokens, variables, wanted

LARGEST_NUMBER = 2**64 - 1
COMMENTS = (b"#", b"/*")  # of other languages
CLOSE = 0.7  # how alike two spellings are for one to be meant
DECIMAL = re.compile(rb"(?<=[0-9])[.,eE][0-9]")
DOLLAR = re.compile(rb"\$[A-Za-z_]")
OF_VARIABLES = {books.VARIABLE, books.VARIABLE_OF_KIND}
OF_NEW_NAMES = {books.IDENTIFIER, NEW_NAME}
OF_NAMES = OF_VARIABLES | OF_NEW_NAMES


def near(word, known):
    """The one that was perhaps meant, in whatever case."""
    by_case = {each.lower(): each for each in sorted(known, reverse=True)}
    close = difflib.get_close_matches(word.lower(), by_case, 1, CLOSE) if word and word not in known else []
    return [f"did you mean {by_case[close[0]]}?"] if close else []


class Hints:
    """Help beside the reader's own words: see wanted.py."""

    def __init__(self, view, text, start):
        self.view, self.text = view, text
        self.tokens, self.grammar = Tokens(view.book, text), Grammar(view.book)
        self.wanted = wanted(view.book, text, start)

    def scope(self, place):
        """The variables at a place, with their kinds."""
        starting = variables(self.view.book)
        return self.wanted.variables.get(place, starting) if self.wanted else starting

    def ends(self, place):
        return "where the text ends" if place == len(self.text) else "here"

    def word(self, place):
        return self.tokens.word(place)

    def remarks(self, place, symbols):
        """Why what stands at a place isn't one of these symbols, where that can be seen."""
        first = [terminal for symbol in symbols for terminal in self.grammar.first(symbol)]
        kinds = {terminal.kind for terminal in first}
        word, digits = self.word(place), DIGITS.match(self.text, place)
        if digits and int(digits.group()) > LARGEST_NUMBER and books.NUMBER in kinds:
            return [f"this number is above {LARGEST_NUMBER}, the greatest"]
        if kinds & OF_NAMES and (known := self._known(place, word)):
            return [f"{word} is {' and '.join(known)}"]
        if self.text.startswith(COMMENTS, place):
            return ["a comment begins with //"]
        if self.text[place : place + 1] in (b"'", b'"') and self.text[place] not in self._characters():
            return ["a rule is written without quotation marks"]
        if DECIMAL.match(self.text, place):
            return ["a number is digits alone, without point or comma"]
        if DOLLAR.match(self.text, place) and ord("$") not in self._characters():
            return ["a name is written without $"]
        return self._no_name(place, word, first, kinds)

    def _known(self, place, word):
        """What a word is, of what may keep it from being read as a name; it may be both."""
        known, scope = ["a reserved word"] if word in self.tokens.reserved else [], self.scope(place)
        if word in scope:
            known.append(f"a variable of kind {scope[word]}")
        return known

    def unknown(self, word):
        """That a word is no variable at its place."""
        if self.wanted and word in self.wanted.anywhere:
            return f"{word} is declared in the rule, but not for this part of it"
        return f"{word} is no name of the book" + ", and not declared in the rule" * self.view.book.declares

    def _characters(self):
        """The codes of all characters that the book's steps take."""
        steps = [step for variant in self.view.book.variants for step in variant.steps]
        return {step.a for step in steps if step.kind == books.CHARACTER}.union(*((s.b, s.c) for s in steps))

    def _no_name(self, place, word, first, kinds):
        """A remark on a word that is no name and no word that is wanted."""
        if not word:
            return ["the rule is empty"] if last_end(self.text) == 0 else []
        words = self.view.book.words
        if word in {each.spelling for each in words}:
            return []
        wanted_words = {words[terminal.a].spelling for terminal in first if terminal.kind == books.WORD}
        unknown = kinds & OF_NAMES and not kinds & OF_NEW_NAMES
        close = near(word, wanted_words | set(self.scope(place) if kinds & OF_NAMES else ()))
        return ([self.unknown(word)] if unknown else []) + close

    def said(self, place, symbols):
        """What would go on at a place, behind a remark on what stands there; but a question comes last."""
        scope = self.scope(place)
        named = one_of(dict.fromkeys(self.view.symbol(symbol, scope) for symbol in symbols))
        remarks = self.remarks(place, symbols)
        asked = [remark for remark in remarks if remark.endswith("?")]
        told = [remark for remark in remarks if remark not in asked]
        return "; ".join([*told, f"wanted {self.ends(place)}: {named}", *asked])

    def begun(self, place, symbols):
        """How the parts among the symbols begin at a place, in lines."""
        parts, scope = [symbol for symbol in symbols if isinstance(symbol, Part)], self.scope(place)
        return [self.view.begins(self.grammar, part, scope) for part in parts]
