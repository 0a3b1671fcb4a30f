"""What a book's steps would take at the furthest place that they reach in a text.

This is help for people, beside the reader and not proved: levels, associativities and claims are left out, so the steps
may reach further than any parse. The reader's own error tells one thing that was wanted, at the furthest place of calls
that failed; in `(1 - x)` that is `)` at the minus, since `1` alone is an expression there. The steps reach `x`.

An Earley parser: an item is a rule's number, how many of its symbols were taken, the place where it began, and the
scopes there and where it is now, which differ behind a declared name alone. A scope is the variables by their spellings
with their kinds; the starting names are scope 0.
"""
import heapq
import re
from typing import NamedTuple

from . import book as books
from .reading import skip

MOST_ITEMS = 150_000  # beyond them no help is given: that is a second or two

IDENTIFIER = re.compile(rb"[A-Za-z_][A-Za-z0-9_]*")
DIGITS = re.compile(rb"[0-9]+")

# Beside the kinds of steps: a place where a character isn't, a name behind the word for its kind, and the parts of a
# binder: behind its opening, from a declared name on, and behind one.
NO_CHARACTER, NEW_NAME, NAMES, DECLARATION, MORE_NAMES = range(books.BINDER + 1, books.BINDER + 6)
NAMED = (books.NONTERMINAL, DECLARATION)  # the parts that people are told as they are, and not by what they begin with
LOOKS = (books.NO_VARIABLE, books.NO_RESERVED, NO_CHARACTER)  # these take nothing


class Terminal(NamedTuple):
    """A step that takes a token, or only looks at it."""

    kind: int
    a: int = 0


class Part(NamedTuple):
    """A nonterminal of the book, or (with another step's kind) what such a step reads of it."""

    kind: int
    a: int
    b: int = 0
    c: int = 0


class Rule(NamedTuple):
    part: Part
    symbols: tuple


COMMA = Terminal(books.CHARACTER, ord(","))


def _symbol(step):
    if step.kind not in books.TAKES_NONTERMINAL:
        return Terminal(step.kind, step.a)
    return Part(step.kind, step.a, step.b, step.c)


class Grammar:
    """A book's variants as rules over terminals and parts. `of` has the numbers of each part's rules."""

    def __init__(self, book):
        self.book, self.rules, self.of = book, [], {}
        self.kinds = list(book.kind_words.values())
        for number in range(len(book.nonterminals)):
            self._add(Part(books.NONTERMINAL, number))
        self.nullable = self._nullables()

    def _add(self, first):
        """Rules for a part and for all that it leads to."""
        todo = [first]
        while todo:
            part = todo.pop()
            if part not in self.of:
                rows = self._rows(part)
                self.of[part] = range(len(self.rules), len(self.rules) + len(rows))
                self.rules += [Rule(part, row) for row in rows]
                todo += [symbol for row in rows for symbol in row if isinstance(symbol, Part)]

    def _rows(self, part):
        """What a part may be: rows of symbols, as document 01, "Derivations", has them."""
        one, commas = Part(books.NONTERMINAL, part.a), Part(books.COMMA_LIST, part.a)
        delimited = (Terminal(books.CHARACTER, part.b), commas, Terminal(books.CHARACTER, part.c))
        if part.kind == books.NONTERMINAL:
            nonterminal = self.book.nonterminals[part.a]
            if nonterminal.mark == books.IDENTIFIER_MARK:
                return [(Terminal(books.IDENTIFIER),)]
            return [tuple(map(_symbol, variant.steps)) for variant in nonterminal.variants]
        if part.kind >= books.BINDER:
            return self._binder_rows(part)
        return {
            books.OPTIONAL: [(), (one,)],
            books.MANY: [(), (one, part)],
            books.COMMA_LIST: [(), (one,), (one, COMMA, commas)],
            books.DELIMITED: [delimited],
            books.OPTIONAL_DELIMITED: [(), delimited],
        }[part.kind]

    def _binder_rows(self, part):
        """The rows of a binder's parts. Each has all that follows it, since a name holds up to the end of the body."""
        names, declaration, more = (part._replace(kind=kind) for kind in (NAMES, DECLARATION, MORE_NAMES))
        body, opening = Part(books.NONTERMINAL, part.a), Terminal(books.CHARACTER, part.b)
        closed = (Terminal(books.CHARACTER, part.c), body)
        return {
            books.BINDER: [(opening._replace(kind=NO_CHARACTER), body), (opening, names)],
            NAMES: [closed, (declaration,)],
            DECLARATION: [(Terminal(books.WORD, kind), Terminal(NEW_NAME, kind), more) for kind in self.kinds],
            MORE_NAMES: [closed, (COMMA, names)],
        }[part.kind]

    def _nullables(self):
        """The parts that may take nothing, by rounds until one adds none."""
        nullable, before = set(), -1
        while len(nullable) > before:
            before = len(nullable)
            takes_nothing = lambda s: s in nullable or isinstance(s, Terminal) and s.kind in LOOKS
            nullable |= {rule.part for rule in self.rules if all(map(takes_nothing, rule.symbols))}
        return nullable

    def takes_nothing(self, symbol):
        """Whether a symbol may."""
        return symbol in self.nullable or isinstance(symbol, Terminal) and symbol.kind in LOOKS

    def begins(self, part):
        """The symbols that a part's rules may begin with, but those that only look."""
        for number in self.of[part]:
            for symbol in self.rules[number].symbols:
                if isinstance(symbol, Part) or symbol.kind not in LOOKS:
                    yield symbol
                if not self.takes_nothing(symbol):
                    break

    def first(self, symbol):
        """The terminals that a symbol may begin with, in the book's order."""
        seen, out, todo = {symbol}, [], [symbol]
        while todo:
            symbol = todo.pop(0)
            if isinstance(symbol, Terminal):
                out.append(symbol)
                continue
            begun = [each for each in dict.fromkeys(self.begins(symbol)) if each not in seen]
            seen.update(begun)
            todo = begun + todo
        return out


def reserved(book):
    return {word.spelling for word in book.words if word.label}


def variables(book):
    """The starting names, reserved or not, with their kinds: of equal ones the last."""
    return {name.spelling: name.label for name in book.names}


class Tokens:
    """Whether a terminal's token stands at a place, and where it ends."""

    def __init__(self, book, text):
        self.book, self.text, self.reserved = book, text, reserved(book)

    def word(self, place):
        """The identifier at a place, or nothing."""
        found = IDENTIFIER.match(self.text, place)
        return found.group().decode() if found else ""

    def end(self, terminal, place, scope):
        """The place behind the token, or None. The place is one behind skipped text."""
        kind, word, character = terminal.kind, self.word(place), self.text[place : place + 1]
        if kind == books.CHARACTER:
            return place + 1 if character == bytes([terminal.a]) else None
        if kind == NO_CHARACTER:
            return None if character == bytes([terminal.a]) else place
        if kind == books.NUMBER:
            digits = DIGITS.match(self.text, place)
            return digits.end() if digits and int(digits.group()) < 2**64 else None
        if kind in LOOKS:
            found = word in self.reserved if kind == books.NO_RESERVED else word in scope
            return None if found else place
        return place + len(word) if word and self._fits(terminal, word, scope) else None

    def _fits(self, terminal, word, scope):
        if terminal.kind == books.WORD:
            return word == self.book.words[terminal.a].spelling
        if terminal.kind in (books.IDENTIFIER, NEW_NAME):
            return word not in self.reserved
        of_its_kind = Terminal(books.VARIABLE_OF_KIND, scope.get(word))
        return word in scope and terminal in (Terminal(books.VARIABLE), of_its_kind)


class Scopes:
    """The scopes of a text by their numbers; equal ones have the same."""

    def __init__(self, book):
        starting = variables(book)
        self.all, self.numbers = [starting], {frozenset(starting.items()): 0}

    def declared(self, number, name, kind):
        """The number of a scope with a name more."""
        scope = {**self.all[number], name: kind}
        found = self.numbers.setdefault(frozenset(scope.items()), len(self.all))
        if found == len(self.all):
            self.all.append(scope)
        return found


class Wanted(NamedTuple):
    """The furthest place that the steps reach, the terminals and named parts that would go on there, and whether the
    steps alone can read the whole text; the variables at each place, and all that are any in the text."""

    place: int
    symbols: tuple
    fits: bool
    variables: dict
    anywhere: dict


class _Chart:
    def __init__(self, book, text, start):
        self.grammar, self.tokens, self.text, self.scopes = Grammar(book), Tokens(book, text), text, Scopes(book)
        self.start, self.first = Part(books.NONTERMINAL, start), skip(text, 0)
        self.items, self.places = {}, []  # the items of each place, and the places that are still to be looked at
        self.waiting = {}  # the items that go on behind a part, by the place, the part and the scope
        self.count = 0

    def add(self, place, item):
        """Whether the item is new there."""
        if place not in self.items:
            self.items[place] = {}
            heapq.heappush(self.places, place)
        if item in self.items[place]:
            return False
        self.items[place][item] = None
        self.count += 1
        return True

    def run(self):
        """Fills the chart place by place. Whether it was finished."""
        self.items[self.first] = {}
        self.begin(self.first, self.start, 0)
        self.places = [self.first]
        while self.places:
            place = heapq.heappop(self.places)
            todo = list(self.items[place])
            while todo:
                if self.count > MOST_ITEMS:
                    return False
                todo += self.step(place, todo.pop())
        return True

    def begin(self, place, part, scope):
        return [item for number in self.grammar.of[part] if self.add(place, item := (number, 0, place, scope, scope))]

    def step(self, place, item):
        """What an item gives at its own place; what it gives further on waits there."""
        number, taken, origin, outer, scope = item
        part, symbols = self.grammar.rules[number]
        if taken == len(symbols):
            return [moved for moved in self.waiting.get((origin, part, outer), ()) if self.add(place, moved)]
        symbol = symbols[taken]
        if isinstance(symbol, Part):
            return self.part(place, symbol, (number, taken + 1, origin, outer, scope))
        end = self.tokens.end(symbol, place, self.scopes.all[scope])
        if end is None:
            return []
        if symbol.kind == NEW_NAME:
            scope = self.scopes.declared(scope, self.tokens.word(place), symbol.a)
        moved = (number, taken + 1, origin, outer, scope)
        behind = place if symbol.kind in LOOKS else skip(self.text, end)
        return [moved] if self.add(behind, moved) and behind == place else []

    def part(self, place, symbol, moved):
        """A part that took nothing before anything waited for it is taken at once."""
        scope = moved[-1]
        self.waiting.setdefault((place, symbol, scope), []).append(moved)
        found = self.begin(place, symbol, scope)
        return found + [moved] if symbol in self.grammar.nullable and self.add(place, moved) else found

    def wanted(self):
        place, symbols = max(self.items), {}
        if place == self.first:
            self.collect(self.start, symbols)
        for number, taken, origin, *_ in self.items[place]:
            rule = self.grammar.rules[number]
            if origin < place and taken < len(rule.symbols):
                self.collect(rule.symbols[taken], symbols)
        whole = any(map(self.is_whole, self.items.get(len(self.text), ())))
        ordered = tuple(sorted(symbols, key=lambda s: (isinstance(s, Terminal), s)))
        at_places = {place: self.joined(self.going_on(place)) for place in self.items}
        return Wanted(place, ordered, whole, at_places, self.joined(range(len(self.scopes.all))))

    def going_on(self, place):
        """The scopes of what may go on at a place, each once."""
        unended = (item for item in self.items[place] if item[1] < len(self.grammar.rules[item[0]].symbols))
        return dict.fromkeys(item[-1] for item in unended)

    def joined(self, numbers):
        """The variables of several scopes."""
        return {name: kind for number in numbers for name, kind in self.scopes.all[number].items()}

    def is_whole(self, item):
        """Whether an item is the start from the text's beginning, taken whole."""
        number, taken, origin, *_ = item
        rule = self.grammar.rules[number]
        return origin == self.first and rule.part == self.start and taken == len(rule.symbols)

    def collect(self, symbol, symbols):
        """The symbol as the book has it: a nonterminal by itself, a list by what it may go on with."""
        if isinstance(symbol, Terminal) or symbol.kind in NAMED:
            symbols[symbol] = None
        else:
            for each in self.grammar.begins(symbol):
                if each != symbol:
                    self.collect(each, symbols)


def wanted(book, text, start):
    """What the steps want at the furthest place, or None where that takes too long."""
    chart = _Chart(book, text, start)
    return chart.wanted() if chart.run() else None
