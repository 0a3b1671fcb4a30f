"""An answer in words: why a text has no value, where, and what to do about it. docs/READING.md has the refusals."""
import itertools
import textwrap
import unicodedata

from . import book as books
from .book_refusal import explained
from .drawing import bracketed, drawing
from .hints import LARGEST_NUMBER, Hints, near
from .notes import growing
from .picture import line_and_column, picture
from .reading import MOST_WORK, last_end, skip
from .refusal import DECLARED_NAME, ErrorKind, Refusal
from .tree import node_count, printed
from .view import as_view
from .wanted import Part, Terminal

LONGEST_VALUE = 200  # of a value in a sentence
SIDE = 60  # columns of a drawing beside another
ABOVE, BELOW = 6, 8  # its lines above and below the place where two part
WIDTH = 100  # columns of a paragraph

# The errors that say what was wanted; the others say what was found.
WANTED = (
    ErrorKind.CHARACTER_WANTED,
    ErrorKind.WORD_WANTED,
    ErrorKind.IDENTIFIER_WANTED,
    ErrorKind.TEXT_ENDED,
    ErrorKind.DIGITS_WANTED,
    ErrorKind.NONTERMINAL_WANTED,
    ErrorKind.MORE_WANTED,
)

LEVELS = (
    "The steps of the book fit the whole rule, but its levels and associativities{claims} forbid it. The greater level"
    " binds tighter; `left` groups to the left, `right` to the right, `none` not at all."
    " The operators of the book:"
)
# What is meant by characters that word processors write.
ASCII = {
    **dict.fromkeys("\u2010\u2011\u2012\u2013\u2014\u2212", "-"),
    **dict.fromkeys("\u00d7\u00b7\u2217\u22c5", "*"),
    **dict.fromkeys("\u00f7\u2215", "/"),
    "\u00a0": "a space",
}
FORBIDDEN = "the levels and associativities of the book forbid what stands here"
CLAIMS = " (or a nonterminal that claims variables)"
MEND = (
    "The book has to say which one is meant: by the level or the associativity of an operator, by a word that is"
    " reserved, by (claims variables) where a name is an identifier, too, or by one variant less."
)
ZEROS = "The text has bytes that are 0: was it saved as UTF-16? A rule is ASCII."
UNKNOWN = "Whether the rule has a value isn't known."
LIMITS = {
    Refusal.NO_UNIT: "the reader gave up: the rule takes more than {units} of work",
    Refusal.TOO_DEEP: "the reader gave up: the rule nests more than 200 levels deep",
    Refusal.TOO_MANY_PARSES: "the reader gave up: it found more than 64 ways to read one part of the rule",
    Refusal.TOO_MANY_CELLS: "the reader gave up: the rule has more than 4,096 different parts",
    Refusal.TOO_MANY_NAMES: "the reader gave up: a part of the rule has more than 64 declared names around it",
}
ADVICE = {
    Refusal.NO_UNIT: "Most often brackets stand in brackets in brackets: in a book whose expressions begin with"
    " expressions each such bracket doubles the work, and so does each operand more of an operator that is right."
    " Write fewer brackets around brackets; brackets beside one another are cheap.",
    Refusal.TOO_DEEP: "Each bracket in a bracket is a level or more, and so is each element of a list. Write fewer"
    " brackets around brackets, or shorter lists.",
    Refusal.TOO_MANY_PARSES: "A row of operands, as in 1-2-3-4, is read from its beginning up to each operand, so a row"
    " has at most 64 operands (a list that nothing follows, 63 elements). Break a longer row by brackets:"
    " (1-2-3)-(4-5-6). If the rule is short, the book reads it in too many ways: try a shorter one, which shows them.",
    Refusal.TOO_MANY_CELLS: "Every different number, name and part counts, those of ways that led nowhere, too. Write"
    " it as two rules.",
    Refusal.TOO_MANY_NAMES: "All names count that are declared for a part and for what is around it, those that are"
    " declared again, too. Declare fewer, or each for the part alone that uses it: beside one another they don't add"
    " up.",
}


def _filled(words):
    return textwrap.fill(words, WIDTH, break_long_words=False)


def _shown(text, place):
    """The end of a text is shown behind what was read last, and not behind blank lines and comments."""
    return last_end(text) if place == len(text) else place


def _at(text, place, file, said):
    """The place as file, line and column, what is said of it, and a picture."""
    shown = _shown(text, place)
    line, column = line_and_column(text, shown)
    return f"{file}:{line}:{column}: {said}\n{picture(text, shown)}"


class Explanation:
    """What is said of one reading."""

    def __init__(self, reading, view, file, book_file):
        self.reading, self.view, self.file, self.book_file = reading, view, file, book_file
        self.text, self.start, self.allowance = reading.text, reading.start, reading.allowance

    def __str__(self):
        refusal = self.reading.refusal
        if refusal is None:
            return ""
        if refusal.of_book:
            return explained(refusal, self.reading.answer.place, self.view, self.book_file)
        number = f" (refusal {refusal.value})"
        if refusal.of_limit:
            return self._limit(number)
        said = {
            Refusal.SHORT_LISTS: self._call,
            Refusal.BAD_ALLOWANCE: self._call,
            Refusal.UNKNOWN_START: self._start,
            Refusal.LONG_TEXT: self._long,
            Refusal.HIGH_BYTE: self._high,
            Refusal.NO_PARSE: self._no_parse,
            Refusal.NONE_WHOLE: self._none_whole,
            Refusal.DIFFERENT_VALUES: self._different,
        }[refusal](number)
        return f"{said}\n{ZEROS}" if 0 in self.text and refusal in (Refusal.NO_PARSE, Refusal.NONE_WHOLE) else said

    # ---- The call and the text
    def _call(self, number):
        said = {
            Refusal.SHORT_LISTS: "the lists for cells and parses are too short",
            Refusal.BAD_ALLOWANCE: f"an allowance is 1 to {MOST_WORK:,} units of work",
        }
        return f"{self.file}: {said[self.reading.refusal]}{number}"

    def _start(self, number):
        names = ", ".join(f"{i} {name}" for i, name in enumerate(self.view.names))
        return f"{self.book_file}: the book has no nonterminal {self.start}: it has {names}{number}"

    def _long(self, number):
        return f"{self.file}: the rule has {len(self.text):,} bytes, and 4,096 are the most{number}"

    def _high(self, number):
        if self.text[:2] in (b"\xff\xfe", b"\xfe\xff"):
            return f"{self.file}: the rule is text in UTF-16: save it as ASCII{number}"
        if self.text.startswith(b"\xef\xbb\xbf"):
            return f"{self.file}: the rule begins with a byte order mark: save it without one{number}"
        place = self.reading.answer.place
        found = self.text[place:].decode("utf-8", "replace")[0]
        guess = self.text[place : place + 1].decode("cp1252", "replace")  # on many desks
        if found == "\ufffd" and guess in ASCII:
            found = guess
        name, meant = unicodedata.name(found, "").lower(), ASCII.get(found)
        shown = f"{found} ({name})" if found.isprintable() and not found.isspace() else name
        what = shown if name and found != "\ufffd" else "this"
        asked = f"; did you mean {meant}?" if meant else ""
        return self._at(place, f"{what} is no character of ASCII, and a rule has no others{asked}{number}")

    # ---- The limits
    def _limit(self, number):
        refusal, units = self.reading.refusal, f"{self.allowance:,} unit{'s' * (self.allowance != 1)}"
        said = [UNKNOWN]
        if refusal in (Refusal.TOO_DEEP, Refusal.TOO_MANY_PARSES):
            said += [f"In {self.book_file}, variant {number}: {note}" for number, note in growing(self.view)]
        if refusal == Refusal.NO_UNIT and self.allowance < MOST_WORK:
            said.append(f"A greater allowance may do: --allowance {MOST_WORK}.")
        elif len(said) == 1:  # else the book is at fault, and not the rule
            said.append(ADVICE[refusal])
        return "\n".join([f"{self.file}: {LIMITS[refusal].format(units=units)}{number}", *map(_filled, said)])

    # ---- 30
    def _no_parse(self, number):
        """The error. Where the steps of the book want something at its place they tell all of it, and the error one
        thing."""
        error, hints = self.reading.error, Hints(self.view, self.text, self.start)
        found = hints.wanted
        if found is not None and found.fits:
            return "\n".join([self._at(error.place, FORBIDDEN + number), *self._levels()])
        if found is not None and found.symbols and found.place == error.place and error.kind in WANTED:
            return self._wanted(hints, error.place, found.symbols, number)
        further = found is not None and found.symbols and found.place > error.place
        unless = ", unless the rule goes on" if further and error.kind in WANTED else ""
        return "\n".join([self._error(hints, unless + number), *self._further(hints, error.place)])

    def _wanted(self, hints, place, symbols, number=""):
        """What is wanted at a place, with how that begins below the picture."""
        said = self._at(place, hints.said(place, symbols) + number)
        return "\n".join([said, *map(_filled, hints.begun(place, symbols))])

    def _error(self, hints, number):
        """The furthest error."""
        error = self.reading.error
        place, kind, argument = error.place, error.kind, error.argument
        symbol = {
            ErrorKind.CHARACTER_WANTED: Terminal(books.CHARACTER, argument),
            ErrorKind.WORD_WANTED: Terminal(books.WORD, argument),
            ErrorKind.IDENTIFIER_WANTED: Terminal(books.IDENTIFIER),
            ErrorKind.WRONG_KIND: Terminal(books.VARIABLE_OF_KIND, argument),
            ErrorKind.DIGITS_WANTED: Terminal(books.NUMBER),
            ErrorKind.NONTERMINAL_WANTED: Part(books.NONTERMINAL, argument),
        }.get(kind)
        if symbol is not None and symbol != Part(books.NONTERMINAL, DECLARED_NAME):
            return self._wanted(hints, place, [symbol], number)
        word = hints.word(place)
        said = {
            ErrorKind.TEXT_ENDED: "the text ends where a name or a number is wanted",
            ErrorKind.VARIABLE_FOUND: f"{word} is a variable, and none may stand here",
            ErrorKind.RESERVED_FOUND: f"{word} is a reserved word, and may not stand here",
            ErrorKind.UNKNOWN_NAME: f"{hints.unknown(word)}; {self._names(word, hints.scope(place))}",
            ErrorKind.NONTERMINAL_WANTED: f"a declared name is wanted {hints.ends(place)}",
            ErrorKind.TOO_LARGE: f"this number is above {LARGEST_NUMBER}, the greatest",
            ErrorKind.MORE_WANTED: f"more is wanted {hints.ends(place)}",
        }
        return self._at(place, said[kind] + number)

    def _names(self, word, scope):
        """The variable that was perhaps meant, or all."""
        listed = ", ".join(scope) or "none"
        all_of_them = f"the names here: {listed}" if self.view.book.declares else f"it has {listed}"
        return "".join(near(word, set(scope))) or all_of_them

    # ---- What the steps would take
    def _further(self, hints, place):
        """What the steps want at the furthest place that they reach, if that isn't before this one."""
        found = hints.wanted
        if found is None or not found.symbols or found.place < place:
            return []
        if found.fits:
            return self._levels()
        if found.place > place:
            there = self._wanted(hints, found.place, found.symbols)
            return [f"If the rule is meant to go on, the steps of the book fit up to here:\n{there}"]
        if self.reading.error is not None and len(found.symbols) == 1:
            return []  # the error has told it
        said = hints.said(place, found.symbols)
        if not said.startswith(f"{hints.word(place)} is "):  # a word of the rule stays as it is spelled
            said = said[0].upper() + said[1:]
        return [said, *map(_filled, hints.begun(place, found.symbols))]

    def _levels(self):
        """That levels forbid the rule, and all levels of the book."""
        variants = sorted(enumerate(self.view.book.variants), key=lambda each: each[1].level)
        listed = [
            f"  {books.ASSOCIATIVITIES[variant.associativity]} {variant.level}: {self.view.steps(number)}"
            for number, variant in variants
            if variant.level != books.DEFAULT_LEVEL
        ]
        claiming = any(nonterminal.mark == books.CLAIMING for nonterminal in self.view.book.nonterminals)
        return [_filled(LEVELS.format(claims=CLAIMS if claiming else "")), *listed]

    def _at(self, place, said):
        return _at(self.text, place, self.file, said)

    # ---- 31
    def _none_whole(self, number):
        longest = max(self.reading.parses, key=lambda parse: parse.rest)
        place = skip(self.text, longest.rest)
        said = f"the rule is read up to here, and the rest of it is left over{number}"
        lines = [self._at(place, said), f"Read so far: {self._value(longest.value, False)}"]
        return "\n".join(lines + self._further(Hints(self.view, self.text, self.start), place))

    def _value(self, value, braces):
        """A value in its text's words, with or without braces, and as it is printed, where that isn't too long."""
        written = bracketed(self.view, value, LONGEST_VALUE, braces, self.text) or "nothing"
        return f"{written}, as the value {printed(value)}" if node_count(value) < LONGEST_VALUE else written

    # ---- 32
    def _different(self, number):
        values = self.reading.whole_values
        said = f"the rule can be read in {len(values)} ways with different values{number}"
        lines = [f"{self.file}: {said}", "With braces around what belongs together:"]
        lines += [f"  {i}.  {self._value(value, True)}" for i, value in enumerate(values, 1)]
        lines += self._part(values[0], values[1])
        lines.append(_filled(MEND))
        return "\n".join(lines)

    def _part(self, first, second):
        """Two trees side by side, with a mark where they first part."""
        rows = list(itertools.zip_longest(drawing(self.view, first), drawing(self.view, second), fillvalue=""))
        parting = next((i for i, (left, right) in enumerate(rows) if left != right), None)
        if parting is None:
            return []  # they part behind what is drawn
        shown, at = rows[max(0, parting - ABOVE) : parting + BELOW], min(parting, ABOVE)
        width = min(SIDE, max(len(left) for left, _ in shown))
        cut = lambda line: line if len(line) <= SIDE else line[: SIDE - 3] + "..."
        drawn = [f"  {'>' if i == at else ' '} {cut(l):{width}}  {cut(r)}".rstrip() for i, (l, r) in enumerate(shown)]
        before, behind = ["    ..."] * (parting > ABOVE), ["    ..."] * (parting + BELOW < len(rows))
        return ["The first two, side by side; they part at >", *before, *drawn, *behind]


def explain(reading, book=None, file="rule", book_file="book"):
    """Why a reading has no value, in words; nothing if it has one. With the book as `from_text` or `view` gives it, the
    names of its text are used."""
    return str(Explanation(reading, as_view(reading.book if book is None else book), file, book_file))
