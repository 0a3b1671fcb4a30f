"""The notation for rule books, and books written in it. docs/BOOK.md has its grammar, notation_reader.py reads it.

    words kg tonne                  # words, numbered from 0 over all lines
    reserved if then
    names price:0 volume:1          # starting names with their kinds

    expression
      | number                                 # 0
      | expression '-' expression  ; left 1    # 1
"""
from . import book as books

# What a nonterminal's mark is called, by its number; a further mark has its name here.
MARKS = ("", "claims variables", "identifier", "declares names")

# The steps that have a name and no argument.
PLAIN_STEPS = {
    books.IDENTIFIER: "identifier",
    books.NUMBER: "number",
    books.VARIABLE: "variable",
    books.NO_VARIABLE: "!variable",
    books.NO_RESERVED: "!reserved",
}
SUFFIXES = {books.NONTERMINAL: "", books.OPTIONAL: "?", books.MANY: "*", books.COMMA_LIST: ",*"}
EMPTY = "empty"
ENTRIES = ("words", "reserved", "names")
DECLARED = "names"  # between the two characters of a binder
BINDER_EXAMPLE = f"('[' {DECLARED},* ']')? amount"
NOT_FOR_NONTERMINALS = {*ENTRIES, EMPTY, *(name for name in PLAIN_STEPS.values() if name.isalpha())}


def _word(number, words):
    """A word by its spelling, with its number where an earlier one is spelled alike."""
    spelling = words[number].spelling
    first = next(i for i, word in enumerate(words) if word.spelling == spelling)
    return f'"{spelling}"' if first == number else f'"{spelling}":{number}'


def step_text(step, words, names):
    """A step, in the notation."""
    kind, a = step.kind, step.a
    if kind in PLAIN_STEPS:
        return PLAIN_STEPS[kind]
    if kind == books.CHARACTER:
        return f"'{chr(a)}'"
    if kind == books.WORD:
        return _word(a, words)
    if kind == books.VARIABLE_OF_KIND:
        return f"variable:{a}"
    if kind in SUFFIXES:
        return names[a] + SUFFIXES[kind]
    element = DECLARED if kind == books.BINDER else names[a]
    delimited = f"('{chr(step.b)}' {element},* '{chr(step.c)}')"
    return delimited + {books.DELIMITED: "", books.OPTIONAL_DELIMITED: "?", books.BINDER: f"? {names[a]}"}[kind]


def variant_text(variant, words, names):
    """A variant's steps, in the notation."""
    return " ".join(step_text(step, words, names) for step in variant.steps) or EMPTY


def attributes(variant):
    """What stands behind a variant's semicolon."""
    found = []
    if (variant.level, variant.associativity) != (books.DEFAULT_LEVEL, books.BOTH):
        found += [books.ASSOCIATIVITIES[variant.associativity], str(variant.level)]
    return " ".join(found + ["passing"] * variant.passing + ["uncommitted"] * (not variant.committed))


def default_names(book):
    """The names of nonterminals for a book that comes without."""
    return [f"n{i}" for i in range(len(book.nonterminals))]


def _entry_lines(book):
    """Lines of words, a line for each run of reserved and of other ones; then a line of names."""
    lines = []
    for word in book.words:
        keyword = "reserved" if word.label else "words"
        if not lines or lines[-1][0] != keyword:
            lines.append([keyword])
        lines[-1].append(word.spelling)
    if book.names:
        lines.append(["names", *(f"{name.spelling}:{name.label}" for name in book.names)])
    return [" ".join(line) for line in lines]


def _header(name, mark):
    return f"{name} ({MARKS[mark]})" if mark else name


def to_text(book, names=None, labels=()):
    """An accepted book in the notation, with each variant's number as a comment, and its name if there is one."""
    names = names or default_names(book)
    parts, number = _entry_lines(book), 0
    for name, nonterminal in zip(names, book.nonterminals):
        lines = []
        for variant in nonterminal.variants:
            behind = attributes(variant)
            lines.append((variant_text(variant, book.words, names), f"; {behind}" if behind else ""))
        widths = [max((len(line[i]) for line in lines), default=0) for i in range(2)]
        parts += ([""] if parts else []) + [_header(name, nonterminal.mark)]
        for line in lines:
            label = f" {labels[number]}" if number < len(labels) and labels[number] else ""
            columns = "".join(f"{part:{width}}  " for part, width in zip(line, widths) if width)
            parts.append(f"  | {columns}# {number}{label}")
            number += 1
    return "\n".join(parts) + "\n"


def is_text(data):
    """Whether bytes are text rather than a book in bytes: each accepted book has a mark, 0 to 3, and no text has such a
    byte."""
    return all(byte >= 32 or byte in b"\t\n\r" for byte in data)
