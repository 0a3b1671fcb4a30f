#!/usr/bin/env python3
"""What the command line says to each refusal and each kind of error, for people to read.

    python3 tests/explanations.py --write

writes tests/explanations.txt anew; the tests compare it.
"""
import os
import sys

FOLDER = os.path.dirname(os.path.abspath(__file__))
sys.path.insert(0, os.path.join(os.path.dirname(FOLDER), "python"))

from midgebillon.explanation import explain
from midgebillon.reading import MOST_WORK, read
from midgebillon.view import view

FILE = f"{FOLDER}/explanations.txt"

ARITHMETIC = """expression
  | number
  | expression '-' expression  ; left 1  # minus
  | expression '*' expression  ; left 2  # times
  | '(' expression ')'
"""

MARGIN = """words tonnes
reserved if then
names price:0 volume:1 spread:0

rule
  | "if" test "then" amount
  | amount

test
  | amount '>' amount

amount (claims variables)
  | number unit?
  | variable:1 '*' variable:0
  | field
  | field ('(' amount,* ')')

unit
  | "tonnes"

field (identifier)
"""

BLEND = """words share price
reserved if
names spot:1

rule (declares names)
  | ('[' names,* ']')? amount

amount
  | number
  | variable
  | amount '*' amount  ; left 2
  | '(' rule ')'
"""
SHARE = "words share price\nnames spot:0\nrule (declares names)\n  | ('[' names,* ']')? sum\nsum\n  | '=' variable:0\n"
TWO_SUMS = BLEND.replace("left 2", "both 2")
OPENING = BLEND.replace("'(' rule ')'", "'[' number ']'")
EMPTY = "e\n  | part*\n\npart\n  | empty\n  | number\n"
NESTED = "e\n  | '[' part ']'\n\npart\n  | number ',' part\n  | number\n"
IDENTIFIER_OR_KIND = "identifier\n  | number variable:3"  # one step, and then another variant
PREFIX = "e\n  | number\n  | '~' e  ; left 3\n"
QUOTED = "rule\n  | '\"' number '\"'\n  | rule '-' rule  ; left 1\n"
TWO_WAYS = "rule\n  | place\n  | person\n\nplace\n  | identifier\n\nperson\n  | identifier\n"


def step_book(step):
    """A number and then one step, in a book with the reserved word `if` and the name `x` of kind 5."""
    return f"words kg\nreserved if\nnames x:5\nrule\n  | number {step}\n\nitem\n  | '#'\n"


def reserved_name(step):
    """The same with `x` reserved, too."""
    return step_book(step).replace("reserved if", "reserved if x")


def declared(names, part):
    """A part of a rule with so many declared names."""
    return f"[{', '.join(f'share x{i}' for i in range(names))}] {part}"


def both(text):
    return ARITHMETIC.replace("left", text)


def bytes_of(text, place, byte):
    """A book in bytes with one byte changed."""
    data = bytearray(view(text.encode()).data)
    data[place] = byte
    return bytes(data)


EXAMPLE = view(ARITHMETIC.encode()).data

# What is shown: the book in either form, the rule, the start, the allowance.
CASES = [
    ("2: no allowance", ARITHMETIC, "1", 0, 0),
    ("2: too great an allowance", ARITHMETIC, "1", 0, MOST_WORK + 1),
    ("3: a book in bytes that ends too early", EXAMPLE[:40], "1", 0, MOST_WORK),
    ("3: an empty book in bytes", b"\0", "1", 0, MOST_WORK),
    ("4: a count of variants that isn't the sum", bytes_of(ARITHMETIC, 5, 5), "1", 0, MOST_WORK),
    ("4: too many nonterminals", "\n".join(f"n{i}" for i in range(33)), "1", 0, MOST_WORK),
    ("5: a spelling", ARITHMETIC.replace("expression\n", "words <=\nexpression\n", 1), "1", 0, MOST_WORK),
    ("5: a spelling in bytes", b"\1\0\0", "1", 0, MOST_WORK),
    ("6: a level that needs both", ARITHMETIC.replace("left 2", "left 255"), "1", 0, MOST_WORK),
    ("6: a character in bytes", bytes_of(ARITHMETIC, 32, 32), "1", 0, MOST_WORK),
    ("6: a nonterminal that isn't there", bytes_of(ARITHMETIC, 28, 7), "1", 0, MOST_WORK),
    ("6: a kind of step that isn't there", bytes_of(ARITHMETIC, 23, 15), "1", 0, MOST_WORK),
    ("6: a kind of step that declares names elsewhere", bytes_of(ARITHMETIC, 23, 14), "1", 0, MOST_WORK),
    ("6: names that are declared elsewhere", BLEND.replace(" (declares names)", ""), "1", 0, MOST_WORK),
    ("6: more than declared names", BLEND.replace("? amount", "? amount '.'"), "1", 0, MOST_WORK),
    ("6: a variant beside declared names", BLEND.replace("\n\namount", "\n  | number\n\namount"), "1", 0, MOST_WORK),
    ("6: a byte that isn't used", bytes_of(ARITHMETIC, 24, 1), "1", 0, MOST_WORK),
    ("7: a passing variant", ARITHMETIC.replace("| number", "| number ; passing"), "1", 0, MOST_WORK),
    ("8: bytes left over", EXAMPLE + b"\0\0", "1", 0, MOST_WORK),
    ("9: no such start", ARITHMETIC, "1", 3, MOST_WORK),
    ("10: a long rule", ARITHMETIC, "1" + " " * 4096, 0, MOST_WORK),
    ("11: a dash that isn't the minus of ASCII", ARITHMETIC, "1 \u2013 2", 0, MOST_WORK),
    ("11: a no-break space", ARITHMETIC, "1\u00a0- 2", 0, MOST_WORK),
    ("11: UTF-16", ARITHMETIC, "1".encode("utf-16"), 0, MOST_WORK),
    ("11: a byte order mark", ARITHMETIC, "\ufeff1", 0, MOST_WORK),
    ("11: a byte that is no text", ARITHMETIC, b"1 \xff 2", 0, MOST_WORK),
    ("20: brackets around brackets", ARITHMETIC, "(" * 15 + "1" + ")" * 15, 0, MOST_WORK),
    ("20: an allowance of one's own", ARITHMETIC, "1-2-3", 0, 20),
    ("21: opening brackets", ARITHMETIC, "(" * 200, 0, MOST_WORK),
    ("21: an element that may be empty, and then a character", EMPTY.replace("*", "* '.'"), "1", 0, MOST_WORK),
    ("22: a long row", ARITHMETIC, "-".join(["1"] * 65), 0, MOST_WORK),
    ("22: operators without a level", ARITHMETIC.replace("  ; left 1", ""), "-".join("12345678"), 0, MOST_WORK),
    ("22: an element that may be empty", EMPTY, "1", 0, MOST_WORK),
    ("23: a long list of numbers within one another", NESTED, f"[{','.join(map(str, range(63)))}]", 0, MOST_WORK),
    ("41: many declared names", BLEND, declared(65, "1"), 0, MOST_WORK),
    ("41: declared names within others", BLEND, declared(40, f"2 * ({declared(25, '1')})"), 0, MOST_WORK),
    ("30, 1: a character", ARITHMETIC, "(1", 0, MOST_WORK),
    ("30, 1: behind a tab, and blank lines at the end", ARITHMETIC, "\t(1 // one\n\n", 0, MOST_WORK),
    ("30, 1: the minus goes on, and its operand is wrong", ARITHMETIC, "(1 - x) * 2", 0, MOST_WORK),
    ("30, 2: a word", step_book('"kg"'), "1 tons", 0, MOST_WORK),
    ("30, 3: an identifier", step_book("identifier"), "1 +", 0, MOST_WORK),
    ("30, 4: the end", step_book("identifier"), "1", 0, MOST_WORK),
    ("30, 5: a variable", step_book("!variable"), "1 x", 0, MOST_WORK),
    ("30, 6: a reserved word", step_book("identifier"), "1 if", 0, MOST_WORK),
    ("30, 6: a reserved word where a variable is wanted", step_book("variable"), "1 if", 0, MOST_WORK),
    ("30, 6: a reserved name is no identifier", reserved_name("identifier"), "1 x", 0, MOST_WORK),
    ("30, 5: a reserved name is a variable", reserved_name("!variable"), "1 x", 0, MOST_WORK),
    ("30, 8: a reserved name of another kind", reserved_name("variable:3"), "1 x", 0, MOST_WORK),
    ("30: a reserved name, neither identifier nor of the kind", reserved_name(IDENTIFIER_OR_KIND), "1 x", 0, MOST_WORK),
    ("30, 7: an unknown name", step_book("variable"), "1 y", 0, MOST_WORK),
    ("30, 8: another kind", step_book("variable:3"), "1 x", 0, MOST_WORK),
    ("30, 9: digits", step_book("number"), "1 x", 0, MOST_WORK),
    ("30, 10: a large number", step_book("number"), "1 18446744073709551616", 0, MOST_WORK),
    ("30, 11: a nonterminal", ARITHMETIC, "x - 1", 0, MOST_WORK),
    ("30, 11: an empty rule", ARITHMETIC, "", 0, MOST_WORK),
    ("30, 11: a number that is too large for an expression", ARITHMETIC, "(18446744073709551616", 0, MOST_WORK),
    ("30, 12: more of a list", step_book("('(' item,* ')')"), "1 (#,", 0, MOST_WORK),
    ("30, 12: a declared name without its kind", BLEND, "[a] a", 0, MOST_WORK),
    ("30, 12: a misspelled kind of a declared name", BLEND, "[share a, prise b] a * b", 0, MOST_WORK),
    ("30, 12: the opening of declared names, and not of the amount", OPENING, "[2]", 0, MOST_WORK),
    ("30, 1: no comma between declared names", BLEND, "[share a share b] a", 0, MOST_WORK),
    ("30, 4: a declared name is missing at the end", BLEND, "[share", 0, MOST_WORK),
    ("30, 3: a declared name is missing", BLEND, "[share] 2", 0, MOST_WORK),
    ("30, 6: a reserved word for a declared name", BLEND, "[share if] 2", 0, MOST_WORK),
    ("30, 11: nothing behind declared names", BLEND, "[share a]", 0, MOST_WORK),
    ("30, 11: a misspelled declared name", BLEND, "[share hard] hart * 2", 0, MOST_WORK),
    ("30, 7: neither a starting name nor declared", SHARE, "[share a] = b", 0, MOST_WORK),
    ("30, 8: a declared name of another kind", SHARE, "[price spot] = spot", 0, MOST_WORK),
    ("31: a declared name behind its part of the rule", BLEND, "([share a] a * spot) * a", 0, MOST_WORK),
    ("31: left over behind declared names", BLEND, "[share a, price b,] // two\nb * a * 02 a", 0, MOST_WORK),
    ("32: two ways, with declared names", TWO_SUMS, "[share a, price b] b * a * 2", 0, MOST_WORK),
    ("30: a misspelled name", MARGIN, "if volume > 3 then volume * prize", 0, MOST_WORK),
    ("30: another kind of name", MARGIN, "price * price", 2, MOST_WORK),
    ("30: another case", MARGIN, "if volume * price > 3 Then 1", 0, MOST_WORK),
    ("30: quotation marks", MARGIN, '"if" volume * price > 3 then 1', 0, MOST_WORK),
    ("31: a quotation mark that the book has", QUOTED, '"1" "2"', 0, MOST_WORK),
    ("30: a dollar", MARGIN, "if $volume > 3 then 1", 0, MOST_WORK),
    ("31: a decimal point", ARITHMETIC, "2 * 0.05", 0, MOST_WORK),
    ("31: nothing is read", "list\n  | part*\n\npart\n  | number\n", ",", 0, MOST_WORK),
    ("30: another comment", MARGIN, "if # volume", 0, MOST_WORK),
    ("30: a word forgotten", MARGIN, "if volume * price > 3\n  volume * price", 0, MOST_WORK),
    ("30, 11: a prefix operator that is left", PREFIX, "~ ~ 1", 0, MOST_WORK),
    ("31: a row that breaks off", ARITHMETIC, "1 - x", 0, MOST_WORK),
    ("31: two numbers", ARITHMETIC, "1 2", 0, MOST_WORK),
    ("31: on a second line, behind a comment", ARITHMETIC, "1 - // take off\n\t2 +3", 0, MOST_WORK),
    ("31: an operator that is none", both("none"), "1 - 2 - 3", 0, MOST_WORK),
    ("30, 11: a reserved word", MARGIN, "if", 2, MOST_WORK),
    ("31: a list that isn't closed", MARGIN, "net(3, volume * price", 0, MOST_WORK),
    ("32: both ways", both("both"), "1 - 2 - 3", 0, MOST_WORK),
    ("32: a name that is read in two ways", TWO_WAYS, "ann", 0, MOST_WORK),
]


def explanation(book, text, start, allowance):
    """What is said, and the refusal and kind that it is about."""
    text = text if isinstance(text, bytes) else text.encode()
    found = view(book if isinstance(book, bytes) else book.encode())
    reading = read(found.data, text, start, allowance)
    said = explain(reading, found, "rule.txt", "rules")
    return said, reading.answer.refusal, reading.answer.kind


def page():
    """All of it, and the refusals and kinds of errors that it has."""
    lines, met = ["What the command line says to each refusal. Made by tests/explanations.py --write.", ""], set()
    for title, book, text, start, allowance in CASES:
        lines.append(f"== {title}")
        said, *numbers = explanation(book, text, start, allowance)
        met.add(tuple(numbers))
        lines += [line.rstrip() for line in said.split("\n")] + [""]
    return "\n".join(lines), met


def main():
    if sys.argv[1:] != ["--write"]:
        sys.exit(__doc__)
    with open(FILE, "w", encoding="utf-8") as file:
        file.write(page()[0])


if __name__ == "__main__":
    main()
