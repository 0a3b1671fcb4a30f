"""Vectors: calls with all that documents 01 and 02 make of them.

One JSON object a line: `book` and `text` (hexadecimal), `start`, `allowance`, `cells_len` and `parses_len` (how many
numbers are lent; where not given, all that a call writes and three more, which must stay), `answer` (refusal, place,
kind, argument, work, number of parses, value cell), `cells` (its numbers, trailing zeros cut) and `parses` (rest,
level, associativity, cell), both null where the lists are untouched, and `printed` (the line, without its line feed).
Other keys are remarks.
"""
import json
import os
import struct
import sys

CELLS, PARSES = 12288, 256  # how many numbers of each list a call writes
BEYOND = 3  # how many more are lent, to see that they stay
ROOM = 12  # how many more the crate known_answers has room for
LONGEST = 131072  # the bytes of its longest record
REFUSAL, PLACE, KIND, ARGUMENT, WORK, NUMBER_OF_PARSES, VALUE = range(7)  # of an answer


def read(files):
    """The vectors of files, each with its file and line."""
    for path in files:
        with open(path, encoding="utf-8") as lines:
            for number, line in enumerate(lines, 1):
                place = f"{os.path.basename(path)}:{number}"
                vector = json.loads(line)
                if "printed" not in vector:
                    sys.exit(f"{place} has no printed line")
                yield place, vector


def lent(vector):
    """The lengths of the lent lists."""
    return vector.get("cells_len", CELLS + BEYOND), vector.get("parses_len", PARSES + BEYOND)


def parse_numbers(vector):
    return [number for parse in vector["parses"] or [] for number in parse]


def line(vector):
    """The bytes that are printed."""
    return vector["printed"].encode() + b"\n"


def record(vector):
    """A vector for the crate known_answers, whose record.rt and vector.rt tell the form."""
    book, text, printed = bytes.fromhex(vector["book"]), bytes.fromhex(vector["text"]), line(vector)
    written, cells, parses = vector["cells"] is not None, vector["cells"] or [], parse_numbers(vector)
    assert len(vector["answer"]) == 7 and len(cells) <= CELLS and len(parses) <= PARSES
    assert all(length <= size + ROOM for length, size in zip(lent(vector), (CELLS, PARSES)))
    head = [len(book), len(text), len(printed), vector["start"], vector["allowance"], *lent(vector)]
    head += [*vector["answer"], int(written), len(cells), len(parses)]
    made = numbers(head) + book + text + printed + numbers(cells + parses)
    assert len(made) <= LONGEST
    return made


def numbers(values):
    """Four bytes each, the low one first."""
    return struct.pack(f"<{len(values)}I", *values)
