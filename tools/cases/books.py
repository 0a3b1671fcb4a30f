"""The bytes of a book: made of its records, and taken apart."""

LEFT, RIGHT, NONE, BOTH = range(4)
COMMITTED, PASSING = 1, 2
CHARACTER, WORD, IDENTIFIER, NUMBER, VARIABLE, VARIABLE_OF_KIND, NO_VARIABLE, NO_RESERVED_WORD = range(8)
NONTERMINAL, OPTIONAL, MANY, COMMA_LIST, DELIMITED, OPTIONAL_DELIMITED, BINDER = range(8, 15)


def word(spelling, label=0):
    """A record of the words, by whether it's reserved, or of the names, by its kind."""
    return bytes([label, len(spelling)]) + spelling


def book(words=(), names=(), nonterminals=((0, 0),), variants=(), steps=(), rest=b""):
    """A book with right counts."""
    made = bytes([len(words)]) + b"".join(words) + bytes([len(names)]) + b"".join(names)
    for records in (nonterminals, variants, steps):
        made += bytes([len(records)]) + b"".join(map(bytes, records))
    return made + rest


def sections(content):
    """The records of the five sections of an accepted book."""
    result, place = [], 0
    for width in (None, None, 2, 4, 4):
        count, place, records = content[place], place + 1, []
        for _ in range(count):
            size = width or 2 + content[place + 1]
            records.append(content[place : place + size])
            place += size
        result.append(records)
    assert place == len(content)
    return result
