#!/usr/bin/env python3
"""Looks whether the compiled reader has the class table once, and reads it in place.

    python3 tools/class_table.py [LIBRARY]

No proof speaks of that: the proofs are of what the reader answers. The table is a static, since the compiler lays a
constant array out on the stack at each reading (docs/DECISIONS.md, 36); what it does is its own choice. So this
searches the static library, or else compiles the reader as it stands, without its proofs, and searches that: the table
of crates/characters/src/table.rt must stand there once, and no row of it anywhere else, as code that lays the table out
would have it.
"""
import argparse
import re
import struct
import sys
import tempfile

import reader

TABLE = f"{reader.ROOT}/crates/characters/src/table.rt"


def rows():
    """The rows of the table, each as its eight bytes."""
    with open(TABLE, encoding="utf-8") as source:
        words = re.findall(r"^    (0x[0-9a-f_]+),", source.read(), re.M)
    return [struct.pack("<Q", int(word, 16)) for word in words]


def main():
    options = argparse.ArgumentParser(description=__doc__, formatter_class=argparse.RawDescriptionHelpFormatter)
    options.add_argument("library", nargs="?", metavar="LIBRARY")
    given, table = options.parse_args().library, b"".join(rows())
    with tempfile.TemporaryDirectory() as folder:
        with open(given or reader.static_library(folder), "rb") as library:
            parts = library.read().split(table)
    strays = sum(part.count(row) for part in parts for row in set(rows()))
    print(f"class table of {len(table)} bytes: {len(parts) - 1} in the library, rows elsewhere: {strays}")
    sys.exit(len(parts) != 2 or strays != 0)


if __name__ == "__main__":
    main()
