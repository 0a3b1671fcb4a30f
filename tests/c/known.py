#!/usr/bin/env python3
"""Prints vectors as the tests in C read them, one a line: book, text, start, allowance, the lengths of cells and
parses, the seven numbers of the answer, and the printed line; bytes in hexadecimal, `-` for none.

    python3 tests/c/known.py vectors/*.jsonl
"""
import os
import sys

sys.path.insert(0, f"{os.path.dirname(os.path.abspath(__file__))}/../../tools")

from cases.vectors import lent, line, read


def main():
    for _, vector in read(sys.argv[1:]):
        rule = [vector["book"] or "-", vector["text"] or "-", vector["start"], vector["allowance"]]
        print(*rule, *lent(vector), *vector["answer"], line(vector).hex())


if __name__ == "__main__":
    main()
