#!/usr/bin/env python3
"""Makes the committed lists that programs of the gate are run on.

    python3 tools/lists.py [NAME ..]

makes each list, or the named ones, and tells of each file whether the committed one equals it. It writes nothing; its
status is 1 if any differs.

    python3 tools/lists.py --write [NAME ..]

writes those that differ. A list is never replaced by one with fewer cases than its program's `stdout` tells, unless
--fewer is given.

    cut       vectors/open.jsonl, reading.jsonl, damaged.jsonl, deep.jsonl, and binders.jsonl of document 02 d's own,
              new.jsonl: a choice of the vectors of --from, by the rule of tools/cases/cut.py
    vectors   crates/known_answers/data/vectors.bin: all of vectors/*.jsonl, as the program reads them
              (tools/cases/vectors.py), with how many vectors show each refusal, error kind, step kind, ..
    books     crates/layer_cases/data/books.bin: boundaries, and the books of the vectors of --from
              (tools/cases/layer_books.py)
    program   crates/program_cases/data/*: books and long texts (tools/cases/program_files.py)

cut and books need the whole files of vectors, which the repository doesn't have: --from FOLDER, or `vectors/02/d` in
the folder `shared` beside the repository, which has the answers with document 02's requests g, c, a, n, f and d.
Without them both are left out. The list of the Rust's answers, crates/known_answers/data/rust.bin, is made in compare/.
"""
import argparse
import collections
import glob
import os
import re
import sys

from cases import cut, layer_books, program_files
from cases.vectors import read, record

ROOT = os.path.dirname(os.path.dirname(os.path.abspath(__file__)))
VECTORS = "vectors/02/d"  # those of the last request here that changes an answer or a line
WHOLE = ["open", "damaged", "reading", "deep"]  # in the order in which books.bin has their books
CUT = {name: name for name in WHOLE} | {"binders": "new"}  # a file of the repository, and which it is a choice of

# The content of a list's files by their paths; how many cases it has and which program counts them, None if none does;
# and what it ought to show and doesn't.
List = collections.namedtuple("List", "files cases program missing", defaults=[None, None, ()])


def whole(folder, names=WHOLE):
    """The paths of whole files of vectors."""
    return [f"{folder}/{name}.jsonl" for name in names]


def cut_list(folder):
    files = {}
    for name, path in zip(CUT, whole(folder, CUT.values())):
        vectors = [vector for _, vector in read([path])]
        numbers = cut.chosen(vectors, cut.WANTED[name])
        with open(path, "rb") as lines:
            content = lines.readlines()
        files[f"vectors/{name}.jsonl"] = b"".join(content[number] for number in numbers)
        print(f"cut: {len(numbers)} of {len(vectors)} vectors of {os.path.basename(path)}")
    return List(files)


def vectors_list():
    vectors = []
    for path in sorted(glob.glob(f"{ROOT}/vectors/*.jsonl")):
        found = [vector for _, vector in read([path])]
        print(f"vectors: {len(vectors) + 1} to {len(vectors) + len(found)} are those of {os.path.basename(path)}")
        vectors += found
    shown = cut.coverage(vectors)
    for sort, counts in shown.items():
        print(f"vectors: {sort}", ", ".join(f"{number}: {count}" for number, count in counts.items()))
    missing = [f"{sort} {number}" for sort, counts in shown.items() for number, count in counts.items() if not count]
    files = {"crates/known_answers/data/vectors.bin": b"".join(map(record, vectors))}
    return List(files, len(vectors), "known_answers vectors", missing)


def books_list(folder):
    cases = layer_books.cases(read(whole(folder)))
    return List({"crates/layer_cases/data/books.bin": b"".join(cases)}, len(cases), "layer_cases books")


def program_list():
    return List({f"crates/program_cases/data/{name}": content for name, content in program_files.files().items()})


def expected_cases(program):
    """How many cases a program's `stdout` tells, as in `1166 books, 0 differ`."""
    crate, cases = program.split()
    with open(f"{ROOT}/crates/{crate}/stdout", encoding="utf-8") as lines:
        return int(re.search(rf"^(\d+) {cases},", lines.read(), re.M)[1])


def committed(path):
    if not os.path.exists(f"{ROOT}/{path}"):
        return None
    with open(f"{ROOT}/{path}", "rb") as file:
        return file.read()


def settled(name, made, options):
    """Tells which committed files equal a list's, and writes the others if told to. Whether all are equal now."""
    expected = made.program and expected_cases(made.program)
    if made.program:
        print(f"{name}: {made.cases} cases; the program's stdout tells {expected}")
    differing = [path for path, content in made.files.items() if committed(path) != content]
    for path, content in made.files.items():
        print(f"{name}: {path}, {len(content)} bytes, {'differs' if path in differing else 'equal'}")
    if made.missing:
        print(f"{name}: NOT shown by any case:", ", ".join(made.missing))
        return False
    if not differing or not options.write:
        return not differing
    if made.program and made.cases < expected and not options.fewer:
        print(f"{name}: NOT written, for it would have {made.cases} cases instead of {expected} (--fewer)")
        return False
    for path in differing:
        with open(f"{ROOT}/{path}", "wb") as file:
            file.write(made.files[path])
        print(f"{name}: {path} written")
    return True


def main():
    options = argparse.ArgumentParser(description=__doc__, formatter_class=argparse.RawDescriptionHelpFormatter)
    options.add_argument("--from", dest="folder", default=f"{os.path.dirname(ROOT)}/shared/{VECTORS}", metavar="FOLDER")
    options.add_argument("--write", action="store_true")
    options.add_argument("--fewer", action="store_true")
    options.add_argument("names", nargs="*", metavar="NAME")
    chosen = options.parse_args()
    makers = {
        "cut": lambda: cut_list(chosen.folder),
        "vectors": vectors_list,
        "books": lambda: books_list(chosen.folder),
        "program": program_list,
    }
    if not set(chosen.names) <= set(makers):
        options.error(f"the lists are {', '.join(makers)}")
    missing = [path for path in whole(chosen.folder, CUT.values()) if not os.path.exists(path)]
    equal = True
    for name in chosen.names or makers:
        if name in ("cut", "books") and missing:
            print(f"{name}: left out, for there is no {missing[0]} (--from FOLDER)")
            equal = equal and name not in chosen.names
        else:
            equal = settled(name, makers[name](), chosen) and equal
    sys.exit(0 if equal else 1)


if __name__ == "__main__":
    main()
