#!/usr/bin/env python3
"""Replays files of vectors and compares every number and every printed line.

    python3 tools/replay.py --through reader VECTORS.jsonl ..

The reader compiled without its proofs, by the program of the crate known_answers (tools/reader.py --replay).
--at O0,O3,checked,interpreter chooses how it is compiled: at -O0, at -O3 (this one alone without --at), with the
compiler's assumptions checked, or not at all. The interpreter stops after twenty million steps, so it gets only up to
three vectors of little work for each refusal.

    python3 tools/replay.py --through library VECTORS.jsonl ..

The static library, called as C does: crates/midgebillon_c/out/libmidgebillon_c.a, which `rt lib` proves and writes, or
--library FILE. Each vector is read by midgebillon_read, and by midgebillon_read_in in working memory that is
full of rubbish; the first that isn't refused with 1 also with each list of that memory one number too short.

    python3 tools/replay.py --through definitions VECTORS.jsonl ..

The definitions, translated into Python (tools/definitions.py): no proof, but it reaches vectors that are too long for
the prover. --processes N runs N at a time; --limit-work N leaves out vectors of more work, --least-work N those of
less.

    python3 tools/replay.py --through derivations VECTORS.jsonl ..

The rules of Derivations, by a search for all that they derive (tools/definitions.py), in which the definitions of the
run have no part: of each vector that meets no limit, the parses as trees, each once, are just those that are derivable.
The options are those of the definitions.

It prints the first few vectors that differ, by file and line, then how many there are and how many differ. The status
is 1 if any differs.
"""
import argparse
import ctypes
import multiprocessing
import os
import random
import re
import subprocess
import sys
import tempfile

from cases.vectors import BEYOND, CELLS, PARSES, REFUSAL, WORK, lent, line, parse_numbers, read, record
from definitions import Definitions, NotUnderstood, Unended
from library import PROVED, linked
from reader import NOTHING_REPLAYED, REPLAY, ROOT, WAYS, compiled_replay, replay_source, tried

MOST_UNITS = 1_000_000  # the largest allowance
SHOWN = 12  # how many vectors that differ are printed


def told(way, count, differing):
    """Prints the first vectors that differ, as (place, what differs), and the counts. Whether none does."""
    for place, what in differing[:SHOWN]:
        print(f"{way}: {place}: {what}")
    print(f"{way}: {count} vectors, {len(differing)} differ", flush=True)
    return not differing and count > 0


def known_list(numbers, size, length, fill):
    """A list of this length after a call: untouched if there are no numbers; else these, zeros up to the size, and what
    was lent beyond it."""
    if numbers is None:
        return [fill] * length
    return numbers + [0] * (size - len(numbers)) + [fill] * (length - size)


def known_lists(vector, fill):
    """The cells and the parses after a call."""
    parses = None if vector["cells"] is None else parse_numbers(vector)
    cells_length, parses_length = lent(vector)
    return known_list(vector["cells"], CELLS, cells_length, fill), known_list(parses, PARSES, parses_length, fill)


def difference(name, got, wanted):
    """What differs first between two lists of numbers; nothing if they are equal."""
    if len(got) != len(wanted):
        return f"{name}: length {len(got)}, wanted {len(wanted)}"
    places = (i for i, (have, want) in enumerate(zip(got, wanted)) if have != want)
    return next((f"{name} {i}, wanted {wanted[i]}, got {got[i]}" for i in places), None)


# ---- Through the reader
LIGHT, AT_ONCE = 100, 4  # the most work of a vector for the interpreter, and how many it gets in one run


def light(vectors):
    """For each refusal, the vectors of the least, the middle and the most work among those of little."""
    chosen = []
    for refusal in sorted({v["answer"][REFUSAL] for _, v in vectors}):
        some = [(place, v) for place, v in vectors if v["answer"][REFUSAL] == refusal and v["answer"][WORK] <= LIGHT]
        some.sort(key=lambda found: found[1]["answer"][WORK])
        if some:
            chosen += [some[i] for i in sorted({0, len(some) // 2, len(some) - 1})]
    return chosen


def all_equal(vectors):
    """What the program writes if no vector differs."""
    return NOTHING_REPLAYED.replace("0", str(len(vectors)), 1)


def written(vectors, path):
    with open(path, "wb") as data:
        data.writelines(record(vector) for _, vector in vectors)
    return path


def interpreted(folder, vectors):
    """Whether the light vectors are equal on the interpreter."""
    chosen, differing, main = light(vectors), [], replay_source(folder)
    for i in range(0, len(chosen), AT_ONCE):
        part = chosen[i : i + AT_ONCE]
        said = tried(main, REPLAY, data=written(part, f"{folder}/part.bin"))
        if said.stdout != all_equal(part) or "interpreter: ended status=0\n" not in said.stderr:
            differing += [(place, said.stdout + said.stderr) for place, _ in part]
    return told("interpreter", len(chosen), differing)


def compiled(folder, way, vectors):
    """Whether all vectors are equal by a compiled program."""
    with open(f"{folder}/vectors.bin", "rb") as data:
        done = subprocess.run([f"{folder}/{way}"], stdin=data, capture_output=True, text=True)
    found = re.findall(r"^vector (\d+): (.*)$", done.stdout, re.M)
    differing = [(vectors[int(number) - 1][0], what) for number, what in found]
    if done.returncode or (not differing and done.stdout != all_equal(vectors)):
        differing.append(("the program", f"status {done.returncode}, {done.stdout[-200:]!r} {done.stderr}"))
    return told(way, len(vectors), differing)


def through_reader(vectors, options):
    ways = options.at.split(",")
    with tempfile.TemporaryDirectory() as folder:
        written(vectors, f"{folder}/vectors.bin")
        if set(ways) & set(WAYS):
            compiled_replay(folder)
        run = lambda way: interpreted(folder, vectors) if way == "interpreter" else compiled(folder, way, vectors)
        return all([run(way) for way in ways])


# ---- Through the static library
NUMBERS = 7  # of an answer
MEMORY = {"index": ctypes.c_size_t, "store": ctypes.c_uint32, "rows": ctypes.c_uint32}  # the types of their numbers
SHORT = [1, 0, 0, 0, 0, 0, 0]  # the answer where a list is too short
FILL = 0xF111F111  # what a list holds before a call
Numbers = ctypes.POINTER(ctypes.c_uint32)
Bytes = ctypes.c_char_p
Length = ctypes.c_size_t


def loaded(archive, folder):
    """The functions of a static library. Python loads a shared one, so it is linked as such, whole."""
    shared = f"{folder}/midgebillon.so"
    linked(archive, shared)
    library = ctypes.CDLL(shared)
    texts, lists = [Bytes, Length] * 2, [Numbers, Length]
    library.midgebillon_read.restype = None
    library.midgebillon_read.argtypes = [*texts, ctypes.c_uint32, ctypes.c_uint32, *lists * 3]
    memory = [word for kind in MEMORY.values() for word in (ctypes.POINTER(kind), Length)]
    library.midgebillon_read_in.restype = None
    library.midgebillon_read_in.argtypes = [*texts, ctypes.c_uint32, ctypes.c_uint32, *lists * 2, *memory, *lists]
    library.midgebillon_print.restype = Length
    library.midgebillon_print.argtypes = [*texts, *lists * 2, ctypes.POINTER(ctypes.c_uint8), Length]
    return library


class Lent:
    """A list that is lent to a call, with a few numbers behind its end that the call must not see."""

    def __init__(self, length, kind=ctypes.c_uint32, fill=FILL):
        self.length, self.fill = length, fill
        self.numbers = (kind * (length + BEYOND))(*[fill] * (length + BEYOND))

    def words(self):
        return self.numbers, self.length

    def difference(self, name, wanted):
        """Where the list is not these numbers and then untouched."""
        return difference(name, self.numbers[:], list(wanted) + [self.fill] * (len(self.numbers) - len(wanted)))


class Memory:
    """The working memory that is lent to midgebillon_read_in, of the header's sizes and full of new rubbish at each
    call. One list can be a number too short."""

    def __init__(self):
        with open(f"{ROOT}/include/midgebillon.h", encoding="utf-8") as header:
            sizes = dict(re.findall(r"MIDGEBILLON_(\w+) = (\d+)", header.read()))
        self.lists = {name: Lent(int(sizes[name.upper()]), kind) for name, kind in MEMORY.items()}
        self.random, self.short = random.Random(0), None

    def length(self, name):
        return self.lists[name].length - (name == self.short)

    def words(self):
        words, self.before = [], {}
        for name, (numbers, _) in ((name, each.words()) for name, each in self.lists.items()):
            self.before[name] = self.random.randbytes(ctypes.sizeof(numbers))
            ctypes.memmove(numbers, self.before[name], ctypes.sizeof(numbers))
            words += [numbers, self.length(name)]
        return words

    def differences(self, anywhere):
        """Which lists the call has touched: anywhere, or behind their ends."""
        for name, kind in MEMORY.items():
            first = 0 if anywhere else self.length(name) * ctypes.sizeof(kind)
            if bytes(self.lists[name].numbers)[first:] != self.before[name][first:]:
                yield f"{name} is touched"


def library_calls(library, v, book, text, memory):
    """The calls of both functions, each of cells, parses and answer as they are passed."""
    given = [book, len(book), text, len(text), v["start"], v["allowance"]]
    own = lambda cells, parses, answer: library.midgebillon_read(*given, *cells, *parses, *answer)
    lending = lambda *lists: library.midgebillon_read_in(*given, *lists[0], *lists[1], *memory.words(), *lists[2])
    return own, lending


def library_reading(call, v, known_answer, known_cells, known_parses):
    """The lists after a call, and what differs in them."""
    cells, parses, answer = *map(Lent, lent(v)), Lent(NUMBERS + BEYOND)
    call(cells.words(), parses.words(), answer.words())
    found = [answer.difference("answer", known_answer)]
    found += [cells.difference("cells", known_cells), parses.difference("parses", known_parses)]
    return cells, answer, found


def library_untouched(call, v):
    """What differs after a call with room for six numbers of the answer, which touches nothing."""
    lists = *map(Lent, lent(v)), Lent(NUMBERS - 1)
    call(*(each.words() for each in lists))
    return [each.difference("too few numbers for the answer:", []) for each in lists]


def library_printing(library, v, book, text, cells, answer):
    """What differs in the line: in just enough room, in more, of which the rest may not be touched, and in one byte too
    few, where nothing may."""
    known, texts = line(v), (book, len(book), text, len(text))
    for room, wanted in ((len(known), known), (len(known) + BEYOND, known), (len(known) - 1, b"")):
        out = Lent(room, ctypes.c_uint8, FILL & 255)
        length = library.midgebillon_print(*texts, *cells.words(), *answer.words(), *out.words())
        if length != len(wanted):
            yield f"length of the line in room of {room}, wanted {len(wanted)}, got {length}"
        yield out.difference(f"line in room of {room}:", wanted)


def library_differences(library, v, memory):
    book, text = bytes.fromhex(v["book"]), bytes.fromhex(v["text"])
    known = v["answer"], *known_lists(v, FILL)
    own, lending = library_calls(library, v, book, text, memory)
    lent_found = [*library_untouched(lending, v), *memory.differences(anywhere=True)]
    lent_found += [*library_reading(lending, v, *known)[2], *memory.differences(anywhere=False)]
    cells, answer, found = library_reading(own, v, *known)
    found += [*library_untouched(own, v), *library_printing(library, v, book, text, cells, answer)]
    return [what for what in found if what] + [f"in lent memory: {what}" for what in lent_found if what]


def short_memory(library, v, memory):
    """What differs where a list of the working memory is one number too short: refusal 1, and both lists untouched."""
    _, lending = library_calls(library, v, bytes.fromhex(v["book"]), bytes.fromhex(v["text"]), memory)
    for name in MEMORY:
        memory.short = name
        found = [*library_reading(lending, v, SHORT, [], [])[2], *memory.differences(anywhere=False)]
        if any(found):
            yield f"{name} one too short", "; ".join(filter(None, found))
    memory.short = None


def through_library(vectors, options):
    if not os.path.exists(options.library):
        sys.exit(f"no {options.library}: `rt lib` in crates/midgebillon_c writes it")
    memory = Memory()
    with tempfile.TemporaryDirectory() as folder:
        library = loaded(options.library, folder)
        differences = [(place, library_differences(library, v, memory)) for place, v in vectors]
        differing = [(place, "; ".join(found)) for place, found in differences if found]
        others = [v for _, v in vectors if v["answer"] != SHORT]
        differing += [found for v in others[:1] for found in short_memory(library, v, memory)]
    return told("library", len(vectors), differing)


# ---- Through the definitions
def definition_differences(task):
    place, v = task
    before = [[FILL] * length for length in lent(v)]
    book, text = bytes.fromhex(v["book"]), bytes.fromhex(v["text"])
    answer, cells, parses, printed = DEFINITIONS.read(book, text, v["start"], v["allowance"], *before)
    known_cells, known_parses = known_lists(v, FILL)
    parts = [("answer", answer, v["answer"]), ("cells", cells, known_cells), ("parses", parses, known_parses)]
    parts.append(("line", printed, line(v)))
    return place, "; ".join(what for part in parts if (what := difference(*part)))


def by_definitions(way, differences, vectors, options):
    global DEFINITIONS  # the processes share it
    try:
        DEFINITIONS = Definitions()
    except NotUnderstood as error:
        sys.exit(str(error))
    least, most = options.least_work, options.limit_work
    chosen = [(place, v) for place, v in vectors if least <= v["answer"][WORK] <= most]
    if len(chosen) < len(vectors):
        print(f"{way}: {len(vectors) - len(chosen)} vectors left out, whose work is not from {least} to {most}")
    with multiprocessing.get_context("fork").Pool(options.processes) as pool:
        results = pool.map(differences, chosen, chunksize=1)
    return told(way, len(chosen), [(place, what) for place, what in results if what])


def through_definitions(vectors, options):
    return by_definitions("definitions", definition_differences, vectors, options)


# ---- Through the derivations
AT_THE_END = (0, 30, 31, 32)  # the refusals of an accepted call that meets no limit


def derivation_differences(task):
    place, v = task
    text, known = bytes.fromhex(v["text"]), v["parses"] or []
    try:
        derivable = DEFINITIONS.derivable(bytes.fromhex(v["book"]), text, v["start"])
    except Unended:
        return place, "the search for derivations did not end"
    listed = set(DEFINITIONS.listed(text, v["cells"] or [], known))
    alike, missing, wrong = len(known) - len(listed), len(derivable - listed), len(listed - derivable)
    if alike or missing or wrong:
        return place, f"of {len(known)} parses {alike} alike and {wrong} not derivable; {missing} derivable are missing"
    return place, ""


def through_derivations(vectors, options):
    ended = [(place, v) for place, v in vectors if v["answer"][REFUSAL] in AT_THE_END]
    if len(ended) < len(vectors):
        print(f"derivations: {len(vectors) - len(ended)} vectors left out, which are not accepted or meet a limit")
    return by_definitions("derivations", derivation_differences, ended, options)


THROUGH = {"reader": through_reader, "library": through_library}
THROUGH |= {"definitions": through_definitions, "derivations": through_derivations}


def main():
    options = argparse.ArgumentParser(description=__doc__, formatter_class=argparse.RawDescriptionHelpFormatter)
    options.add_argument("--through", choices=THROUGH, required=True)
    options.add_argument("--at", default="O3", metavar="WAYS")
    options.add_argument("--library", default=PROVED, metavar="FILE")
    options.add_argument("--processes", type=int, default=1, metavar="N")
    options.add_argument("--limit-work", type=int, default=MOST_UNITS, metavar="N")
    options.add_argument("--least-work", type=int, default=0, metavar="N")
    options.add_argument("files", nargs="+", metavar="VECTORS.jsonl")
    chosen = options.parse_args()
    if not set(chosen.at.split(",")) <= {*WAYS, "interpreter"}:
        options.error(f"the ways are {', '.join(WAYS)} and interpreter")
    sys.exit(0 if THROUGH[chosen.through](list(read(chosen.files)), chosen) else 1)


if __name__ == "__main__":
    main()
