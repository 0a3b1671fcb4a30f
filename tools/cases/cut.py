"""The cut of the vectors that the repository has, and what vectors show.

The rule: of a file, in its order, each vector that shows what none of the file before it shows; then, of the others,
evenly as many as are wanted. open.jsonl is kept whole. What the whole files don't show, refusal 1 and some error kinds,
vectors/by_hand.jsonl does.
"""
from cases.books import sections
from cases.vectors import KIND, NUMBER_OF_PARSES, REFUSAL, WORK

WANTED = {"open": None, "reading": 500, "damaged": 200, "deep": 100, "binders": 150}
NO_PARSE = 30
CELL_SIZE = 3
DECLARED = 9  # the form of a declared variable's cell

# What there is to show, as documents 01 and 02 number it.
ALL = {
    "refusal": [0, *range(1, 12), *range(20, 24), *range(30, 33), 41],
    "error kind": [*range(1, 13)],
    "step kind": [*range(15)],
    "step kind in a value's book": [*range(15)],
    "mark": [*range(4)],
    "associativity": [*range(4)],
    "flags": [*range(4)],
    "form of a cell": [*range(1, 10)],
    "depth of a declared variable": [0, 1, 2],
    "index of a declared variable": [0, 1, 2],
}


def cells(vector):
    """The cells that were made, three numbers each."""
    numbers = (vector["cells"] or []) + [0] * (CELL_SIZE - 1)  # the zeros of the last one are cut
    return [numbers[at : at + CELL_SIZE] for at in range(0, len(numbers) - CELL_SIZE + 1, CELL_SIZE)]


def shown(vector):
    """What a vector shows: pairs of a sort and a number. A book shows its records if a run of it begins."""
    answer = vector["answer"]
    found = {("refusal", answer[REFUSAL]), ("number of parses", answer[NUMBER_OF_PARSES])}
    if answer[REFUSAL] == NO_PARSE:
        found.add(("error kind", answer[KIND]))
    for form, depth, index in cells(vector):
        found.add(("form of a cell", form))
        if form == DECLARED:
            found |= {("depth of a declared variable", depth), ("index of a declared variable", index)}
    if answer[WORK]:
        _, _, nonterminals, variants, steps = sections(bytes.fromhex(vector["book"]))
        found |= {("mark", record[0]) for record in nonterminals}
        found |= {("associativity", record[1]) for record in variants} | {("flags", record[2]) for record in variants}
        found |= {("step kind", record[0]) for record in steps}
        if answer[REFUSAL] == 0:
            found |= {("step kind in a value's book", record[0]) for record in steps}
    return found


def chosen(vectors, wanted):
    """The numbers of the chosen ones among vectors, by the rule above; all if no number is wanted."""
    if wanted is None:
        return [*range(len(vectors))]
    first, others, seen = [], [], set()
    for number, vector in enumerate(vectors):
        (others if shown(vector) <= seen else first).append(number)
        seen |= shown(vector)
    more = max(0, wanted - len(first))
    return sorted(first + [others[i * len(others) // more] for i in range(more)])


def coverage(vectors):
    """By sort and number, how many vectors show it."""
    all_shown = [*map(shown, vectors)]
    return {
        sort: {number: sum((sort, number) in found for found in all_shown) for number in numbers}
        for sort, numbers in ALL.items()
    }
