"""A value as a tree. Equal parts of a value are one object, so a tree can have far more nodes than it takes memory: 2^n
for n variants that each have the next one twice. A walk needs a limit of its own."""
from dataclasses import dataclass


class Tree:
    """Any of those below. `str` is what document 01 prints."""

    def __str__(self):
        return printed(self)


@dataclass(frozen=True)
class Variant(Tree):
    """A variant, by its number in the book, with its items in the order of its steps."""

    number: int
    items: tuple


@dataclass(frozen=True)
class List(Tree):
    items: tuple


@dataclass(frozen=True)
class Identifier(Tree):
    """Its place is the first at which the text has it, in bytes."""

    place: int
    spelling: str


@dataclass(frozen=True)
class Number(Tree):
    value: int


@dataclass(frozen=True)
class Variable(Tree):
    """A starting name, by its number in the book."""

    name: int
    kind: int
    spelling: str


@dataclass(frozen=True)
class Declared(Tree):
    """A variable that the rule itself declares, by its binder's depth, which counts the openings that were read between
    it and the one that declares it, and by its index among that one's names; both from 0."""

    depth: int
    index: int


@dataclass(frozen=True)
class Absent(Tree):
    """An optional that isn't there, or the names of a rule that declares none."""


EMPTY_FORM, CHAIN_FORM, VARIANT_FORM, NAME_FORM, NUMBER_FORM, VARIABLE_FORM, ABSENT_FORM, LIST_FORM = range(1, 9)
DECLARED_FORM = 9
CELL_SIZE = 3


def items_of(tree):
    return tree.items if isinstance(tree, (Variant, List)) else ()


def trees(cells, text, names):
    """The tree of each cell, by its number; a chain's is a tuple. A cell names only cells before it."""
    made = [None]
    for i in range(0, len(cells), CELL_SIZE):
        form, a, b = cells[i : i + CELL_SIZE]
        if form == EMPTY_FORM:
            made.append(())
        elif form == CHAIN_FORM:
            made.append(made[a] + (made[b],))
        elif form == VARIANT_FORM:
            made.append(Variant(a, made[b]))
        elif form == NAME_FORM:
            made.append(Identifier(a, text[a : a + b].decode("ascii")))
        elif form == NUMBER_FORM:
            made.append(Number((a << 32) + b))
        elif form == VARIABLE_FORM:
            made.append(Variable(a, b, names[a].spelling))
        elif form == ABSENT_FORM:
            made.append(Absent())
        elif form == LIST_FORM:
            made.append(List(made[a]))
        elif form == DECLARED_FORM:
            made.append(Declared(a, b))
        else:
            break
    return made


def node_count(tree):
    """How many nodes a tree has, with shared ones counted at each use."""
    found, todo = {}, [tree]
    while todo:
        node = todo[-1]
        missing = [item for item in items_of(node) if id(item) not in found]
        if missing:
            todo += missing
        else:
            found[id(todo.pop())] = 1 + sum(found[id(item)] for item in items_of(node))
    return found[id(tree)]


def leaf_text(tree):
    """A tree without items, as document 01 prints it."""
    if isinstance(tree, Identifier):
        return tree.spelling
    if isinstance(tree, Variable):
        return "$" + tree.spelling
    if isinstance(tree, Declared):
        return f"${tree.depth}.{tree.index}"
    return str(tree.value) if isinstance(tree, Number) else "-"


def printed(tree):
    """A tree as document 01 prints it. `Reading.line` is the proved printing, and has a limit."""
    out, todo = [], [tree]
    while todo:
        node = todo.pop()
        if isinstance(node, str):
            out.append(node)
        elif isinstance(node, Variant):
            out.append(f"({node.number}")
            todo.append(")")
            todo += [part for item in reversed(node.items) for part in (item, " ")]
        elif isinstance(node, List):
            out.append("[")
            todo.append("]")
            todo += [part for item in reversed(node.items) for part in (item, " ")][: -1 if node.items else None]
        else:
            out.append(leaf_text(node))
    return "".join(out)
