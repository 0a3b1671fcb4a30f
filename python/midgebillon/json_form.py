"""An answer as JSON. A rule's numbers are strings there: they go up to 2^64 - 1, and many readers of JSON don't."""
import json

from .book import ASSOCIATIVITIES
from .picture import line_and_column
from .refusal import Refusal
from .tree import Declared, Identifier, List, Number, Variable, Variant, items_of, node_count

MOST_NODES = 20_000


def _fields(view, node):
    """What a node is, but for its items."""
    if isinstance(node, Variant):
        name = {"name": view.label(node.number)} if view.label(node.number) else {}
        nonterminal = view.names[view.book.owner(node.number)]
        return {"form": "variant", "number": node.number, "nonterminal": nonterminal, **name}
    if isinstance(node, List):
        return {"form": "list"}
    if isinstance(node, Identifier):
        return {"form": "identifier", "spelling": node.spelling, "place": node.place}
    if isinstance(node, Number):
        return {"form": "number", "value": str(node.value)}
    if isinstance(node, Variable):
        return {"form": "variable", "spelling": node.spelling, "name": node.name, "kind": node.kind}
    if isinstance(node, Declared):
        return {"form": "declared", "depth": node.depth, "index": node.index}
    return {"form": "absent"}


def tree_json(view, tree):
    """A tree as nested objects, or null where it has too many nodes. A value may be too deep for json.dumps."""
    if tree is None or node_count(tree) > MOST_NODES:
        return "null"
    out, todo = [], [tree]
    while todo:
        node = todo.pop()
        if isinstance(node, str):
            out.append(node)
            continue
        fields = json.dumps(_fields(view, node))
        if not isinstance(node, (Variant, List)):
            out.append(fields)
            continue
        out.append(fields[:-1] + ', "items": [')
        todo.append("]}")
        todo += [part for item in reversed(items_of(node)) for part in (item, ", ")][: -1 if items_of(node) else None]
    return "".join(out)


def _object(fields, **trees):
    """An object of fields, and of others that are JSON already."""
    return json.dumps(fields)[:-1] + "".join(f', "{name}": {tree}' for name, tree in trees.items()) + "}"


def _parse(reading, view, parse):
    fields = {
        "rest": parse.rest,
        "level": parse.level,
        "associativity": ASSOCIATIVITIES[parse.associativity],
        "whole": reading.is_whole(parse),
        "nodes": node_count(parse.value),
    }
    return _object(fields, tree=tree_json(view, parse.value))


def as_json(reading, view, file, explanation, proved):
    """Everything that is known of a reading, in one line. A tree of more than 20,000 nodes is null."""
    answer, refusal = reading.answer, reading.refusal
    placed = refusal in (Refusal.HIGH_BYTE, Refusal.NO_PARSE)
    line, column = line_and_column(reading.text, answer.place) if placed else (0, 0)
    fields = {
        "file": file,
        "proved": proved,
        "answer": answer._asdict(),
        "refusal": refusal.name.lower() if refusal else None,
        "error": reading.error.kind.name.lower() if reading.error else None,
        "line": line,
        "column": column,
        "explanation": explanation or None,
        "nodes": node_count(reading.value) if reading.value else 0,
    }
    parses = ", ".join(_parse(reading, view, parse) for parse in reading.parses)
    return _object(fields, tree=tree_json(view, reading.value), parses=f"[{parses}]")
