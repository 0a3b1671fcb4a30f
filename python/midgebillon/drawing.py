"""A value's tree, drawn with the names of its nonterminals and variants."""
import itertools
import re

from . import book as books
from .notation import DECLARED
from .reading import skip
from .tree import Absent, Declared, List, Number, Variant, leaf_text

MOST_LINES = 2000
MOST_NODES = 20_000  # that are written; a node need not have a token
TOKEN = re.compile(rb"0*(?P<number>[0-9]+)|[A-Za-z_][A-Za-z0-9_]*|.")
WITHOUT_ITEM = (books.CHARACTER, books.WORD, books.NO_VARIABLE, books.NO_RESERVED)


def _is_binder(step):
    return step is not None and step.kind == books.BINDER


def _item_steps(view, node, step):
    """The step of each item of a node, where it tells something of the item. The first item of a binder's is what it
    declares, and the kinds in that list keep the step."""
    if isinstance(node, List):
        return [step if _is_binder(step) else None] * len(node.items)
    steps = [step for step in view.book.variants[node.number].steps if step.kind not in WITHOUT_ITEM]
    return [each for step in steps for each in ([step, None] if _is_binder(step) else [step])]


def _of_names(view, node):
    """What a binder declares, or one of the kinds in that list."""
    if isinstance(node, Number):
        return f"{view.book.words[node.value].spelling} (kind {node.value})"
    return f"{DECLARED}: {len(node.items)} in the list" if isinstance(node, List) else f"no {DECLARED}"


def _said(view, node, step):
    """A node in a line. Its step, where it has one, tells what an absent or a list is of."""
    if isinstance(node, Variant):
        return view.title(node.number)
    if _is_binder(step):
        return _of_names(view, node)
    if isinstance(node, List):
        return f"{view.step(step)}: {len(node.items)} in the list" if step else "a list"
    if isinstance(node, Absent):
        return f"no {view.names[step.a]}" if step else "absent"
    return leaf_text(node)


def drawing(view, tree, most=MOST_LINES):
    """The lines of a tree. Beyond the most there is a line that says so: a tree can have any number of nodes."""
    lines, todo = [], [(tree, None, "", "")]
    while todo:
        node, step, first, further = todo.pop()
        if len(lines) == most:
            lines.append("... the drawing ends here: the tree has more lines")
            break
        lines.append(first + _said(view, node, step))
        if isinstance(node, (Variant, List)):
            steps, last = _item_steps(view, node, step), len(node.items) - 1
            children = [
                (item, step, further + ("└─ " if i == last else "├─ "), further + ("   " if i == last else "│  "))
                for i, (item, step) in enumerate(zip(node.items, steps))
            ]
            todo += reversed(children)
    return lines


def bracketed(view, tree, most=400, with_braces=True, text=b""):
    """A tree as the text that it was read from, with one space between tokens and braces around each variant within
    another that has more than one token; cut where it is long. A tree has no spellings of declared names: they are
    taken from the text where it is given and fits, and else are v0, v1 and so on in order."""
    names = _spellings(view, tree, text) if view.book.declares else ()
    out, length, tokens = [], 0, _tokens(view, tree, with_braces, names or map("v{}".format, itertools.count()))
    for token in tokens:
        if length > most:
            out.append("...")
            break
        out.append(token)
        length += len(token) + 1
    return " ".join(out)


def _spellings(view, tree, text):
    """The spellings of the names that a tree declares, in the order of the text that it was read from; none where the
    two don't fit token by token."""
    found, place = {}, 0
    for token in _tokens(view, tree, False, map("\0{}".format, itertools.count())):
        word, place = _word(text, place)
        if word == "," != token:  # behind the last of a list
            word, place = _word(text, place)
        if word != (found.setdefault(token, word) if token[0] == "\0" else token):
            return ()
    return list(found.values())


def _word(text, place):
    """The next identifier, number or character as it is printed, or nothing; and the place behind it."""
    found = TOKEN.match(text, skip(text, place))
    return (found.group(found.lastgroup or 0).decode("latin-1"), found.end()) if found else ("", place)


def _tokens(view, tree, with_braces, names):
    """The tokens of a tree, with what its declared names are called, in the order in which they are written."""
    todo, names, nodes = [(tree, ())], iter(names), 0
    while todo:
        node, scope = todo.pop()
        nodes += 1
        if nodes > MOST_NODES:
            yield "..."
            return
        if isinstance(node, str):
            yield node
        elif isinstance(node, Variant):
            tokens = list(_written(view, node, scope, names))
            braces = with_braces and node is not tree and len(tokens) > 1
            todo += reversed([("{", ())] * braces + tokens + [("}", ())] * braces)
        elif not isinstance(node, Absent):
            todo.append((_leaf(node, scope), scope))


def _leaf(node, scope):
    """A leaf as it is written. A scope has the names of each binder around, the innermost first."""
    if isinstance(node, Declared) and node.depth < len(scope):
        return scope[node.depth][node.index]
    return leaf_text(node).lstrip("$")


def _written(view, node, scope, names):
    """A variant's characters, words and items, in step order, each with its scope."""
    items = iter(node.items)
    for step in view.book.variants[node.number].steps:
        if step.kind == books.CHARACTER:
            yield chr(step.a), scope
        elif step.kind == books.WORD:
            yield view.book.words[step.a].spelling, scope
        elif step.kind == books.BINDER:
            kinds = next(items)
            if isinstance(kinds, List):
                declared = list(itertools.islice(names, len(kinds.items)))
                yield from ((token, scope) for token in _declared(view, step, kinds, declared))
                scope = (declared, *scope)
            yield next(items), scope
        elif step.kind not in WITHOUT_ITEM:
            yield from ((token, scope) for token in _listed(step, next(items)))


def _declared(view, step, kinds, names):
    """An opening with its names, each behind the word for its kind."""
    words = [view.book.words[kind.value].spelling for kind in kinds.items]
    inside = [token for pair in zip(words, names) for token in (",", *pair)][1:]
    return [chr(step.b), *inside, chr(step.c)]


def _listed(step, item):
    """An item with what its step takes around it."""
    if not isinstance(item, List):
        return [item]
    if step.kind == books.MANY:
        return item.items
    inside = [part for each in item.items for part in (",", each)][1:]
    if step.kind == books.COMMA_LIST or step.kind == books.OPTIONAL_DELIMITED and not item.items:
        return inside
    return [chr(step.b), *inside, chr(step.c)]
