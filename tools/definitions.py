#!/usr/bin/env python3
"""Translates the definitions of `crates/semantics/specs` and `crates/printing/specs`, and those they use, into Python;
and the rules of `crates/semantics/specs/Derivations.antt` into a search for all that they derive.

The definitions are read as they stand and translated word by word into Python functions; nothing of what they say is
written again here. What is written here by hand is only what the definitions take from libraries: booleans, numbers,
lists, options, and the comparisons and list functions of std's `Prelude` (see BUILTINS). Whatever in a file
is not understood stops the program with the file and the line.

    python3 tools/definitions.py --python

prints the Python text. `python3 tools/replay.py --through definitions` runs it on vectors.

A rule of Derivations becomes a generator, premise by premise: of a goal in which the parse is missing it yields the
parses that the rule gives. What is written here by hand is where the parse of a goal stands (SOUGHT), and that what is
derivable is the least that the rules are closed under. `python3 tools/replay.py --through derivations` compares it with
the parses of vectors.

Values are represented so: numbers and booleans as Python's; a list as (head, tail, length), the empty one as NIL; a
constructor as a tuple of its name and its arguments; a record as a named tuple; a pair as a pair; a function as a
Python function.
"""
import argparse
import collections
import os
import re
import sys
import threading

ENTRY = ("semantics", "Answer", "answer_of")
CHECK = ("book", "Check", "check_book")
LINE = ("printing", "Printing", "line_bytes")
GOAL = ("semantics", "Derivations", "DerivesText")
PARSES = ("semantics", "Cells", "cells_in"), ("semantics", "Cells", "tree_at"), ("book", "Book", "associativity_number")
# where the parse of a goal stands: as the last index; or in this field of the first, an attempt, where it is the last
SOUGHT = {"Derives": None, "Through": "parse"}
MOST_TURNS = 20000              # of the search for derivations, before it is given up
ANSWER = ["refusal", "place", "kind", "argument", "work", "parses", "value"]
CELL_SIZE = 3                   # the numbers of a cell
ROOT = os.path.dirname(os.path.dirname(os.path.abspath(__file__)))


class NotUnderstood(Exception):
    pass


# ---- What the definitions take from libraries
NIL = (None, None, 0)


def cons(x, xs):
    return (x, xs, xs[2] + 1)


def from_python(items, xs=NIL):
    for x in reversed(items):
        xs = (x, xs, xs[2] + 1)
    return xs


def to_python(xs):
    items = []
    while xs is not NIL:
        items.append(xs[0])
        xs = xs[1]
    return items


def append(xs, ys):
    return from_python(to_python(xs), ys)


def get_or(xs, i, default):
    while i and xs is not NIL:
        xs = xs[1]
        i -= 1
    return default if xs is NIL else xs[0]


def drop(n, xs):
    while n and xs is not NIL:
        xs = xs[1]
        n -= 1
    return xs


def take(n, xs):
    items = []
    while n and xs is not NIL:
        items.append(xs[0])
        xs = xs[1]
        n -= 1
    return from_python(items)


def prefix_len(test, xs):
    n = 0
    while xs is not NIL and apply(test, xs[0]):
        xs = xs[1]
        n += 1
    return n


def apply(f, *arguments):
    """A function that is a value, applied: it may give a function that takes the arguments left over."""
    n = f.__code__.co_argcount
    if len(arguments) == n:
        return f(*arguments)
    if len(arguments) < n:
        raise NotUnderstood("a function that is a value has too few arguments: " + f.__name__)
    return apply(f(*arguments[:n]), *arguments[n:])


RUNTIME = {
    "NIL": NIL, "cons": cons, "append": append, "get_or": get_or, "drop": drop, "take": take, "apply": apply,
    "prefix_len": prefix_len,
    "replicate": lambda n, x: from_python([x] * n),
    "map_list": lambda f, xs: from_python([apply(f, x) for x in to_python(xs)]),
    "NotUnderstood": NotUnderstood,
}

# name: number of arguments, Python text. A second argument of && and ||, and both branches of cond, wait for the first
BUILTINS = {
    "true": (0, "True"), "false": (0, "False"), "tt": (0, "()"), "[]": (0, "NIL"), "zero": (0, "0"),
    "suc": (1, "({} + 1)"), "not": (1, "(not {})"),
    "cond": (3, "({1} if {0} else {2})"), "◌&&◌": (2, "({} and {})"), "◌||◌": (2, "({} or {})"),
    "◌+◌": (2, "({} + {})"), "◌-◌": (2, "max(0, {} - {})"), "◌*◌": (2, "({} * {})"),
    "◌/◌": (2, "({} // {})"), "◌%◌": (2, "({} % {})"), "◌^◌": (2, "({} ** {})"),
    "leb": (2, "({} <= {})"), "ltb": (2, "({} < {})"), "eqb": (2, "({} == {})"),
    "◌∷◌": (2, "cons({}, {})"), "◌++◌": (2, "append({}, {})"), "length": (1, "{}[2]"), "get_or": (3, "get_or({}, {}, {})"),
    "take": (2, "take({}, {})"), "drop": (2, "drop({}, {})"), "replicate": (2, "replicate({}, {})"),
    "map": (2, "map_list({}, {})"), "prefix_len": (2, "prefix_len({}, {})"),
}
CONSTRUCTORS = {"None": 0, "Some": 1, "Ok": 1, "Err": 1}
TYPES = {"Bool", "List", "Option", "Result", "ℕ", "Unit", "◌≡◌", "◌<◌"}
ALWAYS = ["tt"]
FIXITIES = {
    "◌||◌": (30, "l"), "◌&&◌": (35, "l"), "◌++◌": (65, "l"), "◌+◌": (65, "l"), "◌-◌": (65, "l"), "◌∷◌": (67, "r"),
    "◌*◌": (70, "l"), "◌/◌": (70, "l"), "◌%◌": (70, "l"), "◌^◌": (75, "r"),
}
# the clauses of `when`, without its name: calls of a function with just these are written as a branch
WAITING = "true f g = f tt false f g = g tt".split()

# ---- Words of a file, with line and column
Word = collections.namedtuple("Word", "text line column first")
OPENING, CLOSING = "([{", ")]}"


def words_of(file):
    words = []
    with open(file, encoding="utf-8") as lines:
        for number, line in enumerate(lines, 1):
            first = True
            for match in re.finditer(r"--(?=\s|$).*|[()\[\]{},;]|λ|[^\s()\[\]{},;λ]+", line):
                text, column = match.group(), match.start()
                if text.startswith("--"):
                    break
                if text == "]" and words and words[-1][:3] == ("[", number, column - 1):
                    words[-1] = Word("[]", number, column - 1, words[-1].first)
                    continue
                dot = len(text) > 1 and text.endswith(".")    # the end of a lambda's variables
                words.append(Word(text[:-1] if dot else text, number, column, first))
                if dot:
                    words.append(Word(".", number, column + len(text) - 1, False))
                first = False
    return words


def blocks(words):
    """The items that begin at the column of the first word, each with all that is indented more or inside brackets."""
    items, depth = [], 0
    for word in words:
        if not items or (word.first and depth == 0 and word.column <= items[0][0].column):
            items.append([])
        items[-1].append(word)
        depth += (word.text in OPENING) - (word.text in CLOSING)
    return items


# ---- What a name stands for
Function = collections.namedtuple("Function", "python parameters arity")      # parameters: those of its sections
Constructor = collections.namedtuple("Constructor", "tag arity")
Builtin = collections.namedtuple("Builtin", "name")
Type = collections.namedtuple("Type", "constructors")
Variable = collections.namedtuple("Variable", "python")
Parameter = collections.namedtuple("Parameter", "name python")

# Expressions and patterns are tuples: their kind, the word that an error names, and their parts


class Program:
    """All files read so far: their scopes, and the Python text made of them."""

    def __init__(self, root):
        self.root, self.scopes, self.lines, self.fixities = root, {}, [], dict(FIXITIES)
        self.records, self.counter, self.enums = {}, 0, {}
        self.waiting = []           # functions that are `when`
        self.rules = {}             # of each inductive family: its rules, as Python functions
        self.namespace = dict(RUNTIME)

    def fresh(self, name):
        self.counter += 1
        return "%s_%d" % (re.sub(r"[^A-Za-z0-9]", "_", "v_" + name), self.counter)

    def record_class(self, fields):
        key = frozenset(fields)
        if key not in self.records:
            name = "Record%d" % len(self.records)
            self.records[key] = (name, list(fields))
            self.namespace[name] = collections.namedtuple(name, [field_name(f) for f in fields])

    def scope(self, crate, module):
        if (crate, module) not in self.scopes:
            path = os.path.join(self.root, "crates", crate, "specs", *module.split(".")) + ".antt"
            self.scopes[crate, module] = File(self, path, crate).scope
        return self.scopes[crate, module]

    def declared(self, crate, module):
        """The types of a source file: an enum's constructors with the numbers of their fields; a struct's fields."""
        if (crate, module) in self.enums:
            return self.enums[crate, module]
        path = os.path.join(self.root, "crates", crate, "src", *module.split(".")) + ".rt"
        with open(path, encoding="utf-8") as file:
            text = re.sub(r"//.*", "", file.read())
        types = {}
        for match in re.finditer(r"pub (enum|struct) (\w+) \{(.*?)\n\}", text, re.S):
            form, name, body = match.groups()
            if form == "struct":
                self.record_class(re.findall(r"(\w+)\s*:", body))
                types[name] = Type({})
                continue
            constructors = {}
            for variant in re.finditer(r"(\w+)\s*(\(([^)]*)\)|\{([^}]*)\})?\s*,", body):
                fields = variant.group(3) or variant.group(4) or ""
                arity = len([f for f in fields.split(",") if f.strip()])
                constructors[variant.group(1)] = Constructor(name + "." + variant.group(1), arity)
            types[name] = Type(constructors)
        self.enums[crate, module] = types
        return types

    def load(self, *entries):
        functions = [self.scope(crate, module)[name] for crate, module, name in entries]
        exec(compile("\n".join(self.lines), "definitions", "exec"), self.namespace)
        return [self.namespace[function.python] for function in functions]


def field_name(field):
    return "f_" + re.sub(r"[^A-Za-z0-9]", "_", field)


class File:
    """One file: its scope grows item by item, so that a name means what stands above it."""

    def __init__(self, program, path, crate):
        self.program, self.path, self.crate = program, path, crate
        self.scope = {name: Builtin(name) for name in ALWAYS}
        self.sections = []          # the parameters of the sections around, outermost first
        self.held = None            # in a `mutual` block: what is left to write
        self.block(words_of(path))

    def stop(self, word, why):
        raise NotUnderstood("%s:%d: %s: `%s`" % (self.path, word.line, why, word.text))

    # ---- Items
    def block(self, words):
        items = blocks(words)
        i = 0
        while i < len(items):
            item = items[i]
            i += 1
            texts = [w.text for w in item]
            head = 0
            while texts[head] in ("pub", "abbrev", "unfoldable"):
                head += 1
            if texts[0] == "use":
                self.use(item)
            elif texts[0] in ("infixl", "infixr"):
                self.fixity(item)
            elif texts[head] == "mutual":
                self.together(item[head + 1:])
            elif texts[:2] == ["module", "_"]:
                self.section(item)
            elif texts[head] == "data":
                self.data(item[head + 1:])
            elif texts[head] == "record" and "where" in texts:
                self.record(item[head + 1:])
            elif texts[head + 1:head + 2] == [":"]:
                clauses = []
                while i < len(items) and items[i][0].text == texts[head] and items[i][1].text != ":":
                    clauses.append(items[i])
                    i += 1
                self.definition(item[head], item[head + 2:], clauses)
            else:
                self.stop(item[0], "no known item")

    def use(self, item):
        text = " ".join(w.text for w in item[1:])
        match = re.fullmatch(r"([^{]+?)\. ?\{ (.*) \}", re.sub(r"\s+", " ", text))
        if not match:
            self.stop(item[0], "no known import")
        source, names = match.group(1).strip(), [n.split() for n in match.group(2).split(",")]
        own = re.fullmatch(r"Rattle\.(?!std\.)(\w+)\.specs\.(.*)", source)
        for parts in names:
            if len(parts) != 1 and not (len(parts) == 3 and parts[1] == "as"):
                self.stop(item[0], "no known import")
            name, here = parts[0], parts[-1]
            if not own:
                if name in BUILTINS:
                    self.scope[here] = Builtin(name)
                elif name in CONSTRUCTORS:
                    self.scope[here] = Constructor(name, CONSTRUCTORS[name])
                elif name in TYPES:
                    self.scope[here] = Type({})
                else:
                    self.stop(item[0], "no built-in of this name: " + name)
                continue
            crate, place = own.groups()
            declared = re.fullmatch(r"declared\.(.+?)\.(\w+)(\.TheVariants)?", place)
            if declared:
                types = self.program.declared(crate, declared.group(1))
                found = types.get(declared.group(2))
                if found and declared.group(3):
                    found = found.constructors.get(name)
            else:
                found = self.program.scope(crate, place).get(name)
            if found is None:
                self.stop(item[0], "no such name there: " + name)
            self.scope[here] = found

    def fixity(self, item):
        for word in item[2:]:
            self.program.fixities[word.text] = (int(item[1].text), item[0].text[-1])

    def section(self, item):
        end = next(i for i, w in enumerate(item) if w.text == "where")
        added, i = [], 2
        while i < end:
            if item[i].text not in ("(", "{"):
                self.stop(item[i], "no known parameter")
            stop, depth = i + 1, 1
            while depth:
                depth += (item[stop].text in OPENING) - (item[stop].text in CLOSING)
                stop += 1
            if item[i].text == "(":        # those in braces are types
                for word in item[i + 1:stop]:
                    if word.text == ":":
                        break
                    added.append(Parameter(word.text, self.program.fresh(word.text)))
            i = stop
        self.sections += added
        self.block(item[end + 1:])
        if added:
            del self.sections[-len(added):]

    def data(self, item):
        name = item[0].text
        where = next(i for i, w in enumerate(item) if w.text == "where")
        constructors = {}
        self.scope[name] = Type(constructors)
        family = name in SOUGHT
        if family:
            self.program.rules[name] = []
        for line in blocks(item[where + 1:]):
            colon = next((i for i, w in enumerate(line) if w.text == ":"), None)
            if not colon:
                self.stop(line[0], "no known constructor")
            if family:
                self.held.append(lambda rule=line[0], words=line[colon + 1:]: RuleWriter(self, rule).rule(name, words))
                continue
            arity = self.arity(line[colon + 1:])
            for word in line[:colon]:
                constructors[word.text] = self.scope[word.text] = Constructor(name + "." + word.text, arity)

    def split(self, words, at):
        """The parts of words between those that are `at`, outside brackets."""
        parts, depth = [[]], 0
        for word in words:
            depth += (word.text in OPENING) - (word.text in CLOSING)
            if word.text == at and depth == 0:
                parts.append([])
            else:
                parts[-1].append(word)
        return parts

    def arity(self, words):
        """How many explicit arguments a constructor's type has."""
        parts = self.split(words, "→")
        count = 0
        for part in parts[:-1]:
            if part[0].text == "{":         # implicit arguments
                continue
            if part[0].text == "(" and ":" in [w.text for w in part]:
                self.stop(part[0], "no known argument")
            count += 1
        return count

    def record(self, item):
        where = next(i for i, w in enumerate(item) if w.text == "where")
        self.scope[item[0].text] = Type({})
        fields = []
        for line in blocks(item[where + 1:]):
            if [w.text for w in line[0:3:2]] != ["pub", ":"]:
                self.stop(line[0], "no known field")
            fields.append(line[1].text)
        self.program.record_class(fields)

    def together(self, words):
        """Items that name each other: the functions are known before the first is written."""
        self.held = []
        self.block(words)
        held, self.held = self.held, None
        for write in held:
            write()

    def definition(self, name, kind, clauses):
        if not clauses:
            self.stop(name, "no clauses")
        if [w.text for w in kind[-2:-1]] == ["Type"]:      # a name for a type: nothing to run, but for a goal
            self.scope[name.text] = Type({})
            if clauses[0][[w.text for w in clauses[0]].index("=") + 1].text in self.program.rules:
                self.scope[name.text] = RuleWriter(self, name).named_goal(clauses[0][1:])
            return
        parsed = [Parser(self, clause).clause() for clause in clauses]
        arity = len(parsed[0][0])
        python = self.program.fresh(name.text)
        function = Function(python, list(self.sections), arity)
        self.scope[name.text] = function
        if [w.text for clause in clauses for w in clause[1:]] == WAITING:
            self.program.waiting.append(function)
        writer = Writer(self, {p.name: Variable(p.python) for p in self.sections})

        def write():
            self.program.lines += writer.function(name, function, parsed, writer.scope, "")
        if self.held is None:
            write()
        else:
            self.held.append(write)


class Parser:
    """Patterns and expressions of one clause."""

    def __init__(self, file, words):
        self.file, self.words, self.at = file, words, 0

    def peek(self):
        return self.words[self.at].text if self.at < len(self.words) else None

    def next(self, wanted=None):
        if self.at >= len(self.words):
            self.file.stop(self.words[-1], "something is missing behind")
        word = self.words[self.at]
        if wanted is not None and word.text != wanted:
            self.file.stop(word, "not the `%s` wanted" % wanted)
        self.at += 1
        return word

    # ---- Clauses: (patterns, body, local functions)
    def clause(self):
        locals_, depth = [], 0
        for i, word in enumerate(self.words):
            depth += (word.text in OPENING) - (word.text in CLOSING)
            if word.text == "where" and word.first and depth == 0:
                locals_ = self.words[i + 1:]
                self.words = self.words[:i]
                break
        self.next()
        patterns = []
        while self.peek() != "=":
            patterns.append(self.pattern_atom())
        self.next("=")
        body = self.expression()
        if self.peek() is not None:
            self.file.stop(self.words[self.at], "too much")
        return patterns, body, self.local_functions(locals_)

    def local_functions(self, words):
        functions, items, i = [], blocks(words) if words else [], 0
        while i < len(items):
            name = items[i][0]
            if items[i][1].text != ":":
                self.file.stop(name, "no known local item")
            i += 1
            clauses = []
            while i < len(items) and items[i][0].text == name.text:
                clauses.append(Parser(self.file, items[i]).clause())
                i += 1
            if not clauses:
                self.file.stop(name, "no clauses")
            functions.append((name, clauses))
        return functions

    # ---- Names of constructors and operators
    def lookup(self, word):
        text = word.text
        if text in self.file.scope:
            return self.file.scope[text]
        if "." in text:
            kind, name = text.rsplit(".", 1)
            found = self.file.scope.get(kind)
            if isinstance(found, Type) and name in found.constructors:
                return found.constructors[name]
            self.file.stop(word, "no such constructor")
        return None

    def operator(self):
        text = self.peek()
        return "◌%s◌" % text if text and "◌%s◌" % text in self.file.scope else None

    # ---- Patterns
    def pattern_atom(self):
        word = self.next()
        if word.text == "(":
            pattern = self.pattern(0)
            self.next(")")
            return pattern
        if word.text.isdigit():
            return ("number", word, int(word.text))
        found = self.lookup(word)
        if isinstance(found, Constructor) or (isinstance(found, Builtin) and word.text in ("[]", "true", "false", "zero", "suc")):
            return ("constructor", word, found, [])
        if word.text in ",;{}[]|" or "." in word.text:
            self.file.stop(word, "no known pattern")
        return ("variable", word)

    def pattern(self, least):
        left = self.pattern_atom()
        while self.peek() not in (")", "↦", "=", None) and not self.operator():
            if left[0] != "constructor":
                self.file.stop(left[1], "no known constructor")
            left = left[:3] + (left[3] + [self.pattern_atom()],)
        while self.operator():
            strength, side = self.file.program.fixities[self.operator()]
            if strength < least:
                break
            word = self.words[self.at]
            found = self.file.scope[self.operator()]
            self.next()
            right = self.pattern(strength + (side == "l"))
            left = ("constructor", word, found, [left, right])
        return left

    # ---- Expressions
    def expression(self, least=0):
        word = self.words[self.at] if self.at < len(self.words) else self.next()
        if word.text == "λ":
            self.next()
            names = []
            while self.peek() != ".":
                names.append(self.next())
            self.next(".")
            return ("lambda", word, names, self.expression())
        if word.text == "let":
            self.next()
            name = self.next()
            self.next("=")
            value = self.expression()
            self.next("in")
            return ("let", word, name, value, self.expression())
        if word.text == "do":
            return self.do_block()
        left = self.application()
        while self.operator():
            if self.operator() not in self.file.program.fixities:
                self.file.stop(self.words[self.at], "no known strength")
            strength, side = self.file.program.fixities[self.operator()]
            if strength < least:
                break
            word = self.words[self.at]
            name = Word(self.operator(), word.line, word.column, False)
            self.next()
            left = ("apply", word, ("name", name), [left, self.expression(strength + (side == "l"))])
        return left

    def do_block(self):
        """`x ← e` and what follows is `e >>= (λ x. ..)`. The block ends with the bracket in which it stands."""
        word = self.next("do")
        first, depth = self.at, 0
        while self.at < len(self.words) and (depth > 0 or self.words[self.at].text not in CLOSING):
            depth += (self.words[self.at].text in OPENING) - (self.words[self.at].text in CLOSING)
            self.at += 1
        lines = blocks(self.words[first:self.at])
        result = None
        for line in reversed(lines):
            if result is None:
                result = Parser(self.file, line).whole()
                continue
            if line[1].text != "←":
                self.file.stop(line[0], "no known line of a do")
            bind = ("name", Word("◌>>=◌", line[0].line, line[0].column, False))
            result = ("apply", line[0], bind, [Parser(self.file, line[2:]).whole(), ("lambda", line[0], [line[0]], result)])
        if result is None:
            self.file.stop(word, "nothing follows")
        return result

    def whole(self):
        expression = self.expression()
        if self.peek() is not None:
            self.file.stop(self.words[self.at], "too much")
        return expression

    def application(self):
        result = self.atom()
        while True:
            text = self.peek()
            if text is None or text in (")", "]", "}", ",", ";", "|", "in", ".") or self.operator():
                return result
            argument = self.atom()
            if result[0] == "apply":
                result = result[:3] + (result[3] + [argument],)
            else:
                result = ("apply", result[1], result, [argument])

    def atom(self):
        """An expression in brackets, a name or a number, and the fields that stand right behind it, as in `x.f.g` and
        `(f x).g`."""
        result = self.bare()
        while (self.peek() or "").startswith(".") and self.stands_behind():
            result = self.fields(result, self.next().text[1:].split("."))
        return result

    def stands_behind(self):
        last, word = self.words[self.at - 1], self.words[self.at]
        return (last.line, last.column + len(last.text)) == (word.line, word.column)

    def fields(self, value, names):
        for name in names:
            value = ("field", self.words[self.at - 1], value, name)
        return value

    def bare(self):
        word = self.next()
        text = word.text
        if text == "(":
            inside = self.expression()
            if self.peek() == ",":
                self.next()
                inside = ("pair", word, inside, self.expression())
            self.next(")")
            return ("group", word, inside)
        if text == "elim":
            scrutinee, cases = self.atom(), []
            self.next("[")
            if self.peek() == "|":
                self.next()
            while True:
                pattern = self.pattern(0)
                self.next("↦")
                cases.append((pattern, self.expression()))
                if self.peek() != "|":
                    break
                self.next()
            self.next("]")
            return ("elim", word, scrutinee, cases)
        if text == "record":
            self.next("{")
            fields = {}
            while self.peek() != "}":
                name = self.next()
                self.next("=")
                fields[name.text] = self.expression()
                if self.peek() != "}":
                    self.next(";")
            self.next("}")
            return ("record", word, fields)
        if text.isdigit():
            return ("number", word, int(text))
        if text in OPENING + CLOSING or text in ", ; | = : ↦ ← . where λ let do in".split() or text.startswith("."):
            self.file.stop(word, "no known expression")
        first, *names = text.split(".")
        if isinstance(self.file.scope.get(first), Type):       # a constructor by its type's name
            return ("name", word)
        return self.fields(("name", word._replace(text=first)), names)


class Writer:
    """Writes the Python text of one definition."""

    def __init__(self, file, scope):
        self.file, self.scope = file, scope
        self.program = file.program

    def function(self, name, function, clauses, scope, indent):
        """A definition's lines. A call of itself that ends it, where nothing is captured, becomes a round of a loop."""
        lines = self.clauses(name, function, clauses, scope, indent, None)
        if not any("lambda" in line or "def " in line for line in lines[1:]):
            looping = self.clauses(name, function, clauses, scope, indent, function)
            if any(line.endswith("continue") for line in looping):
                return looping
        return lines

    def clauses(self, name, function, clauses, scope, indent, loop):
        arguments = [self.program.fresh("a") for _ in range(function.arity)]
        parameters = [p.python for p in function.parameters]
        out = [indent + "def %s(%s):" % (function.python, ", ".join(parameters + arguments))]
        if loop:
            out.append(indent + " while True:")
        self.loop, self.loop_arguments = loop, arguments
        inner, closed = indent + "  ", False
        for patterns, body, local_functions in clauses:
            if len(patterns) != function.arity:
                self.file.stop(name, "clauses of unequal length")
            if closed:
                self.file.stop(name, "a clause is never reached")
            tests, binds, within = [], [], dict(scope)
            for pattern, argument in zip(patterns, arguments):
                self.pattern(pattern, argument, tests, binds, within)
            deeper = self.open(out, inner, tests, binds)
            closed = not tests
            for local, local_clauses in local_functions:
                known = Function(self.program.fresh(local.text), [], len(local_clauses[0][0]))
                within[local.text] = known
                out += Writer(self.file, within).function(local, known, local_clauses, within, deeper)
            self.tail(body, within, out, deeper)
        if not closed:
            out.append(inner + "raise NotUnderstood(%r)" % ("no clause of %s fits" % name.text))
        return out

    def open(self, out, indent, tests, binds):
        if tests:
            out.append(indent + "if %s:" % " and ".join(tests))
            indent += " "
        out += [indent + "%s = %s" % bind for bind in binds]
        return indent

    def pattern(self, pattern, value, tests, binds, scope):
        kind, word = pattern[:2]
        if kind == "variable":
            if word.text == "_":
                return
            if value.isidentifier():
                scope[word.text] = Variable(value)
            else:
                python = self.program.fresh(word.text)
                scope[word.text] = Variable(python)
                binds.append((python, value))
            return
        if kind == "number":
            tests.append("%s == %d" % (value, pattern[2]))
            return
        found, inside = pattern[2:]
        if isinstance(found, Constructor):
            tests.append("%s[0] == %r" % (value, found.tag))
            parts, wanted = ["%s[%d]" % (value, i + 1) for i in range(found.arity)], found.arity
        else:
            test, parts = {
                "[]": ("%s is NIL", []), "true": ("%s", []), "false": ("not %s", []), "zero": ("%s == 0", []),
                "suc": ("%s > 0", ["(%s - 1)"]), "◌∷◌": ("%s is not NIL", ["%s[0]", "%s[1]"]),
            }.get(found.name) or self.file.stop(word, "no known constructor")
            tests.append(test % value)
            parts, wanted = [p % value for p in parts], len(parts)
        if len(inside) != wanted:
            self.file.stop(word, "a constructor with too few or too many arguments")
        for one, part in zip(inside, parts):
            self.pattern(one, part, tests, binds, scope)

    def resolve(self, word, scope):
        if word.text in scope:
            return scope[word.text]
        found = Parser(self.file, [word]).lookup(word)
        if found is None or isinstance(found, Type):
            self.file.stop(word, "no such name")
        return found

    def plain(self, expression):
        while expression[0] == "group":
            expression = expression[2]
        return expression

    def branches(self, expression, scope):
        """`cond b x y`, and `when b (λ _. x) (λ _. y)`, which is the same with branches that wait: b, x and y."""
        if expression[0] != "apply" or expression[2][0] != "name" or len(expression[3]) != 3:
            return None
        word = expression[2][1]
        test, yes, no = [self.plain(e) for e in expression[3]]
        if word.text in scope:
            return None
        if self.resolve(word, scope) == Builtin("cond"):
            return test, yes, no
        if self.resolve(word, scope) in self.program.waiting and yes[0] == no[0] == "lambda":
            if [name.text for name in yes[2] + no[2]] == ["_", "_"]:
                return test, yes[3], no[3]
        return None

    # ---- An expression whose value is the function's: statements
    def tail(self, expression, scope, out, indent):
        expression = self.plain(expression)
        kind, word = expression[:2]
        if kind == "let":
            value = self.value(expression[3], scope, out, indent)
            python = self.program.fresh(expression[2].text)
            out.append(indent + "%s = %s" % (python, value))
            return self.tail(expression[4], {**scope, expression[2].text: Variable(python)}, out, indent)
        if kind == "elim":
            value = self.value(expression[2], scope, out, indent)
            python = self.program.fresh("e")
            out.append(indent + "%s = %s" % (python, value))
            closed = False
            for pattern, body in expression[3]:
                if closed:
                    self.file.stop(pattern[1], "a case is never reached")
                tests, binds, within = [], [], dict(scope)
                self.pattern(pattern, python, tests, binds, within)
                self.tail(body, within, out, self.open(out, indent, tests, binds))
                closed = not tests
            if not closed:
                out.append(indent + "raise NotUnderstood(%r)" % ("no case fits in line %d" % word.line))
            return None
        branches = self.branches(expression, scope)
        if branches:
            test, yes, no = branches
            out.append(indent + "if %s:" % self.value(test, scope, out, indent))
            self.tail(yes, scope, out, indent + " ")
            return self.tail(no, scope, out, indent)
        if self.loop and kind == "apply" and expression[2][0] == "name" and expression[2][1].text not in scope:
            if self.resolve(expression[2][1], scope) == self.loop and len(expression[3]) == self.loop.arity:
                values = [self.value(e, scope, out, indent) for e in expression[3]]
                out.append(indent + "%s = %s" % (", ".join(self.loop_arguments), ", ".join(values)))
                out.append(indent + "continue")
                return None
        out.append(indent + "return " + self.value(expression, scope, out, indent))
        return None

    # ---- An expression: Python text; the functions that it needs are written before it, and not yet called
    def inner_function(self, names, body, scope, out, indent):
        python, within, parameters = self.program.fresh("f"), dict(scope), []
        for name in names:
            parameters.append(self.program.fresh(name.text))
            if name.text != "_":
                within[name.text] = Variable(parameters[-1])
        out.append(indent + "def %s(%s):" % (python, ", ".join(parameters)))
        writer = Writer(self.file, within)
        writer.loop = None
        writer.tail(body, within, out, indent + " ")
        return python

    def value(self, expression, scope, out, indent):
        expression = self.plain(expression)
        kind, word = expression[:2]
        if kind == "number":
            return str(expression[2])
        if kind == "pair":
            return "(%s, %s)" % (self.value(expression[2], scope, out, indent), self.value(expression[3], scope, out, indent))
        if kind == "field":
            value, field = self.value(expression[2], scope, out, indent), expression[3]
            if field.isdigit():
                return "%s[%s]" % (value, field)
            if not any(field in fields for fields in self.program.records):
                self.file.stop(word, "no such field")
            return "%s.%s" % (value, field_name(field))
        if kind == "record":
            if frozenset(expression[2]) not in self.program.records:
                self.file.stop(word, "no such record")
            name, fields = self.program.records[frozenset(expression[2])]
            return "%s(%s)" % (name, ", ".join(self.value(expression[2][f], scope, out, indent) for f in fields))
        if kind == "lambda":
            return self.inner_function(expression[2], expression[3], scope, out, indent)
        if kind in ("let", "elim"):
            return self.inner_function([], expression, scope, out, indent) + "()"
        branches = self.branches(expression, scope)
        if branches:
            test, yes, no = [self.value(e, scope, out, indent) for e in branches]
            return "(%s if %s else %s)" % (yes, test, no)
        if kind == "name":
            return self.call(word, self.resolve(word, scope), [])
        head = self.plain(expression[2])
        values = [self.value(e, scope, out, indent) for e in expression[3]]
        if head[0] == "name":
            return self.call(head[1], self.resolve(head[1], scope), values)
        return "apply(%s, %s)" % (self.value(head, scope, out, indent), ", ".join(values))

    def call(self, word, found, values):
        if isinstance(found, Variable):
            return "apply(%s, %s)" % (found.python, ", ".join(values)) if values else found.python
        if isinstance(found, Builtin):
            arity, text = BUILTINS[found.name]
        elif isinstance(found, Constructor):
            arity = found.arity
            text = "(%s)" % ", ".join([repr(found.tag)] + ["{}"] * arity) if arity else "(%r,)" % found.tag
        else:
            # the parameters of the sections around both are handed on; the others are arguments
            common = [a for a, b in zip(found.parameters, self.file.sections) if a == b]
            arity = len(found.parameters) - len(common) + found.arity
            text = "%s(%s)" % (found.python, ", ".join([p.python for p in common] + ["{}"] * arity))
        if len(values) == arity:
            return text.format(*values)
        if len(values) > arity:
            return "apply(%s, %s)" % (text.format(*values[:arity]), ", ".join(values[arity:]))
        given = ["g%d" % i for i in range(len(values))]
        missing = ["m%d" % i for i in range(arity - len(values))]
        body = "lambda %s: %s" % (", ".join(missing), text.format(*(given + missing)))
        return "(lambda %s: %s)(%s)" % (", ".join(given), body, ", ".join(values)) if given else "(%s)" % body


class RuleWriter(Writer):
    """Writes one rule of an inductive family: a generator of what is sought of a goal that is its conclusion."""

    def __init__(self, file, name):
        super().__init__(file, {p.name: Variable(p.python) for p in file.sections})
        self.name, self.python, self.out, self.indent = name, self.program.fresh(name.text), [], " "

    def rule(self, family, words):
        *premises, conclusion = self.file.split(words, "→")
        parser, patterns = Parser(self.file, conclusion[1:]), []
        while parser.peek() is not None:
            patterns.append(parser.pattern_atom())
        arguments, self.sought = [self.program.fresh("a") for _ in patterns], self.part(family, patterns)
        for pattern, argument in zip(patterns, arguments):
            if pattern[1].text != self.sought:
                self.fits(pattern, argument)
        for premise in premises:
            self.premise(premise)
        if self.sought not in self.scope:
            self.file.stop(self.name, "no premise says `%s` of" % self.sought)
        self.out.append(self.indent + "yield " + self.scope[self.sought].python)
        self.program.rules[family].append(self.python)
        self.define(["ask"] + arguments)

    def named_goal(self, words):
        """A function that gives a goal: of a clause without its name, which is `parameters = goal`."""
        end = [word.text for word in words].index("=")
        self.scope.update({word.text: Variable(self.program.fresh(word.text)) for word in words[:end]})
        self.out.append(" return (%s)" % self.goal(words[end + 1:])[0])
        self.define([self.scope[word.text].python for word in words[:end]])
        return Function(self.python, list(self.file.sections), end)

    def define(self, parameters):
        parameters = [p.python for p in self.file.sections] + parameters
        self.program.lines += ["def %s(%s):" % (self.python, ", ".join(parameters))] + self.out

    def premise(self, words):
        """A goal; a bound of a variable; an equation that says what is sought; or one of a value with a pattern."""
        bound, equation = self.file.split(words, "<"), self.file.split(words, "≡")
        if words[0].text == "{":        # the rule's variables
            return
        if words[0].text in self.program.rules:
            goal, part = self.goal(words)
            self.known(part, goal, "for ? in ask(%s):")
        elif len(bound) == 2:
            self.known(bound[0][0].text, self.written(bound[1]), "for ? in range(%s):")
        elif len(equation) == 2 and " ".join(word.text for word in equation[0]) == self.sought:
            self.known(self.sought, self.written(equation[1]), "? = %s")
        elif len(equation) == 2:
            value = self.program.fresh("e")
            self.out.append(self.indent + "%s = %s" % (value, self.written(equation[0])))
            parser = Parser(self.file, equation[1])
            self.fits(parser.pattern(0), value)
            if parser.peek() is not None:
                self.file.stop(words[0], "no known pattern in the premise of")
        else:
            self.file.stop(words[0], "no known premise")

    def goal(self, words):
        """The Python text of a goal, with None for what is sought of it; and what that is."""
        parser, indices = Parser(self.file, words[1:]), []
        while parser.peek() is not None:
            indices.append(parser.atom())
        part = self.part(words[0].text, indices)
        scope = {**self.scope, part: Variable("None")}
        values = [self.value(index, scope, self.out, self.indent) for index in indices]
        return ", ".join([repr(words[0].text)] + values), part

    def part(self, family, indices):
        """What is sought of a goal, by the words of the file: a variable, or a field of one."""
        place, field = (indices[0], "." + SOUGHT[family]) if SOUGHT[family] else (indices[-1], "")
        if field and place[0] == "group":
            place, field = self.plain(place)[3][-1], ""
        if place[0] not in ("name", "variable"):
            self.file.stop(place[1], "no known goal")
        return place[1].text + field

    def known(self, words, value, line):
        """From this line on, what these words of the file stand for is known."""
        self.unknown(words)
        self.scope[words] = Variable(self.program.fresh(words))
        self.out.append(self.indent + line.replace("?", self.scope[words].python) % value)
        self.indent += " " * line.endswith(":")

    def unknown(self, words):
        if words in self.scope:         # two values would have to be compared
            self.file.stop(self.name, "known before is `%s` of" % words)

    def fits(self, pattern, value):
        tests, binds = [], []
        self.pattern(pattern, value, tests, binds, self.scope)
        self.indent = self.open(self.out, self.indent, tests, binds)

    def pattern(self, pattern, value, tests, binds, scope):
        if pattern[0] == "variable":
            self.unknown(pattern[1].text)
        super().pattern(pattern, value, tests, binds, scope)

    def written(self, words):
        return self.value(Parser(self.file, words).whole(), self.scope, self.out, self.indent)


# ---- Running
def with_deep_stack(work):
    """The definitions call themselves deeply, so they run in a thread with a large stack."""
    result = []

    def body():
        try:
            result.append(work())
        except BaseException as error:          # handed to the caller
            result.append(error)
    sys.setrecursionlimit(10 ** 7)
    threading.stack_size(512 * 1024 * 1024)
    thread = threading.Thread(target=body)
    thread.start()
    thread.join()
    if isinstance(result[0], BaseException):
        raise result[0]
    return result[0]


class Unended(Exception):
    pass


class Definitions:
    """The call of document 01, the line of its answer and what is derivable, as the definitions give them."""

    def __init__(self, root=ROOT):
        self.program = Program(root)
        loaded = self.program.load(ENTRY, CHECK, LINE, GOAL, *PARSES)
        self.answer_of, self.check_book, self.line_bytes, self.goal_of = loaded[:4]
        self.cells_in, self.tree_at, self.associativity_number = loaded[4:]
        rules = self.program.rules.items()
        self.rules = {family: [self.program.namespace[python] for python in functions] for family, functions in rules}

    def read(self, book, text, start, allowance, cells, parses):
        """The seven numbers of the answer, both lists after the call, and the line."""
        return with_deep_stack(lambda: self.called(book, text, start, allowance, cells, parses))

    def called(self, book, text, start, allowance, cells, parses):
        result = self.answer_of(*map(from_python, (cells, parses, book, text)), start, allowance)
        answer = [getattr(result.f_answer, field_name(field)) for field in ANSWER]
        outcome = self.check_book(from_python(book))
        # of a book that isn't accepted no name is printed
        names = outcome[1].f_names if outcome[0] == "Outcome.book" else NIL
        # what a cell stands for is made of the cells before it: those behind the value's would only take time
        cells = take(CELL_SIZE * result.f_answer.f_value, result.f_cells)
        line = self.line_bytes(names, from_python(text), cells, result.f_answer)
        return answer, to_python(result.f_cells), to_python(result.f_parses), bytes(to_python(line))

    def derivable(self, book, text, start):
        """The parses of a text, of an accepted book, each by rest, level, associativity and tree. May raise Unended."""
        return with_deep_stack(lambda: self.searched(book, text, start))

    def searched(self, book, text, start):
        book, text = self.check_book(from_python(book))[1], from_python(text)
        found = self.closed(book, text, self.goal_of(book, text, start, None))
        return {(p.f_rest, p.f_level, self.associativity_number(p.f_associativity), p.f_value) for p in found}

    def closed(self, book, text, goal):
        """The least that the rules give of a goal. A goal has nothing at first; each turn adds what the rules give of
        one goal, from what the goals have so far; if that is more, those that asked for it are due again."""
        found, askers, due = {goal: {}}, {goal: {}}, {goal: None}
        for _ in range(MOST_TURNS):
            if not due:
                return list(found[goal])
            at = due.popitem()[0]

            def ask(*asked):
                if asked not in found:
                    found[asked], askers[asked], due[asked] = {}, {}, None
                askers[asked][at] = None
                return list(found[asked])
            given = {p: None for rule in self.rules[at[0]] for p in rule(book, text, ask, *at[1:])}
            if not given.keys() <= found[at].keys():
                found[at].update(given)
                due.update(askers[at])
        raise Unended

    def listed(self, text, cells, parses):
        """The parses that a call lists, by its text and cells, as those that are derivable."""
        return with_deep_stack(lambda: self.with_trees(from_python(text), self.cells_in(from_python(cells)), parses))

    def with_trees(self, text, cells, parses):
        return [(rest, level, side, self.tree_at(text, cells, cell)) for rest, level, side, cell in parses]


def main():
    options = argparse.ArgumentParser(description=__doc__, formatter_class=argparse.RawDescriptionHelpFormatter)
    options.add_argument("--python", action="store_true", help="print the Python text of the definitions")
    if not options.parse_args().python:
        options.error("nothing to do: see --help")
    try:
        print("\n".join(Definitions().program.lines))
    except NotUnderstood as error:
        sys.exit(str(error))


if __name__ == "__main__":
    main()
