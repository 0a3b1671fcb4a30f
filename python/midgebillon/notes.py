"""What looks wrong in a book that is accepted: notes for those who write it. Nothing here is refused.

A note is a variant's number, or None, and a sentence.
"""
from . import book as books
from .picture import line_and_column
from .wanted import Grammar, Part, Terminal, variables


def _variants(view):
    """Each variant's number, its nonterminal's number, and itself."""
    owners = [i for i, nonterminal in enumerate(view.book.nonterminals) for _ in nonterminal.variants]
    return list(zip(range(len(owners)), owners, view.book.variants))


# ---- What makes a reading grow without end, or have many ways
def _endless_lists(view, grammar):
    for number, _, variant in _variants(view):
        for step in variant.steps:
            if step.kind == books.MANY and Part(books.NONTERMINAL, step.a) in grammar.nullable:
                yield number, (
                    f"{view.names[step.a]} may take nothing, so {view.step(step)} is any number of empty ones: where it"
                    " is reached the reader gives up (refusal 21 or 22)"
                )


def _alone(view, grammar):
    """For each variant that keeps what it finds anew: the nonterminals that it may be, with nothing else."""
    found = {}
    for number, owner, variant in _variants(view):
        symbols = grammar.rules[grammar.of[Part(books.NONTERMINAL, owner)][number - _first(view, owner)]].symbols
        if variant.associativity in (books.LEFT, books.BOTH):
            others = lambda i: all(grammar.takes_nothing(symbol) for j, symbol in enumerate(symbols) if j != i)
            found[number] = {s.a for i, s in enumerate(symbols) if isinstance(s, Part) and others(i)}
    return found


def _first(view, owner):
    """The number of a nonterminal's first variant."""
    return sum(len(nonterminal.variants) for nonterminal in view.book.nonterminals[:owner])


def _of_itself(view, grammar):
    alone, owners = _alone(view, grammar), {number: owner for number, owner, _ in _variants(view)}
    for number, parts in alone.items():
        reached, todo = set(parts), list(parts)
        while todo:
            part = todo.pop()
            new = {n for v, parts_of in alone.items() if owners[v] == part for n in parts_of} - reached
            reached |= new
            todo += new
        if owners[number] in reached and not view.book.variants[number].passing:
            name = view.names[owners[number]]
            yield number, f"it makes {name} of {name} and nothing else, for ever: the reader gives up (refusal 22)"


def _is_operand(step, owner):
    return step.kind == books.NONTERMINAL and step.a == owner


def _without_level(view, grammar):
    """Operators without a level, where a variant that ends with its own nonterminal meets one that begins with it."""
    operators = [each for each in _variants(view) if len(each[2].steps) > 1]
    begin = {owner for _, owner, variant in operators if _is_operand(variant.steps[0], owner)}
    end = {owner for _, owner, variant in operators if _is_operand(variant.steps[-1], owner)}
    for number, owner, variant in operators:
        operand = _is_operand(variant.steps[0], owner) or _is_operand(variant.steps[-1], owner)
        if operand and owner in begin & end and variant.level == books.DEFAULT_LEVEL:
            side = "left" if _is_operand(variant.steps[0], owner) else "right"
            yield number, (
                f"{view.steps(number)} has no level: a row of operators with it is read in several ways, and refused"
                f" (32 or 22); say how tightly it binds, as by `; {side} {_free_level(view, owner)}`, where the"
                " greatest level binds tightest"
            )


def _free_level(view, owner):
    """The level above those of a nonterminal's operators, or below them where that is none."""
    taken = [v.level for v in view.book.nonterminals[owner].variants if v.level != books.DEFAULT_LEVEL]
    return next(level for level in (max(taken, default=0) + 1, 0) if level < books.DEFAULT_LEVEL)


def growing(view):
    """The notes on what makes a reading grow without end, or have many ways."""
    grammar = Grammar(view.book)
    return [*_endless_lists(view, grammar), *_of_itself(view, grammar), *_without_level(view, grammar)]


# ---- Operators
def _one_sided(view):
    for number, owner, variant in _variants(view):
        if len(variant.steps) < 2 or variant.level == books.DEFAULT_LEVEL:
            continue
        before, behind = _is_operand(variant.steps[0], owner), _is_operand(variant.steps[-1], owner)
        if behind and not before and variant.associativity == books.LEFT:
            yield number, "an operator before its operand that is left can't stand before itself; right can"
        if before and not behind and variant.associativity == books.RIGHT:
            yield number, "an operator behind its operand that is right can't stand behind itself; left can"


def _no_operators(view):
    for number, owner, variant in _variants(view):
        ends = (*variant.steps[:1], *variant.steps[-1:])
        operator = len(variant.steps) > 1 and any(_is_operand(step, owner) for step in ends)
        if variant.level != books.DEFAULT_LEVEL and not operator and not variant.passing:
            name = view.names[owner]
            yield number, f"it has a level and is no operator on {name}: a level can only keep it from being an operand"


def _mixed(view):
    seen = {}
    for number, owner, variant in _variants(view):
        if variant.level != books.DEFAULT_LEVEL:
            first = seen.setdefault((owner, variant.level), number)
            if view.book.variants[first].associativity != variant.associativity:
                other = f"level {variant.level} has another associativity in variant {first}"
                yield number, f"{other}: a row of both isn't read, or in two ways"


def _brackets(view):
    for number, _, variant in _variants(view):
        characters = "".join(chr(step.a) for step in variant.steps if step.kind == books.CHARACTER)
        for opening, closing in ("()", "[]", "{}"):
            if characters.count(opening) != characters.count(closing):
                yield number, f"it has '{opening}' and '{closing}' not equally often: is one forgotten?"


# ---- What can't be read, or isn't used
def _unread(view):
    """Nonterminals that nothing can be read as, by rounds until one adds none to those that something can."""
    grammar, read, before = Grammar(view.book), set(), -1
    while len(read) > before:
        before = len(read)
        fits = lambda symbol: not isinstance(symbol, Part) or symbol in read
        read |= {rule.part for rule in grammar.rules if all(map(fits, rule.symbols))}
    for number, nonterminal in enumerate(view.book.nonterminals):
        if Part(books.NONTERMINAL, number) not in read:
            why = "each of its variants needs what can't be read" if nonterminal.variants else "it has no variants"
            yield None, f"nothing can be read as {view.names[number]}: {why}"


def _apart(view):
    """Nonterminals that the first one doesn't lead to."""
    reached, todo = {0}, [0]
    while todo:
        for variant in view.book.nonterminals[todo.pop()].variants:
            new = {step.a for step in variant.steps if step.kind in books.TAKES_NONTERMINAL} - reached
            reached |= new
            todo += new
    for number, name in enumerate(view.names):
        if number not in reached:
            yield None, f"{view.names[0]} doesn't lead to {name}: it is read only as a start (--start {name})"


def _unused_words(view):
    words, steps = view.book.words, [step for variant in view.book.variants for step in variant.steps]
    used = {words[step.a].spelling for step in steps if step.kind == books.WORD}
    used |= _kind_words(view).keys()
    for spelling in dict.fromkeys(word.spelling for word in words if not word.label):
        if spelling not in used:
            yield None, f"the word {spelling} is in no variant"


def _kind_words(view):
    """The words that a rule may declare names by."""
    return view.book.kind_words if view.book.declares else {}


def _no_such_names(view):
    kinds = {*variables(view.book).values(), *_kind_words(view).values()}
    for number, _, variant in _variants(view):
        for step in variant.steps:
            if step.kind == books.VARIABLE_OF_KIND and step.a not in kinds:
                yield number, f"{view.step(step)} takes nothing: no name has kind {step.a}"
            if step.kind == books.VARIABLE and not kinds:
                yield number, f"{view.step(step)} takes nothing: the book has no names"


def _declaring(view):
    """Binders that declare nothing, or nothing that is of use, or that take what belongs to their body."""
    grammar, steps = Grammar(view.book), [step for variant in view.book.variants for step in variant.steps]
    taken = any(step.kind in (books.VARIABLE, books.VARIABLE_OF_KIND) for step in steps)
    for number, _, variant in _variants(view):
        for step in variant.steps:
            if step.kind != books.BINDER:
                continue
            if not view.book.words:
                yield number, "no name can be declared: the first eight words say the kinds, and there are no words"
            if not taken:
                yield number, "it declares names, and no step takes a variable"
            if Terminal(books.CHARACTER, step.b) in grammar.first(Part(books.NONTERMINAL, step.a)):
                own = f"{view.names[step.a]} may begin with '{chr(step.b)}', too"
                yield number, f"{own}: where that stands first it always opens declared names"


def notes(view):
    """All notes on an accepted book."""
    used = [*_unread(view), *_apart(view), *_unused_words(view), *_no_such_names(view), *_declaring(view)]
    return [*_brackets(view), *growing(view), *_one_sided(view), *_mixed(view), *_no_operators(view), *used]


def placed_notes(view, file):
    """The notes with their places: a variant's line, where the book's text has it."""
    for number, note in notes(view):
        if number is None:
            yield file, note
        elif view.source is None:
            yield f"{file}, variant {number}", note
        else:
            text = view.source.text
            start = view.source.lines[number].start
            line, column = line_and_column(text.encode(), len(text[:start].encode()))
            yield f"{file}:{line}:{column}", note
