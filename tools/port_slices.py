#!/usr/bin/env python3
"""Turns the clauses on lent slices, once, after port_names.py: `at_entry x` becomes `x.now` of a `&` and `x.old` of a
`&mut`, `at_exit x` becomes `x.new`, and a definition that takes a lent slice gets its numbers, before and after the call
where it speaks of both.

usage: python3 tools/port_slices.py     at the top of the repository

It writes src/ alone. The definitions that KINDS names were turned by hand; docs/PORT.md has them, old and new.
"""
import os
import re

# Of each argument: the numbers at entry (i) or at exit (o), both (b), or no slice (-).
KINDS = {
    "at_entry": "i", "at_exit": "o", "book_at": "i i", "Short": "i", "Fitting": "i i i", "Ready": "i i i i -",
    "MakesCell": "i b - - -", "Does": "i i i b b", "Continues": "i i i b b", "BeginsUse": "i i i b b",
    "Opens": "i i i b b", "Begins": "i i i b b", "Stages": "i i i b", "StagesIn": "i i i b i", "StagesAll": "i b",
    "Reaches": "i i i b", "GoesOn": "i i i b", "OpensBody": "i i i b i", "DeclaresName": "i i i b b", "HasTable": "i",
    "InTable": "- i", "ColumnIn": "- i", "NumberIn": "- - i", "Below": "- - i", "table_at": "i", "table_after": "o",
    "row_in": "i -", "Changes": "b - -", "CanRun": "i i i i -", "CanTry": "i i i i - -", "OnPath": "i i i i - -",
    "OnNames": "i i i i - - -", "HasSet": "- i", "Lays": "- b - -", "line_in": "i i i i -", "names_in": "i i",
    "Read": "i i - - b b -", "ReadIn": "i i - - b b i i i -", "Writes": "b - -", "WritesParses": "b i",
    "Gives": "b b - -", "LongLists": "i i", "HasParses": "i i", "CanFill": "i i i i -", "CanEnd": "i i i i i -",
    "CanStart": "i i i i i", "CanRead": "i i i i i i", "HasRoom": "i i i", "ReadInto": "i i - - b b b",
    "ReadIntoWith": "i i - - b b b b b b",
}
WORD = r"[\w'₀-₉◌]+(?:\.[\w'₀-₉◌]+)*"
TOKEN = re.compile(rf"\s+|{WORD}|[(){{}}\[\],;]|[^\s\w(){{}}\[\],;]+")
OPERATORS = set("≡ × → ≤ < + - * ++ ∷ ↔ = . ; , λ && || ^ ≢ % /".split())
CLOSING = {"(": ")", "[": "]", "{": "}"}


def parsed(tokens, i, close):
    """Tokens up to a closing bracket: words and spaces, and groups as (open, parts, close)."""
    parts = []
    while i < len(tokens):
        t = tokens[i]
        i += 1
        if t == close:
            break
        if t in CLOSING:
            inner, i = parsed(tokens, i, CLOSING[t])
            parts.append((t, inner, CLOSING[t]))
        else:
            parts.append(t)
    return parts, i


def flat(parts):
    return "".join(p if isinstance(p, str) else p[0] + flat(p[1]) + p[2] for p in parts)


def is_space(part):
    return isinstance(part, str) and part.isspace()


def turned(parts, name):
    """Parts in which each slice stands by its numbers; name says how, by the slice and the kind."""
    out, application = [], []
    for p in [*parts, ","]:
        if isinstance(p, str) and p in OPERATORS:
            out += applied(application, name) + [p]
            application = []
        else:
            application.append(p)
    return out[:-1]


def applied(parts, name):
    """The same of one application: a word and its arguments."""
    at = [i for i, p in enumerate(parts) if not is_space(p)]
    head = parts[at[0]] if at else ""
    kinds = KINDS.get(head.split(".")[-1], "").split() if isinstance(head, str) else []
    if head in ("at_entry", "at_exit") and len(at) == 2 and name(parts[at[1]], "i"):
        return [*parts[: at[0]], name(parts[at[1]], kinds[0]), *parts[at[1] + 1 :]]
    for k, i in enumerate(at):
        p = parts[i]
        if isinstance(p, str):
            if 0 < k <= len(kinds) and kinds[k - 1] != "-" and name(p, "i"):
                parts[i] = name(p, kinds[k - 1])
            continue
        inner = turned(p[1], name)
        words = [q for q in p[1] if not is_space(q)]
        if p[0] == "(" and len(words) == 2 and words[0] in ("at_entry", "at_exit") and name(words[1], "i"):
            parts[i] = flat(inner).strip()
        else:
            parts[i] = (p[0], inner, p[2])
    return parts


def past(text, i):
    """The place past the bracket that closes the one at i."""
    pairs, depth = {"(": 1, "{": 1, ")": -1, "}": -1}, 0
    while True:
        depth += pairs.get(text[i], 0)
        i += 1
        if depth == 0:
            return i


FUNCTION = re.compile(r"(?m)^\s*(?:pub )?(?:unsafe )?(?:extern \"C\" )?fn \w+")
RESULT = re.compile(r"\s*->\s*[^{\n]*?(?=\s*(?:\n|\{))")
CLAUSE = re.compile(r"(?:\s*//[^\n]*\n)*\s*(requires|ensures)\*?(?:\s+\w+)?\s*\{")


def source(text):
    out, i = "", 0
    for m in FUNCTION.finditer(text):
        if m.start() < i:
            continue
        start = text.index("(", m.end())
        at = past(text, start)
        lent = set(re.findall(r"(\w+): &(?:'\w+ )?\[", text[start:at]))
        changed = set(re.findall(r"(\w+): &(?:'\w+ )?mut \[", text[start:at]))
        result = RESULT.match(text, at)
        at = result.end() if result else at
        while clause := CLAUSE.match(text, at):
            def name(slice, kind, before=clause[1] == "requires"):
                if slice in lent:
                    return f"{slice}.now"
                if slice not in changed:
                    return None
                old, new = f"{slice}.old", f"{slice}.new"
                return old if before or kind == "i" else new if kind == "o" else f"{old} {new}"

            end = past(text, clause.end() - 1)
            body = flat(turned(parsed(TOKEN.findall(text[clause.end() : end - 1]), 0, None)[0], name))
            for slice in changed:
                body = re.sub(rf"\b{slice}\.now\b", f"{slice}.old", body)
            out += text[i : clause.end()] + body + "}"
            i = at = end
    out += text[i:]

    def imports(m):
        kept = [n for n in re.split(r",\s*", m[2]) if n not in ("at_entry", "at_exit")]
        return f"{m[1]}{{{', '.join(kept)}}};\n" if kept else ""

    return re.sub(r"(ghost use Rattle\.characters\.specs\.Slices\.)\{([^}]*)\};\n", imports, out)


for folder, dirs, files in os.walk("crates"):
    dirs[:] = [d for d in dirs if d != "out"]
    for file in files:
        if file.endswith(".rt"):
            path = os.path.join(folder, file)
            with open(path, encoding="utf-8") as f:
                before = f.read()
            after = source(before)
            if after != before:
                with open(path, "w", encoding="utf-8") as f:
                    f.write(after)
