#!/usr/bin/env python3
"""Brings the repository's own definitions and lemmas to snake case, once, after port.py.

usage: python3 tools/port_names.py [--say]     at the top of the repository; --say writes nothing and lists the names

A name that is declared in specs/ or in a lemma file of proofs/ and is written in mixed case (`skipFrom`) or with dashes
(`skip-stop`) gets underscores. Names of the standard library, names that a check makes (`returns-in_ok`) and all that
src/ declares keep theirs. Where two names would fall together, the lemma's ends in `_lem`, and a local one in a prime;
FIXED has the others. crates/transitions/specs/Contracts.antt becomes LayerContracts.antt, since `contracts` is a
module that the check makes.
"""
import os
import re
import subprocess
import sys

SAY = "--say" in sys.argv
IDENT = r"[A-Za-z◌_][\w'₀-₉ℕℤ◌]*(?:-[\w'₀-₉ℕℤ◌≡≤]+)*"
TOKEN = re.compile(IDENT)
DECLARED = re.compile(r"^\s*(?:(?:abbrev|unfoldable|pub|opaque|instance|ghost)\s+)*(" + IDENT + r")\s*:\s")
FIXED = {"no-parse": "has_no_parse", "none-whole": "has_none_whole", "valueCell": "cell_of_value"}
KEYWORDS = {"let", "in", "use", "pub", "module", "record", "data", "where", "unfolding", "rw", "elim", "absurd"}
MIXED = re.compile(r"^[a-z][a-z0-9]*(?:['\w₀-₉-]*)[A-Z]")


def texts(root, endings):
    for folder, dirs, files in os.walk(os.path.join(root, "crates")):
        dirs[:] = sorted(d for d in dirs if d not in ("out", ".git"))
        for f in sorted(files):
            if f.endswith(endings):
                yield os.path.join(folder, f)


def read(path):
    with open(path, encoding="utf-8") as f:
        return f.read()


def is_lemma_file(path):
    """A file of definitions or of lemmas: not the proof of a function, whose names the check makes."""
    return path.endswith(".antt") and os.path.basename(path) not in ("Proof.antt", "Answers.antt", "Invariants.antt")


def snake(name):
    out = re.sub(r"(?<=[a-z0-9'])([A-Z])", lambda m: "_" + m.group(1).lower(), name)
    out = re.sub(r"(?<=[A-Z])([A-Z])(?![a-z])", lambda m: "_" + m.group(1).lower(), out) if not out[:1].isupper() else out
    return out.replace("-", "_")


def wants(name):
    """Whether a name is to be spelled anew: mixed case, or dashes between words that begin small."""
    if name.startswith("_") or "◌" in name or "≡" in name:
        return False
    if name[0].isupper():
        return False
    parts = name.split("-")
    if len(parts) > 1 and any(p[:1].isupper() for p in parts):
        # a fact keeps its capital, and a dash joins it to what stands beside it
        return any(re.match(r"[a-z].*[A-Z]", p) for p in parts)
    return len(parts) > 1 or re.match(r"[a-z].*[A-Z]", name) is not None


def spelled(name):
    parts = name.split("-")
    if len(parts) > 1 and any(p[:1].isupper() for p in parts):
        return "-".join(p if p[:1].isupper() else snake(p) for p in parts)
    return snake(name)


def library_names():
    names = set()
    kit = os.path.dirname(subprocess.run(["rt", "doc"], capture_output=True, text=True, check=True).stdout.strip())
    for folder, dirs, files in os.walk(os.path.join(kit, "rattle")):
        dirs[:] = [d for d in dirs if d not in ("examples", "tests", "docs")]
        for f in files:
            if f.endswith(".antt"):
                for line in read(os.path.join(folder, f)).split("\n"):
                    m = DECLARED.match(line)
                    if m:
                        names.add(m.group(1))
    return names


def imported(text):
    """The names that a text takes from elsewhere than this repository's crates."""
    names = set()
    own = {c for c in os.listdir("crates")}
    for m in re.finditer(r"\buse\s+([\w.◌'-]+)\.\{([^}]*)\}", text):
        path = m.group(1).split(".")
        if not (path[0] == "Rattle" and len(path) > 1 and path[1] in own):
            for it in m.group(2).split(","):
                words = it.split()
                names.update(w for w in words if w != "as")
    return names


def main():
    own = {}
    for p in texts(".", (".antt",)):
        if not is_lemma_file(p):
            continue
        for line in read(p).split("\n"):
            m = DECLARED.match(line)
            if m and m.group(1) not in KEYWORDS:
                own.setdefault(m.group(1), set()).add(p)
    used_of_library = set()
    for p in texts(".", (".antt", ".rt")):
        used_of_library |= imported(read(p))
    ren = {}
    for name in own:
        if wants(name) and name not in used_of_library:
            ren[name] = spelled(name)
    back = {}
    for a, b in ren.items():
        back.setdefault(b, []).append(a)
    fallen = {}
    clash = {b: a for b, a in back.items() if len(a) > 1 or b in own}
    say = []
    for b, a in sorted(clash.items()):
        say.append(f"fall together: {' '.join(a)}{' ' + b if b in own else ''} -> {b}")
    # per file: what else has the new name there
    for p in texts(".", (".antt", ".rt")):
        t = read(p)
        code = re.sub(r"(?m)^\s*(--|//).*$", "", t)
        toks = set(TOKEN.findall(code))
        here = imported(t)
        for tok in sorted(toks):
            s = None
            if tok in ren:
                s = ren[tok]
                if s in toks and s not in clash:
                    say.append(f"beside: {p}: {tok} -> {s}")
                if s in here:
                    say.append(f"hides std: {p}: {tok} -> {s}")
    for b, a in clash.items():
        names = [n for n in a if n not in FIXED]
        mixed = [n for n in names if "-" not in n]
        for n in names:
            if n not in mixed:
                ren[n] = b + "_lem"
        if b in own and mixed:
            fallen[b] = b + "_lem"
    for n, s in FIXED.items():
        if n in own:
            ren[n] = s
    for n in ("cells-in",):
        if n in ren:
            ren[n] = "cells_in_lem"
    for n in ("cells_in", "value_cell", "too_few", "too_long"):
        fallen.pop(n, None)
    print(len(ren), "names;", len(fallen), "names in underscores get `_lem`")
    for line in say:
        print(line)
    for n, s in sorted(ren.items()):
        if s != snake(n) or SAY:
            print(f"{n} -> {s}")
    if SAY:
        return
    library = library_names()
    for p in texts(".", (".antt", ".rt", ".edit")):
        t = read(p)
        lemma = is_lemma_file(p)
        toks = set(TOKEN.findall(re.sub(r"(?m)--(?:\s.*)?$", "", t)))
        local = {}
        if lemma:
            here = imported(t)
            for tok in toks:
                if "-" in tok and tok not in ren and tok not in library and tok not in here and wants(tok):
                    s = spelled(tok)
                    taken = {ren.get(x, x) for x in toks if x != tok} | set(local.values())
                    while s in taken:
                        s += "'"
                    local[tok] = s

        def new(m):
            tok = m.group(0)
            if tok in ren:
                return ren[tok]
            if tok in local:
                return local[tok]
            if lemma and tok in fallen:
                return fallen[tok]
            return tok

        def told(m):
            return ren.get(m.group(0), m.group(0))

        lines = []
        for line in t.split("\n"):
            code, mark, rest = line.partition("-- " if p.endswith(".antt") else "// ")
            lines.append(TOKEN.sub(new, code) + mark + TOKEN.sub(told, rest))
        out = "\n".join(lines)
        if out != t:
            with open(p, "w", encoding="utf-8") as f:
                f.write(out)
    for p in pages():
        t = read(p)
        out = re.sub(r"`([^`\n]+)`", lambda m: "`" + TOKEN.sub(lambda k: ren.get(k.group(0), k.group(0)) if MIXED.match(k.group(0)) or "-" in k.group(0) else k.group(0), m.group(1)) + "`", t)
        if out != t:
            with open(p, "w", encoding="utf-8") as f:
                f.write(out)
    old = "crates/transitions/specs/Contracts.antt"
    if os.path.exists(old):
        os.rename(old, "crates/transitions/specs/LayerContracts.antt")
        for p in texts(".", (".antt", ".rt", ".edit")):
            t = read(p)
            out = t.replace("transitions.specs.Contracts", "transitions.specs.LayerContracts")
            if p.endswith("transitions/specs/Lib.antt"):
                out = out.replace("mod Contracts", "mod LayerContracts")
            if out != t:
                with open(p, "w", encoding="utf-8") as f:
                    f.write(out)


def pages():
    yield "README.md"
    yield "CONTRIBUTING.md"
    for f in sorted(os.listdir("docs")):
        if f.endswith(".md"):
            yield os.path.join("docs", f)


main()
