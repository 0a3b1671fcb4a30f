#!/usr/bin/env python3
"""Moves files of laws from specs/ to proofs/, once, after port_names.py.

usage: python3 tools/port_laws.py CRATE..     at the top of the repository

A must-fail edit of a definition is told from an edit that can't be read by what stands in specs/: there only definitions
and statements stand. KEPT has, for each crate, the files that stay; all others of the crate's specs/ move, unchanged but
for their path, and so do the imports that name them.
"""
import os
import re
import subprocess
import sys

KEPT = {
    "characters": "Cases Slices Classes ClassLaws Skipping Lexemes Spelling",
    "book": "Numbers Book Check Index Names",
    "semantics": "Numbers Values Uses Tokens Steps Derivations Cells Errors Run Furthest Answer Allowance ReservedNames "
    "Exact Extension",
    "run_model": "Rows Model",
    "calls": "Names Table",
    "printing": "Printing Cells Laying Lines",
    "midgebillon": "Library Joining",
}


def texts(root, endings):
    for folder, dirs, files in os.walk(root):
        dirs[:] = sorted(d for d in dirs if d not in ("out", ".git", "target"))
        for f in sorted(files):
            if f.endswith(endings):
                yield os.path.join(folder, f)


def modules(crate):
    """The modules of specs/, as A.B, with their files."""
    root = f"crates/{crate}/specs"
    found = {}
    for p in texts(root, (".antt",)):
        name = os.path.relpath(p, root)[: -len(".antt")].replace("/", ".")
        if name != "Lib":
            found[name] = p
    return found


def lib(path, moved, kept):
    """The lines of Lib.antt: those of the modules that stay, and those of the others."""
    with open(path, encoding="utf-8") as f:
        lines = f.read().split("\n")
    stay, go = [], []
    for line in lines:
        m = re.match(r"pub mod (\w+)$", line)
        (go if m and m[1] in moved and m[1] not in kept else stay).append(line)
    return "\n".join(stay), "\n".join(go)


def move(crate):
    kept = set(KEPT[crate].split())
    moved = {n: p for n, p in modules(crate).items() if n not in kept and n.split(".")[0] not in kept}
    specs, proofs = f"crates/{crate}/specs", f"crates/{crate}/proofs"
    os.makedirs(proofs, exist_ok=True)
    stay, go = lib(f"{specs}/Lib.antt", {n.split(".")[0] for n in moved}, kept)
    with open(f"{specs}/Lib.antt", "w", encoding="utf-8") as f:
        f.write(stay.rstrip("\n") + "\n")
    old = ""
    if os.path.exists(f"{proofs}/Lib.antt"):
        with open(f"{proofs}/Lib.antt", encoding="utf-8") as f:
            old = f.read()
    with open(f"{proofs}/Lib.antt", "w", encoding="utf-8") as f:
        f.write(old + go.strip("\n") + "\n")
    for n, p in moved.items():
        to = f"{proofs}/{n.replace('.', '/')}.antt"
        os.makedirs(os.path.dirname(to), exist_ok=True)
        subprocess.run(["git", "mv", p, to], check=True)
    names = "|".join(sorted((re.escape(n) for n in moved), key=len, reverse=True))
    path = re.compile(rf"Rattle\.{crate}\.specs\.({names})(?![\w])")
    for p in texts("crates", (".antt", ".rt")):
        with open(p, encoding="utf-8") as f:
            t = f.read()
        out = path.sub(rf"Rattle.{crate}.proofs.\1", t)
        out = re.sub(rf"{crate if f'/{crate}/' not in p else 'crate'}::specs::({names.replace(chr(92) + '.', '::')})::", r"crate::proofs::\1::", out) if f"/{crate}/" in p else out
        if out != t:
            with open(p, "w", encoding="utf-8") as f:
                f.write(out)
    for p in texts(f"crates/{crate}/must-fail", (".edit",)):
        with open(p, encoding="utf-8") as f:
            t = f.read()
        out = re.sub(r"(?m)^file: specs/(.*)\.antt$", lambda m: f"file: {'proofs' if m[1].replace('/', '.') in moved else 'specs'}/{m[1]}.antt", t)
        if out != t:
            with open(p, "w", encoding="utf-8") as f:
                f.write(out)


for name in sys.argv[1:]:
    move(name)
