#!/usr/bin/env python3
"""Makes the tables of a landing's note (docs/landings) from git and from what the prover printed.

    python3 tools/landing.py BEFORE AFTER [--proved LOG LOG]

prints, for two commits, what happened to the definitions, laws, worked answers, contracts and proofs: how many files
(of contracts: functions) were changed, added, removed or stayed as they were, and their lines; and the names of the
files of definitions and of the functions whose contracts changed, which a note speaks of. A file that was only moved or
renamed counts as it is compared by git. With logs of both commits, each of a run of `rt all verdict` in a clone with
nothing beside it, it prints the seconds of each crate too. A log has before each line the seconds since the run began:

    SECONDS=0; PYTHONUNBUFFERED=1 rt all verdict --jobs 1 | while read -r line; do echo "$SECONDS $line"; done >LOG
"""
import argparse
import collections
import os
import re
import subprocess
import sys

ROOT = os.path.dirname(os.path.dirname(os.path.abspath(__file__)))
KINDS = ["definitions", "laws", "worked answers", "code", "proofs"]
FATES = ["changed", "added", "removed", "untouched"]
LAWS = re.compile(r"Laws\b|Laws/|Theorem|run_model/(specs|proofs)/(Keeps|Sim|Views|Named)")
WORKED = re.compile(
    r"(specs|proofs)/(ExampleBook|ExtensionExample|ReservedNameExample|DeclaredNameExample|Worked|Cases)\.antt$"
)
PROOF = re.compile(r"/(Proof|Invariants|Answers)\.antt$")


def git(*words):
    return subprocess.run(["git", "-C", ROOT, *words], check=True, capture_output=True, text=True).stdout


# ---- Files
def kind(path):
    """What a file of a crate holds, by its name; None for one that holds none of these."""
    if re.match(r"crates/\w+/src/.*\.rt$", path):
        return "code"
    if not re.match(r"crates/\w+/(specs|proofs)/.*\.antt$", path) or path.endswith("/Lib.antt"):
        return None
    if PROOF.search(path):
        return "proofs"
    if WORKED.search(path):
        return "worked answers"
    return "laws" if LAWS.search(path) or "/proofs/" in path else "definitions"


def lines(commit):
    """The lines of each file of a commit."""
    paths = git("ls-tree", "-r", "--name-only", commit, "crates").split("\n")
    return {path: git("show", f"{commit}:{path}").count("\n") for path in paths if kind(path)}


def fates(before, after):
    """Each file of either commit with its fate; of a renamed one, its new name."""
    found, gone = {}, set()
    for line in git("diff", "--name-status", "-M", before, after, "--", "crates").split("\n"):
        word, *paths = line.split("\t")
        if word.startswith("R"):
            gone.add(paths[0])
            found[paths[1]] = "untouched" if word == "R100" else "changed"
        elif word:
            found[paths[0]] = {"A": "added", "D": "removed"}.get(word, "changed")
    return found, gone


def file_table(before, after):
    old, new = lines(before), lines(after)
    found, moved = fates(before, after)
    counts = collections.Counter()
    for path in (set(old) | set(new)) - moved:
        counts[kind(path), found.get(path, "untouched")] += 1
    totals = {k: [sum(n for p, n in of.items() if kind(p) == k) for of in (old, new)] for k in KINDS}
    print("| files of | " + " | ".join(FATES) + " | lines before | lines after |")
    print("|---" * (len(FATES) + 3) + "|")
    for k in KINDS:
        print("| " + " | ".join([k, *(str(counts[k, f]) for f in FATES), *(f"{n:,}" for n in totals[k])]) + " |")
    together = [str(sum(counts[k, f] for k in KINDS)) for f in FATES]
    sums = [f"{sum(totals[k][i] for k in KINDS):,}" for i in (0, 1)]
    print("| " + " | ".join(["together", *together, *sums]) + " |")
    named = sorted((f, p) for p, f in found.items() if kind(p) == "definitions")
    for fate in FATES:
        if [p for f, p in named if f == fate]:
            print(f"\nDefinitions {fate}: " + ", ".join(f"`{p}`" for f, p in named if f == fate) + ".")


# ---- Contracts
def module(path):
    """The crate and the module of a source file."""
    crate, *inner = re.match(r"crates/(\w+)/src/(.*)\.rt$", path).groups()
    return [crate, *(m for m in inner[0].split("/") if m not in ("lib", "main"))]


def contracts(commit):
    """The clauses of each function of a commit, as one text: what stands between its head and its body."""
    clauses_of = re.compile(r"\bfn (\w+)(?:(?!\bfn \w|\{).)*?\n(\s+(?:requires|ensures)\b.*?)\n\s*\{\n", re.S)
    found = {}
    for path in git("ls-tree", "-r", "--name-only", commit, "crates").split("\n"):
        if kind(path) == "code":
            for name, clauses in clauses_of.findall(git("show", f"{commit}:{path}")):
                found["::".join([*module(path), name])] = " ".join(clauses.split())
    return found


def contract_table(before, after):
    old, new = contracts(before), contracts(after)
    names = {
        "changed": sorted(n for n in old.keys() & new.keys() if old[n] != new[n]),
        "added": sorted(new.keys() - old.keys()),
        "removed": sorted(old.keys() - new.keys()),
        "untouched": [n for n in old.keys() & new.keys() if old[n] == new[n]],
    }
    print("\n| contracts | " + " | ".join(FATES) + " |")
    print("|---" * (len(FATES) + 1) + "|")
    print("| functions | " + " | ".join(str(len(names[f])) for f in FATES) + " |")
    for fate in FATES[:3]:
        if names[fate]:
            print(f"\nContracts {fate}: " + ", ".join(f"`{n}`" for n in names[fate]) + ".")


# ---- Times
def seconds(log):
    """The seconds between the lines `== CRATE`, each of which comes when the crate is done; the summary is none."""
    with open(log, encoding="utf-8") as said:
        done = re.findall(r"^(\d+) == (\w+)$", said.read(), re.M)
    begun = [0] + [int(at) for at, _ in done]
    return {crate: int(at) - before for (at, crate), before in zip(done, begun) if crate != "summary"}


def time_table(before, after):
    old, new = seconds(before), seconds(after)
    print("\n| crate | seconds before | seconds after |\n|---|---|---|")
    for crate in dict.fromkeys([*new, *old]):
        print(f"| {crate} | {old.get(crate, '')} | {new.get(crate, '')} |")
    print(f"| sum | {sum(old.values())} | {sum(new.values())} |")


def main():
    options = argparse.ArgumentParser(description=__doc__, formatter_class=argparse.RawDescriptionHelpFormatter)
    options.add_argument("before", metavar="BEFORE")
    options.add_argument("after", metavar="AFTER")
    options.add_argument("--proved", nargs=2, metavar="LOG")
    chosen = options.parse_args()
    file_table(chosen.before, chosen.after)
    contract_table(chosen.before, chosen.after)
    if chosen.proved:
        time_table(*chosen.proved)


if __name__ == "__main__":
    main()
