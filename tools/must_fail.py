#!/usr/bin/env python3
"""Checks, after `rt ci`, that every wrong reader of every must-fail edit is refused by itself, and for a fact.

    rt ci | tee LOG
    python3 tools/must_fail.py --log LOG [CRATE ...]

`rt ci` refuses an edit as soon as one thing in it is wrong, and an edit may change several functions. So this program
wants

- for each function that the edit changes an error of its own: one in its proof, or the prover's word that what it needs
  or ensures is not proved. An error that only follows from another ("was not admitted", "it calls .., which is not
  proved") is none of its own;
- of definitions and constants, which have no proof of their own, at most one changed in an edit, and an error outside
  the proofs of the functions that the edit changes;
- that none of these errors only says that the proof no longer fits the code, as a name or a goal that isn't there, and
  that no edit changes a proof.

Of each edit `rt ci` prints that it was refused, and the first error. Where that error already shows all this, as it
does where an edit changes one function, no more is done. Else the edit is made on a copy of its crate, and what it
changes is checked once more, over the libraries that `rt ci` or `rt check` built in out/, to see all errors: some ten
seconds for each of these edits. Without --log this is done for every edit.

It prints each edit that fails with what is missing, then how many functions and definitions it looked at; its status is
1 if anything is missing.
"""
import argparse
import collections
import concurrent.futures
import glob
import os
import re
import shutil
import subprocess
import sys
import tempfile

from reader import KIT, LIBRARY, ROOT, dependencies

FOLLOWS = re.compile(r"was not admitted|which was rejected")
UNFIT = re.compile(r"is not in scope|has no field|has no `[^`]*` that can be named|unresolved|cannot find|is no name")
PROOF = re.compile(r"^proofs/.*/(Proof|Invariants|Answers)\.antt$")  # of a function; other files of proofs/ have laws
PARTS = ["src", "specs", "proofs"]
AT_ONCE = min(4, len(os.sched_getaffinity(0)))

Change = collections.namedtuple("Change", "file old new line")
Unit = collections.namedtuple("Unit", "kind file name line")
Error = collections.namedtuple("Error", "file line declaration message")


class Unusable(Exception):
    """Why an edit cannot be looked at."""


def text_of(path):
    with open(path, encoding="utf-8") as file:
        return file.read()


# ---- Edits
def changes(crate, edit):
    """What an edit changes: the file, the text before and after, and the line where it begins."""
    found, path, old = [], None, None
    for line in text_of(f"{ROOT}/crates/{crate}/must-fail/{edit}.edit").split("\n"):
        word, _, rest = line.partition(":")
        rest = rest[1:] if rest.startswith(" ") else rest
        if word == "file":
            path = rest.strip()
        elif word == "old":
            old = rest
        elif word == "new":
            before, found_old, after = text_of(f"{ROOT}/crates/{crate}/{path}").partition(old)
            if not found_old or old in after:
                raise Unusable(f"`{old}` does not stand once in {path}")
            found.append(Change(path, old, rest, before.count("\n")))
    return found


ITEM = re.compile(r'\s*(?:pub(?:\(\w+\))? )?(?:extern "C" )?(fn|const|static|struct|enum) (\w+)')
IMPL = re.compile(r"impl(?:<[^>]*>)? (?:.* for )?(\w+)")
NAMED = re.compile(r"\s*(?:abbrev |unfoldable |pub )*(?:record |data )?([\w·◌'′-]+)(?: \([^:]*)? :(?: |$)")


def unit(crate, file, line):
    """The function, constant or definition in which a line stands: the last that begins before it; of an attribute, the
    one below it. A method has its type's name before its own. A line that names what it uses is none."""
    lines = text_of(f"{ROOT}/crates/{crate}/{file}").split("\n")
    while lines[line].lstrip().startswith("#["):
        line += 1
    first = line
    while first and file.endswith(".rt") and lines[first].startswith("    ") and not lines[first - 1].endswith(";"):
        first -= 1
    if lines[first].startswith(("use ", "ghost use ", "pub use ")):
        return None
    pattern = ITEM if file.endswith(".rt") else NAMED
    for i in range(line, -1, -1):
        found = pattern.match(lines[i])
        if found and found.group(1) not in ("use", "module", "where"):
            function = found.group(1) == "fn" and pattern is ITEM
            owner = owner_of(lines, i) if function else ""
            name = found.group(found.lastindex)
            return Unit("function" if function else "definition", file, owner + name, i + 1)
    raise Unusable(f"{file}:{line + 1}: no declaration stands before this line")


def owner_of(lines, line):
    """The type of a method, with `::`, and '' of a function that is none."""
    if not lines[line].startswith(" "):
        return ""
    heads = [found for found in map(IMPL.match, lines[:line]) if found]
    return heads[-1][1] + "::" if heads else ""


def module_of(file):
    """The path of a file's module below its crate, '' at the root."""
    module = os.path.splitext(os.path.relpath(file, "src"))[0]
    return "" if module in ("lib", "main") else module.replace("/mod", "")


def path_of(crate, function):
    """The path of a function below its crate: a method's begins with the module of its type."""
    file, owner = function.file, function.name.rpartition("::")[0]
    if owner:
        source = f"{ROOT}/crates/{crate}/src"
        for path in glob.glob(f"{source}/**/*.rt", recursive=True):
            if re.search(rf"^(?:pub(?:\(\w+\))? )?(?:struct|enum) {owner}\b", text_of(path), re.M):
                file = os.path.join("src", os.path.relpath(path, source))
    return [*filter(None, module_of(file).split("/")), *function.name.split("::")]


# ---- What a check says
PLACE = r"(?:\./)?(\S+?):(\d+):\d+:"
ERROR = re.compile(PLACE + r" error(?:\[[^]]*\])?: (?:`([^`]*)`: )?(.*)")
UNPROVED = re.compile(r"note: " + PLACE + r" it is not proved that(.*)")


def errors(lines):
    """The errors that follow from no other, and the places of which the prover says that something is not proved."""
    found, unproved = [], []
    for line in lines:
        told, note = ERROR.match(line), UNPROVED.match(line)
        if told:
            found.append(Error(told[1], int(told[2]), told[3] or "", told[4]))
        elif note:
            unproved.append(Error(note[1], int(note[2]), "", note[3]))
    return [e for e in found if not FOLLOWS.search(e.message)], unproved


def own(crate, function, error):
    """Whether an error stands in the proof of a function. One that calls itself has a `+` before its name. Functions that
    call each other have one proof, in which each has declarations by its name."""
    path = path_of(crate, function)
    if re.match(rf"proofs/{'/'.join([*path[:-1], ''])}\+?{path[-1]}/\w+\.antt$", error.file):
        return True
    shared = re.match(r"proofs/(?:(.+)/)?\+[^/]*/\w+\.antt$", error.file)
    if not shared:
        return False
    short = shared[1] == module_of(function.file)
    return error.declaration.startswith(f"{function.name if short else '::'.join(path)}-")


def missing(crate, units, lines):
    """What these lines of a check of the edited crate do not say."""
    told, unproved = errors(lines)
    functions = [u for u in units if u.kind == "function"]
    others = [u for u in units if u.kind != "function"]
    unproved = {unit(crate, e.file, e.line - 1) for e in unproved if e.file.startswith("src/")}
    for f in functions:
        mine = [e for e in told if own(crate, f, e)]
        fit = [e for e in mine if not UNFIT.search(e.message)]
        if not fit and f not in unproved:
            yield f"`{f.name}` has no error of its own" + (", but that its proof no longer fits it" if mine else "")
    if any(PROOF.search(u.file) for u in units):
        yield "it changes a proof"
    if len(others) > 1:
        yield "more than one definition or constant is changed: " + ", ".join(u.name for u in others)
    if others:
        outside = [e for e in told if not any(own(crate, f, e) for f in functions) and not UNFIT.search(e.message)]
        if not outside and not unproved - set(functions):
            yield f"no error comes from `{others[0].name}`"


# ---- The gate's word: that an edit is refused, perhaps in brackets that this shows little, and the first error
TRIED = re.compile(r"^rt: must-fail (\w+)/(\S+)\.edit: (.*)", re.M)
REFUSED = re.compile(r"refused, as it must be( \(.*)?(?:: )?(.*)")


def reported(log):
    """What `rt ci` printed of each edit, by crate and edit."""
    return {(crate, edit): said for crate, edit, said in TRIED.findall(text_of(log))}


# ---- Another check of an edited crate
def built(name):
    """The folder of a crate's library, whose definitions are those that stand in the crate."""
    folder, specs = f"{ROOT}/crates/{name}/out/rlib", f"{ROOT}/crates/{name}/specs"
    for path in glob.glob(f"{specs}/**/*.antt", recursive=True):
        copy = f"{folder}/{name}.rlib/lang/antt/specs/{os.path.relpath(path, specs)}"
        if os.path.basename(path) != "Lib.antt" and not (os.path.exists(copy) and text_of(copy) == text_of(path)):
            raise Unusable(f"the library {name} is not built as it stands: rt all check builds it")
    return folder


def check(crate, edited, units):
    """Checks a copy of a crate with these changes, and gives the lines that it prints: of the functions that are
    changed, or of the whole crate where a definition is, or a function is not found by its name."""
    uses = dependencies()
    below, todo = [], [name for name in uses[crate] if os.path.isdir(f"{ROOT}/crates/{name}")]
    while todo:
        name = todo.pop()
        if name not in below:
            below.append(name)
            todo += [each for each in uses[name] if os.path.isdir(f"{ROOT}/crates/{each}")]
    place = {name: built(name) for name in below}
    with tempfile.TemporaryDirectory() as copy:
        for part in PARTS:
            if os.path.isdir(f"{ROOT}/crates/{crate}/{part}"):
                shutil.copytree(f"{ROOT}/crates/{crate}/{part}", f"{copy}/{part}")
        for change in edited:
            text = text_of(f"{copy}/{change.file}").replace(change.old, change.new)
            with open(f"{copy}/{change.file}", "w", encoding="utf-8") as file:
                file.write(text)
        root = next(path for path in ("src/main.rt", "src/lib.rt") if os.path.exists(f"{copy}/{path}"))
        words = [f"{KIT}/bin/rattle", "check", "--crate-name", crate, root, "-L", f"dependency={KIT}/rlibs"]
        words += ["--extern", f"std={KIT}/rlibs/std.rlib"]
        for name in uses[crate]:
            if name in below:
                words += ["--extern", f"{name}={place[name]}/{name}.rlib"]
            elif name not in ("core", "std"):
                words += ["--extern", f"{name}={KIT}/rlibs/{name}.rlib"]
        for name in below:
            words += ["-L", f"dependency={place[name]}"]
        words += ["--antt-project", f"{KIT}/rattle/logic/antt-project.json", "--logic-built", f"{KIT}/logic_built"]
        words += ["--jobs", "1", *["--crate-type", "staticlib"] * (crate == f"{LIBRARY}_c")]
        only = []
        if all(u.kind == "function" for u in units):
            for u in units:
                only += ["--only", "::".join([crate, *path_of(crate, u)])]
        how = {"cwd": copy, "stdin": subprocess.DEVNULL, "stdout": subprocess.PIPE, "stderr": subprocess.STDOUT}
        said = subprocess.run([*words, *only], text=True, errors="replace", **how)
        if said.returncode == 2 and only:
            said = subprocess.run(words, text=True, errors="replace", **how)
        if said.returncode not in (1, 3):
            raise Unusable(f"its check ended with status {said.returncode}: {said.stdout[-300:]}")
        return said.stdout.split("\n")


def looked_at(crate, edit, said):
    """How many things an edit changes, whether its crate was checked again, and what is missing."""
    try:
        edited = changes(crate, edit)
        units = sorted({unit(crate, c.file, c.line) for c in edited} - {None})
        if said is not None:
            refused = REFUSED.match(said)
            if not refused:
                return len(units), False, [f"rt ci says of it: {said}"]
            if UNFIT.search(refused[2]):
                return len(units), False, [f"the first error only says that a proof no longer fits: {refused[2][:160]}"]
            if not refused[1] and not list(missing(crate, units, [refused[2]])):
                return len(units), False, []
        return len(units), True, list(missing(crate, units, check(crate, edited, units)))
    except Unusable as why:
        return 0, False, [str(why)]


def main():
    options = argparse.ArgumentParser(description=__doc__, formatter_class=argparse.RawDescriptionHelpFormatter)
    options.add_argument("--log", metavar="LOG")
    options.add_argument("crates", nargs="*", metavar="CRATE")
    chosen = options.parse_args()
    paths = glob.glob(f"{ROOT}/crates/*/must-fail/*.edit")
    edits = sorted(re.match(r".*/crates/(\w+)/must-fail/([\w.-]+)\.edit$", path).groups() for path in paths)
    edits = [each for each in edits if not chosen.crates or each[0] in chosen.crates]
    known = reported(chosen.log) if chosen.log else None

    def one(each):
        return looked_at(*each, known.get(each, "nothing") if known is not None else None)

    with concurrent.futures.ThreadPoolExecutor(AT_ONCE) as pool:
        results = list(pool.map(one, edits))
    for (crate, edit), (_, _, found) in zip(edits, results):
        for what in found:
            print(f"must-fail {crate}/{edit}: {what}")
    units, again = sum(result[0] for result in results), sum(result[1] for result in results)
    failed = sum(bool(result[2]) for result in results)
    print(f"{units} changed functions and definitions of {len(edits)} must-fail edits, {again} of which were checked")
    print(f"once more: {failed} edits show less")
    sys.exit(1 if failed else 0)


if __name__ == "__main__":
    main()
