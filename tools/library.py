#!/usr/bin/env python3
"""Builds the library for C, C++, Rust and Python: static and shared, with its header and a pkg-config file.

    python3 tools/library.py

proves it first (`rt lib` in crates/midgebillon_c, some minutes), and writes target/proved. It needs the Rattle kit and
gcc.

    python3 tools/library.py --quick

compiles the same code without its proofs (tools/reader.py), in seconds, and writes target/quick. That library says of
itself that it is not proved: it has the symbol `midgebillon_not_proved`, and its pkg-config file says so.

Either folder has include/ and lib/ as below /usr/local, and may be copied to any place: the pkg-config file,
lib/pkgconfig/midgebillon.pc, goes by its own place.
"""
import argparse
import os
import re
import shutil
import subprocess
import sys

from reader import LIBRARY, ROOT, static_library

HEADER = f"{ROOT}/include/midgebillon.h"
CRATE = f"{ROOT}/crates/{LIBRARY}_c"
PROVED = f"{CRATE}/out/lib{LIBRARY}_c.a"
NOT_PROVED = "not proved: compiled without its proofs"

PKG_CONFIG = """prefix=${{pcfiledir}}/../..

Name: midgebillon
Description: Reads a margin rule's text by a rule book{remark}
Version: {version}
Cflags: -I${{prefix}}/include
Libs: -L${{prefix}}/lib -lmidgebillon
"""


def run(*words, **options):
    """A command that must succeed."""
    try:
        status = subprocess.run(words, **options).returncode
    except FileNotFoundError:
        sys.exit(f"no {words[0]} on the path")
    if status:
        sys.exit(f"{words[0]} failed: {' '.join(words)}")


def version():
    with open(HEADER, encoding="utf-8") as header:
        return re.search(r'define MIDGEBILLON_VERSION "(.*)"', header.read())[1]


def compiled(folder):
    """The static library without its proofs, with the symbol that says so."""
    archive, part = static_library(folder), f"{folder}/not_proved.o"
    label = f'const char midgebillon_not_proved[] = "{NOT_PROVED}";\n'
    run("gcc", "-fPIC", "-c", "-x", "c", "-", "-o", part, input=label, text=True)
    run("ar", "r", archive, part, stderr=subprocess.DEVNULL)
    os.remove(part)
    return archive


def linked(archive, shared):
    """The whole static library as a shared one."""
    whole = ["-Wl,--whole-archive", archive, "-Wl,--no-whole-archive"]
    run("gcc", "-shared", "-Wl,-soname,libmidgebillon.so", "-o", shared, *whole)


def build(quick):
    """Writes the folder and gives its name."""
    folder = f"{ROOT}/target/{'quick' if quick else 'proved'}"
    if not quick:
        run("rt", "lib", cwd=CRATE)
    shutil.rmtree(folder, ignore_errors=True)
    os.makedirs(f"{folder}/include")
    os.makedirs(f"{folder}/lib/pkgconfig")
    for header in os.listdir(f"{ROOT}/include"):
        shutil.copy(f"{ROOT}/include/{header}", f"{folder}/include")
    archive = compiled(f"{folder}/lib") if quick else shutil.copy(PROVED, f"{folder}/lib/lib{LIBRARY}.a")
    linked(archive, f"{folder}/lib/libmidgebillon.so")
    with open(f"{folder}/lib/pkgconfig/midgebillon.pc", "w", encoding="utf-8") as file:
        file.write(PKG_CONFIG.format(version=version(), remark=f" ({NOT_PROVED})" if quick else ""))
    return folder


def main():
    options = argparse.ArgumentParser(description=__doc__, formatter_class=argparse.RawDescriptionHelpFormatter)
    options.add_argument("--quick", action="store_true", help="without the proofs, in seconds")
    quick = options.parse_args().quick
    folder = os.path.relpath(build(quick))
    print(f"{folder}: the library, {NOT_PROVED}" if quick else f"{folder}: the library, proved")


if __name__ == "__main__":
    main()
