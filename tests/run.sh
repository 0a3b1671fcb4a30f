#!/usr/bin/env bash
# Tests what stands around the proved reader: the Python package with the notation for books and the command line, the
# examples and headers for C and C++, the Rust package.
#
#     tests/run.sh [FOLDER]
#
# FOLDER is a library's, as tools/library.py writes it; without it the library is built without its proofs, in seconds.
# It needs python3, gcc, g++, pkg-config and cargo. The status is 0 if every test passes.
set -euo pipefail
cd "$(dirname "$0")/.."
export PATH=$PATH:${HOME:-}/.cargo/bin # where cargo is, if it isn't on the path
library=${1:-target/quick}
if [ $# = 0 ]; then python3 tools/library.py --quick; fi
library=$(realpath "$library")
export MIDGEBILLON_LIBRARY="$library/lib/libmidgebillon.so"
(cd tests && PYTHONPATH=../python python3 -W ignore::UserWarning -m unittest discover)
LIBRARY=$library examples/run.sh
tests/c/run.sh "$library"
rust/test.sh "$library"
