#!/usr/bin/env bash
# test.sh FOLDER: tests the crate against the library in FOLDER/lib, as tools/library.py writes it: its tests and those
# of its documentation, without a warning, and the examples by what they print and their exit status.
# The status is 0 if all is well.
set -euo pipefail

if [ $# != 1 ] || [ ! -f "$1/lib/libmidgebillon.a" ]; then
    echo "usage: test.sh FOLDER, with lib/libmidgebillon.a in it, as target/quick or target/proved" >&2
    exit 2
fi
MIDGEBILLON_LIB_DIR=$(cd "$1/lib" && pwd)
export MIDGEBILLON_LIB_DIR RUSTFLAGS="-D warnings" RUSTDOCFLAGS="-D warnings" CARGO_TERM_COLOR=never
cd "$(dirname "$0")"
unset CARGO_TARGET_DIR
programs=../target/cargo/debug/examples
written=$(mktemp -d)
trap 'rm -r "$written"' EXIT
failed=0

# repeated N WORD: the word N times
repeated() {
    local i
    for ((i = 0; i < $1; i++)); do printf '%s' "$2"; done
}

# wanted STATUS LINE PROGRAM WORD...: what a program gives for these words, as its output or as a message
wanted() {
    local status=$1 line=$2 program=$3 given=0 found
    shift 3
    found=$("$programs/$program" "$@" 2>"$written/messages") || given=$?
    found+=$(<"$written/messages")
    if [ "$given" != "$status" ] || [ "$found" != "$line" ]; then
        printf '%s %s: status %s, not %s, or not: %s\n%s\n' "$program" "$*" "$given" "$status" "$line" "$found"
        failed=1
    fi
}

# text NAME CONTENT: a file, by its path
text() {
    printf "$2" >"$written/$1"
    printf '%s' "$written/$1"
}

cargo test --offline --quiet
cargo build --offline --quiet --examples
cargo doc --offline --quiet --no-deps
if command -v rustfmt >/dev/null; then cargo fmt --check; fi

book=../examples/rules.book
wanted 0 'value (1 (0 1) (2 (0 2) (0 3)))' read $book ../examples/rule.txt
wanted 0 'value (0 [0 1] (3 $0.0 (4 (0 [0] (3 $0.0 (2 $1.1))))))' read ../examples/blend.book ../examples/blend.txt
wanted 1 'refused 30 place 2 kind 1 argument 41 line 1 column 3' read $book "$(text open '(1')"
# a tab moves the column to the next of 9, 17, 25 and so on
wanted 1 'refused 30 place 3 kind 1 argument 41 line 1 column 11' read $book "$(text tab '\t(1')"
wanted 1 'refused 30 place 4 kind 1 argument 41 line 2 column 9' read $book "$(text lines '(1\n\t(')"
# a missing file counts as empty
wanted 1 'refused 30 place 0 kind 11 argument 0 line 1 column 1' read $book "$written/missing"
wanted 1 'refused 3 place 0 kind 0 argument 0 line 0 column 0' read "$written/missing" ../examples/rule.txt
# longer than the room that a line is first given
wanted 0 "value $(repeated 40 '(1 ')(0 1)$(repeated 40 ' (0 1))')" read $book "$(text row "$(repeated 40 1-)1")"
wanted 2 'usage: read BOOK TEXT' read $book

wanted 0 -5 walk $book ../examples/rule.txt
wanted 0 -3 walk $book "$(text brackets '(1-2)*3')"
wanted 0 -4 walk $book "$(text left '1-2-3')"
wanted 0 9223372036854775807 walk $book "$(text largest '9223372036854775807')"
large='a number is outside 64 bits with a sign'
wanted 1 "$large" walk $book "$(text number '9223372036854775808')"
wanted 1 "$large" walk $book "$(text minus '0-9223372036854775807-2')"
wanted 1 "$large" walk $book "$(text times '3037000500*3037000500')"
wanted 1 'at place 2 of the text: the character `)` was wanted' walk $book "$(text open '(1')"
wanted 1 'the text is read from its beginning, but not up to its end' walk $book "$(text half '1-')"
other=$(text book '\0\0\1\0\1\1\377\3\1\0\0')
wanted 1 "the example book doesn't make variant 0 of 0 items" walk "$other" "$(text nothing '')"
wanted 3 'No such file or directory (os error 2)' walk $book "$written/missing"
wanted 2 'usage: walk BOOK TEXT' walk
if [ "$failed" = 0 ]; then echo 'rust: all is well'; fi
exit "$failed"
