#!/usr/bin/env bash
# tests/c/run.sh LIBRARY: tests the library's functions as C and C++ call them, and the tree's header. LIBRARY is a
# folder as tools/library.py writes it. It needs gcc, g++, pkg-config and python3.
#
# The programs are compiled with sanitizers, which see into the tree's header and the tests. They don't see into the
# library, whose code is compiled without: there it is pages without access around each list that catch a read or a
# write too far (pages.h). None of it is a proof; it shows what proofs leave open: the compiled code, how it is called
# and linked, and the header that is not proved.
#
# The status is 0 if all is well.
set -euo pipefail
if [ $# != 1 ]; then
    echo 'usage: tests/c/run.sh LIBRARY' >&2
    exit 2
fi
library=$(realpath "$1")
cd "$(dirname "$0")/../.."

built=target/tests/c
archive=$library/lib/libmidgebillon.a
shared=$library/lib/libmidgebillon.so
export PKG_CONFIG_PATH=$library/lib/pkgconfig LD_LIBRARY_PATH=$library/lib
failed=0

strict=(-Wall -Wextra -Wpedantic -Werror)
sanitized=(-std=c99 -D_DEFAULT_SOURCE -g -O1 "${strict[@]}" -fsanitize=address,undefined -fno-sanitize-recover=all)

# test_that WHAT COMMAND...: runs the command, which must succeed
test_that() {
    local what=$1
    shift
    if "$@"; then
        printf 'ok: %s\n' "$what"
    else
        printf 'FAILED: %s\n' "$what"
        failed=1
    fi
}

# flags WORD...: what pkg-config gives for these words, in `flags`
flags() {
    read -ra flags < <(pkg-config "$@" midgebillon)
}

same_headers() {
    diff -r include "$library/include"
}

# compiles_alone HEADER COMPILER...: included twice, and nothing besides
compiles_alone() {
    local header=$1
    shift
    printf '#include "%s"\n' "$header" "$header" | "$@" "${strict[@]}" -I"$library/include" -c -o /dev/null -
}

# linked NAME ARGUMENT...: a test on the static library, and on the shared one
linked() {
    local name=$1
    shift
    flags --cflags --libs
    gcc "${sanitized[@]}" -I"$library/include" -o "$built/${name}_static" "tests/c/$name.c" "$archive" &&
        gcc "${sanitized[@]}" -o "$built/${name}_shared" "tests/c/$name.c" "${flags[@]}" &&
        "$built/${name}_static" "$@" && "$built/${name}_shared" "$@"
}

# runs COMPILER...: a program of pkg-config's flags alone, on the shared library
runs() {
    flags --cflags --libs
    "$@" "${strict[@]}" tests/c/links.c -x none "${flags[@]}" -o "$built/links" &&
        readelf -d "$built/links" | grep 'NEEDED.*libmidgebillon.so' >/dev/null &&
        [ "$("$built/links")" = $'value (1 (0 1) (0 2))\nsum 3' ]
}

# has_label NM...: whether these symbols have the one of a library that is not proved
has_label() {
    "$@" | grep ' midgebillon_not_proved$' >/dev/null
}

# A library that is not proved says so in all three places, and a proved one in none.
labelled() {
    if grep -q 'not proved' "$PKG_CONFIG_PATH/midgebillon.pc"; then
        has_label nm "$archive" && has_label nm -D "$shared"
    else
        [ "$(basename "$library")" != quick ] && ! has_label nm "$archive" && ! has_label nm -D "$shared"
    fi
}

mkdir -p "$built"
python3 tests/c/known.py vectors/*.jsonl >"$built/cases.txt"
test_that "the library's headers are those of include/" same_headers
for header in midgebillon.h midgebillon_tree.h; do
    test_that "$header alone, C99" compiles_alone "$header" gcc -std=c99 -x c
    test_that "$header alone, C++11" compiles_alone "$header" g++ -std=c++11 -x c++
done
test_that 'a C program by pkg-config, shared' runs gcc -std=c99 -x c
test_that 'a C++ program by pkg-config, shared' runs g++ -std=c++11 -x c++
test_that 'what is not proved says so' labelled
test_that 'lists of every length, between pages' linked boundary examples/rules.book "$built/cases.txt"
test_that 'the tree' linked tree "$built/cases.txt"
test_that 'lent working memory' linked read_in "$built/cases.txt"
exit $failed
