#!/usr/bin/env bash
# Builds the examples in C on the library, once linked with the static and once, by pkg-config, with the shared one, and
# runs both: on the example rule, and on what else the documents say of the line.
# LIBRARY names the library's folder, as tools/library.py writes it. Without it that is target/proved, which is proved
# and written first unless it is newer than the crates' files and the headers.
# The status is 0 if every line and exit status is as wanted.
set -euo pipefail
cd "$(dirname "$0")/.."

library=${LIBRARY:-target/proved}
built=target/examples
failed=0

# whether a file of the crates, or a header, is newer than the library
outdated() {
    local archive=$library/lib/libmidgebillon.a
    [ ! -f "$archive" ] || [ -n "$(find crates crates.txt include -type f -newer "$archive" -print -quit)" ]
}

c() {
    gcc -std=c11 -O2 -Wall -Wextra -Werror "$@"
}

build() {
    local name flags
    if [ -z "${LIBRARY:-}" ] && outdated; then python3 tools/library.py; fi
    export PKG_CONFIG_PATH=$library/lib/pkgconfig LD_LIBRARY_PATH=$library/lib
    read -ra flags < <(pkg-config --cflags --libs midgebillon)
    mkdir -p "$built/static" "$built/shared"
    for name in read furthest tree; do
        c -I"$library/include" -o "$built/static/$name" "examples/c/$name.c" "$library/lib/libmidgebillon.a"
        c -o "$built/shared/$name" "examples/c/$name.c" "${flags[@]}"
    done
}

# repeated N WORD: the word N times
repeated() {
    local i
    for ((i = 0; i < $1; i++)); do printf '%s' "$2"; done
}

# wanted NAME STATUS LINES WORD...: what both programs of this name give for these words; without LINES they write
# nothing
wanted() {
    local name=$1 status=$2 lines=${3:+$3$'\n'} linked given
    shift 3
    for linked in static shared; do
        given=0
        "$built/$linked/$name" "$@" >"$built/lines" 2>/dev/null || given=$?
        if [ "$given" = "$status" ] && printf '%s' "$lines" | cmp -s - "$built/lines"; then
            printf '%s, %s, status %s: %s\n' "$name" "$linked" "$given" "${lines%$'\n'}"
        else
            printf '%s, %s, %s: status %s, not %s, or not this: %s\n' "$name" "$linked" "$*" "$given" "$status" "$lines"
            failed=1
        fi
    done
}

# cut_off COUNT WORD...: both trees have more lines than are printed, which are so many
cut_off() {
    local count=$1 linked given
    shift
    for linked in static shared; do
        given=0
        "$built/$linked/tree" "$@" >"$built/lines" 2>/dev/null || given=$?
        printf 'tree, %s, status %s: %s lines\n' "$linked" "$given" "$(wc -l <"$built/lines")"
        if [ "$given" != 3 ] || [ "$(wc -l <"$built/lines")" != "$count" ]; then failed=1; fi
    done
}

# bytes HEX...: the bytes that these digits are
bytes() {
    printf "$(printf '%s' "$*" | tr -d ' ' | sed 's/../\\x&/g')"
}

# A book whose values double: 13 nonterminals that are each the next one twice, and one more that is nothing. The empty
# text's value has 16,383 nodes and takes 41 cells.
doubling_book() {
    bytes 00 00 0E "$(repeated 14 0001)" 0E "$(repeated 13 FF030102)" FF 03 01 00 \
        1A "$(printf '08%02X0000' 1 1 2 2 3 3 4 4 5 5 6 6 7 7 8 8 9 9 10 10 11 11 12 12 13 13)"
}

build
wanted read 0 'value (1 (0 1) (2 (0 2) (0 3)))' examples/rules.book examples/rule.txt
printf '(1' >"$built/open.txt"
wanted read 1 'refused 30 place 2 kind 1 argument 41 line 1 column 3' examples/rules.book "$built/open.txt"
wanted read 1 'refused 30 place 0 kind 11 argument 0 line 1 column 1' examples/rules.book "$built/missing.txt"
# a tab moves the column to the next of 9, 17, 25 and so on
printf '\t(1' >"$built/tab.txt"
wanted read 1 'refused 30 place 3 kind 1 argument 41 line 1 column 11' examples/rules.book "$built/tab.txt"
printf '(1\n\t(' >"$built/lines.txt"
wanted read 1 'refused 30 place 4 kind 1 argument 41 line 2 column 9' examples/rules.book "$built/lines.txt"
wanted read 1 'refused 3 place 0 kind 0 argument 0 line 0 column 0' "$built/missing.book" examples/rule.txt
# longer than the room that the program begins with
repeated 40 '1-' >"$built/chain.txt" && printf '1' >>"$built/chain.txt"
wanted read 0 "value $(repeated 40 '(1 ')(0 1)$(repeated 40 ' (0 1))')" examples/rules.book "$built/chain.txt"
wanted read 2 '' examples/rules.book

printf '1-' >"$built/short.txt"
wanted furthest 0 'place 2 kind 1 argument 41' \
    examples/rules.book "$built/open.txt" examples/rule.txt "$built/missing.txt" "$built/short.txt"
wanted furthest 0 'place 0 kind 11 argument 0' examples/rules.book "$built/missing.txt"
wanted furthest 1 '' examples/rules.book examples/rule.txt
wanted furthest 2 ''

wanted tree 0 'variant 1
  variant 0
    number 1
  variant 2
    variant 0
      number 2
    variant 0
      number 3' examples/rules.book examples/rule.txt
# a variable, an optional that is absent, a list and an identifier
bytes 00 01 05 05 70 72 69 63 65 02 0001 0001 02 FF030104 FF030101 05 04000000 09010000 0C012829 02000000 03000000 \
    >"$built/forms.book"
printf 'price (7,18446744073709551615) net' >"$built/forms.txt"
wanted tree 0 'variant 0
  variable of kind 5 price
  absent
  list
    variant 1
      number 7
    variant 1
      number 18446744073709551615
  identifier net' "$built/forms.book" "$built/forms.txt"
# names that the rule declares: their kinds, and then the variables by depth and index
wanted read 0 'value (0 [0 1] (3 $0.0 (4 (0 [0] (3 $0.0 (2 $1.1))))))' examples/blend.book examples/blend.txt
wanted tree 0 'variant 0
  list
    number 0
    number 1
  variant 3
    declared variable 0.0
    variant 4
      variant 0
        list
          number 0
        variant 3
          declared variable 0.0
          variant 2
            declared variable 1.1' examples/blend.book examples/blend.txt
printf 'spot' >"$built/spot.txt"
wanted tree 0 'variant 0
  absent
  variant 2
    variable of kind 1 spot' examples/blend.book "$built/spot.txt"
printf '[%s] 1' "$(repeated 65 'share s,')" >"$built/names.txt"
wanted read 1 'refused 41 place 0 kind 0 argument 0 line 0 column 0' examples/blend.book "$built/names.txt"
doubling_book >"$built/doubling.book"
: >"$built/empty.txt"
cut_off 10000 "$built/doubling.book" "$built/empty.txt"
wanted tree 1 'refused 30 place 2 kind 1 argument 41 line 1 column 3' examples/rules.book "$built/open.txt"
wanted tree 2 '' examples/rules.book
exit $failed
