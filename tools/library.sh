#!/bin/sh
# The static library for C: it is proved and built, the examples are compiled
# by the kit's clang against include/tally.h and linked with it as the kit links
# its programs, and what they print is compared. The header is read as C++ too.
# `tally_c` has the exports; its archive is handed on as libtally.a, the name
# that C programs link.
#   library.sh      (from the repository's root)
set -eu
. "$(dirname "$0")/kit.sh"

work=target/library
library=target/staticlib/libtally.a
mkdir -p "$work"
trap 'rm -rf "$work"' EXIT
trap 'exit 130' INT TERM

compile() { # what clang is to do, with its words
    "$kit_tools/bin/clang" --target=x86_64-unknown-linux-gnu -O2 -Wall -Wextra -Wpedantic -Werror \
        -nostdinc $headers -Iinclude "$@"
}

build_library() {
    (cd crates/tally_c && "$rt" lib) > "$work/said" 2>&1 || { cat "$work/said"; exit 1; }
    mkdir -p "$(dirname "$library")"
    cp crates/tally_c/out/libtally_c.a "$library"
}

run_example() { # name, file with what it has to print
    compile -std=c11 -c -o "$work/$1.o" "examples/$1.c"
    "$kit/bin/rattle-link" --target x86_64-unknown-linux-gnu --toolchain "$kit_tools" \
        -o "$work/$1" "$work/$1.o" "$library" 2> "$work/said" || { cat "$work/said"; exit 2; }
    $run "$work/$1" > "$work/$1.lines"
    cmp "$work/$1.lines" "$2" ||
        { echo "examples/$1.c does not print what stands in $2"; exit 1; }
}

build_library
headers=$(header_words)
compile -x c++ -fsyntax-only -include tally.h /dev/null
run_example worked independent/worked.lines
run_example small examples/small.lines
run_example sheet examples/sheet.lines
echo "library: proved and built, $(($(wc -c < "$library") / 1024)) KiB;" \
    "the examples print what they have to"
