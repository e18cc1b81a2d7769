#!/bin/sh
# The verified programs, proved and built, where the other commands look for
# them: target/bin.
#   programs.sh      (from the repository's root)
set -eu
. "$(dirname "$0")/kit.sh"

mkdir -p target/bin
for program in runner corpus texts wcnf2rec; do
    (cd "crates/$program" && "$rt" run < /dev/null) > target/bin/said 2>&1 || { cat target/bin/said; exit 1; }
    cp "crates/$program/out/$program" target/bin/
    rm target/bin/said
done
