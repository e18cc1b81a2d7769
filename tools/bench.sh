#!/bin/sh
# The verified runner against the independent program, which is compiled by the
# kit's clang at -O3 and linked as the kit links its programs. They run in turn on the same inputs; wall time
# with the lines thrown away, the fastest of nine runs each: what else a machine
# does only adds to a time.
#   bench.sh TALLY RUNNER      (from the repository's root)
# TALLY makes the inputs; they are large, stand under target/bench and are
# removed at the end.
set -eu
tally=$1
runner=$2
. "$(dirname "$0")/kit.sh"
need_program "$runner" runner

work=target/bench
times=9
mkdir -p "$work/objects"
trap 'rm -rf "$work"' EXIT
trap 'exit 130' INT TERM

build_yardstick() {
    objects=
    headers=$(header_words)
    for source in independent/*.c; do
        name=$(basename "$source" .c)
        [ "$name" != naive ] || continue
        "$kit_tools/bin/clang" --target=x86_64-unknown-linux-gnu -std=c11 -O3 -nostdinc $headers \
            -c -o "$work/objects/$name.o" "$source"
        objects="$objects $work/objects/$name.o"
    done
    "$kit/bin/rattle-link" --target x86_64-unknown-linux-gnu --toolchain "$kit_tools" \
        -o "$work/tally" $objects 2> "$work/link.said" || { cat "$work/link.said"; exit 2; }
}

# A second yardstick; on another machine it would not be of the same kind.
build_second() {
    [ "$(uname -m)" = x86_64 ] || return 0
    "${CC:-gcc}" -std=c11 -O3 -o "$work/tally.second" \
        $(ls independent/*.c | grep -v '/naive\.c$')
}

make_input() { # kind, how often the run stands behind itself
    "$tally" generate 1 "$1" > "$work/once"
    : > "$work/input"
    for time in $(seq "$2"); do
        cat "$work/once" >> "$work/input"
    done
}

nanoseconds() { # program and its words
    before=$(date +%s%N)
    "$@" < "$work/input" > /dev/null
    after=$(date +%s%N)
    echo $((after - before))
}

fastest() { # file with a number a line
    sort -n "$1" | head -n 1
}

figures() { # who, nanoseconds, records, hints
    awk -v who="$1" -v time="$2" -v records="$3" -v hints="$4" 'BEGIN {
        seconds = time / 1e9
        printf "  %-22s %7.3f s  %12.0f records/s", who, seconds, records / seconds
        if (hints > 0) printf "  %12.0f hints/s", hints / seconds
        print ""
    }'
}

measure() {
    rm -f "$work"/*.times
    for time in $(seq "$times"); do
        nanoseconds $run "$runner" >> "$work/runner.times"
        nanoseconds $run "$work/tally" run >> "$work/yardstick.times"
        [ ! -x "$work/tally.second" ] || nanoseconds "$work/tally.second" run >> "$work/second.times"
    done
}

compare() { # title, kind, repeats
    make_input "$2" "$3"
    $run "$runner" < "$work/input" > "$work/runner.lines"
    $run "$work/tally" run < "$work/input" > "$work/yardstick.lines"
    cmp "$work/runner.lines" "$work/yardstick.lines" ||
        { echo "the two programs differ on '$tally generate 1 $2', $3 times"; exit 1; }
    records=$(grep -c . "$work/yardstick.lines")
    hints=0
    if [ "$2" = heavy-derivations ]; then
        hints=$("$tally" disassemble < "$work/once" |
            awk -v times="$3" '/ by / { count += 1 + gsub(/,/, "") } END { print count * times }')
    fi
    echo "$1: $records records, $(($(wc -c < "$work/input") / 1000000)) MB"
    measure
    figures runner "$(fastest "$work/runner.times")" "$records" "$hints"
    figures "independent, clang" "$(fastest "$work/yardstick.times")" "$records" "$hints"
    [ ! -f "$work/second.times" ] ||
        figures "independent, ${CC:-gcc}" "$(fastest "$work/second.times")" "$records" "$hints"
    awk -v ours="$(fastest "$work/runner.times")" -v theirs="$(fastest "$work/yardstick.times")" \
        'BEGIN { printf "  runner takes %.2f times as long as the independent program\n", ours / theirs }'
}

echo "machine: $(uname -m), clang of $(cat "$kit/KIT-ID" 2> /dev/null || echo the kit)"
[ "$(uname -m)" = x86_64 ] ||
    echo "the programs run under an emulator here: these times say nothing about their speed"
build_yardstick
build_second
compare "rules: 3 to 12 literals; 15 % get 17 and 15 % get 18 at the last literal, the others are \
taken until the room is full and then get 23" heavy-rules 20
compare "judgings: 2,000 variables, 2,048 rules, 512 wishes; every rule is met" heavy-judgings 1
compare "derivations: 1 to 256 hints of all families, 18 to 64 literals; shown, and get 23 once \
the room is full; one in five gets 20 at its end" heavy-derivations 8
