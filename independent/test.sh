#!/bin/sh
# The tests of the independent tally: its answers on known runs and edges, the
# round trip of the script form, the reach of the generators and of the corpus,
# containers, and the second opinion of the naive program. Arguments: the tally
# and the naive program.
tally=$1
naive=$2
work=build/test.$$
passed=0
failed=0

mkdir -p "$work"
trap 'rm -rf "$work"' EXIT

check() { # name, what came, what should have come
    if [ "$2" = "$3" ]; then
        passed=$((passed + 1))
    else
        failed=$((failed + 1))
        printf 'FAILED: %s\n  came:     %s\n  expected: %s\n' "$1" "$2" "$3"
    fi
}

# The answers to a script, without places and kinds, joined by commas.
answers() {
    printf '%s\n' "$@" | "$tally" assemble > "$work/script.records" || return
    "$tally" run < "$work/script.records" | cut -d ' ' -f 3- | paste -s -d , -
}

# The same for bytes written in hexadecimal, with places and kinds.
lines() {
    printf 'bytes %s\n' "$*" | "$tally" assemble | "$tally" run | paste -s -d , -
}

sheet() { # text with printf escapes, expected answer, room
    check "sheet $1" "$(printf "$1" | "$tally" text-answer ${3:+"$3"})" "$2"
}

numbers() { # the literals from 1 to $1
    awk -v n="$1" 'BEGIN { for (v = 1; v <= n; v++) printf " %d", v }'
}

# --- known runs -----------------------------------------------------------
"$tally" assemble < worked.txt > "$work/worked.records"
"$tally" run < "$work/worked.records" > "$work/worked.came"
check "worked run" "$(cat "$work/worked.came")" "$(cat worked.lines)"
check "worked run has 21 lines" "$(grep -c . "$work/worked.came")" 21
check "worked run told in words" "$("$tally" explain < "$work/worked.records" |
    cut -c 25- | sed -n '9p;14p;20p' | paste -s -d '|' -)" \
    "core 0: bound is now 2, each member lowered by 2; counter 0 over 2 inputs|judge 110: best, cost 5 equals the bound|core 0: refused, member 2001 has no weight left"
check "empty input" "$("$tally" run < /dev/null)" ""
check "empty input told" "$("$tally" explain < /dev/null)" ""

# --- edges of the records -------------------------------------------------
check "open 0 and 2001" "$(answers 'open 0' 'open 2001' 'open 4294967295' 'open 1')" \
    "14 0 0,14 0 0,14 0 0,0 1 0"
check "open 2000" "$(answers 'open 2000' 'open 5' 'open 0')" "0 2000 0,12 0 0,12 0 0"
check "empty rule" "$(answers 'open 1' rule 'judge 0' 'judge 1')" \
    "0 1 0,0 0 0,24 0 0,24 0 0"
check "empty wish" "$(answers 'open 1' 'wish 7' 'judge 0' 'judge 1' 'derive 2001 by wish 0' \
    'core 0' 'judge 1')" "0 1 0,0 0 2001,0 7 0,0 7 0,0 0 1,0 7 7,1 7 7"
many=$(numbers 64)
check "64 and 65 literals" "$(answers 'open 100' "rule$many" "rule$many 65" "wish 1$many" \
    "wish 1$many 65" "derive$many by rule 0" "derive$many 65 by rule 0")" \
    "0 100 0,0 0 0,16 0 0,0 0 2001,16 0 0,0 0 64,16 0 0"
check "least literal" "$(answers 'open 3' 'rule -2147483648' 'wish 1 -2147483648' \
    'derive -2147483648')" "0 3 0,17 0 0,17 0 0,17 0 0"
check "ending at the first of two hints" "$(answers 'open 3' 'rule 1' 'derive 1 by rule 0, rule 0' \
    'derive 1 by rule 0')" "0 3 0,0 0 0,20 0 0,0 0 1"
check "one-member core makes no counter" "$(answers 'open 1' 'rule 1' 'wish 4 -1' \
    'derive 2001 by wish 0, rule 0' 'core 0' 'derive 4001' 'core 0')" \
    "0 1 0,0 0 0,0 0 2001,0 0 1,0 4 4,17 0 0,22 0 0"
check "weights" "$(answers 'open 1' 'wish 0' 'wish 1' 'wish 1000000' 'wish 1000001')" \
    "0 1 0,15 0 0,0 0 2001,0 1 2002,15 0 0"
check "variables between n and the wishes" "$(answers 'open 5' 'rule 6' 'rule -5' \
    'derive 6' 'derive 2000' 'derive 2001' 'wish 1' 'derive 2001' 'derive 2002' 'derive 4001')" \
    "0 5 0,17 0 0,0 0 0,17 0 0,17 0 0,17 0 0,0 0 2001,20 0 0,17 0 0,17 0 0"
check "a true literal forces nothing" "$(answers 'open 3' 'rule 1 2' 'rule -1 2' \
    'derive -1 by rule 0, rule 1' 'derive 2 by rule 0, rule 1')" \
    "0 3 0,0 0 0,0 1 0,20 0 0,0 0 1"
check "no hints and no ending" "$(answers 'open 3' 'rule 1 2' 'rule 1 2 3' 'derive 1' \
    'derive 1 by rule 0' 'derive 1 by rule 1')" "0 3 0,0 0 0,0 1 0,20 0 0,20 0 0,20 0 0"
check "an empty clause ends" "$(answers 'open 1' rule 'derive by rule 0' \
    'derive 1 by derived 0' 'derive -1 by rule 0, rule 0' 'core 0' 'core 1')" \
    "0 1 0,0 0 0,0 0 0,0 1 1,20 0 0,22 0 0,22 0 0"
check "literals before repeats, repeats before hints" "$(answers 'open 3' 'rule 1 1 9' \
    'rule 1 -1' 'wish 0 1 1' 'derive 1 1 9 by rule 7' 'derive 1 1 by rule 7' 'derive 1 by rule 7')" \
    "0 3 0,17 0 0,18 0 0,15 0 0,17 0 0,18 0 0,19 0 0"
check "core refusals" "$(answers 'open 2' 'rule 1 2' 'wish 2 -1' 'core 0' \
    'derive 1 2 by rule 0' 'core 0' 'derive -1 2001 by wish 0' 'core 1' 'core 2')" \
    "0 2 0,0 0 0,0 0 2001,21 0 0,0 0 2,22 0 0,0 1 2,22 0 0,21 0 0"
check "hint families" "$(answers 'open 1' 'rule 1' 'raw 0400 01000000 01000000 0000 0000 00000000' \
    'raw 0400 01000000 01000000 0500 0000 00000000' 'raw 0400 01000000 01000000 0100 0100 00000000' \
    'raw 0400 01000000 01000000 0100 0000 00000000' 'derive 1 by counter 0 clause 0')" \
    "0 1 0,0 0 0,19 0 0,19 0 0,19 0 0,0 0 1,19 0 0"

check "root output 1 has no weight" "$(answers 'open 2' 'rule 1 2' 'wish 3 -1' 'wish 3 -2' \
    'derive 2001 2002 by wish 0, wish 1, rule 0' 'core 0' \
    'derive 4001 by counter 0 clause 0, counter 0 clause 1, derived 0' 'core 1')" \
    "0 2 0,0 0 0,0 0 2001,0 1 2002,0 0 2,0 3 3,0 1 1,22 0 0"

# Counters of every width: the last clause and variable, and one past each.
# The sizes are worked out here by halving.
width=2
broken=
while [ "$width" -le 64 ]; do
    awk -v m="$width" '
    function names(s) { return s < 2 ? 0 : s + names(int(s / 2)) + names(s - int(s / 2)) }
    function clauses(s, p) {
        p = int(s / 2)
        return s < 2 ? 0 : (p + 1) * (s - p + 1) - 1 + clauses(p) + clauses(s - p)
    }
    BEGIN {
        for (v = 1; v <= m; v++) { rule = rule " " v; core = core " " 2000 + v }
        for (v = 1; v <= m; v++) hints = hints " wish " v - 1 ","
        print "open 64\nrule" rule
        for (v = 1; v <= m; v++) print "wish 1 -" v
        print "derive" core " by" hints " rule 0\ncore 0"
        print "derive 1 by counter 0 clause " clauses(m) - 1
        print "derive 1 by counter 0 clause " clauses(m)
        print "derive " 4000 + names(m) "\nderive " 4001 + names(m)
    }' | "$tally" assemble | "$tally" run | tail -n 5 | cut -d ' ' -f 3 | paste -s -d , - > "$work/out"
    [ "$(cat "$work/out")" = "0,20,19,20,17" ] || broken="$broken $width"
    width=$((width + 1))
done
check "sizes of counters of every width" "$broken" ""

# 129 cores of two members: the last finds no room for a counter.
awk 'BEGIN {
    print "open 2\nrule 1 2\nwish 1000000 -1"
    for (j = 1; j <= 129; j++) {
        print "wish 1 -2"
        printf "derive 2001 %d by wish 0, wish %d, rule 0\ncore %d\n", 2001 + j, j, j - 1
    }
    print "wish 5\nderive 2131 by wish 130\ncore 129\ncore 0"
}' > "$work/cores.txt"
"$tally" assemble < "$work/cores.txt" | "$tally" run | awk '$2 == 5' > "$work/cores.lines"
check "core 127 and 128" "$(sed -n '128,132p' "$work/cores.lines" | cut -d ' ' -f 3- |
    paste -s -d , -)" "0 128 1,23 0 0,0 133 5,22 0 0"

check "frames" "$(lines 00)|$(lines 000000)|$(lines 00000000)|$(lines 01000000 06)|$(lines 01100000)" \
    "1 0 10 0 0|1 0 10 0 0|1 0 10 0 0|1 0 10 0 0|1 0 10 0 0"
check "a frame cut short ends the run" "$(lines 06000000 0100 03000000 05000000 0600 00)" \
    "1 1 0 3 0,2 0 10 0 0"
check "nothing is read behind 10" "$(lines 00000000 06000000 0100 03000000)" "1 0 10 0 0"
check "kind before moment before form" \
    "$(lines 02000000 0000 02000000 0700 02000000 ffff 03000000 0200 00 02000000 0100)" \
    "1 0 11 0 0,2 7 11 0 0,3 65535 11 0 0,4 2 12 0 0,5 1 13 0 0"
check "forms" "$(answers 'open 9' 'raw 0200 00' 'raw 0300' 'raw 0300 010000' 'raw 0400' \
    'raw 0400 01000000' 'raw 0400 ffffffff 00000000' 'raw 0400 00000000 00' 'raw 0500' \
    'raw 0500 0000000000' 'raw 0600 00' 'raw 0600 0002' 'raw 0600 000000' 'raw 0600 ff01')" \
    "0 9 0,13 0 0,13 0 0,13 0 0,13 0 0,13 0 0,13 0 0,13 0 0,13 0 0,13 0 0,13 0 0,13 0 0,13 0 0,1 0 0"
check "257 hints" "$(answers 'open 1' 'rule 1' \
    "derive 1 by rule 0$(awk 'BEGIN { for (k = 1; k < 256; k++) printf ", rule 0" }')" \
    "derive 1 by rule 0$(awk 'BEGIN { for (k = 1; k < 257; k++) printf ", rule 0" }')")" \
    "0 1 0,0 0 0,20 0 0,19 0 0"
check "a late wish moves nothing" "$(answers 'open 2' 'rule 1 2' 'wish 3 -1' 'wish 3 -2' \
    'derive 2001 2002 by wish 0, wish 1, rule 0' 'core 0' 'judge 10' 'wish 4 -1' 'judge 10' \
    'derive -2001 -2002 4002 by counter 0 clause 2')" \
    "0 2 0,0 0 0,0 0 2001,0 1 2002,0 0 2,0 3 3,1 3 3,0 2 2003,0 7 3,0 1 3"

# --- the older text -------------------------------------------------------
sheet '' '30 0 0'
sheet 'c only\n' '30 0 0'
sheet 'p wcnf 1 0 1' '0 12 10'
sheet 'p wcnf 2 2 5\n5 1 -2 0\n3 2 0\n' '0 28 38'
sheet 'p wcnf 2 2 5\n5 1 -2 0\n3 2 0\n' '0 28 38' 38
sheet 'p wcnf 2 2 5\n5 1 -2 0\n3 2 0\n' '34 28 0' 37
sheet 'p wcnf 2 2 5\n5 1 -2 0\n3 2 0\n' '34 28 0' 0
sheet ' \t\r\nc\n  p wcnf\t1\r0 1 \r\nc' '0 24 10'
sheet ' c\np wcnf 1 0 1\n' '30 0 0'
sheet 'p wcnf 1 0\n1\n' '30 0 0'
sheet 'p wcnf 1 0 1 1\n' '30 0 0'
sheet 'p wcnf1 0 1\n' '30 0 0'
sheet 'p wcnf 1 0 4294967296\n' '30 0 0'
sheet 'p wcnf   0 0 1\n' '14 9 0'
sheet 'p wcnf 2001 0 1\n' '14 7 0'
sheet 'p wcnf 0 0 x\n' '30 0 0'
sheet 'p wcnf 2 1 5\n5 1\nc between\n2 0\n' '0 31 24'
sheet 'p wcnf 2 1 5\n5 1\n c\n2 0\n' '31 18 0'
sheet 'p wcnf 2 1 5\n5 1 -0\n' '31 17 0'
sheet 'p wcnf 2 1 5\n5 +1 0\n' '31 15 0'
sheet 'p wcnf 2 1 5\n-5 1 0\n' '31 13 0'
sheet 'p wcnf 2 1 5\n5 2147483648 0\n' '31 15 0'
sheet 'p wcnf 2 1 5\n5 2147483647 0\n' '17 13 0'
sheet 'p wcnf 2 1 5\n 0 1 0\n' '15 14 0'
sheet 'p wcnf 2 1 0\n0 1 0\n' '0 19 20'
sheet 'p wcnf 2 1 5\n6 1 0\n' '0 19 24'
sheet 'p wcnf 2 1 5\n005 01 00\n' '0 23 20'
sheet 'p wcnf 2 1 5\n5 1 -1 0\n' '18 13 0'
sheet 'p wcnf 2 1 5\n5 1' '32 16 0'
sheet 'p wcnf 2 0 5\n5' '32 14 0'
sheet 'p wcnf 2 1 5\n' '33 13 0'
sheet 'p wcnf 2 0 5\n5 1 0' '33 18 0'
sheet "p wcnf 70 1 5\\n5$many 0\\n" "0 201 272"
sheet "p wcnf 70 1 5\\n5$many 65 0\\n" "16 14 0"
printf 'p wcnf 2 1 5\n5 1 2 0\n' | "$tally" text | "$tally" run > "$work/sheet.lines"
check "a sheet's records run" "$(paste -s -d , "$work/sheet.lines")" "1 1 0 2 0,2 2 0 0 0"

# --- what a person meets --------------------------------------------------
"$tally" > "$work/out" 2> "$work/err"
check "no command" "$? $(grep -c usage "$work/err") $(wc -c < "$work/out" | tr -d ' ')" "2 1 0"
"$tally" sing > "$work/out" 2> "$work/err"
check "unknown command" "$? $(head -n 1 "$work/err")" '2 tally: there is no command "sing"'
"$tally" generate x 2> "$work/err"
check "bad seed" "$?" 2
"$tally" generate 1 nothing 2> "$work/err"
check "unknown kind" "$? $(cat "$work/err")" \
    '2 tally: no kind is called "nothing"; tally names lists them'
printf 'p wcnf 2 1 5\n5 1 x 0\n' | "$tally" text > "$work/out" 2> "$work/err"
check "a refused sheet" "$? $(wc -c < "$work/out" | tr -d ' ') $(cat "$work/err")" \
    "1 0 tally: refused (31) at byte 17, line 2, column 5: this word is not a decimal number, or it is too large; a minus sign may stand before literals only"
printf 'open 3\nrule 1 x\n' | "$tally" assemble > "$work/out" 2> "$work/err"
check "a refused script" "$? $(wc -c < "$work/out" | tr -d ' ') $(cat "$work/err")" \
    '1 0 tally: line 2: a literal must be a whole number of 32 bits, not "x"'
for line in 'open' 'open 3 4' 'open x' 'wish' 'wish x 1' 'core' 'judge' 'judge 12' 'raw 0' \
    'raw 02' 'raw zz' 'derive 1 by' 'derive 1 by rule' 'derive 1 by rule 0,' 'derive 1 by rule 0 rule 1' \
    'derive 1 by counter 0 2' 'derive 1 by counter 70000 clause 1' 'rule 3000000000' 'sing'; do
    printf '%s\n' "$line" | "$tally" assemble > "$work/out" 2> "$work/err"
    check "refused line $line" "$? $(grep -c '^tally: line 1: ' "$work/err")" "1 1"
done

# --- round trip and reach -------------------------------------------------
: > "$work/numbers"
seed=1
broken=
while [ "$seed" -le 300 ]; do
    "$tally" generate "$seed" > "$work/records" || broken="$broken $seed"
    "$tally" disassemble < "$work/records" > "$work/script"
    "$tally" assemble < "$work/script" | cmp -s - "$work/records" || broken="$broken $seed"
    "$tally" run < "$work/records" | cut -d ' ' -f 3 | sort -u >> "$work/numbers"
    "$tally" explain < "$work/records" > "$work/told" || broken="$broken $seed"
    seed=$((seed + 1))
done
check "round trip of 300 runs" "$broken" ""
check "every answer in 300 runs" "$(sort -un "$work/numbers" | paste -s -d ' ' -)" \
    "0 1 10 11 12 13 14 15 16 17 18 19 20 21 22 23 24"
broken=
for kind in damaged noise scrambled tiny; do
    seed=1001
    while [ "$seed" -le 1025 ]; do
        "$tally" generate "$seed" "$kind" > "$work/records"
        "$tally" disassemble < "$work/records" > "$work/script"
        "$tally" assemble < "$work/script" | cmp -s - "$work/records" ||
            broken="$broken $kind:$seed"
        seed=$((seed + 1))
    done
done
check "round trip of damage and noise" "$broken" ""
"$tally" generate 77 > "$work/first"
"$tally" generate 77 > "$work/second"
check "the same seed, the same bytes" "$(cmp "$work/first" "$work/second" && echo same)" same

: > "$work/numbers"
seed=1
broken=
while [ "$seed" -le 300 ]; do
    "$tally" generate-text "$seed" > "$work/sheet"
    answer=$("$tally" text-answer < "$work/sheet")
    echo "${answer%% *}" >> "$work/numbers"
    if [ "${answer%% *}" = 0 ]; then
        length=${answer##* }
        "$tally" text-answer "$((length - 1))" < "$work/sheet" > "$work/short"
        cut -d ' ' -f 1 "$work/short" >> "$work/numbers"
        [ "$("$tally" text-answer "$length" < "$work/sheet")" = "$answer" ] ||
            broken="$broken $seed"
        [ "$("$tally" text < "$work/sheet" | wc -c | tr -d ' ')" = "$length" ] ||
            broken="$broken $seed"
    fi
    seed=$((seed + 1))
done
check "rooms exactly enough" "$broken" ""
check "every number in 300 texts" "$(sort -un "$work/numbers" | paste -s -d ' ' -)" \
    "0 14 15 16 17 18 30 31 32 33 34"

# --- containers -------------------------------------------------------------
# The lines of a container written in hexadecimal, joined by commas.
replayed() {
    printf 'bytes %s\n' "$*" | "$tally" assemble | "$tally" replay | paste -s -d , -
}

check "an empty container" "$("$tally" replay < /dev/null)" ""
check "every run has a fresh session" \
    "$(replayed 0a000000 06000000 0100 03000000 00000000 0a000000 06000000 0100 02000000)" \
    "run 1,1 1 0 3 0,run 2,run 3,1 1 0 2 0"
check "a run does not read the next one" \
    "$(replayed 06000000 06000000 0100 04000000 03000000)" "run 1,1 0 10 0 0,run 2,1 0 10 0 0"
check "a container that ends inside a length" \
    "$(replayed 00)|$(replayed 0000)|$(replayed 00000000 000000)" "||run 1"
check "a container that ends inside a run" \
    "$(replayed 05000000)|$(replayed 0a000000 06000000 0100)|$(replayed ffffffff 06000000 0100 03000000)" \
    "run 1|run 1,1 0 10 0 0|run 1,1 1 0 3 0"
"$tally" container 40 3 > "$work/container"
broken=
for seed in 40 41 42; do
    "$tally" take "$((seed - 39))" < "$work/container" > "$work/records"
    "$tally" generate "$seed" | cmp -s - "$work/records" || broken="$broken $seed"
done
check "a container holds the runs of its seeds" "$broken" ""
"$tally" take 4 < "$work/container" > "$work/out" 2> "$work/err"
check "a run that is not there" "$? $(wc -c < "$work/out" | tr -d ' ') $(cat "$work/err")" \
    "1 0 tally: the container has only 3 runs"
"$tally" take 0 < "$work/container" 2> "$work/err"
check "runs count from 1" "$?" 2
"$tally" container 1 x 2> "$work/err"
check "bad count" "$?" 2

# --- the corpus -------------------------------------------------------------
# Every run is taken out and run alone; its lines stand beside its script.
"$tally" corpus < "$work/worked.records" > "$work/corpus"
"$tally" replay < "$work/corpus" > "$work/replayed"
runs=$(grep -c '^run ' "$work/replayed")
check "runs in the corpus" "$((runs >= 200))" 1
check "size of the corpus" "$(($(wc -c < "$work/corpus") <= 2500000))" 1
: > "$work/told"
number=1
while [ "$number" -le "$runs" ]; do
    "$tally" take "$number" < "$work/corpus" > "$work/records"
    "$tally" run < "$work/records" > "$work/lines"
    echo "run $number" >> "$work/told"
    "$tally" disassemble < "$work/records" | paste -d '|' "$work/lines" - >> "$work/told"
    number=$((number + 1))
done
check "replay agrees with single runs" \
    "$(cut -d '|' -f 1 "$work/told" | grep . | cmp - "$work/replayed" && echo same)" same
check "every answer in the corpus" "$(grep -v '^run ' "$work/replayed" | cut -d ' ' -f 3 |
    sort -un | paste -s -d ' ' -)" "0 1 10 11 12 13 14 15 16 17 18 19 20 21 22 23 24"
check "the corpus starts with the worked run" "$(sed -n '2,22p' "$work/replayed")" "$(cat worked.lines)"
check "the worked run cut short" "$(awk '/^run / { number = $2; next } { last[number] = $3; count[number]++ }
    END { for (n = 2; n <= 9; n++) printf "%d:%d ", count[n] - count[2], last[n] == 10
          print count[10] + 0 }' "$work/replayed")" "0:0 1:1 1:1 1:1 1:1 1:1 1:1 11:1 0"

# What the corpus reaches: the fullest of each room and the greatest bound, the
# rooms that were too small for one more, cores over outputs, rules and wishes
# behind a counter, and the counters of which each clause was named by a hint.
reach() {
    awk -F '[ |]' '
    function clauses(s, p) {
        p = int(s / 2)
        return s < 2 ? 0 : (p + 1) * (s - p + 1) - 1 + clauses(p) + clauses(s - p)
    }
    function most(name, value) { if (value > top[name]) top[name] = value }
    function finish(c) {
        for (c = 0; c < counters; c++)
            if (names[c] == clauses(width[c])) whole[width[c]] = 1
        rules = rule_literals = wishes = wish_literals = derived = derived_literals = counters = 0
        split("", size); split("", width); split("", names); split("", named); split("", outputs)
    }
    /^run / { finish(); next }
    $3 == 23 && $2 == 2 { past[rules == 2048 ? "rules" : "rule literals"] = 1 }
    $3 == 23 && $2 == 3 { past[wishes == 512 ? "wishes" : "wish literals"] = 1 }
    $3 == 23 && $2 == 4 { past[derived == 4096 ? "derived" : "derived literals"] = 1 }
    $3 == 23 && $2 == 5 { past["counters"] = 1 }
    $3 != 0 { next }
    $2 == 2 { most("rules", ++rules); most("rule literals", rule_literals += NF - 6) }
    $2 == 3 { most("wishes", ++wishes); most("wish literals", wish_literals += NF - 7) }
    $2 <= 3 && counters > 0 { late[$2] = 1 }
    $2 == 4 {
        most("derived", ++derived)
        most("derived literals", derived_literals += $5)
        size[$4] = $5
        for (k = 7; k < 7 + $5; k++) if ($k > 4000) outputs[$4] = 1
        if (NF == 11 + $5 && $(8 + $5) == "counter" && !named[$(9 + $5), $(11 + $5)]++)
            names[$(9 + $5)]++
    }
    $2 == 5 {
        most("bound", $4)
        if (outputs[$7]) over_outputs = 1
        if (size[$7] > 1) { width[counters++] = size[$7]; most("counters", counters) }
    }
    END {
        finish()
        print top["rules"], top["rule literals"], top["wishes"], top["wish literals"], \
            top["derived"], top["derived literals"], top["counters"], top["bound"]
        print past["rules"] past["rule literals"] past["wishes"] past["wish literals"] \
            past["derived"] past["derived literals"] past["counters"], over_outputs, late[2] late[3]
        print whole[2] whole[3] whole[33] whole[63] whole[64]
    }' "$work/told" | paste -s -d , -
}
check "reach of the corpus" "$(reach)" \
    "2048 16384 512 8192 4096 16384 128 512000000,1111111 1 11,11111"

# --- containers of texts ------------------------------------------------------
# The lines of a container of texts written in hexadecimal, joined by commas.
text_replayed() {
    printf 'bytes %s\n' "$*" | "$tally" assemble | "$tally" text-replay | paste -s -d , -
}
header=702077636e66203120302031 # p wcnf 1 0 1

check "an empty container of texts" "$("$tally" text-replay < /dev/null)" ""
check "rooms of an empty text" "$(text_replayed 00000000 00000000 03000000 00000000)" \
    "1 30 0 0 1,2 30 0 0 196609"
# Worked out by hand: the bytes 6 0 0 0 1 0 1 0 0 0, and zeros behind them.
check "checksums" "$(text_replayed 0a000000 0c000000 $header 0c000000 0c000000 $header \
    09000000 0c000000 $header)" "1 0 12 10 5242889,2 0 12 10 6422537,3 34 12 0 589825"
check "a container that ends inside an entry's head" \
    "$(text_replayed 00)|$(text_replayed 0a000000 0c0000)|$(text_replayed 00000000 00000000 00000000)" \
    "||1 30 0 0 1"
check "a container that ends inside a text" \
    "$(text_replayed 0a000000 0f000000 $header)|$(text_replayed 00000000 0c000000)" \
    "1 0 12 10 5242889|1 30 0 0 1"
check "the greatest lengths" "$(text_replayed 00000100 204e0000)" "1 30 0 0 983041"
check "a length above the greatest ends it" \
    "$(text_replayed 00000000 00000000 01000100 00000000 00000000 00000000)|$(text_replayed \
    00000000 00000000 00000000 214e0000)|$(text_replayed ffffffff ffffffff 00)" \
    "1 30 0 0 1|1 30 0 0 1|"
"$tally" text-container 40 3 > "$work/container"
broken=
for seed in 40 41 42; do
    "$tally" text-take "$((seed - 39))" < "$work/container" > "$work/sheet"
    "$tally" generate-text "$seed" | cmp -s - "$work/sheet" || broken="$broken $seed"
    "$tally" text-container "$seed" 1 >> "$work/alone"
done
check "a container holds the texts of its seeds" "$broken" ""
check "each in the room of its seed" "$(cmp "$work/container" "$work/alone" && echo same)" same
"$tally" text-take 4 < "$work/container" > "$work/out" 2> "$work/err"
check "a text that is not there" "$? $(wc -c < "$work/out" | tr -d ' ') $(cat "$work/err")" \
    "1 0 tally: the container has only 3 texts"
"$tally" text-take 0 < "$work/container" 2> "$work/err"
check "texts count from 1" "$?" 2

# --- the corpus of texts --------------------------------------------------------
# Each line of the replay is put before the text's room and bytes, which are
# taken out of the container here once more: N NUMBER POSITION LENGTH SUM ROOM
# SIZE : BYTES;
"$tally" texts > "$work/texts"
"$tally" text-replay < "$work/texts" > "$work/replayed"
od -An -v -tu1 "$work/texts" | awk '
    function four(at) { return b[at] + 256 * (b[at + 1] + 256 * (b[at + 2] + 256 * b[at + 3])) }
    { for (k = 1; k <= NF; k++) b[n++] = $k }
    END {
        for (at = 0; at < n; at += 8 + size) {
            size = four(at + 4)
            printf "%d %d :%s", four(at), size, size == 0 ? " " : ""
            for (k = 0; k < size; k++) printf " %d", b[at + 8 + k]
            print ";"
        }
    }' > "$work/entries"
paste -d ' ' "$work/replayed" "$work/entries" > "$work/told"
check "texts in the corpus" "$(($(grep -c . "$work/replayed") >= 200))" 1
check "as many as there are entries" "$(grep -c . "$work/replayed")" "$(grep -c . "$work/entries")"
check "size of the corpus of texts" "$(($(wc -c < "$work/texts") <= 1000000))" 1
check "every number in the corpus of texts" "$(cut -d ' ' -f 2 "$work/replayed" |
    sort -un | paste -s -d ' ' -)" "0 14 15 16 17 18 30 31 32 33 34"

# The rooms of texts that are accepted somewhere: exactly long enough, longer, one
# byte short, none; and those in which such a text did not get what it should.
check "rooms in the corpus" "$(awk '
    { number[NR] = $2; room[NR] = $6; bytes = $0; sub(/^[^:]*:/, "", bytes); key[NR] = bytes }
    $2 == 0 { needed[bytes] = $4 }
    END {
        for (n = 1; n <= NR; n++) {
            if (!(key[n] in needed)) continue
            over = room[n] - needed[key[n]]
            if (number[n] != (over < 0 ? 34 : 0)) wrong++
            exact += over == 0; longer += over > 0; short += over == -1; none += room[n] == 0
        }
        print (exact >= 40), (longer >= 40), (short >= 40), (none >= 40), wrong + 0
    }' "$work/told")" "1 1 1 1 0"

# How long texts get, and which numbers those around the greatest length do; the
# most comment lines in one that is accepted and in one that is not.
check "lengths in the corpus" "$(awk '
    $7 >= 16384 && !seen[$7, $2]++ { count[$7 > 16385 ? "more" : $7]++ }
    $7 > 16384 && ($2 != 30 || $3 != 0) { wrong++ }
    $7 > longest { longest = $7 }
    $7 > 16000 { lines = gsub(/10 99 /, ""); if (lines > most[$2 == 0]) most[$2 == 0] = lines }
    END {
        print (count[16384] >= 5), count[16385], (count["more"] >= 2), wrong + 0
        print longest, most[1], most[0]
    }' "$work/told" | paste -s -d ' ' -)" "1 1 1 0 20000 8185 8191"

# A text that is in the corpus, and what it gets in the first room it is given.
edge() { # text with printf escapes, expected number and position
    text=$1
    expected=$2
    set -- $(printf "$text" | od -An -v -tu1)
    check "edge $text" "$(grep -F ": $*;" "$work/told" | head -n 1 | cut -d ' ' -f 2,3)" "$expected"
}
edge '' '30 0'
edge 'c only a comment' '30 0'
edge 'p wcnf 1 0 1' '0 12'
edge 'p wcnf 1 0 1\n' '0 13'
edge ' p wcnf 1 0 1\n' '0 14'
edge '\t\r\n p wcnf 1 0 1\n' '0 17'
edge 'c\n\nc\n\np wcnf 1 0 1\n' '0 19'
edge ' c\np wcnf 1 0 1\n' '30 0'
edge 'p wcnf 1 0\n1\n' '30 0'
edge 'p wcnf 1 0 1 1' '30 0'
edge 'p wcnf1 0 1\n' '30 0'
edge 'p wcnf 1 0 1c\n' '30 0'
edge 'p wcnf 1 0' '30 0'
edge 'p wcnf' '30 0'
edge 'p wcnf -1 0 1\n' '30 0'
edge 'p wcnf 01 00 001\n' '0 17'
edge 'p wcnf 0 0 1\n' '14 7'
edge 'p wcnf 2000 0 1\n' '0 16'
edge 'p wcnf 2001 0 1\n' '14 7'
edge 'p wcnf 4294967295 0 1\n' '14 7'
edge 'p wcnf 4294967296 0 1\n' '30 0'
edge 'p wcnf 1 4294967295 1\n' '33 22'
edge 'p wcnf 1 4294967296 1\n' '30 0'
edge 'p wcnf 1 0 4294967295\n' '0 22'
edge 'p wcnf 1 0 4294967296\n' '30 0'
edge 'p wcnf 2 1 5\n1 1 2 0\n' '0 21'
edge 'p wcnf 2 1 1\n0 1 2 0\n' '15 13'
edge 'p wcnf 2 1 0\n0 1 2 0\n' '0 21'
edge 'p wcnf 2 1 5\n1000000 1 0\n' '0 25'
edge 'p wcnf 2 1 5\n1000001 1 0\n' '15 13'
edge 'p wcnf 2 1 1000001\n1000001 1 0\n' '0 31'
edge 'p wcnf 2 1 5\n4294967295 1 0\n' '15 13'
edge 'p wcnf 2 1 5\n4294967296 1 0\n' '31 13'
edge 'p wcnf 2 1 5\n-1 1 0\n' '31 13'
edge 'p wcnf 2 1 0\n-0 1 0\n' '31 13'
edge 'p wcnf 2 1 5\n0005 1 0\n' '0 22'
edge 'p wcnf 2 1 5\n5 1 -0\n' '31 17'
edge 'p wcnf 2 1 5\n5 1 -00 0\n' '31 17'
edge 'p wcnf 2 1 5\n5 - 1 0\n' '31 15'
edge 'p wcnf 2 1 5\n5 --1 0\n' '31 15'
edge 'p wcnf 2 1 5\n5 +1 0\n' '31 15'
edge 'p wcnf 2 1 5\n5 1- 0\n' '31 15'
edge 'p wcnf 2 1 5\n5 -1 -02 000\n' '0 26'
edge 'p wcnf 2 1 5\n5 2147483647 0\n' '17 13'
edge 'p wcnf 2 1 5\n5 2147483648 0\n' '31 15'
edge 'p wcnf 2 1 5\n5 -2147483647 0\n' '17 13'
edge 'p wcnf 2 1 5\n5 -2147483648 0\n' '31 15'
edge 'p wcnf 2 1 5\n5 3 0\n' '17 13'
edge 'p wcnf 2 1 5\n5 1 1 0\n' '18 13'
edge 'p wcnf 2 1 5\n5 1 -1 0\n' '18 13'
edge 'p wcnf 2 1 5\n5 1 1 3 0\n' '17 13'
edge 'p wcnf 2 1 5\n5 1 1 x\n' '31 19'
edge 'p wcnf 2 2 5\n5 1 0 5 2 0\n' '0 25'
edge 'p wcnf 2 1 5\n5\n1\n2\n0\n' '0 21'
edge 'p wcnf 2 1 5\n5 1\nc x\n2 0\n' '0 25'
edge 'p wcnf 2 1 5\n5 1\n c x\n2 0\n' '31 18'
edge 'p wcnf 2 1 5\n5 1\nc0\n0\nc\n' '0 24'
edge 'p wcnf 1 0 1\nc' '0 14'
edge 'p wcnf 1 0 1\n c' '31 14'
edge 'p wcnf 2 1 5\r\n5 1 0\r\n' '0 21'
edge 'p wcnf 2 1 5\n\t5\t1\t0\t' '0 20'
edge 'p wcnf 2 1 5\n5 1 0x\n' '31 17'
edge 'p wcnf 2 1 5\n5 1\n' '32 17'
edge 'p wcnf 2 1 5\n5' '32 14'
edge 'p wcnf 2 0 5\n5 1 0\n' '33 19'
edge 'p wcnf 2 2 5\n5 1 0\n' '33 19'
rising() { # the literals of a clause, each third one negative
    awk -v n="$1" 'BEGIN { for (v = 1; v <= n; v++) printf(v % 3 == 0 ? " -%d" : " %d", v) }'
}
edge "p wcnf 70 1 9\\n8$(rising 64) 0\\n" '0 222'
edge "p wcnf 70 1 9\\n8$(rising 65) 0\\n" '16 14'
# A clause with each set of the faults 15, 16, 17 and 18: the lowest counts.
for set in 0 1 2 3 4 5 6 7 8 9 10 11 12 13 14 15; do
    awk -v set="$set" 'BEGIN {
        weight = set % 2; many = int(set / 2) % 2; above = int(set / 4) % 2; twice = int(set / 8)
        printf "p wcnf 70 1 9\\n%d 1 -2", weight ? 0 : 8
        for (v = 3; many && v <= 65; v++) printf " %d", v
        print (above ? " -71" : "") (twice ? " 2" : "") " 0\\n"
        print weight ? "15 14" : many ? "16 14" : above ? "17 14" : twice ? "18 14" : "0 23"
    }' > "$work/faults"
    edge "$(head -n 1 "$work/faults")" "$(tail -n 1 "$work/faults")"
done

# --- rules and wishes moved to the front -----------------------------------
# What was accepted is put in again with rules and wishes first; the same
# answers must come, family by family.
broken=
for kind in honest cover rack deep twisted forest mixed; do
    seed=1
    while [ "$seed" -le 10 ]; do
        "$tally" generate "$seed" "$kind" > "$work/records"
        "$tally" run < "$work/records" > "$work/lines"
        "$tally" disassemble < "$work/records" | paste -d '|' "$work/lines" - |
            awk -F '[ |]' '$3 == 0 && $2 <= 5' | sort -s -t ' ' -k 2,2n > "$work/sorted"
        awk -F '[ |]' '$2 <= 3' "$work/sorted" > "$work/moved"
        awk -F '[ |]' '$2 > 3' "$work/sorted" | sort -n >> "$work/moved"
        cut -d '|' -f 2- "$work/moved" | "$tally" assemble | "$tally" run |
            cut -d ' ' -f 2- > "$work/came"
        cut -d '|' -f 1 "$work/moved" | cut -d ' ' -f 2- | cmp -s - "$work/came" ||
            broken="$broken $kind:$seed"
        seed=$((seed + 1))
    done
done
check "rules and wishes first" "$broken" ""

# --- the naive program's opinion -------------------------------------------
: > "$work/opinions"
for kind in honest cover rack unsatisfiable mixed twisted; do
    seed=1
    while [ "$seed" -le 25 ]; do
        "$tally" generate "$seed" "$kind" > "$work/records"
        "$tally" run < "$work/records" > "$work/lines"
        opinion=$("$naive" "$work/records" "$work/lines")
        case $? in
        0) passed=$((passed + 1)); echo "$opinion" >> "$work/opinions" ;;
        3) ;; # too many variables to go through them all
        *) check "naive opinion on $kind $seed" "$opinion" "" ;;
        esac
        seed=$((seed + 1))
    done
done
"$naive" "$work/worked.records" "$work/worked.came" > "$work/out"
check "naive opinion on the worked run" "$(cat "$work/out")" "best 2 derived 4 cores 4 unshown 0"
check "the opinions were about something" "$(awk '{ best += $2; derived += $4; cores += $6 }
    END { print (best > 100 && derived > 500 && cores > 300) }' "$work/opinions")" 1

echo "$passed passed, $failed failed"
[ "$failed" -eq 0 ]
