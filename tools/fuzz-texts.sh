#!/bin/sh
# Compares the verified programs that read older WCNF texts with the
# independent one on fresh seeds. Batches of texts go through `texts` and `tally
# text-replay` as one container; `wcnf2rec`, a program of its own, is compared
# with `tally text` on one text of each batch and on those of the corpus: the
# records byte for byte, and the line that tells a refusal but for the program's
# name in front. The records of each text of the corpus that is accepted go on
# to `runner`, which must take them unless a room is full.
#   fuzz-texts.sh TALLY TEXTS WCNF2REC RUNNER COUNT [FIRST]      (from the repository's root)
# Without FIRST the clock chooses the first seed. Each text that differs is kept
# under target/fuzz.
set -eu
tally=$1
texts=$2
wcnf2rec=$3
runner=$4
wanted=$5
first=${6:-$(($(date +%s) * 1000000))}
. "$(dirname "$0")/compare.sh"
need_numbers TEXTS "$wanted" "$first"
need_program "$texts" texts
need_program "$wcnf2rec" wcnf2rec
need_program "$runner" runner
refused=0
trips=0

# The numbers of the texts whose lines differ; a text that one side lacks differs.
differing_texts() {
    awk '$1 > last { last = $1 }
         { text[side, $1] = text[side, $1] $0 "\n" }
         END { for (number = 0; number <= last; number++)
                   if (text[1, number] != text[2, number]) print number }' \
        side=1 "$work/came" side=2 "$work/expected"
}

# A container may end anywhere: in a text, in the lengths before one, at a room or
# a text above the greatest, behind which another text stands, or as it should.
end_somewhere() { # seed
    {
        case $(($1 / batch % 5)) in
        0) head -c "-$(($1 / batch % 7))" "$work/whole" ;;
        1) cat "$work/whole"; head -c "$(($1 / batch % 8))" /dev/zero ;;
        2) cat "$work/whole"; printf '\001\000\001\000\000\000\000\000'; head -c 8 /dev/zero ;;
        3) cat "$work/whole"; printf '\000\000\000\000\041\116\000\000'; head -c 8 /dev/zero ;;
        *) cat "$work/whole" ;;
        esac
    } > "$work/container"
}

compare_batch() { # first seed, count
    "$tally" text-container "$1" "$2" > "$work/whole"
    end_somewhere "$1"
    "$tally" text-replay < "$work/container" > "$work/expected"
    ended=0
    $run "$texts" < "$work/container" > "$work/came" || ended=$?
    [ "$ended" -ne 0 ] || ! cmp -s "$work/came" "$work/expected" || return 0
    before=$differences
    numbers=$(differing_texts)
    # A program that ended badly lacks all the texts behind the one it ended in.
    [ "$ended" -eq 0 ] || numbers=$(echo "$numbers" | head -n 1)
    for number in $numbers; do
        seed=$(($1 + number - 1))
        "$tally" text-take "$number" < "$work/container" > "$work/text" 2> /dev/null || continue
        cp "$work/text" "$kept/$seed.wcnf"
        differs "$seed.wcnf" "texts, seed $seed" "'$tally text-container $seed 1' has it with its room"
    done
    # Nothing that a text alone shows, as a bad ending or lines too many.
    if [ "$ended" -ne 0 ] || [ "$differences" -eq "$before" ]; then
        cp "$work/container" "$kept/$1.texts"
        differs "$1.texts" "texts, $2 seeds from $1, status $ended" "a container for '$tally text-replay'"
    fi
}

# What a program said on standard error, without the name in front.
said_alike() {
    sed 's/^[a-z0-9]*: //' "$work/expected.said" > "$work/expected.line"
    sed 's/^[a-z0-9]*: //' "$work/came.said" | cmp -s - "$work/expected.line"
}

compare_alone() { # name to keep it by, what it is; the text stands in the work folder
    ended=0
    alone=$((alone + 1))
    "$tally" text < "$work/text" > "$work/expected" 2> "$work/expected.said" || refused=$((refused + 1))
    # Through a pipe, so that the bytes come in pieces.
    cat "$work/text" | $run "$wcnf2rec" > "$work/came" 2> "$work/came.said" || ended=$?
    if [ "$ended" -eq 0 ] && cmp -s "$work/came" "$work/expected" && said_alike; then
        return 0
    fi
    cp "$work/text" "$kept/$1.wcnf"
    differs "$1.wcnf" "wcnf2rec, $2, status $ended" "a text for '$tally text'"
}

# The records of an accepted text are sound: a session takes each of them, or
# has no room for it.
compare_trip() { # number in the corpus; the text stands in the work folder
    trips=$((trips + 1))
    "$tally" text < "$work/text" | "$tally" run > "$work/expected"
    $run "$wcnf2rec" < "$work/text" | $run "$runner" > "$work/came"
    if cmp -s "$work/came" "$work/expected" &&
        [ "$(awk '$3 != 0 && $3 != 23 { wrong++ } END { print (NR > 0 && wrong == 0) }' "$work/came")" = 1 ]; then
        return 0
    fi
    cp "$work/text" "$kept/corpus-$1.wcnf"
    differs "corpus-$1.wcnf" "wcnf2rec and runner, text $1 of the corpus" "a text for '$tally text | $tally explain'"
}

echo "seeds from $first; 'make fuzz-texts FIRST=$first TEXTS=$wanted' repeats this"
: > "$work/text"
compare_alone nothing "empty input"
cp independent/worked.wcnf "$work/text"
compare_alone worked "the worked run's text"
{ cat independent/worked.wcnf; head -c 100000 /dev/zero; } > "$work/text"
compare_alone long "a text of 100,000 bytes"
compared=0
while [ "$compared" -lt "$wanted" ]; do
    count=$((wanted - compared < batch ? wanted - compared : batch))
    compare_batch "$((first + compared))" "$count"
    # A different place in each batch, so that no kind is passed over.
    seed=$((first + compared + compared / batch % count))
    "$tally" generate-text "$seed" > "$work/text"
    compare_alone "$seed" "seed $seed"
    compared=$((compared + count))
done
# 34 has to do with the room, and no text meets it in the room of wcnf2rec.
"$tally" texts > "$work/corpus"
"$tally" text-replay < "$work/corpus" | awk '$2 != 34' > "$work/corpus.lines"
while read -r number answer rest; do
    "$tally" text-take "$number" < "$work/corpus" > "$work/text"
    compare_alone "corpus-$number" "text $number of the corpus"
    [ "$answer" -ne 0 ] || compare_trip "$number"
done < "$work/corpus.lines"
echo "$compared texts through texts, $alone through wcnf2rec ($refused refused)," \
    "$trips through wcnf2rec and runner: $differences differences"
[ "$differences" -eq 0 ]
