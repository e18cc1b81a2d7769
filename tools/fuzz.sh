#!/bin/sh
# Compares the verified programs with the independent one on fresh seeds.
# Batches of runs go through `corpus` and `tally replay` as one container, so
# that two processes serve a hundred seeds; `runner`, a program of its own, is
# compared with `tally run` on the worked run, on empty input and on one run of
# each batch.
#   fuzz.sh TALLY RUNNER CORPUS SEEDS [FIRST]      (from the repository's root)
# Without FIRST the clock chooses the first seed. The input of each run that
# differs is kept under target/fuzz.
set -eu
tally=$1
runner=$2
corpus=$3
seeds=$4
first=${5:-$(($(date +%s) * 1000000))}
. "$(dirname "$0")/compare.sh"
need_numbers SEEDS "$seeds" "$first"
need_program "$runner" runner
need_program "$corpus" corpus
runs=0
records=0

# The numbers of the runs whose lines differ; a run that one side lacks differs.
differing_runs() {
    awk '/^run / { number = $2; if (number > last) last = number }
         { text[side, number] = text[side, number] $0 "\n" }
         END { for (number = 0; number <= last; number++)
                   if (text[1, number] != text[2, number]) print number }' \
        side=1 "$work/came" side=2 "$work/expected"
}

# A container may end anywhere: each batch ends with a run that is cut short,
# with a length that is, or as it should.
end_somewhere() { # seed
    case $(($1 / batch % 3)) in
    0) head -c "-$(($1 / batch % 7))" "$work/whole" > "$work/container" ;;
    1) { cat "$work/whole"; head -c "$(($1 / batch % 4))" /dev/zero; } > "$work/container" ;;
    *) cp "$work/whole" "$work/container" ;;
    esac
}

compare_batch() { # first seed, count
    "$tally" container "$1" "$2" > "$work/whole"
    end_somewhere "$1"
    "$tally" replay < "$work/container" > "$work/expected"
    ended=0
    $run "$corpus" < "$work/container" > "$work/came" || ended=$?
    runs=$((runs + $2))
    records=$((records + $(grep -vc '^run ' "$work/expected" || true)))
    [ "$ended" -ne 0 ] || ! cmp -s "$work/came" "$work/expected" || return 0
    before=$differences
    numbers=$(differing_runs)
    # A program that ended badly lacks all the runs behind the one it ended in.
    [ "$ended" -eq 0 ] || numbers=$(echo "$numbers" | head -n 1)
    for number in $numbers; do
        seed=$(($1 + number - 1))
        "$tally" take "$number" < "$work/container" > "$work/records" 2> /dev/null || continue
        cp "$work/records" "$kept/$seed.records"
        differs "$seed.records" "corpus, seed $seed" "records for '$tally explain'"
    done
    # Nothing that a run alone shows, as a bad ending or lines outside the runs.
    if [ "$ended" -ne 0 ] || [ "$differences" -eq "$before" ]; then
        cp "$work/container" "$kept/$1.container"
        differs "$1.container" "corpus, $2 seeds from $1, status $ended" "a container for '$tally replay'"
    fi
}

compare_alone() { # name to keep it by, what it is; the records stand in the work folder
    ended=0
    alone=$((alone + 1))
    "$tally" run < "$work/records" > "$work/expected"
    # Through a pipe, so that the bytes come in pieces.
    cat "$work/records" | $run "$runner" > "$work/came" || ended=$?
    [ "$ended" -ne 0 ] || ! cmp -s "$work/came" "$work/expected" || return 0
    cp "$work/records" "$kept/$1.records"
    differs "$1.records" "runner, $2, status $ended" "records for '$tally explain'"
}

echo "seeds from $first; 'make fuzz FIRST=$first SEEDS=$seeds' repeats this"
: > "$work/records"
compare_alone nothing "empty input"
"$tally" assemble < independent/worked.txt > "$work/records"
compare_alone worked "the worked run"
compared=0
while [ "$compared" -lt "$seeds" ]; do
    count=$((seeds - compared < batch ? seeds - compared : batch))
    compare_batch "$((first + compared))" "$count"
    # A different place in each batch, so that no kind is passed over.
    seed=$((first + compared + compared / batch % count))
    "$tally" generate "$seed" > "$work/records"
    compare_alone "$seed" "seed $seed"
    compared=$((compared + count))
done
echo "$runs runs with $records records through corpus, $alone runs through runner:" \
    "$differences differences"
[ "$differences" -eq 0 ]
