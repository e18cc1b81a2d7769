#!/bin/sh
# The stored inputs: what the verified programs are handed on standard input and
# what they have to print, both made by the independent program.
#   stored.sh write TALLY    writes those of the programs' crates again
#   stored.sh check TALLY    says what is no longer as the program makes it
# Both from the repository's root.
set -eu
command=$1
tally=$2
programs="runner corpus texts wcnf2rec"

make_stored() { # folder
    for program in $programs; do
        mkdir -p "$1/$program"
    done
    "$tally" assemble < independent/worked.txt > "$1/runner/stdin"
    "$tally" run < "$1/runner/stdin" > "$1/runner/stdout"
    "$tally" corpus < "$1/runner/stdin" > "$1/corpus/stdin"
    "$tally" replay < "$1/corpus/stdin" > "$1/corpus/stdout"
    "$tally" texts > "$1/texts/stdin"
    "$tally" text-replay < "$1/texts/stdin" > "$1/texts/stdout"
    cp independent/worked.wcnf "$1/wcnf2rec/stdin"
    "$tally" text < "$1/wcnf2rec/stdin" > "$1/wcnf2rec/stdout"
}

check_stored() {
    made=$(mktemp -d)
    trap 'rm -rf "$made"' EXIT
    make_stored "$made"
    differing=0
    for file in $(for program in $programs; do echo "$program/stdin $program/stdout"; done); do
        where=$(cmp "crates/$file" "$made/$file" 2>&1) && continue
        differing=$((differing + 1))
        echo "crates/$file is not what the independent program makes:"
        echo "$where" | sed -e "s|$made/$file|what it makes|"
    done
    [ "$differing" -eq 0 ] && return
    echo "If this change is wanted, 'make corpus' writes the stored inputs again; look at what" \
        "changed in the answers before it is kept. If not, the program has to be mended."
    return 1
}

case $command in
write) make_stored crates ;;
check) check_stored ;;
*) echo "stored.sh: write or check, not \"$command\"" >&2; exit 2 ;;
esac
