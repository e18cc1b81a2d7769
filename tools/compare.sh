# What both comparisons on fresh seeds need: where inputs that differ are kept,
# and how a difference is told. Read in by fuzz.sh and fuzz-texts.sh.
. "$(dirname "$0")/kit.sh"

batch=100
kept=target/fuzz
work=$kept/work.$$
alone=0
differences=0
mkdir -p "$work"
trap 'rm -rf "$work"' EXIT
trap 'exit 130' INT TERM

need_numbers() { # what the count is called, the count, the first seed
    case $2$3 in
    *[!0-9]* | "")
        echo "$1 and FIRST are whole numbers, not \"$2\" and \"$3\"" >&2
        exit 2
        ;;
    esac
}

differs() { # name of the kept file, what differs, how to look at it
    differences=$((differences + 1))
    echo "DIFFERS: $2; it is kept as $kept/$1: $3"
}
