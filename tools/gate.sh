#!/bin/sh
# The gate behind `make test`: everything is proved, every wrong edit is tried
# and the programs are run; then the C examples are built on the library and
# run. An edit that no longer fits the text shows nothing, and fails the gate.
# The last line is the one that counts what rt ci did.
#   gate.sh      (from the repository's root)
set -eu
work=$(mktemp -d)
trap 'rm -rf "$work"' EXIT
trap 'exit 130' INT TERM

{
    code=0
    rt ci || code=$?
    echo "$code" > "$work/code"
} 2>&1 | tee "$work/said"
[ "$(cat "$work/code")" -eq 0 ] || exit 1
if grep '^rt: ok' "$work/said" | grep -q '[^0-9][1-9][0-9]* bad'; then
    echo "must-fail edits that cannot be applied or read show nothing: mend them" >&2
    exit 1
fi
sh "$(dirname "$0")/library.sh"
tail -n 1 "$work/said"
