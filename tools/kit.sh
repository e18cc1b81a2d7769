# Where the Rattle kit keeps what its programs are compiled, linked and run
# with; read in by the other scripts. The kit and its programs are x86-64 ones;
# RUN says what goes before a program, as an emulator with its words. `run` is
# split into words where it is used.
rt=$(command -v rt) || {
    echo "rt, the command of the Rattle kit, is not on the path" >&2
    exit 2
}
kit=${RATTLE_HOME:-$(dirname "$(dirname "$(readlink -f "$rt")")")}
kit_tools=$kit/toolchain
run=${RUN:-}

need_program() { # path, crate
    [ -x "$1" ] && return
    echo "$1 is not there: 'make programs' proves and builds $2" >&2
    exit 2
}

# The kit's clang brings no headers of its own, so it is shown those of the
# machine's compiler.
header_words() {
    LC_ALL=C "${CC:-gcc}" -E -v -x c /dev/null 2>&1 |
        sed -n '/^#include </,/^End of/s/^ \(.*\)/-isystem \1/p'
}
