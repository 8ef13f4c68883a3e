# The words that a tool in bash is called with. The tool sources this file and makes one of the two calls below, before it
# goes to another folder. The usage of a tool is the comment at its head.

usage() { sed -n '2,/^[^#]/s/^# \{0,1\}//p' "$0"; }

# Ends the tool: with the usage on standard error, status 2.
refuse() { # WHY
    echo "$0: $1" >&2
    usage >&2
    exit 2
}

# Ends the tool where help is asked for, or where there are too many words.
takes_at_most() { # COUNT WORDS
    case " ${*:2} " in *' --help '* | *' -h '*) usage && exit 0 ;; esac
    [ $# -le $(($1 + 1)) ] || refuse "not known: ${*:$1 + 2}"
}

# A tool that takes no word but --help.
takes_none() { takes_at_most 0 "$@"; }

# A tool that takes a program: sets `program`, to gateplay as rt built it where none is named, built anew where the sources are newer.
takes_program() {
    takes_at_most 1 "$@"
    if [ $# -eq 1 ]; then
        [ -f "$1" ] && [ -x "$1" ] || refuse "not an executable file: $1"
        program=$(realpath "$1")
        return
    fi
    local crates
    crates=$(realpath "$(dirname "${BASH_SOURCE[0]}")/../crates") || exit 2
    program=$crates/gateplay/out/gateplay
    if [ ! -x "$program" ] || [ -n "$(find "$crates"/*/src -newer "$program" -print -quit)" ]; then
        (cd "$crates/gateplay" && rt run </dev/null) >/dev/null 2>&1
    fi
    [ -x "$program" ] || { echo "$0: rt did not build gateplay" >&2 && exit 1; }
}
