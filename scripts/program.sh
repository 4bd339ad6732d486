# Runs a proved program of this tree so that its text goes out whole, or the line `failed` in its place.
# POSIX sh, sourced by the scripts at the top of the tree, whose first lines are those of ./tomiter: they
# ignore the signals of a failed write, and find the script's own file, `self`, with its links followed.
#
#   fail REASON         the line `failed` on standard output, the reason on standard error; exits with 2
#   capture NAME WORDS.. builds crates/NAME where it has to be, and runs it on standard input with these
#                       arguments; its text is then in $work/text. It fails where the program was ended
#   give FILE STATUS    hands the text in FILE out and exits with STATUS, or with 2 where it can't be written
#
# $work is a folder of its own, which goes when the script ends.
set -u
root=${self%/*}
work=''

trap 'ended=$?; [ -z "$work" ] || rm -rf "$work"; exit "$ended"' EXIT
trap 'fail "stopped by a signal"' HUP INT TERM

tell() { # REASON
    printf '%s: %s\n' "${self##*/}" "$1" >&2
}

fail() { # REASON
    tell "$1"
    echo failed || tell "standard output cannot be written"
    exit 2
}

capture() { # NAME WORDS..
    program=$(sh "$root/scripts/build" "$1" </dev/null) || fail "there is no program to run"
    shift
    "$program" "$@" >"$work/text" || fail "the program ended with status $?"
}

give() { # FILE STATUS
    cat "$1" || {
        tell "standard output cannot be written"
        exit 2
    }
    exit "$2"
}

work=$(mktemp -d) || fail "no folder for the text could be made"
