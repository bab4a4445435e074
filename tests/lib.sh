# What the tests share. `root` is the repository; a test stands in an empty folder of its own.

stemlist=$root/stemlist

fail() { printf '%s\n' "$*" >&2; exit 1; }

# The command ends with this status.
status() {
    local want=$1 got=0
    shift
    "$@" || got=$?
    [ "$got" -eq "$want" ] || fail "status $got, not $want, of: $*"
}

# A file has exactly this text.
has_text() { printf '%s' "$2" | diff - "$1" || fail "$1 differs"; }

# A file is empty.
is_empty() { [ ! -s "$1" ] || { cat "$1"; fail "$1 is not empty"; }; }

# A file has a line with this text in it.
mentions() { grep -qF -- "$2" "$1" || { cat "$1"; fail "$1 does not mention: $2"; }; }

# A test that this machine cannot run is left out, and says so; in CI, where all can be had, it fails.
left_out() {
    printf 'left out: %s\n' "$*" >&2
    [ -z "${CI:-}" ] || fail "in CI nothing may be left out"
}

# Another compiler would do the same again: where it is missing, that is only told.
not_tried() { printf 'not tried: %s\n' "$*" >&2; }
