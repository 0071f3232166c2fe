# For tests of the command, to be sourced: runs it, and counts what holds. $room is a folder that goes with the test.
room=$(mktemp -d)
trap 'rm -rf "$room"' EXIT
checks=0 failed=0 nothing=/dev/null

fail() {
    failed=$((failed + 1))
    echo "$0: $*"
}
holds() { # NAME COMMAND..: the command succeeds
    local name=$1
    shift
    checks=$((checks + 1))
    "$@" || fail "$name"
}
same() { # NAME GOT WANT: two files
    checks=$((checks + 1))
    cmp -s "$2" "$3" && return
    fail "$1"
    diff "$3" "$2" | head -5 || true
}
# run STATUS WORD..: the command ends with this status; standard output is in $room/out, standard error in $room/said.
run() {
    local wanted=$1 status=0
    shift
    host/run frostsorrel "$@" >"$room/out" 2>"$room/said" || status=$?
    checks=$((checks + 1))
    [ "$status" = "$wanted" ] || fail "frostsorrel $*: it ended with $status, not $wanted: $(head -c 200 "$room/said")"
}
says() { # TEXT: all that stands on standard error, and nothing stands on standard output
    printf '%s\n' "$1" >"$room/want"
    same "standard error" "$room/said" "$room/want"
    same "standard output with an error" "$room/out" "$nothing"
}
sums() { # NAME: the last line of a test, and its status
    echo "$1: $checks checks, $failed failed"
    [ "$failed" -eq 0 ]
}
