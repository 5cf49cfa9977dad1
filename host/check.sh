#!/bin/sh
# Builds the host programs (host/build.sh) and runs every test on them: the files of host/check, each of one subject, then
# the differential tests, fuzzing, and the port's own check. Says which library was tried; a line for each test has what
# it counted; the last line is 'N passed, M failed', with 'port not tried' behind it where packages for that are missing.
# Usage: host/check.sh [LIBRARY | --proved | --stand-in], as for host/build.sh
# MANUAL names the folder with the manual's examples (stdin) and their trace (stdout); crates/manual unless set.
# The proved program crates/verdict/out/verdict is tested as it stands there: `rt run < stdin` in crates/verdict builds
# it, and in the gate `rt ci` has.
set -eu
"$(dirname "$0")/build.sh" "$@"
cd "$(dirname "$0")/.."
out=target/host
library=$(cat "$out/library")
manual=${MANUAL:-crates/manual}
passed=0
failed=0

# Numbers of a text with commas between thousands.
thousands() { sed -e 's/$/ /' -e :again -e 's/\([0-9]\)\([0-9][0-9][0-9]\)\([^0-9]\)/\1,\2\3/' -e tagain -e 's/ $//'; }

# What a test counted: for its log, and out of it; nothing if that is 0.
counted() { echo "counted: $*"; }
counts_in() { sed -n -e 's/ 1 runs$/ 1 run/' -e 's/^counted: \([1-9]\)/\1/p' "$1" | tail -n 1 | thousands; }

pass() {
    passed=$((passed + 1))
    echo "ok      $1"
}
fail() {
    failed=$((failed + 1))
    echo "FAILED  $1"
    cat "$out/log"
}

# One test. It passes when it ends well and has counted something: in a line 'counted: ..', else in $runs.
try() {
    name=$1
    shift
    runs=0
    status=0
    "$@" > "$out/log" 2>&1 || status=$?
    grep -q '^counted: ' "$out/log" || counted "$runs runs" >> "$out/log"
    counts=$(counts_in "$out/log")
    if [ "$status" -eq 0 ] && [ -n "$counts" ]; then
        pass "$name ($counts)"
    else
        fail "$name (status $status, counted ${counts:-nothing})"
    fi
}

# What a program prints and how it ends: says STATUS LINE COMMAND..; an empty LINE is for nothing. Messages go to $out/err.
says() {
    wanted=$1
    line=$2
    shift 2
    got=0
    runs=$((runs + 1))
    "$@" > "$out/said" 2> "$out/err" || got=$?
    if [ -n "$line" ]; then echo "$line"; fi > "$out/expected"
    echo "status $got, expected $wanted"
    cat "$out/err"
    cmp "$out/said" "$out/expected" && [ "$got" -eq "$wanted" ]
}

bytes() { for byte in "$@"; do printf "\\$(printf %03o "$byte")"; done; }
lines_of() { wc -l < "$1" | tr -d ' '; }

# Which library: its name in the checkout, its length and its checksum.
which_library() {
    if [ "$1" = --stand-in ]; then
        echo "library: the stand-in, the reference under the library's names"
    else
        # the words of cksum: checksum and length
        set -- $(cksum < "$library")
        echo "library: ${library#"$PWD"/}, $2 bytes, checksum $1"
    fi
}

# The port has a check of its own, which may tell what it counted; its status 77 says that packages are missing.
port_not_tried=""
try_port() {
    status=0
    host/port/check.sh > "$out/log" 2>&1 || status=$?
    said=$(tail -n 1 "$out/log")
    counts=$(counts_in "$out/log")
    case $status in
    0) pass "the port (${counts:-$said})" ;;
    77) leave_port "${said#port not tried: }" ;;
    *) fail "the port (status $status)" ;;
    esac
}
leave_port() {
    echo "port not tried: $1"
    port_not_tried=", port not tried"
}

which_library "${1:-}"
. host/check/border.sh
. host/check/example.sh
. host/check/reference.sh
. host/check/verdict.sh
. host/check/image.sh
. host/check/build.sh
try "differential tests" "$out/diff"
try "fuzzing at the border" "$out/fuzz"
case ${1:-} in
"" | --proved) try_port ;;
--stand-in) leave_port "it is a port of the library, and this is the stand-in" ;;
*) leave_port "it is a port of the crates, and this is a library that was named" ;;
esac
echo "$passed passed, $failed failed$port_not_tried"
[ "$failed" -eq 0 ]
