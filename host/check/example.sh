# Tests of the example, for host/check.sh.

feed() {
    "$out/makefeed" "$out/made.img" && cmp "$out/made.img" host/feed.img \
        && counted "$(wc -c < "$out/made.img" | tr -d ' ') bytes"
}

# The trace of the feed program, which the example finds by itself: is_feed_trace COMMAND..
is_feed_trace() {
    runs=$((runs + 1))
    "$@" --cycles 2000 > "$out/example.out" && cmp "$out/example.out" host/feed.trace
}
example() { is_feed_trace "$out/example" && counted "$(lines_of host/feed.trace) lines"; }

# From another folder: by a whole name, by one from there, by the PATH, and with feed.img in a checkout's host folder alone.
from_folder() (cd "$1" && shift && "$@")
by_path() (cd / && PATH=$1:$PATH && shift && command "$@")
elsewhere() {
    here=$PWD
    other=$out/elsewhere
    rm -rf "$other"
    mkdir -p "$other/target/host" "$other/host"
    cp "$out/example" "$other/target/host"
    says 2 "" "$other/target/host/example" && grep -F 'no feed.img' "$out/err" || return 1
    cp host/feed.img "$other/host"
    is_feed_trace from_folder / "$here/$out/example" && is_feed_trace from_folder host "../$out/example" \
        && is_feed_trace by_path "$here/$out" example && is_feed_trace "$other/target/host/example" \
        && is_feed_trace from_folder / "$here/$other/target/host/example"
}

refused() {
    bytes 1 2 0 0 0 1 0x50 0 0 0 0 0 0 0 > "$out/bad.img"
    says 1 "" "$out/example" "$out/bad.img" && grep 'refused by 12 at block 0, task BIAS, depth 0' "$out/err"
}

# A program of format 2: BIAS halts at a jump by a variable that holds no landing block; the PLC starts it anew by another
# variable; then BIAS jumps by a third one.
jumps_by_variable() {
    bytes 2 2 0 0 0 9 2 5 8 0x54 2 0 0 0 0 0 0 0x56 2 0 0 0 0 0 0 0x80 0 5 0 0 0 0 0 0x5B 0 0 0 0 0 0 0 \
        0x55 4 0 0 0 0 0 0 0x80 1 8 0 0 0 0 0 0x56 1 0 0 0 0 0 0 0x50 0 0 0 0 0 0 0 0x51 1 0 0 0 0 0 0 > "$out/jumps.img"
    runs=$((runs + 1))
    "$out/example" --cycles 6 "$out/jumps.img" > "$out/said" || return 1
    cat "$out/said"
    for line in ': accepted, .*, 9 blocks, landing blocks 5, 8$' \
        '^ *1  BIAS     1 .*Jump \[variable 2\] .*HALTED by 22: the variable holds no landing block$' \
        '^ *1  PLC      3 .*BIAS-execution pointer = \[variable 0\] .*BIAS running at block 5$' \
        '^ *3  BIAS     6 .*Jump \[variable 1\] .*to block 8$' '^ *4  BIAS     8 .*BIAS ended at block 8$'; do
        grep -q "$line" "$out/said" || { echo "no line: $line"; return 1; }
    done
}

# A program that waits for input 11, then with a move for the start input, then for the axis's two bits.
waiting() {
    bytes 1 2 0 0 0 6 0x70 11 0 0 0 0 0 0 0x72 12 1 0 0 0 0 0 0x01 0 0 0 0 0 0 0 \
        0x58 0 0 0 0 0 0 0 0x72 13 1 0 0 0 0 0 0x55 5 0 0 0 0 0 0 > "$out/waiting.img"
    cat > "$out/waiting.txt" << 'END'
# goes on at block 0
120 11 1
130 11 0   # it has gone on: no harm
200 start 1
200 ramp 0
250 window 0
260 ramp axis
280 window 1
999 7 1
END
}
# Runs it by a script that a sed command makes of that one; each LINE has to stand in the trace: goes_on EDIT LINE..
goes_on() {
    sed "$1" "$out/waiting.txt" > "$out/edited.txt"
    shift
    runs=$((runs + 1))
    "$out/example" --cycles 300 --inputs "$out/edited.txt" "$out/waiting.img" > "$out/said" || return 1
    cat "$out/said"
    for line in "$@"; do
        grep -q "$line" "$out/said" || { echo "no line: $line"; return 1; }
    done
}
# With all its lines; then without one that it waits for.
inputs() {
    waiting
    "$out/example" --cycles 300 "$out/waiting.img" > "$out/said" && grep '^BIAS running at block 0,' "$out/said" \
        && goes_on '' '^ *120  BIAS     0 .* goes on after 120 more steps' '^ *121  BIAS     1 .* output 12 = 1$' \
            '^ *200  BIAS     2 .* => MOVE BY' '^ *280  BIAS     3 .* goes on after' '^ *281  BIAS     4 .* output 13 = 1$' \
            '^BIAS running at block 5,' ': 7 of 8 lines came into force$' \
        && goes_on '/^120/d' '^BIAS running at block 0,' && goes_on '/start/d' '^BIAS running at block 2,' \
        && goes_on '/axis/d' '^BIAS running at block 3,' && goes_on '/window 1/d' '^BIAS running at block 3,' \
        && goes_on '/window/d' '^ *260  BIAS     3 .* goes on' && goes_on '/ramp/d' '^ *202  BIAS     3 .* goes on' \
        && goes_on '1s/.*/0 start 1/' '^BIAS running at block 2,'
}

# Scripts that are refused, by their second line: lines "LINE|WORDS".
wrong_scripts() {
    waiting
    while IFS='|' read -r line words; do
        printf '100 7 1\n%s\n' "$line" > "$out/wrong.txt"
        says 2 "" "$out/example" --inputs "$out/wrong.txt" "$out/waiting.img" < /dev/null \
            && grep -Fx "$out/wrong.txt:2: $words" "$out/err" || return 1
    done << 'END'
100 7 2|'2' is neither 0 nor 1
100 7 axis|'axis' is neither 0 nor 1
100 ramp 2|'2' is neither 0, 1 nor axis
100 256 1|'256' is neither a pin (0 to 255) nor start, ramp or window
100 -1 1|'-1' is neither a pin (0 to 255) nor start, ramp or window
100 Start 1|'Start' is neither a pin (0 to 255) nor start, ramp or window
99 7 0|'99' is an earlier cycle than that of the line before
ten 7 0|'ten' is no cycle
-5 7 0|'-5' is no cycle
99999999999999999999 7 0|'99999999999999999999' is no cycle
100 7|'100' should be followed by WHAT and LEVEL alone
100 7 1 1|'100' should be followed by WHAT and LEVEL alone
END
    says 2 "" "$out/example" --inputs "$out/there/is/no.txt" "$out/waiting.img" && [ -s "$out/err" ] \
        && says 2 "" "$out/example" --inputs && grep '^usage: example' "$out/err"
}

try "the feed image, written by the library" feed
try "the example's trace of the feed program" example
try "the example from other folders" elsewhere
try "the example refuses a bad image" refused
try "the example's jumps by a variable" jumps_by_variable
try "the example's inputs by a script" inputs
try "scripts that the example refuses" wrong_scripts
