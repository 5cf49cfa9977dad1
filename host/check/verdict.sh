# Tests of the verdict programs, for host/check.sh: bias-verdict, what it and the example say of a refused image, and the
# proved program crates/verdict/out/verdict.

accepted="refusal 0 place 0 task 0 depth 0"
past_end="refusal 12 place 0 task 0 depth 0"
no_image="refusal 1 place 0 task 0 depth 0"
left_over="refusal 4 place 14 task 0 depth 0"
judge=$out/bias-verdict
proved=crates/verdict/out/verdict
bytes 1 2 0 0 0 1 0x55 0 0 0 0 0 0 0 > "$out/a.img"
bytes 1 2 0 0 0 1 0x50 0 0 0 0 0 0 0 > "$out/b.img"
{ cat "$out/a.img" && head -c 1000000 /dev/zero; } > "$out/long.img"

named_file() {
    says 0 "$accepted" "$judge" "$out/a.img" && says 1 "$past_end" "$judge" "$out/b.img" \
        && says 1 "$no_image" "$judge" /dev/null && says 1 "$left_over" "$judge" "$out/long.img"
}
standard_input() {
    says 0 "$accepted" "$judge" < "$out/a.img" && says 1 "$past_end" "$judge" < "$out/b.img" \
        && says 1 "$no_image" "$judge" < /dev/null && says 1 "$left_over" "$judge" < "$out/long.img"
}
explained() {
    says 1 "$past_end" "$judge" --explain "$out/b.img" && grep 'past its last block' "$out/err" \
        && says 0 "$accepted" "$judge" --explain < "$out/a.img" && grep 'accepted' "$out/err"
}

# What bias-verdict and the example say of a program that is refused at block 0.
# Usage: explains NUMBER WORDS TYPE SLOT_B SLOT_C CODE D1 D2; all_explained NUMBER, with lines "TYPE .. D2|WORDS".
explains() {
    number=$1
    words=$2
    bytes 1 "$3" "$4" "$5" 0 2 "$6" "$7" "$8" 0 0 0 0 0 0x55 0 0 0 0 0 0 0 > "$out/board.img"
    says 1 "refusal $number place 0 task 0 depth 0" "$judge" --explain "$out/board.img" \
        && grep -Fx "$words" "$out/err" && says 1 "" "$out/example" "$out/board.img" \
        && grep -F "refused by $number at block 0: $words" "$out/err"
}
all_explained() {
    while IFS='|' read -r drive_and_block words; do
        # the words of the first field are arguments of their own
        explains "$1" "$words" $drive_and_block < /dev/null || return 1
    done
}
takes="which this drive can take in slot"
swap=", in exchange for the board there"
missing_board() {
    all_explained 23 << END
2 0 0 0x72 217 1|a board is missing: pin 217 is on terminal X200 of board RP-EAE, $takes C
3 1 0 0x70 201 0|a board is missing: pin 201 is on terminal X200 of board RP-EAE, $takes C
4 0 2 0x64 0 224|a board is missing: pin 224 is on terminal X200 of board RP-EAE, $takes C$swap
1 0 1 0x63 0 101|a board is missing: pin 101 is on terminal COM2 of board RP-EA5, $takes B
4 2 0 0x73 110 0|a board is missing: pin 110 is on terminal COM2 of board RP-EA5, $takes B$swap
4 0 2 0x70 121 0|a board is missing: pin 121 is on terminal X120 of board RP-2C8, $takes B
4 1 0 0x71 128 0|a board is missing: pin 128 is on terminal X120 of board RP-2C8, $takes B$swap
4 2 0 0x63 0 91|a board is missing: pin 91 is on terminal X290 of board RP-SBT, $takes C
4 0 1 0x70 93 0|a board is missing: pin 93 is on terminal X290 of board RP-SBT, $takes C$swap
END
}
never="not on this drive, and no board helps: another pin or another drive is needed"
no_board() {
    all_explained 6 << END
2 0 0 0x72 101 1|$never (a 637 never has pin 101 as an output to write)
0 0 0 0x73 217 0|$never (a 631 never has pin 217 as an output to write)
3 1 1 0x64 0 125|$never (a 637+ never has pin 125 as an output to read)
4 0 0 0x71 101 0|$never (a 637f never has pin 101 as an output to read)
4 0 0 0x70 217 0|$never (a 637f never has pin 217 as an input)
1 1 1 0x63 0 91|$never (a 635 never has pin 91 as an input)
3 0 0 0x6E 0 0|$never (a 637+ never has this command)
END
}
# Start 129 and count 130 have two bytes each; the last block is the bad one. The same behind landing blocks 1 and 129.
is_last_block() {
    { "$@" && head -c 1032 /dev/zero && bytes 0x63 0 101 0 0 0 0 0; } > "$out/board.img"
    says 1 "refusal 23 place 129 task 0 depth 0" "$judge" --explain "$out/board.img" && grep ': pin 101 is on' "$out/err"
}
last_block() { is_last_block bytes 1 2 0 0 129 1 130 1 && is_last_block bytes 2 2 0 0 129 1 130 1 2 1 129 1; }
# A landing block at the count.
landing_list() {
    words="the landing blocks are too many, not in ascending order, or not below the count"
    bytes 2 2 0 0 0 1 1 1 0x55 0 0 0 0 0 0 0 > "$out/list.img"
    says 1 "refusal 21 place 7 task 0 depth 0" "$judge" --explain "$out/list.img" && grep -Fx "$words" "$out/err" \
        && says 1 "" "$out/example" "$out/list.img" && grep -F "refused by 21 at byte 7: $words" "$out/err"
}
help() {
    runs=$((runs + 1))
    "$judge" --help > "$out/said" 2> "$out/err" && grep '^usage: bias-verdict' "$out/said" && [ ! -s "$out/err" ]
}
wrong_usage() {
    says 2 "" "$judge" --wrong "$out/a.img" && grep '^usage: bias-verdict' "$out/err" \
        && says 2 "" "$judge" "$out/a.img" "$out/b.img" && grep '^usage: bias-verdict' "$out/err"
}
unread() {
    says 2 "" "$judge" "$out/there/is/no.img" && [ -s "$out/err" ] && says 2 "" "$judge" "$out" && [ -s "$out/err" ] \
        && says 2 "" "$judge" < "$out" && [ -s "$out/err" ]
}
# To a device that is full: status 2 and a message.
full() {
    got=0
    runs=$((runs + 1))
    "$@" > /dev/full 2> "$out/err" || got=$?
    [ "$got" -eq 2 ] && [ -s "$out/err" ]
}
unwritten() { full "$judge" "$out/a.img" && full "$judge" "$out/b.img" && full "$judge" --help; }
images() { "$out/verdicts" "$1" "$2" crates/images/stdin crates/images/stdout; }
proved_alone() {
    says 0 "$no_image" "$proved" < /dev/null && says 0 "$accepted" "$proved" < "$out/a.img" \
        && says 0 "$left_over" "$proved" < "$out/long.img"
}
proved_usage() { says 0 "" "$proved" "$out/a.img" < "$out/a.img" && grep -i 'usage' "$out/err"; }

try "bias-verdict on a named file" named_file
try "bias-verdict on standard input" standard_input
try "bias-verdict --explain" explained
try "bias-verdict and the example, which board is missing" missing_board
try "bias-verdict and the example, what no board has" no_board
try "bias-verdict --explain, a block behind a longer header" last_block
try "bias-verdict and the example, a bad landing list" landing_list
try "bias-verdict --help" help
try "bias-verdict, wrong usage" wrong_usage
try "bias-verdict, what cannot be read" unread
try "bias-verdict, a full device" unwritten
try "bias-verdict on the test images" images "$judge" 1
try "the proved verdict program" proved_alone
try "the proved verdict program, with an argument" proved_usage
try "the proved verdict program on the test images" images "$proved" 0
