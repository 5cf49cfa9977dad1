# Tests of the reference on what is stored beside the crates, for host/check.sh.

numbers() {
    sed -n 's/^ *number_row(\(rt, \)*b"\([^"]*\)")[?]*,$/\2/p' crates/vectors/src/main.rt | sed 's/\\x//g' \
        | "$out/read_numbers" > "$out/numbers.out"
    grep '^number ' crates/vectors/stdout | cmp - "$out/numbers.out" && counted "$(lines_of "$out/numbers.out") numbers"
}
pins() {
    "$out/list_pins" > "$out/pins.out" && grep '^type ' crates/vectors/stdout | cmp - "$out/pins.out" \
        && counted "$(lines_of "$out/pins.out") lines"
}
traced() {
    "$out/trace" < "$manual/stdin" > "$out/trace.out" && cmp "$out/trace.out" "$manual/stdout" \
        && counted "$(lines_of "$manual/stdin") examples, $(lines_of "$out/trace.out") lines"
}
judged() {
    "$out/judge_images" < crates/images/stdin > "$out/images.out" && cmp "$out/images.out" crates/images/stdout \
        && counted "$(lines_of crates/images/stdin) images"
}
several() {
    "$out/bad_places" > "$out/bad_places.out" && tail -n 190 crates/images/stdin | cmp - "$out/bad_places.out" \
        && counted "$(lines_of "$out/bad_places.out") images"
}

try "the vectors' numbers on the reference" numbers
try "the vectors' pins on the reference" pins
try "the manual's examples on the reference" traced
try "the test images on the reference" judged
try "the test images with several bad places" several
