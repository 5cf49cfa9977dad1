#!/bin/sh
# The number reader on the Cortex-M4 (change request 5): no library call, and no 64-bit sum of the value. In the archive the
# reader is part of other functions, so here the same module is compiled with the same flags and the reader by itself; its
# code is disassembled, and value_path.awk follows the value through it. The place in the image keeps its 64 bits.
# Before that, value_path.awk has to refuse the readers of wide_sums.c, and a file without any.
# Needs host/port/build.sh to have run, and arm-none-eabi-objdump.
set -eu
export LC_ALL=C
fail() {
    echo "host/port/number.sh: $*" >&2
    exit 1
}
cd "$(dirname "$0")/../.."
. host/port/kit.sh
target=thumbv7em-none-eabi
reader=image_number::read
command -v arm-none-eabi-objdump > /dev/null || fail "no arm-none-eabi-objdump"
[ -f target/port/module.ll ] || fail "no target/port/module.ll: host/port/build.sh makes it"
work=$(mktemp -d)
trap 'rm -rf "$work"' EXIT
flags=$(host/port/build.sh --flags "$target")

# Whether the function $2 of the object $1 keeps to the rules; it has a section of its own.
keeps() {
    arm-none-eabi-objdump -dr --no-show-raw-insn -j ".text.$2" "$1" > "$work/code" 2> /dev/null \
        && awk -f host/port/value_path.awk "$work/code"
}

# the words of $flags are flags of their own
"$tools/bin/clang" $flags -c host/port/wide_sums.c -o "$work/samples.o" || fail "the samples do not compile"
for sample in by_weights by_carry by_shifts in_a_word by_a_call; do
    if keeps "$work/samples.o" "$sample" > "$work/found"; then
        cat "$work/code" "$work/found"
        fail "sample not refused: $sample"
    fi
    grep -q 'against the rules' "$work/found" || fail "no sample $sample"
done
if awk -f host/port/value_path.awk /dev/null > "$work/found"; then
    fail "sample not refused: no reader"
fi

sed "s/^define internal void @\"$reader\"(\(.*\)) #\([0-9]*\) {\$/define void @\"$reader\"(\1) noinline #\2 {/" \
    target/port/module.ll > "$work/number.ll"
[ "$(grep -c "^define void @\"$reader\"(.*noinline" "$work/number.ll")" -eq 1 ] || fail "no function $reader in the module"
"$tools/bin/clang" $flags -c -x ir "$work/number.ll" -o "$work/number.o" \
    || fail "the module does not compile with its reader by itself"
if ! keeps "$work/number.o" "$reader" > "$work/found"; then
    cat "$work/code" "$work/found"
    fail "the number reader does not keep its value in 16 bits on $target, or calls for help"
fi
echo "number reader on $target: $(tail -n 1 "$work/found")"
