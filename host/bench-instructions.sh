#!/bin/sh
# What the library takes in instructions, which do not vary from run to run: on x86-64 counted by callgrind, on a Cortex-M4
# by qemu (-icount, a timer of the board); and there stack and text in bytes. docs/BENCH.md has the table.
# Makes both libraries first (host/port/build.sh, whose BIAS_PORT_FLAGS may be set to try other flags). Needs cc and what
# host/port/packages.sh installs; not in the gate. host/count.sh has the other steps and loads of the bench, on x86-64.
# Usage: host/bench-instructions.sh
set -eu
fail() {
    echo "host/bench-instructions.sh: $*" >&2
    exit 1
}
cd "$(dirname "$0")/.."
for tool in cc valgrind qemu-system-arm arm-none-eabi-gcc arm-none-eabi-size; do
    command -v "$tool" > /dev/null || fail "no $tool (host/port/packages.sh installs it)"
done
target=thumbv7em-none-eabi
out=target/port/$target
host/port/build.sh "$target" > /dev/null
od -An -v -tu1 host/port/worst.img | sed 's/[0-9][0-9]*/&,/g' > "$out/worst.inc"

# What the C of the rows is compiled with, for both machines.
c="-std=gnu99 -O2 -Wall -Wextra -Werror -Iinclude -I$out"
cc $c host/port/rows.c host/port/system_hosted.c target/staticlib/libbias.a -o "$out/rows-x86_64"
arm-none-eabi-gcc $c -mcpu=cortex-m4 -mthumb -nostartfiles -Wl,--gc-sections,--no-warn-execstack \
    -T host/port/m4.ld host/port/start_m4.c host/port/rows.c "$out/libbias.a" -o "$out/rows"

on_m4() {
    timeout 600 qemu-system-arm -M mps2-an386 -nographic -monitor none -serial none -icount shift=0 \
        -semihosting-config enable=on,target=native,arg=rows -kernel "$out/rows"
}
on_m4 > "$out/counted" || { cat "$out/counted"; fail "the rows failed on the Cortex-M4"; }
on_m4 > "$out/again" || fail "the rows failed on the Cortex-M4"
cmp "$out/counted" "$out/again" || fail "two runs on the Cortex-M4 count differently"

# A loop of known length shows that an instruction is counted as one.
looped=$(sed -n 's/^a loop of 4,000,000|//p' "$out/counted")
if [ "${looped:-0}" -lt 4000000 ] || [ "$looped" -gt 4000100 ]; then
    fail "a loop of 4,000,000 instructions is counted as ${looped:-none}"
fi

# Instructions of a row's calls on x86-64, on the average and rounded; what is counted is inside the library's functions.
on_x86_64() {
    calls=$("$out/rows-x86_64" "$1") || { echo "$calls" >&2; fail "the row '$1' failed on x86-64"; }
    case $1 in *load*) inside=bias_load ;; *) inside=bias_step ;; esac
    valgrind --tool=callgrind --callgrind-out-file=/dev/null --toggle-collect="$inside" \
        "$out/rows-x86_64" "$1" > "$out/said" 2>&1 || { cat "$out/said" >&2; fail "callgrind failed on '$1'"; }
    counted=$(sed -n 's/.*Collected : //p' "$out/said")
    [ "${counted:-0}" -gt 0 ] || fail "callgrind counted nothing for '$1'"
    echo $(((counted + calls / 2) / calls))
}

# One row of the table: a name, a figure for x86-64 or nothing, one for the Cortex-M4.
put_row() { printf '%-40s %14s %14s\n' "$@"; }

put_row "instructions" "x86-64" "Cortex-M4"
sed '/^a loop/d; /^stack/d' "$out/counted" > "$out/instructions"
while IFS='|' read -r name figure; do
    case $name in
    "the dearest step"*) put_row "$name" "" "$figure" ;;
    *) put_row "$name" "$(on_x86_64 "$name" < /dev/null)" "$figure" ;;
    esac
done < "$out/instructions"
put_row "bytes" "" ""
sed -n '/^stack/p' "$out/counted" | while IFS='|' read -r name figure; do
    put_row "$name" "" "$figure"
done
# the sections of code and of constants in the archive
sections() {
    arm-none-eabi-size -A "$out/libbias.a" | awk -v name="$1" 'index($1, name) == 1 { sum += $2 } END { print sum + 0 }'
}
text=$(sections .text)
[ "$text" -gt 0 ] || fail "no text in the archive"
put_row "text" "" "$text"
put_row "constants" "" "$(sections .rodata)"
