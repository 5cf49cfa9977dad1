#!/bin/sh
# Looks for the image whose load takes the most instructions on the Cortex-M4 (climb.c, under qemu), beginning with
# host/port/worst.img, and puts it there; host/bench-instructions.sh counts it. To be run again when the loader changes: what
# is dear for one is cheap for another. Not in the gate. Usage: host/port/climb.sh [LOADS]
set -eu
loads=${1:-2000}
fail() {
    echo "host/port/climb.sh: $*" >&2
    exit 1
}
cd "$(dirname "$0")/../.."
for tool in qemu-system-arm arm-none-eabi-gcc; do
    command -v "$tool" > /dev/null || fail "no $tool (host/port/packages.sh installs it)"
done
target=thumbv7em-none-eabi
out=target/port/$target
host/port/build.sh "$target"
{ cat host/port/worst.img 2> /dev/null || :; } | od -An -v -tu1 | sed 's/[0-9][0-9]*/&,/g' > "$out/worst.inc"
arm-none-eabi-gcc -std=gnu99 -O2 -Wall -Wextra -Werror -Iinclude -I"$out" -mcpu=cortex-m4 -mthumb -nostartfiles \
    -Wl,--gc-sections,--no-warn-execstack -T host/port/m4.ld host/port/start_m4.c host/port/climb.c "$out/libbias.a" \
    -o "$out/climb"
qemu-system-arm -M mps2-an386 -nographic -monitor none -serial none -icount shift=0 \
    -semihosting-config enable=on,target=native,arg=climb,arg="$loads" -kernel "$out/climb" > "$out/climbed" \
    || fail "the climb failed"
grep -v '^image ' "$out/climbed"
found=$(sed -n 's/^image //p' "$out/climbed")
[ -n "$found" ] || fail "no image"
printf "$found" > host/port/worst.img
