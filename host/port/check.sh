#!/bin/sh
# Runs one test program (trial.c) with the library for x86-64 and with the library for other machines, under qemu, and
# compares what it prints: hashes over every answer and every byte of the state. Then looks at the number reader's code on
# the Cortex-M4 (number.sh), and at what the archive for it needs of other libraries.
# Usage: host/port/check.sh [--all]    the Cortex-M4 and aarch64; with --all every target of build.sh
# Status 77 and 'port not tried: no ..' where a package is missing (host/port/packages.sh installs them).
set -eu
fail() {
    echo "host/port/check.sh: $*" >&2
    exit 1
}
case ${1:-} in
"") targets="thumbv7em-none-eabi aarch64-linux-gnu" ;;
--all) targets=$("$(dirname "$0")/build.sh" --list) ;;
*) echo "usage: host/port/check.sh [--all]" >&2; exit 2 ;;
esac
cd "$(dirname "$0")/../.."
command -v cc > /dev/null || fail "no cc"
needs="qemu-system-arm qemu-aarch64 arm-none-eabi-gcc arm-none-eabi-objdump arm-none-eabi-nm"
[ -z "${1:-}" ] || needs="$needs qemu-arm qemu-riscv32"
for tool in $needs; do
    command -v "$tool" > /dev/null || { echo "port not tried: no $tool"; exit 77; }
done
# gcc prints a name without a folder for a file that it does not have
case $(arm-none-eabi-gcc -mcpu=cortex-m4 -mthumb -print-file-name=libc.a) in
*/*) ;;
*) echo "port not tried: no C library for arm-none-eabi-gcc"; exit 77 ;;
esac
. host/port/kit.sh
out=target/port
# its words are arguments of their own
host/port/build.sh $targets
od -An -v -tu1 host/feed.img | sed 's/[0-9][0-9]*/&,/g' > "$out/feed.inc"

# What the C of the test program is compiled with, whatever compiler does it.
c="-std=gnu99 -O2 -Wall -Wextra -Werror -Iinclude -I$out"

cc $c -pedantic host/port/trial.c host/port/system_hosted.c target/staticlib/libbias.a -o "$out/trial"
"$out/trial" > "$out/expected" || { cat "$out/expected"; fail "the test program fails on x86-64"; }

# A difference of one bit has to show.
"$out/trial" fault > "$out/fault" || :
if cmp -s "$out/expected" "$out/fault"; then
    fail "a turned bit of one state does not show in the hashes"
fi

# Links the test program for bare Arm with gcc, and runs it on a board. ($c and what describes the processor are words.)
on_board() {
    arm-none-eabi-gcc $c $2 -mthumb -nostartfiles -Wl,--gc-sections,--no-warn-execstack -T host/port/m4.ld \
        host/port/start_m4.c host/port/trial.c "$out/$target/libbias.a" -o "$out/$target/trial" || return 1
    timeout 600 qemu-system-arm -M "$1" -nographic -monitor none -serial none \
        -semihosting-config enable=on,target=native,arg=trial -kernel "$out/$target/trial"
}

# Links it with the kit's clang and linker and no C library, and runs it as a program of Linux.
on_linux() {
    for file in start_linux trial; do
        "$tools/bin/clang" $c --target="$target" $2 --no-default-config -nostdinc -Ihost/port/include -fno-builtin \
            -c "host/port/$file.c" -o "$out/$target/$file.o" || return 1
    done
    "$tools/bin/ld.lld" -static "$out/$target/start_linux.o" "$out/$target/trial.o" "$out/$target/libbias.a" \
        -o "$out/$target/trial" || return 1
    timeout 600 "$1" "$out/$target/trial"
}

# The same with gcc, for a division of its library's.
on_linux_by_gcc() {
    arm-none-eabi-gcc $c $2 -fno-builtin -nostartfiles -static -Wl,--no-warn-execstack,--no-enum-size-warning \
        host/port/start_linux.c host/port/trial.c "$out/$target/libbias.a" -o "$out/$target/trial" || return 1
    timeout 600 "$1" "$out/$target/trial"
}

run_target() {
    case $target in
    thumbv7em-none-eabi) on_board mps2-an386 -mcpu=cortex-m4 ;;
    thumbv7em-none-eabihf) on_board mps2-an386 "-mcpu=cortex-m4 -mfloat-abi=hard -mfpu=fpv4-sp-d16" ;;
    thumbv7m-none-eabi) on_board mps2-an385 -mcpu=cortex-m3 ;;
    thumbv6m-none-eabi) on_board mps2-an386 -mcpu=cortex-m0 ;;
    armv7-linux-gnueabihf) on_linux_by_gcc qemu-arm "-march=armv7-a+fp -mfloat-abi=hard" ;;
    aarch64-linux-gnu) on_linux qemu-aarch64 "" ;;
    riscv32-none-elf) on_linux qemu-riscv32 "-march=rv32imac -mabi=ilp32" ;;
    *) fail "nothing is known of how to run a program for $target" ;;
    esac
}

for target in $targets; do
    status=0
    rm -f "$out/$target/trial"
    run_target > "$out/$target/said" 2> "$out/$target/errors" || status=$?
    if ! cmp -s "$out/expected" "$out/$target/said" || [ "$status" -ne 0 ]; then
        cat "$out/$target/errors"
        diff "$out/expected" "$out/$target/said" || :
        fail "$target: not what the library says on x86-64 (status $status)"
    fi
    echo "$target: the same as on x86-64"
done

host/port/number.sh

# The archive has the names of the border and no other, and needs what docs/PORTING.md names and nothing else.
target=thumbv7em-none-eabi
exports=$(arm-none-eabi-nm -g --defined-only "$out/$target/libbias.a" | sed -n 's/^[0-9a-f]* [A-Z] //p' | sort)
[ "$(echo $exports)" = "bias_load bias_step bias_write bias_write_landings" ] || fail "$target: the archive's names are" $exports
imports=$(arm-none-eabi-nm -u "$out/$target/libbias.a" | sed -n 's/^ *U //p' | sort -u)
for name in $imports; do
    case $name in
    __aeabi_mem[cm]* | __aeabi_memset | __aeabi_memset[48] | __aeabi_ldivmod | __aeabi_uldivmod) ;;
    *) fail "$target: the archive needs $name, which docs/PORTING.md does not name" ;;
    esac
done
echo "$target needs:" $imports
tail -n 8 "$out/expected"
told() { sed -n "s/^$1 \([0-9]*\)\$/\1/p" "$out/expected"; }
echo "counted: $(told steps) steps, $(told 'random programs run') random programs on each machine"
