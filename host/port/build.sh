#!/bin/sh
# Makes the library for another machine than x86-64, from the same proved sources and with the kit's compiler alone:
# target/port/TARGET/libbias.a, with the border of include/bias.h. docs/PORTING.md tells how it is linked.
# `rt lib` in crates/bias_c proves the sources and hands one LLVM module to the kit's clang. host/archive.sh does the same
# with a clang before that one, which keeps the module, target/port/module.bc, and calls the kit's. What names x86-64 is
# taken out of the module, and the kit's clang compiles it for TARGET together with border.c. The module is kept as long as
# the crates and the kit stay the same.
# Usage: host/port/build.sh TARGET..
#        host/port/build.sh --list             prints the targets
#        host/port/build.sh --flags TARGET     prints what clang is told for one
# BIAS_PORT_FLAGS: flags for the optimizer in the place of the ones below.
set -eu

targets="thumbv7em-none-eabi thumbv7em-none-eabihf thumbv7m-none-eabi thumbv6m-none-eabi armv7-linux-gnueabihf \
aarch64-linux-gnu riscv32-none-elf"
# -O2 with more inlining than it has by itself; docs/PORTING.md has what other flags give on a Cortex-M4
optimize=${BIAS_PORT_FLAGS:--O2 -mllvm -inline-threshold=700}

fail() {
    echo "host/port/build.sh: $*" >&2
    exit 1
}

# What clang is told of a target besides its name.
machine_of() {
    case $1 in
    thumbv7em-none-eabi) echo "-mcpu=cortex-m4 -mfloat-abi=soft -fshort-enums" ;;
    thumbv7em-none-eabihf) echo "-mcpu=cortex-m4 -mfloat-abi=hard -fshort-enums" ;;
    thumbv7m-none-eabi) echo "-mcpu=cortex-m3 -mfloat-abi=soft -fshort-enums" ;;
    thumbv6m-none-eabi) echo "-mcpu=cortex-m0 -mfloat-abi=soft -fshort-enums" ;;
    armv7-linux-gnueabihf) echo "-mfloat-abi=hard -fPIC" ;;
    aarch64-linux-gnu) echo "-fPIC" ;;
    riscv32-none-elf) echo "-march=rv32imac -mabi=ilp32" ;;
    *) return 1 ;;
    esac
}

# All that clang is told. Those from -trap-unreachable to -sink-common-insts are what the module is compiled with on x86-64,
# but for one that is for x86 alone; they also keep clear of parts of LLVM that the kit distrusts.
flags_of() {
    echo "--target=$1 $(machine_of "$1") --no-default-config -nostdinc -Ihost/port/include -Iinclude -std=c99" \
        "-Wall -Wextra -Werror -Wno-override-module -Wno-unused-command-line-argument -ffunction-sections -fdata-sections" \
        "-mllvm -trap-unreachable -mllvm -no-trap-after-noreturn -mllvm -disable-machine-licm" \
        "-mllvm -disable-postra-machine-licm -mllvm -sink-common-insts=false $optimize"
}

usage() {
    echo "usage: host/port/build.sh TARGET.. | --list | --flags TARGET, TARGET one of: $targets" >&2
    exit 2
}

asked=archives
case ${1:-} in
--list)
    echo "$targets" | tr ' ' '\n'
    exit 0
    ;;
--flags)
    asked=flags
    shift
    ;;
esac
[ $# -gt 0 ] || usage
for target in "$@"; do
    machine_of "$target" > /dev/null || fail "no target '$target'; there are: $targets"
done
if [ "$asked" = flags ]; then
    flags_of "$1"
    exit 0
fi

cd "$(dirname "$0")/../.."
. host/port/kit.sh
port=target/port
mkdir -p "$port"
# what is left of an earlier run is not what is asked for
for target in "$@"; do
    rm -f "$port/$target/libbias.a"
done
work=$(mktemp -d)
trap 'rm -rf "$work"' EXIT

# A sum of all that the module is made from: the crates, and the kit by its name.
sum_of_sources() {
    { rt version && cat crates.txt && sources | sort | xargs -d '\n' sha256sum; } | sha256sum | cut -d ' ' -f 1
}
# the files of the crates, and not what rt makes there
sources() { find crates -path 'crates/*/out' -prune -o -type f "$@" -print; }

# Links in the folder $2 to all that the folder $1 has, but for its part $3.
link_all_but() {
    mkdir -p "$2"
    for part in "$1"/*; do
        [ "$part" = "$1/$3" ] || ln -s "$part" "$2/"
    done
}

# The archive for x86-64 as rt makes it, where it isn't there or the crates have changed since.
make_archive() {
    if [ -f "$archive" ] && [ -z "$(sources -newer "$archive" | head -n 1)" ] && ! [ crates.txt -nt "$archive" ]; then
        return
    fi
    if ! (cd crates/bias_c && rt lib) > "$port/log" 2>&1; then
        tail -n 20 "$port/log" >&2
        fail "rt did not make the library ($port/log)"
    fi
    mkdir -p "$(dirname "$archive")"
    cp crates/bias_c/out/libbias_c.a "$archive"
}

# Has the archive made once more, with a clang that keeps its input. It has to be the one that rt makes without it.
keep_module() {
    rm -f "$port/module.bc" "$port/module.sum" "$port/module.a"
    make_archive
    link_all_but "$tools" "$work/toolchain" bin
    link_all_but "$tools/bin" "$work/toolchain/bin" clang
    # it is given no environment, so the two names stand in it
    cat > "$work/toolchain/bin/clang" << END
#!/bin/sh
# Copies the module that stands behind -x ir, and does what the kit's clang does.
before=
for word in "\$@"; do
    [ "\$before" != ir ] || cp "\$word" '$work/module.bc' || exit 1
    before=\$word
done
exec '$tools/bin/clang' "\$@"
END
    chmod +x "$work/toolchain/bin/clang"
    if ! host/archive.sh "$work/module.a" "$work/toolchain" > "$port/log" 2>&1; then
        tail -n 20 "$port/log" >&2
        fail "the library was not made again ($port/log)"
    fi
    [ -s "$work/module.bc" ] || fail "no module was kept: the library was made without a call of clang with '-x ir'"
    cmp "$archive" "$work/module.a" >&2 || fail "the archive is not the one that rt made before, of the same crates"
    cp "$work/module.bc" "$port/module.bc"
    cp "$work/module.a" "$port/module.a"
    echo "$sum" > "$port/module.sum"
}

# The module that was kept is good if it is of the same sources and the archive is the one that was made with it.
archive=target/staticlib/libbias.a
sum=$(sum_of_sources)
kept=$(cat "$port/module.sum" 2> /dev/null || :)
if [ ! -s "$port/module.bc" ] || [ "$sum" != "$kept" ] || ! cmp -s "$archive" "$port/module.a"; then
    keep_module
fi

# The module as text, for any machine: without the two target lines and the attributes that are for x86-64.
"$tools/bin/clang" --target=x86_64-unknown-linux-gnu --no-default-config -S -emit-llvm -Xclang -disable-llvm-passes \
    -x ir "$port/module.bc" -o "$work/module.ll" || fail "the kit's clang does not read the kept module"

# The functions that the module gives to C, with their types: what border.c calls. Another border needs another border.c.
sed -n 's/^define noundef ptr @\([a-z_]*\)(\(.*\)) #[0-9]* {$/\1(\2)/p; t
s/^define internal .*//p; t
s/^define .*/& is no function of the border/p' "$work/module.ll" | sed 's/ noundef %[a-z0-9]*//g; /^$/d' | sort > "$work/exports"
sort > "$work/expected" << 'END'
bias_load(ptr, ptr, i64, ptr, i64, ptr, i64)
bias_step(ptr, ptr, i64, ptr, i64, i32, ptr, i64, i8, i8, i8)
bias_write(ptr, i32, i32, i32, i32, i32, i32, ptr, i64, ptr, i64)
bias_write_landings(ptr, i32, i32, i32, i32, i32, i32, ptr, i64, ptr, i64, ptr, i64)
END
if ! diff "$work/expected" "$work/exports" >&2; then
    fail "the module's functions are not those that border.c calls"
fi

# A byte with a pointer behind it (an Option of a reference) is stored by its parts, the pointer at byte 8, and read as one record, whose pointer stands at byte 4
# where pointers have four bytes: so it is read by its parts too.
by_parts='s/^  \(%r[0-9]*\) = load { i8, ptr }, ptr \(%r[0-9]*\), align 8$/  \1.tag = load i8, ptr \2, align 8\
  \1.at = getelementptr i8, ptr \2, i64 8\
  \1.ptr = load ptr, ptr \1.at, align 8\
  \1.half = insertvalue { i8, ptr } poison, i8 \1.tag, 0\
  \1 = insertvalue { i8, ptr } \1.half, ptr \1.ptr, 1/'
sed -e '/^target /d' -e '/^attributes /s/ "target-cpu"="[^"]*"//' -e '/^attributes /s/ "target-features"="[^"]*"//' \
    -e '/^attributes /s/ "tune-cpu"="[^"]*"//' -e '/^attributes /s/ "probe-stack"="[^"]*"//' \
    -e '/^attributes /s/ "stack-probe-size"="[^"]*"//' \
    -e 's/@\(bias_[a-z_]*\)(/@\1_raw(/' -e "$by_parts" "$work/module.ll" > "$port/module.ll"
if grep -n -i 'x86\|ptrtoint\|inttoptr\|addrspacecast' "$port/module.ll" >&2; then
    fail "the module has something that is for x86-64 alone"
fi
if grep -n 'load {[^}]*ptr\|store {[^}]*ptr\|getelementptr {' "$port/module.ll" | grep -v 'load { ptr, i64 }' >&2; then
    fail "the module has a record whose parts stand elsewhere where a pointer has four bytes"
fi

for target in "$@"; do
    out=$port/$target
    mkdir -p "$out"
    # the words of the flags are flags of their own
    flags=$(flags_of "$target")
    "$tools/bin/clang" $flags -Xclang -disable-llvm-passes -c -emit-llvm -x ir "$port/module.ll" -o "$work/module.bc" \
        || fail "the kit's clang does not take the module for $target"
    "$tools/bin/clang" $flags -c host/port/border.c -Xclang -mlink-builtin-bitcode -Xclang "$work/module.bc" -o "$work/bias.o" \
        || fail "the kit's clang does not compile the module for $target"
    "$tools/bin/llvm-ar" rcsD "$out/libbias.a" "$work/bias.o" || fail "no archive for $target"
    echo "$out/libbias.a"
done
