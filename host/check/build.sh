# Tests of host/build.sh, for host/check.sh: in a checkout of links, with the tools that are lent to it and no others. It stands outside of this one, where rt
# would refuse its links and its crates.txt.

scratch=$(mktemp -d)
trap 'rm -rf "$scratch"' EXIT
found=$scratch/target/host

# Lends tools, which themselves have the whole PATH.
lend() {
    for tool in "$@"; do
        printf '#!/bin/sh\nPATH="%s" exec "%s" "$@"\n' "$PATH" "$(command -v "$tool")" > "$scratch/bin/$tool"
        chmod +x "$scratch/bin/$tool"
    done
}
# An rt that says what stands on its input and ends with a status; with 0 it leaves the archive: lend_rt STATUS. It wants
# to be called as `rt lib` in crates/bias_c.
lend_rt() {
    cat > "$scratch/rt.said"
    cat > "$scratch/bin/rt" << END
#!/bin/sh
[ "\$*" = lib ] && [ "\${PWD##*/}" = bias_c ] || exit 99
cat "$scratch/rt.said" >&2
[ "$1" -ne 0 ] || { mkdir -p out && cp "$whole_library" out/libbias_c.a; }
exit $1
END
    chmod +x "$scratch/bin/rt"
}
# Three crates, one that bias does not need, one of the kit.
begin_scratch() {
    rm -rf "$scratch"
    mkdir -p "$scratch/bin" "$scratch/crates/bias_c"
    ln -s "$PWD/host" "$scratch/host"
    ln -s "$PWD/include" "$scratch/include"
    printf '# crates\nlow:\nother: low\nmiddle: low kit\nbias_c staticlib: low middle kit\n' > "$scratch/crates.txt"
    lend awk cat cp dirname grep mkdir
}
# Runs build.sh there, which has to end with status 1: no rustc is ever lent.
fails_to_build() { says 1 "" env PATH="$scratch/bin" "$scratch/host/build.sh" "$@"; }
case $library in
/*) whole_library=$library ;;
*) whole_library=$PWD/$library ;;
esac

# What is missing is told at once, with README.md for the kit; with an archive no rt is missing.
tools_missing() {
    begin_scratch
    fails_to_build && [ "$(grep -c '^host/build.sh: no ' "$out/err")" -eq 3 ] && grep 'no rt, .*README.md' "$out/err" \
        && fails_to_build "$whole_library" && [ "$(grep -c '^host/build.sh: no ' "$out/err")" -eq 2 ] \
        && ! grep 'no rt' "$out/err" && [ ! -e "$found/example" ]
}
# With cc alone the C programs are there, and the reference is not; but no stand-in can be made.
without_rustc() {
    begin_scratch
    lend cc
    fails_to_build --stand-in && grep 'no rustc' "$out/err" && [ ! -e "$found/example" ] \
        && fails_to_build "$whole_library" && grep 'example, bias-verdict and makefeed are built; .* rustc' "$out/err" \
        && is_feed_trace "$found/example" && says 0 "$accepted" "$found/bias-verdict" "$out/a.img" \
        && says 0 "" "$found/makefeed" "$out/made.img" && cmp "$found/feed.img" host/feed.img \
        && [ ! -e "$found/libreference.a" ]
}
progress() {
    begin_scratch
    lend cc
    lend_rt 0 << 'END'
rt: low: begins with what a check kept in /somewhere/crates/low
crate low: modules loaded=1 checked=48
logic=proved functions=1 sum=0
rt: chose --jobs 2 for middle
fn middle::something: proved
crate middle: modules loaded=0 checked=4
logic=proved functions=1 sum=0
crate bias_c: modules loaded=0 checked=4
logic=proved functions=4 sum=0
END
    fails_to_build && grep -Fx '1 of up to 3 crates: low proved' "$out/err" \
        && grep -Fx '2 of up to 3 crates: middle proved' "$out/err" && grep -Fx '3 of 3 crates: bias_c proved' "$out/err" \
        && [ "$(grep -c ' 3 crates: ' "$out/err")" -eq 3 ] && [ -e "$found/example" ] \
        && cmp "$whole_library" "$scratch/target/staticlib/libbias.a"
}
rt_fails() {
    begin_scratch
    lend cc
    lend_rt 3 << 'END'
crate low: modules loaded=0 checked=48
logic=proved functions=1 sum=0
crate middle: modules loaded=0 checked=4
logic=not-proved
END
    fails_to_build && grep -Fx 'logic=not-proved' "$out/err" && grep -Fx '1 of up to 3 crates: low proved' "$out/err" \
        && grep 'failed with status 3' "$out/err" && ! grep 'crates: middle' "$out/err" \
        && ! grep 'crates: bias_c' "$out/err" && [ ! -e "$found/example" ]
}

try "build.sh, missing tools" tools_missing
try "build.sh without rustc" without_rustc
try "build.sh, how far the proofs are" progress
try "build.sh, a failing rt" rt_fails
