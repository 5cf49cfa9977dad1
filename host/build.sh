#!/bin/sh
# Builds the host programs with plain cc and rustc into target/host. First those that need the library and cc alone:
# example, bias-verdict, makefeed, imagedoc, imagecheck; then the reference and all that tests: diff, fuzz, bench, trace, read_numbers, list_pins,
# judge_images, bad_places, verdicts, and the reference as an archive of its own. A missing tool is a failure; without
# rustc the first ones are built before it fails.
# Usage: host/build.sh                proves the library and makes its archive first (rt lib in crates/bias_c)
#        host/build.sh --proved       the same where rt ci has just proved all else: proves bias_c alone
#        host/build.sh LIBRARY        with an archive that is there; needs no rt
#        host/build.sh --stand-in     the reference under the library's names, to try the programs without a library
set -eu
if [ $# -gt 1 ]; then
    echo "usage: host/build.sh [LIBRARY | --proved | --stand-in]" >&2
    exit 2
fi
library=${1:-}
case $library in
"" | --proved | --stand-in | /*) ;;
*) library=$PWD/$library ;;
esac
cd "$(dirname "$0")/.."
out=target/host
system="-lpthread -ldl -lm"

say() { echo "host/build.sh: $*" >&2; }
fail() {
    say "$*"
    exit 1
}

# What a tool is for and where it comes from.
source_of() {
    case $1 in
    rt) echo "proves the library and makes its archive: README.md, 'For a firmware author', names its kit" ;;
    cc) echo "a C compiler, for every program here: your system's package" ;;
    rustc) echo "the Rust compiler, for the reference and the tests: your system's package" ;;
    esac
}

# Tells all tools that are missing, at once; fails unless what is missing is rustc, which the C programs can do without.
look_for() {
    missing=""
    for tool in "$@"; do
        command -v "$tool" > /dev/null || missing="$missing $tool"
    done
    for tool in $missing; do
        say "no $tool, which $(source_of "$tool")"
    done
    case $missing in
    "") ;;
    " rustc") [ "$library" != --stand-in ] || exit 1 ;;
    *) exit 1 ;;
    esac
}

# How many crates one needs by crates.txt, itself included: lines 'NAME: USES ..' and 'NAME staticlib: USES ..'. What has no line there is the kit's.
needed() {
    awk -v top="$1" '
        function visit(name, part, parts, at) {
            if (!(name in uses) || (name in seen))
                return
            seen[name] = 1
            count++
            parts = split(uses[name], part, " ")
            for (at = 1; at <= parts; at++)
                visit(part[at])
        }
        /^[^#]*:/ { at = index($0, ":"); split(substr($0, 1, at - 1), words, " "); uses[words[1]] = substr($0, at + 1) }
        END { visit(top); print count + 0 }
    ' crates.txt
}

# Proves the library, the static library bias_c, and makes its archive. rt tells of each crate below it as it proves that, and nothing of those that have not
# changed since it proved them; bias_c it proves last. All that rt said is shown if it fails.
prove() {
    log=$out/rt.log
    all=$(needed bias_c)
    say "proving bias_c and what it needs, $all crates"
    { (cd crates/bias_c && rt lib 2>&1) || echo "rt lib failed with status $?"; } | {
        proved=0
        while IFS= read -r line; do
            printf '%s\n' "$line"
            case $line in
            "crate "*": modules "*)
                crate=${line#crate }
                crate=${crate%%:*}
                ;;
            "logic=proved "*)
                proved=$((proved + 1))
                [ "$crate" = bias_c ] || echo "$proved of up to $all crates: $crate proved" >&2
                ;;
            esac
        done
    } > "$log"
    if grep -q '^rt lib failed with status' "$log"; then
        cat "$log" >&2
        exit 1
    fi
    echo "$all of $all crates: bias_c proved" >&2
    cp crates/bias_c/out/libbias_c.a "$library"
}
# The same behind rt ci.
prove_alone() {
    say "proving bias_c over what rt ci has proved"
    host/archive.sh "$library" > "$out/rt.log" 2>&1 || {
        cat "$out/rt.log" >&2
        fail "bias_c is not proved, or its archive not made"
    }
}

rust() { rustc --edition 2021 -O -D warnings "$@"; }
c() { cc -std=c99 -pedantic -Wall -Wextra -Werror -Iinclude "$@"; }

mkdir -p "$out"
case $library in
"" | --proved)
    look_for rt cc rustc
    how=$library
    library=$PWD/target/staticlib/libbias.a
    mkdir -p target/staticlib
    if [ -z "$how" ]; then prove; else prove_alone; fi
    ;;
--stand-in)
    look_for cc rustc
    library=$out/libstand_in.a
    rust --cfg stand_in --crate-type staticlib --crate-name stand_in host/reference/lib.rs -o "$library"
    ;;
*)
    look_for cc rustc
    [ -f "$library" ] || fail "no library $library"
    ;;
esac

# With the library and cc alone.
c -O2 host/makefeed.c "$library" $system -o "$out/makefeed"
c -O2 host/example.c host/inputs.c host/beside.c host/listing.c "$library" $system -o "$out/example"
c -O2 host/bias-verdict.c host/listing.c "$library" $system -o "$out/bias-verdict"
c -O2 host/imagedoc.c host/listing.c "$library" $system -o "$out/imagedoc"
c -O2 host/imagecheck.c host/listing.c "$library" $system -o "$out/imagecheck"
cp host/feed.img "$out/feed.img"
[ -z "$missing" ] \
    || fail "example, bias-verdict and makefeed are built; the reference and the tests need${missing}, which is missing"

# The reference, and what tests.
rust --crate-type rlib --crate-name reference host/reference/lib.rs -o "$out/libreference.rlib"
rust --crate-type staticlib --crate-name reference_c host/reference/lib.rs -o "$out/libreference.a"
rust_program() { rust "host/$2" --extern reference="$out/libreference.rlib" -o "$out/$1"; }
rust_program trace reference/trace.rs
rust_program read_numbers reference/read_numbers.rs
rust_program list_pins reference/list_pins.rs
rust_program judge_images reference/judge_images.rs
rust_program bad_places bad_places.rs
rust_program verdicts verdicts.rs
rust host/diff.rs --extern reference="$out/libreference.rlib" -C link-arg="$library" -o "$out/diff"
c -O2 host/bench.c host/beside.c "$library" "$out/libreference.a" $system -o "$out/bench"
c -O1 -g -fsanitize=address,undefined -fno-sanitize-recover=all host/fuzz.c "$library" $system -o "$out/fuzz"
echo "$library" > "$out/library"
