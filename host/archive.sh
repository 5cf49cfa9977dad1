#!/bin/sh
# Makes the archive of the crate bias_c with rattle itself, as `rt lib` in crates/bias_c does and byte for byte the same, but with any toolchain, and without
# proving again what is below: it stands in crates/*/out/rlib where `rt lib` or `rt ci` has just proved these very files, which is what this trusts. bias_c
# itself is proved here. Usage: host/archive.sh ARCHIVE [TOOLCHAIN]      TOOLCHAIN: a folder like the kit's toolchain, which it is unless one is named
set -eu
fail() {
    echo "host/archive.sh: $*" >&2
    exit 1
}
[ $# -eq 1 ] || [ $# -eq 2 ] || { echo "usage: host/archive.sh ARCHIVE [TOOLCHAIN]" >&2; exit 2; }
case $1 in
/*) archive=$1 ;;
*) archive=$PWD/$1 ;;
esac
toolchain=${2:-}
case $toolchain in
"" | /*) ;;
*) toolchain=$PWD/$toolchain ;;
esac
cd "$(dirname "$0")/.."
. host/port/kit.sh

# The crates that one uses by crates.txt, and with them all that these use; each with 'direct' or 'below' before it. What has no line there is the kit's.
uses_of() {
    awk -v top="$1" '
        function visit(name, part, parts, at) {
            if (!(name in uses) || (name in seen))
                return
            seen[name] = 1
            parts = split(uses[name], part, " ")
            for (at = 1; at <= parts; at++) {
                if (name == top)
                    print (part[at] in uses ? "direct" : "kit"), part[at]
                visit(part[at])
            }
            if (name != top)
                print "below", name
        }
        /^[^#]*:/ { at = index($0, ":"); split(substr($0, 1, at - 1), words, " "); uses[words[1]] = substr($0, at + 1) }
        END { visit(top) }
    ' crates.txt
}

# The arguments for rattle that name these.
set -- --extern "std=$kit/rlibs/std.rlib" -L "dependency=$kit/rlibs"
while read -r how name; do
    rlib=crates/$name/out/rlib
    case $how in
    kit) set -- "$@" --extern "$name=$kit/rlibs/$name.rlib" ;;
    direct) set -- "$@" --extern "$name=../../$rlib/$name.rlib" ;;
    below)
        [ -d "$rlib/$name.rlib" ] || fail "no $rlib/$name.rlib: rt lib in crates/bias_c proves it, and so does rt ci"
        set -- "$@" -L "dependency=../../$rlib"
        ;;
    esac
done << END
$(uses_of bias_c)
END
cd crates/bias_c
"$kit/bin/rattle" build --crate-name bias_c src/lib.rt "$@" --antt-project "$kit/rattle/logic/antt-project.json" \
    --logic-built "$kit/logic_built" --links bias_c= --crate-type staticlib --toolchain "${toolchain:-$tools}" --backend llvm \
    -o "$archive"
