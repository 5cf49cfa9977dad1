# Finds the Rattle kit of the rt that is on the PATH; for the scripts of this folder and host/archive.sh, which define `fail` before.
command -v rt > /dev/null || fail "no rt: put the Rattle kit's bin folder on the PATH"
# the first guide stands at the top of the kit's folder
kit=$(dirname "$(rt doc)")
tools=$kit/toolchain
for tool in clang ld.lld llvm-ar; do
    [ -x "$tools/bin/$tool" ] || fail "the kit of rt has no $tool"
done
