#!/bin/sh
# Instructions that a step and a load of the library take, for each row of host/bench: counted by callgrind, so that they
# are the same in every run of the same archive. The last line is the worst of the loads. Needs host/build.sh to have run,
# and valgrind. Usage: host/count.sh [BENCH]
set -eu
bench=${1:-$(dirname "$0")/../target/host/bench}
command -v valgrind >/dev/null || { echo "host/count.sh: no valgrind" >&2; exit 1; }
said=$(mktemp)
trap 'rm -f "$said"' EXIT
rows=$("$bench" --rows)
worst=0
tell() { printf '%-44s %12d\n' "$1" "$2"; }
while read -r row; do
    calls=$("$bench" --once "$row")
    valgrind --tool=callgrind --callgrind-out-file=/dev/null --toggle-collect=bias_step --toggle-collect=bias_load \
        "$bench" --once "$row" > "$said" 2>&1 || { cat "$said" >&2; exit 1; }
    counted=$(sed -n 's/.*Collected : //p' "$said")
    [ "${counted:-0}" -gt 0 ] || { echo "host/count.sh: nothing counted for '$row'" >&2; exit 1; }
    tell "$row" "$((counted / calls))"
    # a row of one call is a load
    if [ "$calls" -eq 1 ] && [ "$counted" -gt "$worst" ]; then
        worst=$counted
        worst_row=$row
    fi
done <<END
$rows
END
tell "worst load: $worst_row" "$worst"
