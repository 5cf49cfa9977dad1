# Tests of include/bias.h, for host/check.sh.

header_in_cpp() {
    printf '#include "bias.h"\n' | c++ -x c++ -fsyntax-only -Wall -Wextra -Werror -pedantic -Iinclude - && counted 1 header
}

# The numbers of the last line of a table of versions. Fails unless versions count up from 1, each line has all numbers and
# names its landing, and differs from the one before in another number than the version.
last_version() {
    awk '
        /^ *(#|$)/ { next }
        {
            comment = index($0, "#") ? substr($0, index($0, "#")) : ""
            sub(/ *#.*/, "")
            others = $0
            sub(/^[0-9]+ /, "", others)
            counts_up = split($0, numbers, " ") == 9 && numbers[1] == version + 1
            is_new = others != others_before
            if (!counts_up || !is_new || comment !~ /^# [0-9]+: ./) {
                bad = 1
                exit
            }
            version = numbers[1]
            others_before = others
            last = $0
        }
        END {
            if (bad || !version)
                exit 1
            print last
        }
    ' "$1"
}
landings_of() {
    for landing in $(sed -n 's/^[0-9].*# \([0-9]*\):.*/\1/p' "$1"); do
        ls "docs/landings/$landing"-*.md || return 2
    done
}
# A checksum of a header's structs and functions: without comments, blanks and what is included.
signatures_of() { sed '/^#include/d' "$1" | cc -E -P - | sed -n '/^typedef struct/,$p' | tr -d ' \t\n' | cksum | cut -d ' ' -f 1; }
# The last line has the numbers of the header, as version.c prints them, and its signatures.
as_in_header() { last_version "$1" > "$out/last" && cmp "$out/last" "$out/version.out"; }
version() {
    cc -std=c99 -pedantic -Wall -Wextra -Werror -Iinclude host/version.c -o "$out/version" \
        && echo "$("$out/version") $(signatures_of include/bias.h)" > "$out/version.out" && as_in_header host/versions.txt \
        && landings_of host/versions.txt \
        && counted "$(grep -c '^[0-9]' host/versions.txt) versions"
}

# A table that sed makes of the right one, which a check passes or refuses: table CHECK EDIT STATUS.
table() {
    sed "$2" host/versions.txt > "$out/table"
    got=0
    "$1" "$out/table" || got=$?
    echo "$1, $2: status $got, expected $3"
    runs=$((runs + 1))
    ! cmp -s "$out/table" host/versions.txt && [ "$got" -eq "$3" ]
}
# A header that sed makes of ours, whose signatures are the same or others: signature EDIT STATUS.
signature() {
    sed "$1" include/bias.h > "$out/edited.h"
    got=0
    [ "$(signatures_of "$out/edited.h")" = "$(signatures_of include/bias.h)" ] || got=1
    echo "signatures, $1: status $got, expected $2"
    runs=$((runs + 1))
    ! cmp -s "$out/edited.h" include/bias.h && [ "$got" -eq "$2" ]
}
# Lines left out, numbers or comments missing; a further line that says nothing new; other numbers. A changed comment of the
# header is no new signature, a parameter of another type or of another name is.
wrong_tables() {
    next=$(($(grep -c '^[0-9]' host/versions.txt) + 1))
    further="\$p;\$s/^[0-9]* \([^#]*\).*/$next \1# 0014:"
    as_in_header host/versions.txt && table last_version '/^1 /d' 1 && table last_version '/^2 /d' 1 \
        && table last_version '$s/ [0-9]* *#/ #/' 1 && table last_version '$s/#.*//' 1 \
        && table last_version "$further nothing/" 1 \
        && table as_in_header '$d' 1 && table as_in_header '$s/ [0-9]* *#/ 99 #/' 1 \
        && table landings_of '$s/# [0-9]*:/# 9999:/' 2 \
        && signature 's/after a successful write/behind it/' 0 && signature 's/uint8_t ramp_ended/uint16_t ramp_ended/' 1 \
        && signature 's/uint8_t ramp_ended, uint8_t in_window/uint8_t in_window, uint8_t ramp_ended/' 1 \
        && signature 's/uint32_t mode;/uint16_t mode;/' 1 && signature 's/size_t landings_len/uint32_t landings_len/' 1 \
        && counted "$runs tables and headers"
}

try "bias.h in C++" header_in_cpp
try "BIAS_VERSION goes with the table of versions" version
try "wrong tables of versions, other signatures" wrong_tables
