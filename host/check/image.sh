# Tests of docs/IMAGE.md, for host/check.sh: its tables are those of host/listing.c, its images are what it says of them, and
# the library does what the table of commands says. Uses $judge and $accepted of host/check/verdict.sh.

# A part of docs/IMAGE.md: what stands between the comment of that name and the next comment "end".
part() { sed -n "/^<!-- $1 -->\$/,/^<!-- end -->\$/p" docs/IMAGE.md | sed '1d;$d'; }
from_hex() { bytes $(echo "$*" | sed 's/[0-9A-F][0-9A-F]/0x&/g'); }

image_tables() {
    "$out/imagedoc" > "$out/rows.md" && part commands | cmp - "$out/rows.md" \
        && counted "$(lines_of "$out/rows.md") lines" \
        && "$out/imagedoc" --pins > "$out/rows.md" && part pins | cmp - "$out/rows.md"
}
# An image and its bytes explained: is_worked PART PART.
is_worked() {
    # the words are arguments of their own
    from_hex $(part "$1" | grep -v '```') > "$out/worked.img"
    says 0 "$accepted" "$judge" "$out/worked.img" \
        && "$out/imagedoc" "$out/worked.img" > "$out/rows.md" && part "$2" | cmp - "$out/rows.md"
}
image_worked() { is_worked bytes worked && is_worked "bytes of format 2" "worked in format 2"; }
image_refused() {
    part refused | grep ' | ' > "$out/refused" || return 1
    while IFS='|' read -r hex number_at_place why; do
        from_hex "$hex" > "$out/refused.img"
        # number, "at", place
        set -- $number_at_place
        echo "$hex: $why"
        says 1 "refusal $1 place $3 task 0 depth 0" "$judge" "$out/refused.img" < /dev/null || return 1
    done < "$out/refused"
}
held_to_the_table() { "$out/imagecheck" > "$out/held" && cat "$out/held" && counted "$(cut -d ';' -f 1 < "$out/held" | tail -n 1)"; }

try "docs/IMAGE.md, the tables of commands and pins" image_tables
try "docs/IMAGE.md, the worked images" image_worked
try "docs/IMAGE.md, the refused images" image_refused
try "the library held to the table of commands" held_to_the_table
