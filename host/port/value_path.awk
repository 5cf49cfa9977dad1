# Follows the value of a number through the code of a function that reads one, as `arm-none-eabi-objdump -dr
# --no-show-raw-insn` prints it: what a byte load gives, and what is computed from it, in registers, flags and the stack.
# Prints the instructions that break a rule, then counts; status 1 if there are any, or no byte load at all.
#   - nothing is called, nor jumped to outside the function
#   - no sum or difference with carry and no long product has the value or its carry in it: what takes 64 bits on this machine
#   - the value is stored in 16 bits or fewer
# Each way is followed whatever the flags say, so it may find what never happens. What is stored in 16 bits, but not on the
# stack, and read back as a word is not followed.

function bare(word) {
    gsub(/[][{}!, ]/, "", word)
    return word
}

# The registers that a text names, with a space around each.
function registers(text,    out, word, words, at, many) {
    sub(/[@;].*/, "", text)
    gsub(/[][{},!]/, " ", text)
    many = split(text, words, " ")
    out = " "
    for (at = 1; at <= many; at++) {
        word = words[at]
        if (word ~ /^(r[0-9]+|sl|fp|ip|sp|lr|pc)$/) out = out word " "
    }
    return out
}

function meets(set, names,    words, at, many) {
    many = split(names, words, " ")
    for (at = 1; at <= many; at++) if (index(set, " " words[at] " ")) return 1
    return 0
}

function with(set, names,    words, at, many) {
    many = split(names, words, " ")
    for (at = 1; at <= many; at++) if (!index(set, " " words[at] " ")) set = set words[at] " "
    return set
}

function without(set, names,    words, at, many) {
    many = split(names, words, " ")
    for (at = 1; at <= many; at++) sub(" " words[at] " ", " ", set)
    return set
}

function wrong(at, why) {
    if (!(at in told)) {
        told[at] = 1
        print why ": " text[at]
        faults++
    }
}

# What is the value's behind instruction `at`, when `set` is before it. The flags are called cc, the stack memory.
function after(at, set,    name, rest, first, from, value, flags) {
    name = names[at]
    rest = rests[at]
    if (name ~ /^(bl|blx)$/) wrong(at, "a call")
    if (name ~ /^(b|b[a-z][a-z]|cbn?z|it[te]*|nop|bx|udf|tb[bh])$/) return set
    first = registers(rest)
    sub(/^ /, "", first)
    sub(/ .*/, "", first)
    from = registers(substr(rest, index(rest, ",") + 1))
    if (rest !~ /,/) from = registers(rest)
    # stores: what is stored is the first operand, or all of a list
    if (name ~ /^(str|stm|push|vst)/) {
        value = name ~ /^(stm|push)/ ? registers(rest) : name ~ /^strd/ ? pair(rest) : " " first " "
        if (meets(set, value)) {
            if (rest ~ /\[sp/) set = with(set, "memory")
            else if (name !~ /^str[bh]/) wrong(at, "stored in more than 16 bits")
        }
        return set
    }
    if (name ~ /^(ldm|pop)/) return set
    if (name ~ /^ldr/) {
        if (name ~ /^ldrs?[bh]/) loads[at] = 1
        value = name ~ /^ldrs?[bh]/ || (rest ~ /\[sp/ && index(set, " memory "))
        first = name ~ /^ldrd/ ? pair(rest) : first
        return value ? with(set, first) : guarded[at] ? set : without(set, first)
    }
    # a two-operand form has its destination among its sources
    if (split(rest, parts, ",") == 2 && name !~ /^(mov|mvn|[us]xt|rev|clz|rbit|adr|cmp|cmn|tst|teq)/) from = with(from, first)
    flags = name ~ /^(adc|sbc|rsc)/
    if (name ~ /^(umull|umlal|smull|smlal|umaal)/) {
        # two registers for the result; the sums take them as well
        if (name ~ /mull/) sub(/^[^,]*,[^,]*,/, "", rest)
        if (meets(set, registers(rest))) wrong(at, "a long product")
        return set
    }
    value = meets(set, from) || (name ~ /^mov[t]/ && meets(set, first))
    if (flags && (value || index(set, " cc "))) wrong(at, "a sum with carry")
    value = value || (flags && index(set, " cc "))
    if (name ~ /^(cmp|cmn|tst|teq)/) {
        value = meets(set, registers(rest))
        return value ? with(set, "cc") : without(set, "cc")
    }
    # an s at the end of a name sets the flags
    if (name ~ /^(add|sub|rsb|adc|sbc|and|orr|eor|bic|mov|mvn|lsl|lsr|asr|ror|mul|neg)s$/)
        set = value ? with(set, "cc") : without(set, "cc")
    return value ? with(set, first) : guarded[at] ? set : without(set, first)
}

function pair(rest,    words) {
    split(rest, words, ",")
    return " " bare(words[1]) " " bare(words[2]) " "
}

function join(at, set) {
    if (!(at in before)) {
        before[at] = set
        changed = 1
    } else if (with(before[at], set) != before[at]) {
        before[at] = with(before[at], set)
        changed = 1
    }
}

/R_ARM_/ {
    relocated[count] = 1
    next
}

/^ *[0-9a-f]+:\t/ {
    split($0, field, "\t")
    address = field[1]
    gsub(/[ :]/, "", address)
    count++
    number[address] = count
    text[count] = $0
    names[count] = field[2]
    sub(/[.][nw]$/, "", names[count])
    rests[count] = field[3]
    # conditional instructions of an it block do not clear what was there
    if (left > 0) {
        guarded[count] = 1
        left--
        sub(/(eq|ne|cs|cc|mi|pl|vs|vc|hi|ls|ge|lt|gt|le)$/, "", names[count])
    }
    if (names[count] ~ /^it[te]*$/) left = length(names[count]) - 1
}

END {
    before[1] = " "
    do {
        changed = 0
        for (at = 1; at <= count; at++) {
            if (!(at in before)) continue
            set = after(at, before[at])
            name = names[at]
            if (name ~ /^b/ && name !~ /^(bl|blx|bx|bic|bics|bfi|bfc)$/ || name ~ /^cbn?z$/) {
                target = rests[at]
                sub(/^.*, */, "", target)
                sub(/ .*/, "", target)
                if (at in relocated || !(target in number)) wrong(at, "a jump out of the function")
                else join(number[target], set)
            }
            if (name ~ /^(b|bx|tb[bh]|udf)$/ || name ~ /^(pop|ldm)/ && rests[at] ~ /pc/) continue
            if (at < count) join(at + 1, set)
        }
    } while (changed)
    for (at in loads) many++
    printf "%d instructions, %d loads of a byte, %d against the rules\n", count, many, faults
    exit faults > 0 || many == 0
}
