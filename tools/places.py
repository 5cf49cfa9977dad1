#!/usr/bin/env python3
"""Counts the places of docs/DESIGN-PASS.md in crates/*/src: places.py [POINT ..] [--list]. A place that the rules below find is one to read, not yet one to change."""
import collections
import pathlib
import re
import sys

TOP = pathlib.Path(__file__).resolve().parent.parent
FILES = sorted(TOP.glob("crates/*/src/*.rt"))
NONE_LIKE = r"Accepted|Any|ByZero|Done|EndsEarly|Fine|NoDevice|None|Nothing|Nowhere|Passes|Present|Refused"


def name_of(file):
    return str(file.relative_to(TOP / "crates"))


def code(file):
    """The lines of a file without comments and ghost imports."""
    return [re.sub(r"//.*", "", line) if not line.startswith("ghost use") else "" for line in file.read_text().split("\n")]


def bodies(file, word):
    """The items of a kind (struct, enum) with their bodies."""
    text = "\n".join(code(file))
    for found in re.finditer(r"\b%s (\w+)[^{;]*\{(.*?)\n\s*\}" % word, text, re.S):
        yield found.group(1), found.group(2)


def functions(file):
    """The functions of a file: name, parameters, clauses, body."""
    lines = code(file)
    i = 0
    while i < len(lines):
        head = re.match(r"(\s*)(pub )?(extern \"C\" )?fn (\w+)", lines[i])
        if head:
            end = next(k for k in range(i, len(lines)) if lines[k].startswith(head.group(1) + "}"))
            opened = next((k for k in range(i, end) if lines[k] == head.group(1) + "{" or lines[k].endswith(") {") or re.search(r"-> [^{]*\{$", lines[k])), i)
            yield head.group(4), "\n".join(lines[i:opened]), "\n".join(lines[opened + 1:end])
            i = end
        i += 1


def option_shapes():
    for file in FILES:
        for name, body in bodies(file, "enum"):
            if re.search(r"^\s+(%s)\b" % NONE_LIKE, body, re.M):
                yield f"{name_of(file)} enum {name}"


def flags_beside():
    for file in FILES:
        for name, body in bodies(file, "struct"):
            for field in re.findall(r"pub (\w+): (?:bool|ImageResult),", body):
                yield f"{name_of(file)} {name}.{field}"
        for k, line in enumerate(file.read_text().split("\n")):
            if re.match(r"\s*//", line) and re.search(r"for none|where there is none|both 0|0 where", line):
                yield f"{name_of(file)}:{k + 1} a number for none: {line.strip()}"


def kind_numbers():
    for file in FILES:
        for name in re.findall(r"const ([A-Z0-9_]+): (?:u8|u32|usize) = \d+;", "\n".join(code(file))):
            yield f"{name_of(file)} const {name}"


def twins():
    groups = collections.defaultdict(list)
    for file in FILES:
        for name, head, body in functions(file):
            tokens = re.findall(r"b?\"[^\"]*\"|\w+|[^\w\s]", re.sub(r"\bself\.", "", body))
            shape = []
            for token in tokens:
                if re.match(r"b?\"|\d", token):
                    token = "0"
                elif re.match(r"\w", token) and token not in ("if", "else", "match", "return", "let", "mut", "for", "while", "in", "as", "rt", "true", "false"):
                    token = "x"
                shape.append(token)
            if len(shape) >= 8:
                groups[" ".join(shape)].append(f"{name_of(file)} {name}")
    for members in groups.values():
        if len(members) > 1:
            yield " = ".join(members)


def loops():
    for file in FILES:
        for k, line in enumerate(code(file)):
            if re.search(r"\bwhile\b", line):
                yield f"{name_of(file)}:{k + 1} {line.strip()}"


def by_hand():
    for file in FILES:
        for name, head, body in functions(file):
            if re.match(r"(same\w*|wide\w*|lesser|least|passed|narrow|low)$", name):
                yield f"{name_of(file)} fn {name}"
            arms = re.findall(r"^\s*[\w:]+(?:\([\w, ]*\))? => ([^{\n]+),$", body, re.M)
            most = collections.Counter(arms).most_common(1)
            if most and most[0][1] >= 3:
                yield f"{name_of(file)} fn {name}: {most[0][1]} arms give {most[0][0]}"


def repeated_facts():
    facts = collections.defaultdict(list)
    given = {}
    for file in FILES:
        for name, head, body in functions(file):
            for clause in re.findall(r"requires(?: \w+)? \{ (.*) \}", head):
                facts[re.sub(r"\b\w+\.(now|old)\b", "it", re.sub(r"^\w+ ≡ ", "it ≡ ", clause))].append(f"{name_of(file)} {name}")
            given[f"{name_of(file)} {name}"] = frozenset(re.findall(r"(\w+): (?!P\b)", head.split(")")[0])) - {"rt", "marks", "out"}
    for fact, users in sorted(facts.items()):
        if len(users) >= 3:
            yield f"{{ {fact} }}: {len(users)} functions"
    sets = {a & b for a in given.values() for b in given.values() if a is not b and len(a & b) >= 3}
    for names in sorted(sets, key=sorted):
        users = [f for f, own in given.items() if names <= own]
        if len(users) >= 3:
            yield f"({', '.join(sorted(names))}): {len(users)} functions"


def beside_lengths():
    for file in FILES:
        text = "\n".join(code(file))
        for name, body in bodies(file, "struct"):
            if re.search(r": \[", body) and re.search(r"pub (length|depth|count|at|landings): ", body):
                yield f"{name_of(file)} struct {name}: an array and a number of what counts of it"
        arrays = re.findall(r"const (\w+): \[\w+; (\d+)\]", text)
        for (a, n), (b, m) in zip(arrays, arrays[1:]):
            if n == m:
                yield f"{name_of(file)} {a}, {b}: arrays side by side"
        for name, head, body in functions(file):
            if re.search(r"\b(landings|list): &[^,]*\[", head) and re.search(r"\b(count|n): u8", head):
                yield f"{name_of(file)} fn {name}: a list with its count beside it"


def switches():
    for file in FILES:
        for name, head, body in functions(file):
            arms = re.findall(r"^\s*[\w:|(), ]+ => [\w:]+\(.*\),$", body, re.M)
            if len(arms) >= 5:
                yield f"{name_of(file)} fn {name}: {len(arms)} arms that call"


def answers():
    for file in sorted(TOP.glob("crates/*/proofs/**/*.antt")):
        if file.name in ("Answers.antt", "Invariants.antt"):
            for goal in re.findall(r"^(?:abbrev )?pub (\S+) : goal\.", file.read_text(), re.M):
                yield f"{file.relative_to(TOP / 'crates')} {goal}"


POINTS = {
    "1a": ("own enums with a variant for none or for nothing wrong", option_shapes),
    "1b": ("flags and numbers for none beside a value", flags_beside),
    "1c": ("constants that number kinds or places", kind_numbers),
    "2": ("groups of functions whose bodies differ in names and numbers alone", twins),
    "3": ("loops by `while`", loops),
    "4": ("comparisons and conversions by hand", by_hand),
    "5": ("facts and parameters that stand in three or more functions", repeated_facts),
    "6": ("arrays side by side, lists with a count beside", beside_lengths),
    "7": ("matches that choose what to call", switches),
    "8": ("answers and invariants in proofs/", answers),
}

asked = [a for a in sys.argv[1:] if not a.startswith("--")] or list(POINTS)
for point in asked:
    title, rule = POINTS[point]
    found = list(rule())
    print(f"{point:3} {len(found):5}  {title}")
    if "--list" in sys.argv:
        for place in found:
            print(f"          {place}")
