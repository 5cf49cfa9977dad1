#!/usr/bin/env python3
"""Spells this repository's own definitions, lemmas, fields and constructors as today's Rattle does: words joined by underscores, capitals for types and modules alone.

usage: snake_names.py [--list] [FOLDER]

FOLDER (default: the current one) has crates/ and crates.txt. Run once, after the kit's port.py. It turns the names that the .antt files of crates/ declare, wherever .antt
files, clauses of .rt files, must-fail edits and code spans of README and docs/ say them. Names of Rust, of the libraries and of what Rattle makes stay.
It stops, with nothing written, where two names would fall together. --list prints the table of old and new names and writes nothing.
"""

import os
import re
import sys

WORD = re.compile(r'[^\s(){}.;,@"«»]+')
HEAD = re.compile(r"^\s*(?:(?:pub|abbrev|unfoldable|ghost)\s+)*(?:(?:data|record)\s+)?([^\s(){}.;,@\"«»:]+)((?:\s+[^\s(){}.;,@\"«»:=]+)*)((?:\s*(?:\{[^{}]*\}|\([^()]*\)))*)\s*:\s")
FIELD = re.compile(r"^\s+(?:pub\s+)?([^\s(){}.;,@\"«»:]+)\s*:\s")
USE = re.compile(r"\b(?:ghost\s+)?(?:pub\s+)?use\s+([^\s;{]+?)(?:\.\{([^}]*)\})?(?:\s+as\s+([^\s;]+))?\s*;?\s*$", re.M)
# What Rattle's generated statements ask for by name.
MADE = re.compile(r":\s*(?:tie\.|goal\.)")
# Where the plain spelling would meet another name: the name that it gets.
OTHERWISE = {name: name.replace("-", "_") + "_lem" for name in (
    "any-past bad-inputs block-fits blocks-of effect-in effect-of entry-is foreign-at level-noted longest-image most-of no-state no-task none-landed number-bytes up-to"
    " values-of wait-fits with-landings"
).split()}
# Fields of two records that agree in the new spelling, and the variables put into them.
AGREE = {"ramp_ended", "in_window"}
OTHERWISE |= {"getD-table": "get_or_table", "getD-taken": "get_or_taken", "notOn637Plus": "not_on_637_plus", "type637Plus": "type_637_plus"}
# The same of names that are spelled so already, each in one file.
OTHERWISE_IN = {"crates/image_header/proofs/Places.antt": {"stands_at": "stands_at_lem"}, "crates/state_layout/proofs/RoundTrip.antt": {"layout_is": "layout_is_lem"}}


def new_name(name):
    if name in OTHERWISE:
        return OTHERWISE[name]
    if not re.match(r"[a-zA-Z]", name):
        return name
    if name[0].isupper():
        words = name
    else:
        words = re.sub(r"(?<=[a-z0-9])([A-Z]+)(?=[A-Z][a-z])", lambda m: "_" + m[1].lower(), name)
        words = re.sub(r"(?<=[a-z0-9])([A-Z]+)", lambda m: "_" + m[1].lower(), words)
        words = re.sub(r"(?<=_)[A-Z]+", lambda m: m[0].lower(), words)
    return re.sub(r"(?<=[\w'₀-₉])-(?=[\w₀-₉])", "_", words)


def read(path):
    with open(path, encoding="utf-8", newline="") as f:
        return f.read()


def files_below(top, endings):
    for above, folders, files in os.walk(top):
        folders[:] = sorted(it for it in folders if it not in ("out", ".git"))
        for it in sorted(files):
            if it.endswith(endings):
                yield os.path.join(above, it)


def code_of(text):
    return re.sub(r"(?m)(^|\s)--[^\n]*", lambda m: m[1] + " " * (len(m[0]) - len(m[1])), text)


class Names:
    def __init__(self, crates):
        self.declared, self.fields, self.where = {}, set(), {}
        for crate in crates:
            for path in files_below(os.path.join("crates", crate), (".antt",)):
                for line in code_of(read(path)).split("\n"):
                    if MADE.search(line):
                        continue
                    m = FIELD.match(line) or HEAD.match(line)
                    if not m or m[1] in ("use", "module", "where", "let", "elim", "λ"):
                        continue
                    group = [m[1]] + (m[2].split() if m.re is HEAD else [])
                    if line[:1].isspace():
                        self.fields.add(m[1])
                    for name in group[:1]:
                        new = new_name(name)
                        self.where.setdefault(name, set()).add(path)
                        if new != name:
                            self.declared[name] = new


def imports(text, own):
    """The names that a file takes from libraries, and the modules that it names, by the names that stand for them."""
    library, modules, mine = set(), set(), set()
    for path, group, alias in USE.findall(text):
        steps = path.split(".")
        yours = steps[0] == "Rattle" and len(steps) > 1 and steps[1] in own
        if group:
            for item in re.split(r",", group):
                words = item.split()
                if words:
                    (mine if yours else library).add(words[0])
                    if len(words) == 3:
                        (mine if yours else library).add(words[2])
        else:
            modules.add((alias or steps[-1], yours))
    return library, modules, mine


def turned(text, names, own, table, skip=(), comments=True):
    library, modules, _ = imports(text, own)
    yours = {it for it, of_us in modules if of_us}
    theirs = {it for it, of_us in modules if not of_us}

    def one(m):
        word, at = m[0], m.start()
        new = table.get(word)
        if new is None or word in library or word in skip:
            return word
        if at and text[at - 1] == ".":
            before = re.search(r"([^\s(){};,@\"«»]+)\.$", text[max(0, at - 200):at])
            path = before[1] if before else ""
            first = path.split(".")[0] if path else ""
            if first == "Rattle":
                return new
            if first in ("tie", "goal"):
                return word
            if first in yours and path == first:
                return new
            if first in theirs and path == first:
                return word
            return new if word in names.fields and "-" not in word else word
        return new

    out, at = [], 0
    for m in re.finditer(r"(?m)(?:^|(?<=\s))(--|//)[^\n]*", text):
        out.append((text[at:m.start()], True, at))
        out.append((m[0], False, m.start()))
        at = m.end()
    out.append((text[at:], True, at))
    # Positions matter for what stands before a dot, so code is turned in the whole text and cut out again.
    spans = [(s, s + len(t)) for t, is_code, s in out if is_code]
    result, last = [], 0
    for m in WORD.finditer(text):
        if any(a <= m.start() < b for a, b in spans) if len(spans) < 2 else in_spans(spans, m.start()):
            new = one(m)
        else:
            word = m[0].strip("`'\"")
            new = m[0]
            if m[0].startswith("`") or (re.match(r"[a-z]\w*[A-Z]", word) and comments):
                new = m[0].replace(word, table.get(word, word)) if word else m[0]
        if new != m[0]:
            result.append(text[last:m.start()])
            result.append(new)
            last = m.end()
    result.append(text[last:])
    return "".join(result)


def in_spans(spans, at):
    import bisect
    i = bisect.bisect_right(spans, (at, float("inf"))) - 1
    return i >= 0 and spans[i][0] <= at < spans[i][1]


def rust_names(text):
    return set(re.findall(r"[(,]\s*(?:mut\s+)?(\w+)\s*:(?!:)", text)) | set(re.findall(r"\blet\s+(?:mut\s+)?(\w+)", text)) | set(re.findall(r"\b(?:const|static)\s+(\w+)", text))


def main():
    only_list = "--list" in sys.argv[1:]
    given = [it for it in sys.argv[1:] if it != "--list"]
    if given:
        os.chdir(given[0])
    own = [line.split(":")[0].split()[0] for line in read("crates.txt").split("\n") if line.strip() and not line.startswith("#")]
    names = Names(own)
    table = names.declared
    bad = 0
    # Two names that fall together: in one file both are declared, or one is said where the other stands.
    backward = {}
    for old, new in table.items():
        backward.setdefault(new, []).append(old)
    writes = []
    for crate in own:
        for path in files_below(os.path.join("crates", crate), (".antt", ".rt", ".edit")):
            text = read(path)
            said = set(WORD.findall(code_of(text)))
            library, _, _ = imports(text, own)
            mine = table | OTHERWISE_IN.get(path, {})
            for new, olds in backward.items():
                here = [it for it in olds if it in said and it not in library]
                if path.endswith(".antt") and new not in AGREE and (len(here) > 1 or here and new in said and new not in mine and bare(text, new)):
                    print(f"meets: {path}: {', '.join(here)} and {new}", file=sys.stderr)
                    bad += 1
                if here and path.endswith(".rt") and new in rust_names(text):
                    print(f"hides: {path}: a name of Rust is {new}, as {here[0]} would be", file=sys.stderr)
                    bad += 1
            writes.append((path, text, turned(text, names, own, mine)))
    if only_list:
        for old in sorted(table):
            print(f"{old}\t{table[old]}")
        return
    if bad:
        raise SystemExit(1)
    for path in ["README.md"] + [os.path.join("docs", it) for it in sorted(os.listdir("docs")) if it.endswith(".md")]:
        text = read(path)
        new = re.sub(r"`[^`\n]*`", lambda m: WORD.sub(lambda w: spelled(w[0], table), m[0]), text)
        writes.append((path, text, new))
    n = 0
    for path, old, new in writes:
        if new != old:
            n += 1
            with open(path, "w", encoding="utf-8", newline="") as f:
                f.write(new)
    print(f"{len(table)} names, {n} files")


def spelled(word, table):
    core = word.strip("`")
    return word.replace(core, table[core]) if core in table else word


def bare(text, name):
    """Whether a file says a name of its own, not behind a dot."""
    code = code_of(text)
    return any(code[m.start() - 1:m.start()] != "." for m in WORD.finditer(code) if m[0] == name)


main()
