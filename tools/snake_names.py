#!/usr/bin/env python3
"""Brings the repository's own names in specs/ and proofs/ to one spelling: words in snake case, types and facts in camel case.

usage: python3 tools/snake_names.py [--dry]     at the top, once, after the kit's port.py

A dash stays where it joins two definitions of specs/, as in `column_of-insert`; elsewhere it becomes `_`. A name that would
fall together with another declared one gets `_lem`. What stands in src/ outside of clauses, strings, and the names of files
and folders are kept.
"""

import glob
import re
import sys

PREFIX = r"(?:(?:pub|abbrev|unfoldable|opaque)\s+)*"
DECLARED = re.compile(r"^(\s*)" + PREFIX + r"([^\s:(){}=.,;«»λ]+)(?:\s*\{[^}]*\})?\s*:\s")
TYPE = re.compile(r"^\s*(?:pub\s+)?(?:record|data)\s+([^\s:(){}]+)")
IMPORT = re.compile(r"^\s*(?:pub\s+|ghost\s+)*use\s+([^{;\s]+?)\.\{([^}]*)\}", re.M)
EDGE = r"[^\s(){}\[\].,;:=λ«»`\"]"
BY_HAND = {
    "nullCount": "null_count_of",  # the function `null_count` counts; this is a record of a count
    "noCColumn": "no_c_column",
    "noCBuilder": "no_c_builder",
    "noCBuilderColumn": "no_c_builder_column",
    "noCNamePlace": "no_c_name_place",
}


def antt_files():
    return sorted(glob.glob("crates/*/specs/**/*.antt", recursive=True) + glob.glob("crates/*/proofs/**/*.antt", recursive=True))


def text_of(path):
    with open(path, encoding="utf-8") as f:
        return f.read()


def snake(word):
    return re.sub(r"(?<=[a-z0-9])([A-Z])", lambda m: "_" + m.group(1).lower(), word)


def is_proof_of_function(path):
    """Answers to the goals of a function, whose names the check makes."""
    return path.split("/")[2] == "proofs" and path.count("/") > 3


def declared_names(files):
    names, definitions = set(), set()
    for path in files:
        if is_proof_of_function(path):
            continue
        for line in text_of(path).split("\n"):
            m = DECLARED.match(line)
            if m and m.group(2) not in ("use", "let", "module"):
                names.add(m.group(2))
                if "/specs/" in path and not m.group(1):
                    definitions.add(m.group(2))
            m = TYPE.match(line)
            if m:
                names.add(m.group(1))
    return names, definitions


def imported_names(files):
    """Names that come from the library."""
    found = set()
    for path in files:
        for module, names in IMPORT.findall(text_of(path)):
            if module.startswith("Rattle.") and not module.startswith("Rattle.std."):
                continue
            found |= {n.strip().split(" as ")[0] for n in names.split(",")}
    return found


def new_names(names, definitions, library):
    taken = {n for n in names if n == renamed(n, definitions)} | library
    out = {}
    for name in sorted(names, key=lambda n: ("-" in n, n)):
        new = BY_HAND.get(name, renamed(name, definitions))
        if new == name or name in library:
            continue
        if "-" not in name and new in taken:
            out[new] = new + "_lem"  # the lemma gives way to the definition
            taken.add(new + "_lem")
        while "-" in name and new in taken:
            new += "_lem"
        out[name] = new
        taken.add(new)
    return out


def renamed(name, definitions):
    if name[0].isupper() or not re.match(r"[a-z]", name):
        return name
    words = {snake(d) for d in definitions}
    parts = [snake(p) for p in name.split("-")]
    out = parts[0]
    for i, part in enumerate(parts[1:], 1):
        out += ("-" if parts[i - 1] in words and part in words else "_") + part
    return out


def respelled(edit, declared):
    """The lines of an edit, which port.py leaves: paths, projections, operators, clauses, names that it turned elsewhere."""
    lines = []
    for line in edit.split("\n"):
        if line.startswith(("old: ", "new: ")):
            for old, new in SPELLINGS:
                line = re.sub(old, new, line)
            line = re.sub(r"\b[a-z]+[A-Z]\w*", lambda m: snake(m.group()) if snake(m.group()) in declared else m.group(), line)
        lines.append(line)
    return "\n".join(lines)


SPELLINGS = [
    (r"Rattle·(\w+)·specs\.specs\.", r"Rattle.\1.specs."),
    (r"Rattle·(\w+)·proofs\.proofs\.", r"Rattle.\1.proofs."),
    (r"Rattle·(\w+)\.", r"Rattle.\1."),
    (r"\bgetD\b", "get_or"),
    (r"\._(\S+?)_(?=[\s()])", r".◌\1◌"),
    (r"(?<=[\w)']) \.(?=[a-z«])", "."),
    (r"\{ λ (\w+)\. ⌜ \1 ≡ (.*?) ⌝ \}", r"{ result ≡ \2 }"),
    (r"⌜ (.*?) ⌝", r"\1"),
]


def main():
    files = antt_files()
    names, definitions = declared_names(files)
    out = new_names(names, definitions, imported_names(files))
    if "--dry" in sys.argv:
        for name in sorted(out):
            print(name, out[name])
        return
    rule = re.compile(r"(?<!" + EDGE + r")(" + "|".join(sorted(map(re.escape, out), key=len, reverse=True)) + r")(?!" + EDGE + r")")
    plain = {n: new for n, new in out.items() if "-" not in n}
    camel = re.compile(r"(?<![\w'-])(" + "|".join(sorted((n for n in plain if re.search("[a-z0-9][A-Z]", n)), key=len, reverse=True)) + r")(?![\w'])")
    for path in files:
        old = text_of(path)
        new = rule.sub(lambda m: out[m.group(1)], old)
        new = camel.sub(lambda m: plain[m.group(1)], new)
        if new != old:
            with open(path, "w", encoding="utf-8") as f:
                f.write(new)
    edits = sorted(glob.glob("crates/*/must-fail/*.edit"))
    for path in sorted(glob.glob("crates/*/src/*.rt") + ["README.md"] + glob.glob("docs/*.md")) + edits:
        old = text_of(path)
        new = rule.sub(lambda m: out[m.group(1)], old) if path in edits else old
        new = camel.sub(lambda m: plain[m.group(1)], new)
        if path in edits:
            new = respelled(new, {out.get(n, n) for n in names})
        if new != old:
            with open(path, "w", encoding="utf-8") as f:
                f.write(new)


main()
