#!/usr/bin/env python3
"""Counts the places of docs/DESIGN-PASS.md in the crates' src/, a row for each crate and a column for each point.

    tools/design_places.py [FOLDER]           the counts
    tools/design_places.py [FOLDER] --list N  each place of point N

A place is a line, or for point 2 a pair of functions, for point 5 a fact or a row of parameters that stands in three contracts or more.
"""
import collections
import pathlib
import re
import sys

FN = re.compile(r"^(\s*)(?:pub(?:\([a-z]+\))? )?(?:extern \"C\" )?fn (\w+)", re.M)


def functions(text):
    """Name, header with contract, body of each function."""
    for m in FN.finditer(text):
        indent = m.group(1)
        end = text.find("\n" + indent + "}", m.start())
        whole = text[m.start():end if end > 0 else len(text)]
        head, brace, body = whole.partition("\n" + indent + "{")
        if not brace:
            head, _, body = whole.partition("{\n")
        yield m.group(2), head, body


def lines(text, pattern):
    return [m.group(0).strip() for m in re.finditer(pattern, text, re.M)]


def results(text):
    """Own enums like Option or Result, flags beside a value, numbers for kinds and refusals."""
    found = lines(text, r"^\s*(pub )?(refusal|fault|checked|kind|route|layout): u8,.*$")
    found += lines(text, r"^\s*(pub )?(found|known|fresh|missing|bad|extra|closed|present): bool,.*$")
    found += lines(text, r"^.*fn \w+\([^)]*\b(checked|refusal): u8.*$")
    for m in re.finditer(r"enum (\w+) \{([^}]*)\}", text):
        if re.search(r"\bOf\(|\bRefused\b|\bMissing\b|\bBad\b|\bUnknown\b", m.group(2)):
            found.append("enum " + m.group(1))
    for name, head, body in functions(text):
        if re.search(r"-> u8\b", head) and re.search(r"return (\w+\.refusal|[1-9]\d*);|return r;", body):
            found.append("fn " + name + " -> u8")
    return found


def twins(files):
    """Pairs of functions with the same text but for names of types, functions and numbers."""
    shapes = collections.defaultdict(list)
    for path, text in files:
        for name, head, body in functions(text):
            code = re.sub(r"//.*", "", body)
            if len(code.split("\n")) < 4:
                continue
            shape = re.sub(r"\b([iu](8|16|32|64|size)|f32|f64|\d\w*|[A-Z]\w*)\b", "T", code)
            shape = re.sub(r"\b[a-z]\w*(?=\()", "f", shape)
            shape = re.sub(r"\.\w+", ".m", shape)
            shapes[re.sub(r"\s+", " ", shape)].append(f"{path}: {name}")
    return [" = ".join(v) for v in shapes.values() for _ in v[1:]]


def loops(text):
    return lines(text, r"^\s*('\w+: )?(while|loop)\b.*$") + lines(text, r"^\s*('\w+: )?for \w+ in [\w.]+\.\.[^.].*$")


def by_hand(text):
    found = []
    for name, head, body in functions(text):
        if re.search(r"^(same|is_same)_|_(number|from|to|of_number)$|^(kind|layout|flag|strategy)_(number|from|to)$|^is_(kind|case|array|builder)$", name):
            found.append("fn " + name)
        elif body.count("=> true") + body.count("=> false") > 1:
            found.append("fn " + name)
    return found


def together(files):
    facts, rows = collections.Counter(), collections.Counter()
    for _, text in files:
        for name, head, _ in functions(text):
            for m in re.finditer(r"requires[^{]*\{(.*)\}\s*$", head, re.M):
                for fact in re.split(r"\) × \(|(?<!\() × ", m.group(1)):
                    facts[re.sub(r"[()\s]+", " ", fact).strip()] += 1
            names = re.findall(r"(\w+): ([^,:]+?)[,)\n]", head.partition("ensures")[0].partition("requires")[0])
            for n in range(3, len(names) + 1):
                for i in range(len(names) - n + 1):
                    rows[tuple(a for a, _ in names[i:i + n])] += 1
    found = [f"{n}  {fact}" for fact, n in facts.items() if n > 2]
    longest = {r: n for r, n in rows.items() if n > 2}
    keep = [r for r in longest if not any(len(o) > len(r) and any(o[i:i + len(r)] == r for i in range(len(o))) for o in longest)]
    return found + [f"{longest[r]}  {', '.join(r)}" for r in keep]


def buffers(text):
    found = lines(text, r"^\s*pub \w+: \[[^\]]*; \w+\],.*$")
    for name, head, _ in functions(text):
        params = head.partition("ensures")[0].partition("requires")[0]
        if re.search(r": \[[^\]]*; \w+\]", params.partition("->")[0]):
            found.append("fn " + name)
        if len(re.findall(r": &(mut )?\[[^\]]*\]", params)) > 4:
            found.append("fn " + name + " (five slices or more)")
    return found


def switches(text):
    found = []
    for name, head, body in functions(text):
        arms = re.findall(r"=> \w+(::\w+)*\([^)]*\),", body)
        if len(arms) > 2 and len(set(re.findall(r"\(([^)]*)\),", " ".join(a for a in re.findall(r"=> [^\n]*", body))))) <= 2:
            found.append("fn " + name)
    return found


def main():
    args = [a for a in sys.argv[1:] if not a.startswith("-") and not a.isdigit()]
    top = pathlib.Path(args[0] if args else pathlib.Path(__file__).parent.parent)
    points = {1: results, 3: loops, 4: by_hand, 6: buffers, 7: switches}
    pick = int(sys.argv[sys.argv.index("--list") + 1]) if "--list" in sys.argv else 0
    files = [(f"{p.parts[-3]}/{p.name}", p.read_text()) for p in sorted(top.glob("crates/*/src/**/*.rt"))]
    if pick in (2, 5):
        print("\n".join((twins if pick == 2 else together)(files)))
    elif pick:
        for path, text in files:
            for place in points[pick](text):
                print(f"{path}: {place}")
    else:
        totals = collections.Counter()
        for crate in sorted({p.split("/")[0] for p, _ in files}):
            own = [(p, t) for p, t in files if p.startswith(crate + "/")]
            counts = {n: sum(len(f(t)) for _, t in own) for n, f in points.items()}
            totals.update(counts)
            print(f"{crate:20}" + "".join(f"  {n}: {counts[n]:3}" for n in sorted(counts)))
        print(f"{'all':20}" + "".join(f"  {n}: {totals[n]:3}" for n in sorted(totals)))
        print(f"twins, over all crates (2): {len(twins(files))}")
        print(f"facts and rows of parameters in three contracts or more, over all crates (5): {len(together(files))}")


main()
