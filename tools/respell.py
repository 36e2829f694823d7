#!/usr/bin/env python3
"""Respells the repository's own ghost names: definitions, lemmas, fields and local names in snake case, types in
camel case, names of constants in capitals with underscores. Run once, at the top, after the kit's port.py.

usage: tools/respell.py [--dry]

Names of the library, names that Rattle makes of the code and names of the code itself stay. What would fall
together with another name is printed and left as it is.
"""
import os
import re
import sys

DRY = "--dry" in sys.argv[1:]
SPLIT = re.compile(r"""([\s(){}\[\].,;@"`|]+)""")
KEBAB = re.compile(r"(?<=[^\W_'])['′]*-(?=[^\W_])")
CAMEL = re.compile(r"(?<=[a-z0-9])(?=[A-Z])|(?<=[A-Z])(?=[A-Z][a-z])")
MADE = re.compile(r"^(Need|After|Lts|Reads|Then|Else|Invariant|Measure)-|^[μ+]|^«|^row_")
HEAD = re.compile(r"^\s*(?:(?:pattern|unfoldable|abbrev|pub|record|data|axiom)\s+)*(\S+)(?: [^:]*)? : (.*)")


def files(*ends):
    for folder, dirs, names in os.walk("crates"):
        dirs[:] = sorted(d for d in dirs if d not in ("out", ".git"))
        for n in sorted(names):
            if n.endswith(ends):
                yield os.path.join(folder, n)


def cut(line):
    """The code and the comment of a line of antt."""
    m = re.search(r"(^|\s)--(\s|$)", line)
    return (line[: m.start()], line[m.start() :]) if m else (line, "")


def words(text):
    return SPLIT.split(text)


def read(path):
    with open(path, encoding="utf-8") as f:
        return f.read()


def respelled(name, a_type):
    """A name in the spelling that it is to have."""
    if name.upper() == name and re.search("[A-Z]", name):
        return KEBAB.sub("_", name)
    if a_type or (name[0].isupper() and KEBAB.search(name)):
        return "".join(p[:1].upper() + p[1:] for p in KEBAB.split(name))
    if name[0].isupper():
        return name
    parts = CAMEL.sub("_", KEBAB.sub("_", name)).split("_")
    return "_".join(p if re.fullmatch("ℕ", p) else p.lower() for p in parts)


def wants(name):
    return bool(re.match(r"[^\W\d_]|[0-9]", name)) and bool(KEBAB.search(name) or re.match(r"[a-z]\w*[A-Z]", name))


library, kept = set(), set()
types = set()
own = {}
for path in files(".antt"):
    made = path.endswith("Proof.antt")
    text = read(path)
    for m in re.finditer(r"^(?:pub )?use (\S+?)\.\{([^}]*)\}", text, re.M):
        ours = m[1].startswith("Rattle.") and not m[1].startswith("Rattle.std") and ".specs.declared" not in m[1]
        for item in m[2].split(","):
            parts = item.split()
            if parts and not ours:
                library.add(parts[0])
for path in files(".antt"):
    text = read(path)
    made = path.endswith("Proof.antt")
    in_data = False
    for line in text.split("\n"):
        code, _ = cut(line)
        if re.match(r"\s*(pub )?use ", code):
            continue
        m = HEAD.match(code)
        if m and "=" not in code.split(" : ")[0]:
            name, kind = m[1], m[2]
            if made and kind.startswith("tie."):
                kept.add(name)
            elif re.match(r"\s*(?:pub )?(record|data) ", code):
                types.add(name)
            elif re.search(r"(^|→ )Type 0( where)?$", kind.strip()) and name[0].isupper():
                types.add(name)
        for w in words(code):
            if wants(w) and not MADE.match(w) and not (made and w not in own):
                own.setdefault(w, set()).add(path)
# a name that only a Proof.antt has, and that is no answer's
for path in files("Proof.antt"):
    for line in read(path).split("\n"):
        m = HEAD.match(cut(line)[0])
        if m and wants(m[1]) and not m[2].startswith("tie.") and not m[1].endswith("-spec") and not MADE.match(m[1]):
            own.setdefault(m[1], set()).add(path)
table = {n: respelled(n, n in types) for n in own if n not in library}
table = {a: b for a, b in table.items() if a != b}
# a lemma that would have its function's name
for name in ("is-nan", "floor-size", "sign-of", "in-units", "in-float", "sum-of", "in-region", "line-in", "input-number"):
    table[name] = respelled(name, False) + "_lem"
table["byLimit"] = "is_by_limit"
# such names that one file alone has
ONE_FILE = {
    "crates/elementary/proofs/Laws/Isqrt.antt": {"root_by": "root_by_lem"},
    "crates/solver/proofs/Laws/Forms.antt": {"with_value": "with_value_lem", "on_value": "on_value_lem"},
    "crates/prices/specs/Vega.antt": {"at-the-money": "vega_at_the_money"},
}
local = {}

# ---- what would fall together, in one file
for path in files(".antt", ".rt"):
    present = set()
    for line in read(path).split("\n"):
        present.update(words(cut(line)[0] if path.endswith(".antt") else line.split("//")[0]))
    seen = {}
    for w in present:
        to = ONE_FILE.get(path, {}).get(w) or table.get(w, w)
        if to in seen:
            print(f"falls together: {path}: {w} and {seen[to]} as {to}")
        seen[to] = w

made_words = {"well-formed", "loop-init", "loop-preserved", "loop-smaller"}
for w in sorted(set(table) & (made_words | kept)):
    print("also an answer's name:", w, "->", table[w])
if DRY:
    for a, b in sorted(table.items()):
        print(a, "->", b)


def in_code(text):
    return "".join(local.get(w) or table.get(w, w) for w in words(text))


def in_words(text):
    """A comment or a document: names in the older spelling that no prose has, and what stands in backquotes."""
    text = re.sub(r"`[^`\n]+`", lambda m: in_code(m[0]), text)
    return "".join(table.get(w, w) if re.fullmatch(r"[a-z]\w*[A-Z]\w*", w) else w for w in words(text))


# names that port.py respelled itself stand in the edits as they were
after = set(table.values())
for path in files(".antt"):
    for line in read(path).split("\n"):
        after.update(w for w in words(in_code(cut(line)[0])) if w)


def in_edit(text):
    def one(w):
        if w in table:
            return table[w]
        if wants(w) and w not in library and respelled(w, False) in after:
            return respelled(w, False)
        return w

    return "".join(one(w) for w in words(text))


if not DRY:
    for path in list(files(".antt", ".rt", ".edit")) + [os.path.join(d, n) for d in (".", "docs", "docs/landings") if os.path.isdir(d) for n in sorted(os.listdir(d)) if n.endswith(".md")]:
        old = read(path)
        local = ONE_FILE.get(path[2:] if path.startswith("./") else path, {})
        lines = []
        for line in old.split("\n"):
            if path.endswith(".antt"):
                code, comment = cut(line)
                lines.append(in_code(code) + in_words(comment))
            elif path.endswith(".rt"):
                code, slash, comment = line.partition("//")
                lines.append(in_code(code) + slash + in_words(comment))
            elif path.endswith(".edit"):
                lines.append(in_edit(line) if re.match(r"(old|new|refused|wrong):", line) else in_words(line))
            else:
                lines.append(re.sub(r"`[^`\n]+`", lambda m: in_edit(m[0]), line))
        new = "\n".join(lines)
        if new != old:
            with open(path, "w", encoding="utf-8") as f:
                f.write(new)
