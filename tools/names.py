#!/usr/bin/env python3
"""Which of the repository's own names are not yet spelled as the house spells them, and how they are spelled.

usage: python3 tools/names.py table > tools/names.tsv    lists them, old and new, from the files as they stand
       python3 tools/names.py turn tools/names.tsv       turns the files of crates/, and the names in docs/ and README.md

Types and modules are in upper camel case, everything else in snake case. A dash joins two names, as a definition's and
another's; a plain word is added with '_'. Names from src/, strings, and names of the library stay.
"""
import collections
import os
import re
import sys

WORD = re.compile(r"[^\s(){}\[\].;,@\"«»`|:=/]+")
TOP = re.compile(r"^(?:(?:abbrev|unfoldable|pub|rec|opaque) +)*([^\s:(){}]+) :(?!:)")
INNER = re.compile(r"^\s+(?:\| |pub )?([^\s:(){}|.]+) :(?!:)")
# Lemmas that have the name that a definition gets: in proofs, where no path or field is meant, they get another.
BESIDE = "all_plain first_cell first_reads first_way in_order is_stuck no_table too_long way_at".split()
LIBRARY = """add mul sub div mod pow eq ne lt le gt ge zero suc one two length append take drop get_or set map filter nil cons and or
not xor min max val bit number byte_at index reverse concat ones count shl shr abs cond beq eqb leb ltb fst snd list fin""".split()


def files(*ends):
    for folder, dirs, names in os.walk("crates"):
        dirs[:] = sorted(d for d in dirs if d != "out")
        for name in sorted(names):
            if name.endswith(ends):
                yield os.path.join(folder, name)


def read(path):
    with open(path, encoding="utf-8") as f:
        return f.read()


def snake(part):
    part = re.sub(r"(?<=[a-z0-9'])(?=[A-Z])", "_", part)
    return part if re.fullmatch(r"[A-Z][A-Za-z0-9]*'*", part) else part.lower()


def table():
    declared, definitions, foreign, words = set(), set(LIBRARY), set(), set()
    for path in files(".rt"):
        definitions |= set(re.findall(r"\bfn (\w+)", read(path)))
    for path in files(".antt"):
        text = re.sub(r"--.*", "", read(path))
        # Parts of a path are no names of their own.
        words |= set(WORD.findall(re.sub(r"\b(Rattle[\w.+-]*|tie|code|c|l|goal)\.[\w.+-]*|\.[a-z_][\w'-]*", " ", text)))
        for module, names in re.findall(r"^(?:pub )?use ([^\s{]+)\.\{([^}]*)\}", text, re.M):
            if not os.path.isdir("crates/" + module.split(".")[1] if module.startswith("Rattle.") else ""):
                foreign |= {n.strip() for n in names.split(",")}
        for line in text.split("\n"):
            top = TOP.match(line)
            if top:
                declared.add(top[1])
                if "/specs/" in path:
                    definitions.add(top[1])
            elif INNER.match(line):
                declared.add(INNER.match(line)[1])
    camel = {w for w in words if re.fullmatch(r"[a-z]+[a-z0-9]*[A-Z][A-Za-z0-9']*", w) and not re.match(r"x[0-9A-F]", w)}
    rows = {}
    for old in sorted(declared | camel):
        if old in foreign or old.startswith(("+", "μ")) or re.fullmatch(r"[A-Z][A-Za-z0-9]*'*", old) or "◌" in old:
            continue
        parts = old.split("-")
        new = snake(parts[0])
        for before, part in zip(parts, parts[1:]):
            joined = all(p in definitions or p[0:1].isupper() for p in (before, part))
            new += ("-" if joined else "_") + snake(part)
        if new != old:
            rows[old] = new
    # Of a definition and a lemma that would fall together, the lemma says what it is.
    taken = collections.Counter(rows.values())
    for old, new in rows.items():
        if (taken[new] > 1 or new in words) and "-" in old:
            rows[old] = new + "_lem"
    taken = collections.Counter(rows.values())
    for old, new in rows.items():
        if taken[new] > 1 or new in words and new not in BESIDE:
            print(f"falls together: {old} {new}", file=sys.stderr)
    for old, new in rows.items():
        print(f"{old}\t{new}")


def turn(path):
    rows = dict(line.split("\t") for line in read(path).splitlines())
    # A name of small letters alone with a dash may be prose in comments and papers: there it turns only in code spans.
    for name in [*files(".antt", ".rt", ".edit")]:
        text, out = read(name), []
        turned = text
        if name.endswith(".antt"):
            turned = re.sub(r"(?<![\w.'+-])(" + "|".join(BESIDE) + r")(?![\w.'-])", r"\1_lem", text)
        for line in turned.split("\n"):
            mark = {".antt": "--", ".rt": "//"}.get(os.path.splitext(name)[1])
            code, dash, said = line, "", ""
            if mark and (line.lstrip().startswith(mark) or f" {mark} " in line):
                code, dash, said = line.partition(mark)
            out.append(WORD.sub(lambda m: rows.get(m[0], m[0]), code) + dash + spans(said, rows))
        write(name, text, "\n".join(out))
    for folder in ("docs", "docs/landings"):
        for name in sorted(os.listdir(folder)):
            if name.endswith(".md"):
                text = read(os.path.join(folder, name))
                write(os.path.join(folder, name), text, spans(text, rows))
    write("README.md", read("README.md"), spans(read("README.md"), rows))


def spans(text, rows):
    return re.sub(r"`[^`\n]*`", lambda m: WORD.sub(lambda w: rows.get(w[0], w[0]), m[0]), text)


def write(path, old, new):
    if new != old:
        with open(path, "w", encoding="utf-8") as f:
            f.write(new)


if len(sys.argv) == 2 and sys.argv[1] == "table":
    table()
elif len(sys.argv) == 3 and sys.argv[1] == "turn":
    turn(sys.argv[2])
else:
    sys.exit(__doc__)
