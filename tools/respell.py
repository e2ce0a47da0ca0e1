#!/usr/bin/env python3
"""Brings the names of definitions and lemmas of crates/ to the kit's spelling: snake case, in specs/, proofs/, clauses, must-fail edits and pages.

usage: tools/respell.py [FOLDER]        once, after the kit's port.py

A definition in camel case and a lemma with dashes become words joined by underscores. Where a lemma would then have the name of a definition
it gets `_lem`. Names that begin with a capital (types, facts, and lemmas named after one), names of libraries, of Rust and of what Rattle makes stay.
"""

import glob
import os
import re
import sys

ROOT = sys.argv[1] if len(sys.argv) > 1 else os.path.join(os.path.dirname(os.path.realpath(__file__)), "..")
NAME = r"[^\s(){}.;,@\"«»\[\]|`⟦⟧]+"
DECLARED = re.compile(
    rf"^( *)((?:(?:pub|abbrev|unfoldable) )*)({NAME})((?: {NAME})*?)((?: \{{[^{{}}\n]*\}}| \([^()\n]*\))*) :(?: |$)", re.M
)
USED = re.compile(r"^\s*(?:pub )?(?:ghost )?use ([^\s;{]+)(?:\.\{([^}]*)\}| as \S+)?;?", re.M)

# Lemmas that port.py gave the name of a definition: where such a name stands in proofs/, it is the lemma.
MERGED = "branch_held branch_in cell_in each_goes has_one is_leaf look_at none_of one_more set_all sum_by sum_over value_in".split()
# And names of the library that lemmas would have.
TAKEN = {"bit_and", "bit_or", "nan_bits"}


def read(path):
    with open(path, encoding="utf-8") as f:
        return f.read()


def snake(name):
    return re.sub(r"(?<=[a-z0-9])[A-Z]", lambda m: "_" + m[0].lower(), name).replace("-", "_")


def texts(*endings):
    for folder, dirs, files in os.walk(os.path.join(ROOT, "crates")):
        dirs[:] = sorted(d for d in dirs if d != "out")
        for f in sorted(files):
            if f.endswith(endings):
                yield os.path.join(folder, f)


def is_own(path):
    return path.startswith("Rattle.") and path.split(".")[1] in OWN


OWN = set(os.listdir(os.path.join(ROOT, "crates")))
specs, all_names = set(), set()
for p in texts(".antt"):
    for m in DECLARED.finditer(read(p)):
        all_names.add(m[3])
        if re.search(r"[a-z0-9][A-Z]", m[3]):
            specs.add(m[3])
for p in texts(".antt", ".rt"):
    for it in re.findall(r" as (\w+)", re.sub(r"(?m)(?:^|\s)(?:--|//).*", "", read(p))):
        if re.search(r"[a-z0-9][A-Z]", it):
            all_names.add(it)
            specs.add(it)
names = {it for it in all_names if it[:1].islower() and ("-" in it or re.search(r"[a-z0-9][A-Z]", it))}
definitions = {snake(it) for it in specs if it[:1].islower()} | {it for it in all_names if re.fullmatch(r"[a-z][a-z0-9_']*", it) and "_" in it}
table = {}
for it in sorted(names):
    to = snake(it)
    table[it] = to + "_lem" if "-" in it and to in definitions | TAKEN else to
TOKEN = re.compile(rf"(?<![\w'-])({'|'.join(re.escape(it) for it in sorted(table, key=len, reverse=True))})(?![\w'′-])")
MERGED_TOKEN = re.compile(rf"(?<![\w'.-])({'|'.join(MERGED)})(?![\w'-])(?!\.(?:Statement|Tie|Goals|Given))")


def foreign(text):
    """The names that this file takes from a library."""
    found = set()
    for path, items in USED.findall(text):
        if not is_own(path):
            found.update(re.split(r"[\s,]+", re.sub(r" as \S+", "", items)))
            found.add(path.split(".")[-1])
    return found


def turned(text, path):
    others = foreign(text) if path.endswith((".antt", ".rt")) else set()
    lines = []
    for line in text.split("\n"):
        code, mark, comment = line, "", ""
        if path.endswith(".antt"):
            m = re.search(r"(^|\s)--(\s|$)", line)
            if m:
                code, comment = line[: m.start()], line[m.start() :]
        elif path.endswith(".rt"):
            m = re.search(r"(^|\s)//", line)
            if m:
                code, comment = line[: m.start()], line[m.start() :]
        elif path.endswith(".edit") and line.startswith("#"):
            code, comment = "", line
        elif path.endswith(".md"):
            code, comment = "", line
        if path.endswith(".antt") and "/proofs/" in path:
            code = MERGED_TOKEN.sub(lambda m: m[0] if m[0] in others else m[0] + "_lem", code)
        code = TOKEN.sub(lambda m: m[0] if m[0] in others else table[m[0]], code)
        # In words a name stands between back-ticks, or is in camel case.
        comment = re.sub(r"`[^`]*`", lambda m: TOKEN.sub(lambda n: table[n[0]], m[0]), comment)
        comment = TOKEN.sub(lambda m: m[0] if "-" in m[0] else table[m[0]], comment)
        lines.append(code + comment)
    return "\n".join(lines)


if __name__ == "__main__":
    pages = glob.glob(os.path.join(ROOT, "docs", "*.md")) + [os.path.join(ROOT, "README.md")]
    changed = {p: (read(p), turned(read(p), p)) for p in [*texts(".antt", ".rt", ".edit"), *pages]}
    for p, (before, after) in changed.items():
        # Names that fall together: a new name that this file has already.
        if p.endswith(".antt"):
            have = set(re.findall(rf"(?<![\w'.-])[a-z][\w']*(?![\w'-])", re.sub(r"(?m)(^|\s)--.*", "", before)))
            new = {table[m[1]] for m in TOKEN.finditer(re.sub(r"(?m)(^|\s)--.*", "", before)) if m[1] not in foreign(before)}
            for it in sorted(have & new):
                print(f"look: {os.path.relpath(p, ROOT)}: {it}")
        if before != after:
            with open(p, "w", encoding="utf-8") as f:
                f.write(after)
    print(f"{len(table)} names, {sum(b != a for b, a in changed.values())} files")
