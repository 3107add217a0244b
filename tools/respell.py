#!/usr/bin/env python3
"""Brings the names of definitions and lemmas to today's spelling, after port.py: words in snake case, types in camel case, no middle dot.

usage: python3 tools/respell.py [FOLDER]     rewrites every .rt, .antt and .edit file below FOLDER/crates in place

Names of src/ (functions, fields, variants, constants), exported names, strings, inputs and outputs keep their spelling. Names that
fall together in a file are printed.
"""

import os
import re
import sys

ROOT = sys.argv[1] if len(sys.argv) > 1 else "."
WORD = re.compile(r"[A-Za-z_μ+][A-Za-z0-9_'₀-₉-]*(?:·[A-Za-z0-9_]+)*")
DECLARED = re.compile(r"\s*(?:(?:abbrev|unfoldable|pub|data|record|mutual)\s+)*([^\s(){}\[\];,.«»:λ→×=]+)(?:\s+\([^)]*\)|\s+\{[^}]*\})*\s*:\s")
HEAD = re.compile(r"\s*(?:pub\s+)?(?:data|record|module)\s+(?:pub\s+)?([^\s(){}\[\];,.«»:λ→×=]+)")
CAMEL = re.compile(r"(^|-)[a-z][A-Za-z0-9_]*[a-z0-9][A-Z]")
# the length of a file's marks and text, and the mean of a theorem's number: the capital is a type's
KEPT = {"len-M", "len-T", "mean-of-P5"}
# a list's element or a word, which the library calls so today
OTHER = {
    "getD-each": "get_or-each",
    "getD-from": "get_or-from",
    "getD-map-in": "get_or-map-in",
    "floor-2·75": "floor-2_75",
    # theorems beside a type of the same words
    "Row-form": "RowFormHolds",
    "Whole-form": "WholeFormHolds",
    "Row-calls": "RowCallsHold",
    "Tile-calls": "TileCallsHold",
    # definitions, and so in snake case whole
    "second-cut": "second_cut",
    "minus-zero": "minus_zero",
    "minus-large": "minus_large",
    "minus-two": "minus_two",
}
# a lemma that would have its definition's name
LEMMAS = {
    "fix_fills/proofs/Order.antt": ["in_place"],
    "law_promises/proofs/Answers.antt": ["ran_on"],
    "law_promises/proofs/Preview.antt": ["row_out", "row_read"],
    "law_rows/proofs/Rows.antt": ["row_put"],
    "law_wholes/proofs/Repairs.antt": ["in_window"],
    "law_wholes/proofs/Theorem.antt": ["at_one"],
    "row_vignette/proofs/Pixels.antt": ["raised_by"],
    "row_vignette/proofs/Vignetted.antt": ["whole_in"],
}


def snake(name):
    return re.sub(r"([a-z0-9])([A-Z])", lambda m: m[1] + "_" + m[2].lower(), name)


def camel(name):
    return "".join(part[0].upper() + part[1:] for part in re.split("[-·]", name))


def files(kinds):
    for folder, dirs, names in os.walk(os.path.join(ROOT, "crates")):
        dirs[:] = sorted(d for d in dirs if d not in ("out", ".git"))
        for name in sorted(names):
            if name.endswith(kinds):
                yield os.path.join(folder, name)


def read(path):
    with open(path, encoding="utf-8") as f:
        return f.read()


def table():
    declared = set()
    for path in files(".antt"):
        for line in read(path).split("\n"):
            for form in (DECLARED, HEAD):
                m = form.match(line)
                if m:
                    declared.add(m[1])
    to = {}
    for name in declared - KEPT:
        if name in OTHER:
            to[name] = OTHER[name]
        elif CAMEL.search(name):
            to[name] = snake(name)
        elif name[0].isupper() and ("-" in name or "·" in name):
            to[name] = camel(name)
    return to


def words(path):
    text = read(path)
    if path.endswith(".antt"):
        text = re.sub(r"(?m)^--.*|\s--\s.*", "", text)
    if path.endswith(".rt"):
        text = re.sub(r"//.*", "", text)
    return set(WORD.findall(text))


def main():
    to = table()
    used = {path: words(path) for path in files((".rt", ".antt"))}
    everywhere = set().union(*used.values())
    new = {}
    for name, other in sorted(to.items()):
        new.setdefault(other, []).append(name)
    clash = [(o, ns) for o, ns in new.items() if len(ns) > 1 or o in everywhere]
    for other, names in clash:
        where = [p for p, ws in used.items() if other in ws or len(ws & set(names)) > 1]
        both = [p for p in where if used[p] & set(names)]
        if both:
            print(f"look: {', '.join(names)} and {other} stand together in {' '.join(both)}")
    count = 0
    for path in files((".rt", ".antt", ".edit")):
        text = read(path)
        lemmas = LEMMAS.get(os.path.relpath(path, os.path.join(ROOT, "crates")), [])
        turned = WORD.sub(lambda m: m[0] + "_lem" if m[0] in lemmas else m[0], text)
        turned = WORD.sub(lambda m: to.get(m[0], m[0]), turned)
        if turned != text:
            count += 1
            with open(path, "w", encoding="utf-8") as f:
                f.write(turned)
    print(f"respell: {len(to)} names in {count} files")


if __name__ == "__main__":
    main()
