#!/usr/bin/env python3
"""Brings the definitions and lemmas of specs/ and proofs/ to snake case, in every crate and page. Run once, after the kit's port.py.

usage: respell.py [--list]     at the top of the repository; --list writes the table and changes nothing

A name in camel case turns where an .antt file of a crate declares it and it begins with a small letter: wordNumber becomes
word_number. A definition, a field or a constructor of specs/ with a dash turns too: the-rule becomes the_rule. A lemma of proofs/
keeps its dashes, which join names. A name turns as a whole word, in .antt and .rt files, in must-fail edits and in the pages.
Functions, types and exported names of src/ have no such spelling.
"""
import os
import re
import sys

WORD = r"(?<![\w'₀-₉-]){}(?![\w'₀-₉])"
DECLARED = re.compile(r"(?m)^\s*(?:(?:unfoldable|abbrev)\s+)?(?:pub\s+)?([a-z][\w'₀-₉-]*)(?=\s*(?::|\{[^}]*\}\s*:|\([^)]*\)\s*:))")
DASHED = re.compile(r"(?m)^\s*(?:(?:unfoldable|abbrev)\s+)?(?:pub\s+)?([a-z][\w'₀-₉]*-[\w'₀-₉-]*)(?=\s*(?::|\())")
# Names whose plain spelling would be that of another name in one of their files.
FALL_TOGETHER = {
    "check-line": "checked_line",
    "input-line": "inputs_line",
    "headRead": "read_of_head",
    "endingOf": "ending_answer",
    "itemsAs": "items_ended",
    "keptOf": "kept_numbers",
}
# Constructors that share a line, and names that a `use` line gives.
SHARED = re.compile(r"(?m)^ +((?:[a-z][\w'₀-₉]* )+): ")
GIVEN = re.compile(r"(?m) as ([a-z][\w'₀-₉]*)")
BOUND = re.compile(r"(?m)^\s*(?:let|λ|module _)?.*?(?:let |λ \(?|\()([a-z]\w*[A-Z]\w*)(?= (?:=|:)|\.)")


def files(kinds):
    for top in ("crates", "docs", "README.md", "bindings", "bench"):
        if os.path.isfile(top):
            yield top
        for folder, dirs, names in os.walk(top):
            dirs[:] = sorted(d for d in dirs if d not in ("out", "target"))
            for n in sorted(names):
                if n.endswith(kinds):
                    yield os.path.join(folder, n)


def read(path):
    with open(path, encoding="utf-8") as f:
        return f.read()


def snake(name):
    """wordNumber -> word_number; le32At -> le32_at; namesN -> names_n; a part behind a dash that is a type keeps its capital."""
    parts = name.split("-")
    return "-".join(p if p[:1].isupper() else re.sub(r"(?<=[a-z0-9])([A-Z])", lambda m: "_" + m.group(1).lower(), p) for p in parts)


def table():
    rows = {}
    for p in files((".antt",)):
        shared = [n for line in SHARED.findall(read(p)) for n in line.split()]
        for n in DECLARED.findall(read(p)) + BOUND.findall(read(p)) + shared + GIVEN.findall(read(p)):
            if re.match(r"(?:returns|goal|loop|overflow|bounds|slice_bounds)\b", n):
                continue
            if snake(n) != n:
                rows.setdefault(n, FALL_TOGETHER.get(n) or snake(n))
        if "/specs/" in p:
            for n in DASHED.findall(read(p)):
                rows[n] = FALL_TOGETHER.get(n) or snake(n).replace("-", "_")
    return rows


def main():
    rows = table()
    if "--list" in sys.argv:
        words = {}
        for p in files((".antt", ".rt")):
            for w in re.findall(r"[a-z]\w*", read(p)):
                words.setdefault(w, set()).add(p)
        for old, new in rows.items():
            there = sorted(words.get(new, ()))
            print(old, new, ("AND " + " ".join(there)[:400]) if there else "")
        return
    pattern = re.compile(r"(?<![\w'₀-₉-])(" + "|".join(re.escape(n) for n in sorted(rows, key=len, reverse=True)) + r")(?![\w'₀-₉-])")
    turned = 0
    for p in files((".antt", ".rt", ".edit", ".md")):
        old = read(p)
        new = pattern.sub(lambda m: rows[m.group(1)], old)
        if new != old:
            turned += 1
            with open(p, "w", encoding="utf-8") as f:
                f.write(new)
    print(f"respell: {len(rows)} names, {turned} files")


main()
