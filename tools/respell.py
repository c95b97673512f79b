#!/usr/bin/env python3
"""Respells the names of definitions and lemmas in specs/ and proofs/, once, after port.py.

A word of a name is in lower case, and words are joined by `_` (`setCell` is `set_cell`, `four-cells` is `four_cells`). Names of types and facts keep
their capitals. In the name of a lemma the first dash stays where it joins two names, as in `length-set_cell`: names are those of definitions, types and the
words of the library in NAMES. Names of the library, of src/, and those that are made from src/ stay as they are. Two names that would fall together
stop the script, before it writes anything.

usage: python3 tools/respell.py    at the top of the repository
"""

import collections
import os
import re
import sys

TOKEN = re.compile(r"[^\s(){}\[\],;.:→×λ`\"«»⌜⌝]+")
DEFINED = re.compile(r"\s*(?:(?:abbrev|unfoldable|pub)\s+)*([^\s(){}\[\],;.:→×λ`\"«»⌜⌝]+)(?:,)? :(?:\s|$)")
# What stands for a camel-case part in today's library, and names that would fall together with others.
PARTS = {"getD": "get_or", "forall₂": "forall₂"}
WHOLE = {
    "are-reads": "reads_only",
    "case-of": "case_of_lem",
    "equal-links": "links_equal",
    "four-way": "four_way_lem",
    "holds-link": "holds_link_lem",
    "no-pool": "no_pool_lem",
    "of-kind": "of_kind_lem",
    "on-cell": "on_cell_lem",
    "on-kind": "on_kind_lem",
    "put-image": "put_image_lem",
    "scan-cells": "scan_cells_lem",
    "scan-registers": "scan_registers_lem",
    "turn_by": "turn_by_lem",
    "twoCells": "image_of_two",
    "visit-of": "visit_of_lem",
    "well-formed": "is_well_formed",
    "no_cell": "no_cell_lem",
    "with_cell": "with_cell_lem",
    "worst-case": "worst_case_behind",
}
LOCAL = ["goesOn", "heldCell", "givingNone", "givingTwo", "isBad"]
NAMES = set(
    "add sub mul div mod pow suc zero one nil cons append length take drop set get_or replicate map reverse elem member filter fold"
    " le lt eq ne leb ltb eqb ge gt min max true false cond ap sym refl subst".split()
)


def snake(part):
    if part in PARTS:
        return PARTS[part]
    if not re.match(r"[a-zα-ω]", part):
        return part
    return re.sub(r"(?<=[a-z0-9₀-₉])([A-Z]+)", lambda m: "_" + m.group(1).lower(), part)


def files(root, endings):
    for folder, dirs, names in os.walk(root):
        dirs[:] = sorted(d for d in dirs if d not in ("out", "target", ".git"))
        for n in sorted(names):
            if n.endswith(endings):
                yield os.path.join(folder, n)


def read(path):
    with open(path, encoding="utf-8") as f:
        return f.read()


def main():
    crates = set(os.listdir("crates"))
    specs, lemmas, library, used = set(), set(), set(), collections.Counter()
    for p in files("crates", ".antt"):
        text = read(p)
        inner = os.path.relpath(p, "crates").split(os.sep)
        kind = None if inner[1] == "proofs" and len(inner) > 3 else inner[1]
        for line in text.split("\n"):
            if line.lstrip().startswith("--"):
                continue
            used.update(TOKEN.findall(line))
            m = DEFINED.match(line)
            if m and kind == "specs":
                specs.add(m.group(1))
            elif m and kind == "proofs":
                lemmas.add(m.group(1))
        for m in re.finditer(r"^use ([^\s{]+)\.\{([^}]*)\}", text, re.M):
            path = m.group(1).split(".")
            if path[0] != "Rattle" or path[1] not in crates:
                library |= {n.strip().split(" as ")[0].strip() for n in m.group(2).split(",")}
    known = NAMES | {snake(n) for n in specs if "-" not in n}

    def lemma(name):
        parts = [snake(x) for x in name.split("-")]
        out = parts[0]
        for k, (a, b) in enumerate(zip(parts, parts[1:])):
            both = k == 0 and (a in known or a[:1].isupper()) and (b in known or b[:1].isupper())
            out += ("-" if both else "_") + b
        return out

    change = {}
    for n in sorted(specs | lemmas | set(LOCAL)):
        if n in library or not re.match(r"[a-zA-Zα-ω]", n) or n.endswith("-spec"):
            continue
        if n in WHOLE:
            to = WHOLE[n]
        elif n in specs and not n[0].isupper():
            to = "_".join(snake(x) for x in n.split("-"))
        else:
            to = lemma(n)
        if to != n:
            change[n] = to
    back = collections.defaultdict(set)
    for n in set(used) | specs | lemmas:
        back[change.get(n, n)].add(n)
    # A definition may have the name of a function, a module or a crate: these stand in paths alone. (`first_run` and `goes_on` are local to files that do not meet.)
    apart = crates | {m for p in files("crates", ".rt") for m in re.findall(r"\b(?:fn|mod) (\w+)", read(p))}
    clash = {k: v for k, v in back.items() if len(v - (apart - specs - lemmas)) > 1 and k not in ("first_run", "goes_on")}
    if "--list" in sys.argv:
        for n in sorted(change):
            print(n, change[n])
    if clash:
        for k in sorted(clash):
            print("falls together:", k, sorted(clash[k]), file=sys.stderr)
        return 1
    if "--list" in sys.argv:
        return 0

    def turn(text):
        return "\n".join(comment(l) if l.lstrip().startswith("--") else TOKEN.sub(lambda m: change.get(m.group(0), m.group(0)), l) for l in text.split("\n"))

    def comment(line):
        """Outside back quotes a word with a dash is English, as in well-formed."""
        parts = re.split(r"(`[^`]*`)", line)
        parts[::2] = [TOKEN.sub(lambda m: m.group(0) if "-" in m.group(0) else change.get(m.group(0), m.group(0)), x) for x in parts[::2]]
        parts[1::2] = [TOKEN.sub(lambda m: change.get(m.group(0), m.group(0)), x) for x in parts[1::2]]
        return "".join(parts)

    def ticks(text):
        return re.sub(r"`[^`\n]*`", lambda m: TOKEN.sub(lambda t: change.get(t.group(0), snake_known(t.group(0))), m.group(0)), text)

    now = set(change.values()) | specs | lemmas

    def snake_known(t):
        return snake(t) if re.match(r"[a-z]+[A-Z]", t) and snake(t) in now else t

    n = 0
    for p in list(files("crates", (".antt", ".rt", ".edit"))) + ["README.md"] + list(files("docs", ".md")):
        text = read(p)
        if p.endswith(".antt"):
            new = turn(text)
        elif p.endswith(".md"):
            new = ticks(text)
        elif p.endswith(".edit"):
            new = "\n".join(l if l.startswith("file:") else TOKEN.sub(lambda t: change.get(t.group(0), snake_known(t.group(0))), l) for l in text.split("\n"))
        else:
            new = "\n".join(turn(l) if re.search(r"^\s*(ghost|requires|ensures)\b", l) else l for l in text.split("\n"))
        if new != text:
            n += 1
            with open(p, "w", encoding="utf-8") as f:
                f.write(new)
    print(f"{len(change)} names respelled in {n} files")
    return 0


if __name__ == "__main__":
    sys.exit(main())
