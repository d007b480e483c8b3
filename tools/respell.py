#!/usr/bin/env python3
"""Brings the names of this repository's definitions and lemmas to today's spelling.

Run once, at the top, after the toolkit's own port.py. A definition or a lemma is in snake case and a
fact in upper camel case; a dash joins two names, as the words of a function do in a lemma's name.
Names that the toolchain makes (goals, steps of a proof) are not declared here and so stay.
With --list it prints what it would rename, and the names that would fall together.
"""
import re
import sys
from pathlib import Path

# Lemmas whose dash joins two names: the functions on the left side of their equation.
JOINED = {
    "fnv1a-append": "fnv1a-append",
    "getD-each": "get_or-each",
    "getD-lent": "get_or-lent",
    "getD-splice-above": "get_or-splice_above",
    "getD-splice-below": "get_or-splice_below",
    "getD-splice-in": "get_or-splice_in",
    "getD-by-place": "get_or-by_place",
    "get_d_part": "get_or-part",
    "length-by-place": "length-by_place",
    "length-each": "length-each",
    "length-le-bytes": "length-le_bytes",
    "length-lent": "length-lent",
    "length-splice": "length-splice",
    "length_part": "length-part",
    "le-bytes-mod": "le_bytes-mod",
    "le-number-le-bytes": "le_number-le_bytes",
    "putMid-splice": "put_mid-splice",
}

# Ghost members and names that an import gives with `as`; `slot_at` is taken by a definition.
OTHERS = {
    "seedWrites": "seed_writes",
    "slotAt": "slot_of",
    "by-Z": "by_z",
    "fold-of": "fold_of",
    "binary-type": "binary_type",
    "view-type": "view_type",
}

MARKS = r"(?:(?:pattern|unfoldable|abbrev|axiom|pub|data|record)\s+)*"
DECLARED = re.compile(r"^\s*" + MARKS + r"([^\s:={}().,;λ]+)(?:\s*\{[^}]*\})?\s+:\s(.*)$")


def files():
    for crate in sorted(Path("crates").iterdir()):
        for path in sorted(crate.rglob("*")):
            if "out" not in path.parts and path.suffix in (".antt", ".rt", ".edit"):
                yield path


def declared():
    names = {}
    for path in files():
        if path.suffix != ".antt":
            continue
        answers = path.name in ("Answers.antt", "Invariants.antt", "Choices.antt", "Proof.antt")
        for line in path.read_text().split("\n"):
            found = DECLARED.match(line)
            if not found or line.lstrip().startswith(("use ", "--")):
                continue
            name, kind = found.groups()
            if answers and (line.startswith(("pub ", "abbrev pub ", " ")) or kind.startswith("goal.")):
                continue
            names.setdefault(name, str(path))
    return names


def respelled(name):
    if name in JOINED:
        return JOINED[name]
    if "-" not in name:
        return name
    if name[0].isupper() and len(name.split("-")[0]) > 1:
        return "".join(word[0].upper() + word[1:] for word in name.split("-"))
    return name.replace("-", "_")


def replaced(text, table):
    for old in sorted(table, key=len, reverse=True):
        text = re.sub(r"(?<![\w'·◌«-])" + re.escape(old) + r"(?![\w'◌»]|-\w)", table[old], text)
    return text


def main():
    names = declared()
    table = {n: respelled(n) for n in names if respelled(n) != n} | OTHERS
    if "--list" in sys.argv:
        rust = set()
        for path in files():
            if path.suffix == ".rt":
                rust |= set(re.findall(r"[A-Za-z_]\w*", re.sub(r"ghost use .*", "", path.read_text())))
        for old, new in sorted(table.items()):
            clash = " FALLS ON " + names[new] if new in names else ""
            clash += " IN SRC" if new in rust else ""
            print(old, "->", new, names.get(old, ""), clash)
        return
    for path in files():
        text = path.read_text()
        if replaced(text, table) != text:
            path.write_text(replaced(text, table))
    # In the pages a name stands between backticks.
    for path in [Path("README.md"), *sorted(Path("docs").glob("*.md"))]:
        text = path.read_text()
        new = re.sub(r"`[^`\n]+`", lambda quoted: replaced(quoted.group(), table), text)
        if new != text:
            path.write_text(new)


main()
