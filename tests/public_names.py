#!/usr/bin/env python3
"""Compares the public names of each library with those of tests/public_names.txt.

    tests/public_names.py            ends with status 1 where one is new or gone
    tests/public_names.py --write    writes the list

A contract says what a function does, and none says which functions there are. What else a crate would let others do,
to copy a run or to make one of any rows, is a name more: a function, a field that was private, a derive, an impl of a
trait. So whoever adds one has to put it into the list, where it is read.

Listed is all that is declared `pub` in a crate's src/, with the fields of types, the cases with what they hold, the
functions of types and traits, what `pub use` gives, the traits that public types have, derived or written out, and the
ghost fields, which say what every value of a type keeps. Programs have no users of their names.
"""

import difflib
import sys
from pathlib import Path

sys.dont_write_bytecode = True

from source import Crate, crates  # noqa: E402

FILE = Path(__file__).resolve().parent / "public_names.txt"


def public_names():
    """A line for each name, by crate in their order."""
    lines = []
    for name in crates():
        crate = Crate(name)
        if not crate.is_program:
            lines += sorted({f"{item.path}  {item.what}" for item in crate.items if item.public})
    return lines


def main():
    found = public_names()
    match sys.argv[1:]:
        case ["--write"]:
            FILE.write_text("\n".join(found) + "\n")
        case []:
            listed = FILE.read_text().splitlines()
            changes = [line for line in difflib.unified_diff(listed, found, lineterm="", n=0)
                       if line[0] in "+-" and not line.startswith(("+++", "---"))]
            if changes:
                sys.exit("\n".join(["public names that are not listed (+), or are listed and gone (-):", *changes]))
        case _:
            sys.exit("usage: public_names.py [--write]")
    print(f"{len(found)} public names, each listed")


if __name__ == "__main__":
    main()
