#!/usr/bin/env python3
"""Holds the functions of all crates to limits within which they can be read.

    tests/shape.py      ends with status 1 where a function breaks a limit, and names each

- A clause of a public function, blanks before it included, is no longer than two lines of 120 characters.
- A function, public or not, has no more than six parameters, `self` among them, its body no more than 40 lines, and no
  more than one loop.

What cannot be had otherwise is an exception, with the reason. One that nothing needs any more is an error.
"""

import sys

sys.dont_write_bytecode = True

from source import Crate, crates  # noqa: E402

LONGEST_CLAUSE = 240
MOST_PARAMETERS = 6
MOST_LINES = 40
MOST_LOOPS = 1

# a function and what of it breaks a limit, with the reason: none
EXCEPTIONS = {}


def broken(function):
    """The limits that a function breaks, each by what it breaks and in words."""
    counts = [("parameters", len(function.parameters), MOST_PARAMETERS), ("lines", function.lines, MOST_LINES),
              ("loops", function.loops, MOST_LOOPS)]
    found = [(what, f"{many}, and at most {most}") for what, many, most in counts if many > most]
    for clause in function.clauses:
        if function.public and len(clause.text) > LONGEST_CLAUSE:
            found.append((clause.label, f"{len(clause.text)} characters, and at most {LONGEST_CLAUSE}"))
    return found


def main():
    functions, found, needed = 0, [], set()
    for name in crates():
        for function in Crate(name).functions:
            functions += 1
            for what, words in broken(function):
                place = f"{function.path} {what}"
                if place in EXCEPTIONS:
                    needed.add(place)
                else:
                    found.append(f"{place}: {words}")
    found += [f"{place}: an exception that nothing needs" for place in EXCEPTIONS if place not in needed]
    if found:
        sys.exit("\n".join(found))
    print(f"{functions} functions within the limits, {len(needed)} exceptions")


if __name__ == "__main__":
    main()
