#!/usr/bin/env python3
"""Plants bugs in the code, one at a time, and notes whether the check refuses each.

    tools/plant.py [--every N] [--start K] [--seconds S] [--list] CRATE..

Every function with a body in crates/CRATE/src is gone through, line by line, and every constant; contracts and ghost
items are left alone. Each N-th place is planted (each 3rd if left out), from number K on (0 if left out), so that the
sample is even over functions and kinds of bugs; N = 1 takes all. --list prints the places and checks nothing. The tree
is copied once, with what was proved of it, each plant is one line of the copy changed, and the function is checked
there; if that is accepted, the whole crate. A check has S seconds at most (300 if left out). A line is printed for
each:

    refused     the check finds a need of the code not met, or a proof of another thing than is now to be shown
    misfit      the check ends without a proof, but says no more than that a proof names what the bug took away, or that
                it does not cover such a form; asked again without that proof, it finds no values at which a need fails
    survived    the check accepts it: a hole in a contract, or a change that nobody can see
    run         a program: the check accepts it, and what the program prints is wrong
    unbuilt     the compiler refuses it, so it shows nothing
    slow        the check had not ended in time, with a goal open that the right code has not
"""

import argparse
import re
import shutil
import subprocess
import tempfile
from pathlib import Path

ROOT = Path(__file__).resolve().parent.parent

# what is written, and what is planted for it; each at each place of a line
EXCHANGES = [
    (r"(?<![<>=!-])<=(?!=)", "<"),
    (r"(?<![<>=!-])>=(?!=)", ">"),
    (r"(?<= )<(?= )", "<="),
    (r"(?<= )>(?= )", ">="),
    (r"(?<= )==(?= )", "!="),
    (r"(?<= )!=(?= )", "=="),
    (r"(?<= )&&(?= )", "||"),
    (r"(?<= )\|\|(?= )", "&&"),
    (r" \+ 1\b", ""),
    (r" - 1\b", ""),
    (r" \+ (?=[a-z(])", " - "),
    (r"\b(\w+\.len\(\))(?!\))", r"\1 + 1"),
    (r"\.min\(", ".max("),
    (r"\.max\(", ".min("),
    (r"\.any\(", ".all("),
    (r"\.all\(", ".any("),
    (r"\btrue\b", "false"),
    (r"\bfalse\b", "true"),
    (r"(?<![\w.])((?:\w+\.)*first)\b(?=[,)]| \{)", r"!\1"),
    (r"\b0(?=[,;)\].])", "1"),
    (r"\bif !(?=\w)", "if "),
    (r"\bif (?=[a-z_.]+\([^=<>&|]*\) \{)", "if !"),
]
NUMBER = re.compile(r"(?<![\w.#'\"])(\d[\d_]*)(?![\w.])")
CALL = re.compile(r"\b(\w+)\(([^()]*)\)")
# errors of a proof that names what is no more, and of what rests on it
BESIDE = re.compile(r"has no field|that can be named from here|w(as|ere) not checked")
FALSE = re.compile(r"allow values at which this goal is false|may be false")
STATEMENT = re.compile(r"\s+[\w.\[\]*]+(\.\w+\(.*\)\??| [-+*|^&]?= .*|\(.*\)\??);")


def cases(text):
    """The enums that a text declares: name to [(case, its shape)]."""
    found = {}
    for enum in re.finditer(r"^ *(?:pub(?:\(crate\))? )?enum (\w+)[^{]*\{\n(.*?)^ *\}", text, re.M | re.S):
        found[enum[1]] = re.findall(r"^ +([A-Z]\w*)(\([^\n]*\)| \{[^\n]*)?,?$", enum[2], re.M)
    return found


def enums():
    """All enums of the repository."""
    found = {}
    for file in sorted((ROOT / "crates").glob("*/src/**/*.rt")):
        found.update(cases(file.read_text()))
    return found


def owner_of(header):
    """What the check calls an impl: by its type, or by its type and trait."""
    header = re.sub(r"<[^<>]*>", "", re.sub(r"<[^<>]*>", "", header))
    parts = re.match(r"impl\s+(?:([\w:]+)\s+for\s+)?&?\s*([\w:]+)", header)
    kind, trait = parts[2].split("::")[-1], (parts[1] or "").split("::")[-1]
    return kind[0].upper() + kind[1:] + trait + "::"


def bodies(text):
    """The lines of function bodies, behind the opening brace, and constants: (function, number from 0, line)."""
    owner, inside, depth, start = "", None, 0, None
    for number, line in enumerate(text.split("\n")):
        code = line.split("//")[0]
        if re.match(r"impl\b", code):
            owner = owner_of(code)
        elif code == "}":
            owner = ""
        name = re.match(r"\s*(?:pub(?:\(crate\))? )?fn (\w+)", code)
        if not inside and name:
            inside, start = owner + name[1], None
        if not inside:
            if re.match(r"\s*(?:pub(?:\(crate\))? )?const \w+:", code):
                yield "", number, line
            continue
        clause = re.match(r"\s*(requires|ensures|ghost|#\[)", code)
        if start is None:
            if not clause and code.rstrip().endswith("{"):
                start, depth = number, 1
            elif code.rstrip().endswith((";", "}")) and not clause:
                inside = None
            continue
        depth += code.count("{") - code.count("}")
        if depth <= 0:
            inside = None
        else:
            yield inside, number, line


def other_cases(code, known):
    """One enum case for another of the same shape, the next of its enum."""
    for place in re.finditer(r"\b(\w+)::([A-Z]\w*)\b", code):
        declared = known.get(place[1], [])
        shapes = dict(declared)
        if place[2] not in shapes:
            continue
        alike = [case for case, shape in declared if shape == shapes[place[2]]]
        other = alike[(alike.index(place[2]) + 1) % len(alike)]
        if other != place[2]:
            yield code[:place.start(2)] + other + code[place.end(2):]


def exchanged_arguments(code):
    """Two neighbouring arguments exchanged; where their types differ, the compiler refuses it."""
    for place in CALL.finditer(code):
        words = [word.strip() for word in place[2].split(",")]
        for k in range(len(words) - 1):
            if words[k] != words[k + 1] and words[k] and words[k + 1]:
                swapped = words[:k] + [words[k + 1], words[k]] + words[k + 2:]
                yield code[:place.start(2)] + ", ".join(swapped) + code[place.end(2):]


def changes(line, known):
    """What can be planted in a line."""
    code = line.split("//")[0].rstrip()
    for wrong, right in EXCHANGES:
        for place in re.finditer(wrong, code):
            yield code[:place.start()] + place.expand(right) + code[place.end():]
    for place in NUMBER.finditer(code):
        value = int(place[1].replace("_", ""))
        if value > 1:
            yield code[:place.start()] + str(value + 1) + code[place.end():]
            yield code[:place.start()] + str(value - 1) + code[place.end():]
    yield from exchanged_arguments(code)
    yield from other_cases(code, known)
    if STATEMENT.fullmatch(code):
        yield ""


def places(crate):
    """(file, function, line number, the line, what is planted) for each that there is."""
    known = enums()
    for file in sorted((ROOT / "crates" / crate / "src").rglob("*.rt")):
        for function, number, line in bodies(file.read_text()):
            for planted in changes(line, known):
                yield file.relative_to(ROOT), function, number, line, planted


def functions(folder):
    """The names by which the check knows the functions of a crate, which it proves first."""
    said = subprocess.run(["rt", "check"], cwd=folder, capture_output=True, text=True).stdout
    if "logic=proved" not in said:
        raise SystemExit(f"{folder.name} is not proved as it stands")
    return re.findall(r"^fn ([\w:]+): proved", said, re.M)


def verdict(said):
    """What the check says of a plant."""
    alone = re.search(r"^only=(\d+) proved=(\d+)", said, re.M)
    if "logic=proved" in said or alone and alone[1] == alone[2]:
        return "survived"
    if re.search(r"error\[", said):
        return "unbuilt"
    if re.search(r"^note: src/\S+ it is not proved that", said, re.M):
        return "refused"
    errors = re.findall(r"^(?:\./)?(?:src|proofs|specs)/\S+:\d+:\d+: error: .*", said, re.M)
    return "refused" if any(not BESIDE.search(error) for error in errors) else "misfit"


def runs_wrong(folder):
    """Whether a program prints something else than it must. Its files lie in data/, so it is run there."""
    subprocess.run(["rt", "run"], cwd=folder, stdin=subprocess.DEVNULL, capture_output=True)  # builds it
    words = (folder / "args").read_text().split() if (folder / "args").exists() else []
    data = folder / "data" if (folder / "data").exists() else folder
    command = [folder / "out" / folder.name, *words]
    with open(folder / "stdin") as told:
        done = subprocess.run(command, cwd=data, stdin=told, capture_output=True, text=True)
    if done.stdout != (folder / "stdout").read_text():
        return True
    commands = folder.parent.parent / "tests" / "commands.py"
    return folder.name == "rowhash" and subprocess.run([commands], capture_output=True).returncode != 0


def checked(folder, seconds, *only):
    """Checks a crate in the copy, or one function of it."""
    try:
        done = subprocess.run(["rt", "check", *only], cwd=folder, capture_output=True, text=True, timeout=seconds)
    except subprocess.TimeoutExpired:
        return "slow", ""
    said = done.stdout + done.stderr
    return verdict(said), said


def check_bare(folder, seconds, said, *only):
    """The same without the answers that do not fit: whether the check finds values at which a need is not met."""
    unfit = re.findall(r"^(?:\./)?(proofs/\S+/Answers\.antt)\S*: error", said, re.M)
    moved = [folder / file for file in sorted(set(unfit))]
    for file in moved:
        file.rename(file.with_suffix(".aside"))
    try:
        found = checked(folder, seconds, *only)[1]
    finally:
        for file in moved:
            file.with_suffix(".aside").rename(file)
    return ("refused" if FALSE.search(found) else "misfit"), said + found


def check(folder, known, function, seconds):
    """Checks the function, then the crate where that is accepted, and then runs it where it is a program."""
    named = [name for name in known if name == function or name.endswith("::" + function)]
    only = ("--only", named[0]) if function and len(named) == 1 else ()
    outcome, said = checked(folder, seconds, *only)
    if only and outcome == "survived":
        outcome, said = checked(folder, 2 * seconds)
    if outcome == "misfit":
        outcome, said = check_bare(folder, seconds, said, *only)
    if outcome == "survived" and (folder / "stdin").exists() and runs_wrong(folder):
        outcome = "run"
    return outcome, said


def plant(copy, crate, known, place, seconds):
    """Plants one bug in the copy, and takes it out again."""
    file, function, number, _, planted = place
    right = (copy / file).read_text()
    lines = right.split("\n")
    lines[number] = planted
    (copy / file).write_text("\n".join(lines))
    try:
        return check(copy / "crates" / crate, known, function, seconds)
    finally:
        (copy / file).write_text(right)


def told(place):
    """A place and what is planted there, on one line."""
    file, function, number, line, planted = place
    return f"{file}:{number + 1} {function}: {line.strip()}  ->  {planted.strip() or '(dropped)'}"


def main():
    parser = argparse.ArgumentParser(description=__doc__, formatter_class=argparse.RawDescriptionHelpFormatter)
    parser.add_argument("--every", type=int, default=3)
    parser.add_argument("--start", type=int, default=0)
    parser.add_argument("--seconds", type=int, default=300)
    parser.add_argument("--list", action="store_true")
    parser.add_argument("--logs", type=Path, help="a folder for what each check says")
    parser.add_argument("crate", nargs="+")
    asked = parser.parse_args()
    with tempfile.TemporaryDirectory() as folder:
        copy = Path(folder) / "tree"
        shutil.copytree(ROOT, copy, ignore=shutil.ignore_patterns(".git"))
        for crate in asked.crate:
            found = list(places(crate))
            known = [] if asked.list else functions(copy / "crates" / crate)
            counts = {}
            taken = found[asked.start::asked.every]
            for k, place in enumerate(taken):
                if asked.list:
                    print(told(place))
                    continue
                outcome, said = plant(copy, crate, known, place, asked.seconds)
                counts[outcome] = counts.get(outcome, 0) + 1
                print(f"{outcome:9} {told(place)}", flush=True)
                if asked.logs:
                    (asked.logs / f"{crate}-{k}.log").write_text(f"{told(place)}\n{said}")
            numbers = ", ".join(f"{count} {outcome}" for outcome, count in sorted(counts.items()))
            print(f"{crate}: {len(taken)} of {len(found)} places planted: {numbers}", flush=True)


if __name__ == "__main__":
    main()
