#!/usr/bin/env python3
"""Lists the places in crates/*/src that docs/DESIGN-PASS.md counts, a line each, under the number of their point.

  tools/places.py [POINT..]     from the top of a checkout; each list ends with how many it has
"""
import collections
import glob
import re
import sys

LINES = {
    "1 flag": r"\b(first|later|inline|signed|marked): (bool|u64)\b",
    "1 code": r"\bkind: u\d|\bKind\(u32\)(?=,)|\bwidest: usize|const \w+: bool|fn seeds\(",
    "1 by hand": r"Err\(\w*\) => (return )?(Err|Ok)\(|None => (return )?(Ok\(None\)|None|Err\(|0,|false)|"
                 r"Some\(\w+\) => (Ok\()?(Some|Err)\(|Some\(_\) => None",
    "3 loop": r"^\s*(for|while|loop)\b",
    "4 by hand": r"^impl.*\b(Display|From<|TryFrom|FromStr|PartialEq|Ord|Clone|Drop)\b.* for |"
                 r"-> &'static str|\bfn (number|numbered|of|parse\w*|show_\w+|bytes)\(",
    "6 buffer": r"= \[[^\]]*; \d+\]|: \[\w+; \d+\]|\bdepth\b.*usize|low < high",
    "7 step": r"^\s*(pub(\(\w+\))? )?trait |\bimpl<?.* Test for |\bdyn\b|: fn\(",
}


def sources():
    for path in sorted(glob.glob("crates/*/src/**/*.rt", recursive=True)):
        with open(path, encoding="utf-8") as file:
            yield path, file.read()


def lines(pattern):
    for path, text in sources():
        for number, line in enumerate(text.splitlines(), 1):
            if re.search(pattern, line) and not re.match(r"\s*(//|ghost|requires|ensures)", line):
                yield f"{path}:{number}: {line.strip()}"


def functions(text):
    """Each function with its body: the name, the parameters, the whole text."""
    for match in re.finditer(r"\bfn (\w+)(?:<[^(]*>)?\(((?:[^()]|\([^()]*\))*)\)", text):
        start = match.start()
        end = re.compile(r"^ *\}$|^[^\n]*\) *;$|^[^\n]*\};$", re.M).search(text, match.end())
        yield match.group(1), match.group(2), text[start:end.end() if end else None]


def twins():
    """Functions whose texts are equal once types, numbers and names of types stand for one another."""
    groups = collections.defaultdict(list)
    for path, text in sources():
        for name, _, whole in functions(text):
            body = whole[whole.find("{\n"):] if "{\n" in whole else ""
            body = re.sub(r"\b(u8|u16|u32|u64|usize)\b", "T", body)
            body = re.sub(r"\b(0x[0-9a-f_]+|\d[\d_]*)\b", "N", body)
            body = re.sub(r"_(u8|u16|u32|u64)\b", "_T", body)
            body = re.sub(r"\b[A-Z]\w+\b", "A", body)
            if len(body.split()) > 4:
                groups[body].append(f"{path}: {name}")
    for body, names in sorted(groups.items(), key=lambda g: -len(g[1])):
        if len(names) > 1:
            yield from (f"{len(names)} alike: {name}" for name in names)


def shared(keys, least):
    """What at least so many functions have in common, the commonest first, each with the functions that have it."""
    having = collections.defaultdict(list)
    for path, text in sources():
        for name, parameters, whole in functions(text):
            for key in keys(parameters, whole):
                having[key].append(f"{path}: {name}")
    return [(key, names) for key, names in sorted(having.items(), key=lambda h: -len(h[1])) if len(names) >= least]


def facts(_, whole):
    return re.findall(r"^\s*requires ?\w* ?\{ (.*) \}\s*$", whole.split("\n{", 1)[0], re.M)


def pairs(parameters, _):
    names = re.findall(r"(?:^|[\s(,])(\w+):(?!:)", parameters)
    return [tuple(sorted((one, other))) for i, one in enumerate(names) for other in names[i + 1:]]


def repeated():
    """Facts that three or more functions require."""
    return (f"{fact}: {name}" for fact, names in shared(facts, 3) for name in names)


def together():
    """Parameters by the same two names in five or more functions."""
    return (f"{len(names)} functions: {', '.join(pair)}" for pair, names in shared(pairs, 5))


def main(wanted):
    lists = {name: lambda p=pattern: lines(p) for name, pattern in LINES.items()}
    lists |= {"2 twins": twins, "5 repeated": repeated, "5 together": together}
    for name in sorted(lists):
        if not wanted or name.split()[0] in wanted:
            found = list(lists[name]())
            print(f"## {name}", *found, f"{name}: {len(found)}", "", sep="\n")


main(sys.argv[1:])
