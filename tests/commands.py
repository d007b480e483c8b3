#!/usr/bin/env python3
"""Types commands of rowhash, and compares every line that they print, on both streams, and how they end.

    tests/commands.py [PROGRAM]      (./rowhash if none is given)

What `show` has to print of the example is what tools/make_example.py says of it, and the numbers of `hash` are those
of tests/model.py over the slots that these descriptions mean, with the rows of other nodes put in. The names of types,
refusals and errors are written here, the help in tests/help.txt, and some answers of `replay` in the documents. It ends
with status 1 where a command does otherwise.
"""

import os
import re
import subprocess
import sys
import tempfile
from pathlib import Path

ROOT = Path(__file__).resolve().parent.parent
sys.path[:0] = [str(ROOT / "tools"), str(ROOT / "tests")]
sys.dont_write_bytecode = True

import make_example  # noqa: E402
from images import (  # noqa: E402
    BINARY, BOOLEAN, DICTIONARY, FIXED_SIZE_BINARY, FIXED_SIZE_LIST, FLOAT, LIST,
    LIST_VIEW, MAP, NULL, NUMBER, RUN_END, STRUCT, UTF8, VIEW,
    Builder, children, head, image, little, long_view, offsets, pairs, record, short_view,
)
from model import (  # noqa: E402
    STANDARD, Binary, Boolean, Float, Fnv1a, Map, Nothing, Null, Number, Refer, Sequence, SipHash24, Struct, Text, View,
    number,
)

PROGRAM = sys.argv[1] if len(sys.argv) > 1 else ROOT / "rowhash"
EXAMPLE = ROOT / "examples" / "passes.img"
README = (ROOT / "README.md").read_text()
HELP = (ROOT / "tests" / "help.txt").read_text()
STATES = {(): STANDARD, ("--state", "fnv1a"): STANDARD, ("--state", "fnv1a:7"): Fnv1a(7),
          ("--state", "siphash:1:0xffffffffffffffff"): SipHash24(1, 2**64 - 1)}
MOST_ROWS = 1_048_576

# the name of each type, by its kind and P
TYPES = {
    (NULL, 0): "Null", (BOOLEAN, 0): "Boolean",
    (NUMBER, 1): "Number(1 byte)", (NUMBER, 2): "Number(2 bytes)",
    (NUMBER, 4): "Number(4 bytes)", (NUMBER, 8): "Number(8 bytes)",
    (FLOAT, 2): "Float(2 bytes)", (FLOAT, 4): "Float(4 bytes)", (FLOAT, 8): "Float(8 bytes)",
    (UTF8, 4): "Utf8", (UTF8, 8): "LargeUtf8", (BINARY, 4): "Binary", (BINARY, 8): "LargeBinary",
    (FIXED_SIZE_BINARY, 0): "FixedSizeBinary(0)", (FIXED_SIZE_BINARY, 4): "FixedSizeBinary(4)", (VIEW, 0): "View",
    (DICTIONARY, 1): "Dictionary(1 byte)", (DICTIONARY, 2): "Dictionary(2 bytes)",
    (DICTIONARY, 4): "Dictionary(4 bytes)", (DICTIONARY, 8): "Dictionary(8 bytes)",
    (STRUCT, 0): "Struct", (LIST, 4): "List", (LIST, 8): "LargeList",
    (LIST_VIEW, 4): "ListView", (LIST_VIEW, 8): "LargeListView", (MAP, 0): "Map",
    (FIXED_SIZE_LIST, 2): "FixedSizeList(2)", (FIXED_SIZE_LIST, 65_535): "FixedSizeList(65535)",
    (RUN_END, 2): "RunEndEncoded(2 bytes)", (RUN_END, 4): "RunEndEncoded(4 bytes)", (RUN_END, 8): "RunEndEncoded(8 bytes)",
}
typed = 0


def expect(arguments, status, printed, error="", asked=b""):
    """Ends the script where a command prints other lines or another error, or ends otherwise."""
    global typed
    typed += 1
    words = [str(word) for word in arguments]
    done = subprocess.run([PROGRAM, *words], input=asked, capture_output=True)
    found = done.returncode, done.stdout.decode(), done.stderr.decode()
    wanted = status, "".join(f"{line}\n" for line in printed), f"rowhash: {error}\n" if error else ""
    for what, got, right in zip(("status", "output", "error"), found, wanted):
        if got != right:
            sys.exit(f"rowhash {' '.join(words)}: its {what} is\n{got}\nand ought to be\n{right}")


def in_readme(lines):
    """Ends the script where the README does not show the lines as they are."""
    for line in lines:
        if f"\n    {line}\n" not in README:
            sys.exit(f"the README does not show {line!r}")


def rows_named(meaning):
    """The rows of which a meaning speaks: one, from one to another, or none."""
    span = re.match(r"rows (\d+) to (\d+) of", meaning)
    row = re.match(r"row (\d+) of", meaning)
    return range(int(span[1]), int(span[2]) + 1) if span else [int(row[1])] if row else []


def slot(node, row):
    """What a row of the example is, with the rows that it refers to."""
    described = make_example.described[node]
    answer, meaning = described.slots[row]
    name, *words = answer.split()
    match name:
        case "null":
            return Null()
        case "boolean":
            return Boolean(words == ["true"])
        case "number":
            return Number(int(words[0]), int(words[1]))
        case "float":
            return Float(int(words[0]), int(words[1], 16))
        case "text" | "binary" | "view":
            data = bytes.fromhex("".join(words[1:]))
            return {"text": Text, "binary": Binary, "view": View}[name](data)
    below = [[slot(child, at) for child in described.children] for at in rows_named(meaning)]
    match described.kind:
        case 1:
            return Nothing()
        case 10 | 16:
            return Refer(below[0][0])
        case 11:
            return Struct(tuple(below[0]))
        case 14:
            return Map(tuple(map(tuple, below)))
    return Sequence(tuple(fields[0] for fields in below))


def numbers(state, nodes):
    """The number of each row over nodes."""
    words = [0] * len(make_example.described[nodes[0]].slots)
    for index, node in enumerate(nodes):
        words = [number(state, index == 0, word, slot(node, row)) for row, word in enumerate(words)]
    return [f"{word:016x}" for word in words]


def try_hash():
    """Each column by itself, all of them in turn and back, under each state."""
    columns = list(make_example.columns)
    count = len(make_example.described)
    for chosen, state in STATES.items():
        expect(["hash", EXAMPLE, *chosen], 0, numbers(state, [0]))
        expect(["hash", *chosen, EXAMPLE, 1, 2], 0, numbers(state, [1, 2]))
        for nodes in [[node] for node in range(count)] + [columns, columns[::-1], [1, 1, 1]]:
            expect(["hash", EXAMPLE, *nodes, *chosen], 0, numbers(state, nodes))
    in_readme(numbers(STANDARD, [1, 2])[:2])
    for words, refusal, reason in [
            ([count], 13, f"node {count}: refused 13: the image has no such node"),
            ([1, 2**64 - 1], 13, f"node {2**64 - 1}: refused 13: the image has no such node"),
            ([1, 0], 14, "node 0: refused 14: it has not as many rows as the first column"),
            ([1] * 256, 12, "node 1: refused 12: 255 columns are hashed already")]:
        expect(["hash", EXAMPLE, *words], 1, [f"refused {refusal}"], f"{EXAMPLE}: {reason}")


def node_line(node, type_name, rows, start, nulls, below=()):
    """A node's line: number, type, rows, START, how many rows are marked null, children."""
    line = f"{node:>3}  {type_name:<23}  rows {rows:<7}  start {start:<7}  nulls {nulls}"
    return line + "".join(["  children", *(f" {child}" for child in below)] if below else [])


def row_line(row, shown):
    """A row's line."""
    return f"{row:>7}  {shown}"


def shown(answer, meaning, type_name):
    """A slot for a person, from what `replay` answers and what the description says of it."""
    name, *words = answer.split()
    match name:
        case "number":
            width, value = map(int, words)
            signed = f" (signed: {value - 256**width})" if value >= 256**width // 2 else ""
            return f"number {value}{signed}"
        case "float":
            return f"float 0x{words[1]}"
        case "text" | "view":
            quoted = meaning.replace("\\", "\\\\").replace('"', '\\"')
            return f'{name} {words[0]} "{quoted}"'
        case "kind":
            return type_name
    return answer


def try_show():
    """A line for each node, and for each row of a node."""
    nodes = sorted(make_example.described.items())
    title = f"bytes {len(EXAMPLE.read_bytes())}, nodes {len(nodes)}"
    listed = []
    for node, it in nodes:
        type_name = TYPES[it.kind, it.p]
        nulls = sum(answer == "null" for answer, _ in it.slots)
        listed.append(node_line(node, type_name, len(it.slots), it.start, nulls, it.children))
        rows = [row_line(row, shown(*slot, type_name)) for row, slot in enumerate(it.slots)]
        expect(["show", EXAMPLE, node], 0, [f"{EXAMPLE}: {title}", *rows])
        if node == 1:
            in_readme([rows[2], rows[3], rows[6]])
    expect(["show", EXAMPLE], 0, [f"{EXAMPLE}: {title}", *listed])
    in_readme([f"examples/passes.img: {title}", *listed[:8]])
    if f"\n({len(nodes)} lines for the nodes in all.)" not in README:
        sys.exit(f"the README does not say that there are {len(nodes)} lines")
    for node in (len(nodes), 2**64 - 1):
        expect(["show", EXAMPLE, node], 1, [], f"{EXAMPLE}: no node {node}: the image has {len(nodes)}, counted from 0")


def try_types(folder):
    """A node of one row for each type; two nodes of the Null type below them, one of them as long as may be."""
    made = Builder(len(TYPES) + 2)
    long, short = len(TYPES), len(TYPES) + 1
    zeros, end = made.put(bytes(16)), made.put(little(8, 1))
    tables = {kind: made.put(children(*below)) for kind, below in {RUN_END: [short], MAP: [long, short]}.items()}
    lines = []
    for node, ((kind, p), type_name) in enumerate(TYPES.items()):
        below = {RUN_END: [short], MAP: [long, short]}.get(kind, [long] if kind >= DICTIONARY else [])
        table = tables.get(kind) or made.put(children(*below))
        a = end if kind == RUN_END else zeros
        b = 0 if kind == DICTIONARY else zeros
        made.record(node, kind, rows=1, a=a, b=b, p=p, tab=table, cnt=len(below))
        lines.append(node_line(node, type_name, 1, 0, 0, below))
    made.record(long, NULL, rows=MOST_ROWS, start=MOST_ROWS)
    made.record(short, NULL, rows=1)
    lines += [node_line(long, "Null", MOST_ROWS, MOST_ROWS, 0), node_line(short, "Null", 1, 0, 0)]
    file = folder / "types.img"
    file.write_bytes(made.image())
    title = f"{file}: bytes {len(made.image())}, nodes {len(lines)}"
    expect(["show", file], 0, [title, *lines])
    for node, ((kind, p), type_name) in enumerate(TYPES.items()):
        # the bytes of a view begin behind its length
        slots = {BOOLEAN: "boolean false", NUMBER: "number 0", FLOAT: "float 0x" + "00" * p, UTF8: f'text {zeros} ""',
                 BINARY: f"binary {zeros}", FIXED_SIZE_BINARY: f"binary {zeros} {bytes(p).hex()}".rstrip(),
                 VIEW: f'view {zeros + 4} ""'}
        expect(["show", file, node], 0, [title, row_line(0, slots.get(kind, type_name))])
    file.write_bytes(image([record(NULL)] * 256))
    lines = [node_line(node, "Null", 0, 0, 0) for node in range(256)]
    expect(["show", file], 0, [f"{file}: bytes {4 + 36 * 256}, nodes 256", *lines])


def try_numbers(folder):
    """Numbers at the sign bit of each width, and 0."""
    file = folder / "numbers.img"
    for width in (1, 2, 4, 8):
        sign = 256**width // 2
        built = image([record(NUMBER, 4, a=40, p=width)], little(width, 0, sign - 1, sign, -1))
        file.write_bytes(built)
        slots = ["number 0", f"number {sign - 1}",
                 f"number {sign} (signed: -{sign})", f"number {2 * sign - 1} (signed: -1)"]
        rows = [row_line(row, slot) for row, slot in enumerate(slots)]
        expect(["show", file, 0], 0, [f"{file}: bytes {len(built)}, nodes 1", *rows])


# texts, and how a person is shown them: controls, and bytes that are no UTF-8, as \x and two digits each
QUOTED = [
    (b"", '""'), (b"NOAA 19", '"NOAA 19"'), (b'say "go"', r'"say \"go\""'), (b"C:\\rec", r'"C:\\rec"'),
    (b"a\tb\nc\rd\0", r'"a\x09b\x0ac\x0dd\x00"'), (b"\x1f \x7e\x7f", r'"\x1f ~\x7f"'), (b"7\xc2\xb0", '"7°"'),
    (b"\xc2\x80\xc2\x9f\xc2\xa0", '"\\xc2\\x80\\xc2\\x9f\u00a0"'), (b"\xe2\x82\xac \xf0\x9f\x9b\xb0", '"€ \U0001f6f0"'),
    (b"\xff\xfe", r'"\xff\xfe"'), (b'\xffno "UTF-8"\\\n~', r'"\xffno \"UTF-8\"\\\x0a~"'), (b"cut \xe2\x82", r'"cut \xe2\x82"'),
]


def try_texts(folder):
    """Texts and views with quotes, controls and bytes that are no UTF-8."""
    raw = [text for text, _ in QUOTED]
    at = 76 + 4 * (len(raw) + 1)  # the text's bytes, behind two records and the offsets
    views = b"".join(short_view(text) if len(text) <= 12 else long_view(len(text), text[:4], 0, where)
                     for text, where in zip(raw, starts(raw)))
    far = at + len(b"".join(raw))
    table = far + len(views)
    built = image([record(UTF8, len(raw), a=76, b=at, p=4), record(VIEW, len(raw), a=far, tab=table, cnt=1)],
                  offsets(4, raw), b"".join(raw), views, pairs((at, far - at)))
    file = folder / "texts.img"
    file.write_bytes(built)
    title = f"{file}: bytes {len(built)}, nodes 2"
    rows = [row_line(row, f"text {at + where} {quoted}") for row, ((_, quoted), where) in enumerate(zip(QUOTED, starts(raw)))]
    expect(["show", file, 0], 0, [title, *rows])
    places = [far + 16 * row + 4 if len(text) <= 12 else at + where
              for row, (text, where) in enumerate(zip(raw, starts(raw)))]
    rows = [row_line(row, f"view {place} {quoted}") for row, ((_, quoted), place) in enumerate(zip(QUOTED, places))]
    expect(["show", file, 1], 0, [title, *rows])


def starts(parts):
    """Where each part begins, of parts that lie end to end."""
    return [sum(map(len, parts[:index])) for index in range(len(parts))]


def refused_images():
    """A small image for each refusal, with the node that it is told of and what is said of it."""
    tables = head(17)
    chain = [record(STRUCT, tab=tables + 4 * n, cnt=1 if n < 16 else 0) for n in range(17)]
    return [
        (b"", 0, "it is too short or too long for an image, or has no node or more than 256"),
        (image([record(5)]), 0, "there is no such column type, or not with such a width"),
        (image([record(NULL, 1_048_577)]), 0, "it has more than 1048576 rows, or starts after more than 1048576"),
        (image([record(STRUCT, tab=40, cnt=256)]), 0,
         "the number of its children or data buffers is not allowed, or their list is not wholly inside the image"),
        (image([record(STRUCT, tab=40, cnt=1)], children(0)), 0, "a child is not a later node of the image"),
        (image(chain, children(*range(1, 17))), 0, "more than 16 levels of nodes stand on each other"),
        (image([record(NUMBER, 1, a=40, p=1)]), 0, "a buffer is not wholly inside the image"),
        (image([record(NULL), record(BINARY, 1, a=76, b=76, p=4)], little(4, 1, 0)), 1,
         "an offset is negative or below the one before it, or run ends do not rise from above 0"),
        (image([record(NULL), record(BINARY, 1, a=76, b=76, p=4)], little(4, 0, 99)), 1,
         "a row reaches a child row or a byte that is not there"),
        (image([record(VIEW, 1, a=40, tab=40)], little(4, 1) + b"a\x01".ljust(12, b"\0")), 0,
         "a view's padding is not zero, or its prefix is not how its bytes begin"),
    ]


def try_refused(folder):
    """Files that are no images, or none at all."""
    file = folder / "file.img"
    for refusal, (built, node, reason) in enumerate(refused_images(), 1):
        file.write_bytes(built)
        error = f"{file}: refused {refusal} at node {node}: {reason}"
        expect(["hash", file], 1, [f"refused {refusal} {node}"], error)
        expect(["show", file], 1, [], error)
        expect(["show", file, 0], 1, [], error)
    for name in ("hash", "show"):
        none = folder / "none.img"
        expect([name, none], 1, [], f"{none}: cannot be read: No such file or directory (os error 2)")
        expect([name, folder], 1, [], f"{folder}: cannot be read: Is a directory (os error 21)")


def try_words():
    """Words that are no commands, and the help."""
    for words, error in [
            ([], f"no command is given\n{HELP.rstrip()}"),
            (["count", EXAMPLE], "count: no such command (rowhash help lists them)"),
            (["hash"], "no file is given"), (["show"], "no file is given"), (["hash", "--state", "fnv1a"], "no file is given"),
            (["hash", EXAMPLE, "x"], "x: not the number of a node"), (["show", EXAMPLE, "x"], "x: not the number of a node"),
            (["hash", EXAMPLE, 1, -1], "-1: not the number of a node"),
            (["hash", EXAMPLE, 2**64], f"{2**64}: not the number of a node"),
            (["hash", EXAMPLE, "--state"], "--state: no hash state is given"),
            *((["hash", "--state", state, EXAMPLE], f"{state}: no such hash state (fnv1a, fnv1a:START or siphash:K0:K1)")
              for state in ("md5", "", "fnv1a:", "fnv1a:x", "siphash", "siphash:1", "siphash:1:2:3", f"fnv1a:{2**64}")),
            (["show", EXAMPLE, 1, 2], "2: one argument too many"), (["replay", "x"], "x: one argument too many"),
            (["help", "x"], "x: one argument too many"), (["--version", "x"], "x: one argument too many")]:
        expect(words, 1, [], error)
    # lines that are no text, and a last line without an end
    expect(["replay"], 0, ["not understood", "not understood", "refused 13"], asked=b"\xff\nslot \xc3\x28 0\nslot 0 0")
    for word in ("help", "--help", "-h"):
        expect([word], 0, HELP.splitlines())
    expect(["--version"], 0, ["rowhash 0.1.0"])


def try_examples(folder):
    """The commands of which the help says that they are examples, as a shell runs them."""
    (folder / "rowhash").symlink_to(Path(PROGRAM).resolve())
    path = {**os.environ, "PATH": f"{folder}:{os.environ['PATH']}"}
    examples = [line.strip() for line in HELP.partition("Example:")[2].splitlines() if line.strip()]
    begun = number(STANDARD, True, 0, slot(1, 3))
    answers = [None, numbers(SipHash24(1, 2), [1, 2]),
               [f"admitted {len(make_example.described)}", make_example.described[1].slots[0][0]],
               [f"admitted {len(make_example.described)}", "accepted", "accepted", f"{begun:016x} 1"]]
    for line, answer in zip(examples, answers, strict=True):
        done = subprocess.run(line, shell=True, env=path, cwd=ROOT, capture_output=True, text=True)
        if done.returncode or done.stderr or answer not in (None, done.stdout.splitlines()):
            sys.exit(f"the example {line!r} of the help ends with {done.returncode}: {done.stderr}{done.stdout}")


def blocks(document, after):
    """The lines of each indented block behind some words of a document."""
    text = (ROOT / "docs" / document).read_text().partition(after)[2]
    return [[line.strip() for line in block.splitlines()] for block in re.findall(r"(?m)(?:^    .*\n)+", text)]


def try_documents():
    """What the documents answer by hand to commands of replay."""
    asked, answers = blocks("FORMAT.md", "The same image, given as text to `rowhash replay`:")[:2]
    expect(["replay"], 0, answers, asked="\n".join(asked).encode())
    pairs = [re.split(r"  +", line) for line in blocks("RUNS.md", "An example: two rows over a column of the bytes 1 and 2")[0]]
    expect(["replay"], 0, [answer for _, answer in pairs], asked="\n".join(command for command, _ in pairs).encode())


def main():
    subprocess.run([PROGRAM, "--version"], capture_output=True)  # builds it where it is not there, and says so
    with tempfile.TemporaryDirectory() as made:
        folder = Path(made)
        try_hash()
        try_show()
        try_types(folder)
        try_numbers(folder)
        try_texts(folder)
        try_refused(folder)
        try_words()
        try_examples(folder)
    try_documents()
    print(f"{typed} commands: each printed what it must, to the letter")


if __name__ == "__main__":
    main()
