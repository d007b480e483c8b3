#!/usr/bin/env python3
"""Damages images at random and hands them to rowhash: an answer every time, no crash, and all that is admitted hashes.

    tools/damage.py [CASES [SEED]]     (10000 cases and seed 1 if left out)

The images are those of crates/vectors/stdin and crates/rowhash/stdin. A case is one of them with some of its bytes
or fields changed, cut off, moved or doubled. All cases go through `rowhash replay`, a few hundred to a process: each
is admitted or refused, and of an admitted one each node is hashed in a run of its own, all rows where there are few,
else the first, the last and one between, and one of its slots is asked for. Every line has to be answered by one line
of the right form, within a time limit; a column that is lent enough has to be accepted. Each 20th case goes through
`rowhash hash` and `rowhash show` as a file, too: they have to end by themselves, and to agree with `replay` on
whether the image is admitted. It ends with status 1 and the case's image where that is not so.
"""

import random
import re
import subprocess
import sys
import tempfile
from pathlib import Path

ROOT = Path(__file__).resolve().parent.parent
sys.dont_write_bytecode = True

from images import head, little  # noqa: E402

PROGRAM = ROOT / "rowhash"
BATCH = 200
SECONDS = 120
FEW_ROWS = 40  # of a node with more, three rows are hashed
EACH = 20
MOST_WORK = 15 * 2**20  # no column of an image needs more

# values at the edges of what rejections ask of fields
EDGES = [0, 1, 2, 3, 4, 5, 7, 8, 9, 12, 13, 16, 17, 255, 256, 257, 65535, 65536, 1048575, 1048576, 1048577,
         2**30 - 1, 2**30, 2**31 - 1, 2**31, 2**32 - 2, 2**32 - 1]

ADMITTED = re.compile(r"admitted \d+|refused (?:[1-9]|10) \d+")
SLOT = re.compile(r"null|boolean (true|false)|number [1248] \d+|float [248] [0-9a-f]+|(text|binary|view) \d+( [0-9a-f]+)?"
                  r"|kind \d+|refused 1[37]")


def good_images():
    """The images of the programs' cases, each once, the large ones left out."""
    images = []
    for crate in ("vectors", "rowhash"):
        for line in (ROOT / "crates" / crate / "stdin").read_text().splitlines():
            name, _, digits = line.partition(" ")
            if name == "image" and 8 <= len(digits) <= 8000 and len(digits) % 2 == 0:
                try:
                    images.append(bytes.fromhex(digits))
                except ValueError:
                    pass
    return sorted(set(images))


def damage(image, chance):
    """An image with one to four things wrong with it."""
    image = bytearray(image)
    for _ in range(chance.randint(1, 4)):
        if not image:
            break
        at = chance.randrange(len(image))
        match chance.randrange(7):
            case 0:
                image[at] = chance.randrange(256)
            case 1:
                image[at] ^= 1 << chance.randrange(8)
            case 2:
                nodes = max(1, min(256, int.from_bytes(image[:4], "little")))
                place = head(chance.randrange(nodes)) + 4 * chance.randrange(9)
                image[place:place + 4] = little(4, chance.choice(EDGES))
            case 3:
                place = at // 4 * 4
                image[place:place + 4] = little(4, chance.choice(EDGES))
            case 4:
                del image[at:]
            case 5:
                image[at:at] = image[at:at + chance.randint(1, 40)]
            case 6:
                other = chance.randrange(len(image))
                count = chance.randint(1, 16)
                image[at:at + count] = image[other:other + count]
    return bytes(image)


def nodes_of(image):
    """Node numbers and rows, as far as the header and the records are there."""
    count = int.from_bytes(image[:4], "little")
    if not 1 <= count <= 256 or len(image) < head(count):
        return []
    return [(node, int.from_bytes(image[head(node) + 4:][:4], "little")) for node in range(count)]


def commands(image, chance):
    """The commands of a case; what of them is to be answered is told only if the image is admitted."""
    lines = [("image " + image.hex(), ADMITTED)]
    for node, rows in nodes_of(image):
        lines.append((f"slot {node} {chance.randrange(rows + 2)}", SLOT))
        met = rows
        column = f"column {node}"
        if rows > FEW_ROWS:
            met = 3
            column += f" list 0 {chance.randrange(rows)} {rows - 1}"
        lines += [("begin" + " 0" * met, "accepted"), (column, "accepted"), (column, "accepted")]
        if met:
            lines.append((f"read {chance.randrange(met)}", re.compile(r"[0-9a-f]{16} 2")))
    return lines


def check(case, image, lines, answers):
    """Ends the program where an answer is not what it has to be."""
    admitted = answers[0].startswith("admitted")
    for (line, wanted), answer in zip(lines, answers):
        if not admitted and line != lines[0][0]:
            continue
        fits = wanted.fullmatch(answer) if isinstance(wanted, re.Pattern) else wanted == answer
        if not fits:
            sys.exit(f"case {case}: {line[:60]} is answered {answer!r}\nimage {image.hex()}")
    return admitted


def as_file(folder, case, image, admitted):
    """Ends the program where `hash` or `show` does not end by itself, or says otherwise than `replay`."""
    file = folder / "damaged.img"
    file.write_bytes(image)
    for name in ("hash", "show"):
        try:
            done = subprocess.run([PROGRAM, name, file], capture_output=True, text=True, timeout=SECONDS)
        except subprocess.TimeoutExpired:
            sys.exit(f"case {case}: {name} gave no answer within {SECONDS} seconds\nimage {image.hex()}")
        refused = "refused" in done.stdout + done.stderr
        if done.returncode not in (0, 1) or refused == admitted:
            sys.exit(f"case {case}: {name} ended with {done.returncode}: {done.stderr[:300]}\nimage {image.hex()}")


def replayed(start, batch, asked):
    """The answers to the lines of all cases of a batch; ends the program where there are not as many as lines."""
    text = f"work {MOST_WORK}\n" + "".join(line + "\n" for lines in asked for line, _ in lines)
    try:
        done = subprocess.run([PROGRAM, "replay"], input=text, capture_output=True, text=True, timeout=SECONDS)
    except subprocess.TimeoutExpired:
        sys.exit(f"cases {start} to {start + len(batch) - 1}: no answer within {SECONDS} seconds")
    answers = done.stdout.splitlines()[1:]
    left = len(answers)
    for case, (image, lines) in enumerate(zip(batch, asked), start):
        left -= len(lines)
        if left < 0 or done.returncode != 0 and left == 0:
            sys.exit(f"case {case}: status {done.returncode}: {done.stderr[:300]}\nimage {image.hex()}")
    return answers


def main():
    cases = int(sys.argv[1]) if len(sys.argv) > 1 else 10000
    chance = random.Random(int(sys.argv[2]) if len(sys.argv) > 2 else 1)
    images = good_images()
    admitted = hashed = lines_in_all = 0
    with tempfile.TemporaryDirectory() as folder:
        for start in range(0, cases, BATCH):
            batch = [damage(chance.choice(images), chance) for _ in range(min(BATCH, cases - start))]
            asked = [commands(image, chance) for image in batch]
            answers = replayed(start, batch, asked)
            for case, (image, lines) in enumerate(zip(batch, asked), start):
                accepted = check(case, image, lines, answers[:len(lines)])
                answers = answers[len(lines):]
                admitted += accepted
                hashed += accepted * len(nodes_of(image))
                lines_in_all += len(lines)
                if case % EACH == 0:
                    as_file(Path(folder), case, image, accepted)
    print(f"{cases} damaged images, {admitted} of them admitted, all their {hashed} nodes hashed, {lines_in_all} lines: "
          "each was answered")


if __name__ == "__main__":
    main()
