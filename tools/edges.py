#!/usr/bin/env python3
"""Runs rowhash at the limits that are too large for its cases, which are lines of input.

    tools/edges.py [FOLDER]     (a temporary one if left out; it takes up to 1.1 GB, and the program as much memory)

- an image of 1,073,741,824 bytes, which is the most: it is admitted, its last bytes are read, and one row that is
  nearly all of it is hashed; with one byte more it is refused;
- a column of 1,048,576 rows, without children and over fifteen levels of as many: every row's number is printed;
- a view into the last of 65,535 data buffers is hashed; with one buffer more the image is refused.

The numbers come from tests/model.py. FNV-1a of zeros is its start times a power of the prime, so that the model need
not go through a thousand million of them. It ends with status 1 where an answer is another.
"""

import subprocess
import sys
import tempfile
from pathlib import Path

ROOT = Path(__file__).resolve().parent.parent
sys.path[:0] = [str(ROOT / "tools"), str(ROOT / "tests")]
sys.dont_write_bytecode = True

from images import (  # noqa: E402
    BINARY, NULL, STRUCT, VIEW, children, head, image, little, long_view, pairs, record,
)
from model import FNV_PRIME, FNV_START, STANDARD, Nothing, Struct, View, fnv1a, number  # noqa: E402
from runs import MOST_ROWS  # noqa: E402

PROGRAM = ROOT / "rowhash"
MOST_BYTES = 1_073_741_824
MOST_BUFFERS = 65_535
VIEWED = b"thirteen byte"
LAST = b"\x01\x02\x03\x04\x05"


def answers(*arguments, asked=""):
    """The lines that the program prints."""
    done = subprocess.run([PROGRAM, *arguments], input=asked, capture_output=True, text=True, check=False)
    if done.returncode < 0:
        sys.exit(f"{arguments}: ended by signal {-done.returncode}")
    return done.stdout.splitlines()


def expect(what, found, wanted):
    """Ends the program where an answer is another."""
    if found != wanted:
        sys.exit(f"{what}: {str(found)[:200]} and not {str(wanted)[:200]}")
    print(f"{what}: as it must be", flush=True)


def write_largest(file):
    """Two binary columns over the same offsets: zeros almost to the end, and the bytes of LAST at the very end."""
    offsets = head(2)
    data = offsets + 12
    whole = MOST_BYTES - data
    with open(file, "wb") as written:
        columns = [record(BINARY, 1, start, a=offsets, b=data, p=4) for start in (0, 1)]
        written.write(image(columns, little(4, 0, whole - len(LAST), whole)))
        written.seek(MOST_BYTES - len(LAST))
        written.write(LAST)
    return whole - len(LAST)


def largest_image(folder):
    """An image of the most bytes, and one more."""
    file = folder / "largest.img"
    zeros = write_largest(file)
    place = MOST_BYTES - len(LAST)
    expect("the largest image, its last bytes", answers("replay", asked=f"image-file {file}\nslot 1 0\n"),
           ["admitted 2", f"binary {place} {LAST.hex()}"])
    start = fnv1a(FNV_START, little(8, zeros))
    expect("the largest image, one row of zeros", answers("hash", file),
           [f"{start * pow(FNV_PRIME, zeros, 2**64) % 2**64:016x}"])
    with open(file, "ab") as written:
        written.write(b"\0")
    expect("one byte more", answers("replay", asked=f"image-file {file}\n"), ["refused 1 0"])
    expect("one byte more, hash", answers("hash", file), ["refused 1 0"])
    file.unlink()


def alike(slot):
    """What is printed of a column of the most rows with one slot."""
    return [f"{number(STANDARD, True, 0, slot):016x}"] * MOST_ROWS


def most_rows(folder):
    """Columns of the most rows, of which all have one number: with nothing below them, and with the largest need."""
    file = folder / "deep.img"
    tables = head(16)
    structs = [record(STRUCT, MOST_ROWS, tab=tables + 4 * n, cnt=1) for n in range(15)]
    file.write_bytes(image([*structs, record(NULL, MOST_ROWS)], children(*range(1, 16))))
    slot = Nothing()
    expect("the most rows, no children", answers("hash", file, "15"), alike(slot))
    for _ in range(15):
        slot = Struct((slot,))
    expect("the most rows, the largest need", answers("hash", file), alike(slot))


def most_buffers(folder):
    """A view of 13 bytes in the last of so many data buffers as there may be, and of one more."""
    file = folder / "buffers.img"
    hashed = f"{number(STANDARD, True, 0, View(VIEWED)):016x}"
    for buffers, wanted in [(MOST_BUFFERS, [hashed]), (MOST_BUFFERS + 1, ["refused 4 0"])]:
        view = head(1)
        data = view + 16
        table = data + len(VIEWED)
        places = [(0, 0)] * (buffers - 1) + [(data, len(VIEWED))]
        file.write_bytes(image([record(VIEW, 1, a=view, tab=table, cnt=buffers)],
                               long_view(len(VIEWED), VIEWED[:4], buffers - 1, 0), VIEWED, pairs(*places)))
        expect(f"{buffers} data buffers", answers("hash", file), wanted)


def main():
    with tempfile.TemporaryDirectory() as temporary:
        folder = Path(sys.argv[1] if len(sys.argv) > 1 else temporary)
        most_rows(folder)
        most_buffers(folder)
        largest_image(folder)


if __name__ == "__main__":
    main()
