#!/usr/bin/env python3
"""Write examples/passes.img, a small table of satellite passes with a column of every kind.

    tools/make_example.py             writes the file, and a copy for the cases of rowhash
    tools/make_example.py --check     tries whether both are up to date
    tools/make_example.py --explain   prints the slots of each node instead

Each column is described by its values; the function of its kind lays out the
buffers, fills in the record and notes what each row's slot is. So --explain
tells what the description means, without reading the image back. A slot is
written as the `slot` command of `rowhash replay` answers it, with its meaning
behind it.

Values before a column's START are there to be passed over: other rows of a
longer table that this one is cut from.
"""

import pathlib
import struct
import sys
from itertools import pairwise
from typing import NamedTuple

sys.dont_write_bytecode = True

import images  # noqa: E402
from images import Builder, bits, children, little, pairs  # noqa: E402

ROOT = pathlib.Path(__file__).resolve().parent.parent
FILES = [ROOT / "examples" / "passes.img", ROOT / "crates" / "rowhash" / "data" / "passes.img"]


class Described(NamedTuple):
    """A node by what it means; `slots` has the (answer, meaning) of each row."""
    name: str
    kind: int
    p: int
    start: int
    slots: list
    children: tuple = ()


build = Builder(28)
described = {}


def describe(node, name, kind, start, values, valid, answers, p=0, below=()):
    """Note a node's slots; `answers` has a pair for each element, those before START too."""
    slots = []
    for index in range(start, len(values)):
        null = valid is not None and valid[index] == "0"
        slots.append(("null", "") if null else answers[index])
    described[node] = Described(name, kind, p, start, slots, tuple(below))
    return len(slots)


def bitmap(valid):
    """The place of a bitmap, 0 for none."""
    return build.put(bits(valid)) if valid is not None else 0


def piece(word, place, data, meaning):
    """A slot that is a part of the image."""
    return f"{word} {place} {data.hex()}".rstrip(), meaning


def numbers(node, name, width, values, start=0, valid=None):
    rows = describe(node, name, images.NUMBER, start, values, valid,
                    [(f"number {width} {value % 256**width}", "") for value in values], width)
    place = build.put(little(width, *values), width)
    build.record(node, images.NUMBER, rows=rows, start=start, nulls=bitmap(valid), a=place, p=width)


def floats(node, name, width, values, start=0, valid=None):
    raw = [struct.pack({2: "<e", 4: "<f", 8: "<d"}[width], value) for value in values]
    rows = describe(node, name, images.FLOAT, start, values, valid,
                    [(f"float {width} {bytes(reversed(r)).hex()}", str(v)) for r, v in zip(raw, values)], width)
    place = build.put(b"".join(raw), width)
    build.record(node, images.FLOAT, rows=rows, start=start, nulls=bitmap(valid), a=place, p=width)


def booleans(node, name, text, start=0, valid=None):
    rows = describe(node, name, images.BOOLEAN, start, text, valid,
                    [("boolean true" if bit == "1" else "boolean false", "") for bit in text])
    build.record(node, images.BOOLEAN, rows=rows, start=start, nulls=bitmap(valid), a=build.put(bits(text)))


def strings(node, name, kind, word, width, raw, meanings, start, valid):
    """Text or binary: all bytes end to end, and offsets of a width."""
    data = build.put(b"".join(raw))
    place = build.put(images.offsets(width, raw), width)
    answers, at = [], data
    for part, meaning in zip(raw, meanings):
        answers.append(piece(word, at, part, meaning))
        at += len(part)
    rows = describe(node, name, kind, start, raw, valid, answers, width)
    build.record(node, kind, rows=rows, start=start, nulls=bitmap(valid), a=place, b=data, p=width)


def texts(node, name, values, start=0, valid=None, width=4):
    strings(node, name, images.UTF8, "text", width, [value.encode() for value in values], values, start, valid)


def binaries(node, name, values, start=0, valid=None, width=4):
    raw = [bytes.fromhex(value) for value in values]
    strings(node, name, images.BINARY, "binary", width, raw, [""] * len(raw), start, valid)


def fixed_binary(node, name, width, values, start=0, valid=None):
    place = build.put(b"".join(values))
    rows = describe(node, name, images.FIXED_SIZE_BINARY, start, values, valid,
                    [piece("binary", place + width * k, value, "") for k, value in enumerate(values)], width)
    build.record(node, images.FIXED_SIZE_BINARY, rows=rows, start=start, nulls=bitmap(valid), a=place, p=width)


def text_views(node, name, values, start=0, valid=None):
    raw = [value.encode() for value in values]
    made, data = images.views(raw)
    place = build.put(made, 8)
    buffer = build.put(data)
    table = build.put(pairs((buffer, len(data))), 4)
    answers, far = [], buffer
    for k, (value, encoded) in enumerate(zip(values, raw)):
        if len(encoded) <= 12:
            answers.append(piece("view", place + 16 * k + 4, encoded, value))
        else:
            answers.append(piece("view", far, encoded, value))
            far += len(encoded)
    rows = describe(node, name, images.VIEW, start, values, valid, answers)
    build.record(node, images.VIEW, rows=rows, start=start, nulls=bitmap(valid), a=place, tab=table, cnt=1)


def above(node, name, kind, listed, values, meanings, start=0, valid=None, p=0, **fields):
    """A column over other nodes: its slots answer the kind alone."""
    rows = describe(node, name, kind, start, values, valid, [(f"kind {kind}", m) for m in meanings], p, listed)
    table = build.put(children(*listed), 4)
    build.record(node, kind, rows=rows, start=start, nulls=bitmap(valid), p=p, tab=table, cnt=len(listed), **fields)


def rows_of(node, first, count):
    """A span of a child's rows, in words."""
    if count == 0:
        return "empty"
    return f"rows {first} to {first + count - 1} of node {node}" if count > 1 else f"row {first} of node {node}"


def lists(node, name, child, offsets, start=0, valid=None, width=4):
    """A column of lists by its offsets, one more than lists."""
    meanings = [rows_of(child, low, high - low) for low, high in pairwise(offsets)]
    place = build.put(little(width, *offsets), width)
    above(node, name, images.LIST, [child], meanings, meanings, start, valid, width, a=place)


def list_views(node, name, child, spans, valid=None, width=4):
    """A column of list views by their (offset, size) spans."""
    offsets, sizes = images.list_views(width, spans)
    above(node, name, images.LIST_VIEW, [child], spans, [rows_of(child, *span) for span in spans], 0, valid, width,
          a=build.put(offsets, width), b=build.put(sizes, width))


# The table: rows 2 to 7 of its columns. The sixth pass was struck off.
columns = {1: "satellite", 2: "start", 3: "elevation", 4: "recorded", 5: "antenna", 7: "heard",
           9: "note", 10: "telemetry", 13: "phase", 15: "pointing", 17: "pass", 18: "reserved", 19: "marks",
           21: "beacon", 22: "log", 23: "doppler", 25: "levels", 27: "samples"}
above(0, "passes", images.STRUCT, columns, range(8), [f"row {k} of each column" for k in range(8)],
      start=2, valid="11111110")

# Names of up to 12 bytes stand in the view, longer ones in the data buffer.
text_views(1, "satellite",
           ["(cut off)", "NOAA 19", "METEOR-M2 3", "ISS (ZARYA)", "FUNcube-1 (AO-73)", "COSMO-SKYMED",
            "NOAA 19", "CUTE-1.7+APD II (CO-65)", "LilacSat-2"], start=1, valid="111111101")
# Seconds since 1970.
numbers(2, "start", 8, [1_790_000_000 + k for k in (0, 2_810, 6_120, 8_455, 11_930, 14_007, 17_912, 20_044)])
floats(3, "elevation", 4, [12.5, 71.25, 8.0, -0.0, 44.5, 0.0, 63.75, 30.0], valid="11111011")
booleans(4, "recorded", "00011011010", start=3)

# Signed 1-byte keys; the row whose key is marked null names no antenna.
keys = [1, 0, 0, 2, 1, -1, 3, 0]
above(5, "antenna", images.DICTIONARY, [6], keys, [f"row {k} of node 6" for k in keys],
      valid="11111011", p=1, b=1, a=build.put(little(1, *keys)))
texts(6, "antenna names", ["QFH 137", "Yagi 435 north", "Dish 1.7 GHz", ""], valid="1110")

# Frames heard, by their numbers in the receiver's log: spans out of order, sharing rows, or empty.
list_views(7, "heard", 8, [(0, 2), (0, 0), (5, 3), (1, 4), (0, 0), (-1, 99), (0, 8), (8, 0)], valid="11111011")
numbers(8, "frames", 2, [0, 417, 418, 419, 1023, 9, 10, 11, 65535], start=1)

texts(9, "note", ["", "", "rain", "", "nothing heard", "", "", "mast at 7°"], valid="11101011")

entries = [0, 1, 1, 3, 3, 3, 4, 5, 5]
above(10, "telemetry", images.MAP, [11, 12], range(8),
      [rows_of("11 and of node 12", a, b - a) for a, b in zip(entries, entries[1:])],
      valid="11101111", a=build.put(little(4, *entries), 4))
texts(11, "telemetry keys", ["snr", "snr", "doppler", "snr", "agc"])
floats(12, "telemetry values", 8, [3.5, 11.25, -2710.0, 9.0, -0.0], valid="11101")

# Runs end before elements 3, 4 and 9 of the longer table; START is 1.
ends = [3, 4, 9]
above(13, "phase", images.RUN_END, [14], range(9),
      [f"row {next(r for r, end in enumerate(ends) if end > k)} of node 14" for k in range(9)],
      start=1, p=2, a=build.put(little(2, *ends), 2))
texts(14, "phases", ["north", "", "south"], valid="101")

# Azimuth and elevation at the start of each pass.
above(15, "pointing", images.FIXED_SIZE_LIST, [16], range(8), [rows_of(16, 2 * k, 2) for k in range(8)],
      valid="11111101", p=2)
floats(16, "azimuth, elevation", 4,
       [10.5, 0.0, 188.0, 0.0, 350.25, 5.0, 12.0, 0.0, 201.5, 5.0, 90.0, 0.0, 0.0, 0.0, 172.0, 10.0])

fixed_binary(17, "pass", 4, [bytes([0x26, 0x09, k, 7 * k]) for k in range(9)], start=1)
described[18] = Described("reserved", images.NULL, 0, 0, [("kind 1", "nothing")] * 8)
build.record(18, images.NULL, rows=8)

# Marks that the operator set, in seconds after the start; the four of a row marked null are met by no row.
lists(19, "marks", 20, [0, 2, 3, 6, 6, 7, 9, 9, 13, 13, 14], start=2, valid="1111111011")
numbers(20, "seconds", 4, [12, 340, 77, 5, 61, 402, 118, 30, 255, 9, 10, 11, 480, 600], valid="11110111111111")

# The first frame of the beacon, as it came in.
binaries(21, "beacon", ["00", "86a24040404060", "", "9c9e8282406203f04e4f4141", "86a240404040ff01", "ff", "c0", "", "7e7e"],
         start=1, valid="111111011")
texts(22, "log", ["(cut off)", "locked after 40 s", "", "said \"go\"", "no lock", "C:\\rec\\5", "(unread)", "wind 7 m/s", "µ"],
      start=1, valid="111111011", width=8)

# Corrections of the frequency, in Hz; the offsets are those of a longer column, and the first is not 0.
lists(23, "doppler", 24, [1, 1, 4, 4, 5, 5, 8, 9, 9, 10], start=1, valid="111111011", width=8)
numbers(24, "corrections", 2, [0, 0, 2710, 5, -2695, 1300, -40, 40, 32767, -32768, 0], start=1)

# Signal levels at each antenna: spans in any order, as those of node 7.
list_views(25, "levels", 26, [(4, 2), (0, 4), (0, 0), (2, 1), (6, 0), (1 << 40, -1), (0, 6), (5, 1)],
           valid="11111011", width=8)
floats(26, "level", 2, [1.5, -0.0, 0.25, 65504.0, -12.0, 0.0], valid="111101")

binaries(27, "samples", ["0001fffe", "", "7f", "80", "", "deadbeef", "00", "102030405060708090a0b0c0d0"],
         valid="11101111", width=8)


def explain():
    """Prints the slots of each node."""
    for node, it in sorted(described.items()):
        print(f"node {node}, {it.name}: kind {it.kind}, {len(it.slots)} rows, START {it.start}")
        for row, (answer, meaning) in enumerate(it.slots):
            print(f"  row {row}  {answer}" + (f"  ({meaning})" if meaning else ""))


def main():
    built = build.image()
    match sys.argv[1:]:
        case ["--explain"]:
            return explain()
        case ["--check"]:
            for file in FILES:
                if file.read_bytes() != built:
                    sys.exit(f"{file.relative_to(ROOT)} is not what tools/make_example.py writes")
        case []:
            for file in FILES:
                file.parent.mkdir(exist_ok=True)
                file.write_bytes(built)
        case _:
            sys.exit("usage: make_example.py [--check | --explain]")
    print(f"{FILES[0].name}: {len(built)} bytes, {len(build.records)} nodes")


if __name__ == "__main__":
    main()
