#!/usr/bin/env python3
"""Hand-worked cases for admission, the slot reader and runs.

Each case is a line for `rowhash replay` and the line it must answer. The
answers are worked out by hand from the rules in docs/FORMAT.md and written
here beside the image, with the reason; no checker and no part of the program
computes them. The images are built by tools/images.py.

Of a run, whether a call is accepted is written here too. Its numbers are those
of tests/runs.py, a ledger that knows no images: what the rows of an image mean
is written beside it.

    tests/cases.py [DIRECTORY]            writes DIRECTORY/stdin, stdout and data/ (crates/rowhash if none is given)
    tests/cases.py --check [DIRECTORY]    tries whether they are up to date

In `image([record, ..], part, ..)` the parts stand one after the other behind
the records, so the first is at place 40 with one node, 76 with two, 112 with
three and 148 with four.
"""

import pathlib
import sys
from itertools import pairwise

ROOT = pathlib.Path(__file__).resolve().parent.parent
sys.path[:0] = [str(ROOT / "tools"), str(ROOT / "tests")]
sys.dont_write_bytecode = True

import make_example  # noqa: E402
from images import (  # noqa: E402
    BINARY, BOOLEAN, DICTIONARY, FIXED_SIZE_BINARY, FIXED_SIZE_LIST, FLOAT, LIST,
    LIST_VIEW, MAP, NULL, NUMBER, RUN_END, STRUCT, UTF8, VIEW,
    Builder, bits, children, image, little, long_view, offsets, pairs, record, short_view,
)
from model import (  # noqa: E402
    U64, Boolean, Float, Map, Nothing, Null, Number, Refer, Sequence, Struct, Text,
)
from runs import MOST_ROWS, Column, Replay  # noqa: E402

U32 = 2**32 - 1

commands = []  # the lines of stdin that are answered
answers = []  # the lines of stdout
lines = []  # all lines of stdin


def title(text):
    """A heading in stdin; it is passed over."""
    lines.append("")
    lines.append("# " + text)


def line(command, answer):
    """A command and its answer."""
    lines.append(command)
    commands.append(command)
    answers.append(answer)


def admit(built, answer):
    """An image and its answer."""
    line("image " + built.hex(), answer)


def slot(node, row, answer):
    """A row of a node and its answer."""
    line(f"slot {node} {row}", answer)


replay = Replay()


def run(command, answer=None):
    """A command of a run with the ledger's answer, which is the one given where one is."""
    found = replay.answer(command)
    assert answer in (None, found), (command, answer, found)
    line(command, found)


def accepted(*asked):
    """Commands that are accepted, one after the other."""
    for command in asked:
        run(command, "accepted")


def refused(number, *asked):
    """Commands that are refused with a number, and leave the lent words as they were."""
    before = replay.answer("words")
    for command in asked:
        run(command, f"refused {number}")
    run("words", before)


def read_all():
    """All rows, and a row that is not there."""
    rows = len(replay.run.rows)
    for row in range(rows):
        run(f"read {row}")
    run(f"read {rows}", "refused 17")


def admit_columns(built, columns):
    """An image and what the rows of its nodes mean."""
    admit(built, f"admitted {len(columns)}")
    replay.columns = columns


def nulls(rows):
    """The record of a Null node: no buffers, so it serves as a child of any length."""
    return record(NULL, rows)


# ---------------------------------------------------------------------------
title("before any image there are no nodes")
slot(0, 0, "refused 13")
slot(255, 0, "refused 13")
slot(U64, U64, "refused 13")

title("before begin there is no run")
for command in ["column 0", "column 0 list 0", "keep", "keep 0", "read 0", "room 1", "words"]:
    run(command, "no run")
accepted("begin 7 0xff 18446744073709551615")
run("words", "words 0000000000000007 00000000000000ff ffffffffffffffff")
refused(13, "column 0", "column 255", f"column {U64}", "column 0 list", "column 0 list 0 1 2")
run("read 0", "no column yet")

# ---------------------------------------------------------------------------
title("1: length of the image and number of nodes")
# the upper limit of 1,073,741,824 bytes is not tried: the line would have 2 GB
admit(bytes(1), "refused 1 0")  # under 4 bytes
admit(bytes(3), "refused 1 0")  # under 4 bytes
admit(bytes(4), "refused 1 0")  # N is 0
admit(little(4, 1), "refused 1 0")  # N is 1, which takes 40 bytes
admit(image([nulls(0)])[:39], "refused 1 0")  # one byte under 40
admit(image([nulls(0)]), "admitted 1")  # 40 bytes are enough
admit(image([nulls(0)], b"\xff"), "admitted 1")  # bytes that nothing points to are not read
admit(little(4, 2) + nulls(0), "refused 1 0")  # N is 2, which takes 76 bytes, not 40
admit(little(4, U32) + nulls(0), "refused 1 0")  # N is above 256
admit(little(4, 0) + record(0), "refused 1 0")  # N is 0, whatever follows
admit(image([nulls(0)] * 257), "refused 1 0")  # 257 whole records, N is above 256
admit(image([nulls(0)] * 256), "admitted 256")
slot(255, 0, "refused 17")  # the last node is there and has no rows
slot(256, 0, "refused 13")

# ---------------------------------------------------------------------------
title("2: KIND")
admit(image([record(0)]), "refused 2 0")
admit(image([record(5)]), "refused 2 0")  # there is no kind 5
admit(image([record(17)]), "refused 2 0")
admit(image([record(257)]), "refused 2 0")  # 257 is 1 in its lowest byte only
admit(image([record(U32)]), "refused 2 0")
# fields that a kind does not use are not read, so they may hold anything
admit(image([record(NULL, nulls=U32, a=U32, b=U32, p=U32, tab=U32, cnt=U32)]), "admitted 1")
admit(image([record(BOOLEAN, a=40, b=U32, p=U32, tab=U32, cnt=U32)]), "admitted 1")
admit(image([record(STRUCT, a=U32, b=U32, p=U32)]), "admitted 1")
admit(image([record(MAP, a=84, b=U32, p=U32, tab=76, cnt=2), nulls(0)],
            children(1, 1), little(4, 0)), "admitted 2")

title("2: P and B; ROWS is 0 throughout, so that buffers at 40 have no bytes")
admit(image([record(NUMBER, a=40, p=0)]), "refused 2 0")
admit(image([record(NUMBER, a=40, p=1)]), "admitted 1")
admit(image([record(NUMBER, a=40, p=3)]), "refused 2 0")
admit(image([record(NUMBER, a=40, p=8)]), "admitted 1")
admit(image([record(NUMBER, a=40, p=16)]), "refused 2 0")  # 128-bit numbers are left out
admit(image([record(NUMBER, a=40, p=0x101)]), "refused 2 0")  # 1 in its lowest byte only
admit(image([record(FLOAT, a=40, p=1)]), "refused 2 0")
admit(image([record(FLOAT, a=40, p=2)]), "admitted 1")
admit(image([record(FLOAT, a=40, p=3)]), "refused 2 0")
admit(image([record(UTF8, a=40, b=44, p=2)], little(4, 0)), "refused 2 0")
admit(image([record(UTF8, a=40, b=44, p=4)], little(4, 0)), "admitted 1")
admit(image([record(BINARY, a=40, b=48, p=5)], little(8, 0)), "refused 2 0")
admit(image([record(BINARY, a=40, b=48, p=8)], little(8, 0)), "admitted 1")
admit(image([record(FIXED_SIZE_BINARY, a=40, p=0)]), "admitted 1")
admit(image([record(FIXED_SIZE_BINARY, a=40, p=65535)]), "admitted 1")
admit(image([record(FIXED_SIZE_BINARY, a=40, p=65536)]), "refused 2 0")
# with children: node 1 is a Null column and TAB stands at 76
admit(image([record(DICTIONARY, a=80, p=3, tab=76, cnt=1), nulls(0)], children(1)), "refused 2 0")
admit(image([record(DICTIONARY, a=80, p=1, b=0, tab=76, cnt=1), nulls(0)], children(1)), "admitted 2")
admit(image([record(DICTIONARY, a=80, p=1, b=1, tab=76, cnt=1), nulls(0)], children(1)), "admitted 2")
admit(image([record(DICTIONARY, a=80, p=1, b=2, tab=76, cnt=1), nulls(0)], children(1)), "refused 2 0")
admit(image([record(LIST, a=80, p=2, tab=76, cnt=1), nulls(0)], children(1), little(4, 0)), "refused 2 0")
admit(image([record(LIST_VIEW, a=80, b=80, p=2, tab=76, cnt=1), nulls(0)], children(1)), "refused 2 0")
admit(image([record(LIST_VIEW, a=80, b=80, p=8, tab=76, cnt=1), nulls(0)], children(1)), "admitted 2")
admit(image([record(FIXED_SIZE_LIST, p=65535, tab=76, cnt=1), nulls(0)], children(1)), "admitted 2")
admit(image([record(FIXED_SIZE_LIST, p=65536, tab=76, cnt=1), nulls(0)], children(1)), "refused 2 0")
admit(image([record(RUN_END, a=80, p=1, tab=76, cnt=1), nulls(0)], children(1)), "refused 2 0")
admit(image([record(RUN_END, a=80, p=2, tab=76, cnt=1), nulls(0)], children(1)), "admitted 2")

# ---------------------------------------------------------------------------
title("3: ROWS and START up to 1,048,576")
admit(image([record(NULL, MOST_ROWS + 1)]), "refused 3 0")
admit(image([record(NULL, 0, MOST_ROWS + 1)]), "refused 3 0")
admit(image([record(NULL, U32)]), "refused 3 0")
admit(image([record(NULL, 0, MOST_ROWS)]), "admitted 1")
admit(image([record(NULL, MOST_ROWS)]), "admitted 1")
admit(image([record(NULL, MOST_ROWS, MOST_ROWS)]), "admitted 1")  # each is held to the limit, not their sum
slot(0, MOST_ROWS - 1, "kind 1")  # the last row
slot(0, MOST_ROWS, "refused 17")
slot(0, 2 * MOST_ROWS - 1, "refused 17")  # START does not add rows

# ---------------------------------------------------------------------------
title("4: CNT")
# a struct may list a child twice, so one child serves for a long table
admit(image([record(STRUCT, tab=76, cnt=255), nulls(0)], children(*[1] * 255)), "admitted 2")
admit(image([record(STRUCT, tab=76, cnt=256), nulls(0)], children(*[1] * 256)), "refused 4 0")
admit(image([record(STRUCT, tab=76, cnt=0x4000_0001), nulls(0)], children(1)), "refused 4 0")  # 4 x CNT is 4 mod 2^32
admit(image([record(DICTIONARY, a=80, p=1, tab=76, cnt=0), nulls(0)], children(1)), "refused 4 0")
admit(image([record(DICTIONARY, a=84, p=1, tab=76, cnt=2), nulls(0)], children(1, 1)), "refused 4 0")
admit(image([record(LIST, a=84, p=4, tab=76, cnt=2), nulls(0)], children(1, 1), little(4, 0)), "refused 4 0")
admit(image([record(LIST_VIEW, a=76, b=76, p=4, tab=76, cnt=0), nulls(0)]), "refused 4 0")
admit(image([record(MAP, a=80, tab=76, cnt=1), nulls(0)], children(1), little(4, 0)), "refused 4 0")
admit(image([record(MAP, a=88, tab=76, cnt=3), nulls(0)], children(1, 1, 1), little(4, 0)), "refused 4 0")
admit(image([record(FIXED_SIZE_LIST, p=1, tab=76, cnt=0), nulls(0)]), "refused 4 0")
admit(image([record(RUN_END, a=84, p=2, tab=76, cnt=2), nulls(0)], children(1, 1)), "refused 4 0")
admit(image([record(VIEW, a=40, tab=40, cnt=65536)]), "refused 4 0")  # also too long a table: its border would take 1 MB
admit(image([record(VIEW, a=40, tab=40, cnt=0)]), "admitted 1")
admit(image([record(VIEW, a=40, tab=40, cnt=3)], pairs((0, 0), (0, 0), (0, 0))), "admitted 1")

title("4: TAB")
admit(image([record(STRUCT, tab=40, cnt=0)]), "admitted 1")  # no entries, at the very end
admit(image([record(STRUCT, tab=41, cnt=0)]), "refused 4 0")  # no entries, yet 41 + 0 passes 40
admit(image([record(STRUCT, tab=76, cnt=1), nulls(0)], children(1)), "admitted 2")  # 76 + 4 is 80
admit(image([record(STRUCT, tab=77, cnt=1), nulls(0)], children(1)), "refused 4 0")  # 77 + 4 passes 80
admit(image([record(STRUCT, tab=0xFFFF_FFFC, cnt=1), nulls(0)]), "refused 4 0")  # the sum is 2^32, not 0
admit(image([record(VIEW, a=40, tab=40, cnt=1)], pairs((0, 0))), "admitted 1")  # 40 + 8 is 48
admit(image([record(VIEW, a=40, tab=40, cnt=1)], bytes(7)), "refused 4 0")  # 40 + 8 passes 47
admit(image([record(VIEW, a=40, tab=41, cnt=0)]), "refused 4 0")

# ---------------------------------------------------------------------------
title("5: child numbers")
admit(image([record(STRUCT, tab=40, cnt=1)], children(0)), "refused 5 0")  # its own number
admit(image([record(STRUCT, tab=40, cnt=1)], children(1)), "refused 5 0")  # 1 is not below N, which is 1
admit(image([record(STRUCT, tab=40, cnt=1)], children(U32)), "refused 5 0")
admit(image([nulls(0), record(STRUCT, tab=112, cnt=1), nulls(0)], children(0)), "refused 5 1")  # below its own
admit(image([nulls(0), record(STRUCT, tab=112, cnt=1), nulls(0)], children(1)), "refused 5 1")  # its own
admit(image([nulls(0), record(STRUCT, tab=112, cnt=1), nulls(0)], children(2)), "admitted 3")
admit(image([nulls(0), record(STRUCT, tab=112, cnt=1), nulls(0)], children(3)), "refused 5 1")  # 3 is N
admit(image([record(STRUCT, tab=76, cnt=2), nulls(0)], children(1, 2)), "refused 5 0")  # the second child
admit(image([record(MAP, a=84, tab=76, cnt=2), nulls(0)], children(1, 0), little(4, 0)), "refused 5 0")
# node 2 is listed by node 0, and twice by node 1
admit(image([record(STRUCT, tab=112, cnt=2), record(STRUCT, tab=120, cnt=2), nulls(0)],
            children(1, 2), children(2, 2)), "admitted 3")


# ---------------------------------------------------------------------------
def chain(structs, *last, rows=0):
    """Structs, each the parent of the node after it; their tables stand behind the records."""
    nodes = structs + len(last)
    tables = 4 + 36 * nodes
    made = [record(STRUCT, rows, tab=tables + 4 * n, cnt=1 if n + 1 < nodes else 0) for n in range(structs)]
    return made + list(last), children(*range(1, nodes))


title("6: height; the last struct of a chain has no children and the height 1")
admit(image(*chain(16)), "admitted 16")  # node 0 has the height 16
admit(image(*chain(17)), "refused 6 0")  # node 0 has the height 17
admit(image(*chain(18)), "refused 6 1")  # node 1 has 17 and comes before node 0, which has 18
admit(image(*chain(15, nulls(0))), "admitted 16")
admit(image(*chain(16, nulls(0))), "refused 6 0")
# the pairs of a view are no children: height 16, and 0 is no child number
records, tables = chain(15, record(VIEW, a=640, tab=640, cnt=1))
admit(image(records, tables, pairs((0, 0))), "admitted 16")  # 4 + 36 x 16 + 4 x 15 is 640
# the highest child counts, not the last: nodes 1 to 16 are a chain of height 16, node 17 has 1;
# records end at 652; the tables of nodes 1 to 15 stand there, 60 bytes, that of node 0 at 712
records = [record(STRUCT, tab=712, cnt=2)]
records += [record(STRUCT, tab=652 + 4 * n, cnt=1) for n in range(15)]
records += [record(STRUCT), nulls(0)]
admit(image(records, children(*range(2, 17)), children(1, 17)), "refused 6 0")
admit(image(records, children(*range(2, 17)), children(17, 1)), "refused 6 0")
admit(image(records, children(*range(2, 17)), children(17, 2)), "admitted 18")  # node 2 has 15, so node 0 has 16

# each kind that has children is 1 above them: nodes 1 to 15 or 16 are structs, node 0 stands over node 1.
# Its table is two child numbers at the end, of which only a map uses both; its buffers, for no rows,
# are 8 zeros behind them; B, the sizes of a list view or the sign of a dictionary, is 0
for kind, width, count in [(DICTIONARY, 1, 1), (LIST, 4, 1), (LIST_VIEW, 4, 1), (MAP, 0, 2),
                           (FIXED_SIZE_LIST, 1, 1), (RUN_END, 2, 1)]:
    for structs, answer in [(15, "admitted 16"), (16, "refused 6 0")]:
        tables = 4 + 36 * (structs + 1)
        top = tables + 4 * (structs - 1)
        records = [record(kind, a=top + 8, p=width, tab=top, cnt=count)]
        records += [record(STRUCT, tab=tables + 4 * n, cnt=1) for n in range(structs - 1)]
        records += [record(STRUCT)]
        admit(image(records, children(*range(2, structs + 1)), children(1, 1), bytes(8)), answer)

# ---------------------------------------------------------------------------
title("7: each buffer whole, then a byte short")
# bitmap of START 8 and ROWS 1: 9 bits, 2 bytes; 9 values at 40, bitmap at 49
built = image([record(NUMBER, 1, 8, nulls=49, a=40, p=1)], bytes(9), bits("000000001"))
admit(built, "admitted 1")
admit(built[:-1], "refused 7 0")
# 9 bits at A of a Boolean
built = image([record(BOOLEAN, 9, a=40)], bits("111111111"))
admit(built, "admitted 1")
admit(built[:-1], "refused 7 0")
# START counts: 1 + 2 numbers of 2 bytes
built = image([record(NUMBER, 2, 1, a=40, p=2)], little(2, 1, 2, 3))
admit(built, "admitted 1")
admit(built[:-1], "refused 7 0")
admit(image([record(FLOAT, 1, a=40, p=8)], bytes(8)), "admitted 1")
admit(image([record(FLOAT, 1, a=40, p=8)], bytes(7)), "refused 7 0")
# offsets are one more than elements, also where there are no rows; B is 0 and reaches nothing
admit(image([record(UTF8, 0, a=40, p=4)], bytes(4)), "admitted 1")
admit(image([record(UTF8, 0, a=40, p=4)], bytes(3)), "refused 7 0")
admit(image([record(BINARY, 1, 1, a=40, p=8)], bytes(24)), "admitted 1")
admit(image([record(BINARY, 1, 1, a=40, p=8)], bytes(23)), "refused 7 0")
admit(image([record(FIXED_SIZE_BINARY, 2, a=40, p=3)], bytes(6)), "admitted 1")
admit(image([record(FIXED_SIZE_BINARY, 2, a=40, p=3)], bytes(5)), "refused 7 0")
admit(image([record(VIEW, 1, tab=40, a=40)], bytes(16)), "admitted 1")
admit(image([record(VIEW, 1, tab=40, a=40)], bytes(15)), "refused 7 0")
# a data buffer that no view names: the pair at 40, the buffer at 48
admit(image([record(VIEW, tab=40, a=48, cnt=1)], pairs((48, 2)), b"ab"), "admitted 1")
admit(image([record(VIEW, tab=40, a=48, cnt=1)], pairs((48, 2)), b"a"), "refused 7 0")
admit(image([record(VIEW, tab=40, a=40, cnt=1)], pairs((48, 0))), "admitted 1")  # no bytes, at the end
admit(image([record(VIEW, tab=40, a=40, cnt=1)], pairs((49, 0))), "refused 7 0")  # no bytes, past the end
admit(image([record(VIEW, tab=40, a=40, cnt=1)], pairs((U32, 1))), "refused 7 0")  # the sum is 2^32
admit(image([record(VIEW, tab=40, a=40, cnt=2)], pairs((0, 0), (49, 8))), "refused 7 0")  # the second pair
# children: TAB at 76, buffers from 80 on
admit(image([record(DICTIONARY, 1, a=80, p=2, tab=76, cnt=1), nulls(1)], children(1), bytes(2)), "admitted 2")
admit(image([record(DICTIONARY, 1, a=80, p=2, tab=76, cnt=1), nulls(1)], children(1), bytes(1)), "refused 7 0")
admit(image([record(LIST, 1, a=80, p=4, tab=76, cnt=1), nulls(0)], children(1), bytes(8)), "admitted 2")
admit(image([record(LIST, 1, a=80, p=4, tab=76, cnt=1), nulls(0)], children(1), bytes(7)), "refused 7 0")
# a list view has as many offsets as elements; here A is whole and B is not, then the other way
admit(image([record(LIST_VIEW, 1, a=80, b=84, p=4, tab=76, cnt=1), nulls(0)], children(1), bytes(8)), "admitted 2")
admit(image([record(LIST_VIEW, 1, a=80, b=84, p=4, tab=76, cnt=1), nulls(0)], children(1), bytes(7)), "refused 7 0")
admit(image([record(LIST_VIEW, 1, a=84, b=80, p=4, tab=76, cnt=1), nulls(0)], children(1), bytes(7)), "refused 7 0")
admit(image([record(MAP, 1, a=84, tab=76, cnt=2), nulls(0)], children(1, 1), bytes(8)), "admitted 2")
admit(image([record(MAP, 1, a=84, tab=76, cnt=2), nulls(0)], children(1, 1), bytes(7)), "refused 7 0")
# run ends are as many as the child's rows, here 2, whatever ROWS is
admit(image([record(RUN_END, 1, a=80, p=2, tab=76, cnt=1), nulls(2)], children(1), little(2, 1, 2)), "admitted 2")
admit(image([record(RUN_END, 1, a=80, p=2, tab=76, cnt=1), nulls(2)], children(1), little(2, 1, 2)[:3]),
      "refused 7 0")
# a run-end column has no bitmap, whatever NULLS is
admit(image([record(RUN_END, 1, nulls=U32, a=80, p=2, tab=76, cnt=1), nulls(1)], children(1), little(2, 1)), "admitted 2")
# bitmaps of kinds that have no buffer of their own
admit(image([record(STRUCT, 1, nulls=40)], b"\0"), "admitted 1")
admit(image([record(STRUCT, 1, nulls=40)]), "refused 7 0")
admit(image([record(FIXED_SIZE_LIST, 9, nulls=80, tab=76, cnt=1), nulls(0)], children(1), bytes(1)), "refused 7 0")

title("7: no bytes, but a place past the end")
admit(image([record(NUMBER, a=41, p=1)]), "refused 7 0")
admit(image([record(NUMBER, nulls=40, a=40, p=1)]), "admitted 1")
admit(image([record(NUMBER, nulls=41, a=40, p=1)]), "refused 7 0")
admit(image([record(FIXED_SIZE_BINARY, 3, a=40, p=0)]), "admitted 1")
admit(image([record(FIXED_SIZE_BINARY, 3, a=41, p=0)]), "refused 7 0")
admit(image([record(RUN_END, a=81, p=2, tab=76, cnt=1), nulls(0)], children(1)), "refused 7 0")

# ---------------------------------------------------------------------------
title("8: offsets")
admit(image([record(UTF8, 0, a=40, b=44, p=4)], little(4, -1)), "refused 8 0")  # the only one, with no rows
admit(image([record(UTF8, 2, a=40, b=52, p=4)], little(4, 0, 3, 2), b"abc"), "refused 8 0")  # falls
admit(image([record(UTF8, 2, a=40, b=52, p=4)], little(4, 1, 1, 1), b"abc"), "admitted 1")  # need not rise, nor begin at 0
admit(image([record(UTF8, 2, a=40, b=52, p=4)], little(4, -2, -1, 0)), "refused 8 0")  # rises, but from below 0
admit(image([record(BINARY, 0, a=40, b=48, p=8)], little(8, 1 << 63)), "refused 8 0")  # negative in 8 bytes
# offsets before START are not looked at: -1, then 9 and 0
admit(image([record(UTF8, 1, 1, a=40, b=52, p=4)], little(4, -1, 0, 3), b"abc"), "admitted 1")
admit(image([record(UTF8, 1, 1, a=40, b=52, p=4)], little(4, 9, 0, 3), b"abc"), "admitted 1")
admit(image([record(UTF8, 1, 1, a=40, b=52, p=4)], little(4, 0, 3, 2), b"abc"), "refused 8 0")  # the last pair counts
# a row marked null falls all the same: offsets at 40, a bitmap of one 0 bit at 48, data at 49
admit(image([record(UTF8, 1, nulls=48, a=40, b=49, p=4)], little(4, 3, 0), b"\0", b"abc"), "refused 8 0")
admit(image([record(LIST, 0, a=80, p=4, tab=76, cnt=1), nulls(9)], children(1), little(4, -1)), "refused 8 0")
admit(image([record(LIST, 2, a=80, p=8, tab=76, cnt=1), nulls(9)], children(1), little(8, 0, 2, 1)), "refused 8 0")
admit(image([record(LIST, 1, 2, a=80, p=4, tab=76, cnt=1), nulls(9)], children(1), little(4, 99, -5, 2, 4)),
      "admitted 2")  # START 2: only the offsets 2 and 4 are looked at
admit(image([record(MAP, 2, a=84, tab=76, cnt=2), nulls(9)], children(1, 1), little(4, 0, 2, 1)), "refused 8 0")
admit(image([record(MAP, 0, a=84, tab=76, cnt=2), nulls(9)], children(1, 1), little(4, -1)), "refused 8 0")


def runs(width, ends, rows, start=0):
    """A run-end column with a Null child of as many rows as there are ends."""
    return image([record(RUN_END, rows, start, a=80, p=width, tab=76, cnt=1), nulls(len(ends))],
                 children(1), little(width, *ends))


title("8: run ends")
admit(runs(2, [0], 0), "refused 8 0")  # not above 0, though there are no rows
admit(runs(2, [1], 0), "admitted 2")
admit(runs(2, [-1], 0), "refused 8 0")
admit(runs(2, [0x8000], 1), "refused 8 0")  # negative in 2 bytes
admit(runs(4, [0x8000], 1), "admitted 2")  # and not in 4
admit(runs(8, [1 << 63], 1), "refused 8 0")
admit(runs(2, [2, 2], 2), "refused 8 0")  # equal
admit(runs(2, [3, 2], 2), "refused 8 0")  # falling
admit(runs(2, [2, 5, 4], 2), "refused 8 0")  # all ends count, also past those the rows need
admit(runs(2, [2, 1, 5], 1, 3), "refused 8 0")  # and before START

# ---------------------------------------------------------------------------
title("9: text and binary")
# offsets 0 and 3 at 40, data at 48
admit(image([record(UTF8, 1, a=40, b=48, p=4)], little(4, 0, 3), b"abc"), "admitted 1")
admit(image([record(UTF8, 1, a=40, b=48, p=4)], little(4, 0, 3), b"ab"), "refused 9 0")
admit(image([record(UTF8, 0, a=40, b=44, p=4)], little(4, 0)), "admitted 1")
admit(image([record(UTF8, 0, a=40, b=45, p=4)], little(4, 0)), "refused 9 0")  # 45 + 0 passes 44
admit(image([record(UTF8, 0, a=40, b=44, p=4)], little(4, 1)), "refused 9 0")  # no rows: the offset at START is the last
admit(image([record(UTF8, 0, a=40, b=U32, p=4)], little(4, 1)), "refused 9 0")  # the sum is 2^32
admit(image([record(UTF8, 0, a=40, b=0, p=4)], little(4, 0x7FFF_FFFF)), "refused 9 0")  # not negative
admit(image([record(BINARY, 0, a=40, b=0, p=8)], little(8, 1 << 32)), "refused 9 0")  # 0 in its low 4 bytes
admit(image([record(BINARY, 0, a=40, b=48, p=8)], little(8, (1 << 63) - 1)), "refused 9 0")
# the last offset is number S, not number ROWS: START 1, offsets 0, 1, 3 at 40, data at 52
admit(image([record(BINARY, 1, 1, a=40, b=52, p=4)], little(4, 0, 1, 3), b"ab"), "refused 9 0")
# offsets after S are not looked at
admit(image([record(BINARY, 1, a=40, b=52, p=4)], little(4, 0, 2, 9), b"ab"), "admitted 1")
# a row marked null counts: bitmap of one 0 bit at 48
admit(image([record(UTF8, 1, nulls=48, a=40, b=49, p=4)], little(4, 0, 3), b"\0", b"ab"), "refused 9 0")

title("9: lists, maps, fixed-size lists, structs")
admit(image([record(LIST, 1, a=80, p=4, tab=76, cnt=1), nulls(3)], children(1), little(4, 0, 3)), "admitted 2")
admit(image([record(LIST, 1, a=80, p=4, tab=76, cnt=1), nulls(2)], children(1), little(4, 0, 3)), "refused 9 0")
# a child's rows are its ROWS; its START adds none
admit(image([record(LIST, 1, a=80, p=4, tab=76, cnt=1), record(NULL, 2, 9)], children(1), little(4, 0, 3)),
      "refused 9 0")
# a map: TAB at 112, offsets at 120; keys of 3 rows and values of 2, then the other way
admit(image([record(MAP, 1, a=120, tab=112, cnt=2), nulls(3), nulls(2)], children(1, 2), little(4, 0, 2)), "admitted 3")
admit(image([record(MAP, 1, a=120, tab=112, cnt=2), nulls(3), nulls(2)], children(1, 2), little(4, 0, 3)), "refused 9 0")
admit(image([record(MAP, 1, a=120, tab=112, cnt=2), nulls(2), nulls(3)], children(1, 2), little(4, 0, 3)), "refused 9 0")
# fixed-size lists of 2: START 1 and ROWS 2 are 3 elements, 6 child rows
admit(image([record(FIXED_SIZE_LIST, 2, 1, p=2, tab=76, cnt=1), nulls(6)], children(1)), "admitted 2")
admit(image([record(FIXED_SIZE_LIST, 2, 1, p=2, tab=76, cnt=1), nulls(5)], children(1)), "refused 9 0")
admit(image([record(FIXED_SIZE_LIST, 9, p=0, tab=76, cnt=1), nulls(0)], children(1)), "admitted 2")
admit(image([record(FIXED_SIZE_LIST, 16, p=65535, tab=76, cnt=1), nulls(1_048_560)], children(1)), "admitted 2")
admit(image([record(FIXED_SIZE_LIST, 16, p=65535, tab=76, cnt=1), nulls(1_048_559)], children(1)), "refused 9 0")
admit(image([record(FIXED_SIZE_LIST, MOST_ROWS, p=4096, tab=76, cnt=1), nulls(0)], children(1)),
      "refused 9 0")  # the product is 2^32
# a struct of START 1 and ROWS 2 needs 3 rows of each child; null marks change nothing
admit(image([record(STRUCT, 2, 1, tab=112, cnt=2), nulls(3), nulls(3)], children(1, 2)), "admitted 3")
admit(image([record(STRUCT, 2, 1, tab=112, cnt=2), nulls(3), nulls(2)], children(1, 2)), "refused 9 0")
admit(image([record(STRUCT, 2, 1, nulls=120, tab=112, cnt=2), nulls(2), nulls(3)], children(1, 2), b"\0"), "refused 9 0")


def keys(width, signed, values, child_rows, start=0, valid=None):
    """A dictionary of these keys at 80 whose values are Null; its bitmap, if any, is behind them."""
    rows = len(values) - start
    place = 80 + width * len(values) if valid else 0
    return image([record(DICTIONARY, rows, start, nulls=place, a=80, b=signed, p=width, tab=76, cnt=1),
                  nulls(child_rows)],
                 children(1), little(width, *values), bits(valid or ""))


title("9: dictionary keys")
admit(keys(1, 0, [0, 2], 3), "admitted 2")
admit(keys(1, 0, [0, 3], 3), "refused 9 0")  # the child's rows are 0 to 2
admit(keys(1, 0, [0x80], 200), "admitted 2")  # unsigned, 128
admit(keys(1, 1, [0x80], 200), "refused 9 0")  # signed, -128
admit(keys(1, 1, [0x7F], 128), "admitted 2")  # signed, 127
admit(keys(2, 0, [0x8000], 40_000), "admitted 2")  # unsigned, 32,768
admit(keys(2, 1, [0x8000], 40_000), "refused 9 0")  # signed, -32,768
admit(keys(4, 0, [0x1_0000], 1), "refused 9 0")  # 65,536 is not 0
admit(keys(8, 0, [1 << 32], 1), "refused 9 0")  # 2^32 is not 0
admit(keys(8, 1, [U64], 1), "refused 9 0")  # -1
admit(keys(1, 0, [9, 0], 1, start=1), "admitted 2")  # a key before START is not looked at
admit(keys(1, 0, [0, 9], 1, valid="10"), "admitted 2")  # nor one that is marked null
admit(keys(1, 0, [9, 0], 1, valid="10"), "refused 9 0")
admit(keys(1, 0, [0, 0, 9], 1, start=1, valid="010"), "admitted 2")  # row 1 is marked by bit START + 1, 2
admit(keys(1, 0, [0] * 9 + [9], 1, valid="1111111110"), "admitted 2")  # bit 9 is in the second byte
admit(keys(1, 0, [0] * 9 + [9], 1, valid="0000000001"), "refused 9 0")
admit(keys(1, 0, [0] * 8 + [9], 1, valid="111111110"), "admitted 2")  # bit 8 is its lowest
admit(keys(1, 0, [0] * 8 + [9], 1, valid="000000001"), "refused 9 0")
admit(keys(1, 0, [0], 0), "refused 9 0")  # a child of no rows has no row 0
admit(keys(1, 0, [0], 0, valid="0"), "admitted 2")


def spans(width, offsets, sizes, child_rows, start=0, valid=None):
    """A list view of these spans over a Null child; its bitmap, if any, is behind them."""
    rows = len(offsets) - start
    size = width * len(offsets)
    place = 80 + 2 * size if valid else 0
    return image([record(LIST_VIEW, rows, start, nulls=place, a=80, b=80 + size, p=width, tab=76, cnt=1),
                  nulls(child_rows)],
                 children(1), little(width, *offsets), little(width, *sizes), bits(valid or ""))


title("9: list views")
admit(spans(4, [1], [2], 3), "admitted 2")  # rows 1 and 2
admit(spans(4, [2], [2], 3), "refused 9 0")  # row 3 is not there
admit(spans(4, [2, 0], [1, 3], 3), "admitted 2")  # out of order and overlapping
admit(spans(4, [2, 0], [1, 4], 3), "refused 9 0")  # row 1 ends at 4
admit(spans(4, [3], [0], 3), "admitted 2")  # the sum is 3
admit(spans(4, [4], [0], 3), "refused 9 0")  # the sum is 4, though there are no elements
admit(spans(4, [-1], [2], 3), "refused 9 0")  # negative offset, though the sum is 1
admit(spans(4, [2], [-1], 3), "refused 9 0")  # negative size, though the sum is 1
admit(spans(8, [1 << 32], [0], 3), "refused 9 0")
admit(spans(8, [(1 << 63) - 1], [(1 << 63) - 1], 3), "refused 9 0")
admit(spans(4, [9, 0], [9, 3], 3, start=1), "admitted 2")  # a span before START is not looked at
admit(spans(4, [0, -7], [3, -9], 3, valid="10"), "admitted 2")  # nor one that is marked null
admit(spans(4, [0, -7], [3, -9], 3, valid="01"), "refused 9 0")

title("9: runs")
admit(runs(2, [2, 5], 5), "admitted 2")  # the last run ends at S
admit(runs(2, [2, 5], 6), "refused 9 0")
admit(runs(2, [2, 5], 3, 2), "admitted 2")  # START counts: S is 5
admit(runs(2, [2, 5], 4, 2), "refused 9 0")  # S is 6
admit(runs(2, [], 0), "admitted 2")  # S is 0, no run is needed
admit(runs(2, [], 1), "refused 9 0")
admit(runs(2, [], 0, 1), "refused 9 0")  # no rows, but S is 1


def viewed(rows, made, data=b"", start=0, valid=None, length=None):
    """Views at 40 and behind them a table of one pair and its data buffer.

    `length` is the length that the pair tells, if it is not that of the data.
    A bitmap of one byte, if there is one, comes last.
    """
    table = 40 + len(made)
    end = table + 8 + len(data)
    told = len(data) if length is None else length
    return image([record(VIEW, rows, start, nulls=end if valid else 0, a=40, tab=table, cnt=1)],
                 made, pairs((table + 8, told)), data, bits(valid or ""))


TEXT = b"abcdefghijklmnop"  # 16 bytes

title("9: views")
admit(viewed(1, long_view(13, b"abcd", 0, 0), TEXT[:13]), "admitted 1")  # ends where the buffer does
admit(viewed(1, long_view(13, b"abcd", 0, 0), TEXT[:12]), "refused 9 0")
admit(viewed(1, long_view(13, b"defg", 0, 3), TEXT), "admitted 1")  # 3 + 13 is 16
admit(viewed(1, long_view(13, b"efgh", 0, 4), TEXT), "refused 9 0")  # 4 + 13 passes 16
admit(viewed(1, long_view(13, b"abcd", 0, 0), TEXT, length=12), "refused 9 0")  # the bytes are there, the pair is shorter
admit(viewed(1, long_view(13, b"abcd", 1, 0), TEXT), "refused 9 0")  # there is no pair 1
admit(image([record(VIEW, 1, a=40, tab=40)], long_view(13, b"abcd", 0, 0)), "refused 9 0")  # there are no pairs
admit(viewed(1, long_view(U32, b"abcd", 0, 0), TEXT), "refused 9 0")  # a length of 2^32 - 1
admit(viewed(1, long_view(13, b"abcd", 0, 0xFFFF_FFF3), TEXT), "refused 9 0")  # the sum is 2^32
admit(viewed(1, long_view(U32, b"....", 9, 9) + short_view(b"ok"), start=1), "admitted 1")  # before START
admit(viewed(2, long_view(U32, b"....", 9, 9) + short_view(b"ok"), valid="01"), "admitted 1")  # marked null

# ---------------------------------------------------------------------------
title("10: views of 12 and 13 bytes, padding and prefix")
admit(viewed(1, short_view(TEXT[:12])), "admitted 1")  # 12 bytes have no padding
admit(viewed(1, little(4, 11) + TEXT[:12]), "refused 10 0")  # 11 bytes and one of padding that is not 0
admit(viewed(1, little(4, 0) + bytes(12)), "admitted 1")
admit(viewed(1, little(4, 0) + bytes(11) + b"\1"), "refused 10 0")
admit(viewed(1, little(4, 0) + b"\1" + bytes(11)), "refused 10 0")
admit(viewed(1, little(4, 13) + TEXT[:12]), "refused 9 0")  # 13 bytes are long: "efgh" is no data buffer's number
admit(viewed(1, long_view(13, b"abce", 0, 0), TEXT), "refused 10 0")  # the bytes begin with abcd
admit(viewed(1, long_view(13, b"abcd", 0, 1), TEXT), "refused 10 0")  # the bytes begin with bcde
admit(viewed(1, long_view(13, b"bcde", 0, 1), TEXT), "admitted 1")
admit(viewed(2, little(4, 0) + TEXT[:12] + long_view(13, b"xxxx", 0, 0), TEXT, valid="00"), "admitted 1")  # marked null
admit(viewed(1, little(4, 0) + TEXT[:12] + short_view(b"ok"), start=1), "admitted 1")  # before START

# ---------------------------------------------------------------------------
title("order: within a node the lower number, whichever row has it")
admit(viewed(2, little(4, 0) + TEXT[:12] + long_view(13, b"abcd", 1, 0), TEXT), "refused 9 0")  # row 0 breaks 10, row 1 breaks 9
admit(image([record(0, MOST_ROWS + 1)]), "refused 2 0")  # 2 and 3
admit(image([record(STRUCT, MOST_ROWS + 1, cnt=256)]), "refused 3 0")  # 3 and 4
admit(image([record(STRUCT, tab=40, cnt=2)], children(0)), "refused 4 0")  # child 0 breaks 5, but the table is cut
admit(image([record(STRUCT, nulls=99, tab=40, cnt=1)], children(0)), "refused 5 0")  # 5 and 7
records, tables = chain(17)
records[0] = record(STRUCT, nulls=U32, tab=616, cnt=1)  # the tables stand at 4 + 36 x 17
admit(image(records, tables), "refused 6 0")  # 6 and 7
admit(image([record(UTF8, 1, nulls=99, a=40, b=48, p=4)], little(4, -1, 0)), "refused 7 0")  # 7 and 8
admit(image([record(UTF8, 2, a=40, b=52, p=4)], little(4, 0, 99, 98)), "refused 8 0")  # 8 and 9
title("order: the last node before the first, whatever the numbers")
admit(image([record(0), record(VIEW, 1, a=76, tab=76)], little(4, 0) + TEXT[:12]), "refused 10 1")  # node 0 breaks 2
admit(image([record(0), record(NULL, MOST_ROWS + 1), record(5)]), "refused 2 2")
admit(image([record(0), record(NULL, MOST_ROWS + 1), nulls(0)]), "refused 3 1")
# nodes that no parent lists are checked as well
admit(image([nulls(1), record(NUMBER, 1, a=76, p=1)]), "refused 7 1")

# ---------------------------------------------------------------------------
title("slots: numbers, with START 1 and a bitmap")
# elements 9, 255, 7, 128 at 40, bitmap at 44: bit 0 is no row's, row 1 is marked by bit 2
admit(image([record(NUMBER, 3, 1, nulls=44, a=40, p=1)], little(1, 9, 255, 7, 128), bits("0101")), "admitted 1")
slot(0, 0, "number 1 255")
slot(0, 1, "null")
slot(0, 2, "number 1 128")
slot(0, 3, "refused 17")
slot(0, U64, "refused 17")
slot(1, 0, "refused 13")
slot(U64, 0, "refused 13")
slot(1, U64, "refused 13")  # 13 comes before 17
slot("0x0", "0x2", "number 1 128")
slot(0, 0x1_0000_0000, "refused 17")  # 2^32 is not row 0
slot(0x1_0000_0000, 0, "refused 13")  # nor node 0
# four columns, buffers from 148 on: 2 x 2 bytes, 4 bytes, 2 x 8 bytes; node 0 lies over the node count
admit(image([record(NUMBER, 4, a=0, p=1), record(NUMBER, 1, 1, a=148, p=2),
             record(NUMBER, 1, a=152, p=4), record(NUMBER, 2, a=156, p=8)],
            little(2, 1, 0x1234), little(4, 0xFFFF_FFFE), little(8, U64, 0x0102_0304_0506_0708)), "admitted 4")
slot(0, 0, "number 1 4")  # N is 4: bytes 4, 0, 0, 0
slot(0, 3, "number 1 0")
slot(1, 0, "number 2 4660")  # 0x1234
slot(2, 0, "number 4 4294967294")
slot(3, 0, "number 8 18446744073709551615")
slot(3, 1, "number 8 72623859790382856")  # 0x0102030405060708

title("slots: floats, as bits; minus zero stays as it is")
# 2 x 2 bytes at 112, 2 x 4 at 116, 2 x 8 at 124, the bitmap of node 2 at 140
admit(image([record(FLOAT, 2, a=112, p=2), record(FLOAT, 1, 1, a=116, p=4), record(FLOAT, 2, nulls=140, a=124, p=8)],
            little(2, 0x8000, 0x0001), little(4, 0, 0x3F80_0000),
            little(8, 0x3FF8_0000_0000_0000, 0x7FF8_0000_0000_0001), bits("10")), "admitted 3")
slot(0, 0, "float 2 8000")
slot(0, 1, "float 2 0001")
slot(1, 0, "float 4 3f800000")
slot(2, 0, "float 8 3ff8000000000000")
slot(2, 1, "null")

title("slots: Booleans; START 6, so rows 0 to 4 are bits 6 to 10 of A and of the bitmap")
admit(image([record(BOOLEAN, 5, 6, nulls=42, a=40)], bits("000000 01010"), bits("111111 11011")), "admitted 1")
slot(0, 0, "boolean false")
slot(0, 1, "boolean true")
slot(0, 2, "null")  # bit 8, the lowest of the second byte
slot(0, 3, "boolean true")
slot(0, 4, "boolean false")

title("slots: text and binary with their places")
# START 1 and ROWS 3 make 5 offsets at 40, the bitmap at 60, data at 61; rows are [1,3), [3,3), and null [3,5)
admit(image([record(UTF8, 3, 1, nulls=60, a=40, b=61, p=4)],
            little(4, 0, 1, 3, 3, 5), bits("1110"), b"xhi\xff\xfe"), "admitted 1")  # not UTF-8, and not checked
slot(0, 0, "text 62 6869")  # 61 + 1
slot(0, 1, "text 64")  # 61 + 3, no bytes
slot(0, 2, "null")  # bit 3
admit(image([record(UTF8, 2, a=40, b=52, p=4)], little(4, 0, 2, 4), b"\xc3\xa9\xff\xfe"), "admitted 1")
slot(0, 0, "text 52 c3a9")
slot(0, 1, "text 54 fffe")
# offsets of 8 bytes at 40, data at 64
admit(image([record(BINARY, 2, a=40, b=64, p=8)], little(8, 0, 0, 3), b"\0\1\2"), "admitted 1")
slot(0, 0, "binary 64")
slot(0, 1, "binary 64 000102")
# fixed-size binary: three values of 3 bytes at 40, START 1, bitmap at 49
admit(image([record(FIXED_SIZE_BINARY, 2, 1, nulls=49, a=40, p=3)], b"aaabbbccc", bits("010")), "admitted 1")
slot(0, 0, "binary 43 626262")
slot(0, 1, "null")
admit(image([record(FIXED_SIZE_BINARY, 2, a=40, p=0)]), "admitted 1")
slot(0, 1, "binary 40")
# the longest: one value of 65,535 bytes, and a byte short
LONGEST = bytes(range(256)) * 256
admit(image([record(FIXED_SIZE_BINARY, 1, a=40, p=65535)], LONGEST[:65534]), "refused 7 0")
admit(image([record(FIXED_SIZE_BINARY, 1, a=40, p=65535)], LONGEST[:65535]), "admitted 1")
slot(0, 0, "binary 40 " + LONGEST[:65535].hex())

title("slots: views; START 1, so row r is the 16 bytes at 56 + 16 r")
# 6 views at 40, the table at 136, two data buffers at 152 (16 bytes) and 168 (13 bytes), the bitmap at 181
admit(image([record(VIEW, 5, 1, nulls=181, a=40, tab=136, cnt=2)],
            long_view(U32, b"....", 9, 9), short_view(b""), short_view(b"NOAA 19"), short_view(TEXT[:12]),
            long_view(13, b"cdef", 0, 2), long_view(13, b"ISS ", 1, 0),
            pairs((152, 16), (168, 13)), TEXT, b"ISS (ZARYA) 1", bits("111111")), "admitted 1")
slot(0, 0, "view 60")  # no bytes, at 56 + 4
slot(0, 1, "view 76 4e4f4141203139")
slot(0, 2, "view 92 6162636465666768696a6b6c")  # 12 bytes, in the view
slot(0, 3, "view 154 636465666768696a6b6c6d6e6f")  # 13 bytes, at 152 + 2
slot(0, 4, "view 168 49535320285a41525941292031")
slot(0, 5, "refused 17")
admit(viewed(2, long_view(U32, b"....", 9, 9) + short_view(b"ok"), valid="01"), "admitted 1")
slot(0, 0, "null")
slot(0, 1, "view 60 6f6b")

title("slots: kinds that have children answer their kind, or null by their own bitmap alone")
# nine nodes, records up to 328; node 8 is a number column of 4 rows, the first of them marked null.
# 328: the tables; node 0 lists 1, 3, 6 | 356: ends 2, 3 | 360: numbers 1 2 3 4 | 364: its bitmap
# 365: bitmap of node 0 | 366: keys 0, 3 | 368: offsets 0, 1, 4 | 380: spans 2+2, 0+1 | 396: bitmap 01
admit(image([record(STRUCT, 2, nulls=365, tab=328, cnt=3),
             record(DICTIONARY, 2, nulls=396, a=366, b=1, p=1, tab=348, cnt=1),
             record(LIST, 2, nulls=396, a=368, p=4, tab=348, cnt=1),
             record(LIST_VIEW, 2, nulls=396, a=380, b=388, p=4, tab=348, cnt=1),
             record(MAP, 2, nulls=396, a=368, tab=348, cnt=2),
             record(FIXED_SIZE_LIST, 2, nulls=396, p=2, tab=348, cnt=1),
             record(RUN_END, 3, nulls=396, a=356, p=2, tab=344, cnt=1),
             record(NULL, 2, nulls=396),
             record(NUMBER, 4, nulls=364, a=360, p=1)],
            children(1, 3, 6, 0), children(7), children(8, 8),
            little(2, 2, 3), little(1, 1, 2, 3, 4), bits("0111"), bits("10"), little(1, 0, 3),
            little(4, 0, 1, 4), little(4, 2, 0), little(4, 2, 1), bits("01")), "admitted 9")
slot(0, 0, "kind 11")
slot(0, 1, "null")
slot(1, 0, "null")
slot(1, 1, "kind 10")
slot(2, 0, "null")
slot(2, 1, "kind 12")
slot(3, 0, "null")
slot(3, 1, "kind 13")
slot(4, 0, "null")
slot(4, 1, "kind 14")
slot(5, 0, "null")
slot(5, 1, "kind 15")
slot(6, 0, "kind 16")  # NULLS of a run-end column is not read
slot(6, 2, "kind 16")
slot(6, 3, "refused 17")
slot(7, 0, "kind 1")  # nor that of a Null column
slot(7, 1, "kind 1")
slot(8, 0, "null")
slot(8, 3, "number 1 4")
slot(9, 0, "refused 13")
# a dictionary whose key is not marked null answers its kind, though the value it names is null:
# key 0 at 80, values at 81, their bitmap at 82
admit(image([record(DICTIONARY, 1, a=80, p=1, tab=76, cnt=1), record(NUMBER, 1, nulls=82, a=81, p=1)],
            children(1), little(1, 0), little(1, 5), bits("0")), "admitted 2")
slot(0, 0, "kind 10")
slot(1, 0, "null")

# ---------------------------------------------------------------------------
title("the image that docs/FORMAT.md walks through")
# TAB at 76, offsets at 80, sizes at 96, numbers at 112, bitmap at 122; START is 1 in both nodes
admit(image([record(LIST_VIEW, 3, 1, nulls=122, a=80, b=96, p=4, tab=76, cnt=1), record(NUMBER, 4, 1, a=112, p=2)],
            children(1), little(4, 9, 2, -1, 0), little(4, 9, 2, 7, 3),
            little(2, 0xFFFF, 100, 250, 300, 65535), bits("0101")), "admitted 2")
slot(0, 0, "kind 13")
slot(0, 1, "null")
slot(0, 2, "kind 13")
slot(1, 0, "number 2 100")
slot(1, 3, "number 2 65535")
slot(1, 4, "refused 17")

title("a refused image leaves the one before it")
admit(bytes(3), "refused 1 0")
slot(1, 1, "number 2 250")
admit(image([record(NUMBER, 1, a=41, p=1)], b"\7"), "refused 7 0")
slot(0, 1, "null")
slot(1, 2, "number 2 300")

# ---------------------------------------------------------------------------
title("what is not a command")
line("image", "refused 1 0")  # no digits are no bytes
line("image 0", "not understood")  # two digits a byte
line("image 0g", "not understood")
line("slot", "not understood")
line("slot 0", "not understood")
line("slot 0 0 0", "not understood")
line("slot 0 -1", "not understood")
line("slot 0 one", "not understood")
line("slot 0 0x", "not understood")
line("slot 0 18446744073709551616", "not understood")  # does not fit in 64 bits
line("slots 0 0", "not understood")
slot(1, 2, "number 2 300")  # none of them changed the image

title("an image from a file: the example, of which the answers are those that its own description gives")
line("image-file passes.img", "admitted 28")
slot(0, 5, "null")
slot(1, 0, "view 1108 4e4f4141203139")
slot(1, 3, "view 1232 46554e637562652d312028414f2d373329")
slot(2, 1, "number 8 1790002810")
slot(3, 3, "float 4 80000000")
slot(19, 0, "kind 12")
slot(19, 5, "null")
slot(21, 1, "binary 2014")
slot(21, 3, "binary 2026 86a240404040ff01")
slot(22, 4, "text 2124 433a5c7265635c35")
slot(24, 3, "number 2 62841")  # -2695
slot(25, 7, "kind 13")
slot(26, 1, "float 2 8000")
slot(27, 5, "binary 2505 deadbeef")
line("image-file no-such.img", "unreadable no-such.img")
line("image-file empty.img", "refused 1 0")  # no bytes at all
slot(0, 0, "kind 11")  # and the example stays

# ---------------------------------------------------------------------------
title("a run goes on from image to image; it was begun before the first")
run("words", "words 0000000000000007 00000000000000ff ffffffffffffffff")
run("read 0", "no column yet")


def fleet():
    """Fourteen columns, each node's bytes and then what its rows mean."""
    made = Builder(14)

    def put(node, kind, rows, **fields):
        made.record(node, kind, rows=rows, **fields)

    # lists of 2, 0 and 2 numbers
    put(0, LIST, 3, p=4, a=made.put(little(4, 0, 2, 2, 4)), tab=made.put(children(4)), cnt=1)
    put(1, NUMBER, 3, p=2, a=made.put(little(2, 258, 999, 7)), nulls=made.put(bits("101")))
    put(2, UTF8, 3, p=4, a=made.put(little(4, 0, 3, 3, 3)), b=made.put(b"ISS"), nulls=made.put(bits("110")))
    put(3, BOOLEAN, 4, a=made.put(bits("1001")), nulls=made.put(bits("1101")))
    put(4, NUMBER, 4, p=1, a=made.put(little(1, 5, 6, 7, 8)))
    put(5, DICTIONARY, 3, p=1, a=made.put(little(1, 1, 0, 1)), tab=made.put(children(6)), cnt=1)
    put(6, FLOAT, 2, p=4, a=made.put(little(4, 0x3FC0_0000, 0x8000_0000)))  # 1.5 and minus zero
    # a struct above as many rows as there may be, of which it reaches 3
    put(7, STRUCT, 3, tab=made.put(children(8)), cnt=1)
    put(8, NULL, MOST_ROWS)
    put(9, NULL, 0)
    # two levels of children
    put(10, STRUCT, 3, tab=made.put(children(11, 12)), cnt=2)
    put(11, LIST, 3, p=4, a=made.put(little(4, 0, 1, 1, 4)), tab=made.put(children(13)), cnt=1)
    put(12, NUMBER, 5, p=1, a=made.put(little(1, 10, 11, 12, 13, 14)))
    put(13, NUMBER, 4, p=1, a=made.put(little(1, 20, 21, 22, 23)))

    def bytes_of(*values):
        return tuple(Number(1, value) for value in values)

    few = Column(list(bytes_of(5, 6, 7, 8)))
    floats = Column([Float(4, 0x3FC0_0000), Float(4, 0x8000_0000)])
    most = Column([Nothing()] * MOST_ROWS)
    fields = Column(list(bytes_of(10, 11, 12, 13, 14)))
    below = Column(list(bytes_of(20, 21, 22, 23)))
    lists = [Sequence(bytes_of(20)), Sequence(()), Sequence(bytes_of(21, 22, 23))]
    inner = Column(lists, [below])
    return made.image(), [
        Column([Sequence(bytes_of(5, 6)), Sequence(()), Sequence(bytes_of(7, 8))], [few]),
        Column([Number(2, 258), Null(), Number(2, 7)]),
        Column([Text(b"ISS"), Text(b""), Null()]),
        Column([Boolean(True), Boolean(False), Null(), Boolean(True)]),
        few,
        Column([Refer(floats.rows[1]), Refer(floats.rows[0]), Refer(floats.rows[1])], [floats]),
        floats,
        Column([Struct((Nothing(),))] * 3, [most]),
        most,
        Column([]),
        Column([Struct((lists[row], fields.rows[row])) for row in range(3)], [inner, fields]),
        inner,
        fields,
        below,
    ]


title("a column needs as many words of work as stand below it, and 1,048,576 are lent at first")
admit_columns(*fleet())
accepted("column 7")
run("claimed 1", "ok")
refused(16, "column 7")
run("claimed 0", "ok")
accepted("column 7")
read_all()

# ---------------------------------------------------------------------------
STATES = ["fnv1a", "fnv1a 0", "fnv1a 0xffffffffffffffff", "siphash 0 0",
          "siphash 0x0706050403020100 0x0f0e0d0c0b0a0908"]
THREES = [0, 1, 2, 5, 7, 10, 11]  # the columns of three rows

title("under each hash state: every column as the first of a run, and then all of them in turn")
for state in STATES:
    run(f"state {state}", "ok")
    run("words", "no run")  # a state ends the run
    for node in THREES:
        accepted("begin 0 1 0x8000000000000000", f"column {node}")
        run("words")
    read_all()
    for node in THREES:
        accepted(f"column {node}")
        run("words")
    read_all()

title("a list chooses the rows that are met, in a first column and in later ones, in any order and more than once")
for state in ["fnv1a", "siphash 1 2"]:
    run(f"state {state}", "ok")
    accepted("begin 1 2 3", "column 1 list 2 0 1", "column 3 list 3 3 0", "column 10 list 0 0 0", "column 8 list 1048575 0 5")
    read_all()
    accepted("begin 1", "column 2 list 1", "column 4 list 3", "column 0 list 0")
    read_all()
    accepted("begin 1 2 3 4 5", "column 6 list 1 0 1 0 1", "column 0 list 2 2 1 0 0")
    read_all()

title("the worked numbers of docs/ROW_NUMBERS.md that one column or two make")
run("state fnv1a 0", "ok")
# 0: a struct without fields | 1: a struct marked null | 2: true | 3: 1 and a null number | 4: minus zero, 8 bytes
# 5: an empty list, two marked null numbers | 6: two marked null numbers | 7: a map of byte 1 to a marked null value
# 8: its keys | 9: its values
made = Builder(10)
made.record(0, STRUCT, rows=1)
made.record(1, STRUCT, rows=1, nulls=made.put(bits("0")))
made.record(2, BOOLEAN, rows=1, a=made.put(bits("1")))
made.record(3, NUMBER, rows=2, p=1, a=made.put(little(1, 1, 77)), nulls=made.put(bits("10")))
made.record(4, FLOAT, rows=1, p=8, a=made.put(little(8, 1 << 63)))
made.record(5, LIST, rows=2, p=4, a=made.put(little(4, 0, 0, 2)), tab=made.put(children(6)), cnt=1)
made.record(6, NUMBER, rows=2, p=2, a=made.put(little(2, 3, 4)), nulls=made.put(bits("00")))
made.record(7, MAP, rows=1, a=made.put(little(4, 0, 1)), tab=made.put(children(8, 9)), cnt=2)
made.record(8, NUMBER, rows=1, p=1, a=made.put(little(1, 1)))
made.record(9, NUMBER, rows=1, p=1, a=made.put(little(1, 9)), nulls=made.put(bits("0")))
KEYS, VALUES, MARKED = Column([Number(1, 1)]), Column([Null()]), Column([Null(), Null()])
admit_columns(made.image(), [
    Column([Struct(())]), Column([Null()]), Column([Boolean(True)]), Column([Number(1, 1), Null()]),
    Column([Float(8, 1 << 63)]), Column([Sequence(()), Sequence((Null(), Null()))], [MARKED]), MARKED,
    Column([Map(((Number(1, 1), Null()),))], [KEYS, VALUES]), KEYS, VALUES])
for entry, asked, worked in [(7, ["column 0"], 23532), (7, ["column 1"], 7), (7, ["column 5 list 0"], 7),
                             (0, ["column 5 list 1"], 884374), (0, ["column 7"], 1099511651484),
                             (5, ["column 3 list 1", "column 2"], 40681930267085),
                             (1, ["column 3 list 0"], 1099511628211),
                             (1, ["column 3 list 1", "column 3 list 0"], 0), (9, ["column 4"], 0)]:
    accepted(f"begin {entry}", *asked)
    run("read 0", f"{worked:016x} {len(asked)}")

# ---------------------------------------------------------------------------
title("keep: a row takes the number of the row that the list names; rows repeat, go away and change places")
run("state siphash 3 4", "ok")
admit_columns(*fleet())
accepted("begin 10 20 30", "column 1")
for command in ["keep 2 1 0", "keep 1 2 0", "keep 0 0 2", "keep 2 1 1", "keep 0 1 2"]:
    accepted(command)
    run("words")
accepted("column 2")
read_all()

title("fewer rows: the words past them stay, but are no rows any more")
accepted("begin 10 20 30", "column 1", "column 5", "keep 2 0")
run("words")
read_all()
accepted("column 6")  # of two rows
run("words")
accepted("keep 1", "column 2 list 0")
run("words")
refused(15, "keep 1", "keep 0 2")  # words that are there, but not rows
accepted("keep 0 0 0")  # as long as the entries
run("words")
accepted("column 1")
read_all()
refused(14, "keep 0 0 0 0")
run("room 5", "ok")
accepted("keep 2 0 0 1 1")
run("words")
accepted("column 12")  # of five rows
read_all()

title("a keep before the first column keeps entries, and the first column stays the first")
accepted("begin 10 20 30", "keep 2 2")
run("words", "words 000000000000001e 000000000000001e 000000000000001e")
run("read 0", "no column yet")
accepted("keep 0 1 0", "keep 1 0 2", "column 2")
read_all()

title("no rows: from begin, or by a keep of none, which leaves all words")
accepted("begin")
run("words", "words")
run("read 0", "no column yet")
refused(14, "keep 0", "column 1")  # a list longer than the entries; a column of three rows
accepted("column 9", "column 4 list", "keep", "column 0 list")
read_all()
accepted("begin 10 20 30", "column 1", "keep", "column 9", "column 4 list", "column 10 list")
run("words")
refused(15, "keep 0")  # there are entries, but no rows
refused(14, "column 1")
read_all()

# ---------------------------------------------------------------------------
title("refusals in checking order: the number is that of the first of those that apply, on a new run and on a begun one")
run("state fnv1a", "ok")
for first in [[], ["column 2", "column 10"]]:
    accepted("begin 1 2 3", *first)
    run("work 3", "ok")
    run("room 2", "ok")
    # fewer entries than rows, and: no such node; not so many rows; not so many in the list; a row that is not
    # there; less work than column 0 needs, which is 4
    refused(11, "column 14", "column 3", "column 1 list 0 1", "column 1 list 0 1 3", "column 0")
    refused(11, "keep 0 0 0", "keep 3", "keep 0 0 0 0 3")  # a longer list than the two entries; no such row; both
    run("claimed 3", "ok")
    refused(11, "keep 0", "keep", "column 1")  # less work; nothing else
    run("claimed 0", "ok")
    if first:
        refused(11, "read 0", "read 2", "read 3")  # also a row that is not there
    run("room 3", "ok")
    # no such node, and: a list of another length, a row that is not there in any column, little work
    refused(13, "column 14", "column 14 list 0", "column 14 list 4294967295 0 0", f"column {2**32}", f"column {U64} list 0 0 0")
    # another number of rows, and: a row that is not there, less work than the need
    refused(14, "column 3", "column 12", "column 9", "column 1 list 9", "column 0 list 0 1", "column 0 list 0 1 2 3",
            "column 1 list", "column 0 list 3 3 3 3")
    # a row that is not there, and less work than the need
    refused(15, "column 0 list 0 1 3", "column 0 list 3 0 0", "column 0 list 0 4294967295 0", "column 9 list 0 0 0",
            "column 1 list 1048576 0 0")
    refused(16, "column 0", "column 0 list 0 0 0", "column 10")  # the whole need, however few rows are met
    run("work 1", "ok")
    refused(14, "keep 0 0 0 0", "keep 0 0 0 3")  # longer than the entries, and: a row that is not there
    refused(15, "keep 3", "keep 0 3", "keep 4294967295", "keep 0 0 3")  # a row that is not there, and little work
    refused(16, "keep 0 0", "keep 0 1 2")
    if first:
        refused(17, "read 3", "read 4294967296", f"read {U64}")
    # none of these calls counted, moved a row, or kept any of the work
    run("work 7", "ok")
    accepted("column 10", "keep 0 1 2")
    read_all()

# ---------------------------------------------------------------------------
title("a claim is above what is claimed, and is given back: by calls that are accepted and by those that are refused")
accepted("begin 5 6 7")
for work, claimed, need in [(4, 0, 4), (10, 6, 4), (MOST_ROWS, MOST_ROWS - 4, 4)]:
    run(f"work {work}", "ok")
    run(f"claimed {claimed}", "ok")
    accepted("column 0", "column 0 list 2 1 0")  # they need the 4 that are left
    refused(16, "column 10")  # that needs 7
    accepted("column 0")
    run(f"claimed {claimed + 1}", "ok")
    refused(16, "column 0", "column 0 list 2 1 0")
    accepted("column 1")  # it needs none
    read_all()
accepted("begin 5 6 7 8")
for work, claimed in [(4, 0), (9, 5)]:
    run(f"work {work}", "ok")
    run(f"claimed {claimed}", "ok")
    accepted("keep 3 2 1 0", "keep 0 1 2 3")
    run(f"claimed {claimed + 1}", "ok")
    refused(16, "keep 3 2 1 0")
    accepted("keep 0 1 2")  # it needs 3
    accepted("column 1 list 0 1 2")
    run(f"claimed {claimed}", "ok")
    accepted("keep 0 1 2 2")
    read_all()

title("two levels: 3 rows of lists and 4 below them come to 7, more than the 5 rows of the other child")
accepted("begin 5 6 7")
run("claimed 0", "ok")
run("work 6", "ok")
refused(16, "column 10")
run("work 7", "ok")
accepted("column 10")
read_all()

title("the largest need: below node 0 are 15 levels, each of the most rows")
deep = [Nothing()]
for _ in range(15):
    deep.insert(0, Struct((deep[0],)))
columns = [Column([slot] * MOST_ROWS) for slot in deep]
for above, child in pairwise(columns):
    above.children = [child]
admit_columns(image(*chain(15, nulls(MOST_ROWS), rows=MOST_ROWS)), columns)
accepted("begin 0 7")
run("work 15728639", "ok")  # 15 x 1,048,576 and one less
refused(16, f"column 0 list 0 {MOST_ROWS - 1}")
accepted(f"column 1 list 0 {MOST_ROWS - 1}")
run("work 15728640", "ok")
accepted(f"column 0 list 0 {MOST_ROWS - 1}", "column 0 list 5 5")
read_all()
run("claimed 1", "ok")
refused(16, "column 0 list 5 5")
run("claimed 0", "ok")
admit_columns(*fleet())

title("an account that passes the work: what needs none is accepted, and nothing else")
for work, claimed in [(7, 8), (0, 1), (7, 2**32), (7, U64), (0, U64), (7, U64 - 3), (MOST_ROWS, U64 - 4)]:
    accepted("begin 5 6 7")
    run(f"work {work}", "ok")
    run(f"claimed {claimed}", "ok")
    accepted("column 1")
    refused(16, "column 0", "column 10", "keep 0", "keep 2 1 0")
    accepted("column 2 list 1 1 0")
    read_all()
    accepted("keep")
run("work 0", "ok")
run("claimed 0", "ok")
accepted("begin 5 6 7", "column 1", "column 4 list 0 0 3")
refused(16, "column 5", "keep 0")
accepted("keep")
run("work 1048576", "ok")

# ---------------------------------------------------------------------------
title("room: with fewer entries than rows nothing is accepted, and the words are there again afterwards")
accepted("begin 1 2 3", "column 1")
run("words")
for room in [2, 1, 0]:
    run(f"room {room}", "ok")
    refused(11, "column 1", "column 9", "keep 0", "keep", "read 0", "read 2")
run("room 3", "ok")
run("words")
accepted("column 5")
read_all()

title("room: words past the rows are zeros at first, are lent with the others, and stay")
run("room 5", "ok")
run("words")
accepted("column 2", "column 0 list 2 1 0")
run("words")
read_all()
refused(14, "column 12", "keep 0 0 0 0 0 0")  # five entries, but three rows
accepted("keep 2 2 2 2 2", "keep 0")
run("words")  # the four words past the row are as they were
run("room 2", "ok")
run("words")
accepted("keep 0 0", "column 6")
run("room 6", "ok")
run("words")  # the entries past the room were not touched, and one is new

title("begin lends as many words as it has entries")
accepted("begin 4 5")
run("words")
refused(14, "keep 0 0 0", "column 1")
accepted("column 6")
read_all()

# ---------------------------------------------------------------------------
title("255 columns are accepted, of every kind and with lists and without; the 256th is refused")
run("state siphash 0x10 0x20", "ok")
accepted("begin 1 2 3")
for number in range(255):
    node = THREES[number % len(THREES)]
    accepted(f"column {node} list {number % 3} 2 1" if number % 4 == 3 else f"column {node}")
read_all()
run("work 0", "ok")
# also: no such node; not so many rows; a row that is not there; little work; all of them
refused(12, "column 1", "column 14", "column 3", "column 1 list 0", "column 1 list 3 0 0", "column 0", "column 14 list 9")
run("room 2", "ok")
refused(11, "column 1", "column 14")  # fewer entries than rows come before the number of columns
run("room 3", "ok")
run("work 1048576", "ok")
accepted("keep 2 0 1")
refused(12, "column 1", "column 1 list 0 1 2")
accepted("keep 2")
read_all()
accepted("begin 1 2 3", "column 1")  # another run begins with no columns
read_all()

# ---------------------------------------------------------------------------
title("an image in the middle of a run: later columns ask of it, and the run goes on")
run("state fnv1a 99", "ok")
accepted("begin 1 2 3", "column 2", "column 10")
run("words")
admit_columns(image([record(NUMBER, 3, a=40, p=8)], little(8, 1, -1, 1 << 63)),
              [Column([Number(8, 1), Number(8, U64), Number(8, 1 << 63)])])
run("words")
refused(13, "column 1", "column 10")
accepted("column 0", "keep 2 1 0", "column 0 list 0 0 1")
read_all()
admit(bytes(3), "refused 1 0")  # a refused image leaves the one before it, and the run
run("words")
accepted("column 0")
slot(0, 1, f"number 8 {U64}")  # a slot that is asked for is none that is met
line("image-file no-such.img", "unreadable no-such.img")
line("image-file empty.img", "refused 1 0")  # no bytes at all
read_all()
admit_columns(*fleet())
accepted("column 5")
read_all()

title("a state ends the run, the same as before too; work and claimed do not")
run("work 1000", "ok")
run("claimed 10", "ok")
read_all()
run("state fnv1a 99", "ok")
for command in ["column 0", "keep", "read 0", "room 1", "words"]:
    run(command, "no run")
accepted("begin 1 2 3", "column 2", "column 10")
run("words")  # the numbers that the run before had
run("claimed 997", "ok")
refused(16, "column 0")  # 3 words are unclaimed
run("claimed 0", "ok")
run("work 1048576", "ok")

# ---------------------------------------------------------------------------
title("what is not a command of a run; the run is as it was")
run("words")
for command in [
        "state", "state fnv1", "state fnv1a x", "state fnv1a 1 2", "state fnv1a 18446744073709551616",
        "state siphash", "state siphash 1", "state siphash 1 x", "state siphash 1 2 3",
        "state siphash 18446744073709551616 0",
        "work", "work x", "work 1 2", "work -1", "work 16777217", f"work {U64}", f"work {U64 + 1}",  # too many words
        "claimed", "claimed x", "claimed 1 2", f"claimed {U64 + 1}",
        "begin x", "begin 1 2 x", "begin 1,2", f"begin 1 {U64 + 1}", "begin 0x10000000000000000", "begin 0x",
        "room", "room x", "room 1 2", "room 16777217", f"room {U64}", f"room {U64 + 1}",
        "column", "column x", "column 1 2", "column list 0 1 2", "column 1 lists 0 1 2", "column 1 list 0 x 2",
        "column 1 list 0 1 4294967296", f"column 1 list 0 1 {U64}", f"column {U64 + 1}", "column 1 list list",
        "keep x", "keep 0 1 -2", "keep 4294967296", f"keep {U64 + 1}", "keep list 0",
        "read", "read x", "read 0 0", f"read {U64 + 1}", "words 0", "Words", "beginning 1", "columns 0", "word"]:
    line(command, "not understood")
run("words")
read_all()
run("work 16777216", "ok")  # the most words
accepted("keep 0 0x0 00", "column 0x1 list 0x2 0x1 0x0")
run("read 0x2")
run("begin\t0x1F  2\t 3 ", "accepted")  # blanks part words
run("words")

# ---------------------------------------------------------------------------
title("more entries than a run may have; a run of so many rows is not tried: each such line has 2 MB")
accepted("begin 1 2 3", "column 1")
refused(11, "begin" + " 0" * (MOST_ROWS + 1))
accepted("column 2")
read_all()


# ---------------------------------------------------------------------------
title("limits that no case above reaches")
admit(image([record(VIEW, a=72, tab=40, cnt=4)], pairs(*[(0, 0)] * 4)), "admitted 1")  # 40 + 8 x 4 is 72
admit(image([record(VIEW, a=2440, tab=40, cnt=300)], pairs(*[(0, 0)] * 300)), "admitted 1")  # 40 + 8 x 300 is 2440
for width in [1, 2, 16]:
    admit(image([record(UTF8, a=40, b=56, p=width)], little(16, 0)), "refused 2 0")
    admit(image([record(BINARY, a=40, b=56, p=width)], little(16, 0)), "refused 2 0")
    admit(image([record(LIST, a=80, p=width, tab=76, cnt=1), nulls(0)], children(1), little(16, 0)), "refused 2 0")
    admit(image([record(LIST_VIEW, a=80, b=80, p=width, tab=76, cnt=1), nulls(0)], children(1)), "refused 2 0")
# one child, and not more
for kind, width in [(DICTIONARY, 1), (LIST, 4), (LIST_VIEW, 4), (FIXED_SIZE_LIST, 0), (RUN_END, 2)]:
    for count in [2, 255]:
        end = 76 + 4 * count
        admit(image([record(kind, a=end, b=0, p=width, tab=76, cnt=count), nulls(0)], children(*[1] * count), little(8, 0)),
              "refused 4 0")
# 2^31, the sign bit alone, is negative in 4 bytes, and the number below it is not
admit(image([record(UTF8, a=40, p=4)], little(4, 1 << 31)), "refused 8 0")
admit(runs(4, [1 << 31], 0), "refused 8 0")
admit(runs(4, [(1 << 31) - 1], 0), "admitted 2")
# 5 comes before 6 where a child is the node itself and another has the height 16: node 0 lists itself, or a node 17,
# which there is not, beside node 1, and nodes 1 to 16 are a chain; records end at 616, the chain's tables at 676
records = [record(STRUCT, tab=676, cnt=2)] + [record(STRUCT, tab=616 + 4 * n, cnt=1) for n in range(15)] + [record(STRUCT)]
for other, answer in [(0, "refused 5 0"), (17, "refused 5 0"), (16, "refused 6 0")]:
    admit(image(records, children(*range(2, 17)), children(other, 1)), answer)
    admit(image(records, children(*range(2, 17)), children(1, other)), answer)
# SipHash of more than 128 bytes: text of 127, 128, 200, 255 and 256 bytes, and a byte 255 behind each
texts = [b"x" * size for size in [127, 128, 200, 255, 256]]
run("state siphash 1 2", "ok")
accepted("begin 0 0 0 0 0")
admit_columns(image([record(UTF8, 5, a=40, b=64, p=4)], offsets(4, texts), b"".join(texts)), [Column([Text(text) for text in texts])])
accepted("column 0")
run("words")
accepted("column 0 list 4 3 2 1 0")
read_all()


def main():
    """Check the lists against each other, and write them or compare them with what is stored."""
    asked = [text for text in lines if text and not text.startswith("#")]
    assert asked == commands and len(commands) == len(answers)
    forms = {"admitted", "refused", "null", "boolean", "number", "float", "text", "binary", "view", "kind", "not", "unreadable",
             "ok", "accepted", "words", "no"}
    for command, answer in zip(commands, answers):
        parts = answer.split()
        assert "\n" not in command + answer and (parts[0] in forms or command.startswith("read ")), (command, answer)
        if command.startswith("image ") and parts[0] == "admitted":
            raw = bytes.fromhex(command[6:])
            assert parts == ["admitted", str(int.from_bytes(raw[:4], "little"))], answer
        if parts[0] == "refused":
            assert len(parts) == (3 if command.startswith("image") else 2), answer
    refusals = {answer.split()[1] for answer in answers if answer.startswith("refused")}
    assert refusals == {str(n) for n in range(1, 18)}

    checking = "--check" in sys.argv
    directories = [word for word in sys.argv[1:] if word != "--check"]
    directory = pathlib.Path(directories[0]) if directories else ROOT / "crates" / "rowhash"
    files = {
        "stdin": ("\n".join(lines).lstrip("\n") + "\n").encode(),
        "stdout": ("\n".join(answers) + "\n").encode(),
        "data/passes.img": make_example.build.image(),
        "data/empty.img": b"",
    }
    for name, content in files.items():
        file = directory / name
        if not checking:
            file.parent.mkdir(parents=True, exist_ok=True)
            file.write_bytes(content)
        elif file.read_bytes() != content:
            sys.exit(f"{file} is not what tests/cases.py writes")
    print(f"{len(commands)} commands, {len(answers)} answers")


if __name__ == "__main__":
    main()
