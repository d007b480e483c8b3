#!/usr/bin/env python3
"""Row numbers of columns: images with the number of each row.

    tests/columns.py [DIRECTORY]            writes DIRECTORY/stdin and stdout (crates/vectors if none is given)
    tests/columns.py --check [DIRECTORY]    tries the images and whether the files are up to date

crates/vectors reads stdin and compares, and prints how much there was, as stdout
has it; tests/scripts.py writes the end of stdin, from the line RUNS on, and the
last line of stdout. Both ways end with a table of what the cases cover, and fail
where they miss some of what `required` asks for.

A case begins with columns by what they mean: each row is a slot, a tree of
values (tests/model.py). The numbers are the model's, worked out from these
slots. Then the layout chooses bytes for them: where rows begin, which child
rows they take and what stands in between. It never asks for a number, and no
number is worked out from an image. So the two ways from a case to its numbers
meet only at the end: slots and the row rule here; bytes, offsets and the walk
in the program. A number that comes out on both sides was not copied from one
to the other, and not made by one mistake.

Wherever the format does not read, garbage is put: elements before START, the
elements of null rows, spare bits, record fields without a meaning, gaps between
buffers, child rows that no row takes. A program that reads them gets another
number, or leaves the image.

The lines of stdin, words parted by one blank:

    image HEX                               the image of the following lines
    fnv1a START | siphash K0 K1             the hash state of the following lines
    first|later NODE ENTRY NUMBER..         row j, from (ENTRY + j) mod 2^64, comes to the j-th number
    first|later NODE ENTRY list R.. = NUMBER..    the same of row R_j

The choices are random but fixed: each group begins with the same seed every time.
"""

import bisect
import itertools
import pathlib
import random
import sys
from collections import Counter

ROOT = pathlib.Path(__file__).resolve().parent.parent
sys.path[:0] = [str(ROOT / "tools"), str(ROOT / "tests")]
sys.dont_write_bytecode = True

import model  # noqa: E402
from images import (  # noqa: E402
    BINARY, BOOLEAN, DICTIONARY, FIXED_SIZE_BINARY, FIXED_SIZE_LIST, FLOAT, LIST,
    LIST_VIEW, MAP, NULL, NUMBER, RUN_END, STRUCT, UTF8, VIEW,
    Builder, bits, children, head, little, long_view, pairs, short_view,
)
from model import (  # noqa: E402
    REFERENCE, STANDARD, U64, Z, Binary, Boolean, Float, Fnv1a, Map, Nothing, Null,
    Number, Refer, Sequence, SipHash24, Struct, Text, View,
)
from runs import MOST_ROWS  # noqa: E402

LEAVES = (NULL, BOOLEAN, NUMBER, FLOAT, UTF8, BINARY, FIXED_SIZE_BINARY, VIEW)
NESTED = (DICTIONARY, STRUCT, LIST, LIST_VIEW, MAP, FIXED_SIZE_LIST, RUN_END)
KINDS = LEAVES + NESTED
UNMARKED = (NULL, RUN_END)  # kinds without null marks
OFFSETS = (UTF8, BINARY, LIST, MAP)  # kinds with one offset more than elements
TURNS = ("first", "later")
STATES = (STANDARD, Z, REFERENCE)

# P by kind, where it is read; of kinds 8 and 15 any few of their many sizes
WIDTHS = {
    NUMBER: (1, 2, 4, 8), FLOAT: (2, 4, 8), UTF8: (4, 8), BINARY: (4, 8),
    FIXED_SIZE_BINARY: (0, 1, 3, 7, 16), DICTIONARY: (1, 2, 4, 8), LIST: (4, 8),
    LIST_VIEW: (4, 8), FIXED_SIZE_LIST: (1, 2, 3), RUN_END: (2, 4, 8),
}

# the record fields that a kind reads, beside KIND, ROWS and START
READ = {
    NULL: "", BOOLEAN: "nulls a", NUMBER: "nulls a p", FLOAT: "nulls a p",
    UTF8: "nulls a b p", BINARY: "nulls a b p", FIXED_SIZE_BINARY: "nulls a p",
    VIEW: "nulls a tab cnt", DICTIONARY: "nulls a b p tab cnt", STRUCT: "nulls tab cnt",
    LIST: "nulls a p tab cnt", LIST_VIEW: "nulls a b p tab cnt", MAP: "nulls a tab cnt",
    FIXED_SIZE_LIST: "nulls p tab cnt", RUN_END: "a p tab cnt",
}

# the line of the file where the part of tests/scripts.py begins
RUNS = "# tests/scripts.py writes the lines from here on, and says what they are\n"

rng = random.Random()


# ---------------------------------------------------------------------------
# Columns and slots.


class Column:
    """A column by what it means: its kind, its children, and its rows as slots.

    Parents that share a child name the same object. A child's rows are filled
    in by the layout of its parents, behind those that it has already.
    """

    def __init__(self, kind, *children, p=None, signed=None, start=None, bitmap=None,
                 null_rate=0.2, lengths=(0, 1, 2, 3), spare=(0, 1, 2), split=0.2, lead=None):
        self.kind = kind
        self.children = children
        self.p = rng.choice(WIDTHS.get(kind, (0,))) if p is None else p
        self.signed = rng.randrange(2) if signed is None else signed
        self.start = start  # START if it matters, else the layout chooses
        self.bitmap = bitmap  # whether there is one, if it matters and no row is null
        self.null_rate = null_rate  # how often a drawn slot is null
        self.lengths = lengths  # of drawn lists and maps
        self.spare = spare  # how many rows no parent takes, at each end
        self.split = split  # how often a run is cut in two
        self.lead = lead  # how many bytes stand before the first row's, if it matters
        self.rows = []

    def holding(self, *slots):
        """The same column, with these rows."""
        self.rows = list(slots)
        return self

    def drawn(self, count):
        """The same column, with random rows."""
        self.rows = draw_rows(self, count)
        return self

    def all(self):
        """This column and those below it, each once."""
        found = [self]
        for column in found:
            for child in column.children:
                if child not in found:
                    found.append(child)
        return found


def draw_bytes():
    """A short byte string, often of a length at an edge."""
    length = rng.choice((0, 1, 3, 4, 5, 7, 8, 9, 11, 12, 13, 14, 16, 17, rng.randrange(41)))
    return rng.choice((rng.randbytes(length), bytes(rng.choices(b"abc \xc3\xbc", k=length))))


def draw(column):
    """A random slot of a column."""
    kind, p = column.kind, column.p
    if kind not in UNMARKED and rng.random() < column.null_rate:
        return Null()
    # a child that is listed twice has one row for both
    once = {}

    def inner(child):
        if id(child) not in once:
            once[id(child)] = draw(child)
        return once[id(child)]

    match kind:
        case 1:
            return Nothing()
        case 2:
            return Boolean(rng.random() < 0.5)
        case 3:
            return Number(p, rng.choice((0, 1, 256**p - 1, 256**p // 2, rng.getrandbits(8 * p))))
        case 4:
            return Float(p, rng.choice(FLOATS[p] + (rng.getrandbits(8 * p),)))
        case 6:
            return Text(draw_bytes())
        case 7:
            return Binary(draw_bytes())
        case 8:
            return Binary(rng.randbytes(p))
        case 9:
            return View(draw_bytes())
        case 10 | 16:
            return Refer(draw(column.children[0]))
        case 11:
            return Struct(tuple(inner(child) for child in column.children))
        case 12 | 13:
            return Sequence(tuple(draw_rows(column.children[0], rng.choice(column.lengths))))
        case 14:
            entries = []
            for _ in range(rng.choice(column.lengths)):
                once.clear()
                entries.append(tuple(inner(child) for child in column.children))
            return Map(tuple(entries))
        case 15:
            return Sequence(tuple(draw_rows(column.children[0], p)))


def draw_rows(column, count):
    """Random slots, with the likeness between rows that some kinds are made for."""
    rows = []
    for _ in range(count):
        slot = draw(column)
        if rows and rng.random() < 0.5:
            last = rows[-1]
            if column.kind in (DICTIONARY, RUN_END):
                slot = last
            elif column.kind == LIST_VIEW and isinstance(last, Sequence):
                low = rng.randrange(len(last.elements) + 1)
                slot = Sequence(last.elements[low:rng.randrange(low, len(last.elements) + 1)])
        rows.append(slot)
    return rows


# zeros, ones, infinities, NaN of several forms, the smallest and largest subnormal
FLOATS = {
    2: (0, 0x8000, 0x3C00, 0xBC00, 0x7C00, 0xFC00, 0x7E00, 0xFE00, 0x7C01, 0x7FFF, 1, 0x8001, 0x03FF),
    4: (0, 1 << 31, 0x3F800000, 0xBF800000, 0x7F800000, 0xFF800000, 0x7FC00000, 0xFFC00000,
        0x7F800001, 0x7FFFFFFF, 1, 0x80000001, 0x007FFFFF),
    8: (0, 1 << 63, 0x3FF << 52, 0xBFF << 52, 0x7FF << 52, 0xFFF << 52, 0x7FF8 << 48, 0xFFF8 << 48,
        (0x7FF << 52) + 1, (1 << 63) - 1, 1, (1 << 63) + 1, (1 << 52) - 1),
}


# ---------------------------------------------------------------------------
# The layout, in two steps: which child rows the rows take, then the bytes.


def junk(width):
    """A number where none is read: a likely one or any."""
    return rng.choice((rng.randrange(4), rng.getrandbits(8 * width)))


def spare_rows(column, count=None):
    """Rows that no parent takes; they have to be sound all the same."""
    return draw_rows(column, rng.choice(column.spare) if count is None else count)


def put_rows(wants, first=None, step=1):
    """Puts rows into children, at one row number in all of them; answers it.

    `wants` has the rows that each child is to have there. The number is one
    that `step` divides.
    """
    if first is None:
        first = max((len(child.rows) for child, _ in wants), default=0)
        first += rng.choice(wants[0][0].spare) if wants else 0
        first += -first % step
    done = {}
    for child, slots in wants:
        if id(child) in done:
            assert done[id(child)] == slots, "one child cannot have different rows at one place"
            continue
        assert len(child.rows) <= first, "these rows are taken already"
        child.rows += spare_rows(child, first - len(child.rows)) + slots
        done[id(child)] = slots
    return first


def find(rows, wanted):
    """All places where `wanted` stands in `rows`."""
    return [at for at in range(len(rows) - len(wanted) + 1) if rows[at:at + len(wanted)] == wanted]


def reach(column):
    """Chooses child rows for the rows of a column, and START where that follows from it.

    What is chosen is kept in `column.at` and `column.ends`. Parents come first,
    so that a child has all its rows when its turn comes.
    """
    kind, kids, rows = column.kind, column.children, column.rows
    live = [r for r, slot in enumerate(rows) if slot != Null()]
    column.at = {}

    if kind == DICTIONARY:
        most = min(MOST_ROWS, 256**column.p // (2 if column.signed else 1))
        kids[0].rows += spare_rows(kids[0])
        for r in rng.sample(live, len(live)):  # in any order, so that keys are not sorted
            places = find(kids[0].rows, [rows[r].slot])
            if not places or rng.random() < 0.2 and len(kids[0].rows) < most:
                places = [len(kids[0].rows)]
                kids[0].rows.append(rows[r].slot)
            column.at[r] = rng.choice(places)
        assert len(kids[0].rows) <= most

    elif kind == STRUCT:
        fillers = {id(child): spare_rows(child, len(rows)) for child in kids}  # below null structs
        wants = [(child, [rows[r].fields[k] if r in live else fillers[id(child)][r] for r in range(len(rows))])
                 for k, child in enumerate(kids)]
        if kids or column.start is None:
            column.start = put_rows(wants, column.start) if kids else rng.randrange(12)

    elif kind in (LIST, MAP):
        wants = [(child, []) for child in kids]
        column.ends = [0]
        for r, slot in enumerate(rows):
            if r not in live:
                fillers = {id(child): spare_rows(child, rng.choice(child.spare[:1] + (1, 2))) for child in kids}
                count = min(len(some) for some in fillers.values())
                pieces = [fillers[id(child)][:count] for child in kids]
            elif kind == LIST:
                pieces = [slot.elements]
            else:
                pieces = [[entry[k] for entry in slot.entries] for k in range(2)]
            for (_, wanted), piece in zip(wants, pieces):
                wanted += piece
            column.ends.append(len(wants[0][1]))
        first = put_rows(wants)
        column.ends = [first + end for end in column.ends]

    elif kind == LIST_VIEW:
        kids[0].rows += spare_rows(kids[0])
        shared = rng.random() < 0.7 or len(kids[0].rows) == MOST_ROWS
        order = rng.sample(live, len(live))
        if shared:  # the long ones first, so that the short ones are found in them
            order.sort(key=lambda r: -len(rows[r].elements))
        for r in order:
            wanted = list(rows[r].elements)
            places = find(kids[0].rows, wanted) if shared else []
            if not places:
                # the rows at the end may be the beginning of what is wanted
                common = max(k for k in range(len(wanted) + 1)
                             if k == 0 or shared and kids[0].rows[-k:] == wanted[:k])
                places = [len(kids[0].rows) - common]
                kids[0].rows += wanted[common:]
            column.at[r] = rng.choice(places)

    elif kind == FIXED_SIZE_LIST:
        wanted = []
        for r, slot in enumerate(rows):
            wanted += slot.elements if r in live else spare_rows(kids[0], column.p)
        if column.p:
            first = put_rows([(kids[0], wanted)], None if column.start is None else column.start * column.p, column.p)
            column.start = first // column.p
        else:  # rows of nothing, over a child of any length
            kids[0].rows += spare_rows(kids[0])

    elif kind == RUN_END:
        kids[0].rows += spare_rows(kids[0])[:column.start]  # each of these runs takes an element at least
        column.first_run = len(kids[0].rows)
        column.ends = []  # of the rows' own runs, counted from the first row
        for r, slot in enumerate(rows):
            if r and slot == rows[r - 1] and rng.random() >= column.split:
                column.ends[-1] = r + 1
            else:
                kids[0].rows.append(slot.slot)
                column.ends.append(r + 1)
        if column.start and not kids[0].rows:
            kids[0].rows += spare_rows(kids[0], 1)  # also without rows START has to be covered

    if column.start is None and kind != RUN_END:
        column.start = rng.choice((0, 1, 2, 3, 5, 7, 8, 9, 11, 13))


def run_ends(column):
    """All run ends, one for each child row, and START with them.

    The runs before the rows' own end at START at the latest; the last of their
    own and those behind it pass the last row as they like.
    """
    before, runs = column.first_run, len(column.children[0].rows)
    behind = runs - before - len(column.ends)
    if column.start is None:
        column.start = before + (rng.randrange(4) if runs else 0)
    assert column.start >= before
    start, stop = column.start, column.start + len(column.rows)
    ends = sorted(rng.sample(range(1, start + 1), before))
    cut_in_front = start > max(ends, default=0)
    ends += [start + end for end in column.ends]
    if column.rows:
        ends[-1] += rng.randrange(3)
    column.cut = bool(column.rows and behind and cut_in_front and ends[-1] > stop)
    for _ in range(behind):
        ends.append(max(ends, default=0) + rng.randrange(1, 4))
    if ends and ends[-1] < stop:
        ends[-1] = stop
    return ends


def packed(known, count):
    """A bitmap of `count` bits, those known as given, the others and the spare ones random."""
    return bits("".join(str(known.get(k, rng.randrange(2))) for k in range(-(-count // 8) * 8)))


def buffers(column):
    """The buffers of a column by the record fields that hold their places, and its data buffers."""
    kind, p, rows = column.kind, column.p, column.rows
    made, data = {}, []
    if kind == RUN_END:
        made["a"] = little(p, *run_ends(column))
    start = column.start
    stop = start + len(rows)

    def each(width, values):
        """An element for each row and junk before START."""
        return little(width, *(junk(width) for _ in range(start)), *values)

    if kind not in UNMARKED:
        bitmap = rng.random() < 0.5 if column.bitmap is None else column.bitmap
        if bitmap or Null() in rows:
            made["nulls"] = packed({start + r: int(slot != Null()) for r, slot in enumerate(rows)}, stop)
    match kind:
        case 2:
            made["a"] = packed({start + r: int(slot.value) for r, slot in enumerate(rows) if slot != Null()}, stop)
        case 3 | 4:
            made["a"] = each(p, (junk(p) if slot == Null() else slot.value if kind == NUMBER else slot.bits
                                 for slot in rows))
        case 6 | 7:
            text = rng.randbytes(rng.randrange(4) if column.lead is None else column.lead)
            column.ends = ends = [len(text)]
            for slot in rows:
                text += rng.randbytes(rng.randrange(4)) if slot == Null() else slot.data
                ends.append(len(text))
            made["a"] = each(p, ends)
            made["b"] = text + rng.randbytes(rng.randrange(3))
        case 8:
            made["a"] = rng.randbytes(start * p) + b"".join(rng.randbytes(p) if slot == Null() else slot.data
                                                            for slot in rows)
        case 9:
            long = any(slot != Null() and len(slot.data) > 12 for slot in rows)
            data = [rng.randbytes(rng.randrange(4)) for _ in range(rng.randrange(1, 4) if long else rng.randrange(3))]
            made["a"] = rng.randbytes(start * 16)
            for slot in rows:
                if slot == Null():  # a sound view or any bytes
                    made["a"] += rng.choice((short_view(b"null"), rng.randbytes(16)))
                elif len(slot.data) <= 12:
                    made["a"] += short_view(slot.data)
                else:
                    which = rng.randrange(len(data))
                    if slot.data not in data[which] or rng.random() < 0.5:
                        data[which] += rng.randbytes(rng.randrange(3)) + slot.data
                    at = rng.choice((data[which].index, data[which].rindex))(slot.data)
                    made["a"] += long_view(len(slot.data), slot.data[:4], which, at)
        case 10:
            made["a"] = each(p, (column.at.get(r, junk(p)) for r in range(len(rows))))
        case 12 | 14:
            made["a"] = each(p if kind == LIST else 4, column.ends)
        case 13:
            child = len(column.children[0].rows)
            for r, slot in enumerate(rows):
                if slot == Sequence(()):  # no rows, anywhere
                    column.at[r] = rng.randrange(child + 1)
            made["a"] = each(p, (column.at.get(r, junk(p)) for r in range(len(rows))))
            made["b"] = each(p, (junk(p) if slot == Null() else len(slot.elements) for slot in rows))
    return made, data


def lay(roots):
    """An image of these columns and all below them; answers it and the columns by node number."""
    waiting = {}  # columns and how many of their parents have no turn yet
    for root in roots:
        for column in root.all():
            waiting[column] = 0
    for column in waiting:
        for child in column.children:
            waiting[child] += 1
    nodes = []
    while waiting:
        column = rng.choice([column for column, parents in waiting.items() if not parents])
        del waiting[column]
        for child in column.children:
            waiting[child] -= 1
        if column not in roots:
            column.rows += spare_rows(column)
        reach(column)
        nodes.append(column)

    build = Builder(len(nodes))
    fields = [{} for _ in nodes]
    parts, tables = [], []
    for node, column in enumerate(nodes):
        made, data = buffers(column)
        if column.kind in NESTED:
            made["tab"] = children(*(nodes.index(child) for child in column.children))
        parts += [(fields[node], name, part) for name, part in made.items()]
        places = {}
        parts += [(places, which, part) for which, part in enumerate(data)]
        if column.kind == VIEW:
            tables.append((fields[node], places, data))

    def put(part):
        """Places a buffer behind a gap, or where the same bytes stand already."""
        if part and part in build.tail and rng.random() < 0.3:
            return head(len(nodes)) + build.tail.index(part)
        build.put(rng.randbytes(rng.choice((0, 0, 1, 2, 3))))
        return build.put(part)

    rng.shuffle(parts)
    for where, name, part in parts:
        where[name] = put(part)
    for where, places, data in tables:
        where["tab"] = put(pairs(*((places[which], len(part)) for which, part in enumerate(data))))
        where["cnt"] = len(data)
    for node, column in enumerate(nodes):
        field = fields[node]
        field["p"] = column.p
        if column.kind in NESTED:
            field["cnt"] = len(column.children)
        if column.kind == DICTIONARY:
            field["b"] = column.signed
        read = READ[column.kind].split()
        for name in ("nulls", "a", "b", "p", "tab", "cnt"):
            if name not in read:
                field[name] = rng.getrandbits(32) | 1
        build.record(node, column.kind, rows=len(column.rows), start=column.start, **field)
    return build.image(), nodes


# ---------------------------------------------------------------------------
# What was covered, noted as it is made and asked for at the end.

covered = set()


def cover(*what):
    covered.add(what)


def note(column, root):
    """Notes what a laid out column has."""
    kind, place = column.kind, "root" if root else "child"
    above = column.start > 0
    if not column.rows:
        cover("no rows", kind, place)
        return
    cover("rows", kind, place, above)
    for field, value in (("ROWS", len(column.rows)), ("START", column.start)):
        if value == MOST_ROWS:
            cover("limit", field)
    if Null() in column.rows and column.start % 8:
        cover("null at START", kind, place)
    if kind in WIDTHS:
        cover("P", kind, column.p)
    if kind in OFFSETS:
        cover("first offset", kind, place, column.ends[0] > 0, above)
    if above and any(child.start for child in column.children):
        cover("START in parent and child", kind)
    for slot in set(column.rows) - {Null()}:
        if kind == VIEW:
            cover("view", place, len(slot.data))
        if kind == FLOAT and slot.bits << 1 & 256**column.p - 1 == 0:
            cover("zero", place, column.p, "minus" if slot.bits else "plus")
    if kind == DICTIONARY:
        for key in column.at.values():
            cover("key", column.p, column.signed, "low" if key < 128 else "high")
    if kind == LIST_VIEW:
        spans = [(column.at[r], column.at[r] + len(slot.elements))
                 for r, slot in enumerate(column.rows) if slot != Null() and slot.elements]
        for (low, high), (next_low, next_high) in zip(spans, spans[1:]):
            if next_low < low:
                cover("list views", column.p, "backwards")
                if low < next_high < high:
                    cover("list views", column.p, "backwards over each other")
            if (low, high) == (next_low, next_high):
                cover("list views", column.p, "the same rows")
    if kind == RUN_END and column.cut:
        cover("run cut at both ends, runs behind", column.p)
    if kind in (LIST, MAP):
        for slot, low, high in zip(column.rows, column.ends, column.ends[1:]):
            if slot == Null() and low < high:
                cover("child rows of a null row", kind, place)
    for slot in column.rows if root else ():
        for met in directly_below(column, slot):
            cover("below", kind, *met)
        for met in nulls_in(slot):
            cover("null at level", met)
        note_references(column, slot)


def note_references(column, slot):
    """Notes behind how many references a null is, with the kinds of the references."""
    kinds = ()
    while column.kind in (DICTIONARY, RUN_END):
        kinds += (column.kind,)
        if slot == Null():
            break
        column, slot = column.children[0], slot.slot
        if slot == Null():
            cover("null behind references", *kinds)


def note_sharing(nodes):
    """Notes which columns are below several others, or below one more than once."""
    for child in nodes:
        parents = [column for column in nodes if child in column.children]
        for parent in parents:
            if len(parents) > 1:
                cover("child of several", parent.kind)
            if parent.children.count(child) > 1:
                cover("child of one twice", parent.kind, child.kind)


def nulls_in(slot, level=1):
    """At which levels a slot has nulls, its own being level 1."""
    if slot == Null():
        return {level}
    return set().union(*(nulls_in(below, level + 1) for below in slots_in(slot)))


def directly_below(column, slot):
    """The place and kind of each slot in a slot, and whether it is not null."""
    below = []
    match slot:
        case Refer(inner):
            below = [("", column.children[0], inner)]
        case Sequence(elements):
            below = [("", column.children[0], element) for element in elements]
        case Struct(fields):
            below = [("field 0" if k == 0 else "later field", child, fields[k])
                     for k, child in enumerate(column.children)]
        case Map(entries):
            below = [(("key", "value")[k], child, entry[k])
                     for k, child in enumerate(column.children) for entry in entries]
    return [(place, child.kind, inner != Null()) for place, child, inner in below]


def required():
    """What has to be covered."""
    both = ("root", "child")
    wanted = {("rows", kind, place, above) for kind in KINDS for place in both for above in (True, False)}
    wanted |= {("no rows", kind, place) for kind in KINDS for place in both}
    wanted |= {("START in parent and child", kind) for kind in NESTED}
    wanted |= {("null at START", kind, place) for kind in KINDS if kind not in UNMARKED for place in both}
    wanted |= {("null at level", level) for level in range(1, 17)}
    wanted |= {("first offset", kind, place, positive, above)
               for kind in OFFSETS for place in both for positive in (True, False) for above in (True, False)}
    wanted |= {("child rows of a null row", kind, place) for kind in (LIST, MAP) for place in both}
    wanted |= {("view", place, length) for place in both for length in (0, 4, 5, 12, 13)}
    wanted |= {("zero", place, p, sign) for place in both for p in WIDTHS[FLOAT] for sign in ("minus", "plus")}
    wanted |= {("height 16", kind) for kind in KINDS} | {("limit", "ROWS"), ("limit", "START")}
    places = [(kind, "") for kind in NESTED if kind not in (STRUCT, MAP)]
    places += [(STRUCT, "field 0"), (STRUCT, "later field"), (MAP, "key"), (MAP, "value")]
    wanted |= {("below", parent, place, kind, True) for parent, place in places for kind in KINDS}
    wanted |= {("below", parent, place, kind, False) for parent, place in places for kind in KINDS
               if kind not in UNMARKED}
    wanted |= {("P", kind, p) for kind, widths in WIDTHS.items() for p in widths}
    wanted |= {("P", FIXED_SIZE_BINARY, 300), ("P", FIXED_SIZE_LIST, 0)}
    wanted |= {("key", p, signed, "low") for p in WIDTHS[DICTIONARY] for signed in (0, 1)}
    wanted |= {("key", 1, 0, "high"), ("key", 2, 0, "high")}
    wanted |= {("list views", p, how) for p in (4, 8)
               for how in ("backwards", "backwards over each other", "the same rows")}
    wanted |= {("run cut at both ends, runs behind", p) for p in (2, 4, 8)}
    references = (DICTIONARY, RUN_END)
    wanted |= {("null behind references", *kinds) for n in (1, 2, 3) for kinds in itertools.product(references, repeat=n)
               if n < 3 or len(set(kinds)) == 1}
    wanted |= {("child of several", kind) for kind in NESTED}
    wanted |= {("child of one twice", parent, kind) for parent in (STRUCT, MAP) for kind in KINDS}
    wanted |= {("map beside a list of structs", turn) for turn in TURNS}
    return wanted | required_questions()


def required_questions():
    """What has to be asked."""
    wanted = {("asked", kind, turn, state) for kind in KINDS for turn in TURNS for state in STATES}
    wanted |= {("other state", state, turn) for state in (Fnv1a, SipHash24) for turn in TURNS}
    wanted |= {("list of rows", kind, turn, how) for kind in KINDS for turn in TURNS for how in HOW}
    return wanted | {("entry", what) for what in ("0", "above 0", "past 2^64 within a column")}


def table(wanted):
    """How much of each sort has to be covered, and how much of it is; fails where some is not."""
    for sort in sorted({what[0] for what in wanted}):
        asked = {what for what in wanted if what[0] == sort}
        print(f"{len(asked & covered):4} of {len(asked):4} covered: {sort}")
    missing = wanted - covered
    assert not missing, sorted(missing, key=str)


# ---------------------------------------------------------------------------
# The lines.

lines = []
images = []  # (image, columns by node number) for --check
counts = []  # of each group its title, and how many of what it has

ENTRIES = (0, 1, 5, 7, 629, 2**32 - 1, 2**63, U64 - 1, U64)


def group(title):
    """A heading; what follows begins with its own seed, so that groups do not change each other."""
    lines.append("")
    lines.append("# " + title)
    counts.append((title, Counter()))
    rng.seed(title)


def tally(**more):
    """Counts what the group has more of."""
    counts[-1][1].update(more)


def show(image, nodes, roots=()):
    """The image of the following lines."""
    for column in nodes if roots else ():
        note(column, column in roots)
    if roots:
        note_sharing(nodes)
    lines.append("image " + image.hex())
    images.append((image, nodes))
    tally(images=1)


def under(state):
    """The hash state of the following lines."""
    if isinstance(state, Fnv1a):
        lines.append(f"fnv1a {state.start:#x}")
    else:
        lines.append(f"siphash {state.k0:#x} {state.k1:#x}")


def shown(value):
    """A number as a word."""
    return f"{value:#x}" if value > 9 else str(value)


# how the rows of a list may stand to those of the column
HOW = {
    "none": lambda taken, count: not taken,
    "repeating": lambda taken, count: len(set(taken)) < len(taken),
    "backwards": lambda taken, count: any(low < high for high, low in zip(taken, taken[1:])),
    "dropping": lambda taken, count: taken and len(set(taken)) < count,
    "longer than the column": lambda taken, count: len(taken) > count,
    "not from the first row on": lambda taken, count: taken and min(taken) > 0,
}


def note_question(state, turn, column, taken, entry):
    """Notes what is asked."""
    kind, count = column.kind, len(column.rows)
    if state in STATES:
        cover("asked", kind, turn, state)
    else:
        cover("other state", type(state), turn)
    for how, holds in HOW.items():
        if taken is not None and count and holds(taken, count):
            cover("list of rows", kind, turn, how)
    cover("entry", "above 0" if entry else "0")
    if entry + count > U64 + 1:
        cover("entry", "past 2^64 within a column")


def ask(state, turn, node, rows, taken=None, entry=None):
    """The line of a column's rows, or of those in the list `taken`; its turn is first or later."""
    if entry is None:
        entry = rng.choice(ENTRIES + (rng.getrandbits(64),) * 3)
    note_question(state, turn, images[-1][1][node], taken, entry)
    slots = rows if taken is None else [rows[r] for r in taken]
    numbers = [model.number(state, turn == "first", (entry + j) & U64, slot) for j, slot in enumerate(slots)]
    words = [turn, str(node), shown(entry)]
    if taken is not None:
        words += ["list", *map(str, taken), "="]
    lines.append(" ".join(words + [f"{number:#x}" for number in numbers]))
    tally(lines=1, numbers=len(numbers))


def case(*roots, states=STATES, inner=0, lists=(), laid=None):
    """An image of columns; each is asked as first and as later, and so are some of those below.

    `lists` are lists of rows that are asked of the first column. `laid` is the
    image with its nodes if it is there already; what it covers is not noted.
    """
    image, nodes = laid or lay(roots)
    show(image, nodes, () if laid else roots)
    asked = [nodes.index(root) for root in roots]
    others = [node for node in range(len(nodes)) if node not in asked]
    asked += sorted(rng.sample(others, min(inner, len(others))))
    for state in states:
        under(state)
        for node in asked:
            for turn in ("first", "later"):
                ask(state, turn, node, nodes[node].rows)
        for taken in lists:
            for turn in ("first", "later"):
                ask(state, turn, nodes.index(roots[0]), roots[0].rows, taken)


def some_leaf(**options):
    return Column(rng.choice(LEAVES), **options)


def some_column(kind, **options):
    """A column of a kind, with leaves below it."""
    below = 0 if kind in LEAVES else rng.choice((0, 1, 2, 4)) if kind == STRUCT else 2 if kind == MAP else 1
    return Column(kind, *(some_leaf() for _ in range(below)), **options)


def some_tree(height):
    """A random column of at most this height."""
    kind = rng.choice(NESTED if height > 1 and rng.random() < 0.85 else LEAVES)
    below = 0 if kind in LEAVES else rng.randrange(5) if kind == STRUCT else 2 if kind == MAP else 1
    p = rng.randrange(4) if kind == FIXED_SIZE_LIST else None
    return Column(kind, *(some_tree(height - 1) for _ in range(below)), p=p, null_rate=0.1)


def some_state():
    return rng.choice((STANDARD, Z, REFERENCE, Fnv1a(rng.getrandbits(64)),
                       SipHash24(rng.getrandbits(64), rng.getrandbits(64))))


def slots_in(slot):
    """The slots that a slot has directly in it."""
    match slot:
        case Refer(inner):
            return (inner,)
        case Struct(inner) | Sequence(inner):
            return inner
        case Map(entries):
            return sum(entries, ())
    return ()


def depth(slot):
    """How many slots are nested in each other here; a null counts for none."""
    return 0 if slot == Null() else 1 + max(map(depth, slots_in(slot)), default=0)


def fitting(slot, refer, sequence):
    """A column that can hold a slot, with these kinds for references and sequences."""
    def inner(below):
        return fitting(below, refer, sequence)

    match slot:
        case Null():
            return Column(BOOLEAN)
        case Nothing():
            return Column(NULL)
        case Boolean():
            return Column(BOOLEAN)
        case Number(width, _):
            return Column(NUMBER, p=width)
        case Float(width, _):
            return Column(FLOAT, p=width)
        case Text():
            return Column(UTF8)
        case Binary():
            return Column(BINARY)
        case View():
            return Column(VIEW)
        case Refer(below):
            return Column(refer, inner(below))
        case Struct(fields):
            return Column(STRUCT, *map(inner, fields))
        case Sequence(elements):
            return Column(sequence, inner(elements[0] if elements else Null()),
                          p=len(elements) if sequence == FIXED_SIZE_LIST else None)
        case Map(((key, value),)):
            return Column(MAP, inner(key), inner(value))


# ---------------------------------------------------------------------------
# The cases.


def cases_of_docs():
    group("the numbers of docs/ROW_NUMBERS.md and docs/DIFFERENCES.md")
    for state, turn, e, slot, expected in model.WORKED:
        for refer, sequence in ((DICTIONARY, LIST), (RUN_END, LIST_VIEW), (DICTIONARY, FIXED_SIZE_LIST)):
            show(*lay([fitting(slot, refer, sequence).holding(slot)]))
            under(state)
            ask(state, turn, 0, [slot], entry=e)
            assert lines[-1].endswith(f" {expected:#x}")

    group("the image that docs/FORMAT.md reads byte by byte")
    hundred, more, three, most = (Number(2, value) for value in (100, 250, 300, 65535))
    views = Column(LIST_VIEW).holding(Sequence((three, most)), Null(), Sequence((hundred, more, three)))
    numbers = Column(NUMBER).holding(hundred, more, three, most)
    case(views, numbers, laid=(bytes.fromhex(
        "020000000d00000003000000010000007a0000005000000060000000040000004c00000001000000030000000400000001"
        "000000000000007000000000000000020000000000000000000000010000000900000002000000ffffffff000000000900"
        "0000020000000700000003000000ffff6400fa002c01ffff0a"), [views, numbers]))

    group("numbers of 4 bytes that stand in their own record")
    fields = (NUMBER, 9, 0, 0, 4, 0, 4, 0, 0)
    own = Column(NUMBER).holding(*(Number(4, value) for value in fields))
    case(own, laid=(little(4, 1, *fields), [own]))


def leaf_cases(kind, p, slots):
    """A leaf kind: nulls among the slots, behind a START; no nulls; nulls alone."""
    rows = list(slots)
    if kind not in UNMARKED:
        for _ in range(1 + len(rows) // 4):
            rows.insert(rng.randrange(len(rows) + 1), Null())
    case(Column(kind, p=p, start=rng.choice((3, 5, 9, 13))).holding(*rows))
    case(Column(kind, p=p, start=0, bitmap=False).holding(*slots[-3:]))
    case(Column(kind, p=p, bitmap=True).holding(*slots[:3]))
    if kind not in UNMARKED:
        case(Column(kind, p=p).holding(*[Null()] * 3))


def cases_of_leaves():
    group("kind 1, nothing")
    leaf_cases(NULL, None, [Nothing()] * 5)
    group("kind 2, Booleans")
    leaf_cases(BOOLEAN, None, [Boolean(bool(int(bit))) for bit in "110100111000101"])
    for p in WIDTHS[NUMBER]:
        group(f"kind 3, numbers, P {p}")
        top = 256**p
        leaf_cases(NUMBER, p, [Number(p, value) for value in
                               (0, 1, 2, 127, 128, 255, top // 2 - 1, top // 2, top - 2, top - 1,
                                rng.getrandbits(8 * p), rng.getrandbits(8 * p))])
    for p in WIDTHS[FLOAT]:
        group(f"kind 4, floats, P {p}: zeros, infinities, NaN, subnormals")
        leaf_cases(FLOAT, p, [Float(p, value) for value in FLOATS[p] + (rng.getrandbits(8 * p),)])
    odd = ["Zürich".encode(), "東京".encode(), "🛰".encode(), b"\xff\xfe", b"\xc3", b"a\0b", b"\0", b"\xff", b"\xff" * 8]
    for kind, made, name in ((UTF8, Text, "text"), (BINARY, Binary, "binary")):
        for p in WIDTHS[kind]:
            group(f"kind {kind}, {name}, P {p}: every length up to 40, text that is not ASCII or not UTF-8")
            lengths = [rng.randbytes(length) for length in range(41)]
            leaf_cases(kind, p, [made(data) for data in lengths + odd])
        group(f"kind {kind}, {name}: first offsets of 0 and above, with START and without")
        for start in (0, 3):
            for lead in (0, 2):
                case(Column(kind, start=start, lead=lead).drawn(4), states=[some_state()])
    for p in (0, 1, 7, 16, 300):
        group(f"kind 8, binary of fixed size, P {p}")
        leaf_cases(FIXED_SIZE_BINARY, p, [Binary(rng.randbytes(p)) for _ in range(5)] + [Binary(bytes(p))])
    group("kind 9, views of 0 to 100 bytes, in several data buffers")
    for _ in range(2):
        leaf_cases(VIEW, None, [View(rng.randbytes(length)) for length in (13, 0, 1, 4, 5, 11, 12, 13, 14, 100, 16, 13)])
    leaf_cases(VIEW, None, [View(data) for data in odd + [bytes(12), bytes(13), b"\xff" * 12, b"\xff" * 13]])


def cases_of_empty_columns():
    for kind in KINDS:
        group(f"kind {kind}, no rows")
        case(some_column(kind, start=0, bitmap=False))
        case(some_column(kind, start=0, bitmap=True, spare=(0,)))
        case(some_column(kind, start=3), lists=[()])
        group(f"kind {kind}, no rows, below empty lists, null keys and a struct without rows")
        for column in (Column(LIST, some_column(kind, spare=(0,)), lengths=(0,), null_rate=0).drawn(3),
                       Column(DICTIONARY, some_column(kind, spare=(0,))).holding(Null(), Null()),
                       Column(STRUCT, some_column(kind, spare=(0,)), start=0)):
            case(column, states=[some_state()])


def cases_of_pairs():
    for parent in NESTED:
        for k, place in enumerate({STRUCT: ("field 0", "field 1", "field 2"), MAP: ("key", "value")}.get(parent, ("",))):
            for kind in KINDS:
                group(f"kind {kind} below kind {parent}" + (f" as {place}" if place else ""))
                met = set()
                while not met >= {(kind, True), (kind, kind in UNMARKED)}:  # some value and some null
                    count = {STRUCT: k + 1 + rng.randrange(2), MAP: 2}.get(parent, 1)
                    kids = [Column(rng.choice([other for other in LEAVES if other != kind])) for _ in range(count)]
                    kids[k] = some_column(kind)
                    column = Column(parent, *kids).drawn(5)
                    met = {what[1:] for slot in column.rows for what in directly_below(column, slot)}
                case(column, inner=rng.choice((0, 0, 0, 1)))


def cases_of_widths():
    for p in WIDTHS[DICTIONARY]:
        for signed in (0, 1):
            group(f"dictionary, {('unsigned', 'signed')[signed]} keys, P {p}")
            case(Column(DICTIONARY, Column(NUMBER, p=2), p=p, signed=signed).drawn(8))
            case(Column(DICTIONARY, Column(UTF8), p=p, signed=signed, start=0).drawn(4))
    group("dictionary, P 1: unsigned keys up to 255, signed ones up to 127")
    for signed, most in ((0, 255), (1, 127)):
        values = [Number(2, value * 7) for value in range(most + 1)]
        column = Column(DICTIONARY, Column(NUMBER, p=2, spare=(0,)).holding(*values), p=1, signed=signed)
        case(column.holding(*(Refer(values[k]) for k in (most, 0, most - 1, most // 2, most // 2 + 1, 1)), Null()))
    group("dictionary, P 2: unsigned keys above 32,767, over a run-end column")
    low, high, none = Refer(Number(1, 5)), Refer(Number(1, 9)), Refer(Null())
    runs = Column(RUN_END, Column(NUMBER, p=1), p=4, spare=(0,), split=0)
    runs.holding(*[low] * 32768, *[high] * 3, *[none] * 2)
    case(Column(DICTIONARY, runs, p=2, signed=0).holding(Refer(high), Refer(none), Null(), Refer(low), Refer(high)))
    for kind, name in ((LIST, "list"), (LIST_VIEW, "list view")):
        for p in WIDTHS[kind]:
            group(f"{name}, P {p}")
            case(Column(kind, Column(NUMBER, p=2), p=p).drawn(8))
            case(Column(kind, Column(VIEW), p=p, start=0).drawn(4))
    for p in WIDTHS[RUN_END]:
        group(f"run-end, P {p}: runs cut at both ends, runs behind that no row takes")
        for spare in ((1, 2), (2, 3), (0,)):
            run = [Refer(slot) for slot in draw_rows(Column(NUMBER, p=4), 3)]
            rows = [run[0]] * 2 + [run[1]] * 4 + [run[2]] * 3 + [run[0]]
            case(Column(RUN_END, Column(NUMBER, p=4, spare=spare), p=p).holding(*rows))
        case(Column(RUN_END, Column(UTF8), p=p).drawn(7))
        case(Column(RUN_END, Column(BOOLEAN), p=p).holding(*[Refer(Boolean(True))] * 5), lists=[(4, 0)])


def cases_of_nulls():
    for kind in NESTED:
        group(f"kind {kind} at the root: no nulls with and without a bitmap, all null")
        for bitmap in (True, False):
            case(some_column(kind, null_rate=0, bitmap=bitmap).drawn(4))
        if kind == RUN_END:
            case(Column(kind, Column(NUMBER)).holding(*[Refer(Null())] * 4))
        else:
            case(some_column(kind).holding(*[Null()] * 4))
    group("references to values that are all null")
    for kind in (DICTIONARY, RUN_END):
        case(Column(kind, Column(STRUCT, Column(NUMBER), null_rate=1)).drawn(5))


def cases_of_structs():
    for fields in (0, 1, 2, 4):
        group(f"structs of {fields} fields")
        for start in (0, None):
            case(Column(STRUCT, *(some_leaf() for _ in range(fields)), start=start).drawn(5))
        case(Column(LIST, Column(STRUCT, *(some_leaf() for _ in range(fields)))).drawn(4), inner=1)
    group("structs of 255 fields: 255 children, and one child 255 times")
    kinds = rng.choices(LEAVES, k=255)
    case(Column(STRUCT, *(Column(kind, p=min(WIDTHS.get(kind, (0,))), spare=(0, 1)) for kind in kinds)).drawn(2))
    case(Column(STRUCT, *[Column(NUMBER)] * 255).drawn(3))
    case(Column(STRUCT, *[Column(UTF8)] * 254, Column(NULL)).drawn(3))


def cases_of_empty_rows():
    group("empty lists and maps, fixed-size lists of no elements")
    for kind in (LIST, LIST_VIEW):
        for p in WIDTHS[kind]:
            case(Column(kind, some_leaf(), p=p).holding(Sequence(()), Null(), Sequence(()), Sequence(())))
    case(Column(MAP, some_leaf(), some_leaf()).holding(Map(()), Null(), Map(())))
    for start in (0, 3, 700):  # no child row is before START
        case(Column(FIXED_SIZE_LIST, some_leaf(), p=0, start=start).holding(Sequence(()), Null(), Sequence(())))
    for kind in NESTED:
        empty = Column(FIXED_SIZE_LIST, some_leaf(), p=0)
        kids = [empty, some_leaf()] if kind in (STRUCT, MAP) else [empty]
        case(Column(kind, *kids).drawn(4))
        empty = Column(LIST, some_leaf(), lengths=(0,))
        kids = [some_leaf(), empty] if kind in (STRUCT, MAP) else [empty]
        case(Column(kind, *kids).drawn(4))

    group("a child of as many rows as there may be")
    low, high = Refer(Number(1, 5)), Refer(Number(1, 9))
    runs = Column(RUN_END, Column(NUMBER, p=1), p=4, start=0, spare=(0,), split=0)
    runs.holding(*[low] * (MOST_ROWS - 2), high, high)
    case(Column(LIST_VIEW, runs).holding(Sequence((low, high, high)), Null(), Sequence(()), Sequence((high,))),
         Column(DICTIONARY, runs, p=4).holding(Refer(high), Null(), Refer(low)), states=[STANDARD])
    assert len(runs.rows) == MOST_ROWS

    group("START at its limit, where no buffer is needed for that")
    for column, slot in ((Column(NULL, start=MOST_ROWS), Nothing()),
                         (Column(STRUCT, start=MOST_ROWS, bitmap=False), Struct(())),
                         (Column(FIXED_SIZE_LIST, some_leaf(), p=0, start=MOST_ROWS, bitmap=False), Sequence(()))):
        case(column.holding(slot, slot))


def cases_of_sharing():
    group("one child below two columns")
    for left in NESTED:
        for right in rng.sample(NESTED, 2):
            child = some_leaf()
            pair = [Column(kind, *([child] + [some_leaf()] * (kind in (STRUCT, MAP)))) for kind in (left, right)]
            for column in pair:
                column.drawn(4)
            case(*pair, inner=1)
    group("one child below a struct and below the struct's other fields")
    for kind in NESTED:
        for turned in (False, True):
            child = Column(rng.choice((NUMBER, UTF8, VIEW)))
            other = Column(kind, *([child] + [some_leaf()] * (kind in (STRUCT, MAP))))
            fields = (other, child, other) if turned else (child, other)
            case(Column(STRUCT, *fields).drawn(4))
    group("one child twice in a struct, and as keys and values of a map")
    for kind in KINDS:
        child = some_column(kind)
        case(Column(STRUCT, child, child).drawn(4))
        child = some_column(kind)
        case(Column(MAP, child, child).drawn(4))
    group("one child on many paths: structs that list the one below them twice")
    column = Column(NUMBER)
    for _ in range(5):
        column = Column(STRUCT, column, column, null_rate=0.1)
    case(column.drawn(4))
    group("two maps over the same keys")
    keys = Column(UTF8)
    case(Column(MAP, keys, Column(NUMBER)).drawn(4), Column(MAP, keys, Column(FLOAT)).drawn(4))

    for p in WIDTHS[LIST_VIEW]:
        group(f"list views, P {p}, that share elements, overlap and run backwards")
        for kind in (NUMBER, UTF8, LIST, STRUCT):
            child = some_column(kind)
            pool = tuple(draw_rows(child, 8))
            spans = [(5, 8), (4, 7), (2, 6), (2, 6), (0, 4), (0, 8), (3, 3), (1, 2), (7, 8), (7, 8)]
            rows = [Sequence(pool[low:high]) for low, high in spans]
            rows.insert(rng.randrange(len(rows)), Null())
            for _ in range(2):
                case(Column(LIST_VIEW, same_shape(child), p=p).holding(*rows))


def same_shape(column):
    """A fresh column of the same type, without rows."""
    return Column(column.kind, *map(same_shape, column.children), p=column.p, signed=column.signed)


def cases_of_maps():
    group("maps beside lists of structs over the same keys and values")
    for key, value in ((NUMBER, UTF8), (UTF8, NUMBER), (VIEW, LIST), (STRUCT, DICTIONARY)):
        keys, values = some_column(key), some_column(value)
        maps = Column(MAP, keys, values).drawn(5)
        structs = Column(LIST, Column(STRUCT, keys, values, null_rate=0))
        structs.holding(*(slot if slot == Null() else Sequence(tuple(map(Struct, slot.entries))) for slot in maps.rows))
        case(maps, structs)
        pairs = [pair for pair in zip(maps.rows, structs.rows) if slots_in(pair[0])]
        for turn in TURNS:
            if pairs and all(len({model.number(STANDARD, turn == "first", 0, slot) for slot in pair}) == 2
                             for pair in pairs):
                cover("map beside a list of structs", turn)


def cases_of_references():
    group("references to references, with nulls at each level")
    for outer in (DICTIONARY, RUN_END):
        for middle in (DICTIONARY, RUN_END):
            for kind in (NULL, NUMBER, UTF8, STRUCT, LIST):
                column = Column(outer, Column(middle, some_column(kind)))
                rows = [Refer(Refer(draw(column.children[0].children[0]))) for _ in range(3)]
                if kind != NULL:
                    rows += [Refer(Refer(Null()))] * 2
                if middle == DICTIONARY:
                    rows += [Refer(Null())]
                if outer == DICTIONARY:
                    rows += [Null()]
                rng.shuffle(rows)
                case(column.holding(*rows))
    group("references three and four deep")
    for kinds in ((DICTIONARY,) * 3, (RUN_END,) * 3, (RUN_END, DICTIONARY, RUN_END), (DICTIONARY, RUN_END) * 2):
        column = Column(NUMBER, null_rate=0.4)
        for kind in kinds:
            column = Column(kind, column, null_rate=0.1)
        case(column.drawn(7))


def cases_of_heights():
    def chain(kinds, leaf):
        column = leaf
        for kind in kinds:
            kids = [column]
            if kind == MAP or kind == STRUCT and rng.random() < 0.5:
                kids.insert(rng.randrange(2), some_leaf(spare=(0, 1)))
            column = Column(kind, *kids, p=1 if kind == FIXED_SIZE_LIST else None, null_rate=0.02,
                            lengths=(1, 1, 1, 2), spare=(0, 0, 1))
        while max(map(depth, column.rows), default=0) < 16:  # nulls on the way may hide the leaf
            column.drawn(3)
        for kind in kinds[:1] + [leaf.kind]:
            cover("height 16", kind)
        return column

    for kind in NESTED:
        group(f"height 16: fifteen of kind {kind} over a leaf")
        case(chain([kind] * 15, Column(rng.choice((NUMBER, UTF8, VIEW)), null_rate=0.1)))
    group("height 16: fifteen of mixed kinds over a leaf")
    for leaf in LEAVES:
        case(chain(rng.choices(NESTED, k=15), Column(leaf, null_rate=0.1)), inner=2)


def cases_of_trees():
    group("random trees of height up to 6, up to 40 rows a node")
    made = 0
    while made < 60:
        height, count = rng.randrange(3, 7), rng.randrange(2, 12)
        roots = [some_tree(height).drawn(count) for _ in range(rng.choice((1, 1, 1, 2)))]
        # those that are small or mostly null say little
        if max(depth(slot) for slot in roots[0].rows) < height or len(roots[0].all()) < 5:
            continue
        laid = lay(roots)
        if max(len(column.rows) for column in laid[1]) <= 40:
            taken = [rng.randrange(count) for _ in range(rng.randrange(8))]
            case(*roots, states=[some_state()], inner=2, lists=[taken], laid=laid)
            made += 1


def cases_of_lists_of_rows():
    for kind in KINDS:
        group(f"kind {kind} by lists of rows: repeated, backwards, one of many, none")
        column = some_column(kind)
        column.drawn(6)
        lists = [(2, 2, 0, 2, 5, 5, 5, 1), (5, 4, 3, 2, 1, 0), (rng.randrange(6),), (), tuple(rng.choices(range(6), k=14))]
        case(column, lists=lists)
    group("lists of rows of nested columns in trees")
    for kind in NESTED:
        column = Column(kind, *(some_column(rng.choice(NESTED)) for _ in range(2 if kind in (STRUCT, MAP) else 1)))
        case(column.drawn(9), states=[some_state()], inner=1,
             lists=[tuple(rng.choices(range(9), k=5)), (8,), (8, 7, 6, 1, 0)])


# ---------------------------------------------------------------------------
# The check, for mistakes of the layout.


def check(image, columns):
    """Asserts that an image is admitted, and that its slots are those it was made from.

    This reads images as docs/FORMAT.md says. Nodes go from the last to the first, so that
    the slots of children are there when they are asked for.
    """
    def part(place, length):
        assert place + length <= len(image), "not inside"
        return image[place:place + length]

    def num(place, width, signed=False):
        return int.from_bytes(part(place, width), "little", signed=signed)

    def bit(place, k):
        return part(place, k // 8 + 1)[-1] >> k % 8 & 1

    nodes = num(0, 4)
    assert nodes == len(columns) and 1 <= nodes <= 256
    known, heights = {}, {}
    for node in reversed(range(nodes)):
        kind, rows, start, nulls, a, b, p, tab, cnt = (num(4 + 36 * node + 4 * k, 4) for k in range(9))
        stop = start + rows
        assert kind == columns[node].kind and max(rows, start) <= MOST_ROWS
        assert kind not in WIDTHS or p in WIDTHS[kind] or kind in (8, 15) and p <= 65_535
        kids = [num(tab + 4 * k, 4) for k in range(cnt)] if kind in NESTED else []
        assert all(node < kid < nodes for kid in kids)
        heights[node] = 1 + max((heights[kid] for kid in kids), default=0)
        assert heights[node] <= 16
        below = [known[kid] for kid in kids]
        assert kind not in NESTED or kind == STRUCT or cnt == (2 if kind == MAP else 1)
        if kind == MAP:
            p = 4
        marked = [False] * rows
        if kind not in UNMARKED and nulls:
            part(nulls, -(-stop // 8))
            marked = [not bit(nulls, start + r) for r in range(rows)]
        if kind in (UTF8, BINARY, LIST, MAP):
            ends = [num(a + p * k, p, True) for k in range(start, stop + 1)]
            assert ends[0] >= 0 and ends == sorted(ends)
            assert all(ends[-1] <= len(some) for some in below)
            part(a, p * (stop + 1))
            if kind in (UTF8, BINARY):
                part(b, ends[-1])
        if kind in (NUMBER, FLOAT, FIXED_SIZE_BINARY, DICTIONARY, LIST_VIEW):
            part(a, p * stop)
        if kind == BOOLEAN:
            part(a, -(-stop // 8))
        if kind == VIEW:
            part(a, 16 * stop)
            part(tab, 8 * cnt)
            data = [part(num(tab + 8 * k, 4), num(tab + 8 * k + 4, 4)) for k in range(cnt)]
        if kind == LIST_VIEW:
            part(b, p * stop)
        if kind in (STRUCT, FIXED_SIZE_LIST):
            part(tab, 4 * cnt)
            assert all(stop * (p if kind == FIXED_SIZE_LIST else 1) <= len(some) for some in below)
        if kind == RUN_END:
            ends = [num(a + p * k, p, True) for k in range(len(below[0]))]
            assert all(low < high for low, high in zip([0] + ends, ends)) and (stop == 0 or ends[-1] >= stop)

        known[node] = slots = []
        for r in range(rows):
            e = start + r
            if marked[r]:
                slots.append(Null())
                continue
            match kind:
                case 1:
                    slot = Nothing()
                case 2:
                    slot = Boolean(bool(bit(a, e)))
                case 3 | 4:
                    slot = (Number if kind == NUMBER else Float)(p, num(a + p * e, p))
                case 6 | 7:
                    slot = (Text if kind == UTF8 else Binary)(part(b + ends[r], ends[r + 1] - ends[r]))
                case 8:
                    slot = Binary(part(a + p * e, p))
                case 9:
                    view = part(a + 16 * e, 16)
                    length, which, at = (int.from_bytes(view[k:k + 4], "little") for k in (0, 8, 12))
                    content = view[4:4 + length] if length <= 12 else data[which][at:at + length]
                    assert len(content) == length and view[4:8] == content.ljust(4, b"\0")[:4]
                    assert length > 12 or not any(view[4 + length:])
                    slot = View(content)
                case 10:
                    key = num(a + p * e, p, b == 1)
                    assert b in (0, 1) and 0 <= key < len(below[0])
                    slot = Refer(below[0][key])
                case 11:
                    slot = Struct(tuple(some[e] for some in below))
                case 12:
                    slot = Sequence(tuple(below[0][ends[r]:ends[r + 1]]))
                case 13:
                    low, size = num(a + p * e, p, True), num(b + p * e, p, True)
                    assert low >= 0 and size >= 0 and low + size <= len(below[0])
                    slot = Sequence(tuple(below[0][low:low + size]))
                case 14:
                    slot = Map(tuple(zip(*(some[ends[r]:ends[r + 1]] for some in below))))
                case 15:
                    slot = Sequence(tuple(below[0][p * e:p * e + p]))
                case 16:
                    slot = Refer(below[0][bisect.bisect_right(ends, e)])  # the first end above e
            slots.append(slot)
        assert slots == columns[node].rows, (node, kind)


# ---------------------------------------------------------------------------
# How this script ends, and tests/scripts.py.

# what crates/vectors prints of the published vectors, which its source has
PUBLISHED = ["FNV-1a: 16 vectors, each in 12 ways: 192 of 192 hashes agree",
             "SipHash-2-4: 64 vectors, each in 12 ways: 768 of 768 hashes agree"]


def store(part, text, printed):
    """Writes a part of stdin and its line of stdout, or checks them and the images: 0 before the line RUNS, or 1 after it."""
    checking = "--check" in sys.argv
    directories = [word for word in sys.argv[1:] if word != "--check"]
    directory = pathlib.Path(directories[0]) if directories else ROOT / "crates" / "vectors"
    file, answers = directory / "stdin", directory / "stdout"
    before, _, after = file.read_text().partition(RUNS) if file.exists() else ("", "", "")
    there = answers.read_text().splitlines() if answers.exists() else []
    wanted = "".join(f"{line}\n" for line in (PUBLISHED + [printed] + there[3:] if part == 0 else there[:3] + [printed]))
    if checking:
        for image, nodes in images:
            check(image, nodes)
        assert text == (before, after)[part], f"{file} is not up to date"
        assert answers.read_text() == wanted, f"{answers} is not up to date"
        return
    directory.mkdir(parents=True, exist_ok=True)
    file.write_text(text + RUNS + after if part == 0 else before + RUNS + text)
    answers.write_text(wanted)


def summary(text):
    """How many of what each group has, and all of them."""
    def told(counted):
        return " ".join(f"{many:6} {what}" for what, many in counted.items())

    total = Counter()
    for title, counted in counts:
        print(f"{told(counted)}  {title}")
        total.update(counted)
    print(f"{told(total)}, {len(text):,} bytes")
    return total


def finish(part, text, wanted, printed):
    """Tells how much there is and what it covers of what is wanted, and writes or checks this part of both files; of
    `printed`, crates/vectors' line of it, the counts are put in."""
    total = summary(text)
    table(wanted)
    store(part, text, printed.format(**total))


def main():
    """Works out all cases, and writes or checks them."""
    model.self_test()
    cases_of_docs()
    cases_of_leaves()
    cases_of_empty_columns()
    cases_of_pairs()
    cases_of_widths()
    cases_of_nulls()
    cases_of_structs()
    cases_of_empty_rows()
    cases_of_sharing()
    cases_of_maps()
    cases_of_references()
    cases_of_heights()
    cases_of_trees()
    cases_of_lists_of_rows()
    text = "\n".join(["# tests/columns.py writes these lines and says what they are"] + lines) + "\n\n"
    finish(0, text, required(), "columns: {lines} columns of {images} images: {numbers} numbers agree")


if __name__ == "__main__":
    main()
