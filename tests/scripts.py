#!/usr/bin/env python3
"""Runs: lists of calls with the answer to each, and the words that are left.

    tests/scripts.py [DIRECTORY]            writes the runs into DIRECTORY/stdin, and their line of stdout
                                            (crates/vectors if none is given)
    tests/scripts.py --check [DIRECTORY]    tries the images and whether the files are up to date

They stand in the file behind the columns of tests/columns.py. crates/vectors
makes the calls of each run by one `runs::replay::replay`, and compares. Both
ways end with a table of what the runs cover, and fail where they miss some of
what `required` asks for.

The answers come from the ledger of tests/runs.py, which is fed the columns as
they are before they have bytes: nothing is read from an image.

Each run is told a second time: it begins the same, one keep lists the places
that its rows began at, and then each of its accepted columns comes with the
list of the rows that they met there. The ledger is then to be the same.

The lines, words parted by one blank; a number N that stands K times may be
written N*K:

    image HEX|- ..                          up to three images, for the places from 0 on; none at -
    fnv1a START | siphash K0 K1             the hash state of the following lines
    run ROWS WORK PLACES ENTRY..            begin asks for so many rows; words of work, places for answers; the entries
    column IMAGE NODE LENT [list R..] = ANSWER
    keep LENT list R.. = ANSWER
    read ROW ENTRIES = ANSWER               lent so many entries
    end new|begun MADE ENTRY..              so many calls were made; the entries
    end refused N ENTRY..                   the same where begin is refused

LENT is three numbers: words of the entries, words of the work, and how many of
these are claimed. ANSWER is `accepted`, `refused N`, a read's NUMBER COUNT, or
`none` if the call is not made: for want of a place, or since a read of a run
without a column ended it, or came before.

Which words of the work stay is not written: a column or a keep that is accepted
may leave anything in those that it is lent and that are not claimed, and no
other call may.
"""

import functools
import itertools
import pathlib
import sys
from typing import NamedTuple

ROOT = pathlib.Path(__file__).resolve().parent.parent
sys.path[:0] = [str(ROOT / "tools"), str(ROOT / "tests")]
sys.dont_write_bytecode = True

import model  # noqa: E402
import runs  # noqa: E402
from columns import (  # noqa: E402
    HOW, KINDS, NESTED, TURNS, Column,
    cover, finish, group, images, lay, lines, rng, shown, some_column, some_tree, tally, under,
)
from images import BOOLEAN, FLOAT, LIST, MAP, NULL, NUMBER, STRUCT, UTF8, VIEW  # noqa: E402
from model import REFERENCE, STANDARD, U64, Fnv1a, Nothing, SipHash24  # noqa: E402
from runs import MOST_COLUMNS, MOST_ROWS, Ledger, Lent, need  # noqa: E402

STATES = (STANDARD, Fnv1a(0x123456789ABCDEF), REFERENCE, SipHash24(3, U64 - 5))
STAGES = ("new", "begun")


class Image(NamedTuple):
    """The bytes of an image, and its columns by node number."""
    data: bytes
    nodes: tuple


NO_IMAGE = Image(b"", ())


def image(*roots):
    data, nodes = lay(roots)
    return Image(data, tuple(nodes))


class Run(Ledger):
    """A run that is told line by line, each call with its answer."""

    def __init__(self, state, images, entries, rows=None, work=4096, places=None):
        self.asked = len(entries) if rows is None else rows
        super().__init__(state, entries, self.asked)
        self.images, self.entries, self.work, self.places = images, entries, work, places
        self.columns = []
        self.over, self.made = bool(self.begin_faults), 0
        self.lendings = []  # of each column and keep: the call, whether it is accepted, its need, and what it got
        self.faults = []  # of the calls that were refused since the last accepted one
        self.lines = []

    @property
    def stage(self):
        return STAGES[self.count > 0]

    def column(self, image, node, taken=None, **told):
        """A column, or a refusal; lent all there is, if nothing else is told."""
        lent, got = self.lend(**told)
        words = ["column", image, node, *lent]
        if not self.answers(words if taken is None else words + ["list", *short(taken)]):
            return
        column = self.column_at(image, node)
        faults = self.column_faults(column, taken, got)
        note_lent(self, "column", lent, need(column) if column else 0, faults)
        if column and got.unclaimed() - need(column) in (-1, 0):
            for sort in sorts_of_need(column):
                cover(*sort, faults[0] if faults else "accepted")
        note_column(self, image, node, column, taken, faults)
        self.lendings.append(("column", not faults, need(column) if column else 0, got))
        if self.refuses("column", faults):
            return
        self.meet(column, taken)
        self.columns.append((image, node))
        self.lines[-1].append("accepted")

    def column_at(self, image, node):
        """The column at a node of an image, or none."""
        nodes = self.images[image].nodes if image < len(self.images) else ()
        return nodes[node] if node < len(nodes) else None

    def keep(self, taken, **told):
        """A keep, or a refusal."""
        lent, got = self.lend(**told)
        if not self.answers(["keep", *lent, "list", *short(taken)]):
            return
        faults = self.keep_faults(taken, got)
        note_lent(self, "keep", lent, len(taken), faults)
        note_keep(self, taken, got.entries, faults)
        self.lendings.append(("keep", not faults, len(taken), got))
        if self.refuses("keep", faults):
            return
        self.choose(taken)
        self.lines[-1].append("accepted")

    def read(self, row, entries=None):
        """A read, or a refusal; of a run without a column it ends the run."""
        if not self.over and self.made != self.places and not self.count:
            cover("read of a run without a column", "first call" if not self.made else "later call")
            self.over = True
        lent, got = self.lend(entries, work=0)
        if not self.answers(["read", row, lent.entries]):
            return
        faults = self.read_faults(row, got.entries)
        note_lent(self, "read", lent, 0, faults)
        note_read(self, row, faults)
        if not self.refuses("read", faults):
            self.lines[-1] += [shown(self.number(self.rows[row])), self.count]

    def lend(self, entries=None, work=None, claimed=0):
        """What a call is lent by its line, and what it gets of that, which is no more than there is."""
        entries = len(self.words) if entries is None else entries
        work = self.work if work is None else work
        return Lent(entries, work, claimed), Lent(min(entries, len(self.words)), min(work, self.work), claimed)

    def answers(self, words):
        """Begins the line of a call; whether the call is made."""
        self.lines.append(words + ["="])
        if self.over or self.made == self.places:
            self.lines[-1].append("none")
            return False
        self.made += 1
        return True

    def refuses(self, call, faults):
        """Ends the line of a call that is refused; whether it is."""
        if not faults:
            for fault in self.faults:
                cover("goes on after", *fault)
            self.faults.clear()
            return False
        self.lines[-1] += ["refused", faults[0]]
        cover("refused", call, faults[0], self.stage)
        for other in faults[1:]:
            cover("order", call, faults[0], other)
        self.faults.append((call, faults[0]))
        return True

    def told(self):
        """All lines."""
        places = self.made + rng.choice((0, 0, 1, 3)) if self.places is None else self.places
        if not self.begin_faults:
            if places < len(self.lines):
                cover("places", "fewer than calls", places == 0)
            cover("places", "as many as calls" if places == len(self.lines) else "other")
            if places > len(self.lines):
                cover("places", "more than calls")
        end = ["refused", *self.begin_faults] if self.begin_faults else [self.stage, self.made]
        note_run(self)
        return [["run", self.asked, self.work, places, *short(self.entries)], *self.lines,
                ["end", *end, *short(self.left())]]

    def retold(self):
        """The same rows by one keep and the accepted columns, in their order."""
        origins = [row.origin for row in self.rows]
        most = max([len(origins)] + [need(self.column_at(*at)) for at in self.columns])
        again = Run(self.state, self.images, self.entries, self.asked, work=most + 3)
        again.keep(origins, claimed=3)
        for k, at in enumerate(self.columns):
            again.column(*at, taken=[row.met[k][1] for row in self.rows], claimed=3)
        assert again.rows == self.rows and again.count == self.count and again.numbers() == self.numbers()
        if self.count:
            for row in range(min(3, len(self.rows))):
                again.read(row)
        cover("told again", "columns", min(self.count, 3), "keep", origins != list(range(min(self.asked, len(self.entries)))))
        return again


# ---------------------------------------------------------------------------
# Notes of what is told.


def note_lent(run, call, lent, wanted, faults):
    """Notes what a call is lent and whether that does."""
    entries, work, claimed = lent
    rows, outcome = len(run.rows), faults[0] if faults else "accepted"
    if entries > len(run.words):
        cover("lent more entries than there are", call, outcome)
    if entries == rows < len(run.words):
        cover("lent as many entries as rows", call, outcome)
    if entries == rows - 1:
        cover("lent one entry less than rows", call, outcome)
    if call == "read":
        return
    if work > run.work:
        cover("lent more work than there is", call, outcome)
    there = min(work, run.work)
    if claimed > there:
        cover("claimed more than lent", call, wanted > 0, outcome)
    if claimed == U64:
        cover("claimed 2^64 - 1", call, wanted > 0, outcome)
    if wanted and claimed and there - claimed == wanted:
        cover("need met", call, outcome)
    if wanted and there - claimed == wanted - 1:
        cover("need not met by one", call, outcome)
    if claimed == there and not wanted:
        cover("nothing unclaimed, nothing needed", call, outcome)


def sorts_of_need(column):
    """Where a column's need comes from."""
    if not need(column):
        return set()
    kind, below = column.kind, column.children
    sorts = {("need of a kind", kind, any(map(need, below)))}
    if len(below[0].rows) + need(below[0]) < need(column):
        sorts.add(("need by a later child", kind))
    most = max(len(child.rows) for child in below)
    if all(len(child.rows) < most for child in below if len(child.rows) + need(child) == need(column)):
        sorts.add(("need by a child of fewer rows", kind))
    return sorts


def note_column(run, place, node, column, taken, faults):
    """Notes what sort of column comes."""
    if column is None:
        sort = ("no such place" if place >= len(run.images) else "no image there" if not run.images[place].nodes
                else "first node not there" if node == len(run.images[place].nodes)
                else "2^32 past one" if node >> 32 and run.column_at(place, node % 2**32) else "2^64 - 1" if node == U64
                else "other")
        cover("no such node", sort, faults[0])
        return
    if 15 in faults:
        cover("list number", "as many as rows" if len(column.rows) in taken else "higher", faults[0])
        cover("list number", "2^32 - 1" if 2**32 - 1 in taken else "lower", faults[0])
    if faults:
        return
    turn = TURNS[run.count > 0]
    cover("column", column.kind, turn, run.state)
    cover("column", column.kind, turn, taken is not None)
    cover("column of image", place, len(run.images))
    if run.columns and run.columns[-1][0] != place:
        cover("column of another image than the last")
    if taken is not None and len(column.rows) - 1 in taken:
        cover("list number", "last row", "accepted")
    if not run.rows:
        cover("no rows", "column", "rows" if column.rows else "no rows", "list" if taken is not None else "no list")
    for how, holds in HOW.items():
        if taken is not None and holds(taken, len(column.rows)):
            cover("list of a column", turn, how)


def note_keep(run, taken, entries, faults):
    """Notes what sort of keep comes."""
    rows, outcome = len(run.rows), faults[0] if faults else "accepted"
    if len(taken) == entries > rows:
        cover("keep of as many as entries", run.stage, outcome)
    if len(taken) == entries + 1:
        cover("keep of one more than entries", run.stage, outcome)
    if len(taken) in (MOST_ROWS, MOST_ROWS + 1) and len(taken) <= entries:
        cover("keep of at most 1,048,576", len(taken) == MOST_ROWS, outcome)
    if 15 in faults:
        cover("keep's number", "as many as rows" if rows in taken else "higher", outcome)
    if faults:
        return
    if not rows:
        cover("no rows", "keep")
    if rows and taken == list(range(rows))[::-1] and rows > 1:
        cover("keep", run.stage, "all reversed")
    if rows and len(taken) > rows:
        cover("keep", run.stage, "longer than the rows")
    for how, holds in HOW.items():
        if rows and holds(taken, rows):
            cover("keep", run.stage, how)


def note_read(run, row, faults):
    """Notes which row is read."""
    rows, outcome = len(run.rows), faults[0] if faults else "accepted"
    cover("read", run.count if run.count in (1, MOST_COLUMNS) else "other", outcome)
    sort = ("last" if row == rows - 1 else "as many as rows" if row == rows else "2^64 - 1" if row == U64
            else "2^32 past one" if row >> 32 and row % 2**32 < rows else "other")
    cover("read of row", sort, outcome)
    if not rows:
        cover("no rows", "read", outcome)


def note_run(run):
    """Notes what a run has in all."""
    begun = min(run.asked, len(run.entries))
    cover("begin", "refused" if run.begin_faults else "accepted",
          begun if begun in (0, MOST_ROWS, MOST_ROWS + 1) else "other")
    if not run.begin_faults:
        cover("begin", "asked", "less than all" if run.asked < len(run.entries) else
              "all" if run.asked == len(run.entries) else "more than all")
        cover("calls", min(run.made, 1), run.state)
        cover("images", len(run.images))
    if len(run.rows) < len(run.words):
        cover("words behind the rows", run.stage)
    note_work(run)
    if run.count == MOST_COLUMNS:
        cover("255 columns", run.state)


def note_work(run):
    """Notes which words of the work stay, beside those that the accepted calls may write."""
    opened = [got for _, accepted, _, got in run.lendings if accepted]
    first, last = min([run.work] + [got.claimed for got in opened]), max([0] + [got.work for got in opened])
    for call, accepted, wanted, got in run.lendings:
        if accepted and wanted and first:
            cover("claimed words stay", call)
        if accepted and wanted and last < run.work:
            cover("words that are not lent stay", call)
        if not accepted and (got.claimed < min(first, got.work) or max(last, got.claimed) < got.work):
            cover("words of a refused call stay", call)


def required():
    """What has to be covered."""
    column, keep = (11, 12, 13, 14, 15, 16), (11, 14, 15, 16)
    wanted = {("refused", "column", n, stage) for n in column for stage in STAGES if (n, stage) != (12, "new")}
    wanted |= {("refused", "keep", n, stage) for n in keep for stage in STAGES}
    wanted |= {("refused", "read", n, "begun") for n in (11, 17)}
    wanted |= {("goes on after", call, n) for call, ns in (("column", column), ("keep", keep), ("read", (11, 17)))
               for n in ns if (call, n) != ("column", 12)}
    wanted |= {("goes on after", "column", 12)}  # by keeps and reads alone
    # a node that is not there has no rows and no need
    wanted |= {("order", "column", *two) for two in itertools.combinations(column, 2) if two not in ((13, 15), (13, 16))}
    wanted |= {("order", "keep", *two) for two in itertools.combinations(keep, 2)} | {("order", "read", 11, 17)}

    wanted |= {("column", kind, turn, state) for kind in KINDS for turn in TURNS for state in STATES}
    wanted |= {("column", kind, turn, listed) for kind in KINDS for turn in TURNS for listed in (False, True)}
    wanted |= {("column of image", place, images) for images in (1, 2, 3) for place in range(images)}
    wanted |= {("column of another image than the last",)} | {("images", n) for n in range(4)}
    wanted |= {("list of a column", turn, how) for turn in TURNS for how in HOW}
    wanted |= {("keep", stage, how) for stage in STAGES for how in HOW if how != "longer than the column"}
    wanted |= {("keep", stage, how) for stage in STAGES for how in ("all reversed", "longer than the rows")}
    wanted |= {("keep of as many as entries", stage, "accepted") for stage in STAGES}
    wanted |= {("keep of one more than entries", stage, 14) for stage in STAGES}
    wanted |= {("keep of at most 1,048,576", True, "accepted"), ("keep of at most 1,048,576", False, 14)}
    wanted |= {("keep's number", sort, 15) for sort in ("as many as rows", "higher")}

    calls = (("column", 16), ("keep", 16))
    wanted |= {("lent as many entries as rows", call, "accepted") for call in ("column", "keep", "read")}
    wanted |= {("lent one entry less than rows", call, 11) for call in ("column", "keep", "read")}
    wanted |= {("lent more entries than there are", call, "accepted") for call in ("column", "keep", "read")}
    wanted |= {("lent more work than there is", call, outcome) for call, n in calls for outcome in ("accepted", n)}
    for sort in ("claimed more than lent", "claimed 2^64 - 1"):
        wanted |= {(sort, call, some, outcome) for call, n in calls for some, outcome in ((False, "accepted"), (True, n))}
    wanted |= {("need met", call, "accepted") for call, _ in calls} | {("need not met by one", *call) for call in calls}
    wanted |= {(*sort, outcome) for kind in NESTED for sort in required_needs(kind) for outcome in ("accepted", 16)}
    wanted |= {("nothing unclaimed, nothing needed", call, "accepted") for call, _ in calls}
    wanted |= {(which, call) for which in ("claimed words stay", "words that are not lent stay", "words of a refused call stay")
               for call, _ in calls}
    wanted |= {("no such node", sort, 13) for sort in
               ("no such place", "no image there", "first node not there", "2^32 past one", "2^64 - 1")}
    wanted |= {("list number", sort, 15) for sort in ("as many as rows", "higher", "2^32 - 1")}
    wanted |= {("list number", "last row", "accepted")}
    wanted |= {("read of row", "last", "accepted")}
    wanted |= {("read of row", sort, 17) for sort in ("as many as rows", "2^64 - 1", "2^32 past one")}
    wanted |= {("read", count, "accepted") for count in (1, MOST_COLUMNS, "other")}
    wanted |= {("read of a run without a column", which) for which in ("first call", "later call")}
    wanted |= {("no rows", "column", "no rows", listed) for listed in ("list", "no list")}
    wanted |= {("no rows", "column", "rows", "list"), ("no rows", "keep"), ("no rows", "read", 17)}
    wanted |= {("places", "fewer than calls", none) for none in (False, True)}
    wanted |= {("places", "as many as calls"), ("places", "more than calls")}
    wanted |= {("begin", "accepted", rows) for rows in (0, MOST_ROWS, "other")} | {("begin", "refused", MOST_ROWS + 1)}
    wanted |= {("begin", "asked", what) for what in ("less than all", "all", "more than all")}
    wanted |= {("calls", some, state) for some in (0, 1) for state in STATES}
    wanted |= {("words behind the rows", stage) for stage in STAGES} | {("255 columns", state) for state in STATES}
    wanted |= {("told again", "columns", n, "keep", other) for n in range(4) for other in (False, True)}
    return wanted


def required_needs(kind):
    """Where needs of a kind are to come from, just met as well as not by one word."""
    wanted = {("need of a kind", kind, deep) for deep in (False, True)}
    if kind in (STRUCT, MAP):
        wanted |= {("need by a later child", kind), ("need by a child of fewer rows", kind)}
    return wanted


# ---------------------------------------------------------------------------
# The lines.


def short(values):
    """Numbers as words, those that stand often in a row by one word."""
    for value, same in itertools.groupby(values):
        count = len(list(same))
        word = shown(value) if value >= 2**32 else str(value)
        yield from [f"{word}*{count}"] if count > 3 else [word] * count


def show(*shown_images):
    """The images of the following lines."""
    lines.append(" ".join(["image"] + [image.data.hex() or "-" for image in shown_images]))
    images.extend(image for image in shown_images if image.nodes)
    return shown_images


def tell(run):
    """The lines of a run, and of the same run told again."""
    both = [run] if run.begin_faults else [run, run.retold()]
    under(run.state)
    for one in both:
        lines.extend(" ".join(map(str, words)) for words in one.told())
        tally(runs=1, calls=len(one.lines))


# ---------------------------------------------------------------------------
# Random calls.


def some_entries(count):
    return [rng.choice((0, 1, 7, U64, rng.getrandbits(64), rng.getrandbits(64))) for _ in range(count)]


def some_lent(run, rows, wanted):
    """Enough entries and work, now just enough and now more."""
    claimed = rng.choice((0, 1, 5, 40))
    entries = rng.choice((max(rows, len(run.rows)), len(run.words), len(run.words) + 3, U64))
    return {"entries": entries, "claimed": claimed,
            "work": rng.choice((claimed + wanted, claimed + wanted + 1, run.work, run.work + 9, U64))}


def some_taken(rows, count):
    """So many numbers of rows, of so many there are."""
    return rng.choices(range(rows), k=count) if rows else []


def good_column(run):
    """What a column that is accepted may be called with, or none if none is found."""
    rows = len(run.rows)
    for _ in range(20):
        place = rng.randrange(len(run.images))
        nodes = run.images[place].nodes
        if not nodes:
            continue
        node = rng.randrange(len(nodes))
        column = nodes[node]
        plain = len(column.rows) == rows
        if not column.rows and rows or len(column.rows) > 1000 and not plain:
            continue
        if need(column) + 40 > run.work or not plain and rng.random() < 0.3:
            continue
        taken = None if plain and rng.random() < 0.6 else some_taken(len(column.rows), rows)
        return {"image": place, "node": node, "taken": taken, **some_lent(run, rows, need(column))}


def some_column_call(run, spoiled=()):
    """A column; spoiled, so that these refusals may apply."""
    call = good_column(run)
    if call is None:
        return
    column = run.column_at(call["image"], call["node"])
    rows = len(run.rows)
    if 11 in spoiled and rows:
        call["entries"] = rng.choice((rows - 1, rng.randrange(rows)))
    if 14 in spoiled:
        taken = [] if call["taken"] is None else call["taken"]
        call["taken"] = rng.choice((None, taken[1:], taken + some_taken(len(column.rows), 1)))
        if len(column.rows) == rows and call["taken"] is None:
            call["taken"] = some_taken(len(column.rows), rows + 1)
    if 15 in spoiled:
        taken = call["taken"] or some_taken(len(column.rows), rows + (14 in spoiled))
        if taken:
            most = len(column.rows)
            taken[rng.randrange(len(taken))] = rng.choice((most, most + 1, 2**31, 2**32 - 1))
            call["taken"] = taken
    if 16 in spoiled and need(column):
        claimed, work = rng.choice(((call["claimed"], call["claimed"] + need(column) - 1), (run.work, U64), (U64, U64), (9, 3)))
        call["claimed"], call["work"] = claimed, work
    if 13 in spoiled:
        call["image"], call["node"] = rng.choice((
            (len(run.images), 0), (U64, 0), (call["image"], len(run.images[call["image"]].nodes)),
            (call["image"], 2**32 + call["node"]), (call["image"], U64)))
    run.column(**call)


def some_keep_call(run, spoiled=()):
    """A keep, in the same way."""
    rows, room = len(run.rows), len(run.words)
    count = rng.choice((rows, rows, max(rows - 1, 0), min(rows + 2, room), rng.randrange(1, room + 1) if room else 0))
    taken = rng.choice((list(range(rows))[::-1], some_taken(rows, count), some_taken(rows, count), list(range(rows))))
    lent = some_lent(run, len(taken), len(taken))
    if 11 in spoiled and rows:
        lent["entries"] = rng.choice((rows - 1, rng.randrange(rows)))
    if 14 in spoiled:
        taken = some_taken(rows, min(lent["entries"], room) + rng.choice((1, 1, 3)))
    if 15 in spoiled:
        taken = taken or [0]
        taken[rng.randrange(len(taken))] = rng.choice((rows, rows + 1, 2**32 - 1))
    if 16 in spoiled and taken:
        lent["claimed"], lent["work"] = rng.choice(((3, 3 + len(taken) - 1), (run.work, U64), (U64, U64), (9, 3)))
    run.keep(taken, **lent)


def some_read_call(run, spoiled=()):
    """A read, in the same way."""
    rows = len(run.rows)
    row = rng.randrange(rows) if rows else 0
    entries = rng.choice((rows, len(run.words), U64))
    if 11 in spoiled and rows:
        entries = rng.choice((rows - 1, rng.randrange(rows)))
    if 17 in spoiled:
        row = rng.choice((rows, rows + 1, 2**32 + row, U64))
    run.read(row, entries)


def some_call(run):
    """Any call but a read of a run without a column; one in three is spoiled."""
    call, ways = rng.choice(((some_column_call, (11, 13, 14, 15, 16)), (some_column_call, (11, 13, 14, 15, 16)),
                             (some_keep_call, (11, 14, 15, 16)), (some_read_call, (11, 17))))
    if call is some_read_call and not run.count:
        return
    call(run, rng.sample(ways, rng.choice((1, 1, 2, 2, 3)) % (len(ways) + 1)) if rng.random() < 0.33 else ())


# ---------------------------------------------------------------------------
# The runs.


def runs_of_kinds():
    """Under each state a run whose first column is of the kind, with random calls before and after it."""
    for kind in KINDS:
        group(f"kind {kind} as the first column, then others")
        rows = rng.randrange(3, 6)
        firsts = image(some_column(kind).drawn(rows), some_column(kind).drawn(rows + 2), some_column(NUMBER).drawn(rows))
        others = image(some_tree(3).drawn(rows), some_column(rng.choice(KINDS)).drawn(rows))
        at = [node for node, column in enumerate(firsts.nodes) if column.kind == kind and len(column.rows) == rows][0]
        later = [node for node, column in enumerate(firsts.nodes) if column.kind == kind and len(column.rows) == rows + 2][0]
        told = show(*[(firsts, others), (firsts, NO_IMAGE, others), (firsts,)][KINDS.index(kind) % 3])
        for k, state in enumerate(STATES):
            run = Run(state, told, some_entries(rows + rng.randrange(4)), rows=rows)
            for _ in range(rng.randrange(3)):
                some_keep_call(run, rng.sample((11, 14, 15, 16), 2) if rng.random() < 0.5 else ())
            for _ in range(rng.randrange(3)):
                some_column_call(run, rng.sample((11, 13, 14, 15, 16), 2))
            if not run.count:
                wide = len(run.rows)
                if k % 2 or wide != rows:
                    run.keep(some_taken(wide, rows) if wide else [], **some_lent(run, rows, rows))
                listed = k >= 2
                run.column(0, at, some_taken(rows, len(run.rows)) if listed or len(run.rows) != rows else None)
            run.read(len(run.rows) - 1)
            run.column(0, later, some_taken(rows + 2, len(run.rows)))
            for _ in range(9):
                some_call(run)
            if len(run.rows) != rows and run.rows:
                run.keep(some_taken(len(run.rows), rows))
            run.column(0, at)
            run.read(0)
            tell(run)


def runs_of_all_columns():
    """255 columns of all kinds, and what comes then."""
    group("255 columns of all kinds and one more")
    rows = 5
    roots = [some_column(kind).drawn(rows) for kind in KINDS]
    told = show(image(*roots[::2]), image(*roots[1::2]))
    places = [(place, told[place].nodes.index(root)) for root in roots for place in range(2) if root in told[place].nodes]
    for k, state in enumerate(STATES):
        run = Run(state, told, some_entries(rows + 2), rows=rows)
        for _ in range(k):
            some_keep_call(run)
        if len(run.rows) != rows:
            run.keep([0] * rows)
        while run.count < MOST_COLUMNS:
            place, node = places[(run.count * 7 + k) % len(places)] if run.count % 17 else rng.choice(places)
            run.column(place, node, rng.choice((None, None, None, some_taken(rows, rows))))
            if run.count in (63, 200):
                run.keep(rng.choices(range(rows), k=rows))
            if run.count % 50 == 0:
                some_column_call(run, rng.sample((11, 13, 14, 15, 16), 2))
        run.read(0)
        place, node = max(places, key=lambda at: need(run.column_at(*at)))
        run.column(place, node)
        run.column(place, node, entries=rows - 1)
        run.column(place, 99)
        run.column(place, node, [0] * (rows + 1))
        run.column(place, node, [rows] * rows)
        run.column(place, node, claimed=U64)
        run.column(7, 99, [9], entries=0, work=0)
        for row in range(rows):
            run.read(row, entries=rows)
        some_keep_call(run)
        run.column(place, node, some_taken(rows, len(run.rows)))
        run.read(0)
        tell(run)


def runs_of_lent_words():
    """Entries, work and claimed words at every edge, for each call on a new run and a begun one."""
    group("entries, work and claimed words at their edges")
    rows = 4
    lists = Column(LIST, Column(NUMBER)).drawn(rows)
    flat = Column(NUMBER).drawn(rows)
    told = show(image(lists), image(flat), NO_IMAGE)
    wide, deep = told[1].nodes.index(flat), told[0].nodes.index(lists)
    wants = need(lists)
    assert wants > 1
    for state in STATES:
        run = Run(state, told, some_entries(rows + 3), rows=rows, work=wants + 20)
        for _ in range(2):
            for call, wanted in ((functools.partial(run.keep, [3, 2, 1, 0]), rows),
                                 (functools.partial(run.keep, [1, 1, 2, 0]), rows),
                                 (functools.partial(run.keep, [0, 1, 2, 3]), rows),
                                 (functools.partial(run.column, 0, deep, [3, 0, 0, 1]), wants),
                                 (functools.partial(run.column, 0, deep), wants)):
                call(claimed=7, work=7 + wanted - 1)
                call(claimed=20, work=20 + wanted - 1)
                call(work=wanted - 1)
                call(claimed=run.work - wanted + 1, work=U64)
                call(claimed=U64, work=U64)
                call(claimed=U64)
                call(claimed=run.work + 1, work=run.work)
                call(claimed=9, work=3)
                call(entries=rows - 1)
                call(entries=0, work=0, claimed=3)
                if call.func == run.keep or call.args[2:] or run.count:
                    call(claimed=7, work=7 + wanted, entries=rows)
            run.column(1, wide, claimed=U64, work=0)
            run.column(1, wide, claimed=6, work=5, entries=rows)
            run.column(1, wide, claimed=6, work=6, entries=U64)
            run.column(0, deep, [0, 1, 2, rows], claimed=U64)
            run.column(2, 0)
            run.column(3, 0)
            run.read(1, entries=rows)
            run.read(1, entries=rows - 1)
            run.read(1, entries=0)
        tell(run)
        run = Run(state, told, some_entries(rows), rows=U64, work=0)
        run.keep([0], work=1)
        run.column(1, wide, work=1)
        run.keep([], claimed=U64, entries=U64)
        run.keep([], claimed=1)
        run.keep([], claimed=0)
        run.read(0)
        tell(run)
        run = Run(state, told, some_entries(rows + 2), rows=2, work=10)
        run.keep([1, 0, 1], entries=2)
        run.keep([1, 0, 1], entries=3)
        run.keep([0] * 7)
        run.keep([0, 1, 2, 2, 1, 0])
        run.keep([5, 0, 3])
        run.column(1, wide, [0, 1, 3])
        run.keep([2, 0, 1, 1], entries=3)
        run.keep([2, 0, 1, 1], entries=4)
        run.keep([2, 0, 1, 1, 0, 0, 0], entries=U64)
        run.keep([2, 0, 1, 1, 0, 3])
        run.read(5)
        run.read(6)
        tell(run)


def runs_of_needs():
    rows = 3
    for kind in NESTED:
        group(f"kind {kind}: needs that are just met, and not by one word")
        missing = required_needs(kind)
        while missing:
            count = rng.randrange(1, 4) if kind == STRUCT else 2 if kind == MAP else 1
            column = Column(kind, *(some_tree(rng.randrange(1, 4)) for _ in range(count)), null_rate=0.1).drawn(rows)
            made = image(column)
            if not missing & sorts_of_need(column):
                continue
            missing -= sorts_of_need(column)
            told = show(made)
            at, wanted, state = made.nodes.index(column), need(column), rng.choice(STATES)
            run = Run(state, told, some_entries(rows), work=wanted + 4)
            for taken in (None, some_taken(rows, rows), None):
                run.column(0, at, taken, claimed=4, work=wanted + 3)
                run.column(0, at, taken, work=wanted - 1)
                run.column(0, at, taken, claimed=5)
                run.column(0, at, taken, **rng.choice(({"work": wanted}, {"claimed": 4})))
                run.read(rng.randrange(rows))
            tell(run)


def runs_of_no_rows():
    group("runs without rows, without calls, without images, and keeps that leave no row")
    told = show(image(Column(UTF8).drawn(0), Column(BOOLEAN).drawn(3), Column(STRUCT, Column(VIEW)).drawn(0)))
    empty, some = ([node for node, column in enumerate(told[0].nodes) if (len(column.rows) > 0) == has and
                    column.kind in (UTF8, BOOLEAN)][0] for has in (False, True))
    for state in STATES:
        for entries in ([], some_entries(3)):
            run = Run(state, told, entries, rows=0)
            run.keep([])
            run.column(0, some)
            run.column(0, empty, rng.choice((None, [])), entries=0)
            run.read(0)
            run.keep([0])
            run.column(0, some, [])
            run.column(0, empty, [])
            run.column(0, empty)
            run.read(U64)
            tell(run)
        run = Run(state, told, some_entries(4), rows=3)
        run.column(0, some)
        run.keep([])
        run.read(0)
        run.column(0, empty)
        run.column(0, some)
        tell(run)
        tell(Run(state, told, some_entries(2)))
    show()
    run = Run(STANDARD, (), some_entries(2))
    run.column(0, 0)
    run.column(U64, U64)
    run.keep([1, 1])
    tell(run)


def runs_that_end_early():
    group("reads of a run without a column, and places for answers")
    told = show(image(Column(NUMBER).drawn(3), Column(FLOAT).drawn(3)))
    roots = [node for node, column in enumerate(told[0].nodes)]
    for state in STATES:
        for before in range(4):
            run = Run(state, told, some_entries(4), rows=3, places=rng.choice((None, 9)))
            for call in (lambda: run.keep([2, 2, 0]), lambda: run.column(0, 0, entries=2), lambda: run.keep([3]))[:before]:
                call()
            run.read(rng.choice((0, 5, U64)), entries=rng.choice((0, 4)))
            run.column(0, roots[0])
            run.read(0)
            run.keep([0])
            tell(run)
        run = Run(state, told, some_entries(4), rows=3)
        run.column(0, roots[0])
        run.read(2)
        tell(run)
        for places in range(8):
            run = Run(state, told, some_entries(4), rows=3, places=places)
            run.keep([2, 2, 0])
            run.column(0, roots[0])
            run.keep([3])
            run.read(2)
            run.column(0, roots[1], [0, 2, 1])
            run.keep([1])
            run.read(0)
            tell(run)


def runs_of_limits():
    group("as many rows as a run may have, and one more")
    nothing = Column(NULL, start=0).holding(*[Nothing()] * MOST_ROWS)
    told = show(image(nothing, Column(UTF8).drawn(3)))
    tall = told[0].nodes.index(nothing)
    tell(Run(STANDARD, told, [7] * (MOST_ROWS + 1)))
    run = Run(STANDARD, told, [7] * (MOST_ROWS + 1), rows=U64)
    run.keep([0])
    run.read(0)
    tell(run)
    run = Run(REFERENCE, told, [7] * (MOST_ROWS + 1) + [5], rows=MOST_ROWS, work=MOST_ROWS + 2)
    run.keep([0] * MOST_ROWS, entries=MOST_ROWS - 1)
    run.column(0, tall)
    run.keep([1] * (MOST_ROWS + 1))
    run.keep([3] * MOST_ROWS, claimed=2, work=MOST_ROWS + 1)
    run.keep([3] * MOST_ROWS, claimed=2)
    run.column(0, tall, entries=MOST_ROWS)
    run.read(MOST_ROWS - 1)
    run.read(MOST_ROWS)
    run.keep([MOST_ROWS - 1, 0, 5])
    run.column(0, 1 - tall, [2, 2, 0])
    run.read(0)
    tell(run)


def runs_at_random():
    group("random calls")
    for k in range(24):
        rows = rng.randrange(1, 7)
        told = [image(*(some_tree(rng.randrange(1, 4)).drawn(rng.choice((rows, rows, rows + 1, 1, 3))) for _ in range(2)))
                for _ in range(rng.randrange(1, 4))]
        told = show(*told)
        for state in rng.sample(STATES, 2):
            run = Run(state, told, some_entries(rows + rng.randrange(4)), rows=rows)
            for _ in range(rng.randrange(6, 30)):
                some_call(run)
            if k % 6 == 0 and run.count:
                run.column(0, 0, [0])
            tell(run)


def main():
    """Tells all runs, and writes or checks them."""
    model.self_test()
    runs.self_test()
    runs_of_kinds()
    runs_of_all_columns()
    runs_of_lent_words()
    runs_of_needs()
    runs_of_no_rows()
    runs_that_end_early()
    runs_of_limits()
    runs_at_random()
    finish(1, "\n".join(lines[1:]) + "\n", required(), "runs: {runs} runs of {calls} calls: all answers agree")


if __name__ == "__main__":
    main()
