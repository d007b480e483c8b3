#!/usr/bin/env python3
"""Runs once more, as ledgers.

A run is here what it means: for each row the place that it began at, its entry
and the slots that it has met. A row's number is worked out from these alone
whenever it is asked for, its entry led through the row rule (tests/model.py) by
the first slot as first and by the rest as later. No words are led on from call
to call, there are no images, and what a call needs is known from the columns'
rows.

    tests/runs.py       tries the ledger on the numbers of docs/ROW_NUMBERS.md

tests/cases.py has its cases of runs answered by `Replay`, and tests/scripts.py
tells its runs by `Ledger`.
"""

from dataclasses import dataclass, field
from functools import lru_cache
from typing import NamedTuple

import model
from model import STANDARD, U64, Fnv1a, Null, Number, SipHash24, Struct, Z, combine

MOST_ROWS = 1_048_576  # of a run and of a column, whose START may be as large
MOST_COLUMNS = 255


@dataclass
class Column:
    """A node of an image by what its rows mean, which are slots, with the columns of its children."""
    rows: list
    children: list = field(default_factory=list)


def need(column):
    """The words of work that a column needs; a column of tests/columns.py will do as well."""
    return max((len(child.rows) + need(child) for child in column.children), default=0)


class Lent(NamedTuple):
    """What a call is lent: so many entries and so many words of work, and how many of these are claimed."""
    entries: int
    work: int
    claimed: int

    def unclaimed(self):
        return max(self.work - self.claimed, 0)


class Row(NamedTuple):
    """Where a row began, its entry, and of each column the slot that it met and that slot's row."""
    origin: int
    entry: int
    met: tuple = ()


@lru_cache(maxsize=None)
def led(state, entry, slots):
    """The entry led through the row rule by slots, the first as first and the rest as later."""
    for turn, slot in enumerate(slots):
        entry = model.number(state, turn == 0, entry, slot)
    return entry


def applying(refusals):
    """Those that apply, of refusals by their numbers."""
    return [number for number, applies in refusals.items() if applies]


class Ledger:
    """A run: its rows, how many columns it has accepted, and all words of the entries."""

    def __init__(self, state, entries, asked):
        """What begin comes to that asks for so many rows; they are all where there are fewer."""
        begun = min(asked, len(entries))
        self.state = state
        self.begin_faults = applying({11: begun > MOST_ROWS})
        self.rows = [] if self.begin_faults else [Row(j, entry) for j, entry in enumerate(entries[:begun])]
        self.count = 0
        self.words = list(entries)  # of those of the rows see `left`

    def number(self, row):
        """The number of one of the rows."""
        return led(self.state, row.entry, tuple([slot for slot, _ in row.met]))

    def numbers(self):
        """The number of each row; those that are copies of one are worked out once."""
        known = {at: self.number(row) for at, row in {id(row): row for row in self.rows}.items()}
        return [known[id(row)] for row in self.rows]

    def left(self):
        """All words: those of the rows are their numbers, and those behind stay as they are."""
        return self.numbers() + self.words[len(self.rows):]

    def column_faults(self, column, taken, lent):
        """The refusals of a column that apply, in checking order; none stands for a node that is not there."""
        there = column is not None
        met = len(taken) if taken is not None else len(column.rows) if there else len(self.rows)
        return applying({
            11: lent.entries < len(self.rows),
            12: self.count == MOST_COLUMNS,
            13: not there,
            14: met != len(self.rows),
            15: there and any(r >= len(column.rows) for r in taken or ()),
            16: there and lent.unclaimed() < need(column),
        })

    def keep_faults(self, taken, lent):
        """The same of a keep."""
        return applying({
            11: lent.entries < len(self.rows),
            14: len(taken) > lent.entries or len(taken) > MOST_ROWS,
            15: any(r >= len(self.rows) for r in taken),
            16: lent.unclaimed() < len(taken),
        })

    def read_faults(self, row, entries):
        """The same of a read."""
        return applying({11: entries < len(self.rows), 17: row >= len(self.rows)})

    def meet(self, column, taken):
        """An accepted column: row j meets its row taken[j], or its row j where there is no list."""
        met = range(len(self.rows)) if taken is None else taken
        self.rows = [Row(row.origin, row.entry, row.met + ((column.rows[r], r),)) for row, r in zip(self.rows, met)]
        self.count += 1

    def choose(self, taken):
        """An accepted keep: row j is a copy of row taken[j]."""
        self.words = self.left()
        self.rows = [self.rows[r] for r in taken]


def told(faults):
    """The answer to a call to which these refusals apply."""
    return f"refused {faults[0]}" if faults else "accepted"


class Replay:
    """What `rowhash replay` answers to the commands of a run, by their words."""

    def __init__(self):
        self.state = STANDARD
        self.columns = []
        self.work = MOST_ROWS
        self.claimed = 0
        self.run = None
        self.room = 0  # how many entries are lent

    def answer(self, command):
        """The answer to a line, which is one of those below."""
        name, *words = command.split()
        if name in ("room", "column", "keep", "read", "words") and self.run is None:
            return "no run"
        match name, words:
            case "state", ["fnv1a"]:
                return self.set_state(STANDARD)
            case "state", ["fnv1a", start]:
                return self.set_state(Fnv1a(int(start, 0)))
            case "state", ["siphash", k0, k1]:
                return self.set_state(SipHash24(int(k0, 0), int(k1, 0)))
            case "work", [words]:
                self.work = int(words, 0)
                return "ok"
            case "claimed", [words]:
                self.claimed = int(words, 0)
                return "ok"
            case "begin", entries:
                return self.begin([int(entry, 0) for entry in entries])
            case "room", [words]:
                return self.set_room(int(words, 0))
            case "column", [node]:
                return self.column(int(node, 0), None)
            case "column", [node, "list", *rows]:
                return self.column(int(node, 0), [int(row, 0) for row in rows])
            case "keep", rows:
                return self.keep([int(row, 0) for row in rows])
            case "read", [row]:
                return self.read(int(row, 0))
            case "words", []:
                return " ".join(["words"] + [f"{word:016x}" for word in self.run.left()[:self.room]])
        raise ValueError(command)

    def set_state(self, state):
        self.state = state
        self.run = None
        return "ok"

    def set_room(self, room):
        self.room = room
        self.run.words += [0] * (room - len(self.run.words))
        return "ok"

    def begin(self, entries):
        run = Ledger(self.state, entries, len(entries))
        if not run.begin_faults:
            self.run, self.room = run, len(entries)
        return told(run.begin_faults)

    def lent(self):
        return Lent(self.room, self.work, self.claimed)

    def column(self, node, taken):
        column = self.columns[node] if node < len(self.columns) else None
        faults = self.run.column_faults(column, taken, self.lent())
        if not faults:
            self.run.meet(column, taken)
        return told(faults)

    def keep(self, taken):
        faults = self.run.keep_faults(taken, self.lent())
        if not faults:
            self.run.choose(taken)
        return told(faults)

    def read(self, row):
        if self.run.count == 0:
            return "no column yet"
        faults = self.run.read_faults(row, self.room)
        return told(faults) if faults else f"{self.run.number(self.run.rows[row]):016x} {self.run.count}"


def try_ledger():
    """Tries the ledger on a few calls: most refusals at once, just none, and what is left."""
    flat = Column([Struct(()), Number(1, 1)])
    wide = Column([Null()] * 3, [Column([Null()] * 5), Column([Null()] * 4, [flat])])
    assert [need(column) for column in (flat, wide)] == [0, 6]
    ledger = Ledger(Z, [7, 8, 9], 2)
    assert ledger.column_faults(wide, [0, 1, 3], Lent(1, 9, 4)) == [11, 14, 15, 16]
    assert ledger.column_faults(wide, None, Lent(2, 9, 3)) == [14]
    assert ledger.column_faults(wide, [2, 2], Lent(2, 9, 3)) == []
    assert ledger.column_faults(flat, None, Lent(2, 0, U64)) == []
    assert ledger.column_faults(None, [0], Lent(1, 0, 0)) == [11, 13, 14]
    assert ledger.keep_faults([0, 2], Lent(1, 2, 1)) == [11, 14, 15, 16]
    assert ledger.keep_faults([1, 1, 0], Lent(3, 4, 1)) == []
    assert ledger.read_faults(2, 1) == [11, 17] and ledger.read_faults(1, 2) == []
    ledger.choose([1, 1, 0])
    assert ledger.rows == [Row(1, 8), Row(1, 8), Row(0, 7)] and ledger.left() == [8, 8, 7]
    ledger.choose([2])
    ledger.meet(flat, [0])
    assert ledger.rows == [Row(0, 7, ((Struct(()), 0),))] and ledger.left() == [23532, 8, 7]
    ledger.count = MOST_COLUMNS
    assert ledger.column_faults(flat, [2], Lent(1, 0, 0)) == [12, 15]
    more = [0] * (MOST_ROWS + 1)
    assert Ledger(Z, more, MOST_ROWS).begin_faults == [] and Ledger(Z, more, U64).begin_faults == [11]
    assert Ledger(Z, more, 1).keep_faults(more, Lent(U64, U64, 0)) == [14]


def try_replay():
    """Tries the answers on numbers that docs/ROW_NUMBERS.md gives."""
    replay = Replay()
    replay.columns = [Column([Number(1, 1)]), Column([Struct(())]), Column([Null()] * 2)]
    assert replay.answer("words") == "no run"
    assert replay.answer("state fnv1a 0") == "ok" and replay.state == Z
    assert replay.answer("begin 7") == "accepted" and replay.answer("read 0") == "no column yet"
    assert replay.answer("column 1") == "accepted"
    assert replay.answer("read 0") == f"{23532:016x} 1"
    assert replay.answer("begin 1") == "accepted" and replay.answer("column 2 list 0") == "accepted"
    assert replay.answer("column 0") == "accepted" and replay.answer("read 0") == f"{0:016x} 2"
    assert replay.answer("begin 1") == "accepted"
    assert replay.answer("column 0") == "accepted" and replay.answer("column 1") == "accepted"
    assert replay.answer("words") == f"words {combine(1099511628211, 0):016x}"
    assert replay.answer("column 2 list 1") == "accepted"
    assert replay.answer("column 2") == "refused 14" and replay.answer("keep 0 0") == "refused 14"
    assert replay.answer("room 2") == "ok" and replay.answer("keep 0 0") == "accepted"
    assert [row.origin for row in replay.run.rows] == [0, 0] and replay.answer("column 2") == "accepted"


def self_test():
    """Tries the ledger and the answers."""
    try_ledger()
    try_replay()


if __name__ == "__main__":
    self_test()
    print("the ledger holds")
