#!/usr/bin/env python3
"""Row numbers once more, over values instead of bytes.

This is docs/ROW_NUMBERS.md written down a second time, in another language and
from the other end: here a row is a slot, a plain tree of values. There are no
images, buffers, offsets, ranges or regions, so nothing that goes wrong in
reading or walking those can go wrong here in the same way. The two hashes are
written from their publications.

    tests/model.py      tries the published hashes and the numbers of the docs

tests/columns.py and tests/runs.py work out their numbers by `number`.
"""

from dataclasses import dataclass

U64 = 2**64 - 1

# ---------------------------------------------------------------------------
# The two hashes, of byte strings.

FNV_START = 14_695_981_039_346_656_037
FNV_PRIME = 1_099_511_628_211


def fnv1a(start, data):
    """FNV-1a with 64 bits, from `start`, which is FNV_START in the publication."""
    word = start
    for byte in data:
        word = (word ^ byte) * FNV_PRIME & U64
    return word


def rotate(word, count):
    """A word of 64 bits turned to the left."""
    return (word << count | word >> (64 - count)) & U64


def sip_round(v0, v1, v2, v3):
    """SipRound."""
    v0 = (v0 + v1) & U64
    v2 = (v2 + v3) & U64
    v1 = rotate(v1, 13) ^ v0
    v3 = rotate(v3, 16) ^ v2
    v0 = rotate(v0, 32)
    v2 = (v2 + v1) & U64
    v0 = (v0 + v3) & U64
    v1 = rotate(v1, 17) ^ v2
    v3 = rotate(v3, 21) ^ v0
    v2 = rotate(v2, 32)
    return v0, v1, v2, v3


def siphash24(k0, k1, data):
    """SipHash-2-4."""
    v = (k0 ^ 0x736F6D6570736575, k1 ^ 0x646F72616E646F6D,
         k0 ^ 0x6C7967656E657261, k1 ^ 0x7465646279746573)
    # nulls up to the last byte of the last word, which is the length
    padded = data + bytes(7 - len(data) % 8) + bytes([len(data) % 256])
    for at in range(0, len(padded), 8):
        word = int.from_bytes(padded[at:at + 8], "little")
        v = (v[0], v[1], v[2], v[3] ^ word)
        for _ in range(2):
            v = sip_round(*v)
        v = (v[0] ^ word, v[1], v[2], v[3])
    v = (v[0], v[1], v[2] ^ 0xFF, v[3])
    for _ in range(4):
        v = sip_round(*v)
    return v[0] ^ v[1] ^ v[2] ^ v[3]


# ---------------------------------------------------------------------------
# Hash states. Both read the joined bytes of all writes, so bytes are what they are given.


@dataclass(frozen=True)
class Fnv1a:
    """FNV-1a from a start; a seed takes the start's place."""
    start: int = FNV_START

    def one(self, data):
        return fnv1a(self.start, data)

    def seed(self, s, data):
        return fnv1a(s, data)


@dataclass(frozen=True)
class SipHash24:
    """SipHash-2-4 of two key words; a seed takes the first one's place."""
    k0: int
    k1: int

    def one(self, data):
        return siphash24(self.k0, self.k1, data)

    def seed(self, s, data):
        return siphash24(s, self.k1, data)


# ---------------------------------------------------------------------------
# Slots. They are tuples all through, so that equal ones can be found and shared.


@dataclass(frozen=True)
class Null:
    """Marked null by its own column."""


@dataclass(frozen=True)
class Nothing:
    """A row of the Null type, which is not marked null."""


@dataclass(frozen=True)
class Boolean:
    value: bool


@dataclass(frozen=True)
class Number:
    width: int
    value: int  # unsigned or signed: only its bits count


@dataclass(frozen=True)
class Float:
    width: int
    bits: int


@dataclass(frozen=True)
class Text:
    data: bytes


@dataclass(frozen=True)
class Binary:
    data: bytes


@dataclass(frozen=True)
class View:
    data: bytes


@dataclass(frozen=True)
class Refer:
    """A row of a dictionary or of a run-end column."""
    slot: object


@dataclass(frozen=True)
class Struct:
    fields: tuple


@dataclass(frozen=True)
class Sequence:
    """A row of a list, a list view or a fixed-size list."""
    elements: tuple


@dataclass(frozen=True)
class Map:
    entries: tuple  # pairs of a key and a value


# ---------------------------------------------------------------------------
# The row rule.


def combine(left, right):
    """C of the row rule."""
    return ((629 + left) * 37 + right) & U64


def writes(slot):
    """The joined bytes that a value without slots inside tells a hasher.

    A float's are a word under ONE and a byte string under SEED; the bytes are the same.
    """
    def word(width, value):
        return (value % 256**width).to_bytes(width, "little")

    match slot:
        case Nothing():
            return word(4, 1)
        case Boolean(value):
            return word(1, int(value))
        case Number(width, value):
            return word(width, value)
        case Float(width, bits):
            minus_zero = 1 << (8 * width - 1)
            return word(width, 0 if bits == minus_zero else bits)
        case Text(data):
            return data + b"\xff"
        case View(data) if len(data) <= 12:
            return word(4, len(data)) + data + bytes(12 - len(data))
        case Binary(data) | View(data):
            return word(8, len(data)) + data


def number(state, first, e, slot):
    """The number of a row from entry e, in a first or a later column."""
    match slot:
        case Null() | Refer(Null()):
            return e
        case Nothing() | Boolean() | Text() | Binary():
            v = state.one(writes(slot))
            return v if first else combine(v, e)
        case Refer(inner):
            v = number(state, True, 0, inner)
            return v if first else combine(v, e)
        case Number() | Float() | View():
            return state.one(writes(slot)) if first else state.seed(e, writes(slot))
        case Struct(fields):
            f = 0
            for index, field in enumerate(fields):
                f = number(state, index == 0, f, field)
            return combine(e, f)
        case Sequence(elements):
            for element in elements:
                e = combine(e, number(state, True, 0, element))
            return e
        case Map(entries):
            for key, value in entries:
                v = number(state, True, 0, key)
                e = combine(e, number(state, False, v, value))
            return e
    raise TypeError(slot)


# ---------------------------------------------------------------------------
# The numbers that the docs give.

Z = Fnv1a(0)
STANDARD = Fnv1a()
REFERENCE = SipHash24(0x0706050403020100, 0x0F0E0D0C0B0A0908)

BYTE = Number(1, 1)
TRUE = Boolean(True)
EMPTY = Sequence(())
NULLS_TWICE = Refer(Refer(Null()))
ENTRY = Map(((BYTE, Null()),))
ENTRY_AS_STRUCT = Sequence((Struct((BYTE, Null())),))

# (state, "first" or "later", entry, slot, number); the number is the docs', not worked out here
WORKED = [
    # ROW_NUMBERS.md, the worked numbers in their order
    (Z, "first", 7, Struct(()), 23532),
    (Z, "first", 7, Null(), 7),
    (Z, "first", 7, EMPTY, 7),
    (Z, "first", 0, Sequence((Null(), Null())), 884374),
    (Z, "first", 0, ENTRY, 1099511651484),
    (Z, "first", 0, ENTRY_AS_STRUCT, 1099511674757),
    (Z, "first", 7, NULLS_TWICE, 0),
    (Z, "later", 7, NULLS_TWICE, 23280),
    (Z, "later", 5, TRUE, 40681930267085),
    (Z, "first", 1, BYTE, 1099511628211),
    (Z, "later", 1, BYTE, 0),
    (Z, "first", 9, Float(8, 1 << 63), 0),
    # ROW_NUMBERS.md, what people get wrong: the right numbers
    (Z, "later", 5, TRUE, 40681930267085),
    (Z, "later", 5, Text(b""), 10373892212194063),
    (Z, "first", 0, ENTRY, 1099511651484),
    (Z, "first", 7, Nothing(), 11527715348014283921),
    (Z, "later", 7, Nothing(), 2250354181208841189),
    (Z, "first", 0, Sequence((Number(1, 2),)), 2199023279695),
    # DIFFERENCES.md: "initializes"
    (Z, "first", 0, Null(), 0),
    (Z, "first", 0, EMPTY, 0),
    (Z, "first", 0, Struct(()), 23273),
    (Z, "first", 7, Refer(EMPTY), 0),
    (Z, "first", 0, Refer(EMPTY), 0),
    (Z, "first", 7, Refer(Struct(())), 23273),
    (Z, "first", 0, Refer(Struct(())), 23273),
    # "for all columns besides the first"
    (Z, "later", 1, View(b""), 5692010928100677697),
    (Z, "later", 1, View(b"a"), 17191611703643831057),
    (STANDARD, "later", 1, BYTE, 0),
    (STANDARD, "first", 1, BYTE, 12638152016183539244),
    # "same data"
    (Z, "first", 0, Float(2, 0x3C00), 65970697692660),
    (Z, "later", 0, Float(2, 0x3C00), 65970697692660),
    # "stable hash"
    (Z, "first", 7, Number(4, 1), 11527715348014283921),
    (Z, "later", 7, Null(), 7),
    # nulls behind two references
    (Z, "first", 7, Refer(Null()), 7),
    (Z, "later", 7, Refer(Null()), 7),
    # one value, several numbers
    (Z, "later", 1, Refer(BYTE), 40681930267081),
    (Z, "first", 0, Text(b"a"), 92604167844460228),
    (Z, "first", 0, Binary(b"a"), 10622430616380713664),
    (Z, "first", 0, View(b"a"), 5984138530507203056),
]

TWELVE = b"abcdefghijkl"
THIRTEEN = b"abcdefghijklm"
TWO = Number(1, 2)
MIXED = Struct((TRUE, BYTE, TRUE))
PAIR = Sequence((TRUE, Boolean(False)))
ENTRIES = Map(((BYTE, Null()), (TWO, Null())))

# further numbers of the docs, of which tests/columns.py makes no images
FURTHER = [
    # ROW_NUMBERS.md, the worked numbers of each kind
    (Z, "first", 7, Nothing(), 11527715348014283921),
    (Z, "later", 7, Nothing(), 2250354181208841189),
    (Z, "first", 7, TRUE, 1099511628211),
    (Z, "first", 7, Number(2, 1), 956575116354345),
    (Z, "later", 1, Number(4, 1), 0),
    (Z, "first", 7, Float(2, 0x3C00), 65970697692660),
    (Z, "later", 1, Float(2, 0x3C00), 916992697738749),
    (Z, "later", 1, Float(2, 0x8000), 956575116354345),
    (Z, "first", 7, Text(b"a"), 92604167844460228),
    (Z, "later", 5, Text(b"a"), 3426354210245051714),
    (Z, "first", 7, Binary(b"a"), 10622430616380713664),
    (Z, "later", 5, Binary(b"a"), 5648307258185844910),
    (Z, "first", 7, View(b"a"), 5984138530507203056),
    (Z, "later", 1, View(b"a"), 17191611703643831057),
    (Z, "first", 7, View(TWELVE), 3938342635625432200),
    (Z, "later", 1, View(TWELVE), 6088072389479637981),
    (Z, "first", 7, View(THIRTEEN), 2194587453236361088),
    (Z, "later", 1, View(THIRTEEN), 4269486303836246239),
    (Z, "first", 7, Refer(Null()), 7),
    (Z, "later", 7, Refer(Null()), 7),
    (Z, "first", 7, Refer(Nothing()), 11527715348014283921),
    (Z, "first", 7, Refer(BYTE), 1099511628211),
    (Z, "later", 1, Refer(BYTE), 40681930267081),
    (Z, "first", 7, MIXED, 996157535016746),
    (Z, "later", 7, MIXED, 996157535016746),
    (Z, "first", 7, PAIR, 40681931137764),
    (Z, "later", 7, PAIR, 40681931137764),
    (Z, "first", 7, Map(((TRUE, TWO),)), 954376093121455),
    (Z, "later", 7, Map(((TRUE, TRUE), (Boolean(False), Null()))), 1545913351019724),
    # what a seed replaces
    (SipHash24(0, 0), "later", 1, BYTE, 14108459189511270900),
    (SipHash24(5, 0), "later", 1, BYTE, 14108459189511270900),
    (SipHash24(0, 1), "later", 1, BYTE, 7845141156912661020),
    (STANDARD, "first", 7, Struct(()), 23532),
    (REFERENCE, "first", 7, Struct(()), 23532),
    # byte order
    (Z, "first", 0, Number(2, 1), 956575116354345),
    # "initializes"
    (Z, "first", 7, Sequence((BYTE,)), 1099511651743),
    (Z, "first", 0, Sequence((BYTE,)), 1099511651484),
    # views
    (Z, "first", 0, View(TWELVE), 3938342635625432200),
    (Z, "first", 0, View(THIRTEEN), 2194587453236361088),
    # "into a fresh hasher"
    (Z, "later", 7, Struct(()), 23532),
    # structs, maps, lists
    (Z, "first", 0, Struct((BYTE, BYTE)), 955475604749407),
    (Z, "first", 0, Struct((TRUE, TRUE)), 41781441918564),
    (Z, "first", 7, ENTRIES, 42880954394186),
    (Z, "first", 0, Sequence((Number(2, 258),)), 1914249744360174),
    # "stable hash"
    (STANDARD, "first", 7, Nothing(), 12478008331234465636),
    # one value, several numbers
    (Z, "first", 0, Text(THIRTEEN), 8408913936696102252),
    (Z, "first", 0, Binary(THIRTEEN), 2194587453236361088),
    (Z, "later", 1, Binary(THIRTEEN), 7412759474907177066),
    (Z, "first", 0, Number(4, 1), 11527715348014283921),
    (Z, "first", 0, Number(8, 1), 2232315406967589409),
    (Z, "first", 0, Float(4, 0x3F800000), 122510884125933453),
    (Z, "first", 0, Float(8, 0x3FF0000000000000), 229612112785517341),
    (Z, "first", 0, ENTRIES, 42880954384603),
    (Z, "first", 0, Map(ENTRIES.entries[::-1]), 82463373000199),
    # NaN
    (Z, "first", 0, Float(2, 0x7E00), 138538465154586),
    (Z, "first", 0, Float(2, 0x7E01), 985162418687831),
    # a map with a null key
    (Z, "first", 0, Map(((Null(), BYTE),)), 1099511651484),
]


def self_test():
    """Tries the published hashes and every number of the docs."""
    assert fnv1a(FNV_START, b"") == 0xCBF29CE484222325
    assert fnv1a(FNV_START, b"a") == 0xAF63DC4C8601EC8C
    assert fnv1a(FNV_START, b"foobar") == 0x85944171F73967E8
    # of the reference implementation, by the length of the message 00 01 02 ..
    for length, published in [(0, "310e0edd47db6f72"), (1, "fd67dc93c539f874"),
                              (8, "6224939a79f5f593"), (15, "e545be4961ca29a1")]:
        assert REFERENCE.one(bytes(range(length))).to_bytes(8, "little").hex() == published

    for state, turn, e, slot, expected in WORKED + FURTHER:
        got = number(state, turn == "first", e, slot)
        assert got == expected, (state, turn, e, slot, expected, got)
    # where first and later are told to make no difference
    for slot in (Null(), EMPTY, Struct(()), ENTRY, ENTRY_AS_STRUCT):
        assert number(Z, True, 7, slot) == number(Z, False, 7, slot)
    # kind 1 has one number, whatever the entry
    assert number(Z, True, 0, Nothing()) == 11527715348014283921

    # the numbers that the docs give for readings that are wrong
    one = {slot: Z.one(writes(slot)) for slot in (TRUE, Text(b""), BYTE, View(b""), View(b"a"))}
    assert combine(5, one[TRUE]) == 1099511651669
    assert combine(5, one[Text(b"")]) == 280375465217263
    assert combine(one[BYTE], 1) == 40681930267081
    assert combine(one[View(b"a")], 1) == 52196744251916954
    assert combine(one[View(b"")], 1) == 23274
    assert combine(0, 0) == 23273 and combine(0, 7) == 23280 and combine(7, 0) == 23532
    # and those that DIFFERENCES.md gives for what comments of the Rust say
    byte, two, thirteen = one[BYTE], Z.one(writes(TWO)), Z.one(writes(View(THIRTEEN)))
    assert combine(Z.one(writes(Float(2, 0x3C00))), 1) == 2440915814651694
    assert combine(Z.one(writes(Nothing())), 7) == 2250354181208841189
    assert Z.one(writes(Number(8, 1)) + writes(BYTE)) == 10622395432008610912
    assert STANDARD.one(writes(Number(8, 1)) + writes(BYTE)) == 5952120282854798687
    assert Z.seed(5, writes(TRUE)) == 4398046512844
    assert Z.seed(5, writes(Text(b"a"))) == 95418917612112713
    assert Z.seed(7, writes(Nothing())) == 13826059866957048678
    assert combine(thirteen, 1) == 7412759474907177066
    assert combine(byte, 7) == 40681930267087
    assert Z.one(writes(Binary(TWELVE))) == 3641203081541969480
    long_view = (13).to_bytes(4, "little") + b"abcd" + bytes(8)
    assert Z.one(long_view + writes(Binary(THIRTEEN))) == 10158653400184694979
    assert combine(0, combine(byte, byte)) == 41781441918564
    assert two == 2199023256422 and combine(7, combine(byte, two)) == 42880953547034
    assert combine(0, Z.one(b"\x02")) == 2199023279695
    # of images that are refused, and of other machines
    assert Z.one(long_view) == 16538248302712736117
    assert Z.one((1).to_bytes(4, "little") + b"a\x01" + bytes(10)) == 9495083633355416571
    assert Z.one((1).to_bytes(4, "little") + b"a") == 914021999637957584
    assert Z.one(b"\x00\x01") == 1099511628211


if __name__ == "__main__":
    self_test()
    print(f"{len(WORKED) + len(FURTHER)} numbers of the docs hold")
