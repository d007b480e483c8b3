"""Build images byte by byte, from the format alone.

An image is the node count, a record of nine 32-bit numbers for each node, and
then buffers at any place; see docs/FORMAT.md. Nothing here checks anything:
a broken image is built as readily as a sound one. There are two ways to build:

- `image(records, parts..)` when the places are worked out by hand: the parts
  stand one after the other from place `head(nodes)` on.
- `Builder(nodes)` when they are not: `put` appends a buffer and answers its
  place, `record` fills in a node's record.
"""

NULL = 1
BOOLEAN = 2
NUMBER = 3
FLOAT = 4
UTF8 = 6
BINARY = 7
FIXED_SIZE_BINARY = 8
VIEW = 9
DICTIONARY = 10
STRUCT = 11
LIST = 12
LIST_VIEW = 13
MAP = 14
FIXED_SIZE_LIST = 15
RUN_END = 16


def little(width, *values):
    """Numbers of `width` bytes, lowest byte first; negative ones in two's complement."""
    return b"".join((value % 256**width).to_bytes(width, "little") for value in values)


def head(nodes):
    """The bytes before the first buffer: the node count and the records. So node n's record is at `head(n)`."""
    return 4 + 36 * nodes


def record(kind, rows=0, start=0, nulls=0, a=0, b=0, p=0, tab=0, cnt=0):
    """A node's record, its nine numbers in their order."""
    return little(4, kind, rows, start, nulls, a, b, p, tab, cnt)


def image(records, *parts):
    """The node count, the records and the parts, with nothing between them."""
    return little(4, len(records)) + b"".join(records) + b"".join(parts)


def bits(text):
    """A bitmap from its bits, bit 0 first, as in "1101"; spaces are passed over.

    Bit 0 is the lowest bit of the first byte. Unused bits of the last byte are 0.
    """
    text = text.replace(" ", "")
    packed = bytearray((len(text) + 7) // 8)
    for index, bit in enumerate(text):
        packed[index // 8] |= int(bit) << index % 8
    return bytes(packed)


def offsets(width, pieces, first=0):
    """The offsets of pieces that lie end to end: one more offset than pieces."""
    places = [first]
    for piece in pieces:
        places.append(places[-1] + len(piece))
    return little(width, *places)


def short_view(text):
    """A view of up to 12 bytes: the length and the bytes, padded with zeros to 16."""
    assert len(text) <= 12
    return little(4, len(text)) + text.ljust(12, b"\0")


def long_view(length, prefix, buffer, offset):
    """A view of more than 12 bytes: length, first four bytes, data buffer, offset there."""
    assert len(prefix) == 4
    return little(4, length) + prefix + little(4, buffer, offset)


def views(texts, buffer=0):
    """Views of all the texts, and the data buffer that holds the long ones."""
    made, data = b"", b""
    for text in texts:
        if len(text) <= 12:
            made += short_view(text)
        else:
            made += long_view(len(text), text[:4], buffer, len(data))
            data += text
    return made, data


def list_views(width, spans):
    """The offsets and, apart from them, the sizes of (offset, size) spans."""
    return little(width, *(o for o, _ in spans)), little(width, *(s for _, s in spans))


def children(*nodes):
    """A table of child node numbers."""
    return little(4, *nodes)


def pairs(*buffers):
    """A table of data buffers, each a (place, length)."""
    return b"".join(little(4, place, length) for place, length in buffers)


class Builder:
    """An image that grows: its records first, with buffers appended behind them."""

    def __init__(self, nodes):
        self.records = [None] * nodes
        self.tail = b""

    def put(self, part, align=1):
        """Append a buffer at the next place that `align` divides; answers the place."""
        place = head(len(self.records)) + len(self.tail)
        gap = -place % align
        self.tail += bytes(gap) + part
        return place + gap

    def record(self, node, kind, **fields):
        """Set a node's record; fields that are not named are 0."""
        assert self.records[node] is None, f"node {node} has a record already"
        self.records[node] = record(kind, **fields)

    def image(self):
        """The whole image."""
        missing = [n for n, r in enumerate(self.records) if r is None]
        assert not missing, f"nodes without a record: {missing}"
        return image(self.records, self.tail)
