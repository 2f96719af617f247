"""Hostile files: those of a log damaged by rule, and any bytes that look like a log."""

import struct

from journal import ABANDONED_BATCH, BEGUN_BATCH, CANCELLED_BATCH, CLOSING, OLD_MARK, OPENING
from journal import closing, number, record, records_of, string
from machine import BATCH

LARGEST = 2**64 - 1

# Makes the file of a default leaf with one pair, of 109 bytes.
LEAF = b"alloc\nset 2 1 62 76\nflush\n"

# Makes a file with batches, links, frees and roots.
SCRIPT = (
    b"alloc 61=62\nalloc\nset 2 1 63 64\nflush\npin\nset 2 2 65 66\nfree 3 1\nseal\nopen 74\nflush\npin\ndel 2 3 61\ncancel\nid\n"
    b"cas 75 - 2\nfree 5 1\nalloc 62=63\npin\nseal\nflush\n"
)


def _frame(*records):
    """An open gate, and a frame of these records."""
    body = b"".join(records)
    return b"\1" + struct.pack("<Q", len(body)) + body


# The frame of the cache's own pages.
_OWN = _frame(record(6, 0, b""), record(5, 1, b"\0"))

# The record that begins a batch, and a change of page 2.
_BEGUN, _LINK = record(BEGUN_BATCH, BATCH, b""), record(10, 2, b"\0\1b\1v")

# A page whose payload has 2 GiB of zeros, and one behind it: what stands in front of the zeros, how many there are, and what behind.
_ZEROS = 1 << 31
GAP = (
    OPENING + _OWN + b"\1" + struct.pack("<Q", 42 + _ZEROS) + struct.pack("<BQQ", 8, 2, _ZEROS),
    _ZEROS,
    record(8, 3, bytes(8)) + b"\0",
)
GAP_SIZE = len(GAP[0]) + _ZEROS + len(GAP[2])


def long_logs():
    """Logs of 100,000 records: old marks that all name the last, old marks that name one the other way round, cancelled batches, and changes
    in a batch that isn't closed."""
    count, first = 100_000, len(OPENING + _OWN) + 9
    places = range(first, first + 25 * count, 25)
    for records in (
        record(OLD_MARK, BATCH, struct.pack("<Q", places[-1])) * count,
        b"".join(record(OLD_MARK, BATCH, struct.pack("<Q", max(place, places[-1 - at]))) for at, place in enumerate(places)),
        record(CANCELLED_BATCH, 0, b"") * count,
        _BEGUN + record(8, 2, bytes(8)) * count,
    ):
        yield OPENING + _OWN + _frame(records) + b"\0"


def spilled():
    """A log of batches over several frames: one that ends, one that is cancelled, one that was abandoned, and one in which the file ends."""
    content = OPENING + _OWN + _frame(record(8, 2, bytes(8)))
    for kind in CLOSING:
        begun = len(content) + 9
        content += _frame(_BEGUN, _LINK) + _frame(record(8, 3, bytes(8)), _LINK) + _frame(closing(kind, begun))
    return content + _frame(_BEGUN, _LINK) + b"\0"


def frames_of(content):
    """Where the frames of a log stand, as far as there are any: the place of each gate, and where its frame ends."""
    at, found = len(OPENING), []
    while at + 9 < len(content) and content[at]:
        end = at + 9 + struct.unpack_from("<Q", content, at + 1)[0]
        if end >= len(content):
            break
        found.append((at, end))
        at = end
    return found


def put(content, at, data):
    return content[:at] + data + content[at + len(data) :]


def _put_number(content, at, value):
    return put(content, at, struct.pack("<Q", value % 2**64))


def damaged(content):
    """The bytes of a log damaged in each way of the rule."""
    for at, byte in enumerate(content):
        for other in sorted({0, 255, (byte + 1) % 256, (byte - 1) % 256} - {byte}):
            yield put(content, at, bytes([other]))
    for end in range(len(content)):
        yield content[:end]
    frames = frames_of(content)
    for at, end in frames:
        for length in (end - at - 10, end - at - 8, 0, 2**32, 2**63, LARGEST):
            yield _put_number(content, at + 1, length)
    for one in range(len(frames)):
        for other in range(one):
            yield exchanged(content, frames[other], frames[one])
    for kind, page, at, length in records_of(content):
        if page == BATCH:
            yield from _damaged_batch(content, kind, at, length)


def exchanged(content, one, other):
    """Two frames, the first of which stands before the other, in each other's place."""
    return content[: one[0]] + content[slice(*other)] + content[one[1] : other[0]] + content[slice(*one)] + content[other[1] :]


def _damaged_batch(content, kind, at, length):
    for other in sorted({BEGUN_BATCH, *CLOSING, OLD_MARK, 10} - {kind}):
        yield put(content, at - 17, bytes([other]))
    place = struct.unpack_from("<Q", content, at)[0] if length else 0
    for other in (0, 8, at - 18, at - 17, at - 16, place - 1, place + 1, place + 17, len(content), 2**63, LARGEST) if length else ():
        yield _put_number(content, at, other)
    for other in (0, 1, 2, BATCH - 1, BATCH + 1, LARGEST):
        yield _put_number(content, at - 16, other)
    for other in (0, 8, length - 1, length + 1, 2**32, 2**63, LARGEST):
        yield _put_number(content, at - 8, other)


# The kinds that have to do with batches and may stand outside one.
_MARKS = CANCELLED_BATCH, OLD_MARK, BEGUN_BATCH, BEGUN_BATCH


class Writer:
    """Writes bytes that look like a log."""

    def __init__(self, random):
        self._random = random
        # the pages, and whether each has a content
        self._pages = []
        # the place of the record that began the batch that is open, and the pages in front of it
        self._begun, self._kept = None, []

    def file(self):
        content = OPENING
        for _ in range(self._random.randrange(7)):
            body = self._body(len(content) + 9)
            content += self._random.choice((b"\1", b"\1", b"\xff")) + struct.pack("<Q", len(body)) + body
        return content + b"\0" + self._random.randbytes(self._random.choice((0, 0, 0, 30)))

    def _body(self, at):
        body = b""
        if not self._pages and self._random.randrange(12):
            self._pages = [True, True]
            body = record(6, 0, self._roots()) + record(5, 1, self._number())
        for _ in range(self._random.randint(1, 12)):
            body += self._record(at + len(body))
        return body

    def _record(self, at):
        random = self._random
        if random.randrange(100) == 0:
            return record(random.randrange(16), random.choice((0, 1, 2, len(self._pages), BATCH, LARGEST)), self._number())
        if random.randrange(100) == 0:
            place = random.choice((0, at, self._begun or at - 17))
            return random.choice((_BEGUN, closing(random.choice((*CLOSING, OLD_MARK)), place)))
        kind = random.choice((8, 8, 8, 9, 10, 10, 10, 10, 10, 10, 10, 11, 4, *(_MARKS if self._begun is None else CLOSING)))
        if kind == OLD_MARK:
            return record(kind, BATCH, struct.pack("<Q", at + random.choice((0, 0, 0, 25))))
        if kind == BEGUN_BATCH:
            self._begun, self._kept = at, list(self._pages)
            return _BEGUN
        if kind in CLOSING and self._begun is not None:
            return self._closing(kind)
        page = self._page(kind)
        if kind not in (1, 10, 11):
            self._pages[page : page + 1] = [kind != 4]
        return record(kind, page, self._payload(kind))

    def _closing(self, kind):
        begun, self._begun = self._begun, None
        if kind == ABANDONED_BATCH:
            self._pages = self._kept
        return closing(kind, begun if self._random.randrange(40) else begun + self._random.choice((-17, 1, 17, 2**63)))

    def _page(self, kind):
        """A page for which a record of that kind may stand there, if there is one."""
        if kind == 1:
            return BATCH
        if self._begun is not None and self._random.randrange(30) == 0:
            return len(self._pages) + 1
        fit = [page for page, has in enumerate(self._pages) if page > 1 and (has or kind not in (10, 11))]
        if 4 < kind < 10 and (len(fit) < 2 or self._random.randrange(4) == 0):
            return len(self._pages)
        return self._random.choice(fit or [len(self._pages)])

    def _payload(self, kind):
        payload = self._node() if kind in (8, 9) else self._link() if kind in (10, 11) else b"" if kind == 4 else self._number()
        way = self._random.randrange(40)
        if way == 0:
            return payload + b"\0"
        return payload[:-1] if way == 1 else payload

    def _number(self, values=(0, 0, 1, 2, 3, 240, 241, 2287, 2288, 67823, 67824, 2**32, LARGEST)):
        value = self._random.choice(values)
        if self._random.randrange(10):
            return number(value)
        # a longer spelling, or a forged one
        return bytes([255]) + struct.pack("<Q", value)

    def _length(self, data):
        return number(len(data)) if self._random.randrange(60) else self._number()

    def _string(self, least=0):
        data = bytes(self._random.choice(b"abcd") for _ in range(self._random.choice((least, 1, 1, 2, 3))))
        return self._length(data) + data

    def _roots(self):
        return b"".join(self._string() + self._number() for _ in range(self._random.choice((0, 0, 1, 2, 3))))

    def _link(self):
        kind = self._random.choice((0, 0, 0, 0, 1, 1, 2, 3, 4) * 4 + (5, 255))
        link = bytes([kind])
        if kind < 2:
            link += self._string()
        if kind == 0:
            link += self._string()
        return link + self._number() if kind == 2 else link

    def _node(self):
        random = self._random
        low, high, front = b"", b"", 0
        if random.randrange(3) == 0:
            low, high = sorted(bytes(random.choice(b"abcd") for _ in range(random.randrange(4))) for _ in range(2))
            front = random.choice((0, 0, 1, 2))
        kind, keys = random.randrange(2), sorted({bytes(random.choice(b"abcd") for _ in range(random.randrange(3))) for _ in range(5)})
        keys = keys[: random.randrange(4)] if random.randrange(10) else keys[::-1]
        values = [self._number() if kind else self._string() for _ in keys]
        head = self._number((0, 0, 3)) + self._number((0, 0, 2, 3)) + bytes([random.randrange(12) == 0, front]) + string(low) + string(high)
        return head + bytes([kind if random.randrange(60) else 2]) + self._length(keys) + b"".join(map(string, keys)) + b"".join(values)
