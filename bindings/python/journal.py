"""The file of a cache, byte by byte, as docs/FORMAT.md has it."""

import struct

from machine import BATCH, CANCEL, COUNTER, FLUSH, PIN, ROOTS, SEAL, Change

OPENING = b"SLPCLOG1"

# The kinds of records.
CANCELLED_BATCH, OLD_MARK, FREED, OF_COUNTER, OF_ROOTS, OF_NODE, OF_LINK = 1, 3, 4, 5, 6, 8, 10
BEGUN_BATCH, SEALED_BATCH, ABANDONED_BATCH = 12, 13, 14
CLOSING = SEALED_BATCH, CANCELLED_BATCH, ABANDONED_BATCH


def number(value):
    if value <= 240:
        return bytes([value])
    if value <= 2287:
        return bytes([241 + (value - 240) // 256, (value - 240) % 256])
    if value <= 67823:
        return bytes([249, (value - 2288) // 256, (value - 2288) % 256])
    size = max(3, (value.bit_length() + 7) // 8)
    return bytes([247 + size]) + value.to_bytes(size, "little")


def string(data):
    return number(len(data)) + data


def node_bytes(node):
    """A node over all keys: no neighbour, no merging child, no prefix and no bounds."""
    keys = b"".join(string(key) for key, _ in node.pairs)
    if node.is_index:
        values = b"".join(number(int.from_bytes(child, "little")) for _, child in node.pairs)
    else:
        values = b"".join(string(value) for _, value in node.pairs)
    return bytes(6) + bytes([node.is_index]) + number(len(node.pairs)) + keys + values


def payload_of(change):
    """The kind of a change's record, and its payload."""
    content = change.held.content
    if change.link is not None:
        key, value = change.link
        return OF_LINK, b"\1" + string(key) if value is None else b"\0" + string(key) + string(value)
    if content is None:
        return FREED, b""
    if change.page == ROOTS:
        return OF_ROOTS, b"".join(string(name) + number(page) for name, page in sorted(content.items()))
    if change.page == COUNTER:
        return OF_COUNTER, number(content)
    return OF_NODE, node_bytes(content)


def record(kind, page, payload):
    return struct.pack("<BQQ", kind, page, len(payload)) + payload


def closing(kind, place):
    """The record that closes the batch that was begun there."""
    return record(kind, BATCH, struct.pack("<Q", place))


class Journal:
    """What the file has to be, up to its closed gate, what waits, and which pages the file holds."""

    def __init__(self):
        self.image = bytearray(OPENING + b"\0")
        self.segment_size = 1
        self.stable, self.pending, self.events = [], bytearray(), []
        # the place of the record that began the batch that is open, and the changes of a batch in which the file ends
        self.batch, self.spilled = None, None
        # every end that the file has had since this was emptied, and what it held then; and of the ends inside a batch where that began
        self.ends, self.begun = [], {}

    def take(self, event):
        """Does what an event does to the log, and answers how many bytes a flush wrote."""
        if event == FLUSH:
            return self._write()
        if event == PIN:
            self.batch = len(self.image) + 8 + len(self.pending)
            self.pending += record(BEGUN_BATCH, BATCH, b"")
        elif event in (SEAL, CANCEL):
            self.pending += closing(SEALED_BATCH if event == SEAL else CANCELLED_BATCH, self.batch)
            self.batch = None
        elif isinstance(event, Change):
            kind, payload = payload_of(event)
            self.pending += record(kind, event.page, payload)
        else:
            # an id that is given
            return None
        self.events.append(event)
        if isinstance(event, Change) and len(self.pending) >= self.segment_size:
            self._write()
        return None

    def _write(self):
        if not self.pending:
            return 0
        self._add(self.pending)
        for event in self.events:
            if event == PIN:
                self.spilled = []
            elif event in (SEAL, CANCEL):
                for change in self.spilled:
                    self._count(change)
                self.spilled = None
            elif self.spilled is None:
                self._count(event)
            else:
                self.spilled.append(event)
        written = len(self.pending) + 10
        self.pending, self.events = bytearray(), []
        self.mark()
        return written

    def _add(self, records):
        """Adds a frame with these records."""
        self.image[-1] = 1
        self.image += struct.pack("<Q", len(records)) + records + b"\0"

    def _count(self, change):
        if change.page == len(self.stable):
            self.stable.append(change.held)
        else:
            self.stable[change.page] = change.held

    def mark(self):
        """Notes what the file is now."""
        self.ends.append((len(self.image), list(self.stable)))
        if self.batch is not None:
            self.begun[len(self.image)] = self.batch

    def open_at(self, end):
        """The file is opened, which ends there: what waited is lost. Where it ends inside a batch, a frame says that this was abandoned."""
        self._cut(end)
        if end in self.begun:
            self._add(closing(ABANDONED_BATCH, self.begun[end]))
            self.mark()

    def reopen(self, end):
        """The file was opened, and ends there, in no batch."""
        self._cut(end)
        self.ends, self.begun = [], {}
        self.mark()

    def _cut(self, end):
        self.image[end - 1 :] = b"\0"
        self.ends = [found for found in self.ends if found[0] <= end]
        self.begun = {found: place for found, place in self.begun.items() if found <= end}
        self.stable = list(dict(self.ends)[end])
        self.pending, self.events, self.batch, self.spilled = bytearray(), [], None, None


def gates_of(content):
    """The places of a file's gates, by the lengths of its frames. The last one is closed."""
    at, open_ones = len(OPENING), []
    while at < len(content) and content[at] != 0:
        open_ones.append(at)
        at += 9 + struct.unpack_from("<Q", content, at + 1)[0]
    return [*open_ones, at]


def end_of(content):
    """The place behind the closed gate of a file."""
    return gates_of(content)[-1] + 1


def records_of(content):
    """The records of a file: each kind, page, and where its payload stands."""
    at, found = len(OPENING), []
    while content[at] != 0:
        end = at + 9 + struct.unpack_from("<Q", content, at + 1)[0]
        at += 9
        while at < end:
            kind, page, length = struct.unpack_from("<BQQ", content, at)
            found.append((kind, page, at + 17, length))
            at += 17 + length
    return found


def with_gates_open(content):
    """The bytes of a file in front of its closed gate, with the open gates as they are written: any byte but 0 is one."""
    content = bytearray(content)
    for gate in gates_of(content)[:-1]:
        content[gate] = 1
    return content
