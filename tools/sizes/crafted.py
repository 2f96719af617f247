"""Files with one page of very many pairs or names, which no script makes in time, since each change of such a page writes it whole; and files
with very many marks of batches, of which a script makes no old ones."""

import os
import struct

from journal import BEGUN_BATCH, CANCELLED_BATCH, OF_COUNTER, OF_NODE, OF_ROOTS, OLD_MARK, OPENING, node_bytes, number, record, string
from machine import BATCH, Node

from runs import NEAREST, SIZES

_COUNTER = record(OF_COUNTER, 1, b"\0")
# The cache's own pages, with no names.
_OWN = record(OF_ROOTS, 0, b"") + _COUNTER
_LEAF = Node(False, ())

# Those that stand in a row: for its first a file is made, and the others come by changes.
_ROWS = SIZES[: len(SIZES) // 2], SIZES[len(SIZES) // 2 :]


def _word(at):
    return b"%08x" % at


def _hex(at):
    return _word(at).hex()


def write(program, *records):
    """A file of these records, in one frame."""
    body, log = b"".join(records), program.file("log")
    with open(log, "wb") as file:
        file.write(OPENING + b"\1" + struct.pack("<Q", len(body)) + body + b"\0")
    return log


def answers(program, log, *asked):
    """Compares the replies to lines, of which each comes with its reply."""
    program.answers([line for line, _ in asked], [reply for _, reply in asked], "file", log)


def names(program, maps):
    """Named roots. For each size one is added, another one is taken out and put in again, and the program of maps lists all."""
    for sizes in _ROWS:
        roots = b"".join(string(_word(at)) + number(2) for at in range(1, sizes[0]))
        log = write(program, record(OF_ROOTS, 0, roots), _COUNTER, record(OF_NODE, 2, node_bytes(_LEAF)))
        for size in sizes:
            first, last, new, next_one = map(_hex, (1, size - 1, size, size + 1))
            answers(program, log, (f"root {new}", "none"), (f"cas {new} - 2", "ok"), (f"root {new}", "page 2"), (f"cas {new} - 3", "is 2"),
                    (f"cas {last} 2 3", "ok"), (f"root {last}", "page 3"), (f"cas {last} 3 2", "ok"),
                    (f"cas {first} 2 -", "ok"), (f"root {first}", "none"), (f"cas {first} - 2", "ok"),
                    (f"root {first}", "page 2"), (f"root {next_one}", "none"), ("flush", "flushed"))  # fmt: skip
            maps.answers(["maps"], [" ".join([f"maps {size}", *(_word(at).decode() for at in range(1, size + 1))])], log)
        os.remove(log)


def leaves(program):
    """A leaf. For each size a pair is added, and another one is taken out and put in again."""
    for sizes in _ROWS:
        node = Node(False, tuple((_word(at), b"v") for at in range(1, sizes[0])))
        log = write(program, _OWN, record(OF_NODE, 2, node_bytes(node)))
        for size in sizes:
            pairs = [f"{_hex(at)}=76" for at in range(1, size + 1)]
            whole, rest = " ".join(pairs), " ".join(pairs[1:])
            answers(program, log, (f"set 2 0 {_hex(size)} 76", "ok 1"), ("get 2", f"leaf 1 {whole}"), (f"del 2 1 {_hex(1)}", "ok 2"),
                    ("get 2", f"leaf 2 {rest}"), (f"set 2 2 {_hex(1)} 76", "ok 3"), ("get 2", f"leaf 3 {whole}"), ("flush", "flushed"))  # fmt: skip
        os.remove(log)


def indexes(program):
    """Indexes of so many children."""
    for size in NEAREST:
        node = Node(True, tuple((_word(at), struct.pack("<Q", at)) for at in range(1, size + 1)))
        log = write(program, _OWN, record(OF_NODE, 2, node_bytes(node)))
        answers(program, log, ("get 2", " ".join(["index 0", *(f"{_hex(at)}={at}" for at in range(1, size + 1))])))
        os.remove(log)


def marks(program):
    """So many marks of batches in front of the first page: old ones that all name the last, or one the other way round, and batches that were
    cancelled; and so many changes of a batch that is never closed, in which the file ends."""
    leaf = record(OF_NODE, 2, node_bytes(_LEAF))
    for size in NEAREST:
        first = len(OPENING) + 9
        places = range(first, first + 25 * size, 25)
        named = [struct.pack("<Q", max(place, other)) for place, other in zip(places, reversed(places))]
        for records in (
            [record(OLD_MARK, BATCH, struct.pack("<Q", places[-1]))] * size,
            [record(OLD_MARK, BATCH, place) for place in named],
            [record(CANCELLED_BATCH, 0, b"")] * size,
            [_OWN, record(BEGUN_BATCH, BATCH, b""), *[leaf] * size],
        ):
            log = write(program, *records)
            answers(program, log, ("get 2", "none"), ("alloc", "page 2 1"), ("flush", "flushed"))
            answers(program, log, ("get 2", "leaf 0"), ("get 3", "none"))
            os.remove(log)
