"""A file that ends inside a batch is opened, of which each write and each sync fails in turn, or the power goes there.

What opens it writes that the batch was abandoned. A call that fails there is an error of the opening, and behind it the file has the same
pages. And a batch of ten segments is stopped before each write and each sync in turn: it is there whole or not at all. By the loop in
Python, or by that in C where DILLUVAS_SO has it.
"""

import os
import random
import tempfile

import c_loop
from dilluvas import DISK_FULL, WRITE, FileCache, Refused
from faults import ENDS, FAILS, PowerCut, System
from journal import Journal, end_of, with_gates_open
from machine import FLUSH, PIN, Change, Held, Link, Node

SEGMENT = 64

# What is written behind the batch: the gate, 25 bytes of records, and the record with the place of the one that began it.
FRAME = bytes.fromhex("01" "1900000000000000" "0e" "65fdffffffffffff" "0800000000000000" "5f00000000000000" "00")

# A name to be made durable, the gate written again, the frame and its gate, and behind each of these three a sync.
LEAST_CALLS = 7


def left_in_a_batch():
    """The bytes of a file with an empty leaf, which ends behind three changes of it, by the model of a file."""
    journal = Journal()
    journal.segment_size = SEGMENT
    leaf = Held(Node(False, ()), 1)
    for event in (Change(0, Held({}, 1)), Change(1, Held(0, 1)), FLUSH, Change(2, leaf), FLUSH, PIN):
        journal.take(event)
    for key in b"b", b"c", b"d":
        journal.take(Change(2, leaf, Link(key, b"v")))
    assert len(journal.image) == 179 and not journal.pending
    return bytes(journal.image)


def content_of(path):
    with open(path, "rb") as file:
        return file.read()


def open_over(system, path):
    """Opens the file, by the loop in C if the library has it."""
    open_cache = c_loop.Loop(system, random.Random(1)) if c_loop.is_there() else FileCache
    return open_cache(path, segment_size=SEGMENT)


def is_opened(path, left, stop, is_lasting, stops_at):
    """Opens the file, of which that call goes wrong. Whether none did."""
    with open(path, "wb") as file:
        file.write(left)
    with System(random.Random(stops_at)) as system:
        system.arm(stop, stops_at, is_lasting)
        try:
            open_over(system, path).close()
        except Refused as refused:
            assert stop == FAILS and refused.status in (WRITE, DISK_FULL) and system.failed_writes
        except PowerCut:
            assert stop == ENDS
        was_made = system.calls < stops_at
        if system.is_off:
            system.lose_power(path)
    end, content = end_of(content_of(path)), content_of(path)
    assert end == len(left) + len(FRAME) - 1 or end == len(left) and not was_made
    assert with_gates_open(content[: len(left) - 1]) == left[:-1]
    return was_made


def is_usable(path, left):
    """The file has the page as it was, is marked once, and takes a change."""
    for _ in range(2):
        with System(random.Random(1)) as system:
            open_over(system, path).close()
        content = content_of(path)
        assert with_gates_open(content[: end_of(content) - 1]) + b"\0" == left[:-1] + FRAME
    with System(random.Random(1)) as system, open_over(system, path) as cache:
        assert cache.get(2) == (0, False, [])
        cache.set(2, 0, b"key", b"value")
        cache.flush()
    with System(random.Random(1)) as system, open_over(system, path) as cache:
        assert cache.get(2) == (0, False, [(b"key", b"value")])


# A batch of ten segments and more: each of so many changes has 17 bytes and the link's.
CHANGES = 30


def is_stopped(path, left, stops_at, loses_power):
    """Makes a batch over a file of one page, up to that call. Whether there was none."""
    with open(path, "wb") as file:
        file.write(left)
    is_flushed = False
    with System(random.Random(stops_at)) as system:
        try:
            with open_over(system, path) as cache:
                system.disarm()
                system.arm(ENDS, stops_at)
                cache.pin()
                for stamp in range(CHANGES):
                    cache.set(2, stamp, b"key", b"%d" % stamp)
                cache.seal()
                cache.flush()
                is_flushed = True
        except PowerCut:
            pass
        if loses_power:
            system.lose_power(path)
    with System(random.Random(1)) as system, open_over(system, path) as cache:
        found = cache.get(2).pairs
    assert found == [(b"key", b"%d" % (CHANGES - 1))] or found == [] and not is_flushed, (stops_at, found)
    return is_flushed


def stop_batches(path, left):
    """How many batches were stopped, each before another call or with a loss of power."""
    runs = 0
    for loses_power in False, True:
        is_flushed, stops_at = False, 0
        while not is_flushed:
            stops_at += 1
            is_flushed = is_stopped(path, left, stops_at, loses_power)
        # four calls for each frame
        assert stops_at > 4 * 10
        runs += stops_at
    return runs


def main():
    left, runs = left_in_a_batch(), 0
    with tempfile.TemporaryDirectory(dir="/dev/shm" if os.path.isdir("/dev/shm") else None) as folder:
        path = os.path.join(folder, "pages")
        for stop, is_lasting in (FAILS, False), (FAILS, True), (ENDS, False):
            was_made, stops_at = False, 0
            while not was_made:
                stops_at += 1
                was_made = is_opened(path, left, stop, is_lasting, stops_at)
                is_usable(path, left)
            assert stops_at > LEAST_CALLS
            runs += stops_at
        stopped = stop_batches(path, left)
    print(f"abandoned: {runs} openings, {stopped} batches")


if __name__ == "__main__":
    main()
