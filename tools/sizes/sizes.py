"""Has the programs make each thing that grows as large as 2^17 and some, and compares what they reply.

    sizes.py SLEDPC DILLUVAS [PRELOADED]

PRELOADED is a library that lets each read of a stream have one byte. Each thing is looked at where its size is three below to three above 2^16
and 2^17, in memory and in a file that is opened again at each of these sizes.
"""

import os
import subprocess
import sys
import tempfile
import time

sys.path.append(f"{os.path.dirname(os.path.realpath(__file__))}/../../bindings/python")

import crafted  # noqa: E402
import keys  # noqa: E402
import lines  # noqa: E402
import pages  # noqa: E402
from runs import Program, Wrong, grow_in_file, grow_in_memory  # noqa: E402

# Where files are made: in memory, if that can be.
_PLACE = "/dev/shm" if os.path.isdir("/dev/shm") else None

# Calls of a crew's threads, of which each is an entry of the book: how many threads, and how many calls each makes.
_CREWS = ((15, 4369), (64, 1024), (18, 3641), (30, 4369), (64, 2048), (25, 5243))


def crews(program):
    """The book of a shared cache, of so many entries."""
    for workers, calls in _CREWS:
        if program.run(b"", "crew", str(workers), str(calls)) != [f"{workers * calls} calls"]:
            raise Wrong(f"a crew of {workers} threads and {calls} calls has another reply")


def grown(program, growth, *words):
    """Where it grows: pairs of a name and a call."""
    if growth.in_memory:
        yield f"{growth.__name__} in memory", lambda: grow_in_memory(program, growth(), *words[:1])
    if growth.in_file:
        yield f"{growth.__name__} in a file", lambda: grow_in_file(program, growth(), *words[1:])


def parts(cache, maps, preloaded):
    """What is tried: pairs of a name and a call."""
    for growth in pages.GROWTHS:
        yield from grown(cache, growth, "mem", "file")
    yield "batches", lambda: pages.batches_over_file(cache)
    for growth in keys.GROWTHS:
        yield from grown(maps, growth, ":memory:")
    yield "names", lambda: crafted.names(cache, maps)
    yield "leaves", lambda: crafted.leaves(cache)
    yield "indexes", lambda: crafted.indexes(cache)
    yield "marks", lambda: crafted.marks(cache)
    yield "lines", lambda: lines.many_lines(cache)
    yield "long lines", lambda: long_lines(cache, maps)
    if preloaded:
        yield "long lines by single bytes", lambda: by_single_bytes(cache, maps, preloaded)
    yield "crews", lambda: crews(cache)


def long_lines(cache, maps):
    lines.long_lines(cache)
    lines.long_lines_of_maps(maps)


def by_single_bytes(cache, maps, preloaded):
    for program, attempt in ((cache, lines.long_lines), (maps, lines.long_lines_of_maps)):
        slow = Program(program.path, program.folder, preloaded)
        attempt(slow)
        if not os.path.exists(slow.file("single")):
            raise Wrong("it reads in another way than by the C library's read")
        os.remove(slow.file("single"))


def main(cache, maps, preloaded=None):
    count, began = 0, time.monotonic()
    with tempfile.TemporaryDirectory(dir=_PLACE) as folder:
        for name, attempt in parts(Program(cache, folder), Program(maps, folder), preloaded):
            try:
                attempt()
            except (Wrong, subprocess.TimeoutExpired) as error:
                print(f"sizes: {name}: {error}")
                return 1
            count += 1
    print(f"sizes: passed ({count} things that grow, in {time.monotonic() - began:.0f} seconds)")
    return 0


if __name__ == "__main__":
    sys.exit(main(*sys.argv[1:]))
