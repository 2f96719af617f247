"""Compares the program of keys and values with plain sorted dictionaries.

    maps.py PROGRAM SEED KEYS LISTS KILLS

It makes a map of so many keys in a file that is opened again, and one of a tenth of them in memory; and so many random lists of lines, each in
both. Then it kills the program so many times while it changes a file.
"""

import os
import subprocess
import sys
import tempfile
from random import Random

from kills import Kills
from lists import Lists, script_of
from many import many_keys
from model import Maps
from runs import Judge, Program, Wrong

# Where files are made: in memory, if that can be.
_PLACE = "/dev/shm" if os.path.isdir("/dev/shm") else None

_LINES = 300

# In how many openings the lines of a list are made over a file.
_OPENINGS = 3


def make_list(program, seed):
    """One random list of lines, in memory, and in a file that is opened again."""
    lists = Lists(Random(seed))
    over_memory, over_file = Judge(Maps()), Judge(Maps())
    lines = lists.lines(_LINES)
    over_memory.all_replied(lines, program.run(script_of(lines), ":memory:"))
    for _ in range(_OPENINGS):
        # what isn't flushed is lost, and a batch that is open is closed
        lines = lists.lines(_LINES // _OPENINGS) + [("cancel",), ("flush",)]
        over_file.all_replied(lines, program.run(script_of(lines), "list"))
    os.remove(program.file("list"))


def make_all(program, seed, keys, lists, kills):
    """All that is asked for. What it is at is told where it fails."""
    at = f"{keys} keys"
    try:
        if keys:
            many_keys(program, Random(seed), keys)
        for number in range(lists):
            at = f"list {number}"
            make_list(program, seed * 1_000_000 + number)
        killed = Kills(program, Random(seed))
        for number in range(kills):
            at = f"kill {number}"
            killed.round()
    except (Wrong, subprocess.TimeoutExpired) as error:
        return f"{at}: {error}"
    print(f"maps: passed (seed {seed}: {keys} keys, {lists} lists, {kills} kills)")
    return None


def main(path, *numbers):
    seed, keys, lists, kills = map(int, numbers)
    with tempfile.TemporaryDirectory(dir=_PLACE) as folder:
        failed = make_all(Program(path, folder), seed, keys, lists, kills)
    if failed:
        print(f"maps: seed {seed}: {failed}")
        return 1
    return 0


if __name__ == "__main__":
    sys.exit(main(*sys.argv[1:]))
