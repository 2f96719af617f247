"""Ordered maps over a file whose reads, writes and syncs fail, which has no room at times, and whose power goes: a call that is refused
changes nothing, and what is there behind a write error or a crash is what was flushed and a first part of what came since.

    maps_failing.py [FIRST [COUNT]]

FIRST is the seed of the first script, 0 if none is given, and COUNT is how many there are, 60 then.
"""

import collections
import os
import random
import sys
import tempfile

import dilluvas
from dilluvas import DISK_FULL, READ, WRITE, Refused, _room
from faults import ENDS, FAILS, PowerCut, System

PLACE = "/dev/shm" if os.path.isdir("/dev/shm") else None
NAMES = "a", "b"
KEYS = [b"%02d" % number for number in range(70)]


class Script:
    """One file. A change is made of its maps, and of dicts: both are mappings."""

    def __init__(self, seed, path, counts):
        self.random, self.path, self.counts = random.Random(seed), path, counts
        self.system = System(self.random)
        self.wanted = {name: {} for name in NAMES}
        self.left = [self.wanted]
        self.settings = {"capacity": self.random.choice((256, 4096)), "segment_size": self.random.choice((17, 100, 1000, 1 << 20))}

    def run(self):
        with self.system:
            # the file is there, so that no crash can leave none
            with dilluvas.open(self.path, **self.settings) as self.db:
                pass
            for _ in range(6):
                self.reopen()
                self.live()
                self.db.close()
                if self.system.is_off and self.random.randrange(4):
                    self.system.lose_power(self.path)
                self.system.stop_process()
                self.system.disarm()
            self.reopen()
            self.db.close()

    def reopen(self):
        self.system.disarm()
        self.db = dilluvas.open(self.path, **self.settings)
        found = {name: dict(self.db[name]) for name in NAMES}
        assert found in self.left, "a state that no call has made, or one from before the last flush"
        assert all(list(self.db[name]) == sorted(found[name]) for name in NAMES)
        self.wanted = found
        # what a crash left may be gone with the next one, if it wasn't durable
        self.flush()

    def live(self):
        """Until something fails for good, or enough was done."""
        self.system.fails_one_read_of = self.random.choice((0, 0, 2, 5))
        self.system.refuses_one_room_of = self.random.choice((0, 0, 2, 5))
        if self.random.randrange(4):
            stops_at = int(self.random.expovariate(1 / self.random.choice((2, 12, 60)))) + 1
            self.system.arm(self.random.choice((FAILS, ENDS)), stops_at, self.random.randrange(2) == 0)
        calls = self.change, self.change, self.change, self.look, self.batch, self.flush, self.compact
        try:
            for _ in range(self.random.choice((10, 60))):
                self.counts["calls"] += 1
                if self.refused_by(self.random.choice(calls)) == WRITE:
                    return
            self.system.fails_one_read_of = 0
            assert {name: dict(self.db[name]) for name in NAMES} == self.wanted
        except PowerCut:
            self.counts["crashes"] += 1

    def refused_by(self, call):
        try:
            call()
        except Refused as refused:
            self.counts[f"status {refused.status}"] += 1
            return refused.status
        return None

    # ---- The calls.

    def change(self):
        """Makes a change, which counts where it is answered, and may count where a write failed or the power went."""
        change = self.random.choice((self.one, self.one, self.one, self.many))()
        for step in change:
            after = {name: dict(pairs) for name, pairs in self.wanted.items()}
            step(after)
            try:
                step(self.db)
            except (Refused, PowerCut) as error:
                if isinstance(error, PowerCut) or error.status == WRITE:
                    self.left.append(after)
                raise
            self.wanted = after
            self.left.append(after)

    def one(self):
        name, key, value = self.random.choice(NAMES), self.random.choice(KEYS), self.random.randbytes(self.random.randrange(300))
        if self.random.randrange(40) == 0:
            return [lambda maps: maps[name].clear()]
        return [
            self.random.choice((
                lambda maps: maps[name].__setitem__(key, value), lambda maps: maps[name].__setitem__(key, value),
                lambda maps: maps[name].pop(key, None), lambda maps: maps[name].pop(key, None),
                lambda maps: maps[name].setdefault(key, value),
            ))
        ]  # fmt: skip

    def many(self):
        name, keys, value = self.random.choice(NAMES), self.random.sample(KEYS, 30), self.random.randbytes(20)
        if self.random.randrange(2):
            return [lambda maps, key=key: maps[name].__setitem__(key, value) for key in keys]
        return [lambda maps, key=key: maps[name].pop(key, None) for key in keys]

    def look(self):
        for name, pairs in self.wanted.items():
            key = self.random.choice(KEYS)
            assert self.db[name].get(key) == pairs.get(key) and len(self.db[name]) == len(pairs)
            assert list(self.db[name].irange(key, reverse=True)) == sorted(((k, v) for k, v in pairs.items() if k >= key), reverse=True)

    def batch(self):
        """A crash leaves all of one that was sealed, or none, and perhaps a part of one that an exception ended."""
        before = len(self.left)
        with self.db.batch():
            self.change()
        between = len(self.left) - 1
        if between > before:
            del self.left[before:between]

    def flush(self):
        self.db.flush()
        self.left = [self.wanted]

    def compact(self):
        self.db.compact()
        self.left = [self.wanted]


def main(first="0", count="60"):
    # each change looks for room anew
    _room._USUAL = 1 << 40
    counts = collections.Counter()
    for seed in range(int(first), int(first) + int(count)):
        with tempfile.TemporaryDirectory(dir=PLACE) as folder:
            try:
                Script(seed, os.path.join(folder, "maps"), counts).run()
            except BaseException:
                print("of the seed", seed)
                raise
    assert counts[f"status {READ}"] and counts[f"status {WRITE}"] and counts[f"status {DISK_FULL}"] and counts["crashes"]
    print("maps_failing:", ", ".join(f"{number} {name}" for name, number in sorted(counts.items())))


main(*sys.argv[1:])
