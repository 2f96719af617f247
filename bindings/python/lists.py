"""Random lists of calls of ordered maps, against plain dicts, with reopenings: what was flushed is there, and a first part of the rest."""

import contextlib
import os
import random

import dilluvas
from dilluvas import BATCH_OPEN
from inputs import is_raised, status_of

# Some are of one map's edges, and some share what they begin with.
EDGES = [b"", b"\0", b"\0\0", b"a", b"a\0", b"a" * 15, b"a" * 16, b"a" * 17, b"b" * 1000, b"\xff", b"\xff\xff"]
KEYS = [*EDGES, *(b"k%03d" % number for number in range(150))]
NAMES = ["fruit", b"", b"\xff\0", "na\u00efve"]


class Left(Exception):
    """Ends a batch."""


class Lists:
    """Random calls of one db, whose maps have to be as plain dicts are."""

    def __init__(self, seed, path):
        self.random, self.path = random.Random(seed), path
        self.settings = {"capacity": self.random.choice((256, 4096, 1 << 20)), "segment_size": self.random.choice((64, 512, 1 << 20))}
        self.db = dilluvas.open(path, **self.settings)
        self.maps = {name: {} for name in NAMES}
        # what a crash may leave: the maps behind each change since the last flush
        self.left = [self.copy()]
        self.ids = [-1]
        self.calls = [getattr(self, name) for name in dir(self) if name.startswith("to_")]

    def run(self, count):
        for _ in range(count):
            self.random.choice(self.calls)()
        self.to_compare()
        self.db.close()

    def copy(self):
        return {name: dict(pairs) for name, pairs in self.maps.items() if pairs}

    def changed(self):
        self.left.append(self.copy())

    def one(self):
        name = self.random.choice(NAMES)
        return self.db[name], self.maps[name], self.random.choice(KEYS)

    def value(self):
        return self.random.randbytes(self.random.choice((0, 1, 20, 20, 20, 700)))

    # ---- One method for each call.

    def to_set(self):
        found, wanted, key = self.one()
        found[key] = wanted[key] = self.value()
        self.changed()

    to_set_more = to_set_again = to_set

    def to_set_many(self):
        found, wanted, _ = self.one()
        pairs = {key: self.value() for key in self.random.sample(KEYS, 40)}
        for key, value in pairs.items():
            found[key] = wanted[key] = value
            self.changed()

    def to_delete(self):
        found, wanted, key = self.one()
        if key in wanted:
            del found[key], wanted[key]
            self.changed()
        else:
            assert is_raised(KeyError, found.__delitem__, key)

    def to_delete_many(self):
        found, wanted, key = self.one()
        for key in sorted(wanted)[: self.random.randrange(100)]:
            del found[key], wanted[key]
            self.changed()

    def to_get(self):
        found, wanted, key = self.one()
        assert found.get(key) == wanted.get(key) and (key in found) == (key in wanted)
        assert found.get(key, 7) == wanted.get(key, 7)

    def to_swap(self):
        found, wanted, key = self.one()
        old, new = (self.random.choice((None, wanted.get(key), wanted.get(key), self.value())) for _ in range(2))
        assert found.compare_and_swap(key, old, new) == (wanted.get(key) == old)
        if wanted.get(key) == old:
            wanted.pop(key, None)
            wanted.update({} if new is None else {key: new})
            self.changed()

    def to_pop(self):
        found, wanted, key = self.one()
        assert found.pop(key, b"else") == wanted.pop(key, b"else")
        self.changed()
        if wanted:
            last = max(wanted)
            assert found.popitem() == (last, wanted.pop(last))
            self.changed()
        value = self.value()
        assert found.setdefault(key, value) == wanted.setdefault(key, value)
        self.changed()

    def to_look(self):
        found, wanted, _ = self.one()
        ordered = sorted(wanted.items())
        assert found.first() == (ordered[0] if ordered else None) and found.last() == (ordered[-1] if ordered else None)
        assert len(found) == len(wanted) and bool(found) == bool(wanted)

    def to_range(self):
        found, wanted, _ = self.one()
        start, stop = (self.random.choice((None, self.random.choice(KEYS), self.random.choice(KEYS) + b"!")) for _ in range(2))
        inclusive = self.random.choice(((True, False), (False, True), (True, True), (False, False)))
        within = [
            (key, value)
            for key, value in sorted(wanted.items())
            if (start is None or key > start or inclusive[0] and key == start)
            and (stop is None or key < stop or inclusive[1] and key == stop)
        ]
        assert list(found.irange(start, stop, inclusive)) == within
        assert list(found.irange(start, stop, inclusive, reverse=True)) == within[::-1]

    def to_clear(self):
        if self.random.randrange(8) == 0:
            found, wanted, _ = self.one()
            found.clear()
            wanted.clear()
            self.changed()

    def to_drop(self):
        name = self.random.choice(NAMES)
        if name in self.db and self.random.randrange(8) == 0:
            del self.db[name]
            assert name not in self.db and is_raised(KeyError, self.db.__delitem__, name)
            self.maps[name].clear()
            self.changed()

    def to_compare(self):
        for name, wanted in self.maps.items():
            found, ordered = self.db[name], sorted(wanted.items())
            assert found == wanted and dict(found) == wanted
            assert list(found.items()) == ordered and list(reversed(found.items())) == ordered[::-1]
            assert list(found) == list(found.keys()) == sorted(wanted) and list(found.values()) == [value for _, value in ordered]
            assert name in self.db or not wanted
        names = self.db.maps()
        assert names == sorted(names) == list(self.db) and len(names) == len(self.db) and {bytes_of(name) for name in NAMES} >= set(names)

    def to_batch(self):
        """A crash leaves all of one, or none, unless it was left by an exception."""
        is_broken, before = self.random.randrange(3) == 0, len(self.left)
        with contextlib.suppress(Left), self.db.batch():
            for _ in range(self.random.randrange(40)):
                self.random.choice((self.to_set, self.to_delete, self.to_swap, self.to_pop, self.to_look))()
            assert status_of(self.db.flush) == status_of(self.db.compact) == status_of(self.db.batch().__enter__) == BATCH_OPEN
            if is_broken:
                raise Left
        if not is_broken:
            del self.left[before:]
            self.changed()

    def to_flush(self):
        self.db.flush()
        self.left = [self.copy()]

    def to_rewrite(self):
        if self.random.randrange(4) == 0:
            self.db.compact()
            self.left = [self.copy()]
            assert self.db.size_on_disk() == os.path.getsize(self.path)

    def to_identify(self):
        self.ids.append(self.db.generate_id())
        assert self.ids[-1] > self.ids[-2]

    def to_reopen(self):
        """What was flushed is there, and of what came since a first part."""
        if self.random.randrange(2):
            with self.db:
                self.changed()
            self.left = [self.copy()]
        self.db.close()
        assert os.listdir(os.path.dirname(self.path)) == [os.path.basename(self.path)]
        self.db = dilluvas.open(self.path, **self.settings)
        found = {name: dict(self.db[name]) for name in NAMES}
        assert {name: pairs for name, pairs in found.items() if pairs} in self.left
        self.maps = found
        self.left = [self.copy()]


def bytes_of(name):
    return name.encode() if isinstance(name, str) else name


def run(folder, count):
    """Makes so many lists, in a folder of its own each."""
    for seed in range(count):
        os.mkdir(os.path.join(folder, str(seed)))
        lists = Lists(seed, os.path.join(folder, str(seed), "maps"))
        try:
            lists.run(120)
        except BaseException:
            print("of the seed", seed)
            raise
