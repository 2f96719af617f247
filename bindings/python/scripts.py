"""Random calls of a cache, which its model makes likely to do something."""

from machine import BATCH, COUNTER, ROOTS

LARGEST = 2**64 - 1

_KEYS = [b"", b"a", b"b", b"bb", b"\0", b"\xff" * 3, b"k" * 22, b"k" * 23, b"long" * 80]
_NAMES = [b"", b"t", b"tree", b"\0\xff", b"n" * 241]
_LENGTHS = [0, 0, 1, 5, 22, 23, 60, 240, 241, 2287, 2288]
_COUNTS = [0, 0, 1, 1, 2, 3, 16, 17]

# How often each call is made.
_CALLS = {
    "allocate": 14,
    "get": 12,
    "value": 8,
    "set": 28,
    "delete": 6,
    "replace": 7,
    "free": 6,
    "root": 3,
    "cas_root": 4,
    "open_tree": 3,
    "generate_id": 8,
    "pin": 5,
    "seal": 5,
    "cancel": 2,
    "flush": 6,
    "size": 2,
    "compact": 2,
    "was_recovered": 1,
    "amplification": 1,
    "attempt_gc": 1,
}


class Writer:
    """Writes the next call of a script over a machine, as a name and arguments."""

    def __init__(self, random):
        self._random = random
        self._names, self._weights = list(_CALLS), list(_CALLS.values())
        # large values and leaves are for few scripts
        self._lengths = _LENGTHS + [70000] * (random.randrange(8) == 0)
        self._counts = _COUNTS + [1000] * (random.randrange(8) == 0)

    def next_call(self, machine):
        name = self._random.choices(self._names, self._weights)[0]
        if len(machine.held) < 5 and self._random.randrange(2):
            name = "allocate"
        write = getattr(self, "to_" + name, None)
        return name, write(machine) if write else ()

    def _key(self):
        return self._random.choice(_KEYS) if self._random.randrange(4) else self._random.randbytes(2)

    def _value(self):
        return self._random.randbytes(1) * self._random.choice(self._lengths)

    def pairs(self):
        keys = {self._key() if at < 8 else b"%05d" % at for at in range(self._random.choice(self._counts))}
        pairs = [(key, self._random.randbytes(self._random.randrange(4))) for key in sorted(keys)]
        if len(pairs) > 1 and self._random.randrange(20) == 0:
            self._random.choice((pairs.reverse, lambda: pairs.append(pairs[-1])))()
        return pairs

    def _page(self, machine, often=14):
        count, random = len(machine.held), self._random
        way = random.randrange(24)
        if way == 0:
            return random.choice((ROOTS, COUNTER, BATCH))
        if way == 1:
            return random.choice((count, count + 1, 2**37 - 1, 2**37, 2**63, BATCH - 1, LARGEST))
        if way == 2:
            return random.randrange(2, max(count, 3))
        there = [page for page in range(2, count) if machine.is_there(page)] or [2]
        # few pages are changed often, so their chains grow
        return random.choice(there[:2] if way < often else there)

    def _key_of(self, machine, page):
        """Often one that the page has."""
        node = machine.held[page].content if 1 < page and machine.is_there(page) else None
        return self._random.choice(node.pairs)[0] if node and node.pairs and self._random.randrange(3) else self._key()

    def _token(self, machine, often=14):
        page = self._page(machine, often)
        stamp = machine.stamps[page] if page < len(machine.stamps) else 1
        if self._random.randrange(12) == 0:
            stamp = self._random.choice((0, stamp + 1, max(stamp, 1) - 1, LARGEST))
        return page, stamp

    def _root(self, machine):
        return self._random.choice((None, 2, len(machine.held) - 1, 240, 2**40, LARGEST))

    def _name(self):
        if self._random.randrange(40) == 0:
            return b"N" * self._random.choice((2288, 70000))
        return self._random.choice(_NAMES)

    def to_allocate(self, machine):
        return (self.pairs(),)

    def to_get(self, machine):
        return (self._page(machine),)

    def to_value(self, machine):
        page = self._page(machine)
        return page, self._key_of(machine, page)

    def to_set(self, machine):
        return *self._token(machine), self._key(), self._value()

    def to_delete(self, machine):
        page, stamp = self._token(machine)
        return page, stamp, self._key_of(machine, page)

    def to_replace(self, machine):
        return *self._token(machine, 0), self.pairs()

    def to_free(self, machine):
        return self._token(machine, 0)

    def to_root(self, machine):
        return (self._name(),)

    def to_cas_root(self, machine):
        name = self._name()
        old = machine.root(name).value if self._random.randrange(4) else self._root(machine)
        return name, old, self._root(machine)

    def to_open_tree(self, machine):
        return (self._name(),)
