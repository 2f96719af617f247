"""Random lines on small maps."""

from model import MOST_PAIRS, text_of

_NAMES = [b"", b"a", b"map", b"-", b"a name of some thirty bytes is long", b"\\ \xff"]

# Lines that are none, beside those that a change of one byte makes.
_ODD = ["", " ", "set", "set a b", "set a b c d", "get a  b", "get a b ", " get a b", "GET a b", "get a \\2D", "get a \\41", "get a \\", "get a \\2",
        "get a a-\\2d", "get a \\5c", "scan a - 0", "scan a - 1001", "scan a - 01", "scan a - 5 5", "scan a -", "cas a b c d", "cas a b none",
        "cas a b =c d", "cas a b =\\41 none", "flush 1", "id 0", "pin ", "# get a b", "maps a", "len", "drop", "get a\tb", "first a b", "get \xe9 b"]


class Lists:
    """Makes lists of lines, each of its own kind: how many maps and keys there are, how long the values."""

    def __init__(self, random):
        self.random = random
        below = random.randrange
        self.names = random.sample(_NAMES, 1 + below(3))
        self.keys = random.choice([2, 20, 300])
        self.shape = below(4)
        self.longest = random.choice([4, 40, 600, 1500])
        self.order = random.choice(["any", "any", "rising", "falling"])
        self.next = 0
        # of so many lines one changes whole maps, and one asks for a batch
        self.drops = random.choice([20, 100, 1000])
        self.marks = random.choice([8, 30])

    def key(self):
        """A key of the list's kind."""
        number = self.random.randrange(self.keys)
        if self.order != "any" and self.random.randrange(3):
            self.next += 1
            number = self.next % self.keys if self.order == "rising" else -self.next % self.keys
        if self.shape == 0:
            return b"%d" % number
        if self.shape == 1:
            return bytes([number % 256])
        if self.shape == 2:
            return b"\0" * 300 + b"%04d" % number
        return number.to_bytes(3, "big")[self.random.randrange(4) :]

    def value(self):
        """A value, of any length up to the longest."""
        return bytes([self.random.randrange(256)]) * self.random.randrange(self.longest)

    def line(self):
        """The next line."""
        below, choice = self.random.randrange, self.random.choice
        name = choice(self.names)
        if below(self.drops) == 0:
            return choice([("drop", name), ("maps",), ("len", name)])
        if below(self.marks) == 0:
            return (choice(["pin", "seal", "seal", "cancel", "flush", "flush", "id"]),)
        kind = below(20)
        if kind < 9:
            return ("set", name, self.key(), self.value())
        if kind < 13:
            return ("del", name, self.key())
        if kind < 15:
            return ("get", name, self.key())
        if kind == 15:
            return self._swap(name)
        if kind == 16:
            return (choice(["first", "last"]), name)
        if kind == 17:
            return (choice(["above", "below"]), name, self.key())
        if kind == 18:
            return ("scan", name, choice([b"", self.key()]), choice([1, 2, 33, MOST_PAIRS]))
        return ("odd", choice(_ODD))

    def _swap(self, name):
        values = [None, b"", b"none", b"x" * 30]
        return ("cas", name, self.key(), self.random.choice(values), self.random.choice(values))

    def lines(self, count):
        """So many lines."""
        return [self.line() for _ in range(count)]


def script_of(lines):
    """The bytes of a script of these lines."""
    return "".join([text_of(line) + "\n" for line in lines]).encode("latin-1")
