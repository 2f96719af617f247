"""Maps of very many keys: set in any order, some set again and taken out, then looked up in their order, and again once the file was opened anew."""

import os
from bisect import bisect_left, bisect_right

from model import MOST_PAIRS, pairs_reply
from runs import Wrong
from words import word_of

_NAME = b"many"

# Of so many keys one is set again, one is taken out, and one is looked up in its order.
_SETS, _DELS, _LOOKS = 8, 8, 8


class Many:
    """The script of a map of so many keys, its replies, and the pairs that it leaves."""

    def __init__(self, random, count):
        self.random = random
        self.pairs = {}
        self.keys = []
        self.script, self.replies = [], []
        self._set_all(count)

    def _ask(self, line, reply):
        self.script.append(line)
        self.replies.append(reply)

    def _key(self):
        return b"%x" % self.random.getrandbits(self.random.choice([32, 64, 64, 160]))

    def _set(self, key):
        value = b"%d" % self.random.getrandbits(self.random.choice([10, 60, 60, 200]))
        before = self.pairs.get(key)
        self.pairs[key] = value
        self._ask(f"set many {key.decode()} {value.decode()}", "new" if before is None else "was " + before.decode())

    def _set_all(self, count):
        for _ in range(count):
            self._set(self._key())
        keys = list(self.pairs)
        for key in self.random.sample(keys, count // _SETS):
            self._set(key)
        for key in self.random.sample(keys, count // _DELS):
            self._ask(f"del many {key.decode()}", "was " + self.pairs.pop(key).decode())
        # one leaf after the other that has nothing any more
        self.keys = sorted(self.pairs)
        for key in self.keys[count // 4 : count // 4 + count // 50]:
            self._ask(f"del many {key.decode()}", "was " + self.pairs.pop(key).decode())
        self.keys = sorted(self.pairs)

    def _pair(self, place):
        if not 0 <= place < len(self.keys):
            return "none"
        key = self.keys[place]
        return f"pair {word_of(key)} {word_of(self.pairs[key])}"

    def _look(self):
        key = self._key()
        if self.random.randrange(2) and self.keys:
            key = self.random.choice(self.keys)
        word, place = word_of(key), bisect_left(self.keys, key)
        kind = self.random.randrange(4)
        if kind == 0:
            value = self.pairs.get(key)
            self._ask(f"get many {word}", "none" if value is None else "value " + word_of(value))
        elif kind == 1:
            self._ask(f"above many {word}", self._pair(bisect_right(self.keys, key)))
        elif kind == 2:
            self._ask(f"below many {word}", self._pair(place - 1))
        else:
            count = self.random.choice([1, 5, 40])
            self._ask(f"scan many {word} {count}", pairs_reply(self.pairs, self.keys, place, count))

    def read(self):
        """A script that reads the map, and its replies: some keys, and all pairs."""
        self.script, self.replies = [], []
        self._ask("maps", "maps 1 many")
        self._ask("len many", f"len {len(self.keys)}")
        self._ask("first many", self._pair(0))
        self._ask("last many", self._pair(len(self.keys) - 1))
        for _ in range(len(self.keys) // _LOOKS):
            self._look()
        for place in range(0, len(self.keys) + 1, MOST_PAIRS):
            start = word_of(self.keys[place]) if place < len(self.keys) else word_of(b"~")
            self._ask(f"scan many {start} {MOST_PAIRS}", pairs_reply(self.pairs, self.keys, place, MOST_PAIRS))
        return self.script, self.replies


def compare(replies, wanted, script):
    """Judges replies."""
    if replies == wanted:
        return
    for line, reply, want in zip(script, replies, wanted):
        if reply != want:
            raise Wrong(f"the line {line!r} is replied to by {reply[:200]!r} and not by {want[:200]!r}")
    raise Wrong(f"{len(wanted)} lines are replied to by {len(replies)}")


def text_of(script):
    """The bytes of a script."""
    return ("\n".join(script) + "\n").encode()


def many_keys(program, random, count):
    """Compares a map of so many keys in a file that is opened twice, and one of a tenth of them in memory."""
    many = Many(random, count // 10)
    changes, changed = many.script, many.replies
    reads, read = many.read()
    compare(program.run(text_of(changes + reads), ":memory:"), changed + read, changes + reads)
    many = Many(random, count)
    changes, changed = many.script, many.replies
    replies = program.run(text_of(changes + ["flush"]), "many")
    if not replies[-1].startswith("flushed "):
        raise Wrong(f"a flush is replied to by {replies[-1]!r}")
    compare(replies[:-1], changed, changes)
    reads, read = many.read()
    compare(program.run(text_of(reads), "many"), read, reads)
    os.remove(program.file("many"))
