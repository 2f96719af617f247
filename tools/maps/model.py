"""What a script of keys and values is replied to, by plain sorted dictionaries."""

from bisect import bisect_left, bisect_right

from words import word_of

# A scan asks for at most so many pairs.
MOST_PAIRS = 1000


class Maps:
    """Maps by their names, and whether a batch is open. A line is a tuple: a command, and its byte strings and numbers."""

    def __init__(self):
        self.maps = {}
        self.is_open = False

    def reply(self, line):
        """Makes a line's change, and answers its reply: or the first word of that, where the number behind it is the log's."""
        return getattr(self, "_" + line[0])(*line[1:])

    def makes(self, line):
        """Whether a line makes its map, before it sets a value there."""
        if line[0] not in ("set", "cas") or line[1] in self.maps:
            return False
        return line[0] == "set" or line[3] is None and line[4] is not None

    # ---- values

    def _set(self, name, key, value):
        pairs = self.maps.setdefault(name, {})
        before = pairs.get(key)
        pairs[key] = value
        return "new" if before is None else "was " + word_of(before)

    def _get(self, name, key):
        value = self.maps.get(name, {}).get(key)
        return "none" if value is None else "value " + word_of(value)

    def _del(self, name, key):
        value = self.maps.get(name, {}).pop(key, None)
        return "none" if value is None else "was " + word_of(value)

    def _cas(self, name, key, old, new):
        present = self.maps.get(name, {}).get(key)
        if present != old:
            return "has " + ("none" if present is None else word_of(present))
        if new is not None:
            self._set(name, key, new)
        elif present is not None:
            del self.maps[name][key]
        return "swapped"

    # ---- pairs in their order

    def _pair(self, name, place_in):
        pairs = self.maps.get(name, {})
        keys = sorted(pairs)
        place = place_in(keys)
        if not 0 <= place < len(keys):
            return "none"
        return f"pair {word_of(keys[place])} {word_of(pairs[keys[place]])}"

    def _first(self, name):
        return self._pair(name, lambda keys: 0)

    def _last(self, name):
        return self._pair(name, lambda keys: len(keys) - 1)

    def _above(self, name, key):
        return self._pair(name, lambda keys: bisect_right(keys, key))

    def _below(self, name, key):
        return self._pair(name, lambda keys: bisect_left(keys, key) - 1)

    def _scan(self, name, start, count):
        pairs = self.maps.get(name, {})
        keys = sorted(pairs)
        return pairs_reply(pairs, keys, bisect_left(keys, start), count)

    def _len(self, name):
        return f"len {len(self.maps.get(name, {}))}"

    # ---- all maps

    def _maps(self):
        return " ".join(["maps", str(len(self.maps)), *map(word_of, sorted(self.maps))])

    def _drop(self, name):
        return "none" if self.maps.pop(name, None) is None else "dropped"

    def _id(self):
        return "id"

    def _flush(self):
        return "error batch" if self.is_open else "flushed"

    def _pin(self):
        was_open, self.is_open = self.is_open, True
        return "error batch" if was_open else "ok"

    def _seal(self):
        was_open, self.is_open = self.is_open, False
        return "ok" if was_open else "error batch"

    _cancel = _seal

    def _odd(self, _text):
        return "error line"


def pairs_reply(pairs, keys, place, count):
    """The reply to a scan of so many pairs from a place among the sorted keys on."""
    found = keys[place : place + count]
    words = [word for key in found for word in (word_of(key), word_of(pairs[key]))]
    return " ".join(["pairs", str(len(found)), *words])


def text_of(line):
    """The line as a script has it."""
    command, words = line[0], []
    if command == "odd":
        return line[1]
    for place, word in enumerate(line[1:]):
        if command == "cas" and place > 1:
            words.append("none" if word is None else "=" + word_of(word))
        else:
            words.append(word_of(word) if isinstance(word, bytes) else str(word))
    return " ".join([command, *words])
