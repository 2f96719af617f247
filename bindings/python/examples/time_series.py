"""Readings of sensors by their times, in a file: `time_series.py FILE`.

Each sensor has a map. Keys are in the order of their bytes, so a time is eight bytes with the highest first, and a range of keys is one of
times. The readings of one call are a batch: a crash leaves all of them, or none.
"""

import struct
import sys

import dilluvas

HOUR = 3600


def key_of(time):
    return struct.pack(">Q", time)


class Series:
    """The readings of a sensor: a time in seconds, and a number."""

    def __init__(self, db, sensor):
        self._db, self._map = db, db[sensor]

    def record(self, readings):
        """Puts readings in, in any order. A later one of the same time takes the place of the first."""
        with self._db.batch():
            self._map.update((key_of(time), struct.pack(">d", number)) for time, number in readings)
        self._db.flush()

    def between(self, start, stop, **how):
        for key, value in self._map.irange(key_of(start), key_of(stop), **how):
            yield struct.unpack(">Q", key)[0], struct.unpack(">d", value)[0]

    def mean(self, start, stop):
        numbers = [number for _, number in self.between(start, stop)]
        return sum(numbers) / len(numbers) if numbers else None

    def forget_before(self, time):
        for key, _ in self._map.irange(None, key_of(time)):
            del self._map[key]

    def __len__(self):
        return len(self._map)


if __name__ == "__main__":
    with dilluvas.open(sys.argv[1]) as opened:
        kitchen = Series(opened, "kitchen")
        kitchen.record((time, 20 + time / HOUR) for time in range(0, 4 * HOUR, 60))
        print("readings:", len(kitchen))
        print("mean of the second hour:", kitchen.mean(HOUR, 2 * HOUR))
        print("last:", next(kitchen.between(0, 4 * HOUR, reverse=True)))
        kitchen.forget_before(3 * HOUR)
        opened.compact()
        print("left:", len(kitchen))
