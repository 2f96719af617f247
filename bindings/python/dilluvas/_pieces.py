"""Pairs of a map between two bounds, in order, a piece of the map at a time, whatever is changed in between."""

import ctypes
from collections.abc import Iterator
from ctypes import byref
from dataclasses import dataclass
from typing import NamedTuple, Optional

from ._errors import check
from ._library import BELOW, EXCLUDED, INCLUDED, LAST, NONE, SHORT, UNBOUNDED, UP_TO, BytesLike, Piece, bytes_of, decoded, written
from ._pages import Cache

Pair = tuple[bytes, bytes]


class Bound(NamedTuple):
    """Where a range begins, or ends."""

    kind: int
    key: bytes

    @classmethod
    def at(cls, key: Optional[BytesLike], is_included: bool) -> "Bound":
        """A bound at a key, or no bound if that is None."""
        if key is None:
            return cls(UNBOUNDED, b"")
        return cls(INCLUDED if is_included else EXCLUDED, bytes_of(key, "a bound"))

    def told(self) -> tuple[int, bytes, int]:
        """The arguments of a call for it."""
        return self.kind, self.key, len(self.key)

    def is_above(self, key: bytes) -> bool:
        """Whether a key is before a range that begins at this bound."""
        return self.kind != UNBOUNDED and (key < self.key or self.kind == EXCLUDED and key == self.key)


@dataclass(frozen=True)
class Range:
    """The pairs of the map of this name between two bounds."""

    cache: Cache
    name: bytes
    start: Bound
    stop: Bound

    def pairs(self) -> Iterator[Pair]:
        """The pairs, those of one leaf at a time. No key comes twice or after a greater one, whatever is changed in between."""
        for _, data in self._pieces("map_range"):
            yield from decoded(data)

    def reversed_pairs(self) -> Iterator[Pair]:
        """The same in reverse order: one pair at a time, as it then is."""
        kind, key = self.stop
        side = {INCLUDED: UP_TO, EXCLUDED: BELOW, UNBOUNDED: LAST}[kind]
        while True:
            pair = nearest(self.cache, self.name, side, key)
            if pair is None or self.start.is_above(pair[0]):
                return
            yield pair
            side, key = BELOW, pair[0]

    def count(self) -> int:
        """How many pairs there are."""
        return sum(count for count, _ in self._pieces("map_count"))

    # The pieces, each as the number of its pairs and their bytes. Each begins where the previous one ends.
    def _pieces(self, call: str) -> Iterator[tuple[int, bytes]]:
        room, piece, start = ctypes.create_string_buffer(4096), Piece(), self.start
        while True:
            ends = *start.told(), *self.stop.told()
            status = SHORT
            while status == SHORT:
                size = piece.pairs_len + piece.rest_len
                room = ctypes.create_string_buffer(size) if len(room) < size else room
                status = self.cache._ask(call, self.name, len(self.name), *ends, room, len(room), byref(piece))
            check(status)
            data = ctypes.string_at(room, piece.pairs_len + piece.rest_len)
            yield piece.count, data[: piece.pairs_len]
            if not piece.more:
                return
            start = Bound(INCLUDED, data[piece.pairs_len :])


def nearest(cache: Cache, name: bytes, side: int, key: bytes) -> Optional[Pair]:
    """The nearest pair on a side of a key, or the pair at an end of the map."""
    status, data = written(lambda *room: cache._ask("map_next", name, len(name), side, key, len(key), *room))
    if status == NONE:
        return None
    check(status)
    return next(decoded(data))
