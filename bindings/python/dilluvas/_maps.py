"""A map of a db, as a mapping in the order of its keys."""

import contextlib
import itertools
from collections.abc import ItemsView, Iterator, KeysView, Mapping, MutableMapping, ValuesView
from ctypes import byref, c_bool, c_size_t
from typing import Any, NoReturn, Optional, TypeVar, Union, overload

from ._errors import DiskFull, check
from ._library import FIRST, LAST, NONE, SHORT, STALE, BytesLike, bytes_of, sized, written
from ._pages import Cache
from ._pieces import Bound, Pair, Range, nearest

_Other = TypeVar("_Other")

# Stands for an argument that wasn't given.
_NOTHING: Any = object()


class Map(MutableMapping[bytes, bytes]):
    """An ordered map of a db, by its name: keys and values are bytes, and the pairs are in the order of their keys, byte by byte.

    A key or value may also be given as a bytearray or a memoryview, and comes back as bytes. A `str` is refused: encode it. A map that was
    never made, or was dropped, reads as an empty one, and the first key that is set makes it.

    Each call is one step, and threads may call at once. `len`, `==`, `clear`, `update` and loops are many steps. They may or may not see
    concurrent changes, but each key comes once, in its place, and no change makes a loop fail. A loop reads one leaf of the map at a time.

    Every call raises `Closed`, which is a ValueError, once the db is closed; TooLong, which is one too, for a key or a value of 2^31 bytes
    or more; DiskFull, for a change that the disk has no room for; and Refused if the file can't be read or written or is damaged, or
    memory ran out. None of these changes anything, except that a write that failed may be there when the file is reopened.
    """

    __slots__ = ("_cache", "_name")

    def __init__(self, cache: Cache, name: bytes) -> None:
        self._cache, self._name = cache, name

    @property
    def name(self) -> bytes:
        """The name of the map."""
        return self._name

    def __repr__(self) -> str:
        return f"<dilluvas.Map {self._name!r}>"

    def __reduce_ex__(self, _: Any) -> NoReturn:
        raise TypeError("a map of a db can't be copied or pickled: dict(..) of it is a copy")

    def _ask(self, call: str, *arguments: Any) -> int:
        return self._cache._ask("map_" + call, self._name, len(self._name), *arguments)

    def _find(self, key: BytesLike) -> Optional[bytes]:
        the_key = sized(key, "a key")
        status, value = written(lambda *room: self._ask("get", *the_key, *room))
        if status == NONE:
            return None
        check(status)
        return value

    # Whether a call finds something, without copying it.
    def _is_there(self, call: str, *arguments: Any) -> bool:
        status = self._ask(call, *arguments, None, 0, byref(c_size_t()))
        if status not in (NONE, SHORT):
            check(status)
        return status != NONE

    # ---- One key.

    def __getitem__(self, key: BytesLike) -> bytes:
        value = self._find(key)
        if value is None:
            raise KeyError(bytes(key))
        return value

    def __setitem__(self, key: BytesLike, value: BytesLike) -> None:
        check(self._ask("set", *sized(key, "a key"), *sized(value, "a value"), byref(c_bool())))

    def __delitem__(self, key: BytesLike) -> None:
        had = c_bool()
        check(self._ask("del", *sized(key, "a key"), byref(had)))
        if not had.value:
            raise KeyError(bytes(key))

    def __contains__(self, key: object) -> bool:
        return self._is_there("get", *sized(key, "a key"))  # type: ignore[arg-type]

    @overload
    def get(self, key: BytesLike, default: None = None) -> Optional[bytes]: ...
    @overload
    def get(self, key: BytesLike, default: bytes) -> bytes: ...
    @overload
    def get(self, key: BytesLike, default: _Other) -> Union[bytes, _Other]: ...

    def get(self, key: BytesLike, default: Any = None) -> Any:
        """The value of a key, or the default if it has none."""
        value = self._find(key)
        return default if value is None else value

    def compare_and_swap(self, key: BytesLike, old: Optional[BytesLike], new: Optional[BytesLike]) -> bool:
        """Sets a key to the new value if it has the old one, and returns whether it had; otherwise nothing changes. None means no value."""
        status = self._ask("cas", *sized(key, "a key"), *_perhaps(old), *_perhaps(new))
        if status == STALE:
            return False
        check(status)
        return True

    @overload
    def pop(self, key: BytesLike) -> bytes: ...
    @overload
    def pop(self, key: BytesLike, default: bytes) -> bytes: ...
    @overload
    def pop(self, key: BytesLike, default: _Other) -> Union[bytes, _Other]: ...

    def pop(self, key: BytesLike, default: Any = _NOTHING) -> Any:
        """Removes a key and returns its value. A key without a value gives the default, or a KeyError if there is no default. If several
        threads pop one key, one gets it."""
        while True:
            value = self._find(key)
            if value is None:
                if default is _NOTHING:
                    raise KeyError(bytes(key))
                return default
            if self.compare_and_swap(key, value, None):
                return value

    def setdefault(self, key: BytesLike, default: Optional[BytesLike] = None) -> bytes:
        """The value of a key, which is set to the default if it has none. A default is required: no value is None."""
        new = bytes_of(default, "a default")  # type: ignore[arg-type]
        while True:
            value = self._find(key)
            if value is not None:
                return value
            if self.compare_and_swap(key, None, new):
                return new

    # ---- The order.

    def first(self) -> Optional[Pair]:
        """The pair with the least key, or None if there is no pair."""
        return nearest(self._cache, self._name, FIRST, b"")

    def last(self) -> Optional[Pair]:
        """The pair with the greatest key, or None if there is no pair."""
        return nearest(self._cache, self._name, LAST, b"")

    def popitem(self) -> Pair:
        """Removes the pair with the greatest key, and returns it. Raises KeyError if there is no pair."""
        while True:
            pair = self.last()
            if pair is None:
                raise KeyError("the map has no pair")
            if self.compare_and_swap(pair[0], pair[1], None):
                return pair

    def irange(
        self,
        start: Optional[BytesLike] = None,
        stop: Optional[BytesLike] = None,
        inclusive: tuple[bool, bool] = (True, False),
        reverse: bool = False,
    ) -> Iterator[Pair]:
        """The pairs with keys from `start` to `stop`, in key order or in reverse. None means no bound.

        `inclusive` says for each bound whether a key equal to it is included: by default the first one is, and the second one isn't. With
        `reverse` the bounds stay as they are, and one pair is read at a time.
        """
        has_start, has_stop = inclusive
        found = self._range(Bound.at(start, bool(has_start)), Bound.at(stop, bool(has_stop)))
        return found.reversed_pairs() if reverse else found.pairs()

    def _range(self, start: Bound, stop: Bound) -> Range:
        return Range(self._cache, self._name, start, stop)

    def _all(self) -> Range:
        return self._range(Bound.at(None, False), Bound.at(None, False))

    def __iter__(self) -> Iterator[bytes]:
        return (key for key, _ in self._all().pairs())

    def __reversed__(self) -> Iterator[bytes]:
        return (key for key, _ in self._all().reversed_pairs())

    # ---- All pairs.

    def __len__(self) -> int:
        return self._all().count()

    def __bool__(self) -> bool:
        return self._is_there("next", FIRST, b"", 0)

    def items(self) -> "Items":
        """The pairs, in key order."""
        return Items(self)

    def keys(self) -> "Keys":
        """The keys, in order."""
        return Keys(self)

    def values(self) -> "Values":
        """The values, in key order."""
        return Values(self)

    def clear(self) -> None:
        """Removes all pairs, and leaves a map of this name if the disk has room for one. A crash leaves all pairs or none, and then perhaps
        no map."""
        had = c_bool()
        check(self._ask("drop", byref(had)))
        if had.value:
            # the pairs are removed, so it isn't refused
            with contextlib.suppress(DiskFull):
                self._cache.open_tree(self._name)

    def __eq__(self, other: object) -> bool:
        if isinstance(other, Map):
            pairs = itertools.zip_longest(self.items(), other.items())
            return self._is_the_same(other) or all(pair == another for pair, another in pairs)
        if not isinstance(other, Mapping):
            return NotImplemented
        count = 0
        for key, value in self.items():
            if key not in other or other[key] != value:
                return False
            count += 1
        return count == len(other)

    def _is_the_same(self, other: "Map") -> bool:
        return self._cache is other._cache and self._name == other._name


class Keys(KeysView[bytes]):
    """The keys of a map, in order."""

    __slots__ = ()
    _mapping: Map

    def __reversed__(self) -> Iterator[bytes]:
        return reversed(self._mapping)


class Items(ItemsView[bytes, bytes]):
    """The pairs of a map, in key order."""

    __slots__ = ()
    _mapping: Map

    def __iter__(self) -> Iterator[Pair]:
        return self._mapping.irange()

    def __reversed__(self) -> Iterator[Pair]:
        return self._mapping.irange(reverse=True)


class Values(ValuesView[bytes]):
    """The values of a map, in key order."""

    __slots__ = ()
    _mapping: Map

    def __iter__(self) -> Iterator[bytes]:
        return (value for _, value in self._mapping.irange())

    def __reversed__(self) -> Iterator[bytes]:
        return (value for _, value in self._mapping.irange(reverse=True))

    def __contains__(self, value: object) -> bool:
        return any(value == found for found in self)


# The arguments for an optional value: whether there is one, and its bytes.
def _perhaps(value: Optional[BytesLike]) -> tuple[bool, bytes, int]:
    return (False, b"", 0) if value is None else (True, *sized(value, "a value"))
