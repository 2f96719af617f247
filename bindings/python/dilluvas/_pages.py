"""Stamped pages of keys and values, over a log in memory."""

import ctypes
from collections.abc import Iterable
from ctypes import byref, c_bool, c_size_t, c_uint64
from typing import Any, NamedTuple, Optional, SupportsIndex, Union

from ._errors import Refused, Stale, check
from ._library import (
    GONE, NONE, RESERVED_ID, SHORT, STALE, BytesLike, FileSettings, Found, Settings, decoded, encoded, number_of, sized, written,
)  # fmt: skip
from ._owner import Owner


class Page(NamedTuple):
    """A copy of a page. The values of an index are pages, in eight bytes, the lowest first."""

    stamp: int
    is_index: bool
    pairs: list[tuple[bytes, bytes]]


class Cache(Owner):
    """An open cache over a new log in memory. `close`, or the end of a `with`, closes it, and flushes nothing."""

    _settings: Union[Settings, FileSettings]

    def __init__(
        self,
        capacity: SupportsIndex = 1 << 20,
        interval: SupportsIndex = 10,
        segment_size: SupportsIndex = 4096,
        blob_limit: SupportsIndex = 512,
        clean_every: SupportsIndex = 16,
    ) -> None:
        settings = Settings(*map(number_of, (capacity, interval, segment_size, blob_limit, clean_every)))
        self._close_if_dropped()
        self._do("open_memory", byref(settings))
        self._settings = settings

    def _swap(self, name: str, page: SupportsIndex, stamp: SupportsIndex, *arguments: Any) -> int:
        now = c_uint64(number_of(stamp))
        status = self._ask(name, number_of(page), byref(now), *arguments)
        if status == STALE:
            raise Stale(now.value)
        check(status)
        return now.value

    def allocate(self, pairs: Iterable[tuple[BytesLike, BytesLike]] = ()) -> tuple[int, int]:
        """Puts a leaf of these pairs, whose keys ascend, on a page, and returns the page and its stamp."""
        data, page, stamp = encoded(pairs), c_uint64(), c_uint64()
        self._do("allocate", data, len(data), byref(page), byref(stamp))
        return page.value, stamp.value

    def get(self, page: SupportsIndex) -> Optional[Page]:
        """A page, or None if there is no such page."""
        number, found, room = number_of(page), Found(), ctypes.create_string_buffer(1)
        status = SHORT
        while status == SHORT:
            room = ctypes.create_string_buffer(max(found.needed, 1))
            status = self._ask("get", number, byref(found), room, found.needed)
        if status == GONE:
            return None
        check(status)
        return Page(found.stamp, found.is_index, list(decoded(ctypes.string_at(room, found.needed))))

    def value(self, page: SupportsIndex, key: BytesLike) -> Optional[bytes]:
        """The value of a key of a leaf, or None if there is no such page or key."""
        number, the_key, stamp = number_of(page), sized(key, "a key"), c_uint64()
        status, value = written(lambda *room: self._ask("value", number, *the_key, byref(stamp), *room))
        if status in (GONE, NONE):
            return None
        check(status)
        return value

    def set(self, page: SupportsIndex, stamp: SupportsIndex, key: BytesLike, value: BytesLike) -> int:
        """Sets a key of a leaf to a value, and returns the page's new stamp."""
        return self._swap("set", page, stamp, *sized(key, "a key"), *sized(value, "a value"))

    def delete(self, page: SupportsIndex, stamp: SupportsIndex, key: BytesLike) -> int:
        """Removes a key from a leaf, whether or not it is there, and returns the page's new stamp."""
        return self._swap("del", page, stamp, *sized(key, "a key"))

    def replace(self, page: SupportsIndex, stamp: SupportsIndex, pairs: Iterable[tuple[BytesLike, BytesLike]]) -> int:
        """Replaces the contents of a page with a leaf of these pairs, and returns the page's new stamp."""
        data = encoded(pairs)
        return self._swap("replace", page, stamp, data, len(data))

    def free(self, page: SupportsIndex, stamp: SupportsIndex) -> int:
        """Frees a page, whose number an `allocate` may reuse."""
        return self._swap("free", page, stamp)

    def root(self, name: BytesLike) -> Optional[int]:
        """The root page of a name, or None."""
        page = c_uint64()
        status = self._ask("root", *sized(name, "a name"), byref(page))
        if status == NONE:
            return None
        check(status)
        return page.value

    def cas_root(self, name: BytesLike, old: Optional[int], new: Optional[int]) -> None:
        """Gives a name another root page, or none, if its root is the old one. None means no root, and page 0 is the cache's own."""
        if 0 in (old, new):
            raise Refused(RESERVED_ID)
        root = c_uint64(number_of(old or 0))
        status = self._ask("cas_root", *sized(name, "a name"), byref(root), number_of(new or 0))
        if status == STALE:
            raise Stale(root.value or None)
        check(status)

    def open_tree(self, name: BytesLike) -> int:
        """The root page of a name. A name that has none gets an index over an empty leaf."""
        page = c_uint64()
        self._do("open_tree", *sized(name, "a name"), byref(page))
        return page.value

    def pin(self) -> None:
        """Opens a batch: once it is sealed, a crash leaves all of it or nothing."""
        self._do("pin")

    def seal(self) -> None:
        """Closes the open batch."""
        self._do("seal")

    def cancel(self) -> None:
        """Closes the open batch, of which a crash may leave a part. Nothing is undone."""
        self._do("cancel")

    def generate_id(self) -> int:
        """A number that was never given before."""
        number = c_uint64()
        self._do("generate_id", byref(number))
        return number.value

    def flush(self) -> int:
        """Makes all that is pending durable, and returns how many bytes that wrote."""
        count = c_size_t()
        self._do("flush", byref(count))
        return count.value

    def size(self) -> int:
        """How many bytes the log has."""
        number = c_uint64()
        self._do("size", byref(number))
        return number.value

    def live(self) -> int:
        """How many bytes of the log make the pages, which is about what a rewrite leaves. It reads nothing."""
        number = c_uint64()
        self._do("live", byref(number))
        return number.value

    def amplification(self) -> tuple[int, int]:
        """How many bytes the log has, and how many the pages would take."""
        log, pages = c_uint64(), c_uint64()
        self._do("amp", byref(log), byref(pages))
        return log.value, pages.value

    def attempt_gc(self) -> bool:
        """Moves the page that is due, and returns whether there was one."""
        moved = c_bool()
        self._do("gc", byref(moved))
        return moved.value

    def compact(self) -> None:
        """Rewrites the cache into a new log, which has each page as one record, and continues on that: otherwise a log only grows.

        The cache is then one that was opened over the new log: each page has stamp 0. Discard stamps from before, since a page may get the
        same stamp again with other pairs. No id comes twice.
        """
        self._do("compact", byref(self._settings))

    def was_recovered(self) -> bool:
        """Whether the log had the cache's own pages when it was opened."""
        recovered = c_bool()
        self._do("was_recovered", byref(recovered))
        return recovered.value
