"""When a file is rewritten by itself, since it only grows else."""

from typing import NamedTuple, Optional

from ._errors import Refused
from ._file import FileCache
from ._library import number_of
from ._pages import Cache


class CompactAt(NamedTuple):
    """When `Db.flush` rewrites the file: where the file has `times` as many bytes as its pages take, and has `least` bytes or more, and not
    more than `most`.

    It does so in steps, one at each flush. They copy records to a new file, FILE.dilluvas-new, which takes the place of the file as that of
    `Db.compact` does once it has all of them. Neither file is in memory: 16 bytes are for each page, and for each message that a page has
    beside its first. Each step also reads what it copied into the cache of the new file, which takes the memory that an opened file does,
    and the last one syncs the file. Closing the db ends a rewriting, and so do `Db.compact` and a change that the disk has no room for else.

    What was pending is durable before, and a rewriting that is refused leaves the flush as it is: `Db.rewriting_failure` says why. It is tried
    again once the file has grown by half. How much the pages take is looked at each time that the file has grown by an eighth.
    """

    times: int = 4
    """So many times the bytes that the pages take: at least 2, which is taken for what is less."""

    least: int = 16 << 20
    """A file of fewer bytes stays as it is."""

    most: int = (1 << 64) - 1
    """A file of more bytes stays as it is."""

    step: int = 4 << 20
    """About how many bytes one flush reads and writes for it, and four more for each byte that the file grew by since the last step. 0: one
    flush does all of it, as `Db.compact` does, which may take three times as much memory as the file has bytes."""


class Space:
    """When a cache is rewritten."""

    def __init__(self, compact_at: Optional[CompactAt]) -> None:
        if not (compact_at is None or isinstance(compact_at, CompactAt)):
            raise TypeError(f"when a file is rewritten is a CompactAt or None, and no {type(compact_at).__name__}")
        self.compact_at = None if compact_at is None else CompactAt(*map(number_of, compact_at))
        # how long the file is where it is looked at next
        self._next_look = 0

    def give_back(self, cache: Cache) -> None:
        """Rewrites the file of a cache that was flushed, or takes a step of that, where it is time to. Whatever is refused, the cache goes on,
        unless it says so itself at its next call."""
        if not isinstance(cache, FileCache):
            return
        try:
            self._rewrite(self.compact_at, cache)
        except (Refused, OSError, MemoryError):
            # the cache keeps why a step failed, and its next call tells all else
            pass

    def _rewrite(self, compact_at: Optional[CompactAt], cache: FileCache) -> None:
        if cache.is_rewriting and (compact_at is None or compact_at.step == 0):
            cache.end_rewriting()
        if compact_at is None:
            return
        size = cache.size()
        live: Optional[int] = None
        if not cache.is_rewriting:
            live = self._live_if_time(compact_at, cache, size)
            if live is None:
                return
        # for one that fails, or is ended before the next flush
        self._next_look = size + size // 2
        if not cache.take_step(compact_at.step, live):
            return
        size = cache.size()
        self._next_look = size + size // 2

    def _live_if_time(self, compact_at: CompactAt, cache: FileCache, size: int) -> Optional[int]:
        """How many bytes the pages take, where a file of so many bytes is to be rewritten."""
        if size < self._next_look or not compact_at.least <= size <= compact_at.most:
            return None
        live = cache.live()
        if size >= live * max(compact_at.times, 2):
            return live
        self._next_look = size + size // 8
        return None
