"""Ordered maps in a file, or in memory."""

import contextlib
import os
from collections.abc import Iterator
from ctypes import byref, c_bool
from types import TracebackType
from typing import Any, Callable, NoReturn, Optional, SupportsIndex, TypeVar, Union

from ._errors import Closed, Refused, check
from ._file import FileCache
from ._library import ALREADY_OPEN, BATCH_OPEN, NONE, BytesLike, bytes_of, written
from ._maps import Map
from ._owner import is_owned
from ._pages import Cache
from ._paths import AnyPath
from ._space import CompactAt, Space

_Answer = TypeVar("_Answer")

# What names a map.
Name = Union[str, BytesLike]

# The path that stands for no file.
_MEMORY = ":memory:"


class Db:
    """Ordered maps by their names, in a file or in memory. `dilluvas.open` opens one.

    A name is bytes, or a `str`, which stands for its bytes in UTF-8; `db[name]` is the map of a name, whether or not there is one yet.

    What isn't flushed is lost where the program ends, or a part of it is. A `with` flushes at its end, unless that is an exception, and
    closes the db. What was flushed outlives the program, and a loss of power.

    Where Ctrl-C or another exception comes into a call, what it changes is there or isn't, and the db goes on, or refuses each later call as
    WRITE until the file is opened again.

    Threads may share a db: a call waits until those of the others are done, and until a batch of another thread is. One that a signal
    handler or a finalizer makes within a call of its own thread is a RuntimeError. A child that was forked leaves the file to its parent: a
    call that has to read or write it is refused there, and closing leaves it locked.

    Each call on a closed db is `Closed`, which is a ValueError. A change that the disk has no room for is `DiskFull`: it isn't begun, what
    was changed before can be read and flushed, and changes go on once there is room. Any other call is `Refused` where the file can't be
    read or written or is damaged, or memory ran out, and has changed nothing then; but behind a write that failed every call is, until the
    file is opened again.
    """

    def __init__(
        self,
        path: AnyPath,
        *,
        capacity: SupportsIndex = 1 << 26,
        interval: SupportsIndex = 10,
        segment_size: Optional[SupportsIndex] = None,
        compact_at: Optional[CompactAt] = CompactAt(),
    ) -> None:
        if hasattr(self, "_cache") and not self.closed:
            raise Refused(ALREADY_OPEN)
        self._space = Space(compact_at)
        settings = {"capacity": capacity, "interval": interval}
        if segment_size is not None:
            settings["segment_size"] = segment_size
        self._path = os.fsdecode(path)
        is_file = not isinstance(path, str) or path != _MEMORY
        self._cache: Cache = FileCache(path, **settings) if is_file else Cache(**settings)

    def __enter__(self) -> "Db":
        if self.closed:
            raise Closed()
        return self

    def __exit__(
        self, kind: Optional[type[BaseException]], error: Optional[BaseException], trace: Optional[TracebackType]
    ) -> None:
        try:
            if kind is None:
                # it may be closed by then
                with contextlib.suppress(Closed):
                    self.flush()
        finally:
            self.close()

    def __repr__(self) -> str:
        return f"<dilluvas.Db {self._path!r}{', closed' if self.closed else ''}>"

    def __reduce_ex__(self, _: Any) -> NoReturn:
        raise TypeError("a db can't be copied or pickled: one object has the file")

    # ---- Maps.

    def __getitem__(self, name: Name) -> Map:
        return Map(self._cache, _bytes_of_name(name))

    def __setitem__(self, name: Name, pairs: Any) -> NoReturn:
        raise TypeError("a map is not put in a db, but changed there: db[name].update(..)")

    def __delitem__(self, name: Name) -> None:
        had = c_bool()
        the_name = _bytes_of_name(name)
        check(self._cache._ask("map_drop", the_name, len(the_name), byref(had)))
        if not had.value:
            raise KeyError(name)

    def __contains__(self, name: Name) -> bool:
        return self._cache.root(_bytes_of_name(name)) is not None

    def __iter__(self) -> Iterator[bytes]:
        name: Optional[bytes] = None
        while True:
            after = (False, b"", 0) if name is None else (True, name, len(name))
            status, name = written(lambda *room: self._cache._ask("map_name", *after, *room))
            if status == NONE:
                return
            check(status)
            yield name

    def __len__(self) -> int:
        return sum(1 for _ in self)

    def maps(self) -> list[bytes]:
        """The names of the maps, in their order. A map is there from its first key on until it is dropped, whether or not it has a pair."""
        return list(self)

    # ---- What is durable.

    def flush(self) -> int:
        """Makes all changes durable, and answers how many bytes that wrote. Then it rewrites the file where `compact_at` says so, or takes a
        step of that. What it answers, or is refused by, is the same whatever comes of the rewriting: `rewriting_failure` says that."""
        count = self._outside_of_batches(self._cache.flush)
        # on one line, as below
        with self._cache._turn: self._space.give_back(self._cache)  # fmt: skip
        return count

    @contextlib.contextmanager
    def batch(self) -> Iterator["Db"]:
        """Changes that a crash leaves all of, or none, in whichever maps they are: `with db.batch(): ..`. A later flush makes them durable.

        Nothing is undone: where the `with` is left by an exception its changes so far stand, and a crash may leave a part of them.

        The calls of other threads wait until it is left, so nothing is to be waited for here that another thread does with the db. A batch
        within one is refused, and so are `flush`, `compact`, and a `generate_id` that has to write.
        """
        if is_owned(self._cache._turn):
            raise Refused(BATCH_OPEN)
        # on one line, so that whoever traces lines can't raise between the batch and the unlocking
        with self._cache._turn: yield from self._sealed()  # fmt: skip

    def _sealed(self) -> Iterator["Db"]:
        cache = self._cache
        try:
            cache._ask("cancel")
            cache.pin()
            yield self
            cache.seal()
        except BaseException:
            # where another thread lets it go this one may have the turn for ever
            if is_owned(cache._turn):
                cache._ask("cancel")
            raise

    # A batch that is open where this thread is in none was left so by an exception as it ended: nobody else closes it.
    def _outside_of_batches(self, call: Callable[[], _Answer]) -> _Answer:
        try:
            return call()
        except Refused as refused:
            if refused.status != BATCH_OPEN or is_owned(self._cache._turn):
                raise
        # on one line too
        with self._cache._turn: return (self._cache._ask("cancel"), call())[1]  # fmt: skip

    def compact(self) -> None:
        """Rewrites the file into a new one that has each pair once, with what isn't flushed yet, and goes on over that.

        A file only grows else, and `flush` does this too, where `compact_at` says so. The new one takes the place of the old one, with its
        owner and mode, and is durable by then. Where the process is killed meanwhile either is there, with the same pairs.
        """
        self._outside_of_batches(self._cache.compact)

    @property
    def compact_at(self) -> Optional[CompactAt]:
        """When a flush rewrites the file: never where this is None. It may be set, and holds until the db is closed. In memory nothing is
        rewritten but by `compact`."""
        return self._space.compact_at

    @compact_at.setter
    def compact_at(self, compact_at: Optional[CompactAt]) -> None:
        self._space = Space(compact_at)

    @property
    def rewriting_failure(self) -> Optional[Refused]:
        """Why the last rewriting by a `flush` was refused, or None if none was since the file was opened, or since a rewriting replaced it, by
        `flush` or `compact`. If the system refused something, its error is the `__cause__`.

        The flush itself was done: all is durable, and the maps are what they were. But the file grows until a rewriting comes to its end, so
        a program may look at this after a flush, and tell its user. It is tried again once the file has grown by half.

        `DiskFull` if the disk has too little room to begin, or a change took the room of the new file. The `status` of others is NO_ACCESS,
        NO_FILE or HELD if the folder takes no new file, or the path doesn't lead to the file by now; READ, WRITE or MEMORY; 111, that of a
        full log, if so much was changed meanwhile that the new file got too long; CORRUPTION if it has other pages than the old one, or the
        old one is damaged. At WRITE later calls may be refused too: then the folder couldn't be synced.

        A `compact` that is refused raises that itself and changes nothing here, and neither does a Ctrl-C, or a forked child, which takes no
        step. In memory this is always None.
        """
        return self._cache.rewriting_failure if isinstance(self._cache, FileCache) else None

    def size_on_disk(self) -> int:
        """How many bytes the file has, or in memory the log. What isn't written yet is among them in memory alone."""
        return self._cache.size()

    def generate_id(self) -> int:
        """A number that was never given before, and isn't again, in this run or in another one. Each run skips some."""
        return self._outside_of_batches(self._cache.generate_id)

    # ---- The end.

    @property
    def closed(self) -> bool:
        """Whether it is closed."""
        return not self._cache._held.handle.is_open

    def close(self) -> None:
        """Closes the db, once the calls and batches of other threads are done. Nothing is flushed. Closing it again does nothing."""
        self._cache.close()


def _bytes_of_name(name: Name) -> bytes:
    return name.encode() if isinstance(name, str) else bytes_of(name, "a name")


def open(
    path: AnyPath,
    *,
    capacity: SupportsIndex = 1 << 26,
    interval: SupportsIndex = 10,
    segment_size: Optional[SupportsIndex] = None,
    compact_at: Optional[CompactAt] = CompactAt(),
) -> Db:
    """Opens the ordered maps in a file, which is made where it is absent or empty, or new ones in memory, where the path is ":memory:".

        with dilluvas.open("file") as db:
            db["fruit"][b"lime"] = b"green"
            for key, value in db["fruit"].irange(b"a", b"m"):
                print(key, value)

    The file is locked until the db is closed: another opening, by this process or by another one, is refused as HELD.

    `capacity` is how many bytes of the maps stay in memory to be read again, at least 256. `interval` is how many ids one write covers,
    and how many may be skipped by an opening is twice that; over a file it is never made smaller, as an id could come twice then. At
    `segment_size` bytes that aren't flushed these are written, 1 MiB of them over a file where nothing is said. `compact_at` says when a
    flush rewrites the file: where nothing is said, if it has 16 MiB or more, and four times the bytes that its pages take.

    Refused: the `status` is NO_FILE for a folder or another thing that is no file, NO_ACCESS where the file may not be read, written or
    made, HELD, CORRUPTION where the bytes are none that a db wrote, READ, WRITE or MEMORY, or DISK_FULL, of `DiskFull`. Numbers that are
    out of range are refused before anything is done with the file.
    """
    return Db(path, capacity=capacity, interval=interval, segment_size=segment_size, compact_at=compact_at)
