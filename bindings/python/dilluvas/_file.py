"""Stamped pages of keys and values, over a file.

    with FileCache("pages") as cache:
        page, stamp = cache.allocate([(b"key", b"value")])
        cache.flush()
"""

import contextlib
import ctypes
import errno
import os
from ctypes import byref, c_size_t, c_uint64
from typing import Any, Optional, SupportsIndex

from ._errors import DiskFull, Refused, Told, check, is_of_room, kept
from ._library import ALREADY_OPEN, CORRUPTION, DISK_FULL, LOG_FULL, MEMORY, NEEDS, NO_ACCESS, OK, READ, WRITE, FileSettings, Task, number_of
from ._owner import Held
from ._pages import Cache
from ._paths import (
    MOST_TRIES, AnyPath, New, Opened, check_is_plain, leads_to, open_locked, place_of_new, sync_name, take_left_away, told_as,
)  # fmt: skip
from ._room import Room
from ._steps import Steps, has_room

# The kinds of a task.
_NOTHING, _WRITE_BYTES, _SYNC = range(3)

# How many bytes are written at a time, and read at least: the later records of a page are often nearby.
_ROOM, _LEAST_READ = 65536, 4096

# After so many reads for one call, each read is larger than the last: a call that goes through a map starts over each time.
_FEW_READS = 64

# How many bytes of the file the first read of a rewrite takes.
_LEAST_PART = 1 << 22

# The calls that change pages, names or ids. A call with more bytes than this is refused, or no room is kept for it.
_CHANGES = frozenset((
    "allocate", "set", "del", "replace", "free", "cas_root", "open_tree", "pin", "generate_id", "map_set", "map_del", "map_cas", "map_drop",
))  # fmt: skip
_LONGEST = (1 << 31) - 1


class FileHeld(Held):
    """What a cache over a file has to close."""

    file: Opened

    # The rewriting in steps that is going on.
    steps: Optional[Steps] = None

    def close(self) -> None:
        self.end_rewriting()
        super().close()
        # it has none if no file could be opened
        if hasattr(self, "file"):
            self.file.close()

    def end_rewriting(self) -> bool:
        """Ends the rewriting, and answers whether there was one."""
        if self.steps is None:
            return False
        self.steps.close()
        self.steps = None
        return True


class FileCache(Cache):
    """An open cache over a file, which is locked until the cache is closed. Closing flushes nothing.

    A file that is missing or empty is made. Its name ends in ".dilluvas-new" until it is whole and durable, so a crash leaves it whole or as
    it was. It has the owner and the mode of the empty one, and a link to that stays. None is made if a link leads to no file.
    `attempt_gc` is refused over a file. A change that the disk has no room for is `DiskFull`, and isn't begun.

    The file belongs to the process that opened it. A forked child neither reads nor writes it: a call that has to is refused there, and
    closing leaves the file locked for the parent.
    """

    _held: FileHeld
    _path: str

    # The room that is kept for changes.
    _kept: Room

    # The error of a failed write.
    _failure: Optional[Told] = None

    # Why the last step failed.
    _rewriting_failure: Optional[Refused] = None

    # While the file is the new one of a rewriting: how many of its bytes may be read, and where the own pages of the cache begin once all may.
    _copied: Optional[int] = None
    _own_pages: Optional[tuple[int, int]] = None

    def __init__(
        self, path: AnyPath, capacity: SupportsIndex = 1 << 20, interval: SupportsIndex = 10, segment_size: SupportsIndex = 1 << 20
    ) -> None:
        if self._held.handle.is_open:
            raise Refused(ALREADY_OPEN)
        self._settings = FileSettings(number_of(capacity), number_of(interval), number_of(segment_size))
        self._failure = self._rewriting_failure = None
        name = os.fsdecode(path)
        try:
            self._open_path(name)
            self._path = os.path.realpath(name)
            take_left_away(self._path, self._file)
        except BaseException:
            self.close()
            raise

    @staticmethod
    def _new_held() -> FileHeld:
        return FileHeld()

    @property
    def _file(self) -> Opened:
        return self._held.file

    # Opens the file of a path, and makes it if it is missing or empty. If another process changes that in between, it starts over.
    def _open_path(self, path: str) -> None:
        for _ in range(MOST_TRIES):
            found = open_locked(path)
            if found is not None and found.size() > 0:
                self._take(found, found.size())
                sync_name(path)
                self._open(found.size())
                return
            try:
                is_made = self._make(path, found)
            finally:
                # while the file is made, an empty one stays locked
                if found is not None:
                    found.close()
            if is_made:
                return
            self._close()
        raise Refused(NO_ACCESS)

    def _take(self, file: Opened, length: int) -> None:
        self._room, self._task = ctypes.create_string_buffer(_ROOM), Task()
        self._held.file, self._kept = file, Room(file, length)
        self._close_if_dropped()

    def _open(self, length: int) -> None:
        self._do("open_file", byref(self._settings), length)

    # Makes a file under another name, gives it its own once it is durable, and returns whether it has that.
    def _make(self, path: str, empty: Optional[Opened]) -> bool:
        if empty is not None:
            check_is_plain(empty)
        with contextlib.closing(New(place_of_new(path, empty), empty)) as new:
            self._take(new.file, 0)
            if empty is not None:
                with told_as(WRITE):
                    new.give_owner_and_mode(empty.stat())
            self._open(0)
            is_put = new.put() if empty is None else empty.size() == 0 and new.replace()
            if is_put:
                new.sync_folder()
            return is_put

    def amplification(self) -> tuple[int, int]:
        """How many bytes the log has, and how many the pages would take.

        It reads the pages that aren't in memory one after another, as `get` does, so those that were used longest ago are dropped for them
        within the capacity. Each is read once, and the list of pages takes 16 bytes for each at the beginning. The calls of other threads
        wait, so it is one answer. What is pending counts in the pages alone.
        """
        return self._in_turn(self._amplification)

    # One page is read at a time: a call that reads all of them would start over for each.
    def _amplification(self) -> tuple[int, int]:
        log, pages, size = self._number("size"), int(self._settings.segment_size), c_uint64()
        for page in range(self._number("page_count")):
            check(self._answer("page_size", page, byref(size)))
            pages += size.value
        return log, min(pages, (1 << 64) - 1)

    def compact(self) -> None:
        """Rewrites the cache into a new file, which has each page as one record, and continues on that.

        The new file replaces the old one, with its owner and its mode, and is locked before it does. Until then its name is that of the file
        followed by ".dilluvas-new"; one that a killed process left there is made anew. If this process is killed, the path leads to the old
        file or to the new one, with the same pages. Other names of the file (hard links) stay with the old one.

        The cache is then one that was opened over the new file: each page has stamp 0. Discard stamps from before, since a page may get the
        same stamp again with other pairs. No id comes twice.

        If it is refused the file and the cache are as they were; before `DiskFull` all that was pending was flushed. But if the folder
        couldn't be synced every later call is refused: the new file is there, and a crash may bring back the old one. The same holds if an
        exception such as Ctrl-C comes once the new file may be there.
        """
        self._in_turn(self._compact)

    def _compact(self) -> None:
        self._number("size")
        self._end_rewriting()
        try:
            self._replace_file()
        except DiskFull:
            # once nothing is pending, the room that is kept for it may be of use to the new file
            if not self._file.keeps_room:
                raise
            check(self._answer("flush", byref(c_size_t())))
            if not self._kept.give_back():
                raise
            self._replace_file()

    def _replace_file(self) -> None:
        with told_as(WRITE):
            old = self._file.stat()
        with contextlib.closing(FileCache.__new__(FileCache)) as other, contextlib.closing(New(self._path, self._file)) as new:
            other._take(new.file, 0)
            with told_as(WRITE):
                new.give_owner_and_mode(old)
            self._rewrite_into(other)
            other._settings = self._settings
            other._open(0)
            self._go_over(other, new)

    # Puts the new file in place, and goes on over it with the cache that was opened over it.
    def _go_over(self, other: "FileCache", new: New) -> None:
        self._put_in_place(new)
        # the old one is closed now, and so unlocked, once the path leads to the new one
        old, new_held = self._held, other._held
        old.handle, old.file, new_held.handle, new_held.file = new_held.handle, new_held.file, old.handle, old.file
        self._kept.begin(self._file, 0)
        self._rewriting_failure = None
        new.sync_folder()
        self._is_lost = False

    # From here on it is unknown which file the path leads to, or which one a crash leaves, so nothing is written to either.
    def _put_in_place(self, new: New) -> None:
        self._is_lost = True
        try:
            is_put = new.replace()
        except Refused:
            # a server may report a failure although it is done
            self._is_lost = not leads_to(self._path, self._file)
            raise
        if not is_put:
            self._is_lost = False
            raise Refused(NO_ACCESS)

    # ---- Rewriting in steps.

    @property
    def is_rewriting(self) -> bool:
        """Whether a rewriting in steps is going on."""
        return self._held.steps is not None

    @property
    def rewriting_failure(self) -> Optional[Refused]:
        """Why the last step of a rewriting was refused, or None if none was since the file was opened, or since `take_step` or `compact`
        replaced it. If the system refused something, its error is the `__cause__`.

        The file and the cache are as they were, or the next call raises. A change that took the room of the new file counts, as `DiskFull`.
        A `compact` that is refused doesn't, and neither does an exception such as Ctrl-C.
        """
        return self._rewriting_failure

    def take_step(self, step: int, live: Optional[int] = None) -> bool:
        """Flushes, and takes a step of about `step` bytes of a rewriting, which begins if none is going on. The new file replaces the old one
        once both are level, as with `compact`. Returns whether it did. With 0 as `step` it does all at once, by `compact`.

        `live` is what `live()` has just returned, if it was called.

        If a step fails the rewriting ends. The file and the cache are as they were then, or the next call raises. A forked child takes no
        step.
        """
        return self._in_turn(self._take_step, step, live)

    def end_rewriting(self) -> None:
        """Ends the rewriting in steps that is going on, if any, and removes its new file."""
        self._in_turn(self._end_rewriting)

    def _take_step(self, step: int, live: Optional[int]) -> bool:
        try:
            return self._step(step, live)
        except (Refused, OSError, MemoryError) as error:
            self._rewriting_failure = kept(error)
            raise

    def _step(self, step: int, live: Optional[int]) -> bool:
        try:
            # nothing may be pending, and a signal handler may have changed something since the last flush
            check(self._answer("flush", byref(c_size_t())))
            if not self._file.is_own:
                return False
            if step == 0:
                self._compact()
                return True
            size = self._number("size")
            steps = self._held.steps or self._begin_steps(size, live)
            is_level = steps.take(self._file, size, step)
            if not self._open_copied(steps, is_level):
                return False
        except BaseException:
            self._end_rewriting()
            raise
        # from here on no step is taken, since the new file may be in place
        self._held.steps = None
        self._finish(steps)
        return True

    def _begin_steps(self, size: int, live: Optional[int]) -> Steps:
        with told_as(WRITE):
            old = self._file.stat()
            if not has_room(self._file, self._number("live") if live is None else live):
                raise DiskFull()
        steps = self._held.steps = Steps(self._path, self._file, size, FileCache.__new__(FileCache))
        steps.cache._take(steps.new.file, 0)
        steps.cache._settings = self._settings
        with told_as(WRITE):
            steps.new.give_owner_and_mode(old)
            os.ftruncate(steps.new.file.number, steps.length)
        return steps

    # Lets the cache over the new file read what was copied, so that little is left for the last step. Returns whether it is open then.
    def _open_copied(self, steps: Steps, is_level: bool) -> bool:
        if steps.copied() >= steps.length:
            # so much was changed meanwhile
            raise Refused(LOG_FULL)
        steps.cache._copied = None if is_level else steps.copied()
        steps.cache._own_pages = (steps.own_pages(), steps.copied()) if is_level else None
        status = steps.cache._ask("open_file", byref(self._settings), steps.length)
        if status == NEEDS:
            return False
        check(status)
        if not is_level:
            raise Refused(CORRUPTION)
        return True

    # Goes on over the new file, which is level with the old one. The library has to find as many bytes of pages in it: its records are copies.
    def _finish(self, steps: Steps) -> None:
        with contextlib.closing(steps):
            if steps.cache._number("live") != self._number("live"):
                raise Refused(CORRUPTION)
            with told_as(WRITE):
                # they may have been changed since the rewriting was begun
                steps.new.give_owner_and_mode(self._file.stat())
                os.ftruncate(steps.new.file.number, steps.copied() + 1)
                os.fdatasync(steps.new.file.number)
            self._go_over(steps.cache, steps.new)

    def _end_rewriting(self) -> bool:
        return self._held.end_rewriting()

    # The same if its new file takes the room of a change.
    def _give_up_rewriting(self) -> bool:
        if not self._end_rewriting():
            return False
        self._rewriting_failure = DiskFull()
        return True

    # ---- Rewriting at once.

    # Rewrites the cache into the log of a new file. It starts over if bytes of the old file are needed, and hands in more of these each time,
    # so that it starts no more often than the file's length has digits.
    def _rewrite_into(self, new: "FileCache") -> None:
        part = _LEAST_PART
        try:
            while True:
                new._do("new_log", byref(self._settings))
                status = super()._answer("rewrite", byref(new._held.handle))
                if status != NEEDS:
                    check(status)
                    return
                check(self._read_part(part))
                part *= 4
        finally:
            super()._answer("forget")

    # Hands in the block of the file, of at least so many bytes, that contains the needed bytes, or these alone.
    def _read_part(self, part: int) -> int:
        at, size = c_uint64(), c_size_t()
        status = super()._answer("needs", byref(at), byref(size))
        if status != OK:
            return status
        start = at.value - at.value % part
        try:
            left = self._file.size() - start
            data = self._file.read(start, min(left, max(part, at.value + size.value - start)), 0)
        except OSError:
            return READ
        except MemoryError:
            return MEMORY
        if start + len(data) < at.value + size.value:
            # what isn't needed may be unreadable
            return self._read_needed()
        return super()._answer("hand_in", start, data, len(data))

    def _answer(self, name: str, *arguments: Any) -> int:
        if name in _CHANGES:
            given = 0
            for argument in arguments:
                if type(argument) is bytes:
                    given += len(argument)
            is_left = name != "map_drop" and self._kept.is_left(given)
            if not is_left and not self._has_room(name, given):
                return DISK_FULL
        return self._settled(name, *arguments)

    # Whether there is room for what a change writes and for all that is pending.
    def _has_room(self, name: str, given: int) -> bool:
        size = c_uint64()
        # a call on a closed cache reports that itself, and so does one with too many bytes
        if given > _LONGEST or super()._answer("size", byref(size)) != OK:
            return True
        # what is pending is less than a segment
        present = size.value + int(self._settings.segment_size)

        def keep() -> bool:
            # dropping a map frees each page of it with a short record
            return self._kept.keep_more(size.value // 16, present) if name == "map_drop" else self._kept.keep(given, present)

        # the new file of a rewriting takes room too
        return keep() or (self._give_up_rewriting() and keep())

    # A number that a call writes.
    def _number(self, name: str) -> int:
        number = c_uint64()
        check(self._answer(name, byref(number)))
        return number.value

    # Repeats a call until it is done, and in between does the library's tasks and reads.
    def _settled(self, name: str, *arguments: Any) -> int:
        reads = 0
        while True:
            status = super()._answer(name, *arguments)
            try:
                self._do_tasks()
            except OSError as error:
                super()._answer("failed")
                # nothing rests on a file that is being opened or made
                is_full = name in ("open_file", "new_log") and is_of_room(error)
                self._failure = Told.by(DISK_FULL if is_full else WRITE, error)
                return self._failure
            except BaseException:
                # a task counts as done once it is given out
                super()._answer("failed")
                raise
            if status == WRITE and self._failure is not None:
                return self._failure
            if status != NEEDS or self._is_ahead():
                return status
            reads += 1
            # an opening continues after each piece, and drops it
            is_again = reads > _FEW_READS and name != "open_file"
            status = self._read_more(reads - _FEW_READS) if is_again else self._read_needed()
            if status != OK:
                super()._answer("forget")
                return status
            if self._own_pages is not None:
                self._hand_in_own_pages(*self._own_pages)

    # Hands in the cache's own pages before the opening asks for them: it starts over at each question then.
    def _hand_in_own_pages(self, start: int, end: int) -> None:
        if end - start <= _ROOM:
            data = self._file.read(start, end - start, 0)
            super()._answer("hand_in", start, data, len(data))

    # Whether bytes are needed that aren't copied yet.
    def _is_ahead(self) -> bool:
        if self._copied is None:
            return False
        at, size = c_uint64(), c_size_t()
        check(super()._answer("needs", byref(at), byref(size)))
        return at.value + max(size.value, _LEAST_READ) > self._copied

    def _do_tasks(self) -> None:
        task = self._task
        while super()._answer("next_task", byref(task), self._room, _ROOM) == OK and task.kind != _NOTHING:
            if task.kind == _SYNC:
                os.fdatasync(self._file.number)
                continue
            at, left = task.at, memoryview(self._room)[: task.len]
            while left:
                written = os.pwrite(self._file.number, left, at)
                if not written:
                    raise OSError(errno.EIO, "nothing was written")
                at, left = at + written, left[written:]

    # Hands in the needed bytes and the block around them, four times as large each time, or these bytes alone.
    def _read_more(self, times: int) -> int:
        return OK if self._read_part(_ROOM << 2 * min(times, 12)) == OK else self._read_needed()

    # Reads the needed bytes and hands them in.
    def _read_needed(self) -> int:
        at, size = c_uint64(), c_size_t()
        status = super()._answer("needs", byref(at), byref(size))
        if status != OK:
            return status
        try:
            data = self._file.read(at.value, max(size.value, _LEAST_READ), size.value)
        except OSError as error:
            return Told.by(READ, error)
        if len(data) < size.value:
            return READ
        return super()._answer("hand_in", at, data, len(data))
