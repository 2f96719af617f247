"""A rewriting of a file in steps, while the file is used. The library takes the steps, as dilluvas_rewriting.h describes them."""

import functools
import os
from ctypes import CFUNCTYPE, POINTER, byref, c_bool, c_int, c_uint32, c_uint64, c_void_p, get_errno
from typing import TYPE_CHECKING, Any, Optional

from ._dropped import close_if_dropped, is_closed
from ._errors import Told, check
from ._library import DISK_FULL, READ, WRITE, library
from ._paths import New, Opened

if TYPE_CHECKING:
    from ._file import FileCache

_MOST_WORK = (1 << 64) - 1

# While the new file is made it is this much longer than twice the old one, a length that it rarely reaches. A longer one is refused by the
# library, and the rewriting is tried again later.
_MORE_LENGTH = 1 << 22


class Memory(c_void_p):
    """What the library keeps in memory of a rewriting."""


class Kept:
    """The owner of that memory."""

    def __init__(self) -> None:
        self.memory: Optional[Memory] = None
        # The process that began a step, until the step is taken. A child that is forked meanwhile can't free what that left half done.
        self.stepping: Optional[int] = None

    def begin(self) -> None:
        self.memory = _function("begin")()
        if not self.memory:
            raise MemoryError

    def free(self) -> None:
        """Frees the memory. Freeing it again does nothing."""
        if self.memory and self.stepping in (None, os.getpid()):
            # on one line, so that whoever traces lines can't raise in between; an exception that comes there frees nothing twice
            memory, self.memory = self.memory, None; _function("end")(memory)  # fmt: skip


_CALLS: dict[str, tuple[tuple[Any, ...], Any]] = {
    "has_room": ((c_int, c_uint64), c_bool),
    "begin": ((), Memory),
    "step": ((Memory, c_int, c_int, c_uint64, POINTER(c_bool)), c_uint32),
    "stays": ((Memory,), c_uint64),
    "own_pages": ((Memory,), c_uint64),
    "end": ((c_void_p,), None),
}


@functools.lru_cache(maxsize=None)
def _function(name: str) -> Any:
    arguments, result = _CALLS[name]
    return CFUNCTYPE(result, *arguments, use_errno=True)(("dilluvas_rewriting_" + name, library()))


def has_room(old: Opened, live: int) -> bool:
    """Whether the disk has room for a new file of `live` bytes, and for what is written to the old one until the new one is whole."""
    return bool(_function("has_room")(old.number, live))


class Steps:
    """A rewriting that was begun. The new file has its other name until it takes the place of the old one. The cache is the one that is opened
    over it, and closes it."""

    def __init__(self, path: str, old: Opened, size: int, cache: "FileCache") -> None:
        self.cache, self.length = cache, 2 * size + _MORE_LENGTH
        # the length of the old file at the last step
        self._size = size
        self._kept = Kept()
        close_if_dropped(self, self._kept.free)
        self._kept.begin()
        self.new = New(path, old)

    def take(self, old: Opened, size: int, step: int) -> bool:
        """Takes a step of about `step` bytes, and of four more for each byte that the old file, of `size` bytes, grew by since the last one.
        Returns whether the new file is level with the old one. The rewriting can't go on after an error."""
        work = step + 4 * max(size - self._size, 0)
        is_level = c_bool()
        self._kept.stepping = os.getpid()
        status = _function("step")(self._kept.memory, old.number, self.new.file.number, min(work, _MOST_WORK), byref(is_level))
        number = get_errno()
        self._kept.stepping = None
        is_of_system = status in (READ, WRITE, DISK_FULL)
        check(Told.by(status, OSError(number, os.strerror(number))) if is_of_system else status)
        self._size = size
        return is_level.value

    def copied(self) -> int:
        """How many bytes the new file has that stay as they are, whatever is copied later. All of them stay once it is level."""
        return int(_function("stays")(self._kept.memory))

    def own_pages(self) -> int:
        """Where the cache's own pages are in the new file once it is level, up to `copied()`."""
        return int(_function("own_pages")(self._kept.memory))

    def close(self) -> None:
        """Frees the memory, removes the new file's other name if the file still has it, and closes the cache."""
        try:
            self._kept.free()
            is_closed(self)
        finally:
            try:
                self.new.close()
            finally:
                # the file is locked as long as it has the other name
                self.cache.close()
