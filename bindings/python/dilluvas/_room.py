"""Room that is kept past the end of a file for later writes, so that a full disk refuses a change before it is begun."""

import ctypes
import errno
import functools
import os
import sys
from ctypes import c_int, c_int64
from typing import Any, Optional

from ._errors import is_of_room
from ._paths import Opened

# How often the bytes of a change may be written, with their leaf; and how many bytes are kept for what else it writes, at least and for most
# changes.
_PAIRS_OF_A_LEAF, _LEAST_ROOM, _USUAL = 40, 1 << 16, 1 << 10

# Room is kept in steps of an eighth of the file, within these.
_LEAST_STEP, _MOST_STEP = 1 << 16, 1 << 22

# The greatest length of a file.
_LONGEST_FILE = (1 << 62) - 1

_KEEP_SIZE = 1


class Room:
    """The room of an open file."""

    # how many bytes the longest change had
    _longest = 0

    def __init__(self, file: Opened, end: int) -> None:
        self.begin(file, end)

    def begin(self, file: Opened, end: int) -> None:
        """Continues with another file, which ends at `end`."""
        self._file = file
        # the end of the file and its room, and how much of that is left for changes, which are counted at their most
        self._end, self._left = end, 0

    def is_left(self, given: int) -> bool:
        """Whether the room of the last `keep` has enough left for a change with so many bytes."""
        self._left -= given * _PAIRS_OF_A_LEAF + _USUAL
        return given <= self._longest and self._left >= 0

    def keep(self, given: int, present: int) -> bool:
        """Keeps room for a change with `given` bytes, if `present` bytes are there or pending, and returns whether there is room."""
        longest = max(self._longest, given)
        # no change writes a page more than twice
        has_room = self.keep_more(min(longest * _PAIRS_OF_A_LEAF, 2 * present + 4 * longest), present)
        self._longest = longest if has_room else self._longest
        return has_room

    def keep_more(self, more: int, present: int) -> bool:
        """The same for a change that writes `more` bytes."""
        to = present + more + _LEAST_ROOM
        is_there = to <= self._end or self._keep(to + min(max(to // 8, _LEAST_STEP), _MOST_STEP)) or self._keep(to)
        self._left = self._end - to if is_there else 0
        return is_there

    # If the system keeps no room, or the file may not grow, or it belongs to the parent process, a later write reports that.
    def _keep(self, to: int) -> bool:
        try:
            number = self._file.number
            if to <= _LONGEST_FILE and fallocate(number, self._end, to - self._end):
                self._file.keeps_room = True
        except OSError as error:
            if is_of_room(error):
                # the system may have kept a part
                self._file.keeps_room = True
                return False
        self._end = to
        return True

    def give_back(self) -> bool:
        """Gives back the room, and returns whether that was done. Then there is no room for what is pending."""
        try:
            self.begin(self._file, self._file.give_back_room())
        except OSError:
            return False
        return True


@functools.lru_cache(maxsize=None)
def _function() -> Optional[Any]:
    if not sys.platform.startswith("linux"):
        return None
    function = getattr(ctypes.CDLL(None, use_errno=True), "fallocate", None)
    if function is not None:
        function.argtypes, function.restype = (c_int, c_int, c_int64, c_int64), c_int
    return function


def fallocate(number: int, at: int, length: int) -> bool:
    """Keeps room for `length` bytes of a file from a place on, and returns whether this system does that."""
    function = _function()
    if function is None:
        return False
    while function(number, _KEEP_SIZE, at, length) != 0:
        failed = ctypes.get_errno()
        if failed != errno.EINTR:
            raise OSError(failed, os.strerror(failed))
    return True
