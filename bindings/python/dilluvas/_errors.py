"""The exceptions that a refused call raises."""

import errno
from typing import Any, Optional

from ._library import DISK_FULL, GONE, KEY_TOO_LONG, MEMORY, NAME_TOO_LONG, NOT_OPEN, OK, READ, STALE, VALUE_TOO_LONG, text_of


class Refused(Exception):
    """A call was refused, and has changed nothing. `status` is the number that dilluvas.h has for the reason. If the system refused
    something, its error is the `__cause__`."""

    def __init__(self, status: int) -> None:
        super().__init__(status)
        self.status = status

    def __str__(self) -> str:
        return text_of(self.status)


class Stale(Refused):
    """The page has another stamp, or the name another root: `present` is that stamp or root."""

    def __init__(self, present: Optional[int]) -> None:
        super().__init__(STALE)
        self.present = present

    def __reduce__(self) -> tuple[Any, ...]:
        return type(self), (self.present,)


class Gone(Refused):
    """There is no such page."""

    def __init__(self) -> None:
        super().__init__(GONE)

    def __reduce__(self) -> tuple[Any, ...]:
        return type(self), ()


class Closed(Refused, ValueError):
    """The object was closed: by `close`, at the end of a `with`, or by another thread."""

    def __init__(self) -> None:
        super().__init__(NOT_OPEN)

    def __str__(self) -> str:
        return "it is closed"

    def __reduce__(self) -> tuple[Any, ...]:
        return type(self), ()


class TooLong(Refused, ValueError):
    """The key, the value or the name has more than the limit of 2^31 - 1 bytes: `status` says which."""


class DiskFull(Refused):
    """The disk has no room for the change, which was not begun. All earlier changes are there, and can be read and flushed. Changes continue
    once there is room: by `compact`, which is refused like this too if the new file has none, or if something is deleted elsewhere."""

    def __init__(self) -> None:
        super().__init__(DISK_FULL)

    def __reduce__(self) -> tuple[Any, ...]:
        return type(self), ()


def is_of_room(error: OSError) -> bool:
    """Whether the system refused something for lack of room."""
    return error.errno in (errno.ENOSPC, errno.EDQUOT)


def refusal(error: OSError, status: int) -> Refused:
    """The exception for an error of the system: this status, or `DiskFull`."""
    return DiskFull() if is_of_room(error) else Refused(status)


class Told(int):
    """A status, and the system's error that caused it."""

    cause: OSError

    @classmethod
    def by(cls, status: int, error: OSError) -> "Told":
        told = cls(status)
        told.cause = _anew(error)
        return told


# A new error, so that the frames and arguments of the call aren't kept alive.
def _anew(error: OSError) -> OSError:
    return OSError(error.errno, error.strerror)


def kept(error: Exception) -> Refused:
    """The exception for one that a call raised, to be kept: the call isn't kept alive by it."""
    if isinstance(error, Refused):
        told, cause = _refused(error.status), error.__cause__
    else:
        # what tells no status has read
        told, cause = refusal(error, READ) if isinstance(error, OSError) else Refused(MEMORY), error
    if isinstance(cause, OSError):
        told.__cause__ = _anew(cause)
    return told


def check(status: int) -> None:
    """Raises the exception of a status, unless it is OK."""
    if status == OK:
        return
    if isinstance(status, Told):
        raise _refused(int(status)) from status.cause
    raise _refused(status)


def _refused(status: int) -> Refused:
    if status == GONE:
        return Gone()
    if status == NOT_OPEN:
        return Closed()
    if status == DISK_FULL:
        return DiskFull()
    if status in (KEY_TOO_LONG, VALUE_TOO_LONG, NAME_TOO_LONG):
        return TooLong(status)
    return Refused(status)
