"""Handles, each with one owner, and threads that share one."""

import itertools
import os
import threading
import weakref
from ctypes import byref
from types import TracebackType
from typing import Any, Callable, NoReturn, Optional, TypeVar

from ._dropped import close_if_dropped, is_closed
from ._errors import check
from ._library import WRITE, Handle
from ._library import call as call_library

_Self = TypeVar("_Self", bound="Owner")
_Answer = TypeVar("_Answer")


class Held:
    """What an owner has to close, also where it is dropped."""

    def __init__(self) -> None:
        self.handle = Handle()

    def close(self) -> None:
        """Closes it. Closing it again does nothing."""
        # if it was never opened the library may not be there
        if self.handle.is_open:
            call_library("close", byref(self.handle))


class Owner:
    """The owner of a handle, which makes one call at a time."""

    _held: Held

    # Whether every call is refused, since the contents of the handle or its file are unknown.
    _is_lost = False

    # What a thread holds while the calls of others wait, and what it holds in a call.
    _turn: threading.RLock
    _lock: threading.RLock

    def __new__(cls: type[_Self], *_: Any, **__: Any) -> _Self:
        self = super().__new__(cls)
        self._turn, self._lock = threading.RLock(), threading.RLock()
        self._held = cls._new_held()
        _register(self)
        return self

    @staticmethod
    def _new_held() -> Held:
        return Held()

    def __enter__(self: _Self) -> _Self:
        return self

    def __exit__(
        self, kind: Optional[type[BaseException]], error: Optional[BaseException], trace: Optional[TracebackType]
    ) -> None:
        self.close()

    def __reduce_ex__(self, _: Any) -> NoReturn:
        raise TypeError("a cache can't be copied or pickled: a handle has one owner")

    # Makes a call once no other thread is in one. A call from a signal handler or a finalizer within a call of its own thread is refused: it
    # would reorder what that call writes.
    def _in_turn(self, call: Callable[..., _Answer], *arguments: Any) -> _Answer:
        if is_owned(self._lock):
            raise RuntimeError("a call of this cache was interrupted by this one, and isn't done")
        # on one line, so that whoever traces lines can't raise between the call and the unlocking
        with self._turn, self._lock: return call(*arguments)  # fmt: skip

    # From here on what is held is closed where the owner is dropped. No call is running then, so that waits for no lock, whose holder may be gone.
    def _close_if_dropped(self) -> None:
        close_if_dropped(self, self._held.close)

    # In a forked child a thread that isn't there may hold a lock for ever, and what it began with the handle stays half done.
    def _free_locks(self) -> None:
        if not (_is_free(self._turn) and _is_free(self._lock)):
            self._turn, self._lock, self._held.handle, self._is_lost = threading.RLock(), threading.RLock(), Handle(), True

    def _ask(self, name: str, *arguments: Any) -> int:
        return self._in_turn(self._answer, name, *arguments)

    def _answer(self, name: str, *arguments: Any) -> int:
        return WRITE if self._is_lost else call_library(name, byref(self._held.handle), *arguments)

    def _do(self, name: str, *arguments: Any) -> None:
        check(self._ask(name, *arguments))

    def close(self) -> None:
        """Closes the cache after the calls of other threads are done. Closing it again does nothing."""
        self._in_turn(self._close)

    def _close(self) -> None:
        self._held.close()
        self._is_lost = False
        is_closed(self)


def is_owned(lock: threading.RLock) -> bool:
    """Whether this thread holds a lock."""
    return bool(getattr(lock, "_is_owned")())


def _is_free(lock: threading.RLock) -> bool:
    is_free = lock.acquire(blocking=False)
    if is_free:
        lock.release()
    return is_free


# The owners, in the order in which they were made. References to those that are gone are taken out once there are twice as many as there were
# left the last time.
_NUMBERS = itertools.count()
_OWNERS: "dict[int, weakref.ref[Owner]]" = {}
_most_owners = 64


def _register(owner: Owner) -> None:
    global _most_owners
    _OWNERS[next(_NUMBERS)] = weakref.ref(owner)
    if len(_OWNERS) > _most_owners:
        # a copy, since other threads register theirs meanwhile
        for number, reference in _OWNERS.copy().items():
            if reference() is None:
                _OWNERS.pop(number, None)
        _most_owners = 2 * len(_OWNERS) + 64


def _free_locks() -> None:
    for reference in _OWNERS.copy().values():
        owner = reference()
        if owner is not None:
            owner._free_locks()


os.register_at_fork(after_in_child=_free_locks)
