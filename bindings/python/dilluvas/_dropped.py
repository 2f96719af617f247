"""Owners that are dropped, and what is closed then.

Python ignores a Ctrl-C that comes while it runs a finalizer or the callback of a weak reference. So an owner has one only while it has
something to close: none runs for an owner that was closed by a call.
"""

import weakref
from typing import Callable

# The owners that have something to close, by their addresses.
_OPEN: "dict[int, weakref.ref[object]]" = {}


def close_if_dropped(owner: object, close: Callable[[], object]) -> None:
    """Makes a call where an owner is dropped, until `is_closed` is told of it. The call must not keep the owner alive."""
    address = id(owner)

    def dropped(_: object) -> None:
        _OPEN.pop(address, None)
        close()

    _OPEN[address] = weakref.ref(owner, dropped)


def is_closed(owner: object) -> None:
    """Has nothing be done where the owner is dropped."""
    _OPEN.pop(id(owner), None)
