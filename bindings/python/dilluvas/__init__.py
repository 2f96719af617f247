"""Ordered maps in a file, over a library whose calls are proved to meet their contracts.

    import dilluvas

    with dilluvas.open("file") as db:
        db["fruit"][b"lime"] = b"green"
        for key, value in db["fruit"].irange(b"a", b"m"):
            print(key, value)

`open` returns a `Db`, whose maps have names; a `Map` is a mapping of bytes to bytes, in key order. Threads may share both.

Below them are pages, for building other structures: a `Cache` has stamped pages of keys and values in memory, and a `FileCache` has them
over a file. A file has either maps or pages of your own.
"""

from ._db import Db, open
from ._errors import Closed, DiskFull, Gone, Refused, Stale, TooLong
from ._file import FileCache
from ._library import (
    ALREADY_OPEN, ARGUMENTS, BATCH_OPEN, CORRUPTION, DISK_FULL, GONE, HELD, INDEX, KEY_TOO_LONG, MEMORY, NAME_TOO_LONG, NEEDS,
    NO_ACCESS, NO_BATCH, NO_FILE, NONE, NOT_OPEN, NOT_OVER_FILE, OK, READ, RESERVED_ID, SHORT, STALE, VALUE_TOO_LONG, WRITE, text_of,
)  # fmt: skip
from ._maps import Map
from ._pages import Cache, Page
from ._space import CompactAt

__all__ = [
    "ALREADY_OPEN", "ARGUMENTS", "BATCH_OPEN", "CORRUPTION", "Cache", "Closed", "CompactAt", "DISK_FULL", "Db", "DiskFull", "FileCache",
    "GONE", "Gone", "HELD", "INDEX", "KEY_TOO_LONG", "MEMORY", "Map", "NAME_TOO_LONG", "NEEDS", "NONE", "NOT_OPEN", "NOT_OVER_FILE",
    "NO_ACCESS", "NO_BATCH", "NO_FILE", "OK", "Page", "READ", "RESERVED_ID", "Refused", "SHORT", "STALE", "Stale", "TooLong",
    "VALUE_TOO_LONG", "WRITE", "open", "text_of",
]  # fmt: skip
