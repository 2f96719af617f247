"""Which bytes are a log, by docs/FORMAT.md."""

import functools
import struct

from journal import ABANDONED_BATCH, BEGUN_BATCH, CANCELLED_BATCH, CLOSING, FREED, OLD_MARK, OPENING, closing
from machine import BATCH

_PUTS, _LINKS = (5, 6, 7, 8, 9), (10, 11)


def is_log(content):
    """Whether the bytes of a file describe records."""
    return _read(bytes(content)) is not None


def abandoned(content):
    """The bytes of a file once it was opened: where it ends inside a batch, a frame says that this was abandoned."""
    read = _read(bytes(content))
    if read is None or read.begun is None:
        return content
    frame = b"\1" + struct.pack("<Q", 25) + closing(ABANDONED_BATCH, read.begun) + b"\0"
    return content[: read.end] + frame + content[read.end + len(frame) :]


@functools.lru_cache(maxsize=1)
def _read(content):
    """How far a file was read, if its bytes describe records."""
    at, end, reading = len(OPENING), len(content), _Reading(content)
    if not content.startswith(OPENING):
        return None
    while at < end and content[at]:
        if end - at < 9:
            return None
        behind = at + 9 + struct.unpack_from("<Q", content, at + 1)[0]
        if not at + 9 < behind <= end or not reading.takes(at + 9, behind):
            return None
        at = behind
    reading.end = at
    return reading if at < end else None


class _Reading:
    """How far a file was read: which pages have a content, and the batch that is begun."""

    def __init__(self, content):
        self.content, self.pages = content, []
        self.begun, self.waiting = None, []

    def takes(self, at, end):
        """Whether the bytes between are records that may stand there."""
        places, named = set(), set()
        while at < end:
            places.add(at)
            if end - at < 17:
                return False
            kind, page, length = struct.unpack_from("<BQQ", self.content, at)
            if length > end - at - 17:
                return False
            number = struct.unpack_from("<Q", self.content, at + 17)[0] if length == 8 else None
            if self.begun is not None:
                fits = self._fits_inside(kind, page, number)
            elif kind == BEGUN_BATCH:
                fits, self.begun = page == BATCH and length == 0, at
            elif kind == OLD_MARK:
                fits = page == BATCH and number is not None and number >= at
                named.add(number)
            else:
                fits = self._fits(kind, page)
            if not fits:
                return False
            at += 17 + length
        return named <= places

    def _fits_inside(self, kind, page, number):
        if kind not in CLOSING:
            self.waiting.append((kind, page))
            return kind in _PUTS or kind in _LINKS or kind == FREED
        if page != BATCH or number != self.begun:
            return False
        waiting, self.begun, self.waiting = self.waiting, None, []
        return kind == ABANDONED_BATCH or all(self._fits(*change) for change in waiting)

    def _fits(self, kind, page):
        if kind in _PUTS and page <= len(self.pages):
            self.pages[page : page + 1] = [True]
            return True
        if kind == FREED and page < len(self.pages):
            self.pages[page] = False
            return True
        return kind == CANCELLED_BATCH or kind in _LINKS and page < len(self.pages) and self.pages[page]
