"""A system that takes what a sync couldn't write for durable, as Linux does: reads go on showing it, and no later sync writes it.

What a flush confirmed is there all the same after the power was cut, wherever one or two syncs fail before: by the loop in Python, or by that
in C where DILLUVAS_SO has it.
"""

import errno
import os
import random
import tempfile

import c_loop
from dilluvas import FileCache, Refused, _file, _paths

# In each of so many openings so many pages are added at most, each of which a flush follows, and then a batch is begun that is lost.
OPENINGS, PAGES = 3, 2

# A page has less, and a batch more.
SEGMENT = 100

# The device writes blocks of so many bytes, of which the first has the opening bytes and a gate.
BLOCKS = 16, 50, 512


class Forgetful:
    """Stands in for the module os. The syncs of a file whose numbers `fails_at` has fail, counted from 1."""

    is_off = False

    def __init__(self, block, fails_at):
        self._block, self._fails_at = block, fails_at
        self._file, self._dirty = None, set()
        self.syncs, self.device = 0, bytearray()

    def __getattr__(self, name):
        return getattr(os, name)

    def __enter__(self):
        _file.os = _paths.os = self
        return self

    def __exit__(self, *_):
        _file.os = _paths.os = os

    def pwrite(self, descriptor, data, at):
        number = os.fstat(descriptor).st_ino
        if number != self._file:
            self._file, self._dirty, self.device = number, set(), bytearray()
        self._dirty.update(range(at // self._block, (at + len(data) - 1) // self._block + 1))
        return os.pwrite(descriptor, data, at)

    def fdatasync(self, descriptor):
        self.syncs += 1
        written, self._dirty = self._dirty, set()
        if self.syncs in self._fails_at:
            raise OSError(errno.EIO, "it fails")
        for block in sorted(written):
            at = block * self._block
            data = os.pread(descriptor, self._block, at)
            self.device.extend(bytes(max(at + len(data) - len(self.device), 0)))
            self.device[at : at + len(data)] = data


def opener(system):
    """Opens a cache over a file: by the loop in C, if the library has it."""
    return c_loop.Loop(system, random.Random(1)) if c_loop.is_there() else FileCache


def add_pages(open_cache, path, confirmed):
    """Opens the file and adds pages, up to the first call that is refused: the pages that are confirmed then, with those before."""
    try:
        with open_cache(path, segment_size=SEGMENT) as cache:
            for _ in range(PAGES):
                page, _ = cache.allocate([(b"key", bytes(40))])
                cache.flush()
                confirmed = confirmed | {page}
            cache.pin()
            for _ in range(PAGES):
                cache.allocate([(b"key", bytes(41))])
    except Refused:
        pass
    return confirmed


def lost(folder, block, fails_at):
    """Which confirmed pages aren't there after the power was cut, and how many syncs were made."""
    path = os.path.join(folder, "pages")
    confirmed = set()
    with Forgetful(block, fails_at) as system:
        open_cache = opener(system)
        for _ in range(OPENINGS):
            confirmed = add_pages(open_cache, path, confirmed)
    with open(path, "wb") as file:
        file.write(system.device)
    with opener(os)(path) if not c_loop.is_there() else opener(Forgetful(block, ()))(path) as cache:
        gone = {page for page in confirmed if cache.get(page) is None}
    os.unlink(path)
    return gone, system.syncs


def main():
    runs = 0
    with tempfile.TemporaryDirectory(dir="/dev/shm" if os.path.isdir("/dev/shm") else None) as folder:
        for block in BLOCKS:
            _, most = lost(folder, block, ())
            for first in range(1, most + 1):
                for second in range(first, most + 1):
                    gone, _ = lost(folder, block, (first, second))
                    assert not gone, f"blocks of {block}, syncs {first} and {second}: pages {gone} are lost"
                    runs += 1
    print(f"forgetful: {runs} runs, nothing is lost")


if __name__ == "__main__":
    main()
