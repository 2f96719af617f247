"""A system whose reads, writes and syncs fail, and whose power goes.

It stands in for os in the modules of files and paths, and keeps of one file what was written since its last sync.
"""

import errno
import os
import stat

from dilluvas import _file, _paths, _room

# What comes of the call at which things go wrong: it fails, or the power goes.
FAILS, ENDS = "fails", "ends"


class PowerCut(BaseException):
    """The power went. No call does anything from here on, but closing."""


class System:
    """`calls` counts what would change the file or make it durable; the one that `stops_at` names goes wrong, and with `is_lasting` all
    behind it do. Of the reads one of `fails_one_read_of` fails, and none where this is 0, and of the calls that keep room one of
    `refuses_one_room_of` does. Many reads and writes do a part. One that `drops_syncs` makes nothing durable."""

    def __init__(self, random):
        self._random = random
        # of the file that was written last: which one it is, what was there before each write since its last sync, and its size by then
        self._file, self._unsynced, self._synced_size = None, [], 0
        # a new name, the old one, and a name for the file that had the new one, if there was one: until the folder is synced
        self._renamed = None
        self.is_off = self.drops_syncs = False
        self.disarm()

    def __getattr__(self, name):
        return getattr(os, name)

    def __enter__(self):
        _file.os = _paths.os = self
        self._fallocate, _room.fallocate = _room.fallocate, self.fallocate
        return self

    def __exit__(self, *_):
        _file.os = _paths.os = os
        _room.fallocate = self._fallocate

    def disarm(self):
        self.stops_at, self.stop, self.is_lasting = None, FAILS, False
        self.fails_one_read_of = 0
        self.refuses_one_room_of = 0
        self.calls = self.failed_reads = self.failed_writes = 0

    def arm(self, stop, stops_at, is_lasting=False):
        self.stop, self.stops_at, self.is_lasting = stop, stops_at, is_lasting

    # Whether the next call is to go wrong.
    def _goes_wrong(self):
        if self.is_off:
            raise PowerCut
        self.calls += 1
        if self.stops_at is None or self.calls < self.stops_at:
            return False
        return self.calls == self.stops_at or self.is_lasting

    def _go_wrong(self, *numbers):
        if self.stop == ENDS:
            self.is_off = True
            raise PowerCut
        self.failed_writes += 1
        raise OSError(self._random.choice(numbers), "it fails")

    # ---- What these modules call.

    def fallocate(self, *_):
        if self.refuses_one_room_of and self._random.randrange(self.refuses_one_room_of) == 0:
            raise OSError(self._random.choice((errno.ENOSPC, errno.EDQUOT)), "it fails")
        # no room is kept, so that what is written is what fails
        return False

    def pread(self, descriptor, count, at):
        if self.fails_one_read_of and self._random.randrange(self.fails_one_read_of) == 0:
            self.failed_reads += 1
            raise OSError(errno.EIO, "it fails")
        return os.pread(descriptor, self._part(count), at)

    def pwrite(self, descriptor, data, at):
        data = bytes(data)
        if not self._goes_wrong():
            return self._write(descriptor, data[: self._part(len(data))], at)
        written = data[: self._random.randrange(len(data) + 1)]
        if self._random.randrange(2):
            written += self._random.randbytes(self._random.randrange(len(data) - len(written) + 1))
        self._write(descriptor, written, at)
        self._go_wrong(errno.EIO, errno.ENOSPC, errno.EFBIG)

    def fdatasync(self, descriptor):
        if self._goes_wrong():
            # the power may go behind it
            if self.stop == ENDS and self._random.randrange(2):
                self._sync(descriptor)
            self._go_wrong(errno.EIO, errno.ENOSPC)
        self._sync(descriptor)

    def ftruncate(self, descriptor, size):
        # it gives back room and cuts nothing: closing does so too, where the power went
        if self.is_off:
            return
        if self._goes_wrong():
            self._go_wrong(errno.EIO)
        os.ftruncate(descriptor, size)

    def rename(self, old, new):
        if self._goes_wrong():
            self._go_wrong(errno.EACCES, errno.EXDEV)
        self._forget_rename()
        kept = None
        if os.path.exists(new):
            kept = new + ".kept"
            os.link(new, kept)
        self._renamed = (old, new, kept)
        os.rename(old, new)

    def link(self, old, new):
        if self._goes_wrong():
            if self.stop == FAILS and self._random.randrange(3) == 0:
                # a system that has no second names, which is gone about
                raise OSError(errno.EPERM, "it has none")
            self._go_wrong(errno.EACCES, errno.ENOSPC)
        self._forget_rename()
        os.link(old, new)
        self._renamed = (old, new, None)

    def unlink(self, path):
        if self.is_off:
            raise PowerCut
        # it doesn't fail, but the power may go in front of it
        self.calls += 1
        if self.stop == ENDS and self.calls == self.stops_at:
            self.is_off = True
            raise PowerCut
        found = os.stat(path)
        if found.st_ino == self._file and found.st_nlink == 1:
            self._unsynced = []
        os.unlink(path)

    def fsync(self, descriptor):
        if self._goes_wrong():
            self._go_wrong(errno.EIO)
        if stat.S_ISDIR(os.fstat(descriptor).st_mode):
            self._forget_rename()
        else:
            self._sync(descriptor)

    def may_vanish(self):
        """Whether a file that stood nowhere before has a name that may be lost."""
        return self._renamed is not None and self._renamed[2] is None

    # What was renamed has its new name for good.
    def _forget_rename(self):
        if self._renamed is not None and self._renamed[2] is not None:
            os.unlink(self._renamed[2])
        self._renamed = None

    def _part(self, count):
        return self._random.randint(1, count) if count and self._random.randrange(3) == 0 else count

    def _write(self, descriptor, data, at):
        found = os.fstat(descriptor)
        if not self._unsynced or self._file != found.st_ino:
            self._file, self._unsynced, self._synced_size = found.st_ino, [], found.st_size
        self._unsynced.append((at, os.pread(descriptor, len(data), at), len(data)))
        return os.pwrite(descriptor, data, at)

    def _sync(self, descriptor):
        if not self.drops_syncs:
            self._unsynced = []

    # ---- What a crash leaves.

    def stop_process(self):
        """The process ends, and the system goes on."""
        self.is_off = False

    def lose_power(self, path):
        """Each range that was written since the last sync is as it was, as it was written, or any bytes, and the size is any between. A new
        name may be lost."""
        self.is_off = False
        if self._renamed is not None:
            old, new, kept = self._renamed
            if self._random.randrange(2):
                self._take_back(old, new, kept)
            self._forget_rename()
        if self._unsynced and os.path.exists(path) and os.stat(path).st_ino == self._file:
            with open(path, "r+b") as file:
                left = self._left(file.read())
                file.seek(0)
                file.write(left)
                file.truncate()
        self._unsynced = []

    # The new name of a file is lost. It has the old one, if another file hasn't.
    def _take_back(self, old, new, kept):
        if os.path.exists(old):
            os.unlink(new)
        else:
            os.rename(new, old)
        if kept is not None:
            os.rename(kept, new)
        self._renamed = None

    def _left(self, written):
        left = bytearray(written)
        for at, old, _ in reversed(self._unsynced):
            left[at : at + len(old)] = old
        del left[self._synced_size :]
        for at, _, length in self._unsynced:
            self._tear(left, written, at, at + length)
        return left[: self._random.randint(self._synced_size, max(len(left), self._synced_size))]

    def _tear(self, left, written, at, end):
        way = self._random.randrange(4)
        if len(left) < end and way != 0:
            left += bytes(end - len(left))
        while at < end and way != 0:
            part = min(end - at, self._random.randint(1, 600)) if way == 3 else end - at
            kind = self._random.randrange(3) if way == 3 else way
            if kind == 1:
                left[at : at + part] = written[at : at + part]
            elif kind == 2:
                left[at : at + part] = self._random.randbytes(part)
            at += part
