"""The loop of dilluvas_file.c, for the judge: what it reads, writes and syncs goes by a system of faults.

It wants a shared library of bindings/c/hooks.c and libdilluvas.a, and DILLUVAS_SO to name that. Allocations can be refused there too.
"""

import ctypes
import errno
import os
from ctypes import POINTER, byref, c_bool, c_char_p, c_int, c_int64, c_long, c_size_t, c_uint, c_uint32, c_uint64, c_void_p

from dilluvas import Cache
from dilluvas._errors import check
from dilluvas._library import FileSettings, Handle, library, number_of
from faults import PowerCut

_READ, _WRITE, _SYNC, _SYNC_FOLDER, _RENAME, _UNLINK, _LINK = range(7)
_HOOK = ctypes.CFUNCTYPE(c_int64, c_int, c_int, c_void_p, c_size_t, c_int64)


class _File(ctypes.Structure):
    _fields_ = [
        ("cache", Handle),
        ("descriptor", c_int),
        ("buffer", c_void_p),
        ("path", c_void_p),
        ("settings", FileSettings),
        ("process", c_int),
        ("reads", c_uint),
        ("next_look", c_uint64),
        ("room_end", c_uint64),
        ("longest", c_size_t),
        ("keeps_room", c_bool),
        ("is_full", c_bool),
        ("next", c_void_p),
        ("failure", c_uint32),
    ]


def is_there():
    return hasattr(library(), "dilluvas_set_hook")


def _load():
    library().dilluvas_set_hook.argtypes = (_HOOK,)
    library().dilluvas_refuse_allocation.argtypes = (c_long,)
    library().dilluvas_was_refused.restype = c_bool
    for name, parameters, result in (
        ("open", (POINTER(_File), c_char_p, POINTER(FileSettings)), c_uint32),
        ("again", (POINTER(_File), POINTER(c_uint32)), c_bool),
        ("amp", (POINTER(_File), POINTER(c_uint64), POINTER(c_uint64)), c_uint32),
        ("compact", (POINTER(_File),), c_uint32),
        ("close", (POINTER(_File),), c_uint32),
    ):
        function = getattr(library(), "dilluvas_file_" + name)
        function.argtypes, function.restype = parameters, result


class Loop:
    """Opens caches by the loop of C over a system."""

    def __init__(self, system, random):
        self.system, self._random = system, random
        self._hook = _HOOK(self._called)
        _load()

    def __call__(self, path, capacity=1 << 20, interval=10, segment_size=1 << 20):
        return CFileCache(self, path, FileSettings(number_of(capacity), number_of(interval), number_of(segment_size)))

    def set_hook(self):
        library().dilluvas_set_hook(self._hook)

    def refuse_allocation(self, behind):
        """The allocation behind so many is refused, and none where this is -1."""
        library().dilluvas_refuse_allocation(behind)

    def was_refused(self):
        return library().dilluvas_was_refused()

    def _called(self, kind, descriptor, data, length, at):
        if kind in (_READ, _WRITE, _SYNC, _SYNC_FOLDER) and self._random.randrange(8) == 0:
            return -errno.EINTR
        try:
            return self._do(kind, descriptor, data, length, at) or 0
        except OSError as error:
            return -error.errno
        except PowerCut:
            return -errno.EIO

    def _do(self, kind, descriptor, data, length, at):
        system = self.system
        if kind == _READ:
            read = system.pread(descriptor, length, at)
            ctypes.memmove(data, read, len(read))
            return len(read)
        if kind == _WRITE:
            return system.pwrite(descriptor, ctypes.string_at(data, length), at)
        if kind in (_RENAME, _LINK):
            give = system.rename if kind == _RENAME else system.link
            return give(os.fsdecode(ctypes.string_at(data)), os.fsdecode(ctypes.string_at(at)))
        if kind == _UNLINK:
            return system.unlink(os.fsdecode(ctypes.string_at(data)))
        return system.fdatasync(descriptor) if kind == _SYNC else system.fsync(descriptor)


class CFileHeld:
    """What such a cache has to close, which the loop in C closes with its file."""

    def __init__(self):
        self.file = _File(descriptor=-1)
        self.handle = self.file.cache

    def close(self):
        library().dilluvas_file_close(byref(self.file))


class CFileCache(Cache):
    """An open cache over a file, as FileCache is one."""

    _new_held = CFileHeld

    def __init__(self, loop, path, settings):
        self._loop, self._file = loop, self._held.file
        self._close_if_dropped()
        loop.set_hook()
        was_off = loop.system.is_off
        status = library().dilluvas_file_open(byref(self._file), os.fsencode(path), byref(settings))
        self._tell_power(was_off)
        check(status)

    def _tell_power(self, was_off):
        if self._loop.system.is_off and not was_off:
            raise PowerCut

    def _ask(self, name, *arguments):
        while True:
            was_off = self._loop.system.is_off
            status = c_uint32(super()._ask(name, *arguments))
            again = library().dilluvas_file_again(byref(self._file), byref(status))
            self._tell_power(was_off)
            if not again:
                return status.value

    # Makes a call of the loop's own.
    def _do_by_loop(self, name, *arguments):
        was_off = self._loop.system.is_off
        status = getattr(library(), "dilluvas_file_" + name)(byref(self._file), *arguments)
        self._tell_power(was_off)
        check(status)

    def amplification(self):
        log, pages = c_uint64(), c_uint64()
        self._do_by_loop("amp", byref(log), byref(pages))
        return log.value, pages.value

    def compact(self):
        self._do_by_loop("compact")
