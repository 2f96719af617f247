"""Bad input, and a system that refuses: each is told by a status or an exception, nothing hangs, and the file is as it was."""

import contextlib
import ctypes
import errno
import os
import pathlib
import resource
import signal
import socket
import sys

from dilluvas import HELD, NO_ACCESS, NO_FILE, OK, READ, SHORT, WRITE, FileCache, Refused, text_of
from dilluvas._library import Found
from faults import System
from machine import BATCH_OPEN, IDS_USED_UP, MEMORY, NOT_OPEN, RESERVED_ID

CALLS = {
    "allocate": (), "get": (2,), "value": (2, b""), "set": (2, 1, b"", b""), "delete": (2, 1, b""), "replace": (2, 1, []),
    "free": (2, 1), "root": (b"",), "cas_root": (b"", None, 2), "open_tree": (b"",), "pin": (), "seal": (), "cancel": (),
    "generate_id": (), "flush": (), "size": (), "amplification": (), "attempt_gc": (), "was_recovered": (),
    "compact": (),
}  # fmt: skip


def status_of(call, *arguments, **settings):
    try:
        call(*arguments, **settings)
    except Refused as refused:
        return refused.status
    return OK


def is_raised(kind, call, *arguments, **settings):
    try:
        call(*arguments, **settings)
    except kind:
        return True
    return False


def in_child(call):
    """Begins a call in another process, whose status it answers there."""
    child = os.fork()
    if child == 0:
        try:
            os._exit(call())
        finally:
            os._exit(255)
    return child


def answer_in(child):
    return os.waitstatus_to_exitcode(os.waitpid(child, 0)[1])


def status_elsewhere(call):
    """The status of a call in another process, by a user who has no rights."""

    def without_rights():
        if os.geteuid() == 0:
            os.setgroups([])
            os.setgid(65534)
            os.setuid(65534)
        return status_of(call)

    return answer_in(in_child(without_rights))


def written(path):
    """Makes a file with a page."""
    with FileCache(path) as cache:
        page, stamp = cache.allocate([(b"", b"")])
        cache.set(page, stamp, b"key", b"value" * 20000)
        cache.flush()
    return path


def is_whole(path):
    with FileCache(path) as cache:
        return cache.get(2).pairs == [(b"", b""), (b"key", b"value" * 20000)]


# ---- Handles.


def closed_handles(folder):
    cache = FileCache(os.path.join(folder, "closed"))
    cache.close()
    cache.close()
    for name, arguments in CALLS.items():
        assert status_of(getattr(cache, name), *arguments) == NOT_OPEN, name


def opened_twice(folder):
    path = written(os.path.join(folder, "twice"))
    os.link(path, path + " hard")
    os.symlink("twice", path + " soft")
    os.chmod(path, 0o666)
    with FileCache(path):
        for name in (path, path + " hard", path + " soft", os.fsencode(path), pathlib.Path(path), os.path.relpath(path)):
            assert status_of(FileCache, name) == HELD, name
        assert status_elsewhere(lambda: FileCache(path)) == HELD
    assert status_elsewhere(lambda: FileCache(path)) == OK
    assert is_whole(path + " hard") and is_whole(path + " soft") and os.path.islink(path + " soft")
    made = os.path.join(folder, "made by ")
    for name in (os.fsencode(made + "bytes"), pathlib.Path(made + "path"), os.path.relpath(made + "relative")):
        assert is_whole(written(name))


def many_processes(folder):
    """One at a time has the file, which each of them may make, and none loses what another wrote."""
    path = os.path.join(folder, "many")

    def add_pages():
        made = 0
        for _ in range(40):
            with contextlib.suppress(Refused), FileCache(path) as cache:
                cache.allocate()
                made += cache.flush() > 0
        return made

    children = [in_child(add_pages) for _ in range(4)]
    made = sum(answer_in(child) for child in children)
    with FileCache(path) as cache:
        assert cache.get(made + 1) is not None and cache.get(made + 2) is None, made
    assert not os.path.exists(path + ".dilluvas-new")


# ---- Paths.


def what_is_no_file(folder):
    path = os.path.join(folder, "no file")
    os.mkfifo(path + " fifo")
    with contextlib.closing(socket.socket(socket.AF_UNIX)) as listener:
        listener.bind(path + " socket")
    os.symlink("loop", os.path.join(folder, "loop"))
    os.symlink("nowhere", path + " link")
    plain = written(path + " plain")
    for name in (folder, ".", "/", "/dev/null", "/dev/zero", path + " fifo", path + " socket"):
        assert status_of(FileCache, name) == NO_FILE, name
    absent = os.path.join(folder, "absent", "file")
    for name in ("", absent, plain + "/file", plain + "/", os.path.join(folder, "loop"), path + " link", path + "n" * 300, "n" * 5000):
        assert status_of(FileCache, name) == NO_ACCESS, name
    assert not os.path.exists(path + " nowhere") and not os.path.exists(".dilluvas-new")
    assert is_raised(ValueError, FileCache, "nul\0byte") and is_raised(TypeError, FileCache, 7)
    assert is_whole(plain)


def rights(folder):
    path = written(os.path.join(folder, "rights"))
    os.chmod(path, 0o444)
    assert status_elsewhere(lambda: FileCache(path)) == NO_ACCESS
    os.chmod(path, 0o666)
    assert status_elsewhere(lambda: FileCache(path)) == OK
    open(path + " empty", "wb").close()
    os.chmod(path + " empty", 0o666)
    for name in (path + " absent", path + " empty"):
        assert status_elsewhere(lambda name=name: FileCache(name)) == NO_ACCESS
    # a folder in which files can be made and found, but not listed
    os.mkdir(path + " folder")
    os.chmod(path + " folder", 0o333)
    unlisted = os.path.join(path + " folder", "file")
    if os.geteuid() == 0:
        assert status_elsewhere(lambda: FileCache(unlisted)) == NO_ACCESS and not os.path.exists(unlisted)
        os.chmod(written(unlisted), 0o666)
        assert status_elsewhere(lambda: FileCache(unlisted)) == OK
    os.chmod(path + " folder", 0o755)


def what_is_made(folder):
    """An empty file keeps its mode, its owner and the links to it by their names, and no other file is written."""
    path = os.path.join(folder, "made")
    open(path, "wb").close()
    os.chmod(path, 0o600)
    os.symlink("made", path + " link")
    if os.geteuid() == 0:
        os.chown(path, 65534, 65534)
    before = os.stat(path)
    FileCache(path + " link").close()
    after = os.stat(path)
    assert (before.st_mode, before.st_uid, before.st_gid) == (after.st_mode, after.st_uid, after.st_gid) and after.st_size > 0
    assert os.path.islink(path + " link")
    with open(path + " other", "wb") as other:
        other.write(b"another's")
    os.symlink("made other", path + " new.dilluvas-new")
    assert status_of(FileCache, path + " new") == NO_ACCESS
    assert pathlib.Path(path + " other").read_bytes() == b"another's"
    os.unlink(path + " new.dilluvas-new")
    pathlib.Path(path + " new.dilluvas-new").write_bytes(b"left by one that was killed" * 100)
    FileCache(path + " new").close()
    os.mkdir(path + " newest.dilluvas-new")
    assert status_of(FileCache, path + " newest") == NO_FILE


# ---- Numbers and bytes.


def settings(folder):
    path = os.path.join(folder, "settings")
    for _ in range(2):
        for wrong, status in (({"capacity": 255}, 102), ({"capacity": 0}, 102), ({"interval": 0}, 103), ({"segment_size": 0}, 104)):
            assert status_of(FileCache, path, **wrong) == status, wrong
        assert not os.path.exists(path + ".dilluvas-new")
        for wrong in ({"capacity": -1}, {"interval": 2**64}, {"segment_size": 2**64 + 1}):
            assert is_raised(OverflowError, FileCache, path, **wrong)
        FileCache(path, capacity=2**64 - 1, interval=2**63, segment_size=2**64 - 1).close()
    with FileCache(path, interval=2**63) as cache:
        assert status_of(cache.generate_id) == IDS_USED_UP and status_of(cache.generate_id) == IDS_USED_UP
        cache.pin()
        assert status_of(cache.pin) == status_of(cache.flush) == BATCH_OPEN


def numbers(folder):
    with FileCache(os.path.join(folder, "numbers")) as cache:
        page, stamp = cache.allocate()
        for wrong in (-1, 2**64, 2**64 + page):
            for call in (
                lambda: cache.get(wrong), lambda: cache.value(wrong, b""), lambda: cache.set(wrong, stamp, b"", b""),
                lambda: cache.set(page, 2**64 + stamp, b"", b""), lambda: cache.delete(wrong, stamp, b""),
                lambda: cache.free(wrong, stamp), lambda: cache.cas_root(b"", wrong, None), lambda: cache.cas_root(b"", None, wrong),
            ):  # fmt: skip
                assert is_raised(OverflowError, call)
        for wrong in (None, "text", 1.5):
            assert is_raised(TypeError, cache.get, wrong)
            assert is_raised((TypeError, ctypes.ArgumentError), cache.set, page, stamp, wrong, b"")
        assert cache.get(page) == (stamp, False, [])
        assert cache.set(page, stamp, b"", b"") == 2 and cache.value(page, b"") == b""


def short_buffers(folder):
    room, found, needed = ctypes.create_string_buffer(b"\7" * 8, 8), Found(), ctypes.c_size_t()
    with FileCache(os.path.join(folder, "short")) as cache:
        page, _ = cache.allocate([(b"key", b"value")])
        for size in range(8):
            assert cache._ask("get", page, ctypes.byref(found), room, size) == SHORT and found.needed == 16
        stamp = ctypes.c_uint64()
        for size in range(5):
            assert cache._ask("value", page, b"key", 3, ctypes.byref(stamp), room, size, ctypes.byref(needed)) == SHORT
            assert needed.value == 5 and stamp.value == 1 and room.raw == b"\7" * 8
        assert cache._ask("value", page, b"key", 3, ctypes.byref(stamp), room, 5, ctypes.byref(needed)) == OK
        assert room.raw == b"value\7\7\7"
        # more of the file than was asked for, and what was never asked for
        assert cache._ask("hand_in", 2**64 - 1, b"bytes", 5) == cache._ask("hand_in", 0, b"", 0) == OK
        assert all(status_of(getattr(cache, name), own, *more) == RESERVED_ID for own in (0, 1, 2**64 - 667) for name, *more in (
            ("get",), ("value", b""), ("set", 0, b"", b""), ("delete", 0, b""), ("replace", 0, []), ("free", 0)))  # fmt: skip
    assert text_of(2**32 - 1) == text_of(77)


# ---- The system refuses.


def a_full_disk(folder):
    path = os.path.join(folder, "full")
    before, limit = resource.getrlimit(resource.RLIMIT_FSIZE), 20000
    resource.setrlimit(resource.RLIMIT_FSIZE, (limit, before[1]))
    try:
        with FileCache(path) as cache:
            page, _ = cache.allocate([(b"kept", b"")])
            cache.flush()
            cache.allocate([(b"key", b"v" * limit)])
            assert status_of(cache.flush) == WRITE
            assert all(status_of(getattr(cache, name), *arguments) == WRITE for name, arguments in CALLS.items())
    finally:
        resource.setrlimit(resource.RLIMIT_FSIZE, before)
    with FileCache(path) as cache:
        assert cache.get(page).pairs == [(b"kept", b"")] and cache.get(page + 1) is None


def no_memory(folder):
    """A call that wants more memory than there is changes nothing."""
    if sys.platform != "linux":
        return
    value = b"v" * (1 << 26)
    with FileCache(os.path.join(folder, "memory"), segment_size=1 << 30) as cache:
        page, stamp = cache.allocate([(b"k", value)])
        pages = int(pathlib.Path("/proc/self/statm").read_text().split()[0])
        before = resource.getrlimit(resource.RLIMIT_AS)
        resource.setrlimit(resource.RLIMIT_AS, (pages * resource.getpagesize() + (1 << 22), before[1]))
        try:
            refused = status_of(cache.set, page, stamp, b"k", value)
        finally:
            resource.setrlimit(resource.RLIMIT_AS, before)
        assert refused == MEMORY
        assert cache.set(page, stamp, b"k", value[1:]) == 2 and cache.value(page, b"k") == value[1:]


def a_file_that_shrinks(folder):
    path = written(os.path.join(folder, "shrinks"))
    size = os.path.getsize(path)
    with FileCache(path) as cache:
        os.truncate(path, 200)
        assert status_of(cache.get, 2) == READ
        os.truncate(path, size)
        assert status_of(cache.get, 2) == OK


class Odd(System):
    """One that writes nothing, or is interrupted, or can't read on."""

    def __init__(self, way):
        super().__init__(None)
        self.way = way

    def pwrite(self, descriptor, data, at):
        if self.way == "interrupted":
            raise KeyboardInterrupt
        return 0 if self.way == "nothing" else os.pwrite(descriptor, data, at)

    def pread(self, descriptor, count, at):
        if self.way != "bad block":
            return os.pread(descriptor, count, at)
        if at >= 61 + 60:
            raise OSError(errno.EIO, "a bad block")
        return os.pread(descriptor, min(count, 61 + 60 - at), at)

    def fdatasync(self, descriptor):
        pass

    def fsync(self, folder):
        pass


def odd_systems(folder):
    path = os.path.join(folder, "odd")
    with FileCache(path) as cache:
        page, stamp = cache.allocate([(b"k", b"v")])
        cache.flush()
        cache.set(page, stamp, b"k", b"w")
        with Odd("nothing"):
            assert status_of(cache.flush) == WRITE
    with FileCache(path) as cache:
        cache.set(page, 0, b"k", b"w")
        with Odd("interrupted"):
            assert is_raised(KeyboardInterrupt, cache.flush)
        # what was interrupted may not be written, so it isn't told as durable
        assert status_of(cache.flush) == WRITE
    with FileCache(path) as cache:
        assert cache.value(page, b"k") == b"v"
        cache.allocate([(b"k", b"v" * 3000)])
        cache.flush()
    with FileCache(path) as cache:
        with Odd("bad block"):
            assert cache.value(page, b"k") == b"v"
            assert status_of(cache.get, page + 1) == READ
        assert cache.value(page + 1, b"k") == b"v" * 3000


TESTS = (
    closed_handles, opened_twice, many_processes, what_is_no_file, rights, what_is_made, settings, numbers, short_buffers, a_full_disk,
    no_memory, a_file_that_shrinks, odd_systems,
)  # fmt: skip


def run(folder):
    os.chmod(folder, 0o755)
    signal.signal(signal.SIGXFSZ, signal.SIG_IGN)
    for test in TESTS:
        test(folder)
