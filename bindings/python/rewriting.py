"""Files that are rewritten, and that the system refuses to: links and other names, full disks, want of memory, and folders that changed."""

import os
import pathlib
import resource
import sys

from dilluvas import HELD, NO_ACCESS, NO_FILE, READ, WRITE, FileCache
from inputs import Odd, is_raised, is_whole, status_elsewhere, status_of, written
from machine import BATCH_OPEN, MEMORY


def rewritten(folder):
    """A link stays, and another name leads to the old file."""
    path = written(os.path.join(folder, "rewritten"))
    os.link(path, path + " hard")
    os.symlink("rewritten", path + " soft")
    os.chmod(path, 0o666)
    size = os.path.getsize(path)
    with FileCache(path + " soft") as cache:
        here = os.getcwd()
        os.chdir("/")
        cache.compact()
        os.chdir(here)
        assert os.path.islink(path + " soft") and os.path.getsize(path) < size == os.path.getsize(path + " hard")
        assert status_of(FileCache, path) == status_elsewhere(lambda: FileCache(path)) == HELD
        assert is_whole(path + " hard")
        assert cache.set(2, 0, b"key", b"value" * 20000) == 1
        cache.flush()
    assert is_whole(path) and not os.path.exists(path + ".dilluvas-new")


def not_rewritten(folder):
    """Where the system refuses, the file and the cache are as they were."""
    path = written(os.path.join(folder, "not rewritten"))
    content = pathlib.Path(path).read_bytes()
    with FileCache(path, segment_size=1 << 20) as cache:
        page, _ = cache.allocate([(b"key", b"pending")])

        def is_refused(wanted):
            assert status_of(cache.compact) == wanted
            assert not os.path.exists(path + ".dilluvas-new") and pathlib.Path(path).read_bytes()[:len(content)] == content
            assert cache.get(page).pairs == [(b"key", b"pending")]

        cache.pin()
        is_refused(BATCH_OPEN)
        cache.cancel()
        before = resource.getrlimit(resource.RLIMIT_FSIZE)
        resource.setrlimit(resource.RLIMIT_FSIZE, (20000, before[1]))
        try:
            is_refused(WRITE)
        finally:
            resource.setrlimit(resource.RLIMIT_FSIZE, before)
        with Odd("interrupted"):
            assert is_raised(KeyboardInterrupt, cache.compact)
        moved = os.path.join(folder, "not rewritten moved")
        os.rename(path, moved)
        assert status_of(cache.compact) == NO_ACCESS and not os.path.exists(path + ".dilluvas-new")
        os.rename(moved, path)
        os.mkdir(path + ".dilluvas-new")
        assert status_of(cache.compact) == NO_FILE
        os.rmdir(path + ".dilluvas-new")
        os.truncate(path, 200)
        assert status_of(cache.compact) == READ
        pathlib.Path(path).write_bytes(content)
        assert cache.flush() > 0
        cache.compact()
        assert cache.get(page) == (0, False, [(b"key", b"pending")])
    assert is_whole(path)


def no_memory_to_rewrite(folder):
    if sys.platform != "linux":
        return
    value = b"v" * (1 << 26)
    with FileCache(os.path.join(folder, "memory to rewrite"), capacity=1 << 30, segment_size=1 << 30) as cache:
        page, _ = cache.allocate([(b"k", value)])
        pages = int(pathlib.Path("/proc/self/statm").read_text().split()[0])
        before = resource.getrlimit(resource.RLIMIT_AS)
        resource.setrlimit(resource.RLIMIT_AS, (pages * resource.getpagesize() + (1 << 22), before[1]))
        try:
            refused = status_of(cache.compact)
        finally:
            resource.setrlimit(resource.RLIMIT_AS, before)
        assert refused == MEMORY
        cache.compact()
        assert cache.value(page, b"k") == value


def run(folder):
    for test in (rewritten, not_rewritten, no_memory_to_rewrite):
        test(folder)
