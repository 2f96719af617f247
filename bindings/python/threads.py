"""Threads that share a cache over a file: each call has its turn, with all that it reads and writes, and what was flushed is there."""

import contextlib
import os
import random
import sys
import tempfile
import threading
import time

from dilluvas import Cache, FileCache, Stale, _file, _paths

# So many threads change so often a page each.
THREADS, CHANGES = 8, 60


class Alone:
    """Stands in for os. What writes, syncs or reads takes a while, and nothing of that may begin as long as it is under way."""

    def __init__(self):
        self._under_way = 0
        self.calls = self.at_once = 0

    def __getattr__(self, name):
        return getattr(os, name)

    def __enter__(self):
        _file.os = _paths.os = self
        return self

    def __exit__(self, *_):
        _file.os = _paths.os = os

    @contextlib.contextmanager
    def _alone(self):
        self.calls += 1
        self.at_once += self._under_way > 0
        self._under_way += 1
        time.sleep(0.0001)
        yield
        self._under_way -= 1

    def pread(self, descriptor, count, at):
        with self._alone():
            return os.pread(descriptor, count, at)

    def pwrite(self, descriptor, data, at):
        with self._alone():
            return os.pwrite(descriptor, data, at)

    def fdatasync(self, descriptor):
        with self._alone():
            os.fdatasync(descriptor)


class User(threading.Thread):
    """Changes a page of its own, which holds the number of the change, and flushes now and then."""

    def __init__(self, cache, seed):
        super().__init__()
        self._cache, self._random = cache, random.Random(seed)
        self.page, self._stamp = cache.allocate([(b"number", b"0")])
        self.number = self.durable = 0
        self.error = None

    def run(self):
        try:
            for _ in range(CHANGES):
                self._change()
                if self._random.randrange(4) == 0:
                    self._cache.flush()
                    self.durable = self.number
                if self._random.randrange(40) == 0:
                    self._cache.compact()
        except BaseException as error:
            self.error = error

    def _change(self):
        pairs = [(b"number", b"%d" % (self.number + 1)), (b"rest", b"r" * self._random.randrange(2000))]
        while True:
            try:
                self._stamp = self._cache.replace(self.page, self._stamp, pairs)
                break
            except Stale as stale:
                # a page has stamp 0 once the cache is rewritten
                self._stamp = stale.present
        self.number += 1
        assert self._cache.value(self.page, b"number") == b"%d" % self.number
        assert self._cache.get(self.page).pairs == pairs and self._cache.size() > 0


def use(cache):
    users = [User(cache, seed) for seed in range(THREADS)]
    for user in users:
        user.start()
    for user in users:
        user.join()
        if user.error is not None:
            raise user.error
    return users


def over_a_file(folder):
    path = os.path.join(folder, "pages")
    with Alone() as system, FileCache(path, capacity=256, segment_size=4096) as cache:
        users = use(cache)
    assert system.at_once == 0 < system.calls, (system.at_once, system.calls)
    with FileCache(path) as cache:
        for user in users:
            number = int(cache.value(user.page, b"number"))
            assert user.durable <= number <= user.number, (user.durable, number, user.number)


def in_memory(_):
    with Cache(capacity=256, segment_size=256) as cache:
        for user in use(cache):
            assert cache.value(user.page, b"number") == b"%d" % CHANGES


def within_a_call(folder):
    """A call within another one of its own thread is refused: of two writes the second would be made first."""
    path = os.path.join(folder, "within")
    told = []

    class Nested(Alone):
        def pwrite(self, descriptor, data, at):
            for call in (cache.flush, cache.compact, cache.close, cache.allocate):
                try:
                    call()
                except RuntimeError as error:
                    told.append(error)
            return os.pwrite(descriptor, data, at)

    with FileCache(path) as cache:
        page, _ = cache.allocate()
        with Nested():
            cache.flush()
        assert told and len(told) % 4 == 0
    with FileCache(path) as cache:
        assert cache.get(page) is not None and cache.get(page + 1) is None


sys.setswitchinterval(0.0001)
with tempfile.TemporaryDirectory() as made:
    for test in (over_a_file, in_memory, within_a_call):
        test(made)
