"""Two programs at one path: the second runs in front of each call to the system that the first makes, and may be killed at each of its own.

    races.py [all]

What either of them was told to be durable is there in the end, and what was left is in nobody's way. Without the word the second one is
killed in a part of the cases.
"""

import contextlib
import fcntl
import functools
import io
import os
import pathlib
import shutil
import sys
import tempfile

from dilluvas import HELD, FileCache, Refused, _file, _paths

# The calls in front of which another program may run, and those at which one may be killed: what they change outlives it.
CALLS = {"FileIO", "lstat", "stat", "link", "unlink", "rename", "fsync", "flock"}
LASTING = {"FileIO", "open", "link", "unlink", "rename", "ftruncate", "fdatasync", "pwrite"}


class Killed(BaseException):
    """The program is no more: it changes nothing from here on, and the system closes its files."""


class Program:
    """Stands in for os, fcntl and io. In front of the call with this number `act` is called, and with `dies` the program is killed there."""

    def __init__(self, at=0, act=None, dies=False):
        self._at, self._act, self._dies = at, act, dies
        self.calls = 0
        self._is_dead = False

    def __enter__(self):
        self._before = _paths.os, _paths.fcntl, _paths.io
        self._set(*map(self._standing_in, (os, fcntl, io)))

    def __exit__(self, *_):
        self._set(*self._before)

    def _set(self, system, locks, files):
        _paths.os = _file.os = system
        _paths.fcntl, _paths.io = locks, files

    def _standing_in(self, module):
        program = self

        class Standing:
            def __getattr__(self, name):
                found = getattr(module, name)
                return program._wrapped(name, found) if name in CALLS | LASTING else found

        return Standing()

    def _wrapped(self, name, call):
        def wrapped(*arguments, **more):
            self._come_to(name)
            return call(*arguments, **more)

        return wrapped

    def _come_to(self, name):
        # what closing gives back is room behind the end, which changes no file
        if self._is_dead and name in LASTING - {"ftruncate"}:
            raise Killed
        if name not in (LASTING if self._dies else CALLS):
            return
        self.calls += 1
        if self.calls != self._at:
            return
        if self._dies:
            self._is_dead = True
            raise Killed
        self._act()


# ---- What the programs do. Each answers the values that it was told to be durable.


def add(path, value):
    """Puts a page over the file, and makes it durable."""
    with FileCache(path, capacity=4096) as cache:
        cache.allocate([(b"by", value)])
        cache.flush()
    return [value]


def add_and_compact(path, value):
    with FileCache(path, capacity=4096) as cache:
        cache.allocate([(b"by", value)])
        cache.compact()
    return [value]


def make_in_place(path, value):
    """Makes the file where it is to stand, as `sledpc` does: it is locked before it is written."""
    system, told = _paths.os, []
    with contextlib.suppress(BlockingIOError, FileNotFoundError), locked(path) as descriptor:
        if system.fstat(descriptor).st_size == 0:
            system.pwrite(descriptor, content_of(value), 0)
            told.append(value)
    return told


def make_beside(path, value):
    """Makes it by the other name, as another program may: what was left there is written over, where the path doesn't lead to it."""
    system, told, other = _paths.os, [], path + ".dilluvas-new"
    if os.path.exists(path):
        return []
    with contextlib.suppress(BlockingIOError, FileNotFoundError, FileExistsError), locked(other) as descriptor:
        if os.path.exists(path) or system.fstat(descriptor).st_nlink > 1:
            system.unlink(other)
            return []
        system.ftruncate(descriptor, 0)
        system.pwrite(descriptor, content_of(value), 0)
        system.link(other, path)
        told.append(value)
        system.unlink(other)
    return told


@contextlib.contextmanager
def locked(path):
    """A file that is locked, and that the path still leads to."""
    system = _paths.os
    descriptor = system.open(path, os.O_RDWR | os.O_CREAT, 0o666)
    try:
        _paths.fcntl.flock(descriptor, fcntl.LOCK_EX | fcntl.LOCK_NB)
        if not os.path.samestat(system.fstat(descriptor), system.stat(path)):
            raise FileNotFoundError
        yield descriptor
    finally:
        os.close(descriptor)


@functools.cache
def content_of(value):
    with tempfile.TemporaryDirectory() as folder:
        path = os.path.join(folder, "made")
        add(path, value)
        return pathlib.Path(path).read_bytes()


def told_by(program, path, value):
    """What a program was told, which may be refused the file while another has it."""
    try:
        return program(path, value)
    except Refused as refused:
        assert refused.status == HELD, refused.status
    except Killed:
        pass
    return []


def values_in(path):
    if not os.path.exists(path):
        return set()
    with FileCache(path) as cache:
        pages, page = set(), 2
        while (found := cache.get(page)) is not None:
            pages.add(found.pairs[0][1])
            page += 1
        return pages


# ---- What stands at the path before, and the values that are durable by then.


def nothing(path):
    return []


def an_empty_file(path):
    open(path, "wb").close()
    return []


def a_file(path):
    return add(path, b"old")


def a_file_of_two_names(path):
    """As one leaves it that is killed once the new file has its name."""
    told = add(path, b"old")
    os.link(path, path + ".dilluvas-new")
    return told


def a_file_that_was_moved(path):
    """The same, and the file was given another name since."""
    told = a_file_of_two_names(path)
    os.rename(path, path + " moved")
    return told


def a_part(path):
    with open(path + ".dilluvas-new", "wb") as left:
        left.write(b"SLPCLOG1" * 10)
    return []


BEFORE = nothing, an_empty_file, a_file, a_file_of_two_names, a_file_that_was_moved, a_part
FIRST = add, add_and_compact
SECOND = add, add_and_compact, make_in_place, make_beside


class Case:
    """Two programs over what stands at a path."""

    def __init__(self, folder, before, first, second):
        self.folder, self.before, self.first, self.second = folder, before, first, second

    def run(self, at, dies_at):
        """The second one runs in front of a call of the first, and is killed in front of one of its own, if that isn't 0. Answers whether
        both come to these calls."""
        shutil.rmtree(self.folder, ignore_errors=True)
        os.mkdir(self.folder)
        path = os.path.join(self.folder, "pages")
        told = self.before(path)
        other = Program(dies_at, dies=True)
        calls = []

        def run_other():
            with other:
                told.extend(told_by(self.second, path, b"second"))
            calls.append(other.calls)

        one = Program(at, run_other)
        with one:
            told.extend(told_by(self.first, path, b"first"))
        self._check(path, told, at, dies_at)
        return one.calls >= at and other.calls >= dies_at

    def _check(self, path, told, at, dies_at):
        names = [part.__name__ for part in (self.before, self.first, self.second)]
        found = values_in(path) | values_in(path + " moved")
        assert found >= set(told), (names, at, dies_at, told, found)
        # what was left is in nobody's way
        assert add_and_compact(path, b"last") == [b"last"] and b"last" in values_in(path), (names, at, dies_at)
        assert not os.path.exists(path + ".dilluvas-new")


def run(folder, part):
    """Answers how many cases there are. Of those in which the second program is killed each is made whose number this part divides."""
    count = 0
    for before in BEFORE:
        for first in FIRST:
            for second in SECOND:
                case, at = Case(folder, before, first, second), 1
                while case.run(at, 0):
                    dies_at = 1 + at % part
                    while case.run(at, dies_at):
                        dies_at += part
                        count += 1
                    at += 1
                    count += 1
    return count


if __name__ == "__main__":
    place = "/dev/shm" if os.path.isdir("/dev/shm") else None
    with tempfile.TemporaryDirectory(dir=place) as outside:
        print("races:", run(os.path.join(outside, "folder"), 1 if sys.argv[1:] == ["all"] else 20), "cases")
