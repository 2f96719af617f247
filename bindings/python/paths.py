"""What stands at the path of a cache, and beside it: what another program made meanwhile, what a killed one left, and what is no file."""

import errno
import io
import os
import pathlib
import shutil
import tempfile

from dilluvas import HELD, NO_ACCESS, NO_FILE, OK, READ, WRITE, FileCache, _file, _paths
from inputs import is_whole, status_of, written
from machine import CORRUPTION

# What systems say that have no hard links.
NO_LINKS = errno.EPERM, errno.EOPNOTSUPP, errno.ENOTSUP, errno.ENOSYS, errno.EMLINK

PLACE = "/dev/shm" if os.path.isdir("/dev/shm") else None


class Instead:
    """Stands in for os and io, with other functions in place of some."""

    def __init__(self, **functions):
        self._functions = functions

    def __getattr__(self, name):
        return self._functions.get(name) or getattr(io if name == "FileIO" else os, name)

    def __enter__(self):
        _file.os = _paths.os = _paths.io = self

    def __exit__(self, *_):
        _file.os = _paths.os = os
        _paths.io = io


def raising(number):
    def call(*_, **__):
        raise OSError(number, os.strerror(number))

    return call


def before(name, act):
    """A function of os, in front of which something happens once."""
    acts = [act]

    def call(*arguments, **more):
        if acts:
            acts.pop()()
        return getattr(os, name)(*arguments, **more)

    return {name: call}


def nothing_beside(path):
    return not os.path.lexists(path + ".dilluvas-new")


# ---- What another program made.


def a_file_that_came(folder):
    """A file that came while another was made isn't replaced by that, whether it is open still or not."""
    whole = written(os.path.join(folder, "whole"))
    path = os.path.join(folder, "came")
    held = []

    def come():
        shutil.copyfile(whole, path)
        held.append(FileCache(path))

    for call in ("fdatasync", "link"):
        with Instead(**before(call, come)):
            assert status_of(FileCache, path) == HELD
        assert nothing_beside(path)
        held.pop().close()
        assert is_whole(path)
        os.unlink(path)
        with Instead(**before(call, lambda: shutil.copyfile(whole, path))):
            assert is_whole(path)
        assert nothing_beside(path)
        os.unlink(path)


def an_empty_file_that_changed(folder):
    """The same of an empty file, which another program put bytes in, or moved away."""
    path = os.path.join(folder, "changed")

    def put_bytes():
        pathlib.Path(path).write_bytes(b"another's bytes")

    def put_another():
        os.unlink(path)
        pathlib.Path(path).write_bytes(b"another's file")

    for change in (put_bytes, put_another):
        pathlib.Path(path).write_bytes(b"")
        with Instead(**before("fdatasync", change)):
            assert status_of(FileCache, path) == CORRUPTION
        assert pathlib.Path(path).read_bytes().startswith(b"another's") and nothing_beside(path)

    pathlib.Path(path).write_bytes(b"")
    with Instead(**before("fdatasync", lambda: os.unlink(path))):
        assert status_of(FileCache, path) == OK
    assert is_whole(written(path + " too")) and nothing_beside(path)


def names_of_others(folder):
    """Nothing is done with the other name once another has it, or with what another put there."""
    whole = written(os.path.join(folder, "whole"))
    path = os.path.join(folder, "others")
    other = path + ".dilluvas-new"

    # another takes the file for one that was left, before it is locked, and is killed behind its link
    def fstat(descriptor):
        if os.path.exists(other) and not os.path.exists(path + " of another"):
            shutil.copyfile(whole, other)
            os.link(other, path + " of another")
        return os.fstat(descriptor)

    with FileCache(path) as cache:
        with Instead(fstat=fstat):
            cache.compact()
        assert is_whole(path + " of another")
        with Instead(**before("fsync", lambda: shutil.copyfile(whole, other))):
            cache.compact()
    assert is_whole(other)
    os.unlink(other)


def no_end(folder):
    """A file that comes and goes for ever is given up at some time."""
    path = os.path.join(folder, "comes and goes")

    def come(old, new):
        raise FileExistsError

    with Instead(link=come):
        assert status_of(FileCache, path) == NO_ACCESS
    assert not os.path.exists(path) and nothing_beside(path)


# ---- What a killed one left.


def second_names(folder):
    """The other name may be one of a file with pages: no byte of that is lost."""
    path = written(os.path.join(folder, "two names"))
    os.link(path, path + ".dilluvas-new")
    assert is_whole(path)
    with FileCache(path) as cache:
        cache.compact()
    assert is_whole(path) and nothing_beside(path)

    os.link(path, path + ".dilluvas-new")
    os.rename(path, path + " moved")
    with FileCache(path + " moved"):
        assert status_of(FileCache, path) == HELD
    assert status_of(FileCache, path) == OK and nothing_beside(path)
    assert is_whole(path + " moved")

    os.unlink(path)
    pathlib.Path(path).write_bytes(b"")
    os.link(path, path + ".dilluvas-new")
    assert status_of(FileCache, path) == OK and nothing_beside(path)


def what_is_left(folder):
    path = os.path.join(folder, "left")
    for make in (lambda: None, lambda: pathlib.Path(path).write_bytes(b"")):
        make()
        pathlib.Path(path + ".dilluvas-new").write_bytes(b"SLPCLOG1\1")
        assert status_of(FileCache, path) == OK and nothing_beside(path)
        os.unlink(path)


# ---- What the system has not, and refuses.


def no_links(folder):
    """Where no file can have two names, the file is made all the same, and another that came is not replaced."""
    whole = written(os.path.join(folder, "whole"))
    for number in NO_LINKS:
        path = os.path.join(folder, f"no links {number}")
        with Instead(link=raising(number)):
            assert is_whole(written(path)) and nothing_beside(path)
        path += " and another"
        with Instead(link=lambda _, new: shutil.copyfile(whole, new) and raising(number)()):
            assert is_whole(path) and nothing_beside(path)
    path = os.path.join(folder, "no link")
    with Instead(link=raising(errno.EACCES)):
        assert status_of(FileCache, path) == NO_ACCESS
    assert not os.path.exists(path) and nothing_beside(path)


def files_of_the_system(folder):
    """They tell that they have no bytes, and aren't taken for empty ones."""
    for path in ("/proc/self/oom_score_adj", "/proc/self/comm"):
        if os.path.exists(path):
            content = pathlib.Path(path).read_bytes()
            assert status_of(FileCache, path) == NO_FILE
            assert pathlib.Path(path).read_bytes() == content
    path = os.path.join(folder, "of the system")
    pathlib.Path(path).write_bytes(b"")
    for refusing, status in (
        ({"fsync": raising(errno.EINVAL)}, NO_FILE),
        ({"fsync": raising(errno.EIO)}, WRITE),
        ({"pread": lambda *_: b"1"}, NO_FILE),
        ({"pread": raising(errno.EIO)}, READ),
    ):
        with Instead(FileIO=only_at(path), **refusing):
            assert status_of(FileCache, path) == status
    assert os.path.getsize(path) == 0 and nothing_beside(path)


def only_at(wanted):
    """Opens one file, and is never asked for another."""

    def call(path, mode):
        assert path == wanted, path
        return io.FileIO(path, mode)

    return call


def folders(folder):
    """The name of a file is durable before the cache over it is used."""
    path = written(os.path.join(folder, "named"))
    with Instead(fsync=raising(errno.EIO)):
        assert status_of(FileCache, path) == WRITE
        assert status_of(FileCache, path + " new") == WRITE
    with Instead(fsync=raising(errno.EINVAL)):
        assert status_of(FileCache, path) == OK
    for number, status in ((errno.EACCES, OK), (errno.EMFILE, WRITE)):
        with Instead(open=raising(number)):
            assert status_of(FileCache, path) == status
    assert is_whole(path)


def a_rewriting_that_fails(folder):
    """No cache goes on over a file that its path doesn't lead to, or mightn't behind a crash. A server may do what it tells as failed."""
    path = written(os.path.join(folder, "renamed"))

    def rename(old, new):
        os.rename(old, new)
        raise OSError(errno.EIO, "it is done")

    with FileCache(path) as cache:
        with Instead(rename=raising(errno.EIO)):
            assert status_of(cache.compact) == NO_ACCESS and nothing_beside(path)
        assert cache.allocate() == (3, 1) and cache.flush() > 0
        with Instead(rename=rename):
            assert status_of(cache.compact) == NO_ACCESS
        assert status_of(cache.allocate) == status_of(cache.flush) == WRITE
    with FileCache(path) as cache:
        assert cache.get(3) is not None
        with Instead(fsync=raising(errno.EIO)):
            assert status_of(cache.compact) == WRITE
        assert status_of(cache.get, 3) == status_of(cache.compact) == WRITE
    assert is_whole(path) and nothing_beside(path)


TESTS = (
    a_file_that_came, an_empty_file_that_changed, names_of_others, no_end, second_names, what_is_left, no_links, files_of_the_system,
    folders, a_rewriting_that_fails,
)  # fmt: skip

if __name__ == "__main__":
    with tempfile.TemporaryDirectory(dir=PLACE) as made:
        for test in TESTS:
            test(made)
