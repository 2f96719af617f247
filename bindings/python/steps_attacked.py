"""Files that are rewritten in steps while others change what is beside them, and processes that are killed. maps_space.py runs this."""

import errno
import fcntl
import os
import pathlib
import random
import shutil
import subprocess
import sys

import dilluvas
from dilluvas import CORRUPTION, HELD, NO_ACCESS, OK, READ, WRITE, _steps
from inputs import answer_in, in_child, status_of
from paths import Instead
from steps import DEFAULT, HERE, KEYS, VALUE, at, begun, failing, fill, is_filled, names_beside, other, until_ended


# ---- What others do.


def goes_on(db, path, number, status, cause=None):
    """A rewriting ends without the file in its place, for this reason, and the db goes on."""
    inode = os.stat(path).st_ino
    until_ended(db)
    assert os.stat(path).st_ino == inode and is_filled(db, number) and failing(db) == (status, cause)
    # it isn't begun anew before the file has grown by half
    for _ in range(3):
        db["n"][b"k"] = b"v"
        db.flush()
        assert not db._cache.is_rewriting and failing(db) == (status, cause)
    # one that failed is tried again, and this one comes to its end
    for later in range(number + 1, number + 9):
        fill(db, later)
        db.flush()
    until_ended(db)
    assert os.stat(path).st_ino != inode and is_filled(db, later) and db.size_on_disk() < 8 * KEYS * VALUE
    assert db.rewriting_failure is None
    db.close()
    assert "maps.dilluvas-new" not in names_beside(path)
    with dilluvas.open(path) as db:
        assert is_filled(db, later)


def new_file_is_deleted(path):
    db = begun(path)
    os.unlink(other(path))
    goes_on(db, path, 3, NO_ACCESS)


def new_file_is_replaced(path):
    """The file of another program is neither put in place nor removed, as long as that has locked it."""
    db = begun(path)
    os.unlink(other(path))
    pathlib.Path(other(path)).write_bytes(b"another's")
    with open(other(path), "rb") as held:
        fcntl.flock(held, fcntl.LOCK_EX)
        inode = os.stat(path).st_ino
        until_ended(db)
        for number in range(4, 8):
            fill(db, number)
            db.flush()
            until_ended(db)
        assert os.stat(path).st_ino == inode and is_filled(db, 7)
        assert pathlib.Path(other(path)).read_bytes() == b"another's"
    goes_on(db, path, 7, HELD)


def new_file_has_other_pages(path):
    """What isn't what the old file has isn't put in place: no log, another one, and one with a part of the pages."""
    with dilluvas.open(path) as db:
        fill(db, 3, range(KEYS - 1))
    part = pathlib.Path(path).read_bytes()
    os.unlink(path)
    function = _steps._function
    for content in (b"", b"no log", part[: len(part) // 2], part):

        def then_replaced(name):
            def step(memory, old, new, *more):
                status, size = function(name)(memory, old, new, *more), os.fstat(new).st_size
                os.ftruncate(new, 0)
                os.pwrite(new, content, 0)
                os.ftruncate(new, max(size, len(content)))
                return status

            return step if name == "step" else function(name)

        with dilluvas.open(path, compact_at=None) as db:
            for number in range(4):
                fill(db, number)
                db.flush()
            # one step is enough
            db.compact_at, inode = at(1 << 30), os.stat(path).st_ino
            _steps._function = then_replaced
            try:
                db.flush()
            finally:
                _steps._function = function
            assert not db._cache.is_rewriting and os.stat(path).st_ino == inode and is_filled(db, 3) and names_beside(path) == ["maps"]
            assert failing(db) == (CORRUPTION, None)
            db.compact_at = at(1 << 30)
            db.flush()
            assert not db._cache.is_rewriting and os.stat(path).st_ino != inode and is_filled(db, 3) and db.rewriting_failure is None
        os.unlink(path)


def new_file_cannot_be_written_or_synced(path):
    """An error of the system ends the rewriting, and not the flush."""

    def fail(*_):
        raise OSError(errno.EIO, "it fails")

    def fail_of_new(call):
        def wrapped(descriptor):
            if new.number == descriptor:
                fail()
            return call(descriptor)

        return wrapped

    for functions, status in (
        ({"fdatasync": fail_of_new(os.fdatasync)}, WRITE), ({"rename": fail}, NO_ACCESS), ({"pread": fail}, READ), ({"ftruncate": fail}, WRITE),
    ):  # fmt: skip
        db = begun(path)
        new = db._cache._held.steps.new.file
        with Instead(**functions):
            inode = os.stat(path).st_ino
            until_ended(db)
            assert os.stat(path).st_ino == inode
        goes_on(db, path, 3, status, errno.EIO)
        os.unlink(path)


def order_of_the_last_calls(path):
    """The new file is cut to its length and synced before it has the path, and the folder is synced after that."""
    calls = []

    def noted(name):
        return lambda *arguments: (calls.append(name), getattr(os, name)(*arguments))[1]

    db = begun(path)
    with Instead(**{name: noted(name) for name in ("ftruncate", "fdatasync", "rename", "fsync")}):
        until_ended(db)
    renamed = calls.index("rename")
    assert calls[renamed - 2 : renamed + 2] == ["ftruncate", "fdatasync", "rename", "fsync"], calls
    assert os.path.getsize(path) == db.size_on_disk()
    db.close()


def folder_cannot_be_synced(path):
    """Which file a crash leaves isn't known then, so all is refused, and either has all."""

    def fail(*_):
        raise OSError(errno.EIO, "it fails")

    db = begun(path)
    with Instead(fsync=fail):
        inode = os.stat(path).st_ino
        while os.stat(path).st_ino == inode:
            db.flush()
    assert status_of(db.flush) == status_of(db.maps) == WRITE and names_beside(path) == ["maps"] and failing(db) == (WRITE, errno.EIO)
    db.close()
    with dilluvas.open(path) as db:
        assert is_filled(db, 3) and db.rewriting_failure is None


def path_is_renamed(path):
    db = begun(path)
    os.rename(path, path + " moved")
    until_ended(db)
    assert names_beside(path) == ["maps moved"] and is_filled(db, 3)
    db["n"][b"k"] = b"pending"
    db.flush()
    shutil.copyfile(path + " moved", path + " copy")
    with dilluvas.open(path + " copy") as copy:
        assert is_filled(copy, 3) and copy["n"] == {b"k": b"pending"}
    os.unlink(path + " copy")
    os.rename(path + " moved", path)
    goes_on(db, path, 3, NO_ACCESS)


def path_is_anothers(path):
    """Another file that came to the path stays there."""
    db = begun(path)
    os.rename(path, path + " moved")
    pathlib.Path(path).write_bytes(b"another's")
    until_ended(db)
    assert names_beside(path) == ["maps", "maps moved"] and pathlib.Path(path).read_bytes() == b"another's"
    os.rename(path + " moved", path)
    goes_on(db, path, 3, NO_ACCESS)


# ---- What a process leaves that is killed.


def killed_at(path, name, number, is_after):
    """A process that is killed at the call of a function of the system as its rewriting comes to the end. Answers whether it was."""
    count = 0

    def die(*arguments):
        nonlocal count
        count += 1
        if count < number:
            return getattr(os, name)(*arguments)
        if is_after:
            getattr(os, name)(*arguments)
        os.kill(os.getpid(), 9)

    def flush():
        db = begun(path)
        with Instead(**{name: die}):
            until_ended(db)
        return OK

    return answer_in(in_child(flush)) == -9


def killed_at_the_end(path):
    """Either file is there then, with the same pairs."""
    old = new = 0
    for name in ("fdatasync", "fsync", "rename"):
        for is_after in (False, True):
            assert killed_at(path, name, 1, is_after)
            assert names_beside(path) in (["maps"], ["maps", "maps.dilluvas-new"])
            is_old = "maps.dilluvas-new" in names_beside(path)
            old, new = old + is_old, new + (not is_old)
            with dilluvas.open(path) as db:
                assert is_filled(db, 3) and names_beside(path) == ["maps"]
            os.unlink(path)
    assert old >= 3 and new >= 2 and not killed_at(path, "rename", 2, True)


KILLED = """
import sys
import dilluvas, steps
with dilluvas.open(sys.argv[1], compact_at=steps.at(int(sys.argv[3])), segment_size=500) as db:
    for number in range(int(sys.argv[2]), 10**9):
        with db.batch():
            for name in "one", "two":
                db[name][b"%d" % (number % 10)] = b"%d " % number * 500
            db["count"][b"k"] = b"%d" % number
        db.flush()
        print(number, flush=True)
        for _ in range(number % 7 * 10):
            db.flush()
"""


def killed_between(path):
    number, choose, left = 0, random.Random(1), 0
    for turn in range(32):
        with subprocess.Popen(
            (sys.executable, "-c", KILLED, path, str(number), str((1, 1000, 100000, DEFAULT)[turn % 4])),
            stdout=subprocess.PIPE, env={**os.environ, "PYTHONPATH": HERE}, text=True,
        ) as program:  # fmt: skip
            lines = [program.stdout.readline() for _ in range(choose.randrange(1, 120))]
            program.kill()
            lines += program.stdout.readlines()
        last = int([line for line in lines if line.endswith("\n")][-1])
        left += os.path.exists(other(path))
        with dilluvas.open(path, compact_at=None) as db:
            assert names_beside(path) == ["maps"]
            count = int(db["count"][b"k"])
            assert count in (last, last + 1)
            for name in "one", "two":
                assert dict(db[name]) == {b"%d" % (n % 10): b"%d " % n * 500 for n in range(max(0, count - 9), count + 1)}
        number = count + 1
    assert left > 0


def what_was_left(path):
    """An opening removes a file by the other name, unless it is locked, is no file, or leads to one."""
    with dilluvas.open(path) as db:
        fill(db, 0)

    def opens():
        with dilluvas.open(path) as db:
            assert is_filled(db, 0)
        return "maps.dilluvas-new" not in names_beside(path)

    for content in (b"", b"left", pathlib.Path(path).read_bytes()):
        pathlib.Path(other(path)).write_bytes(content)
        assert opens()
    # a second name of the file itself, as of one that was killed as it made the file
    os.link(path, other(path))
    assert opens() and os.stat(path).st_nlink == 1
    with open(other(path), "wb") as held:
        fcntl.flock(held, fcntl.LOCK_EX)
        assert not opens()
    assert opens()
    with dilluvas.open(other(path)):
        assert not opens()
    assert opens()
    os.mkdir(other(path))
    assert not opens()
    os.rmdir(other(path))
    pathlib.Path(path + " third").write_bytes(b"another's")
    os.symlink(path + " third", other(path))
    assert not opens() and pathlib.Path(path + " third").read_bytes() == b"another's"
    os.unlink(other(path))
    os.mkfifo(other(path))
    assert not opens()


TESTS = (
    new_file_is_deleted, new_file_is_replaced, new_file_has_other_pages, new_file_cannot_be_written_or_synced, order_of_the_last_calls,
    folder_cannot_be_synced, path_is_renamed, path_is_anothers, killed_at_the_end, killed_between, what_was_left,
)  # fmt: skip
