"""Files that flushes rewrite in steps: what a user sees in between, and how a rewriting begins and ends. maps_space.py runs this."""

import contextlib
import errno
import fcntl
import gc
import os
import random
import stat
import subprocess
import sys
import threading

import dilluvas
from dilluvas import HELD, OK, CompactAt, _steps
from inputs import answer_in, in_child, is_raised, status_of
from paths import Instead

HERE = os.path.dirname(os.path.abspath(__file__))
MOST, _LOG_FULL = (1 << 64) - 1, 111
DEFAULT = CompactAt().step
KEYS, VALUE = 600, 2000
SMALL = {"capacity": 4096, "segment_size": 4096}

# A step that takes one of the files of these tests some dozen flushes.
MIDDLE = 300000


def at(step, times=2):
    return CompactAt(times, 0, MOST, step)


def value_of(key, number):
    return b"%d:%d:" % (key, number) + b"v" * VALUE


def fill(db, number, keys=range(KEYS)):
    db["m"].update({b"%04d" % key: value_of(key, number) for key in keys})


def is_filled(db, number):
    return list(db["m"].items()) == [(b"%04d" % key, value_of(key, number)) for key in range(KEYS)]


def begun(path, step=1, written=100000, **settings):
    """A db whose file is being rewritten, of whose new file something is written."""
    db = dilluvas.open(path, compact_at=None, **settings)
    for number in range(4):
        fill(db, number)
        db.flush()
    db.compact_at = at(MIDDLE)
    while taken(other(path)) <= written:
        db.flush()
        assert db._cache.is_rewriting
    db.compact_at = at(step)
    return db


def until_ended(db):
    """Flushes until the rewriting has ended."""
    if db._cache.is_rewriting:
        # what sets the rule forgets when one that failed is tried again
        db.compact_at = db.compact_at._replace(step=MIDDLE)
    while db._cache.is_rewriting:
        db.flush()


def failing(db):
    """The status of the last rewriting that failed, and why the system refused it, or None."""
    failure = db.rewriting_failure
    if failure is None:
        return None
    # nothing of the call is kept alive
    assert failure.__traceback__ is None and type(failure.__cause__) in (type(None), OSError, PermissionError)
    return failure.status, getattr(failure.__cause__, "errno", None)


def other(path):
    return path + ".dilluvas-new"


def taken(path):
    """How many bytes of the disk a file takes: it may be longer."""
    return os.stat(path).st_blocks * 512 if os.path.exists(path) else 0


def names_beside(path):
    return sorted(os.listdir(os.path.dirname(path)))


# ---- What a user sees.


class Model:
    """Maps, and what they have to be."""

    def __init__(self, db, seed):
        self.db, self.choose, self.maps = db, random.Random(seed), {}

    def set(self):
        name, key = self.choose.choice((b"one", b"two", b"three")), b"%d" % self.choose.randrange(80)
        value = self.choose.randbytes(self.choose.choice((3, 300, 300, 5000)))
        self.db[name][key] = value
        self.maps.setdefault(name, {})[key] = value

    def pop(self):
        name, key = self.choose.choice((b"one", b"two", b"three")), b"%d" % self.choose.randrange(80)
        assert self.db[name].pop(key, None) == self.maps.get(name, {}).pop(key, None)

    def drop(self):
        if self.maps:
            name = self.choose.choice(sorted(self.maps))
            del self.db[name], self.maps[name]

    def change(self):
        for _ in range(self.choose.choice((0, 0, 1, 3, 20))):
            self.choose.choices((self.set, self.pop, self.drop), (100, 20, 1))[0]()

    def change_in_batch(self):
        with self.db.batch():
            self.change()

    def check(self):
        assert {name: dict(self.db[name]) for name in self.db} == self.maps


def content_after_each_flush(path):
    for step in (1, 1000, DEFAULT):
        replaced = stepped = 0
        settings = {"compact_at": CompactAt(2, 200000, MOST, step), **SMALL}
        model = Model(dilluvas.open(path, **settings), step)
        for turn in range(400):
            model.change_in_batch() if turn % 3 == 0 else model.change()
            inode = os.stat(path).st_ino
            model.db.flush()
            model.check()
            # a step is taken though nothing is pending
            for _ in range(model.choose.choice((0, 1, 200))):
                if not model.db._cache.is_rewriting:
                    break
                assert model.db.flush() == 0
                stepped += 1
            model.check()
            replaced += os.stat(path).st_ino != inode
            if turn % 97 == 0:
                model.db.close()
                assert names_beside(path) == ["maps"]
                model.db = dilluvas.open(path, **settings)
                model.check()
        model.db.close()
        os.unlink(path)
        assert replaced > 2 and (stepped > 500 or step == DEFAULT), (step, replaced, stepped)


def length_is_bounded(path):
    """However little a step is, it goes on faster than the file grows."""
    for step in (0, 1, 1000, DEFAULT):
        with dilluvas.open(path, compact_at=at(step, 3)) as db:
            fill(db, 0)
            db.compact()
            live, longest, replaced, inode = os.path.getsize(path), 0, 0, os.stat(path).st_ino
            for number in range(1, 30):
                for start in range(0, KEYS, 200):
                    fill(db, number, range(start, start + 200))
                    db.flush()
                    longest = max(longest, os.path.getsize(path))
                    assert taken(other(path)) < 3 * live and os.path.exists(other(path)) == db._cache.is_rewriting
                    replaced += inode != os.stat(path).st_ino
                    inode = os.stat(path).st_ino
            assert longest < 7 * live and replaced > 20, (step, longest / live, replaced)
            until_ended(db)
            assert is_filled(db, 29)
        with dilluvas.open(path) as db:
            assert is_filled(db, 29)
        os.unlink(path)


def walked_while_replaced(path):
    """Each key comes once, in its place, over both files."""
    for reverse in (False, True):
        db = begun(path, **SMALL)
        inode, seen = os.stat(path).st_ino, []
        walk = db["m"].irange(reverse=reverse)
        for key, value in walk:
            assert value == value_of(int(key), 3)
            seen.append(int(key))
            if len(seen) == KEYS // 2:
                until_ended(db)
                assert os.stat(path).st_ino != inode
            db["n"][key] = b"v"
            db.flush()
        assert seen == sorted(range(KEYS), reverse=reverse) and len(db["n"]) == KEYS
        db.close()
        os.unlink(path)


def by_threads(path):
    with dilluvas.open(path, compact_at=at(MIDDLE), **SMALL) as db:
        replaced = set()

        def change(name):
            for number in range(250):
                with db.batch():
                    db[name][b"k"] = db[name][b"l"] = b"%d" % number * 3000
                db.flush()
                assert db[name][b"k"] == db[name][b"l"] == b"%d" % number * 3000
                replaced.add(os.stat(path).st_ino)

        threads = [threading.Thread(target=change, args=(f"{number}",)) for number in range(4)]
        for thread in threads:
            thread.start()
        for thread in threads:
            thread.join()
        assert len(replaced) > 2
    with dilluvas.open(path) as db:
        assert [dict(db[name]) for name in db] == [{b"k": b"249" * 3000, b"l": b"249" * 3000}] * 4
    assert names_beside(path) == ["maps"]


def changed_between_flush_and_step(path):
    """What a signal handler sets there, or another thread, is in the new file."""
    db = begun(path)
    take, cache = db._cache.take_step, db._cache

    def set_before(*arguments):
        db["late"][b"%d" % len(db["late"])] = b"v" * 100
        return take(*arguments)

    cache.take_step = set_before
    inode = os.stat(path).st_ino
    db.compact_at = at(MIDDLE)
    for _ in range(1000):
        db.flush()
        if os.stat(path).st_ino != inode:
            break
    del cache.take_step
    count = len(db["late"])
    assert os.stat(path).st_ino != inode and is_filled(db, 3)
    db.close()
    with dilluvas.open(path) as db:
        # the last one was flushed by its step
        assert is_filled(db, 3) and len(db["late"]) == count


# ---- How it begins and ends.


@contextlib.contextmanager
def memory_counted():
    """How often memory is taken for a rewriting, and how often it is freed."""
    kept, counts = _steps._function, {"begin": 0, "end": 0}

    def counted(name):
        def call(*arguments):
            # what frees nothing doesn't count
            counts[name] = counts.get(name, 0) + (name != "end" or bool(arguments[0]))
            return kept(name)(*arguments)

        return call

    _steps._function = counted
    try:
        yield counts
        gc.collect()
    finally:
        _steps._function = kept


@contextlib.contextmanager
def memory_is_freed():
    """Whether what is begun here is freed."""
    with memory_counted() as counts:
        yield
    assert counts["begin"] == counts["end"] > 0, counts


def what_ends_it(path):
    def set_and_flush(db, compact_at):
        db.compact_at = compact_at
        db.flush()

    for end in (
        lambda db: db.close(), lambda db: db.compact(), lambda db: set_and_flush(db, None), lambda db: set_and_flush(db, at(0)),
        lambda db: db._cache.end_rewriting(),
    ):  # fmt: skip
        with memory_is_freed():
            db = begun(path)
            descriptors = len(os.listdir("/proc/self/fd"))
            end(db)
            assert not db._cache.is_rewriting and names_beside(path) == ["maps"]
            # the new file, and its folder, and that of the cache where it is closed
            assert len(os.listdir("/proc/self/fd")) == descriptors - 2 - db.closed
        db.close()
        with dilluvas.open(path) as again:
            assert is_filled(again, 3)
        os.unlink(path)


def let_go(path):
    with memory_is_freed():
        db = begun(path)
        ring = [db]
        ring.append(ring)
        del db, ring
        gc.collect()
    assert names_beside(path) == ["maps"] and status_of(dilluvas.open, path) == OK


def other_rules_meanwhile(path):
    """A rewriting that was begun goes on by the new step, whatever the other numbers are."""
    db = begun(path)
    inode = os.stat(path).st_ino
    db.compact_at = CompactAt(MOST, MOST, 0, DEFAULT)
    db.flush()
    db.flush()
    assert os.stat(path).st_ino != inode and is_filled(db, 3) and not db._cache.is_rewriting
    db.close()


ENDS = """
import os, sys
import steps
db = steps.begun(sys.argv[1])
assert os.path.exists(steps.other(sys.argv[1]))
"""


def a_program_that_ends(path):
    """One that closes nothing leaves nothing beside the file, and says nothing."""
    ended = subprocess.run((sys.executable, "-c", ENDS, path), env={**os.environ, "PYTHONPATH": HERE}, capture_output=True, check=False)
    assert (ended.returncode, ended.stdout, ended.stderr) == (0, b"", b""), ended
    assert names_beside(path) == ["maps"]
    with dilluvas.open(path) as db:
        assert is_filled(db, 3)


def owner_mode_and_lock(path):
    dilluvas.open(path).close()
    os.chmod(path, 0o640)
    if os.geteuid() == 0:
        os.chown(path, 65534, 65534)
    before = os.stat(path)
    db = begun(path)
    with open(other(path), "rb") as new:
        found = os.fstat(new.fileno())
        assert (found.st_mode, found.st_uid, found.st_gid) == (before.st_mode, before.st_uid, before.st_gid)
        # it is locked from the first step on, so nobody takes it for one that was left
        assert is_raised(BlockingIOError, fcntl.flock, new.fileno(), fcntl.LOCK_EX | fcntl.LOCK_NB)
    assert status_of(dilluvas.open, other(path)) == HELD
    until_ended(db)
    after = os.stat(path)
    assert after.st_ino == found.st_ino != before.st_ino and stat.S_IMODE(after.st_mode) == 0o640
    assert (after.st_uid, after.st_gid) == (before.st_uid, before.st_gid)
    assert status_of(dilluvas.open, path) == HELD and names_beside(path) == ["maps"]
    db.close()
    with dilluvas.open(path) as db:
        assert is_filled(db, 3)


# ---- Why a rewriting was given up.


def until_replaced_or_opened(path):
    db = begun(path)
    assert db.rewriting_failure is None
    os.unlink(other(path))
    until_ended(db)
    wanted = dilluvas.NO_ACCESS, None
    assert failing(db) == failing(db._cache) == wanted
    # neither another rule nor one that is begun and ended, nor what fails otherwise
    db.compact_at = None
    db.flush()
    db.compact_at = at(1)
    db.flush()
    assert db._cache.is_rewriting and failing(db) == wanted
    db.compact_at = None
    db.flush()
    assert not db._cache.is_rewriting and failing(db) == wanted
    os.mkdir(other(path))
    assert status_of(db.compact) == dilluvas.NO_FILE and failing(db) == wanted
    # a later one is, at once or in steps
    for step in (0, 1):
        db.compact_at = at(step)
        db.flush()
        assert failing(db) == (dilluvas.NO_FILE, None) and str(db.rewriting_failure) == dilluvas.text_of(dilluvas.NO_FILE)
    assert is_raised(dilluvas.Refused, db._cache.take_step, 1)
    os.rmdir(other(path))
    db.compact()
    assert db.rewriting_failure is None and is_filled(db, 3)
    db.close()
    assert db.rewriting_failure is None

    for step in (0, DEFAULT):
        db = begun(path)
        os.unlink(other(path))
        until_ended(db)
        db.compact_at, inode = at(step), os.stat(path).st_ino
        db.flush()
        until_ended(db)
        assert os.stat(path).st_ino != inode and db.rewriting_failure is None
        db.close()
        os.unlink(path)

    db = begun(path)
    os.unlink(other(path))
    until_ended(db)
    db.close()
    assert failing(db) == wanted
    db.__init__(path)
    assert db.rewriting_failure is None
    db.close()
    cache = dilluvas.FileCache(path)
    os.mkdir(other(path))
    assert status_of(cache.take_step, 1) == status_of(cache.take_step, 0) == dilluvas.NO_FILE
    assert failing(cache) == (dilluvas.NO_FILE, None)
    cache.close()
    cache.__init__(path)
    assert cache.rewriting_failure is None
    cache.close()


def none_in_memory(path):
    with dilluvas.open(":memory:", compact_at=at(0)) as db:
        db["m"][b"k"] = b"v"
        db.flush()
        assert db.rewriting_failure is None


def interrupted_steps_are_none(path):
    """A Ctrl-C ends a rewriting, and doesn't count as its failure."""

    def interrupt(*_):
        raise KeyboardInterrupt

    for functions in ({"pread": interrupt}, {"ftruncate": interrupt}, {"fdatasync": interrupt}):
        db = begun(path)
        with Instead(**functions):
            assert is_raised(KeyboardInterrupt, until_ended, db)
        assert not db._cache.is_rewriting and db.rewriting_failure is None and is_filled(db, 3)
        # nor does it take away what was told before
        db.compact_at = at(0)
        os.mkdir(other(path))
        db.flush()
        os.rmdir(other(path))
        db.compact_at = at(1)
        with Instead(ftruncate=interrupt):
            assert is_raised(KeyboardInterrupt, db.flush)
        assert failing(db) == (dilluvas.NO_FILE, None)
        db.close()
        os.unlink(path)


def no_memory_is_told(path):
    db = begun(path, step=0)
    db.compact_at = None
    db.flush()
    function = _steps._function
    _steps._function = lambda name: (lambda: _steps.Memory()) if name == "begin" else function(name)
    try:
        db.compact_at = at(1)
        db.flush()
    finally:
        _steps._function = function
    assert failing(db) == (dilluvas.MEMORY, None)
    db.close()


def a_folder_that_takes_no_file(path):
    """Of a user without rights."""
    with dilluvas.open(path, compact_at=None) as db:
        for number in range(4):
            fill(db, number)
    os.chmod(path, 0o666)
    os.chmod(os.path.dirname(path), 0o555)

    def told():
        if os.geteuid() == 0:
            os.setgroups([])
            os.setgid(65534)
            os.setuid(65534)
        for step in (0, 1):
            with dilluvas.open(path, compact_at=at(step)) as db:
                db.flush()
                assert failing(db) == (dilluvas.NO_ACCESS, errno.EACCES) and is_filled(db, 3)
        return OK

    assert answer_in(in_child(told)) == OK
    os.chmod(os.path.dirname(path), 0o700)


def new_file_gets_too_long(path):
    """So much is changed of pages that were copied."""
    db = begun(path)
    inode, size = os.stat(path).st_ino, os.path.getsize(path)
    for number in range(4, 4 + 3 * size // (KEYS * VALUE)):
        fill(db, number)
    db["m"][b"0000"] = bytes(8 << 20)
    db["m"][b"0000"] = value_of(0, number)
    db.flush()
    until_ended(db)
    assert os.stat(path).st_ino == inode and failing(db) == (_LOG_FULL, None) and is_filled(db, number)
    db.close()


def a_child_takes_no_step(path):
    """Which is no failure."""
    db = begun(path)
    for step in (1, 0):
        db.compact_at = at(step)
        assert answer_in(in_child(lambda: db.flush() + (db.rewriting_failure is not None))) == OK
    db.close()


def pages_are_counted_once(path):
    db = begun(path)
    db.compact_at = None
    db.flush()
    cache, answer, counted = db._cache, db._cache._answer, []

    def told(name, *arguments):
        counted.append(name)
        return answer(name, *arguments)

    cache._answer = told
    db.compact_at = at(1)
    db.flush()
    del cache._answer
    assert cache.is_rewriting and counted.count("live") == 1, counted
    # one that nobody hands on is counted there
    cache.end_rewriting()
    cache.take_step(1)
    assert cache.is_rewriting
    db.close()


TESTS = (
    content_after_each_flush, length_is_bounded, walked_while_replaced, by_threads, changed_between_flush_and_step, what_ends_it, let_go,
    other_rules_meanwhile, a_program_that_ends, owner_mode_and_lock, until_replaced_or_opened, none_in_memory, interrupted_steps_are_none,
    no_memory_is_told, a_folder_that_takes_no_file, new_file_gets_too_long, a_child_takes_no_step, pages_are_counted_once,
)  # fmt: skip
