"""Children that are forked while a cache is open: they neither unlock nor write the file of their parent, and none hangs."""

import gc
import os
import pathlib
import subprocess
import sys
import tempfile
import threading
import time

import dilluvas
from dilluvas import BATCH_OPEN, HELD, NOT_OPEN, OK, READ, WRITE, Cache, FileCache
from inputs import CALLS, answer_in, in_child, status_elsewhere, status_of, written
from steps import at, begun, fill, is_filled, names_beside, other, until_ended

# So many seconds has a child: one that hangs is told as that.
LONGEST = 20


def in_time(call):
    """What a call answers in a child, which is ended where it hangs."""

    def called():
        threading.Thread(target=lambda: (time.sleep(LONGEST), os._exit(99)), daemon=True).start()
        return call()

    return answer_in(in_child(called))


def closes_alone(folder):
    """The file stays locked for the parent, however the child lets the cache go."""
    path = written(os.path.join(folder, "closed in a child"))
    os.chmod(path, 0o666)
    caches = [FileCache(path)]

    def let_go():
        caches.clear()
        gc.collect()
        return OK

    for leave in (lambda: caches[0].close() or OK, let_go, lambda: status_of(caches[0].flush)):
        assert in_time(leave) == OK
        assert status_elsewhere(lambda: FileCache(path)) == HELD
    caches.pop().close()
    assert status_elsewhere(lambda: FileCache(path)) == OK


def is_unlocked_for_a_child(folder):
    """What the parent closes can be opened, though a child has it open still."""
    path = written(os.path.join(folder, "closed in the parent"))
    to_read, to_write = os.pipe()
    cache = FileCache(path)
    child = in_child(lambda: os.close(to_write) or len(os.read(to_read, 1)))
    os.close(to_read)
    cache.close()
    FileCache(path).close()
    os.close(to_write)
    assert answer_in(child) == OK


def neither_writes_nor_reads(folder):
    path = written(os.path.join(folder, "used in a child"))
    with FileCache(path) as cache:
        cache.allocate([(b"pending", b"")])
        content = pathlib.Path(path).read_bytes()
        assert in_time(lambda: status_of(cache.get, 2)) == READ
        assert in_time(lambda: status_of(cache.get, 3)) == OK
        assert in_time(lambda: status_of(cache.compact)) == WRITE
        assert in_time(lambda: status_of(cache.set, 3, 1, b"pending", b"more")) == OK
        assert in_time(lambda: status_of(cache.flush)) == WRITE
        assert in_time(lambda: status_of(cache.flush) and status_of(cache.allocate)) == WRITE
        assert os.listdir(folder).count("used in a child.dilluvas-new") == 0
        assert pathlib.Path(path).read_bytes() == content
        assert cache.get(3).pairs == [(b"pending", b"")] and cache.flush() > 0
    with FileCache(path) as cache:
        assert cache.get(2) is not None and cache.get(3) is not None


def between_calls(folder):
    """A child that is forked while other threads are in calls hangs nowhere."""
    path = written(os.path.join(folder, "used by threads"))
    for cache in (FileCache(path), Cache()):
        cache.allocate([(b"k", b"v")])
        is_over = threading.Event()

        def use():
            while not is_over.is_set():
                page, _ = cache.allocate([(b"k", b"v" * 1000)])
                cache.get(page)
                cache.flush()

        def leave():
            statuses = {status_of(getattr(cache, name), *arguments) for name, arguments in CALLS.items() if name != "cas_root"}
            cache.close()
            return OK if statuses else READ

        threads = [threading.Thread(target=use) for _ in range(4)]
        for thread in threads:
            thread.start()
        try:
            for _ in range(20):
                assert in_time(leave) == OK
        finally:
            is_over.set()
            for thread in threads:
                thread.join()
        last, _ = cache.allocate()
        cache.flush()
        cache.close()
        with FileCache(path) as again:
            assert not isinstance(cache, FileCache) or again.get(last) is not None and again.get(last + 1) is None


def maps_are_the_parents(folder):
    """A child neither unlocks the file of maps, nor writes or reads it, however it leaves the db; what isn't durable stays the parent's."""
    path = os.path.join(folder, "maps")
    with dilluvas.open(path) as db:
        db["m"].update({b"%03d" % number: b"v" * 1000 for number in range(100)})
    os.chmod(path, 0o666)
    held = [dilluvas.open(path, capacity=256)]
    held[0]["m"][b"pending"] = b""

    def let_go():
        held.clear()
        gc.collect()
        return OK

    def leave():
        with held[0] as db:
            db["m"][b"childs"] = b""
        return OK

    def in_batch():
        with held[0].batch():
            held[0]["m"][b"childs"] = b""
        return held[0].flush()

    content = pathlib.Path(path).read_bytes()
    for call, status in (
        (lambda: held[0].close() or OK, OK), (let_go, OK), (lambda: status_of(leave), WRITE), (lambda: status_of(in_batch), WRITE),
        (lambda: status_of(held[0].flush), WRITE), (lambda: status_of(held[0].compact), WRITE), (lambda: status_of(len, held[0]["m"]), READ),
        (lambda: len(held[0].maps()) - 1, OK),
    ):  # fmt: skip
        found = in_time(call)
        assert found == status, (found, status)
        assert status_elsewhere(lambda: dilluvas.open(path)) == HELD
        assert pathlib.Path(path).read_bytes() == content and os.listdir(folder).count("maps.dilluvas-new") == 0
    assert held[0]["m"][b"pending"] == b"" and held[0].flush() > 0
    held.pop().close()
    assert status_elsewhere(lambda: dilluvas.open(path)) == OK
    with dilluvas.open(path) as db:
        assert len(db["m"]) == 101 and b"childs" not in db["m"]


def within_batches(folder):
    """A child that is forked while another thread is in a batch is refused everything there, and hangs nowhere."""
    for path in (os.path.join(folder, "batches"), ":memory:"):
        with dilluvas.open(path) as db:
            begun, ended = threading.Event(), threading.Event()

            def use():
                with db.batch():
                    db["m"][b"k"] = b"v"
                    begun.set()
                    ended.wait()

            def leave():
                statuses = {status_of(db.flush), status_of(db.batch().__enter__), status_of(db["m"].get, b"k"), status_of(db.maps)}
                db.close()
                return OK if statuses == {WRITE} and status_of(db.flush) == NOT_OPEN else READ

            thread = threading.Thread(target=use)
            thread.start()
            begun.wait()
            try:
                assert in_time(leave) == OK
            finally:
                ended.set()
                thread.join()
            with db.batch():
                # one that is this thread's own goes on in the child
                assert in_time(lambda: OK if db["m"][b"k"] == b"v" and status_of(db.flush) == BATCH_OPEN else READ) == OK
            assert db["m"] == {b"k": b"v"} and db.flush() > 0


def a_rewriting_is_the_parents(folder):
    """A child takes no step of a rewriting that its parent began, and leaves the new file where it is, locked, however it lets the db go."""
    path = os.path.join(folder, "in steps")
    dilluvas.open(path).close()
    os.chmod(path, 0o666)
    held = [begun(path)]
    content, inode = pathlib.Path(other(path)).read_bytes(), os.stat(path).st_ino

    def flush(*compact_at):
        for held[0].compact_at in compact_at or (held[0].compact_at,):
            for _ in range(3):
                assert held[0].flush() == 0
        return OK

    def flush_and_close():
        with held[0]:
            return flush()

    def let_go():
        held.clear()
        gc.collect()
        return OK

    for leave, status in (
        (flush, OK), (flush_and_close, OK), (lambda: held[0].close() or OK, OK), (let_go, OK), (lambda: flush(None, at(1)), OK),
        (lambda: flush(at(0), at(1 << 30)), OK), (lambda: held[0]._cache.end_rewriting() or OK, OK), (lambda: status_of(held[0].compact), WRITE),
    ):  # fmt: skip
        found = in_time(leave)
        assert found == status, (found, status)
        assert pathlib.Path(other(path)).read_bytes() == content and status_elsewhere(lambda: FileCache(other(path))) == HELD
        assert status_elsewhere(lambda: dilluvas.open(path)) == HELD and os.stat(path).st_ino == inode
    assert held[0]._cache.is_rewriting
    until_ended(held[0])
    assert os.stat(path).st_ino != inode and is_filled(held[0], 3) and status_elsewhere(lambda: dilluvas.open(path)) == HELD
    held.pop().close()
    with dilluvas.open(path) as db:
        assert is_filled(db, 3)


def none_begins_in_a_child(folder):
    os.mkdir(os.path.join(folder, "begun in a child"))
    path = os.path.join(folder, "begun in a child", "maps")
    with dilluvas.open(path, compact_at=None) as db:
        for number in range(4):
            fill(db, number)
            db.flush()
        db.compact_at = at(1)
        assert in_time(lambda: db.flush() + len(names_beside(path)) - 1) == OK
        db.compact_at = at(0)
        assert in_time(lambda: db.flush() + len(names_beside(path)) - 1) == OK
        assert names_beside(path) == ["maps"] and is_filled(db, 3)


def between_steps(folder):
    """A child that is forked while another thread takes a step frees nothing of that."""
    path = os.path.join(folder, "between steps")
    with dilluvas.open(path, compact_at=at(500000)) as db:
        is_over = threading.Event()

        def use():
            number = 0
            while not is_over.is_set():
                fill(db, number)
                db.flush()
                for _ in range(20):
                    db.flush()
                number += 1

        def leave():
            statuses = {status_of(db.flush), status_of(db.maps)}
            db.close()
            gc.collect()
            return OK if statuses <= {OK, WRITE, READ} else READ

        thread = threading.Thread(target=use)
        thread.start()
        try:
            for _ in range(60):
                assert in_time(leave) == OK
        finally:
            is_over.set()
            thread.join()
    assert not os.path.exists(other(path))


STEPS_AT_EXIT = """
import os, sys, steps
path = sys.argv[1]
db = steps.begun(path)
with open(steps.other(path), "rb") as new:
    content = new.read()
inode = os.stat(path).st_ino
child = os.fork()
if child == 0:
    db.flush()
    sys.exit(0)
assert os.waitstatus_to_exitcode(os.waitpid(child, 0)[1]) == 0
with open(steps.other(path), "rb") as new:
    assert new.read() == content
steps.until_ended(db)
assert os.stat(path).st_ino != inode and steps.is_filled(db, 3)
"""


def in_steps_at_exit(folder):
    """A child that ends like any program leaves the rewriting to its parent."""
    ended = run_program(STEPS_AT_EXIT, os.path.join(folder, "steps at exit"))
    assert (ended.returncode, ended.stderr) == (0, b""), ended


AT_EXIT = """
import os, sys, threading
from dilluvas import FileCache
cache = FileCache(sys.argv[1])
busy = threading.Event()
def hold():
    with cache._lock:
        busy.set()
        ended.wait()
ended = threading.Event()
threading.Thread(target=hold).start()
busy.wait()
child = os.fork()
if child == 0:
    sys.exit(0)
status = os.waitstatus_to_exitcode(os.waitpid(child, 0)[1])
ended.set()
assert status == 0
"""


def at_exit(folder):
    """A child that ends like any program says nothing and waits for no thread that its parent alone has."""
    ended = run_program(AT_EXIT, os.path.join(folder, "at exit"))
    assert (ended.returncode, ended.stderr) == (0, b""), ended


def run_program(text, *arguments):
    place = os.path.dirname(os.path.abspath(__file__))
    return subprocess.run(
        # later Pythons warn of a fork beside threads
        (sys.executable, "-W", "ignore", "-c", text, *arguments),
        env={**os.environ, "PYTHONPATH": place}, capture_output=True, timeout=LONGEST, check=False,
    )  # fmt: skip


TOO_LONG = """
import resource, sys
from dilluvas import FileCache, Refused
cache = FileCache(sys.argv[1])
cache.allocate([(b"k", b"v" * 100000)])
resource.setrlimit(resource.RLIMIT_FSIZE, (20000, resource.RLIM_INFINITY))
try:
    cache.flush()
except Refused as refused:
    sys.exit(refused.status)
"""


def a_limit_of_files(folder):
    """A write behind the limit of a process fails, and doesn't end it."""
    path = written(os.path.join(folder, "limited"))
    ended = run_program(TOO_LONG, path)
    assert (ended.returncode, ended.stderr) == (WRITE, b""), ended
    with FileCache(path) as cache:
        assert cache.get(2) is not None and cache.get(3) is None


TESTS = (
    closes_alone, is_unlocked_for_a_child, neither_writes_nor_reads, between_calls, maps_are_the_parents, within_batches,
    a_rewriting_is_the_parents, none_begins_in_a_child, between_steps, in_steps_at_exit, at_exit, a_limit_of_files,
)  # fmt: skip

with tempfile.TemporaryDirectory() as made:
    os.chmod(made, 0o755)
    for test in TESTS:
        test(made)
