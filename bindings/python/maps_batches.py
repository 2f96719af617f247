"""Batches of ordered maps: how they are left, by exceptions, by closing, by threads that are gone, and by processes that are killed."""

import gc
import os
import random
import signal
import sys
import threading
import time

import dilluvas
from dilluvas import BATCH_OPEN, OK, Closed, _owner
from inputs import answer_in, in_child, is_raised, status_of
from together import SMALL, copied, in_threads, run


class Left(BaseException):
    """Ends a batch."""


def batches(path):
    with dilluvas.open(path, **SMALL) as db:
        found = db["m"]
        found[b"before"] = b""
        db.flush()
        with db.batch() as within:
            assert within is db
            found.update({b"%03d" % number: b"v" * 100 for number in range(100)})
            assert copied(path) == {b"m": {b"before": b""}}
        db.flush()
        assert len(copied(path)[b"m"]) == 101
        assert called_by(lambda: left_by(db, None)) == ["pin", "map_set", "seal"]
        assert called_by(lambda: is_raised(Left, left_by, db, Left)) == ["pin", "map_set", "cancel"]
        for error in (Left, KeyError, KeyboardInterrupt, GeneratorExit, SystemExit):
            assert is_raised(error, left_by, db, error)
            assert found[b"left"] == error.__name__.encode()
            db.flush()
            assert copied(path)[b"m"][b"left"] == error.__name__.encode()
        with db.batch():
            assert status_of(db.batch().__enter__) == status_of(db.flush) == status_of(db.compact) == BATCH_OPEN
        db.flush()
        # one that was entered and let go, as one that is interrupted
        db.batch().__enter__()
        found[b"later"] = b""
        assert db.flush() > 0 and b"later" in copied(path)[b"m"]


def left_by(db, error):
    with db.batch():
        db["m"][b"left"] = getattr(error, "__name__", "").encode()
        if error is not None:
            raise error


def called_by(call):
    """The names of the calls of the library that a batch makes from its beginning on, but for those by which it looks for room."""
    names, call_library = [], _owner.call_library
    _owner.call_library = lambda name, *arguments: names.append(name) or call_library(name, *arguments)
    try:
        call()
    finally:
        _owner.call_library = call_library
    names = [name for name in names if name not in ("next_task", "size")]
    return names[names.index("pin") :]


def interrupted_twice(path):
    """A batch whose end is interrupted is open still, and what comes next closes it."""

    def no_cancel(name, *arguments):
        if name == "cancel":
            raise KeyboardInterrupt
        return call_library(name, *arguments)

    def leave(db):
        with db.batch():
            db["m"][b"left"] = b""
            _owner.call_library = no_cancel
            raise Left

    call_library = _owner.call_library
    with dilluvas.open(path, **SMALL) as db:
        for behind in (db.flush, db.compact, lambda: left_by(db, None)):
            try:
                assert is_raised(KeyboardInterrupt, leave, db)
            finally:
                _owner.call_library = call_library
            assert status_of(behind) == OK


def let_go(path):
    """A batch that a thread which is gone has begun and never left stops nobody who lets the db go, or opens it."""
    for is_gone in (True, False):
        held, begun, ended = [], threading.Event(), threading.Event()

        def begin():
            db = dilluvas.open(path)
            batch = db.batch()
            held.append((batch.__enter__(), batch))

        def use(number):
            if number == 0:
                begin()
                begun.set()
                is_gone or ended.wait()
                return
            # it is there before the other one ends, so it has another identity
            begun.wait()
            held.clear()
            gc.collect()
            dilluvas.open(path).close()
            ended.set()

        in_threads(use, 2)


def closed_within(path):
    """A batch whose db is closed is there in no part."""
    with dilluvas.open(path, **SMALL) as db:
        db["m"][b"before"] = b""
    with dilluvas.open(path, **SMALL) as db:
        try:
            with db.batch():
                db["m"].update({b"%03d" % number: b"v" * 100 for number in range(100)})
                db.close()
            raise AssertionError("a batch that can't be sealed is told")
        except Closed:
            pass
    assert copied(path) == {b"m": {b"before": b""}}


def killed(path):
    """What a process that is killed had flushed is there, and of each batch all or nothing."""
    for seed in range(15):
        to_read, to_write = os.pipe()

        def work():
            with dilluvas.open(path, **SMALL) as db:
                for number in range(len(db["one"]), 10**6):
                    with db.batch():
                        db["one"][b"%08d" % number] = b"v" * 200
                        db["two"][b"%08d" % number] = b"w" * 200
                    if number % 5 == 0:
                        db.flush()
                        os.write(to_write, b"%08d" % number)

        child = in_child(work)
        os.close(to_write)
        last = os.read(to_read, 8)
        time.sleep(random.Random(seed).random() / 20)
        os.kill(child, signal.SIGKILL)
        assert answer_in(child) == -signal.SIGKILL
        while told := os.read(to_read, 8):
            last = told
        os.close(to_read)
        with dilluvas.open(path) as db:
            keys = list(db["one"])
            assert keys == list(db["two"]) == [b"%08d" % number for number in range(len(keys))] and keys[-1] >= last, (keys[-1:], last)


# what comes of a batch that another thread lets go is told there by the interpreter
sys.unraisablehook = lambda found: None
run(batches, interrupted_twice, let_go, closed_within, killed)
