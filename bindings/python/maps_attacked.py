"""Ordered maps as a careless program uses them: what it does wrong is told by a named exception, and what it was told is durable stays so."""

import contextlib
import errno
import gc
import multiprocessing
import os
import random
import resource
import signal
import subprocess
import sys
import threading
import time
import warnings
import weakref

import dilluvas
from dilluvas import HELD, Closed, CompactAt, Refused
from inputs import answer_in, in_child, is_raised, status_of
from together import SMALL, in_threads, run

HERE = os.path.dirname(os.path.abspath(__file__))
ALWAYS = CompactAt(2, 0, sys.maxsize)


def closed_under_threads(path):
    """A close waits for the calls of other threads, which are told so by Closed, and by nothing else."""
    for turn in range(10):
        db = dilluvas.open(path, compact_at=ALWAYS._replace(step=(0, 1, 100000, ALWAYS.step)[turn % 4]), **SMALL)
        told = []

        def use(number):
            choose = random.Random(number)
            try:
                while True:
                    key = b"%d" % choose.randrange(200)
                    with contextlib.suppress(KeyError):
                        (db["m"].__setitem__(key, key * 10), len(db["m"]), list(db["m"].irange(key)), db["m"].pop(key))
                    with db.batch():
                        db["m"][key] = db["n"][key] = key
                    (db.flush(), db.maps(), db.size_on_disk(), db.generate_id())
            except Closed:
                told.append(number)

        def close(number):
            if number:
                use(number)
            else:
                time.sleep(0.01 * turn)
                db.close()

        in_threads(close)
        assert sorted(told) == list(range(1, len(told) + 1)) and len(told) > 1
        assert repr(db).endswith("closed>") and is_raised(ValueError, db.flush)
        with dilluvas.open(path) as again:
            assert all(again["n"][key] == key for key in again["n"])


def opened_by_threads(path):
    """One of many has it, and the others are refused as HELD."""

    def use(_):
        held = 0
        for _ in range(30):
            try:
                with dilluvas.open(path) as db:
                    db["m"][b"%d" % db.generate_id()] = b""
            except Refused as refused:
                assert refused.status == HELD
                held += 1
        return 30 - held

    made = sum(in_threads(use))
    with dilluvas.open(path) as db:
        assert len(db["m"]) == made > 0


def let_go_in_a_ring(path):
    """What nobody has any more is closed, in silence, and its file can be opened."""
    with warnings.catch_warnings(record=True) as told:
        warnings.simplefilter("always")
        for _ in range(20):
            db = dilluvas.open(path)
            ring = [db, db["m"], iter(db["m"].items()), db.batch()]
            ring.append(ring)
            gone = weakref.ref(db)
            assert status_of(dilluvas.open, path) == HELD
            del db, ring
            gc.collect()
            assert gone() is None
        dilluvas.open(path).close()
    assert told == []
    # a map keeps the file
    found = dilluvas.open(path)["m"]
    gc.collect()
    found[b"k"] = b"v"
    assert found[b"k"] == b"v" and status_of(dilluvas.open, path) == HELD


def opened_once(path):
    db = dilluvas.open(path)
    found = db["m"]
    assert is_raised(Refused, db.__init__, path + " other") and not os.path.exists(path + " other")
    found[b"k"] = b"v"
    assert db["m"] == {b"k": b"v"} and db["m"] == found
    for _ in range(3):
        db.close()
    for call in (
        db.flush, db.compact, db.maps, db.size_on_disk, db.generate_id, db.__enter__, db.batch().__enter__, found.first, found.last, found.clear,
        found.popitem, lambda: found[b"k"], lambda: found.get(b"k", 0), lambda: b"k" in found, lambda: "m" in db, lambda: len(found),
        lambda: bool(found), lambda: list(found), lambda: list(reversed(found)), lambda: found == {}, lambda: found.update({b"k": b""}),
        lambda: found.pop(b"k", None), lambda: db.__delitem__("m"), lambda: found.compare_and_swap(b"k", None, b""), lambda: next(found.irange()),
    ):  # fmt: skip
        assert is_raised(Closed, call), call


def changed_while_walked(path):
    """No change ends a loop: each key comes once, in its place."""
    with dilluvas.open(path, **SMALL) as db:
        found = db["m"]
        for change in (
            lambda key: found.pop(key), lambda key: found.__setitem__(key + b"!", b""), lambda key: found.clear(), lambda key: db.compact(),
            lambda key: db.__delitem__("m") if found else None, lambda key: found.update({b"zz%d" % len(found): b""}) if len(found) < 150 else None,
        ):  # fmt: skip
            for walk in (found.irange, lambda: found.irange(reverse=True), found.items, lambda: reversed(found.items())):
                found.clear()
                found.update({b"%02d" % number: b"v" * 50 for number in range(100)})
                seen = []
                for key, _ in walk():
                    seen.append(key)
                    change(key)
                assert seen in (sorted(set(seen)), sorted(set(seen), reverse=True)), change


def every_kind_of_bytes(path):
    class Named(bytes):
        pass

    with dilluvas.open(path) as db:
        found = db["m"]
        for key in (b"", Named(b"k"), bytearray(b"k"), memoryview(b"-k-")[1:2], memoryview(b"k.")[::2], b"\0", b"\xff" * 65536):
            found[key] = key
            plain = bytes(key)
            assert found[key] == found.get(key) == found.get(plain) == plain and key in found and type(found[key]) is bytes
            assert [pair for pair in found.irange(key, key, (True, True))] == [(plain, plain)] and list(found.irange(key, key)) == []
            assert not found.compare_and_swap(key, b"other", b"") and found.compare_and_swap(key, key, key) and found.pop(key) == plain
            assert key not in found and is_raised(KeyError, found.pop, key) and found == {}
        for wrong in ("k", 7, None, object()):
            for call in (found.__getitem__, found.get, found.pop, found.__contains__, found.irange, found.setdefault):
                if not (wrong is None and call == found.irange):
                    assert is_raised(TypeError, lambda: call(wrong)), (wrong, call)
        found.update({b"%d" % number: b"" for number in range(10)})
        assert [key for key, _ in found.irange(b"7")] == [b"7", b"8", b"9"] and len(list(found.irange(None, b"3"))) == 3
        assert list(found.irange(b"8", b"2")) == list(found.irange(b"8", b"2", reverse=True)) == []
        assert [key for key, _ in found.irange(b"7", reverse=True)] == [b"9", b"8", b"7"] and len(list(found.irange())) == 10


def in_another_process(path):
    """Nothing of a db goes to another process, but by the file."""
    with dilluvas.open(path) as db:
        for it in (db, db["m"]):
            process = multiprocessing.get_context("spawn").Process(target=print, args=(it,))
            assert is_raised(TypeError, process.start)


# Who runs this in the background may have it begun with the signal ignored.
INTERRUPTED = """
import dilluvas, signal, sys
signal.signal(signal.SIGINT, signal.default_int_handler)
with dilluvas.open(sys.argv[1], compact_at=dilluvas.CompactAt(2, 0, sys.maxsize, int(sys.argv[3])), segment_size=100) as db:
    for number in range(int(sys.argv[2]), 10**9):
        with db.batch():
            db["one"][b"k"] = db["two"][b"k"] = b"%d" % number
            db["numbers"][b"%09d" % number] = b""
        db.flush()
        print(number, flush=True)
"""


def ended_by_ctrl_c(path):
    """Ctrl-C ends a program as any other, and what it was told is durable is there."""
    number, choose = 0, random.Random(1)
    for turn in range(15):
        step = (1, 100000, ALWAYS.step)[turn % 3]
        with subprocess.Popen(
            (sys.executable, "-c", INTERRUPTED, path, str(number), str(step)), stdout=subprocess.PIPE, stderr=subprocess.PIPE,
            env={**os.environ, "PYTHONPATH": HERE}, text=True,
        ) as program:  # fmt: skip
            first = program.stdout.readline()
            time.sleep(choose.random() / 50)
            program.send_signal(signal.SIGINT)
            watch = threading.Timer(60, program.kill)
            watch.start()
            printed, said = program.stdout.read(), program.stderr.read()
            watch.cancel()
        assert first and said.rstrip().endswith("KeyboardInterrupt") and program.returncode in (-signal.SIGINT, 1), said
        number = int((first + printed).split()[-1]) + 1
        with dilluvas.open(path) as db:
            assert os.listdir(os.path.dirname(path)) == ["maps"]
            # of a batch that it left a part may be there
            lasts = int(db["one"][b"k"]), int(db["two"][b"k"]), len(db["numbers"]) - 1
            assert set(lasts) <= {number - 1, number} and sorted(lasts, reverse=True) == list(lasts), (lasts, number)
            assert [int(key) for key in db["numbers"]] == list(range(len(db["numbers"])))


def no_finalizer_runs(path):
    """Python ignores a Ctrl-C that comes into a finalizer or the callback of a weak reference, so none runs for what was closed."""
    package, found = os.path.dirname(dilluvas.__file__), []

    def profile(frame, event, _):
        code = frame.f_code
        if event == "call" and os.path.dirname(code.co_filename) in (package, os.path.dirname(weakref.__file__)):
            if code.co_name in ("__del__", "_remove", "__call__", "dropped"):
                found.append((code.co_name, code.co_filename))

    def use(rule):
        with dilluvas.open(path, compact_at=rule, **SMALL) as db:
            for number in range(20):
                db["m"][b"%d" % number] = b"v" * 100
                db.flush()
            db.compact()

    def drop():
        dilluvas.open(path, compact_at=ALWAYS._replace(step=1)).flush()

    def run_under(profile, call, *arguments):
        sys.setprofile(profile)
        try:
            call(*arguments)
            gc.collect()
        finally:
            sys.setprofile(None)

    gc.collect()
    for step in (0, 1, 1000, ALWAYS.step):
        run_under(profile, use, ALWAYS._replace(step=step))
        assert not found, (step, found)
    # what is dropped while it is open is closed by one, and so is its rewriting
    run_under(profile, drop)
    assert {name for name, _ in found} == {"dropped"} and not os.path.exists(path + ".dilluvas-new"), found
    dilluvas.open(path).close()


def causes_are_told(path):
    """What the system said is the cause of what is refused, and of each later call, and keeps nothing alive."""
    with dilluvas.open(path) as db:
        db["m"].update({b"%d" % number: b"v" * 100 for number in range(100)})

    def cause_of(call):
        try:
            call()
        except Refused as refused:
            assert type(refused.status) is int
            return refused.__cause__ and refused.__cause__.errno
        return None

    db = dilluvas.open(path, **SMALL)
    gone, child = weakref.ref(db), lambda: cause_of(lambda: len(db["m"])) == cause_of(db.flush) == errno.EBADF
    db["m"][b"k"] = b"v"
    assert answer_in(in_child(lambda: 0 if child() else 1)) == 0
    limit = resource.getrlimit(resource.RLIMIT_FSIZE)
    resource.setrlimit(resource.RLIMIT_FSIZE, (100, limit[1]))
    try:
        assert cause_of(db.flush) == cause_of(db.flush) == cause_of(db.maps) == errno.EFBIG
    finally:
        resource.setrlimit(resource.RLIMIT_FSIZE, limit)
    assert cause_of(db.flush) == errno.EFBIG
    gc.disable()
    del db, child
    try:
        assert gone() is None
    finally:
        gc.enable()
    assert cause_of(lambda: dilluvas.open(os.path.join(path, "absent"))) == errno.ENOTDIR
    with dilluvas.open(path) as db:
        assert len(db["m"]) == 100 and cause_of(lambda: dilluvas.open(path)) is None


def signal_within_a_call(path):
    """What a signal handler calls within a call of its own thread is a RuntimeError, which changes nothing."""
    told = []
    with dilluvas.open(path, **SMALL) as db:

        def handle(*_):
            try:
                told.append(db["m"].get(b"k"))
            except RuntimeError as error:
                told.append(error)

        signal.signal(signal.SIGALRM, handle)
        signal.setitimer(signal.ITIMER_REAL, 0.0005, 0.0005)
        ended = time.monotonic() + 2
        while time.monotonic() < ended:
            db["m"][b"k"] = b"v"
            db.flush()
        signal.setitimer(signal.ITIMER_REAL, 0)
    kinds = {type(found) for found in told}
    assert kinds <= {RuntimeError, bytes, type(None)} and RuntimeError in kinds, kinds


if __name__ == "__main__":
    assert threading.active_count() == 1
    run(
        closed_under_threads, opened_by_threads, let_go_in_a_ring, opened_once, changed_while_walked, every_kind_of_bytes,
        in_another_process, no_finalizer_runs, ended_by_ctrl_c, causes_are_told, signal_within_a_call,
    )  # fmt: skip
