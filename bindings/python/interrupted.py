"""Calls that are interrupted at each line of the modules, as by Ctrl-C: what was flushed stays, and no descriptor and no lock is left.

A cache goes on as before then, over the file that its path leads to, or refuses every call by WRITE.
"""

import contextlib
import itertools
import os
import random
import signal
import sys
import tempfile
import threading

import dilluvas
from dilluvas import OK, WRITE, Cache, FileCache
from inputs import CALLS, status_of
from steps import memory_counted

PACKAGE = os.path.dirname(dilluvas.__file__)
PLACE = "/dev/shm" if os.path.isdir("/dev/shm") else None

# What was raised in a finalizer, which nobody can catch.
unraised = []

# Where it was interrupted last.
place = None


def is_interrupted(line, call):
    """Makes a call and interrupts it in front of a line, by its number. Answers whether it has so many."""
    count = 0

    def trace(frame, event, _):
        global place
        nonlocal count
        if os.path.dirname(frame.f_code.co_filename) != PACKAGE:
            return None
        if event == "line":
            count += 1
            if count == line:
                place = frame.f_code.co_filename, frame.f_lineno
                raise KeyboardInterrupt
        return trace

    sys.settrace(trace)
    try:
        call()
    except KeyboardInterrupt:
        pass
    finally:
        sys.settrace(None)
    return count >= line


def lines_of(make_case):
    """Interrupts a call at each of its lines, each time in a case of its own: the call, and what has to hold behind it."""
    for line in itertools.count(1):
        with tempfile.TemporaryDirectory(dir=PLACE) as folder:
            case = make_case(os.path.join(folder, "pages"))
            is_long_enough = is_interrupted(line, next(case))
            try:
                next(case, None)
            except BaseException:
                print(f"behind an exception at line {line} of the call:", *place or ())
                raise
        if not is_long_enough:
            return line - 1


def open_descriptors():
    # listing them takes one
    return len(os.listdir("/proc/self/fd")) - 1


def pages_of(path):
    with FileCache(path) as cache:
        return [cache.get(page).pairs[0][1] for page in range(2, 6) if cache.get(page) is not None]


# ---- The cases.


def filled(path):
    """A cache with two pages that are durable, the first of which isn't in memory, and one that isn't."""
    with FileCache(path) as cache:
        cache.allocate([(b"k", b"v" * 5000)])
        cache.flush()
    cache = FileCache(path, capacity=256)
    cache.allocate([(b"k", b"second")])
    cache.flush()
    cache.allocate([(b"k", b"pending")])
    return cache


def status_in_thread(call):
    """The status of a call that another thread makes: it doesn't wait for ever."""
    told = []
    thread = threading.Thread(target=lambda: told.append(status_of(call)), daemon=True)
    thread.start()
    thread.join(10)
    return told[0]


def goes_on_or_is_stuck(cache, path, wanted):
    """Whether the cache goes on, whose durable pages are there when it is opened again. The one that was pending may be."""
    status = status_in_thread(cache.flush)
    if status == OK:
        assert [cache.get(page).pairs[0][1] for page in (2, 3, 4)] == [*wanted, b"pending"]
        page, _ = cache.allocate([(b"k", b"later")])
        assert page == 5
        cache.flush()
        wanted = [*wanted, b"pending", b"later"]
    else:
        assert status == WRITE
        assert all(status_of(getattr(cache, name), *arguments) == WRITE for name, arguments in CALLS.items() if name != "cas_root")
    cache.close()
    found = pages_of(path)
    assert found == wanted or status == WRITE and found == [*wanted, b"pending"], (found, status)


def compact(path):
    cache = filled(path)
    before = open_descriptors()
    yield cache.compact
    assert open_descriptors() == before
    goes_on_or_is_stuck(cache, path, [b"v" * 5000, b"second"])
    with FileCache(path) as again:
        again.compact()
    assert os.listdir(os.path.dirname(path)) == ["pages"]


def flush(path):
    cache = filled(path)
    before = open_descriptors()
    yield cache.flush
    assert open_descriptors() == before
    goes_on_or_is_stuck(cache, path, [b"v" * 5000, b"second"])


def close(path):
    cache = filled(path)
    yield cache.close
    cache.close()
    assert pages_of(path) == [b"v" * 5000, b"second"]


def construct(make):
    def case(path):
        wanted = make(path)
        before = open_descriptors()
        yield lambda: FileCache(path)
        assert open_descriptors() == before
        # it isn't locked
        assert pages_of(path) == wanted
        assert os.listdir(os.path.dirname(path)) == ["pages"] or not wanted
        with FileCache(path) as cache:
            cache.compact()
        assert os.listdir(os.path.dirname(path)) == ["pages"]

    return case


def absent(path):
    return []


def empty(path):
    open(path, "wb").close()
    return []


def existing(path):
    filled(path).close()
    return [b"v" * 5000, b"second"]


def compact_in_memory(_):
    cache = Cache()
    page, _ = cache.allocate([(b"k", b"v")])
    yield cache.compact
    assert cache.get(page).pairs == [(b"k", b"v")]
    assert status_of(cache.compact) == OK


# ---- The cases of maps.

# A file is rewritten as often as it may be, at once or in many steps.
ALWAYS = dilluvas.CompactAt(2, 0, sys.maxsize)
AT_ONCE, IN_STEPS = ALWAYS._replace(step=0), ALWAYS._replace(step=1)

# It is written at once.
SMALL = {"capacity": 256, "segment_size": 64}
BEFORE = {b"%02d" % number: b"v" * 20 for number in range(40)}


def filled_maps(path):
    """A db with pairs that are durable, most of which aren't in memory, and one that isn't durable."""
    with dilluvas.open(path) as db:
        db["m"].update(BEFORE)
    db = dilluvas.open(path, **SMALL)
    db["other"][b"pending"] = b""
    return db


def maps_of(db):
    return dict(db["m"]), dict(db["other"])


def maps_go_on(db, path, *changed):
    """Whether the db goes on, or is stuck, with what was there, or what the call has changed it to, and what it has durable."""
    pending = {b"pending": b""}
    outcomes = [(BEFORE, pending), *changed]
    status = status_in_thread(db.flush)
    if status == OK:
        found = maps_of(db)
        assert found in outcomes
        with db.batch():
            db["other"][b"later"] = b""
        assert status_in_thread(db.flush) == OK
        outcomes = [(found[0], {**found[1], b"later": b""})]
    else:
        assert status == WRITE and status_of(db.generate_id) == status_of(db["m"].clear) == status_of(db.maps) == WRITE
        outcomes += [(m, {}) for m, _ in outcomes]
    db.close()
    with dilluvas.open(path) as again:
        assert maps_of(again) in outcomes, (status, maps_of(again)[1])
    assert os.listdir(os.path.dirname(path)) == [os.path.basename(path)]


def maps_case(call, *changed):
    def case(path):
        db = filled_maps(path)
        before = open_descriptors()
        yield lambda: call(db)
        assert open_descriptors() == before
        maps_go_on(db, path, *changed)

    return case


def set_one(db):
    db["m"][b"20"] = b"w" * 100


def take_one(db):
    assert db["m"].pop(b"20") == b"v" * 20


def set_in_batch(db):
    with db.batch():
        db["m"][b"20"] = b"w" * 100
        db["other"][b"20"] = b"w" * 100


def leave_batch(db):
    with contextlib.suppress(LookupError), db.batch():
        db["m"][b"20"] = b"w" * 100
        raise LookupError


def walk(db):
    assert list(db["m"].irange(b"12", b"20")) == sorted(BEFORE.items())[12:20] and len(db["m"]) == 40
    assert [key for key, _ in db["m"].irange(b"14", b"17", reverse=True)] == [b"16", b"15", b"14"]


def flush_and_rewrite(compact_at):
    def case(path):
        db = filled_maps(path)
        db.compact_at = compact_at
        before, length = open_descriptors(), db.size_on_disk()

        def flush():
            db.flush()
            assert db.size_on_disk() < length

        yield flush
        assert before <= open_descriptors() <= before + 2 * db._cache.is_rewriting
        # the next opening removes what it left
        maps_go_on(db, path)

    return case


def in_steps(call, is_begun=True):
    """Interrupts a call while the file is rewritten in steps: nothing is left half done, and the next rewriting comes to its end."""

    def case(path):
        db = filled_maps(path)
        before = open_descriptors()
        db.compact_at = IN_STEPS
        if is_begun:
            db.flush()
            assert db._cache.is_rewriting
        yield lambda: call(db)
        if not db.closed:
            # the new file, and its folder
            assert before <= open_descriptors() <= before + 2 * db._cache.is_rewriting
        if not db.closed and status_in_thread(db.flush) == OK:
            db.compact_at = ALWAYS
            assert status_in_thread(db.flush) == OK and not db._cache.is_rewriting
            assert open_descriptors() == before and db.size_on_disk() < 2 * db._cache.live()
        assert status_in_thread(db.close) == OK
        assert open_descriptors() == before - 1
        maps_go_on(dilluvas.open(path), path, (BEFORE, {}))

    return case


def end_rewriting(db):
    db.compact_at = None
    db.flush()


def leave_db(path):
    db = filled_maps(path)

    def leave():
        with db:
            db["m"][b"20"] = b"w" * 100

    yield leave
    assert status_in_thread(db.close) == OK
    with dilluvas.open(path) as again:
        assert maps_of(again) in [(m, other) for m in (BEFORE, AFTER) for other in ({}, {b"pending": b""})]


def open_db(path):
    filled_maps(path).close()
    before = open_descriptors()
    yield lambda: dilluvas.open(path, **SMALL)
    assert open_descriptors() == before
    maps_go_on(dilluvas.open(path), path, (BEFORE, {}))


PENDING, AFTER = {b"pending": b""}, {**BEFORE, b"20": b"w" * 100}
MAPS = (
    maps_case(set_one, (AFTER, PENDING)),
    maps_case(take_one, ({key: value for key, value in BEFORE.items() if key != b"20"}, PENDING)),
    maps_case(set_in_batch, (AFTER, PENDING), (AFTER, {**PENDING, b"20": b"w" * 100})),
    maps_case(leave_batch, (AFTER, PENDING)),
    maps_case(walk),
    flush_and_rewrite(ALWAYS),
    flush_and_rewrite(AT_ONCE),
    in_steps(lambda db: db.flush(), is_begun=False),
    in_steps(lambda db: db.flush()),
    in_steps(end_rewriting),
    in_steps(lambda db: db.compact()),
    in_steps(lambda db: db.close()),
    maps_case(lambda db: db["m"].clear(), ({}, PENDING)),
    leave_db,
    open_db,
)

# ---- Signals, which come where no line begins.


def signals(path, compact_at):
    """Interrupts at any moment, by a timer: no lock is left, each goes on or is refused, and what is durable is whole."""
    choose, statuses, came = random.Random(1), set(), []

    def interrupt(*_):
        came.append(True)
        raise KeyboardInterrupt

    signal.signal(signal.SIGALRM, interrupt)
    db = dilluvas.open(path, compact_at=compact_at, **SMALL)
    for _ in range(300):
        try:
            signal.setitimer(signal.ITIMER_REAL, 0.0001 + choose.random() / 100)
            change_until(came, db, choose)
        except KeyboardInterrupt:
            pass
        came.clear()
        status = status_in_thread(db.flush)
        statuses.add(status)
        if status == WRITE:
            db.close()
            db = dilluvas.open(path, compact_at=compact_at, **SMALL)
        with db.batch():
            assert list(db["one"]) == sorted(db["one"]) and len(db["two"]) <= 40
        assert status_in_thread(db.flush) == OK
    db.close()
    assert statuses == {OK, WRITE}


def change_until(came, db, choose):
    # one that falls into a finalizer is told to nobody
    while not came:
        key = b"%d" % choose.randrange(40)
        with db.batch():
            db["one"][key] = db["two"][key] = key * 20
        assert dict(db["one"].items()).get(key) == db["one"].get(key) == key * 20
        db["one"].pop(key)
        db.flush()


sys.unraisablehook = lambda found: unraised.append(found.exc_type)
CASES = compact, flush, close, compact_in_memory, *map(construct, (absent, empty, existing)), *MAPS
numbers = [lines_of(case) for case in CASES]
with tempfile.TemporaryDirectory(dir=PLACE) as made:
    for number, rule in enumerate((ALWAYS, IN_STEPS)):
        raised = len(unraised)
        with memory_counted() as counts:
            signals(os.path.join(made, f"maps {number}"), rule)
        # an exception that comes into a finalizer leaves what that would have freed, and a count may be interrupted too
        assert counts["begin"] - counts["end"] <= len(unraised) - raised + 5 and counts["begin"] > 20, counts
assert set(unraised) <= {KeyboardInterrupt}, unraised
print("interrupted:", sum(numbers), "lines")
