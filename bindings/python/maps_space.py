"""Files that flushes rewrite, as `compact_at` says, and files that stay as they are."""

import contextlib
import os
import sys
import tempfile
import threading

import dilluvas
import steps
import steps_attacked
from dilluvas import CompactAt, Refused
from inputs import is_raised

PLACE = "/dev/shm" if os.path.isdir("/dev/shm") else None
KEYS, VALUE = 1000, 1000
ALWAYS = sys.maxsize


def overwrite(db, number):
    """Sets each of the keys to a new value, and flushes."""
    for key in range(KEYS):
        db["m"][key.to_bytes(4, "big")] = number.to_bytes(4, "big") + b"v" * (VALUE - 4)
        if key % 250 == 249:
            db.flush()


def check(db, number):
    wanted = ((key.to_bytes(4, "big"), number.to_bytes(4, "big") + b"v" * (VALUE - 4)) for key in range(KEYS))
    assert list(db["m"].items()) == list(wanted)


def stays_short(path):
    # what is written between two flushes comes on top: 250 values, and the pages that they lie on
    most, longest = CompactAt().least + (8 << 20), 0
    with dilluvas.open(path) as db:
        assert db.compact_at == CompactAt(4, 16 << 20, 2**64 - 1, 4 << 20)
        for number in range(60):
            overwrite(db, number)
            longest = max(longest, os.path.getsize(path))
        check(db, 59)
    assert 12 << 20 < longest < most, longest
    assert os.listdir(os.path.dirname(path)) == ["maps"]
    with dilluvas.open(path) as db:
        check(db, 59)


def at_so_many_times(path, step):
    with dilluvas.open(path, compact_at=CompactAt(times=3, least=0, step=step)) as db:
        overwrite(db, 0)
        db.compact()
        live = os.path.getsize(path)
        for number in range(1, 15):
            overwrite(db, number)
            # it is looked at by the eighth, and some is written between two flushes
            assert os.path.getsize(path) < 5 * live
            check(db, number)
            # it is done in one flush
            assert step != 0 or not db._cache.is_rewriting
        db.compact()
        assert db._cache.live() <= db.size_on_disk() < 2 * live


def is_rewritten_at_the_end(path, step):
    """A program that flushes at the end of its `with` alone has a short file too."""
    sizes = []
    for number in range(12):
        with dilluvas.open(path, compact_at=CompactAt(least=0, step=step)) as db:
            for key in range(100):
                db["m"][b"%d" % key] = b"%d" % number * 500
        sizes.append(os.path.getsize(path))
    assert max(sizes) < 6 * sizes[0] and any(later < one for one, later in zip(sizes, sizes[1:])), sizes


def stays_as_it_is(path):
    for at in (None, CompactAt(2, ALWAYS, ALWAYS), CompactAt(2, 0, 1), CompactAt(ALWAYS, 0, ALWAYS)):
        with dilluvas.open(path) as db:
            db.compact_at = at
            assert db.compact_at == at
            before = 0
            for number in range(6):
                overwrite(db, number)
                assert os.path.getsize(path) > before, at
                before = os.path.getsize(path)
            assert before > 6 * KEYS * VALUE, at
            check(db, 5)
        os.unlink(path)


def is_tried_again(path, step):
    """A rewriting that is refused leaves the flush as it is."""
    with dilluvas.open(path, compact_at=CompactAt(2, 0, ALWAYS, step)) as db:
        # no file can be made by the other name
        os.mkdir(path + ".dilluvas-new")
        for number in range(6):
            overwrite(db, number)
        check(db, 5)
        long = os.path.getsize(path)
        assert long > 6 * KEYS * VALUE and steps.failing(db) == (dilluvas.NO_FILE, None)
        os.rmdir(path + ".dilluvas-new")
        for number in range(6, 12):
            overwrite(db, number)
        check(db, 11)
        assert os.path.getsize(path) < long and db.rewriting_failure is None


def in_batches_and_memory(path, step):
    """No batch is cut by one, and nothing is rewritten in memory."""
    for place in (path, ":memory:"):
        with dilluvas.open(place, compact_at=CompactAt(2, 0, ALWAYS, step)) as db:
            for number in range(5):
                with db.batch():
                    for key in range(200):
                        db["m"][b"%d" % key] = b"%d" % number * 1000
                    assert is_raised(Refused, db.flush) and is_raised(Refused, db.compact)
                db.flush()
            assert set(db["m"].values()) == {b"4" * 1000}


def by_threads(path, step):
    """Threads that flush at once lose nothing, and rewrite it one at a time."""
    with dilluvas.open(path, compact_at=CompactAt(2, 0, ALWAYS, step)) as db:

        def change(name):
            for number in range(300):
                db[name][b"k"] = b"%d" % number * 100
                db.flush()

        threads = [threading.Thread(target=change, args=(f"{number}",)) for number in range(4)]
        for thread in threads:
            thread.start()
        for thread in threads:
            thread.join()
    with dilluvas.open(path) as db:
        assert [db[name][b"k"] for name in db] == [b"299" * 100] * 4
    assert os.path.getsize(path) < 100000


def what_is_no_compact_at(path):
    for wrong in (4, "4", (4, 0, 1), True, {}):
        assert is_raised(TypeError, dilluvas.open, path, compact_at=wrong)
        assert not os.path.exists(path)
    for wrong, error in (
        (CompactAt("4"), TypeError), (CompactAt(least=1.5), TypeError), (CompactAt(most=-1), OverflowError), (CompactAt(step=None), TypeError),
        (CompactAt(step=2**64), OverflowError),
    ):  # fmt: skip
        assert is_raised(error, dilluvas.open, path, compact_at=wrong)
        assert not os.path.exists(path)
    with dilluvas.open(path) as db:
        assert is_raised(TypeError, setattr, db, "compact_at", 4) and db.compact_at == CompactAt()
        db.close()
        assert db.compact_at == CompactAt() and is_raised(dilluvas.Closed, db.flush) and is_raised(ValueError, db.compact)


def at_once_and_in_steps(test):
    def both(path):
        for step in (0, CompactAt().step):
            test(path, step)
            os.unlink(path)

    return both


TESTS = (
    stays_short, stays_as_it_is, what_is_no_compact_at,
    *map(at_once_and_in_steps, (at_so_many_times, is_rewritten_at_the_end, is_tried_again, in_batches_and_memory, by_threads)),
    *steps.TESTS, *steps_attacked.TESTS,
)  # fmt: skip

for test in TESTS:
    with contextlib.ExitStack() as stack:
        test(os.path.join(stack.enter_context(tempfile.TemporaryDirectory(dir=PLACE)), "maps"))
