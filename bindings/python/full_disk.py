"""A file on a disk that gets full: what doesn't fit is refused before it is begun, and all else goes on.

The disk is a file system in memory, which only root may mount. Where it can't be mounted that is said, and nothing is looked at.
"""

import contextlib
import errno
import os
import pickle
import shutil
import subprocess
import sys
import tempfile

import dilluvas
import steps
from dilluvas import DISK_FULL, DiskFull, FileCache, Refused
from inputs import answer_in, in_child, is_raised, status_of

PLACE = "/dev/shm" if os.path.isdir("/dev/shm") else None
SMALL = {"capacity": 4096, "segment_size": 4096}


class Disk:
    """A file system of so many kilobytes, which is gone behind its test."""

    def __init__(self, folder, kilobytes):
        self.place, self.elsewhere = os.path.join(folder, "disk"), os.path.join(folder, "elsewhere")
        self.path = os.path.join(self.place, "maps")
        os.mkdir(self.place)
        self.is_there = self._mount(f"size={kilobytes}k", "-t", "tmpfs", "none").returncode == 0

    def _mount(self, options, *words):
        return subprocess.run(("mount", "-o", options, *words, self.place), capture_output=True, check=False)

    def set_size(self, kilobytes):
        assert self._mount(f"remount,size={kilobytes}k").returncode == 0

    def fill(self):
        """Another program takes what is left."""
        with open(os.path.join(self.place, "other"), "ab", 0) as other, contextlib.suppress(OSError):
            while True:
                other.write(bytes(4096))

    def close(self):
        if self.is_there:
            subprocess.run(("umount", "-l", self.place), check=True)


def value_of(key, length):
    return key.to_bytes(4, "big") * (length // 4)


def fill(db, key, length, is_flushed=True):
    """Sets key by key until one is refused, and answers how many there are then."""
    while True:
        try:
            db["m"][key.to_bytes(4, "big")] = value_of(key, length)
        except DiskFull as full:
            assert full.status == DISK_FULL and "the disk has no room" in str(full)
            return key
        if key % 64 == 0 and is_flushed:
            db.flush()
        key += 1


def check(db, keys, length):
    assert list(db["m"].items()) == [(key.to_bytes(4, "big"), value_of(key, length)) for key in range(keys)]
    assert len(db["m"]) == keys and (keys == 0 or db["m"].last()[0] == (keys - 1).to_bytes(4, "big"))


def reads_and_flushes_go_on(disk, length=400, **settings):
    with dilluvas.open(disk.path, **settings) as db:
        keys = fill(db, 0, length)
        assert keys > 10
        for _ in range(3):
            check(db, keys, length)
            assert fill(db, keys, length) == keys
            db.flush()
        found = db["m"]
        for change in (
            lambda: db.batch().__enter__(), lambda: found.pop(b"\0\0\0\0"), found.popitem, db.generate_id,
            lambda: found.setdefault(b"k", b"v"), lambda: found.compare_and_swap(b"k", None, b"v"), lambda: db["new"].update({b"k": b"v"}),
            lambda: found.__delitem__(b"absent"),
        ):  # fmt: skip
            assert is_raised(DiskFull, change)
        if length < 10000:
            # a map of long values is dropped by less than one of them
            assert is_raised(DiskFull, found.clear) and is_raised(DiskFull, db.__delitem__, "m")
        check(db, keys, length)
        # a process that is killed leaves what is there now
        shutil.copyfile(disk.path, disk.elsewhere)
        with dilluvas.open(disk.elsewhere, **settings) as other:
            check(other, keys, length)

        disk.set_size(16384)
        for key in range(keys, keys + 50):
            found[key.to_bytes(4, "big")] = value_of(key, length)
        db.flush()
        db.compact()
        check(db, keys + 50, length)
    with dilluvas.open(disk.path, **settings) as db:
        check(db, keys + 50, length)
        db["m"].clear()
        assert db["m"] == {} and db.maps() == [b"m"]


def small_segments(disk):
    reads_and_flushes_go_on(disk, **SMALL)


def long_values(disk):
    disk.set_size(4096)
    reads_and_flushes_go_on(disk, 20000, **SMALL)


def usual_settings(disk):
    disk.set_size(4096)
    reads_and_flushes_go_on(disk, 1000)


def a_rewriting_gives_room(disk):
    """A disk that is full of what is needless has room behind a rewriting, again and again."""
    rewritten = 0
    with dilluvas.open(disk.path, **SMALL) as db:
        for number in range(200):
            for key in range(50):
                new = b"%d" % key, b"%d" % number * 100
                try:
                    db["m"][new[0]] = new[1]
                except DiskFull:
                    db.compact()
                    db["m"][new[0]] = new[1]
                    rewritten += 1
            if number % 3 == 0:
                db.flush()
        assert set(db["m"].values()) == {b"199" * 100} and len(db["m"]) == 50 and rewritten >= 5
    with dilluvas.open(disk.path) as db:
        assert set(db["m"].values()) == {b"199" * 100}


def flushes_that_rewrite_need_no_more(disk):
    """A disk of a multiple of what the pages take never gets full."""
    with dilluvas.open(disk.path, compact_at=dilluvas.CompactAt(least=0, step=0), **SMALL) as db:
        for number in range(300):
            for key in range(50):
                db["m"][b"%d" % key] = b"%d" % number * 100
            db.flush()


def neither_do_steps(disk):
    disk.set_size(20480)
    for step in (1, 1000, steps.DEFAULT):
        with dilluvas.open(disk.path, compact_at=steps.at(step)) as db:
            for number in range(60):
                steps.fill(db, number)
                db.flush()
            assert steps.is_filled(db, 59)
        os.unlink(disk.path)


def a_change_has_the_room_of_a_rewriting(disk):
    """A change that has no room else ends the rewriting, and is made."""
    disk.set_size(32768)
    with steps.begun(disk.path, written=800000, **SMALL) as db:
        disk.fill()
        count = 0
        while db._cache.is_rewriting:
            # it is the first one that would be refused
            db["n"][b"%05d" % count] = bytes(1000)
            count += 1
        assert count > 0 and sorted(os.listdir(disk.place)) == ["maps", "other"] and steps.failing(db) == (DISK_FULL, None)
        with contextlib.suppress(DiskFull):
            while True:
                db["n"][b"%05d" % count] = bytes(1000)
                count += 1
        # no other begins: it would have no room
        for _ in range(3):
            db.flush()
            assert not db._cache.is_rewriting
        assert steps.is_filled(db, 3) and len(db["n"]) == count
        os.unlink(os.path.join(disk.place, "other"))
        db.compact()
        assert steps.is_filled(db, 3) and len(db["n"]) == count and db.rewriting_failure is None
    with dilluvas.open(disk.path) as db:
        assert steps.is_filled(db, 3) and len(db["n"]) == count


def a_map_is_dropped_in_the_room_of_a_rewriting(disk):
    disk.set_size(32768)
    with steps.begun(disk.path, written=800000, segment_size=4096) as db:
        db._cache._kept.give_back()
        disk.fill()
        # neither this alone is enough, nor what the new file takes
        other = os.path.join(disk.place, "other")
        os.truncate(other, os.path.getsize(other) - 800000)
        del db["m"]
        assert db.maps() == [] and not db._cache.is_rewriting and sorted(os.listdir(disk.place)) == ["maps", "other"]


def steps_without_room(disk):
    """A step that can't be written ends the rewriting, and leaves the flush."""
    disk.set_size(32768)
    with steps.begun(disk.path) as db:
        disk.fill()
        before = os.stat(disk.path)
        while db._cache.is_rewriting:
            assert db.flush() == 0
        after = os.stat(disk.path)
        assert (after.st_ino, after.st_size) == (before.st_ino, before.st_size) and sorted(os.listdir(disk.place)) == ["maps", "other"]
        assert steps.is_filled(db, 3) and steps.failing(db) == (DISK_FULL, errno.ENOSPC)
        disk.set_size(98304)
        # it is tried again once the file has grown by half
        while os.stat(disk.path).st_ino == before.st_ino and os.path.getsize(disk.path) < 2 * before.st_size:
            steps.fill(db, 4)
            db.flush()
            steps.until_ended(db)
        assert os.stat(disk.path).st_ino != before.st_ino and steps.is_filled(db, 4) and db.rewriting_failure is None
    with dilluvas.open(disk.path) as db:
        assert steps.is_filled(db, 4)


def none_begins_without_room(disk):
    disk.set_size(24576)
    with dilluvas.open(disk.path, compact_at=None) as db:
        for number in range(4):
            steps.fill(db, number)
            db.flush()
        db.compact_at = steps.at(1)
        for _ in range(3):
            assert db.flush() == 0 and not db._cache.is_rewriting and os.listdir(disk.place) == ["maps"]
            assert steps.failing(db) == (DISK_FULL, None) and isinstance(db.rewriting_failure, DiskFull)
        disk.set_size(49152)
        assert db.flush() == 0 and not db._cache.is_rewriting
        db.compact_at = steps.at(1)
        assert db.flush() == 0 and db._cache.is_rewriting and steps.failing(db) == (DISK_FULL, None)
        steps.until_ended(db)
        assert steps.is_filled(db, 3) and db.size_on_disk() < 2 * steps.KEYS * steps.VALUE and db.rewriting_failure is None


def a_rewriting_without_room_is_refused(disk):
    with dilluvas.open(disk.path, **SMALL) as db:
        keys = fill(db, 0, 400)
        for _ in range(3):
            assert is_raised(DiskFull, db.compact) and os.listdir(disk.place) == ["maps"]
            check(db, keys, 400)
        shutil.copyfile(disk.path, disk.elsewhere)
        with dilluvas.open(disk.elsewhere) as other:
            check(other, keys, 400)
        disk.set_size(4096)
        db.compact()
        assert fill(db, keys, 400) > keys


def what_others_take_and_give_back(disk):
    with dilluvas.open(disk.path, **SMALL) as db:
        for key in range(100):
            db["m"][key.to_bytes(4, "big")] = value_of(key, 400)
        disk.fill()
        # there is room for what is pending, and for some more
        keys = fill(db, 100, 400)
    disk.fill()
    with dilluvas.open(disk.path, **SMALL) as db:
        check(db, keys, 400)
        assert fill(db, keys, 400) == keys
        os.unlink(os.path.join(disk.place, "other"))
        assert fill(db, keys, 400) > keys + 200


def none_is_made_without_room(disk):
    disk.fill()
    assert is_raised(DiskFull, dilluvas.open, disk.path) and status_of(FileCache, disk.path) == DISK_FULL
    assert os.listdir(disk.place) == ["other"]
    os.unlink(os.path.join(disk.place, "other"))
    dilluvas.open(disk.path, **SMALL).close()


def room_goes_back(disk):
    def taken():
        return os.stat(disk.path).st_blocks * 512

    with dilluvas.open(disk.path, **SMALL) as db:
        db["m"][b"k"] = b"v"
        assert taken() > 65536

        def in_a_child():
            # the room is the parent's, and so is the file
            db["m"][b"childs"] = b""
            db.close()
            return 0

        assert answer_in(in_child(in_a_child)) == 0
        assert taken() > 65536
    assert taken() <= 8192
    with dilluvas.open(disk.path) as db:
        assert db["m"] == {b"k": b"v"}


def pages_too(disk):
    with FileCache(disk.path, **SMALL) as cache:
        pages = []
        with contextlib.suppress(DiskFull):
            while True:
                pages.append(cache.allocate([(b"k", b"v" * 500)]))
        page, stamp = pages[0]
        for name, arguments in {
            "allocate": (), "set": (page, stamp, b"", b""), "delete": (page, stamp, b""), "replace": (page, stamp, []), "pin": (),
            "free": (page, stamp), "cas_root": (b"", None, 2), "open_tree": (b"",), "generate_id": (),
        }.items():  # fmt: skip
            assert status_of(getattr(cache, name), *arguments) == DISK_FULL, name
        cache.flush()
        assert all(cache.get(page).stamp == stamp and cache.get(page).pairs == [(b"k", b"v" * 500)] for page, stamp in pages)
        disk.set_size(4096)
        cache.free(page, stamp)
        cache.flush()


def a_batch_without_room(disk):
    """One that is closed within is there in no part, and one that goes on has what was set."""
    with dilluvas.open(disk.path, **SMALL) as db:
        db["m"][b"k"] = b"v"
    with contextlib.suppress(DiskFull), dilluvas.open(disk.path, **SMALL) as db, db.batch():
        try:
            for number in range(100000):
                db["m"][b"%d" % number] = b"v" * 400
        except DiskFull:
            db.close()
            raise
    with dilluvas.open(disk.path, **SMALL) as db:
        assert db["m"] == {b"k": b"v"} and number > 500
        db.compact()
        with db.batch():
            assert fill(db, 0, 400, is_flushed=False) > 500
        db.flush()
        found = dict(db["m"])
    with dilluvas.open(disk.path, **SMALL) as db:
        assert db["m"] == found and len(found) > 500


def one_long_value(disk):
    """What a disk has no room for is refused, and less isn't, before or behind it."""
    disk.set_size(16384)
    with dilluvas.open(disk.path, **SMALL) as db:
        db["m"][b"k"] = b"v"
        for length in (1 << 22, 1 << 23):
            assert is_raised(DiskFull, db["m"].__setitem__, b"k", bytes(length)) and db["m"][b"k"] == b"v"
        disk.set_size(32768)
        db["m"][b"k"] = bytes(1 << 22)
        db["m"][b"l"] = b"v"
        db.flush()
    with dilluvas.open(disk.path, **SMALL) as db:
        assert db["m"] == {b"k": bytes(1 << 22), b"l": b"v"}


def where_none_is_kept(disk):
    """Where the system keeps no room a write fails, and each later call; what was flushed is there."""
    kept, dilluvas._room.fallocate = dilluvas._room.fallocate, lambda *_: False
    try:
        with contextlib.suppress(Refused), dilluvas.open(disk.path, **SMALL) as db:
            db["m"][b"k"] = b"v"
            db.flush()
            for number in range(10000):
                db["m"][b"%d" % number] = b"v" * 1000
        assert status_of(db.flush) == dilluvas.NOT_OPEN
    finally:
        dilluvas._room.fallocate = kept
    with dilluvas.open(disk.path, **SMALL) as db:
        assert db["m"][b"k"] == b"v"


def is_an_error():
    full = pickle.loads(pickle.dumps(DiskFull()))
    assert isinstance(full, Refused) and type(full) is DiskFull and full.status == DISK_FULL
    assert str(full) == dilluvas.text_of(DISK_FULL) == "the disk has no room for the change, and nothing was changed"
    assert type(dilluvas._errors.refusal(OSError(errno.EDQUOT, ""), dilluvas.WRITE)) is DiskFull


TESTS = (
    small_segments, long_values, usual_settings, a_rewriting_gives_room, flushes_that_rewrite_need_no_more, neither_do_steps,
    a_change_has_the_room_of_a_rewriting, a_map_is_dropped_in_the_room_of_a_rewriting, steps_without_room, none_begins_without_room,
    a_rewriting_without_room_is_refused, what_others_take_and_give_back, none_is_made_without_room, room_goes_back, pages_too,
    a_batch_without_room, one_long_value, where_none_is_kept,
)  # fmt: skip

is_an_error()
for test in TESTS:
    with tempfile.TemporaryDirectory(dir=PLACE) as made, contextlib.closing(Disk(made, 1024)) as disk:
        if not disk.is_there:
            print("full_disk: no file system can be mounted: nothing is looked at")
            sys.exit()
        test(disk)
