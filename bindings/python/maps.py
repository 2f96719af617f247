"""Ordered maps: each call with what it is documented to answer and to refuse, and random lists of calls (lists.py)."""

import contextlib
import os
import random
import tempfile

import dilluvas
import lists
from dilluvas import KEY_TOO_LONG, READ, VALUE_TOO_LONG, Closed, Map, Refused, TooLong
from inputs import is_raised, status_of

PLACE = "/dev/shm" if os.path.isdir("/dev/shm") else None


def as_a_mapping(db):
    fruit = db["fruit"]
    assert isinstance(fruit, Map) and fruit.name == b"fruit" and fruit == {} and not fruit and fruit.first() is None and "fruit" not in db
    assert list(fruit) == list(fruit.irange(reverse=True)) == [] and is_raised(KeyError, fruit.popitem) and fruit.pop(b"k", None) is None
    fruit.update({b"lime": b"green", b"apple": b"red"})
    fruit.update([(bytearray(b"plum"), memoryview(b"-blue-")[1:5])])
    fruit[b""] = b""
    assert "fruit" in db and b"fruit" in db and db[memoryview(b"fruit")] == fruit
    assert list(fruit.items()) == [(b"", b""), (b"apple", b"red"), (b"lime", b"green"), (b"plum", b"blue")]
    assert fruit[bytearray(b"plum")] == b"blue" and fruit[memoryview(b"lime")] == b"green" and bytearray(b"lime") in fruit
    assert type(fruit.first()[0]) is bytes and fruit.pop(b"") == b"" and b"" not in fruit
    assert fruit.keys() & {b"lime", b"x"} == {b"lime"} and (b"lime", b"green") in fruit.items() and (b"lime", b"red") not in fruit.items()
    assert b"red" in fruit.values() and b"yellow" not in fruit.values() and len(fruit.items()) == len(fruit.values()) == 3
    assert list(reversed(fruit)) == list(reversed(fruit.keys())) == [b"plum", b"lime", b"apple"]
    assert list(reversed(fruit.values())) == [b"blue", b"green", b"red"]
    assert list(fruit.irange(b"b")) == [(b"lime", b"green"), (b"plum", b"blue")] and list(fruit.irange(b"z", b"a")) == []
    assert list(fruit.irange(b"lime", b"lime", (True, True))) == [(b"lime", b"green")] and list(fruit.irange(b"lime", b"lime")) == []
    assert fruit.setdefault(b"lime", b"x") == b"green" and fruit.setdefault(b"fig", b"x") == b"x" and fruit.popitem() == (b"plum", b"blue")
    assert fruit == {b"apple": b"red", b"fig": b"x", b"lime": b"green"} and fruit != {b"apple": b"red"} and fruit != {**fruit, b"more": b""}
    assert fruit != [] and fruit != {"apple": b"red"} and fruit != {**fruit, b"fig": b"y"}
    db["other"].update(fruit)
    assert db["other"] == fruit and db["other"] is not db["other"] and db["third"] != fruit
    db["other"][b"z"] = b""
    assert db["other"] != fruit and is_raised(TypeError, hash, fruit)
    fruit.clear()
    assert fruit == {} and "fruit" in db and db.maps() == [b"fruit", b"other"]
    del db["other"]
    assert db.maps() == [b"fruit"] and db["other"] == {}
    db["\u00fcber"][b"k"] = b"v"
    assert db.maps() == [b"fruit", b"\xc3\xbcber"] and "\u00fcber" in db


def swaps(db):
    found = db["swaps"]
    assert not found.compare_and_swap(b"k", b"", b"1") and found.compare_and_swap(b"k", None, None) and "swaps" not in db
    assert found.compare_and_swap(b"k", None, b"") and not found.compare_and_swap(b"k", None, b"1") and found[b"k"] == b""
    assert found.compare_and_swap(b"k", b"", b"2") and not found.compare_and_swap(b"k", b"2 and more", b"3") and found[b"k"] == b"2"
    assert found.compare_and_swap(b"k", bytearray(b"2"), None) and b"k" not in found


def many(db):
    """Keys that are set in any order come in theirs."""
    found, keys = db["many"], [b"%d" % number for number in range(10000)]
    random.Random(1).shuffle(keys)
    for key in keys:
        found[key] = key[::-1]
    keys.sort()
    assert len(found) == 10000 and list(found.items()) == [(key, key[::-1]) for key in keys]
    assert list(reversed(found)) == keys[::-1] and [key for key, _ in found.irange(b"5", b"6")] == [key for key in keys if key[:1] == b"5"]
    for key in keys[::2]:
        del found[key]
    assert list(found) == keys[1::2] and found.first()[0] == keys[1] and len(found) == 5000
    found.clear()
    assert not found and list(found) == []


def long(db):
    """Long keys, values and names are taken up to what the library takes, and then named."""
    for length in (15, 16, 255, 256, 65535, 65536, 1 << 20):
        db[b"n" * length][b"k" * length] = b"v" * length
        assert dict(db[b"n" * length]) == {b"k" * length: b"v" * length} and db.maps()[-1] == b"n" * length
        assert list(db[b"n" * length].irange(reverse=True)) == [(b"k" * length, b"v" * length)]
        del db[b"n" * length]
    if os.sysconf("SC_PAGE_SIZE") * os.sysconf("SC_PHYS_PAGES") < 4 << 30:
        return
    long = bytes(1 << 31)
    for call, status in (
        (lambda: db["long"].__setitem__(long, b""), KEY_TOO_LONG),
        (lambda: db["long"].__setitem__(b"", long), VALUE_TOO_LONG),
        (lambda: db["long"].compare_and_swap(long, None, b""), KEY_TOO_LONG),
        (lambda: db["long"].compare_and_swap(b"", None, long), VALUE_TOO_LONG),
    ):
        assert is_raised(TooLong, call) and is_raised(ValueError, call) and status_of(call) == status
    assert long not in db["long"] and db["long"] == {}


def wrong_arguments(db):
    found = db["wrong"]
    found[b"k"] = b"v"
    for wrong in ("text", 7, None, 1.5, [b"k"], [1, 2]):
        for call in (
            lambda wrong: found[wrong], lambda wrong: found.__setitem__(wrong, b""), lambda wrong: found.__setitem__(b"", wrong),
            lambda wrong: found.__delitem__(wrong), lambda wrong: wrong in found, found.get, lambda wrong: found.get(wrong, b""), found.pop,
            lambda wrong: found.pop(wrong, b""), lambda wrong: found.setdefault(wrong, b""), lambda wrong: found.setdefault(b"", wrong),
            lambda wrong: found.setdefault(b"k", wrong), lambda wrong: found.compare_and_swap(wrong, None, b""),
            lambda wrong: found.update({wrong: b""} if isinstance(wrong, str) else [(wrong, b"")]),
        ):  # fmt: skip
            assert is_raised(TypeError, call, wrong), (call, wrong)
        if wrong is not None:
            for call in (found.irange, lambda wrong: found.irange(b"", wrong), lambda wrong: found.irange(wrong, reverse=True)):
                assert is_raised(TypeError, call, wrong)
            assert is_raised(TypeError, found.compare_and_swap, b"", wrong, b"")
            assert is_raised(TypeError, found.compare_and_swap, b"", b"", wrong)
        if not isinstance(wrong, str):
            assert is_raised(TypeError, db.__getitem__, wrong) and is_raised(TypeError, db.__contains__, wrong)
            assert is_raised(TypeError, db.__delitem__, wrong)
    try:
        found["text"] = b""
    except TypeError as error:
        assert "encode" in str(error) and "'text'" in str(error)
    assert is_raised(UnicodeEncodeError, db.__getitem__, "\ud800") and is_raised((TypeError, ValueError), found.irange, b"", b"", True)
    assert is_raised(KeyError, found.__getitem__, b"absent") and is_raised(KeyError, found.__delitem__, b"absent")
    assert is_raised(KeyError, found.pop, b"absent") and is_raised(KeyError, db.__delitem__, "absent") and found == {b"k": b"v"}
    assert db["wrong"].name == b"wrong" and "absent" not in db and {"wrong"} >= {name.decode() for name in db.maps()} & {"wrong", "absent"}


class Reads:
    """Stands in for os where files are read, and counts how often."""

    def __init__(self):
        self.count = 0

    def __getattr__(self, name):
        return getattr(os, name)

    def pread(self, *arguments):
        self.count += 1
        return os.pread(*arguments)


def reading(path):
    """A call that reads a whole map begins anew for each piece of the file that it lacks, so it is handed in more and more."""
    with dilluvas.open(path) as db:
        for name in ("first", "second"):
            db[name].update({b"%05d" % number: b"v" * 20 for number in range(10000)})
    dilluvas._file.os = dilluvas._paths.os = reads = Reads()
    try:
        with dilluvas.open(path, capacity=4096) as db:
            opened = reads.count
            del db["first"]
            assert 64 < reads.count - opened < 80 and db.maps() == [b"second"]
            assert len(db["second"]) == 10000 and sum(1 for _ in db["second"]) == 10000
            os.truncate(path, 100)
            assert status_of(db["second"].clear) == READ and "second" in db
    finally:
        dilluvas._file.os = dilluvas._paths.os = os


class Left(Exception):
    """Ends a `with`."""


class Liar(bytes):
    """Bytes that tell another length than they have."""

    def __len__(self):
        return 1 << 40


def bytes_of_all_kinds(db):
    found = db["kinds"]
    found[Liar(b"key")] = Liar(b"value")
    assert dict(found) == {b"key": b"value"} and found[Liar(b"key")] == b"value" and type(next(iter(found))) is bytes
    found[memoryview(b"k-e-y")[::2]] = bytearray(3)
    assert found[b"key"] == bytes(3)
    gone = memoryview(b"gone")
    gone.release()
    assert is_raised(ValueError, found.__getitem__, gone)


def closed(path):
    db = dilluvas.open(path)
    found = db["closed"]
    found[b"k"] = b"v"
    pairs = iter(found.items())
    assert next(pairs) == (b"k", b"v") and not db.closed
    with db:
        db.close()
        db.close()
        assert db.closed
    calls = (
        db.flush, db.compact, db.maps, db.size_on_disk, db.generate_id, db.__enter__, db.__len__, lambda: db.batch().__enter__(),
        lambda: "closed" in db, lambda: db.__delitem__("closed"), lambda: found[b"k"], lambda: found.__setitem__(b"k", b"v"),
        lambda: found.__delitem__(b"k"), lambda: found.compare_and_swap(b"k", None, b"v"), lambda: list(found), lambda: list(reversed(found)),
        lambda: len(found), found.clear, found.first, found.last, found.popitem, lambda: found.pop(b"k", None),
        lambda: found.setdefault(b"k", b"v"), lambda: b"k" in found, lambda: bool(found), lambda: found == {},
    )  # fmt: skip
    for call in calls:
        assert is_raised(Closed, call) and is_raised(ValueError, call) and is_raised(Refused, call)
    assert list(pairs) == [] and "closed" in repr(db) and repr(found) == "<dilluvas.Map b'closed'>"
    with dilluvas.open(path) as again:
        assert again["closed"] == {}


def leaving(path):
    """A `with` flushes at its end, and not where an exception ends it."""
    with dilluvas.open(path) as db:
        db["m"][b"k"] = b"1"
    with contextlib.suppress(Left), dilluvas.open(path) as db:
        db["m"][b"k"] = b"2"
        raise Left
    with dilluvas.open(path) as db:
        assert db.closed is False and db["m"] == {b"k": b"1"}
        assert status_of(dilluvas.open, path) == dilluvas.HELD
    assert db.closed and repr(db) == f"<dilluvas.Db {path!r}, closed>"


def in_memory(_):
    with dilluvas.open(":memory:") as db, dilluvas.open(":memory:", segment_size=64) as other:
        for each in (as_a_mapping, swaps, wrong_arguments, bytes_of_all_kinds):
            each(db)
        other["m"][b"k"] = b"v"
        assert "m" not in db and other.flush() > 0 and other.generate_id() == 0
        size = other.size_on_disk()
        for number in range(100):
            other["m"][b"k"] = b"%d" % number
        assert other.size_on_disk() > size
        other.compact()
        assert other.size_on_disk() <= size + 10 and other["m"] == {b"k": b"99"} and other.generate_id() > 0
    assert not os.path.exists(":memory:")


def over_a_file(folder):
    for each in (as_a_mapping, swaps, many, long, wrong_arguments, bytes_of_all_kinds):
        with dilluvas.open(os.path.join(folder, each.__name__), capacity=4096) as db:
            each(db)
    for each in (closed, leaving, reading):
        each(os.path.join(folder, each.__name__))


for test in (over_a_file, in_memory, lambda folder: lists.run(folder, 40)):
    with tempfile.TemporaryDirectory(dir=PLACE) as made:
        test(made)
