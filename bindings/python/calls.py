"""Each method of a cache once, a cache over a file, and answers that aren't OK."""

import os
import tempfile

from dilluvas import HELD, NO_ACCESS, NO_FILE, Cache, FileCache, Gone, Refused, Stale, text_of


def refused(call):
    try:
        call()
    except Refused as error:
        return error
    raise AssertionError("the call was not refused")


def pages(cache):
    page, stamp = cache.allocate([(b"a", b"1"), (b"b", b"")])
    assert (page, stamp) == (2, 1)
    stamp = cache.set(page, stamp, b"c", b"x" * 3000)
    stale = refused(lambda: cache.set(page, 1, b"c", b""))
    assert isinstance(stale, Stale) and stale.present == stamp == 2
    assert isinstance(refused(lambda: cache.set(9, 1, b"c", b"")), Gone)
    assert refused(lambda: cache.set(0, 1, b"c", b"")).status == 101
    assert cache.get(page) == (2, False, [(b"a", b"1"), (b"b", b""), (b"c", b"x" * 3000)])
    assert cache.get(9) is None
    assert cache.value(page, b"c") == b"x" * 3000
    assert cache.value(page, b"b") == b"" and cache.value(page, b"d") is None
    stamp = cache.delete(page, stamp, b"c")
    stamp = cache.replace(page, stamp, [(b"k", b"v\0w")])
    assert cache.get(page).pairs == [(b"k", b"v\0w")]
    assert refused(lambda: cache.replace(page, stamp, [(b"b", b""), (b"a", b"")])).status == 7
    assert cache.free(page, stamp) == 5 and cache.get(page) is None


def roots(cache):
    assert cache.root(b"t") is None
    root = cache.open_tree(b"t")
    assert cache.get(root).is_index
    assert refused(lambda: cache.cas_root(b"t", None, 2)).present == root
    cache.cas_root(b"t", root, None)
    assert refused(lambda: cache.cas_root(b"t", root, 2)).present is None
    assert refused(lambda: cache.cas_root(b"t", None, 0)).status == refused(lambda: cache.cas_root(b"t", 0, None)).status == 101


def log(cache):
    assert (cache.generate_id(), cache.generate_id()) == (0, 1)
    cache.pin()
    assert refused(cache.flush).status == 108
    cache.allocate()
    cache.seal()
    assert cache.flush() > 0
    cache.pin()
    cache.cancel()
    assert cache.amplification()[0] == cache.size()
    assert not cache.attempt_gc() and not cache.was_recovered()


def compact(cache):
    """The log has each page as one message, and the pages are as in a cache that was opened."""
    page, stamp = cache.allocate([(b"a", b"1")])
    freed, other = cache.allocate()
    cache.free(freed, other)
    for _ in range(30):
        stamp = cache.replace(page, stamp, [(b"a", b"2" * 100)])
    cache.cas_root(b"compact", None, page)
    size, number = cache.size(), cache.generate_id()
    cache.pin()
    assert refused(cache.compact).status == 108
    cache.seal()
    cache.compact()
    small = cache.size()
    cache.compact()
    assert cache.size() == small < size
    assert cache.was_recovered() and cache.root(b"compact") == page
    assert cache.get(page) == (0, False, [(b"a", b"2" * 100)]) and cache.get(freed) is None
    assert cache.generate_id() > number
    assert cache.allocate() == (freed, 1)
    return page


with Cache() as opened:
    pages(opened)
    roots(opened)
    log(opened)
    compact(opened)
assert refused(opened.flush).status == 5
assert str(refused(lambda: Cache(capacity=255))) == text_of(102)


def file(folder):
    path = os.path.join(folder, "pages")
    small = {"capacity": 4096, "segment_size": 4096}
    with FileCache(path, **small) as cache:
        stamps = dict(cache.allocate() for _ in range(100))
        for value in (b"first" * 20, b"then" * 20):
            for page in stamps:
                stamps[page] = cache.set(page, stamps[page], b"key", value)
        long, _ = cache.allocate([(b"key", b"long" * 50000)])
        cache.flush()
        assert refused(cache.attempt_gc).status == 10
        takes = 8 + 4096 + 100 * (128 + 3 + 4 * 20) + 128 + 3 + 4 * 50000
        assert cache.amplification() == (cache.size(), takes)
        assert refused(lambda: FileCache(path)).status == HELD
    with FileCache(path, **small) as cache:
        assert cache.was_recovered()
        # no page is in memory
        assert cache.amplification() == (cache.size(), takes)
        compact(cache)
        takes = cache.amplification()[1]
        cache.compact()
        assert cache.amplification() == (cache.size(), takes)
        assert refused(lambda: FileCache(path)).status == HELD
        assert all(cache.get(page).pairs == [(b"key", b"then" * 20)] for page in stamps)
        assert cache.value(long, b"key") == b"long" * 50000
    with open(path, "r+b") as damaged:
        damaged.write(b"X")
    assert refused(lambda: FileCache(path)).status == 19
    assert refused(lambda: FileCache(folder)).status == NO_FILE
    assert refused(lambda: FileCache(os.path.join(path, "file"))).status == NO_ACCESS
    assert os.listdir(folder) == ["pages"]


with tempfile.TemporaryDirectory() as made:
    file(made)
