"""Ordered maps that are changed while they are iterated: no key comes twice or out of its order, and each that stays comes once."""

import random
import sys
import threading

import dilluvas
from together import SMALL, THREADS, in_threads, run


def changed_meanwhile(path):
    """Keys that stay come once, in their order, whatever else is put in, taken out, dropped or rewritten between two of them."""
    for seed in range(30):
        choose = random.Random(seed)
        with dilluvas.open(":memory:" if seed % 2 else f"{path} {seed}", **SMALL) as db:
            found = db["m"]
            kept = {b"%03d" % number: b"kept" for number in choose.sample(range(1000), choose.randrange(200))}
            others = [key for key in (b"%03d" % number for number in range(1000)) if key not in kept]
            found.update(kept)
            found.update({key: b"" for key in choose.sample(others, 300)})
            is_reversed, seen = choose.random() < 0.5, []
            for key, value in found.irange(b"1", b"9", reverse=is_reversed):
                seen.append(key)
                assert value == (b"kept" if key in kept else b"") or key not in kept
                for _ in range(choose.randrange(12)):
                    other = choose.choice(others)
                    found.pop(other, None) if choose.randrange(2) else found.__setitem__(other, b"new")
                if choose.randrange(100) == 0:
                    db.compact()
            assert seen == sorted(set(seen), reverse=is_reversed) and all(b"1" <= key < b"9" for key in seen)
            assert {key for key in seen if key in kept} == {key for key in kept if b"1" <= key < b"9"}
            walk = zip(found.items(), range(50))
            assert len(list(walk)) <= 50
            walk, keys = iter(found), list(found)
            for key in walk:
                keys.remove(key)
                found.clear() if choose.randrange(2) else db.__delitem__("m")
                found[b"%03d" % choose.randrange(1000)] = b"again"
                break
            assert all(later > key for later in walk)


def walked_by_threads(path):
    with dilluvas.open(path, **SMALL) as db:
        found, kept = db["m"], {b"%04d" % number: b"kept" for number in range(0, 2000, 10)}
        found.update(kept)
        is_over = threading.Event()

        def use(number):
            choose = random.Random(number)
            if number < 3:
                while not is_over.is_set():
                    key = b"%04d" % choose.randrange(2000)
                    if key not in kept:
                        found.pop(key, None) if choose.randrange(3) else found.__setitem__(key, b"other" * 10)
                return
            try:
                for turn in range(4):
                    keys = list(reversed(found) if (number + turn) % 2 else found)
                    assert keys == sorted(set(keys), reverse=(number + turn) % 2 == 1) and set(keys) >= set(kept)
                    assert len(found) >= len(kept) and (found == kept) in (True, False)
            finally:
                walked.append(number)
                if len(walked) == THREADS - 3:
                    is_over.set()

        walked = []
        in_threads(use)


sys.setswitchinterval(0.0001)
run(changed_meanwhile, walked_by_threads)
