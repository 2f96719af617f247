"""Ordered maps that threads share: each call has its turn, a batch is one turn, and a close waits for what is under way."""

import random
import sys
import threading
import time

import dilluvas
from dilluvas import Closed
from together import SMALL, THREADS, copied, in_threads, run


def of_their_own(path):
    """Each thread has a map of its own, beside one that all change."""
    with dilluvas.open(path, **SMALL) as db:
        counter = db["shared"]
        counter[b"count"] = b"0"

        def use(number):
            own, wanted, choose = db[b"%d" % number], {}, random.Random(number)
            for turn in range(150):
                key = b"%d" % choose.randrange(100)
                own[key] = wanted[key] = choose.randbytes(choose.randrange(200))
                if turn % 3 == 0:
                    key = choose.choice(list(wanted))
                    assert own.pop(key) == wanted.pop(key)
                if turn % 50 == 0:
                    db.flush()
                    assert own == wanted
                if turn % 100 == 99:
                    db.compact()
                value = counter[b"count"]
                while not counter.compare_and_swap(b"count", value, b"%d" % (int(value) + 1)):
                    value = counter[b"count"]
            return wanted

        told = in_threads(use)
    with dilluvas.open(path) as db:
        assert db["shared"] == {b"count": b"%d" % (THREADS * 150)}
        assert all(db[b"%d" % number] == wanted for number, wanted in enumerate(told))


def popped_once(path):
    with dilluvas.open(path) as db:
        jobs = db["jobs"]
        jobs.update({b"%04d" % number: b"%d" % number for number in range(800)})

        def take(number):
            taken = []
            for _ in range(100):
                key, value = jobs.popitem() if number % 2 else (jobs.first()[0], None)
                value = jobs.pop(key, None) if value is None else value
                taken += [] if value is None else [(key, value)]
            return taken

        taken = [pair for pairs in in_threads(take) for pair in pairs]
        assert len(taken) + len(jobs) == 800 and dict(taken) | dict(jobs) == {b"%04d" % number: b"%d" % number for number in range(800)}
        keys = [b"job %04d" % number for number in range(600)]
        jobs.update(dict.fromkeys(keys, b""))
        told = in_threads(lambda number: [key for key in keys if jobs.pop(key, None) is not None])
        assert sorted(key for popped in told for key in popped) == keys
        told = in_threads(lambda number: [jobs.setdefault(b"who %03d" % job, b"%d" % number) for job in range(300)])
        assert told == [[jobs[b"who %03d" % job] for job in range(300)]] * THREADS


def batches_take_turns(path):
    """What a batch moves no other thread sees on its way, nor does a crash, and nobody's flush comes between."""
    with dilluvas.open(path, **SMALL) as db:
        accounts = db["accounts"]
        accounts.update({b"%d" % number: b"100" for number in range(10)})
        db.flush()

        def total():
            return sum(map(int, accounts.values()))

        def use(number):
            choose = random.Random(number)
            for turn in range(40):
                with db.batch():
                    assert total() == 1000
                    here, there = (b"%d" % account for account in choose.sample(range(10), 2))
                    accounts[here] = b"%d" % (int(accounts[here]) - 7)
                    time.sleep(0)
                    if turn % 8 == 0:
                        assert total() == 993 and sum(map(int, copied(path)[b"accounts"].values())) == 1000
                    accounts[there] = b"%d" % (int(accounts[there]) + 7)
                db.flush()

        in_threads(use)
        assert total() == 1000


def others_wait(path):
    """Each call of another thread waits until a batch is left, and the batch's own thread waits for none."""
    with dilluvas.open(path) as db:
        calls = (
            db.flush, db.maps, db.generate_id, db.compact, db.size_on_disk, db["m"].first, lambda: db["m"].setdefault(b"others", b""),
            lambda: len(db["m"]),
        )  # fmt: skip
        told, begun = [], threading.Event()

        def use(number):
            if number < len(calls):
                begun.wait()
                calls[number]()
                told.append(number)
                return
            with db.batch():
                begun.set()
                time.sleep(0.2)
                db["m"][b"own"] = b""
                assert told == [] and db["m"] == {b"own": b""} and db.maps() == [b"m"]

        in_threads(use, len(calls) + 1)
        assert sorted(told) == list(range(len(calls))) and db["m"] == {b"others": b"", b"own": b""}


def closings(path):
    """Threads that race a close: what is under way is done, each thread is told once, and the file is free behind it."""

    def change(db, number):
        for turn in range(10**9):
            db["raced"][b"%d %d" % (number, turn % 100)] = b"v" * 50
            if turn % 10 == 0:
                with db.batch():
                    db["raced"][b"%d" % number] = b"%d" % turn
                db.flush()

    def look(db, _):
        while True:
            assert all(db["raced"].values()) and len(db["raced"]) >= 0 and set(db.maps()) <= {b"behind", b"raced"}
            assert list(db["raced"].irange(b"3", reverse=True)) >= []

    def rewrite(db, _):
        while True:
            db.compact()
            db.generate_id()

    for seed in range(20):
        db, started = dilluvas.open(path, **SMALL), threading.Barrier(THREADS)

        def use(number):
            started.wait()
            if number == 0:
                time.sleep(seed / 1000)
                db.close()
                with dilluvas.open(path) as again:
                    again["behind"][b"%d" % seed] = b""
                return
            try:
                (change, look, rewrite)[number % 3](db, number)
            except Closed as told:
                assert str(told) == "it is closed"

        in_threads(use)
        with dilluvas.open(path) as db:
            assert len(db["behind"]) == seed + 1
            db["raced"].clear()


sys.setswitchinterval(0.0001)
run(of_their_own, popped_once, batches_take_turns, others_wait, closings)
