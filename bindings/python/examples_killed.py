"""The examples are killed again and again, and go on: what they confirmed is there, once, and nothing that was done is done again.

    examples_killed.py [PROGRAM]

PROGRAM is the queue of jobs in C, if it was compiled: it has the file in turns with that in Python.
"""

import os
import random
import subprocess
import sys
import tempfile
import threading
import time

import dilluvas

HERE = os.path.dirname(os.path.abspath(__file__))
EXAMPLES = os.path.join(HERE, "examples")
PLACE = "/dev/shm" if os.path.isdir("/dev/shm") else None
TIMES = 20


def lines_until_killed(choose, command, lines=()):
    """What a program prints until it is killed, some time behind one of its first lines. It is fed with these lines."""
    program = subprocess.Popen(
        command, stdin=subprocess.PIPE, stdout=subprocess.PIPE, env={**os.environ, "PYTHONPATH": HERE}, text=True, bufsize=1
    )

    def feed():
        try:
            for line in lines:
                program.stdin.write(line + "\n")
            program.stdin.close()
        except BrokenPipeError:
            pass

    feeder = threading.Thread(target=feed)
    feeder.start()
    printed = []
    for _ in range(choose.randrange(1, 30)):
        printed.append(program.stdout.readline())
    time.sleep(choose.random() * 0.005)
    program.kill()
    printed += program.stdout.readlines()
    feeder.join()
    program.stdout.close()
    program.wait()
    # a line that wasn't printed to its end confirms nothing
    return [line.rstrip("\n") for line in printed if line.endswith("\n")]


def queues(choose, path, programs, times):
    """Each job has a text of its own."""
    added, done, count = {}, [], 0
    for number in range(times):
        program = programs[number % len(programs)]
        texts = [f"job {count + n} {'x' * choose.randrange(100)}" for n in range(400)]
        count += len(texts)
        for line in lines_until_killed(choose, (*program, path, "add"), texts):
            _, key, text = line.split(" ", 2)
            assert int(key) not in added and text in texts, line
            added[int(key)] = text
        for line in lines_until_killed(choose, (*programs[choose.randrange(len(programs))], path, "work")):
            done.append(line.removeprefix("done "))
    subprocess.run((*programs[-1], path, "work"), env={**os.environ, "PYTHONPATH": HERE}, check=True, stdout=subprocess.DEVNULL)
    with dilluvas.open(path) as db:
        kept = {int.from_bytes(key, "big"): text.decode() for key, text in db["done"].items()}
        assert db["jobs"] == {} and all(kept[key] == text for key, text in added.items())
    assert len(set(done)) == len(done) and set(done) <= set(kept.values()) and len(set(kept.values())) == len(kept)
    # first in, first out
    order = {text: key for key, text in kept.items()}
    assert [order[text] for text in done] == sorted(order[text] for text in done) and len(added) > times and len(done) > times


RECORD = """
import sys, dilluvas
from time_series import Series
with dilluvas.open(sys.argv[1]) as db:
    series = Series(db, "kitchen")
    for minute in range(int(sys.argv[2]), 10**6):
        series.record((minute * 60 + second, second) for second in range(60))
        print(minute, flush=True)
"""


def time_series(choose, path):
    """A minute of readings is one batch: each that was confirmed is there, and the last one that wasn't is there as a whole, or not."""
    confirmed = 0
    for _ in range(TIMES):
        command = (sys.executable, "-c", f"import sys; sys.path.append({EXAMPLES!r})" + RECORD, path, str(confirmed))
        printed = [int(line) for line in lines_until_killed(choose, command)]
        assert printed == list(range(confirmed, confirmed + len(printed)))
        confirmed += len(printed)
        with dilluvas.open(path) as db:
            times = [int.from_bytes(key, "big") for key in db["kitchen"]]
        assert times == list(range(len(times))) and len(times) in (60 * confirmed, 60 * (confirmed + 1))
    assert confirmed > TIMES


def main(*compiled):
    queue = (sys.executable, os.path.join(EXAMPLES, "job_queue.py"))
    others = [(program,) for program in compiled]
    choose = random.Random(1)
    # each alone, and all in turns
    for programs in ([queue], *([other] for other in others), *([[queue, *others]] if others else [])):
        with tempfile.TemporaryDirectory(dir=PLACE) as folder:
            queues(choose, os.path.join(folder, "queue"), programs, TIMES if len(programs) == 1 else TIMES // 2)
    with tempfile.TemporaryDirectory(dir=PLACE) as folder:
        time_series(choose, os.path.join(folder, "series"))


main(*sys.argv[1:])
