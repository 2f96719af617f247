"""What the tests of shared maps have together."""

import os
import shutil
import tempfile
import threading
import time

import dilluvas

PLACE = "/dev/shm" if os.path.isdir("/dev/shm") else None
SMALL = {"capacity": 4096, "segment_size": 512}
THREADS = 8

# So many seconds may threads take: those that hang are told as that.
LONGEST = 120


def in_threads(call, count=THREADS):
    """Makes a call in so many threads, each with its number, and answers what each of them answers."""
    told, errors = [None] * count, []

    def run(number):
        try:
            told[number] = call(number)
        except BaseException as error:
            errors.append(error)

    threads = [threading.Thread(target=run, args=(number,), daemon=True) for number in range(count)]
    for thread in threads:
        thread.start()
    for thread in threads:
        thread.join(LONGEST)
        assert not thread.is_alive(), "a thread hangs"
    for error in errors:
        raise error
    return told


def copied(path):
    """What the file has now, as a crash of this process would leave it."""
    copy = f"{path} {threading.get_ident()}"
    shutil.copy(path, copy)
    with dilluvas.open(copy) as db:
        found = {name: dict(db[name]) for name in db}
    os.unlink(copy)
    return found


def run(*tests):
    """Makes each test, over the path of a file of its own."""
    for test in tests:
        with tempfile.TemporaryDirectory(dir=PLACE) as folder:
            test(os.path.join(folder, "maps"))
