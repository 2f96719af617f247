"""A queue of jobs in a file: `job_queue.py FILE add` puts each line of its input in, and `job_queue.py FILE work` does the jobs, first in first
out. What it prints is durable, whenever it is killed: a job that was added is there, and one that is done isn't done again.
"""

import sys

import dilluvas


class Queue:
    """Jobs in the order in which they were added. The file is that of the example for C."""

    def __init__(self, db):
        self._db, self._jobs, self._done = db, db["jobs"], db["done"]

    def add(self, text):
        """Puts a job behind all others, and answers its id: keys are in the order of their bytes, so it has the highest one first."""
        number = self._db.generate_id()
        self._jobs[number.to_bytes(8, "big")] = text
        self._db.flush()
        return number

    def work(self, do):
        """Does the first job, and answers it, or None where there is none. A batch takes it out and keeps what came of it: a crash leaves
        both, or neither, and then the job is done again."""
        first = self._jobs.first()
        if first is None:
            return None
        key, text = first
        result = do(text)
        with self._db.batch():
            del self._jobs[key]
            self._done[key] = result
        self._db.flush()
        return text


def main(path, what):
    with dilluvas.open(path) as db:
        queue = Queue(db)
        if what == "add":
            for line in sys.stdin.buffer:
                text = line.rstrip(b"\n")
                print("added", queue.add(text), text.decode(), flush=True)
        else:
            while (text := queue.work(lambda text: text)) is not None:
                print("done", text.decode(), flush=True)


if __name__ == "__main__":
    main(*sys.argv[1:])
