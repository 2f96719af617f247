"""Judges the library over a file: random scripts, whose answers a plain model gives too, while reads, writes and syncs fail.

    model.py SEED COUNT

makes COUNT scripts, the first from SEED, damages files and calls the library with no loop. It prints the seed of what fails, which
`model.py THAT 1` makes again. With no arguments it makes some hundreds, gives bad input, and is shown a system that drops its syncs.
"""

import collections
import os
import sys
import tempfile
import threading

import damage
import inputs
import judge
import raw
import rewriting

# So many seconds may a script take before it is said to hang.
LONGEST = 120

# Where files are made: in memory, if that can be.
PLACE = "/dev/shm" if os.path.isdir("/dev/shm") else None


class Careless(judge.Script):
    """A script over a system that makes nothing durable: the judge has to see it."""

    def __init__(self, *arguments):
        super().__init__(*arguments)
        self.system.drops_syncs = True


def hangs(seed):
    print(f"seed {seed}: it hangs", flush=True)
    os._exit(1)


def run(kind, seed, count, counts, tell=print):
    """Makes scripts of a kind, and answers how many failed."""
    failed = 0
    for number in range(seed, seed + count):
        watch = threading.Timer(LONGEST, hangs, (number,))
        watch.daemon = True
        watch.start()
        with tempfile.TemporaryDirectory(dir=PLACE) as folder:
            script = kind(number, folder, counts)
            try:
                script.run()
            except Exception as error:
                failed += 1
                tell(f"{kind.__module__}, seed {number}: {error!r}, behind {[name for name, _ in script.trail]}")
                if count == 1:
                    raise
        watch.cancel()
    return failed


def main(arguments):
    counts = collections.Counter()
    seed, count = (int(argument) for argument in arguments) if arguments else (0, 200)
    if not arguments:
        with tempfile.TemporaryDirectory(dir=PLACE) as folder:
            inputs.run(folder)
            rewriting.run(folder)
        assert run(Careless, 0, 30, collections.Counter(), tell=lambda _: None) > 0
    kinds = (judge.Script, count), (damage.Script, count // 4 or 1), (raw.Script, count // 2 or 1)
    failed = sum(run(kind, seed, times, counts) for kind, times in kinds)
    print("model:", ", ".join(f"{number} {what}" for what, number in sorted(counts.items())))
    return 1 if failed else 0


if __name__ == "__main__":
    sys.exit(main(sys.argv[1:]))
