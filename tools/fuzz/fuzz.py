"""Gives the program hostile files, scripts and words, and compares what it does with what a plain model says.

    fuzz.py PROGRAM SECONDS SEED [CASE]

It makes one case (cases.py) after the other for so many seconds, or the one with that number.
"""

import itertools
import os
import subprocess
import sys
import tempfile
import time

TOP = os.path.join(os.path.dirname(os.path.abspath(__file__)), "..", "..")
sys.path.append(os.path.join(TOP, "bindings", "python"))

from cases import Cases  # noqa: E402
from runs import Program, Wrong  # noqa: E402

# Where files are made: in memory, if that can be.
PLACE = "/dev/shm" if os.path.isdir("/dev/shm") else None


def main(path, seconds, seed, *only):
    end = time.monotonic() + float(seconds)
    with tempfile.TemporaryDirectory(dir=PLACE) as folder:
        program = Program(path, folder)
        cases, case = Cases(program, seed), 0
        try:
            cases.prepare()
            for case in map(int, only) if only else itertools.count():
                if not only and time.monotonic() >= end:
                    break
                cases.make(case)
        except (Wrong, subprocess.TimeoutExpired) as error:
            print(f"fuzz: case {case}: {error!r}\nfuzz: tools/fuzz.sh 0 {seed} {case} makes it again")
            return 1
    counts = ", ".join(f"{number} {what}" for what, number in sorted(program.counts.items()))
    print(f"fuzz: passed (seed {seed}: {counts})")
    return 0


if __name__ == "__main__":
    sys.exit(main(*sys.argv[1:]))
