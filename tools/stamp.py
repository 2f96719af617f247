#!/usr/bin/env -S python3 -B
"""Writes beside each library that `rt ci` has built the stamp by which the toolchain takes a library in place of proving it again.

    tools/stamp.py CRATE..

`rt ci` proves a library from nothing and leaves its statements in crates/NAME/out/rlib, without a stamp, since statements fit only those
below that they were made over. Those of one run fit each other: so it is called behind such a run, with all of its libraries, and stamps
all or none. The stamp is the toolchain's own sum of the sources, of the crates below and of itself.

The status is 0 where all are stamped now, and else 1, with a line that says why.
"""

import os
import sys

import toolchain
from toolchain import TOP


def main(names):
    places = {name: f"{TOP}/crates/{name}" for name in names}
    for name, place in places.items():
        if not os.path.isdir(f"{place}/out/rlib/{name}.rlib"):
            sys.exit(f"stamp.py: there is no library {name}")
        if os.path.exists(f"{place}/out/rlib/stamp"):
            sys.exit(f"stamp.py: {name} has a stamp, so it was not built by this run")
    try:
        stamps = {name: crate.stamp() for name, crate in toolchain.crates(toolchain.load(), places).items()}
    except (AttributeError, ImportError, OSError, TypeError) as error:
        sys.exit(f"stamp.py: this toolchain has other stamps: {error}")
    for name, stamp in stamps.items():
        with open(f"{places[name]}/out/rlib/stamp", "w", encoding="utf-8") as file:
            file.write(stamp)


if __name__ == "__main__":
    main(sys.argv[1:])
