#!/usr/bin/env -S python3 -B
"""Finds where the sources say 'out of memory', or that a read failed, and compares these places with a list, tools/memory_values.txt.

    tools/memory_values.py              compares them
    tools/memory_values.py --list       prints the lines of all places, as the list is to have them
    tools/memory_values.py --self-test  puts such values where they may not be, in a copy of the sources, and sees that each is refused

No contract says that such an answer has to have a reason, so this is looked for in the text of crates/*/src, but for what is compiled for
tests alone. A place is a value of AllocError, OutOfMemory and the like which is made there, so neither a pattern, a type nor a comparison. It
has to stand in a branch that is taken where a call failed (an arm `Err(..)`, `let Ok(..) = call else`, `if call.is_err()`, `.map_err(..)`)
which takes memory or reads, in one that hands on such a failure, or in a conversion of AllocError; `?` on a call makes no value. What it
stands for is read from the text, and has to be what the list says. Where nothing of this is so, the line begins what it stands for by a
question mark and has a word why.

A request for memory that can never be met, and a failure that was kept and comes again, are not seen. The status is 0 where all is as
listed, and else 1.
"""

import collections
import functools
import glob
import os
import re
import sys

TOP = os.path.dirname(os.path.dirname(os.path.realpath(__file__)))
sys.path.insert(0, f"{TOP}/tools/memory")

import plants  # noqa: E402
import values  # noqa: E402
from source import Tokens  # noqa: E402

LIST = "tools/memory_values.txt"
# Calls of std that take memory or read.
STD = set("args collect extend_from_slice fill_buf from_slice insert new push read_whole_at reserve size skip_until vec".split())
FAILS = re.compile(r"->.*\b(io::Result|" + "|".join(values.VALUES | values.TYPES) + r")\b")
TO_DO = f"""What is made behind no call that failed is to be mended. Else take the lines of `tools/memory_values.py --list` into {LIST};
a line that begins what a value stands for by a question mark ends in ' -- ' and a word why that is right. A call of std that takes memory
or reads is to be named in STD of tools/memory_values.py."""


@functools.lru_cache(maxsize=None)
def read(file, text):
    """The places of a source, the lines of new names, and the names of functions whose answer may be such a failure."""
    tokens, names = Tokens(text), values.VALUES
    if file.startswith(values.NUMBERED):
        names = names | values.NUMBERS
    places, can_fail = [], set()
    for body in values.bodies(tokens, 0, len(tokens.words)):
        if FAILS.search(body.head):
            can_fail.add(body.name.rpartition("::")[2])
        places += [(tokens.line(at), body.name, value, what) for at, value, what in values.Walk(tokens, body, names).places()]
    return places, [tokens.line(at) for at in values.renamed(tokens)], can_fail


def sources():
    """The texts of all sources by their names below crates/, but for those of tests."""
    files = glob.glob(f"{TOP}/crates/*/src/**/*.rt", recursive=True)
    texts, tests = {}, []
    for file in sorted(files):
        if "_tests/src/" in file or "_testing/src/" in file:
            continue
        with open(file, encoding="utf-8") as source:
            texts[file.removeprefix(f"{TOP}/crates/")] = source.read()
    for file, text in texts.items():
        folder = os.path.dirname(file) if file.endswith(("/lib.rt", "/main.rt")) else file.removesuffix(".rt")
        tests += [f"{folder}/{name}" for name in re.findall(r"^#\[cfg\(test\)\]\nmod (\w+);", text, re.MULTILINE)]
    return {file: text for file, text in texts.items() if not any(file.startswith((f"{test}.rt", f"{test}/")) for test in tests)}


def entries(texts):
    """The lines of all places, with the places."""
    for file, text in texts.items():
        crate, _, below = file.partition("/src/")
        for line, function, value, what in read(file, text)[0]:
            yield f"{crate} {below} {function} {value}: {what}", f"crates/{file}:{line}"


def complaints(texts, listed):
    """What is wrong with these sources, or with the list."""
    wanted, found = collections.Counter(), {}
    can_fail = STD.union(*(read(file, text)[2] for file, text in texts.items()))
    for line in listed.splitlines():
        entry, _, why = line.partition(" -- ")
        what = entry.partition(": ")[2]
        if not line or line.startswith("#"):
            continue
        wanted[entry] += 1
        if what.startswith("?"):
            if not why:
                yield f"{LIST}: no word says why this is right: {line}"
        elif not what.startswith(("as ", "from ")) and re.search(r"(\w*)!?$", what)[1] not in can_fail:
            yield f"{LIST}: nothing says that this call takes memory or reads: {line}"
    for entry, place in entries(texts):
        found.setdefault(entry, []).append(place)
    for entry in sorted(wanted.keys() | found.keys()):
        places = found.get(entry, [])
        if len(places) > wanted[entry]:
            yield f"{', '.join(places)}: {LIST} has this {wanted[entry]} times and not {len(places)}: {entry}"
        elif len(places) < wanted[entry]:
            yield f"{LIST}: the sources have this {len(places)} times and not {wanted[entry]}: {entry}"
    for file, text in texts.items():
        for line in read(file, text)[1]:
            yield f"crates/{file}:{line}: such a value, or a type that has one, keeps its name here"


def main(words):
    texts = sources()
    if words == ["--list"]:
        print(*(entry for entry, _ in entries(texts)), sep="\n")
        return 0
    with open(f"{TOP}/{LIST}", encoding="utf-8") as file:
        listed = file.read()
    if words == ["--self-test"]:
        return plants.try_all(texts, lambda planted: list(complaints(planted, listed)))
    if words:
        sys.exit("memory_values.py: its words are --list or --self-test, or none")
    wrong = list(complaints(texts, listed))
    if wrong:
        print(*wrong, TO_DO, sep="\n")
    return 1 if wrong else 0


if __name__ == "__main__":
    sys.exit(main(sys.argv[1:]))
