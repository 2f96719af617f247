#!/usr/bin/env -S python3 -B
"""Tries the wrong implementations of crates/NAME/must-fail: the prover has to refuse each, and at the clause that it is meant for.

    tools/must_fail.py [CRATE..]          those of these crates, or of all
    tools/must_fail.py CRATE/EDIT..       these alone, over what `rt check` kept of the crate
    tools/must_fail.py --beside FOLDER SAID
                                          all, while `rt ci` runs over the copy of the sources in this folder and writes what it says into a
                                          file: those of a crate once it says that the crate is proved

An edit says in its first line where it is refused, as 'refused: lru::Lru::access returns-clause-accessed': the function, by its path below
the crate, and the first goal that is not proved there. One that changes two functions has two such lines. Those behind them are the
toolchain's own (`rt must-fail` reads them too).

A function is proved against its own contract and those of what it calls, so an edit of one function changes no other's proof. So all edits
of a crate that stand in different functions are made in one copy of it, and one check of these functions and of what they call tries them:
it has to refuse each of them, at its goal, and no function besides. Those of the same function are tried in a further round, over what the
first one kept.

The libraries below a crate have to be built (tools/build.sh, or a run of the gate). RT_JOBS says how many crates are tried side by side, and
is the number of processors if it isn't set; beside a run it is one. There is a line for each edit, and the last line is 'N refused, M not'. The
status is 0 where each edit is refused so, and else 1. Beside a run that fails it has to be ended, since a crate may never be proved then.
"""

import glob
import os
import re
import shutil
import subprocess
import sys
import tempfile
import threading
import time
from concurrent.futures import ThreadPoolExecutor

import toolchain

# Where a check says that it refuses a goal: in a function's file of proofs, or, where it has none, in the line of the function. A loop
# without a measure, which may never end, has the goal 'measure'.
IN_FILE = re.compile(r"(?:\./)?proofs/(\S+)/\w+\.antt:\d+:\d+: error: `([^`]*)`")
IN_LINE = re.compile(r"fn \w+::(\S+): no proof: expected (?:answers in [^;]*; `search` did not prove `([^`]*)`|a (measure) in )")
# What a text that can't be read is refused with, in the code, in a definition, or in a proof that names what is there no more.
UNREAD = re.compile(r"(?:\./)?(?:src|specs)/\S+:\d+:\d+: error|is not in scope|has no field|has no `|that can be named from here")


class Edit:
    """One file of must-fail: the goal at which each of its functions is refused, and what it puts in the place of what."""

    def __init__(self, file):
        self.name = os.path.basename(file).removesuffix(".edit")
        self.wrong = None
        self.goals = {}
        self.pairs = []
        path = old = None
        with open(file, encoding="utf-8") as lines:
            for line in lines.read().split("\n"):
                word, _, rest = line.partition(":")
                rest = rest.removeprefix(" ")
                if word == "refused":
                    function, _, goal = rest.partition(" ")
                    self.goals[function] = goal
                elif word == "file":
                    path = rest.strip()
                elif word == "old":
                    old = rest
                elif word == "new":
                    self.pairs.append((path, old, rest))
        if not self.goals or not all(self.goals.values()):
            self.wrong = "it has no line 'refused: FUNCTION GOAL'"
        elif not self.pairs or any(not path or not old for path, old, _ in self.pairs):
            self.wrong = "it has no line 'file:' and pair of lines 'old:' and 'new:'"

    def put_into(self, folder):
        """Changes the files of this folder; or changes none, and returns what doesn't fit."""
        texts = {}
        for path, old, new in self.pairs:
            if path not in texts:
                try:
                    with open(f"{folder}/{path}", encoding="utf-8") as file:
                        texts[path] = file.read()
                except OSError:
                    return f"there is no file {path}"
            if texts[path].count(old) != 1:
                return f"an 'old:' text is in {path} {texts[path].count(old)} times, and not once"
            texts[path] = texts[path].replace(old, new)
        for path, text in texts.items():
            with open(f"{folder}/{path}", "w", encoding="utf-8") as file:
                file.write(text)
        return None


def copied(crate, parts, place):
    """A new folder in this place, with a copy of the crate's sources."""
    room = tempfile.mkdtemp(prefix=f"{crate.name}-", dir=place)
    for part in parts:
        if os.path.isdir(f"{crate.folder}/{part}"):
            shutil.copytree(f"{crate.folder}/{part}", f"{room}/{part}")
    return room


def in_rounds(crate, edits, parts, place):
    """Puts each edit into the first copy of the crate in which its functions are still as they were: the copies, with the edits of each."""
    rounds = []
    for edit in edits:
        for room, there in rounds:
            if all(edit.goals.keys().isdisjoint(other.goals) for other in there) and not edit.put_into(room):
                there.append(edit)
                break
        else:
            room = copied(crate, parts, place)
            edit.wrong = edit.put_into(room)
            if not edit.wrong:
                rounds.append((room, [edit]))
    return rounds


def refusals(said):
    """The goals that a check refused, by the function, in the order in which it named them."""
    found = {}
    for line in said.split("\n"):
        refused = IN_FILE.match(line) or IN_LINE.match(line)
        if refused:
            found.setdefault(refused[1].replace("/", "::"), []).append((refused[refused.lastindex], line))
    return found


def judged(edit, found, status, last):
    """Whether the edit is refused as it has to be, and what to say of it."""
    if status != 1 or not last.startswith("only="):
        return False, f"the check did not come to an end (status {status}): {last[:300]}"
    for function, meant in edit.goals.items():
        if function not in found:
            return False, f"NOT REFUSED: {function} is still proved with this edit"
        goal, line = found[function][0]
        if UNREAD.search(line):
            return False, f"a text could not be read, or a proof names what the edit took away: {line[:300]}"
        if goal != meant:
            return False, f"{function} is refused at {goal}, and not at {meant}"
    return True, f"refused, as it must be, at {', '.join(' '.join(it) for it in edit.goals.items())}"


def check(rtlib, crate, room, edits, kept, jobs):
    """Tries the edits of one round, over what those before it kept: whether each is refused and what to say of it."""
    functions = {function for edit in edits for function in edit.goals}
    names = [word for function in sorted(functions) for word in ("--only", function)]
    words = [rtlib.RATTLE, "check", *crate.words(["--jobs", str(jobs), *names], keeps=False), "--incremental", kept]
    how = {"cwd": room, "stdin": subprocess.DEVNULL, "stdout": subprocess.PIPE, "stderr": subprocess.STDOUT, "errors": "replace"}
    ran = subprocess.run([*rtlib.guarded(), *words], **how)
    last = ran.stdout.rstrip("\n").rpartition("\n")[2]
    found = refusals(ran.stdout)
    results = [(edit, *judged(edit, found, ran.returncode, last)) for edit in edits]
    beside = sorted(set(found) - functions)
    if beside:
        # An edit that changes more than its function, so that none of the round shows what it says.
        results = [(edit, False, f"this round refuses {', '.join(beside)} too, which none of its edits names") for edit in edits]
    return results


class Tally:
    """How many edits were refused, and how many not."""

    def __init__(self):
        self.refused, self.failed, self.printing = 0, 0, threading.Lock()

    def tell(self, crate, edit, is_refused, text):
        with self.printing:
            print(f"must-fail {crate.name}/{edit.name}: {text}", flush=True)
            self.refused, self.failed = self.refused + is_refused, self.failed + (not is_refused)


def yield_to_others():
    """Lets other processes go first: where the system shares its processors among sessions, this one has a small share."""
    os.nice(10)
    try:
        with open("/proc/self/autogroup", "w", encoding="ascii") as share:
            share.write("10")
    except OSError:
        pass


def wait_until_proved(crate, said):
    """Comes back once a run of `rt ci` that writes into this file has said that the crate is proved, or that an earlier run has proved it."""
    proved, kept = f"rt: {crate.name} proved", f"rt: {crate.name} is kept: "
    while True:
        with open(said, encoding="utf-8", errors="replace") as lines:
            if any(line == proved or line.startswith(kept) for line in lines.read().split("\n")):
                return
        time.sleep(2)


def try_all(rtlib, crates, wanted, place, said):
    """Tries each edit of these crates, or those that are wanted of one, in copies that lie in this place."""
    tally, tasks = Tally(), []
    for crate in crates:
        edits = [Edit(file) for file in sorted(glob.glob(f"{toolchain.TOP}/crates/{crate.name}/must-fail/*.edit"))]
        edits = [edit for edit in edits if not wanted[crate.name] or edit.name in wanted[crate.name]]
        tasks.append((crate, in_rounds(crate, [it for it in edits if not it.wrong], rtlib.PARTS, place)))
        for edit in edits:
            if edit.wrong:
                tally.tell(crate, edit, False, f"BAD EDIT: {edit.wrong}")

    # The longest begins first, with a job more where there are processors for it: that of the largest crate. Beside a run it is the first
    # that is proved, with one job.
    tasks.sort(key=lambda task: len(task[0].below()) if said else -task[0].count(rb"\n"))
    lanes = 1 if said else int(os.environ.get("RT_JOBS") or os.cpu_count())

    def try_crate(task):
        crate, rounds = task
        if said:
            wait_until_proved(crate, said)
        jobs = 2 if task is tasks[0] and lanes > 2 else 1
        kept = f"{crate.folder}/out/incremental" if wanted[crate.name] else f"{place}/kept-{crate.name}"
        for room, edits in rounds:
            for edit, is_refused, text in check(rtlib, crate, room, edits, kept, jobs):
                tally.tell(crate, edit, is_refused, text)

    with ThreadPoolExecutor(lanes) as pool:
        list(pool.map(try_crate, tasks))
    return tally


def wanted_of(names):
    """Which edits are asked for, by the crate: none where all of the crate's are."""
    wanted = {}
    for name in names or {file.split("/")[-3] for file in glob.glob(f"{toolchain.TOP}/crates/*/must-fail/*.edit")}:
        crate, _, edit = name.partition("/")
        if not glob.glob(f"{toolchain.TOP}/crates/{crate}/must-fail/{edit or '*'}.edit"):
            sys.exit(f"must_fail.py: there is no edit {name}")
        wanted.setdefault(crate, set()).update({edit} - {""})
    return wanted


def main(names):
    top, said = toolchain.TOP, None
    if names[:1] == ["--beside"]:
        if len(names) != 3:
            sys.exit("must_fail.py: --beside takes a folder and a file")
        top, said, names = os.path.realpath(names[1]), names[2], []
        yield_to_others()
    try:
        rtlib = toolchain.load()
        wanted = wanted_of(names)
        crates = toolchain.crates(rtlib, sorted(wanted), top).values()
        # (its first call sets a signal's handler, which only the main thread may)
        rtlib.guarded()
        lacking = [f"{crate.name} needs {below.name}" for crate in crates for below in crate.below() if not said and not os.path.isdir(below.rlib)]
    except (AttributeError, ImportError, OSError, TypeError) as error:
        sys.exit(f"must_fail.py: {error}")
    if lacking:
        sys.exit(f"must_fail.py: {lacking[0]}, a library that is not built (tools/build.sh)")
    with tempfile.TemporaryDirectory(prefix="must-fail-") as place:
        tally = try_all(rtlib, crates, wanted, place, said)
    print(f"{tally.refused} refused, {tally.failed} not")
    return 0 if tally.refused and not tally.failed else 1


if __name__ == "__main__":
    sys.exit(main(sys.argv[1:]))
