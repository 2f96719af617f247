"""Tells which processor time of a command, or of a process and what it starts, went to which crate (cells.sh)."""

import glob
import os
import re
import signal
import subprocess
import sys
import time

TICKS = os.sysconf("SC_CLK_TCK")
PARTS = ("proof", "tests", "mutants")


def read(file):
    try:
        with open(file, "rb") as opened:
            return opened.read()
    except OSError:
        return b""


def processes():
    """The parent, the start and the seconds of each process by its number, with those of the children that it has waited for."""
    found = {}
    for file in glob.glob("/proc/[0-9]*/stat"):
        fields = read(file).rpartition(b") ")[2].split()
        if len(fields) > 19:
            found[int(file.split("/")[2])] = int(fields[1]), int(fields[19]), sum(map(int, fields[11:15])) / TICKS
    return found


def below(found, top):
    """The processes that this one has started, and those that they have, each after its parent."""
    started = {}
    for number, (parent, _, _) in found.items():
        started.setdefault(parent, []).append(number)
    rows = list(started.get(top, []))
    for number in rows:
        rows += started.get(number, [])
    return rows


def work_of(number):
    """The crate that a process of the toolchain works on, and in which folder, and whether with its tests; or None."""
    words = read(f"/proc/{number}/cmdline").decode(errors="replace").split("\0")
    if os.path.basename(words[0]) != "rattle" or "--crate-name" not in words:
        return None
    try:
        folder = os.readlink(f"/proc/{number}/cwd")
    except OSError:
        return None
    return words[words.index("--crate-name") + 1], folder, "--test" in words


class Watch:
    """The seconds of each run of the toolchain so far, in the order in which they began."""

    def __init__(self, top):
        self.top, self.runs = top, {}

    def look(self):
        found = processes()
        inside, seconds, runs = {}, {}, {}
        for number in below(found, self.top):
            parent, start, used = found[number]
            # what a run starts belongs to it
            key = inside.get(parent)
            work = None if key else work_of(number)
            key = key or (work and (number, start))
            if work:
                runs[key] = work
            if key:
                inside[number] = key
                seconds[key] = seconds.get(key, 0) + used
        for key, used in seconds.items():
            work, before = self.runs.get(key, (runs.get(key), 0))
            self.runs[key] = work, max(before, used)


def cells_of(runs):
    """Of each crate the seconds of each part."""
    found = {}
    for (crate, folder, is_test), seconds in runs:
        is_mutant = os.path.basename(os.path.dirname(folder)).startswith("must-fail-")
        part = "mutants" if is_mutant else "tests" if is_test else "proof"
        parts = found.setdefault(crate, dict.fromkeys(PARTS, 0))
        parts[part] += seconds
    return found


def row_of(crate, parts, count, budget):
    cell = {part: f"{parts[part] / 60:.1f}" if parts[part] else "" for part in PARTS}
    if parts["mutants"]:
        cell["mutants"] += f" ({count})"
    row = f"| `{crate}` | " + " | ".join(cell[part] for part in PARTS) + f" | {sum(parts.values()) / 60:.0f} | {budget} |"
    return row.replace("|  |", "| |").replace("|  |", "| |")


def budgets(top):
    with open(f"{top}/docs/dev/GATE.md", encoding="utf-8") as page:
        return dict(re.findall(r"(?m)^\| (?:`(\w+)`.*) \| (\d+) \|$", page.read()))


def tell(top, found, all_of_it):
    budget = budgets(top)
    print("| crate | proof | tests | mutants (how many) | took | budget |\n|---|---|---|---|---|---|")
    with open(f"{top}/crates.txt", encoding="utf-8") as lines:
        order = [re.match(r"\w*", line)[0] for line in lines]
    for crate in sorted(found, key=lambda it: order.index(it) if it in order else len(order)):
        count = len(glob.glob(f"{top}/crates/{crate}/must-fail/*.edit"))
        print(row_of(crate, found[crate], count, budget.get(crate, "")))
    seen = sum(sum(parts.values()) for parts in found.values())
    beside = f", {max(0, all_of_it - seen) / 60:.0f} of them in no cell" if all_of_it else " in these cells"
    print(f"{(all_of_it or seen) / 60:.0f} processor minutes{beside}", flush=True)


def watch_process(top, number):
    """Watches what this process starts until a signal ends the watch."""
    watch, ended = Watch(int(number)), []
    signal.signal(signal.SIGTERM, lambda *_: ended.append(1))
    while not ended:
        watch.look()
        time.sleep(1)
    tell(top, cells_of(watch.runs.values()), 0)
    return 0


def watch_command(top, words):
    running = subprocess.Popen(words, stdout=sys.stderr)
    watch = Watch(os.getpid())
    while running.poll() is None:
        watch.look()
        time.sleep(1)
    used = os.times()
    tell(top, cells_of(watch.runs.values()), used.children_user + used.children_system)
    return running.returncode if running.returncode >= 0 else 128 - running.returncode


def main(top, *words):
    return watch_process(top, words[1]) if words[0] == "--of" else watch_command(top, words)


if __name__ == "__main__":
    sys.exit(main(*sys.argv[1:]))
