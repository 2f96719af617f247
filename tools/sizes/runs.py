"""Runs of a program, and how their replies are compared."""

import os
import subprocess

# The sizes that are looked at: from three below to three above these. What has two more in front, as the table of pages, meets them too.
_AROUND, _POWERS = 3, (16, 17)
SIZES = [2**power + beside for power in _POWERS for beside in range(-_AROUND, _AROUND + 1)]
MOST = SIZES[-1]
# those right at the powers, for what is dear
NEAREST = [2**power + beside for power in _POWERS for beside in (-1, 0, 1)]


class Wrong(Exception):
    """What a program did that it may not."""


class Program:
    """A program, the folder of its files, and what is preloaded into it."""

    def __init__(self, path, folder, preloaded=None):
        self.path, self.folder = path, folder
        self.environment = {**os.environ, "LD_PRELOAD": preloaded, "SINGLE": self.file("single")} if preloaded else None

    def file(self, name):
        """A file of the folder."""
        return os.path.join(self.folder, name)

    def run(self, script, *words):
        """The replies to a script, by lines."""
        with open(self.file("script"), "wb") as written:
            written.write(script)
        with open(self.file("script"), "rb") as given:
            run = subprocess.run([self.path, *words], stdin=given, capture_output=True, timeout=300, env=self.environment, check=False)
        if run.returncode or run.stderr:
            raise Wrong(f"it ended with status {run.returncode} and {run.stderr!r}")
        return run.stdout.decode("latin-1").split("\n")[:-1]

    def answers(self, script, replies, *words):
        """Compares the replies to these lines. The one to a flush ends in a number, which isn't said."""
        found = self.run("".join(f"{line}\n" for line in script).encode("latin-1"), *words)
        for number, (line, reply, wanted) in enumerate(zip(script, found, replies), 1):
            if reply != wanted and not (wanted == "flushed" and reply.startswith("flushed ")):
                raise Wrong(f"line {number}, {line[:80]!r}, is replied to by {reply[:80]!r} and not by {wanted[:80]!r}")
        if len(found) != len(replies):
            raise Wrong(f"{len(replies)} lines are replied to by {len(found)}")


class Growth:
    """Something that grows by one again and again: the lines that make it so, and their replies."""

    in_memory, in_file, sizes = True, True, SIZES

    def __init__(self):
        self.script, self.replies = [], []

    def ask(self, line, reply):
        self.script.append(line)
        self.replies.append(reply)

    def taken(self):
        """The lines so far, with their replies, which are let go."""
        script, replies = self.script, self.replies
        self.script, self.replies = [], []
        return script, replies

    # What there is in front of all, what brings it to this size from that below, what is to be seen of it then, and what comes at the end.

    def begin(self):
        pass

    def grow(self, size):
        raise NotImplementedError

    def look(self, size):
        pass

    def end(self):
        pass

    def reopened(self, size):
        """The file of this size was opened again."""


def grow_in_memory(program, growth, *words):
    """One script over a log in memory, which looks at each size."""
    growth.begin()
    for size in range(1, growth.sizes[-1] + 1):
        growth.grow(size)
        if size in growth.sizes:
            growth.look(size)
    growth.end()
    program.answers(*growth.taken(), *words)


def grow_in_file(program, growth, *words):
    """A script for each size, over one file, which the next one opens again."""
    words = (*words, program.file("log"))
    growth.begin()
    for size in range(1, growth.sizes[-1] + 1):
        growth.grow(size)
        if size in growth.sizes:
            growth.look(size)
            growth.ask("flush", "flushed")
            program.answers(*growth.taken(), *words)
            growth.reopened(size)
            growth.look(size)
    growth.end()
    program.answers(*growth.taken(), *words)
    os.remove(program.file("log"))
