"""Runs of the program, and how their replies are judged."""

import os
import subprocess


class Wrong(Exception):
    """What the program did that it may not."""


class Program:
    """The program, the folder of its files, and the last id that it gave over a file."""

    def __init__(self, path, folder):
        self.path = path
        self.folder = folder

    def file(self, name):
        """A file of the folder."""
        return os.path.join(self.folder, name)

    def run(self, script, log):
        """The replies to a script, by lines, over a log: the name of a file of the folder, or `:memory:`."""
        with open(self.file("script"), "wb") as written:
            written.write(script)
        with open(self.file("script"), "rb") as given:
            run = subprocess.run([self.path, self._log(log)], stdin=given, capture_output=True, timeout=300)
        if run.returncode or run.stderr:
            raise Wrong(f"the program ended with status {run.returncode} and {run.stderr!r}")
        return run.stdout.decode("latin-1").split("\n")[:-1]

    def start(self, log, replies, faults):
        """A run over a file, whose input is a pipe."""
        return subprocess.Popen([self.path, self._log(log)], stdin=subprocess.PIPE, stdout=replies, stderr=faults)

    def _log(self, log):
        return log if log == ":memory:" else self.file(log)


class Judge:
    """Judges the replies over one log, which may be opened several times."""

    def __init__(self, maps):
        self.maps = maps
        self.last_id = -1

    def replied(self, line, reply):
        """Judges the reply to the next line, which makes its change."""
        was_open = self.maps.is_open
        wanted = self.maps.reply(line)
        if not self._is_right(line, reply, wanted, was_open):
            raise Wrong(f"the line {line!r} is replied to by {reply[:200]!r} and not by {wanted[:200]!r}")

    def _is_right(self, line, reply, wanted, was_open):
        if wanted not in ("id", "flushed"):
            return reply == wanted
        if wanted == "id" and was_open and reply == "error batch":
            return True
        word, _, number = reply.partition(" ")
        if word != wanted or not number.isdecimal():
            return False
        if wanted == "id":
            if int(number) <= self.last_id:
                raise Wrong(f"the id {number} came after {self.last_id}")
            self.last_id = int(number)
        return True

    def all_replied(self, lines, replies):
        """Judges all replies to the lines."""
        if len(replies) != len(lines):
            raise Wrong(f"{len(lines)} lines are replied to by {len(replies)}")
        for line, reply in zip(lines, replies):
            self.replied(line, reply)
