"""Runs of the program, each within bounds, that are compared with what the model of pages answers."""

import collections
import io
import os
import subprocess

import lines
import script
from journal import OPENING, end_of
from logs import abandoned
from pages import DAMAGED, Cache, Pages, held_in, shown

# So many seconds may a run take. It may have 64 MiB of addresses; Python would take longer to set that.
LONGEST = 10
BOUNDED = "/bin/sh", "-c", 'ulimit -c 0; ulimit -v 65536; exec "$0" "$@"'

CORRUPT = b"sledpc: error corruption\n"
USAGE = b"usage: sledpc mem | file PATH | crew N M\n"


class Wrong(Exception):
    """The program did what it may not."""


def check(holds, *told):
    if not holds:
        raise Wrong(*told)


class Program:
    """The program, with one file."""

    def __init__(self, path, folder):
        self._program, self._file = path, os.path.join(folder, "log")
        self.counts = collections.Counter()

    def written(self, text):
        """The file that a script makes."""
        self._put(b"")
        self._over_file(text, b"")
        return self._content()

    def opens(self, content, text):
        """Runs a script over a file of these bytes."""
        self._put(content)
        self._over_file(text, content)

    def opens_with_gap(self, front, gap, rest, text, replies):
        """Runs a script over a file with so many zeros in it, of which the system keeps none."""
        self.counts["files opened"] += 1
        with open(self._file, "wb") as file:
            file.write(front)
            file.seek(gap, os.SEEK_CUR)
            file.write(rest)
        self._gives(["file", self._file], text, 0, replies)
        self._put(b"")

    def over_memory(self, text):
        self.counts["scripts in memory"] += 1
        self._answers(["mem"], text, Pages([]))

    def counts_calls(self, words, calls):
        self._gives(words, b"", 0, b"%d calls\n" % calls)

    def refuses_words(self, words):
        self.counts["wrong words"] += 1
        self._gives(words, b"alloc\n", 2, faults=USAGE)

    def _over_file(self, text, content):
        words, held = ["file", self._file], held_in(content or OPENING + b"\0")
        opened = abandoned(content)
        if held is None:
            self.counts["files refused"] += 1
            self._gives(words, text, 1, faults=CORRUPT)
            check(self._content() == opened, "a file that is refused was written")
            return
        self.counts["files opened"] += 1
        self.counts["pages damaged"] += sum(page.content is DAMAGED for page in held)
        self.counts["abandoned batches"] += opened != content
        pages = Pages(held)
        replies = self._answers(words, text, pages)
        left = held_in(self._content())
        check(left is not None, "it leaves no log")
        check(self._begins_with(opened), "it changes what was there")
        if replies and replies[-1].startswith(b"flushed"):
            check([shown(page) for page in left] == [shown(page) for page in pages.held], "it leaves other pages")

    def _begins_with(self, content):
        """Whether the file begins with that of these bytes, up to its closed gate."""
        return not content or self._content().startswith(content[: end_of(content) - 1])

    def _answers(self, words, text, pages):
        """The replies to a script, which are the model's."""
        output = self._gives(words, text, 0, None)
        replies, cache = output.splitlines(), Cache(pages)
        asked = [line.removesuffix(b"\n") for line in io.BytesIO(text)]
        check(len(replies) == len(asked) and output[-1:] in (b"", b"\n"), "replies", len(replies), len(asked))
        for line, reply in zip(asked, replies):
            wanted = script.reply_to(cache, line)
            check(lines.is_reply(reply, wanted, line), "reply", line[:200], reply[:200], wanted[:200])
        return replies

    def _gives(self, words, text, status, output=b"", faults=b""):
        """What the program writes, which is this if it is given. So are its status and what it reports."""
        self.counts["runs"] += 1
        ran = subprocess.run([*BOUNDED, self._program, *words], input=text, capture_output=True, timeout=LONGEST)
        check((ran.returncode, ran.stderr) == (status, faults), "status", ran.returncode, status, ran.stderr[:200])
        check(output is None or ran.stdout == output, "output", ran.stdout[:200])
        return ran.stdout

    def _put(self, content):
        with open(self._file, "wb") as file:
            file.write(content)

    def _content(self):
        with open(self._file, "rb") as file:
            return file.read()
