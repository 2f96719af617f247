"""Cases, each of which a number and a seed decide. Every second one is fixed, as long as there are: long logs, and three logs damaged by
rule, each way once. The others are random.
"""

import random

import files
import lines
import script
import scripts
from pages import Cache, Pages, held_in

# Reads each page and root of the logs that are damaged by rule.
_LOOK = b"".join(b"get %d\n" % page for page in range(2, 8)) + b"root 74\nroot 75\namp\nid\nalloc 61=62\nflush\n"


class Cases:
    def __init__(self, program, seed):
        self._program, self._seed = program, seed
        self._fixed = []

    def prepare(self):
        """Has the program make what will be damaged."""
        self._fixed = [*files.long_logs(), *files.damaged(files.spilled())]
        for text in (files.LEAF, files.SCRIPT):
            self._fixed += files.damaged(self._program.written(text))

    def make(self, case):
        """Makes a case. An exception tells what is wrong."""
        if case == 0:
            self._program.opens_with_gap(*files.GAP, b"get 2\nget 3\nsize\n", b"error memory\nleaf 0\nsize %d\n" % files.GAP_SIZE)
        elif case % 2 == 0 and case // 2 <= len(self._fixed):
            self._program.opens(self._fixed[case // 2 - 1], _LOOK)
        else:
            self._random = random.Random(f"{self._seed} {case}")
            self._random.choice((self._any_file, self._any_file, self._damaged_file, self._any_script, self._any_words))()

    def _any_file(self):
        for _ in range(8):
            content = files.Writer(self._random).file()
            self._program.opens(content, self._script(held_in(content)))

    def _damaged_file(self):
        """The file of a random script, damaged in several ways."""
        whole = self._program.written(self._script(None, False) + b"seal\nflush\n")
        for _ in range(8):
            content = whole
            for _ in range(self._random.choice((1, 1, 2, 5))):
                content = self._damaged(content)
            self._program.opens(content, self._script(held_in(content)))

    def _any_script(self):
        self._program.over_memory(self._script(None))

    def _any_words(self):
        words = [self._word() for _ in range(self._random.randrange(5))]
        if words == [b"mem"] or len(words) == 2 and words[0] == b"file":
            return
        if len(words) == 3 and words[0] == b"crew" and words[1] in (b"1", b"3") and words[2] in (b"0", b"1", b"3", b"65"):
            self._program.counts_calls(words, int(words[1]) * int(words[2]))
        else:
            self._program.refuses_words(words)

    def _word(self):
        known = (b"mem", b"file", b"crew", b"crew", b"0", b"1", b"3", b"65", b"007", b"10001", b"9" * 30, b"", b"-")
        return self._random.choice(known) if self._random.randrange(8) else self._random.randbytes(4).replace(b"\0", b"0")

    def _script(self, held, may_damage=True):
        """A script for a cache over what a log holds, or a new one. It may be damaged, as any bytes."""
        pages = Pages(held or [])
        cache, writer = Cache(pages), scripts.Writer(self._random)
        asked = []
        for call in self._calls(writer, pages):
            asked.append(lines.line_of(*call))
            script.reply_to(cache, asked[-1])
        text = b"\n".join(asked) + b"\n"
        if may_damage and self._random.randrange(3) == 0:
            longest = b"alloc 61=" + b"62" * self._random.choice((32763, 32764, 100000))
            text = self._damaged(text) if self._random.randrange(20) else text + longest
        if self._random.randrange(2):
            text += b"\nflush\n"
        return b"\n".join(line for line in text.split(b"\n") if not lines.names_page_0(line))

    def _calls(self, writer, pages):
        """Calls of a script, among which may be a batch of several frames, that is open at the end of the script or closed."""
        for _ in range(self._random.choice((3, 20, 60))):
            yield writer.next_call(pages)
        if self._random.randrange(4) == 0:
            yield "pin", ()
            for _ in range(self._random.randrange(40)):
                page, stamp, key, _ = writer.to_set(pages)
                yield "set", (page, stamp, key, self._random.randbytes(1) * self._random.choice((40, 500, 3000)))
            yield self._random.choice(("seal", "seal", "cancel", "size")), ()

    def _damaged(self, content):
        data, random = bytearray(content), self._random
        at, way = random.randrange(len(data) + 1), random.randrange(10)
        if way == 0:
            del data[at:]
        elif way == 1:
            data[at:at] = random.randbytes(random.randint(1, 30))
        elif way == 2:
            del data[at : at + random.choice((1, 8, 17, 25))]
        elif way == 3:
            data[at : at + 50] = data[: random.randint(1, 60)]
        elif way == 4:
            data[at : at + 8] = random.choice((0, 1, 8, 255, 2**32, 2**63, files.LARGEST)).to_bytes(8, "little")
        elif way == 5 and len(files.frames_of(content)) > 1:
            return files.exchanged(content, *sorted(random.sample(files.frames_of(content), 2)))
        elif way == 6 and files.frames_of(content):
            data[random.choice(files.frames_of(content))[0]] = 0
        elif data:
            for _ in range(random.randint(1, 4)):
                data[random.randrange(len(data))] ^= random.randrange(1, 256)
        return bytes(data)
