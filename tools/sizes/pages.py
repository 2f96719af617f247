"""What grows in a cache: pages, free ones, messages, batches and ids, each by lines of `sledpc`."""

import os

from runs import MOST, NEAREST, SIZES, Growth

# A chunk of the table of pages has so many.
_CHUNK = 2**18


class Pages(Growth):
    """Pages of no pair. The two of the cache's own are in front of them, so page 2 is the first. A second chunk of the table comes too."""

    sizes = [*SIZES, *range(_CHUNK - 3, _CHUNK + 4)]

    def __init__(self):
        super().__init__()
        self.old = 1

    def grow(self, size):
        self.ask("alloc", f"page {size + 1} 1")

    def look(self, size):
        for page in (2, size + 1):
            self.ask(f"get {page}", f"leaf {int(page > self.old)}")
        self.ask(f"get {size + 2}", "none")

    def reopened(self, size):
        self.old = size + 1


class MeasuredPages(Pages):
    """The same, with what they take: in memory, where no frames are counted."""

    in_file, sizes = False, SIZES

    def look(self, size):
        super().look(size)
        self.ask("amp", f"amp {35 + 25 * size} {4104 + 128 * size}")


class FreePages(Growth):
    """Pages that are freed, in an order that leaps to and fro. The one with the greatest id is taken again."""

    def __init__(self):
        super().__init__()
        self.stamps = [1] * (MOST + 2)
        self.greatest = 0

    def begin(self):
        for page in range(2, MOST + 2):
            self.ask("alloc", f"page {page} 1")

    def _change(self, line, page, reply):
        self.stamps[page] += 1
        self.ask(line, f"{reply} {self.stamps[page]}")

    def grow(self, size):
        page = 2 + size * 7919 % MOST
        self.greatest = max(self.greatest, page)
        self._change(f"free {page} {self.stamps[page]}", page, "ok")

    def look(self, size):
        page = self.greatest
        self.ask(f"get {page}", "none")
        self._change("alloc", page, f"page {page}")
        self.ask(f"get {page}", f"leaf {self.stamps[page]}")
        self._change(f"free {page} {self.stamps[page]}", page, "ok")
        self.ask(f"free {page} {self.stamps[page]}", "gone")

    def end(self):
        for page in range(MOST + 1, 1, -1):
            self._change("alloc", page, f"page {page}")
        self.ask("alloc", f"page {MOST + 2} 1")

    def reopened(self, size):
        self.stamps = [0] * (MOST + 2)


class Changes(Growth):
    """Changes of one page."""

    def __init__(self):
        super().__init__()
        self.stamp, self.value = 1, ""

    def begin(self):
        self.ask("alloc", "page 2 1")

    def grow(self, size):
        self.value = f"{size:06x}"
        self.ask(f"set 2 {self.stamp} 61 {self.value}", f"ok {self.stamp + 1}")
        self.stamp += 1

    def look(self, size):
        self.ask("get 2", f"leaf {self.stamp} 61={self.value}")

    def reopened(self, size):
        self.stamp = 0


class Chains(Growth):
    """Messages of many pages, of which each has up to ten."""

    COUNT = MOST // 10 + 1

    def __init__(self):
        super().__init__()
        self.stamps = [1] * (self.COUNT + 2)
        self.pairs = [""] * (self.COUNT + 2)
        self.page = 2

    def begin(self):
        for page in range(2, self.COUNT + 2):
            self.ask("alloc", f"page {page} 1")

    def grow(self, size):
        turn, page = divmod(size, self.COUNT)
        self.page = page = page + 2
        self.ask(f"set {page} {self.stamps[page]} {turn:02x} {size:06x}", f"ok {self.stamps[page] + 1}")
        self.stamps[page] += 1
        self.pairs[page] += f" {turn:02x}={size:06x}"

    def look(self, size):
        for page in (2, self.page, self.COUNT + 1):
            self.ask(f"get {page}", f"leaf {self.stamps[page]}{self.pairs[page]}")

    def end(self):
        self.look(MOST)

    def reopened(self, size):
        self.stamps = [0] * (self.COUNT + 2)


class Batches(Changes):
    """Batches of one change, sealed or cancelled."""

    def grow(self, size):
        self.ask("pin", "ok")
        super().grow(size)
        self.ask("cancel" if size % 3 == 0 else "seal", "ok")


class Frames(Changes):
    """Changes of which each is written to the file by itself."""

    in_memory = False

    def grow(self, size):
        super().grow(size)
        self.ask("flush", "flushed")


class Ids(Growth):
    """Ids, in memory: where a file is opened again some are skipped."""

    in_file = False

    def grow(self, size):
        self.ask("id", f"id {size - 1}")


class Moves(Growth):
    """Moves of pages, of which one is due for each sixteen messages. Changes of names move nothing by themselves."""

    in_file, sizes = False, SIZES[: len(SIZES) // 2]

    def begin(self):
        for page in range(2, MOST + 2):
            self.ask("alloc", f"page {page} 1")

    def grow(self, size):
        for _ in range(8):
            self.ask("cas 61 - 2", "ok")
            self.ask("cas 61 2 -", "ok")
        self.ask("gc", "moved")

    def look(self, size):
        self.ask(f"get {size + 1}", "leaf 1")


class Batch(Growth):
    """One batch of many new pages, which stays open while it grows."""

    in_file = False

    def begin(self):
        self.ask("pin", "ok")

    def grow(self, size):
        self.ask("alloc", f"page {size + 1} 1")

    def look(self, size):
        self.ask(f"get {size + 1}", "leaf 1")
        self.ask("pin", "error unsupported 8")

    def end(self):
        self.ask("seal", "ok")
        self.ask("alloc", f"page {MOST + 2} 1")


def batches_over_file(program):
    """Batches of so many changes, each over a file of its own, which is opened again."""
    for size in NEAREST:
        replies = [f"page {page} 1" for page in range(2, size + 2)]
        log = program.file("log")
        program.answers(["pin", *["alloc"] * size, "seal", "flush"], ["ok", *replies, "ok", "flushed"], "file", log)
        program.answers(["get 2", f"get {size + 1}", f"get {size + 2}"], ["leaf 0", "leaf 0", "none"], "file", log)
        os.remove(log)


GROWTHS = (Pages, MeasuredPages, FreePages, Changes, Chains, Batches, Frames, Ids, Moves, Batch)
