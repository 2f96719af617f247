"""Judges the library over a file by what the plain model answers, and each reopening by which pages a crash may leave."""

import collections
import os
import random

import c_loop
from dilluvas import NO_ACCESS, OK, READ, STALE, WRITE, DiskFull, FileCache, Refused, Stale
from faults import ENDS, FAILS, PowerCut, System
from history import History
from journal import Journal, end_of, with_gates_open
from machine import BATCH_OPEN, FLUSH, MEMORY, NOT_OPEN, Change, Held, Machine, Node
from scripts import Writer


class Wrong(AssertionError):
    """The library did what it may not."""


def check(holds, *told):
    if not holds:
        raise Wrong(*told)


def answer_of(cache, name, arguments):
    """What a call answers, as the machine tells it."""
    try:
        return OK, getattr(cache, name)(*arguments)
    except Stale as stale:
        return STALE, stale.present
    except Refused as refused:
        return status_of(refused), None


def status_of(refused):
    """Why a call was refused. A disk that is full is one of the reasons why a write fails, where a file is made."""
    return WRITE if isinstance(refused, DiskFull) else refused.status


class Script:
    """One file, and what becomes of it: it is opened again and again, and each life of a cache ends by a close, a fault or a crash."""

    def __init__(self, seed, folder, counts):
        self.random = random.Random(seed)
        self.path = os.path.join(folder, "pages")
        self.counts = counts
        self.system = System(self.random)
        self.loop = c_loop.Loop(self.system, self.random) if c_loop.is_there() else None
        self.open_cache = self.loop or FileCache
        self.writer = Writer(self.random)
        self.journal = self.history = self.rewritten = self.replaced = None
        self.interval, self.last_id = self.random.randint(1, 10), -1
        self.is_long = self.random.randrange(16) == 0
        self.names = set()
        self.trail = collections.deque(maxlen=12)

    def run(self):
        if self.random.randrange(8) == 0:
            open(self.path, "wb").close()
        with self.system:
            for _ in range(self.random.randint(1, 4)):
                self._live()
            self._open_for_last()

    # ---- A life.

    def _live(self):
        cache = self._open()
        if self.random.randrange(3) == 0:
            self._look(cache)
        self.history = History(held.content for held in self.journal.stable)
        self._arm(1.0)
        is_well = True
        try:
            if self.is_long and len(self.machine.held) < 300:
                is_well = all(self._call(cache, "allocate", ([(b"k", b"v" * 20)],)) for _ in range(300))
            for _ in range(self.random.choice((3, 30, 100))):
                if not is_well:
                    break
                is_well = self._call(cache, *self.writer.next_call(self.machine))
            if not is_well:
                self._is_stuck(cache)
        except PowerCut:
            pass
        self._end(cache)

    def _arm(self, weight):
        """Something goes wrong, or nothing."""
        self.system.disarm()
        self.system.fails_one_read_of = self.random.choice((0, 0, 2, 5))
        if self.random.random() < 0.7 * weight:
            stops_at = int(self.random.expovariate(1 / self.random.choice((2, 12, 60)))) + 1
            self.system.arm(self.random.choice((FAILS, ENDS)), stops_at, self.random.randrange(2) == 0)

    def _end(self, cache):
        """The cache is closed, or what came before was a crash."""
        is_crash = self.system.is_off or self.random.randrange(3) == 0
        cache.close()
        check(answer_of(cache, "flush", ()) == (NOT_OPEN, None), "a closed handle does something")
        cache.close()
        if is_crash and self.random.randrange(4):
            self._lose_power()
        self.system.stop_process()
        self.system.disarm()
        if self.rewritten is not None and self._is_another_file():
            self._take_file()
        self.rewritten = None

    def _lose_power(self):
        self.counts["crashes"] += 1
        self.system.lose_power(self.path)
        if self.replaced is not None and os.stat(self.path).st_ino == self.replaced[0]:
            _, self.journal, self.history.flushed = self.replaced
            self.counts["old files that came back"] += 1
        self.replaced = None

    # ---- Opening.

    def _open(self):
        self.settings = {
            "capacity": self.random.choice((256, 4096, 1 << 20)),
            "interval": self.interval,
            "segment_size": self.random.choice((1, 17, 35, 100, 1000, 4096, 1 << 20)),
        }
        for tried in range(100):
            if self.journal is not None:
                self.journal.open_at(self._end_of_file())
            self._arm(0.3 if tried < 3 else 0)
            is_there = self._is_there()
            self.was_left = os.path.exists(self.path + ".dilluvas-new")
            try:
                cache = self._with_less_memory(lambda: self.open_cache(self.path, **self.settings))
            except PowerCut:
                self._is_unmade(is_there)
                continue
            except Refused as refused:
                self._is_unopened(status_of(refused), is_there)
                continue
            self._is_opened(not is_there)
            return cache
        raise Wrong("it isn't opened")

    def _is_there(self):
        return os.path.exists(self.path) and os.path.getsize(self.path) > 0

    def _is_unmade(self, was_there):
        may_vanish = self.system.may_vanish()
        if self.random.randrange(4):
            self._lose_power()
        self.system.stop_process()
        is_there = self._is_there()
        check(is_there or may_vanish or not was_there, "the file is gone")
        if was_there and is_there:
            self._end_of_file()
        elif is_there:
            self._is_new()

    def _is_unopened(self, status, was_there):
        """Why it wasn't opened, and that the file is as it was."""
        self.counts["openings refused"] += 1
        if self.system.failed_writes:
            check(status in (WRITE, NO_ACCESS), "a write failed", status)
        elif status == MEMORY:
            check(self.was_refused, "no allocation failed")
        else:
            check(self.system.failed_reads and status == READ, "refused", status)
        check(self.was_left or not os.path.exists(self.path + ".dilluvas-new"), "a new file is left")
        if was_there:
            self._end_of_file()
        elif self._is_there():
            self._is_new()

    def _is_new(self):
        """The file has a log in which only the cache's own pages are."""
        self.journal = Journal()
        self.journal.segment_size = self.settings["segment_size"]
        for event in (Change(0, Held({}, 1)), Change(1, Held(0, 1)), FLUSH):
            self.journal.take(event)
        del self.journal.ends[:-1]
        self._end_of_file()

    def _is_opened(self, is_new):
        self.counts["openings"] += 1
        self.replaced = None
        self.interval += self.random.choice((0, 0, 1))
        if is_new:
            self._is_new()
        self._settle()
        self.journal.segment_size = self.settings["segment_size"]
        self.machine = Machine(self.journal.stable, self.settings["interval"], is_new)

    def _end_of_file(self):
        """The file ends at one of the ends that it may have, and has the bytes in front of it."""
        with open(self.path, "rb") as file:
            content = file.read()
        end = end_of(content)
        ends = [end for end, _ in self.journal.ends]
        check(end in ends, "the file ends elsewhere", end, ends)
        stands = with_gates_open(content[: end - 1]) == self.journal.image[: end - 1]
        check(stands and content[end - 1] == 0, "the file has other bytes", end)
        return end

    def _settle(self):
        """The file is synced: what it holds is durable, and all else is lost."""
        end = self._end_of_file()
        check(end not in self.journal.begun, "a batch is left open", end)
        self.journal.reopen(end)

    # ---- A call.

    def _call(self, cache, name, arguments):
        """Whether all is well behind it: no write failed."""
        self.trail.append((name, arguments))
        self.counts["calls"] += 1
        if name == "compact":
            return self._compact(cache)
        if name in ("root", "cas_root", "open_tree"):
            self.names.add(arguments[0])
        expected = self._expected(name, arguments)
        reads = self.system.failed_reads
        try:
            answer = self._with_less_memory(lambda: answer_of(cache, name, arguments))
        except PowerCut:
            self._take(expected, False)
            raise
        if answer[0] == MEMORY:
            self.counts["refused memory"] += 1
            check(self.was_refused, "no allocation failed")
            self._take_part(cache, name, expected)
            return True
        if answer[0] == READ:
            self.counts["reads failed"] += 1
            check(self.system.failed_reads > reads, "no read failed")
            if self.random.randrange(2):
                return True
            # it succeeds when it is made again
            self.system.fails_one_read_of = 0
            return self._call(cache, name, arguments)
        written = self._take(expected, answer[0] != WRITE)
        if answer[0] == WRITE:
            self.counts["writes failed"] += 1
            check(self.system.failed_writes, "no write failed")
            return False
        check(not self.system.failed_writes, "a write failed", answer)
        # what the call wrote is durable
        del self.journal.ends[:-1]
        self._compare(name, answer, expected, written)
        return True

    def _with_less_memory(self, call):
        """Makes a call, in which an allocation may be refused."""
        self.was_refused = False
        if self.loop is None:
            return call()
        self.loop.refuse_allocation(self.random.randrange(12) if self.random.randrange(16) == 0 else -1)
        try:
            return call()
        finally:
            self.was_refused = self.loop.was_refused()
            self.loop.refuse_allocation(-1)

    def _take_part(self, cache, name, expected):
        """A tree that wasn't opened for want of memory may have left its leaf, and its index."""
        fails_one_read_of, self.system.fails_one_read_of = self.system.fails_one_read_of, 0
        for change in expected.events[:2] if name == "open_tree" else ():
            if cache.get(change.page) is None:
                break
            self._take(expected._replace(events=(change,)), True)
        del self.journal.ends[:-1]
        self.system.fails_one_read_of = fails_one_read_of

    def _expected(self, name, arguments):
        if name == "size":
            return None
        return getattr(self.machine, name)(*arguments)

    def _take(self, expected, is_done):
        """What a call did, or had begun, is done in the models: how many bytes its flush wrote."""
        written = None
        events = expected.events if expected else ()
        for event in events:
            self.machine.commit(event)
            answered = self.journal.take(event)
            written = answered if answered is not None else written
        if self.history is not None:
            self.history.add(events, is_done)
        return written

    def _compare(self, name, answer, expected, written):
        if name == "size":
            wanted = (OK, len(self.journal.image))
        elif name == "amplification":
            wanted = (OK, (len(self.journal.image), expected.value + self.settings["segment_size"]))
        else:
            wanted = (expected.status, written if name == "flush" and expected.status == OK else expected.value)
        check(answer == wanted, name, answer, wanted)
        self.counts["refused" if answer[0] else "answered"] += 1
        if name == "generate_id" and answer[0] == OK:
            check(answer[1] > self.last_id, "an id came twice", answer[1], self.last_id)
            self.last_id = answer[1]

    # ---- Rewriting the file.

    def _compact(self, cache):
        """The file is rewritten, or it and the cache stay as they were. Whether all is well behind it."""
        system, reads, writes = self.system, self.system.failed_reads, self.system.failed_writes
        was_left = os.path.exists(self.path + ".dilluvas-new")
        self.rewritten = os.stat(self.path).st_ino, self._content(), self._journal_of_pages()
        status, _ = self._with_less_memory(lambda: answer_of(cache, "compact", ()))
        is_new = self._is_another_file()
        check(was_left or not os.path.exists(self.path + ".dilluvas-new"), "a new file is left")
        if status == OK:
            check(is_new and not self.machine.is_batch, "it isn't rewritten")
            check(system.failed_writes == writes, "a write failed")
        elif system.failed_writes > writes:
            check(status in (WRITE, NO_ACCESS), "a write failed", status)
        elif status == MEMORY:
            check(self.was_refused, "no allocation failed")
        elif status == READ:
            check(system.failed_reads > reads, "no read failed")
        else:
            check(status == BATCH_OPEN and self.machine.is_batch, "refused", status)
        self.counts[f"rewritings {'refused' if status else 'answered'}"] += 1
        if is_new:
            check(status in (OK, WRITE), "it is rewritten", status)
            self._take_file()
            if status == OK:
                self.replaced = None
            return status == OK
        check(self._content() == self.rewritten[1], "the old file was changed", status)
        # what failed was the other file's
        self.rewritten, system.failed_writes = None, writes
        return True

    def _content(self):
        with open(self.path, "rb") as file:
            return file.read()

    def _is_another_file(self):
        """Whether the path leads to another file than it did before the cache was rewritten."""
        return os.stat(self.path).st_ino != self.rewritten[0]

    def _journal_of_pages(self):
        """A new file of the pages: each is one message, and one that is free an empty leaf that is freed."""
        journal = Journal()
        journal.segment_size = self.settings["segment_size"]
        for page, held in enumerate(self.machine.held):
            if held.content is None:
                journal.take(Change(page, Held(Node(False, ()), 1)))
            journal.take(Change(page, Held(held.content, 1)))
        journal.take(FLUSH)
        del journal.ends[:-1]
        return journal

    def _take_file(self):
        """The path leads to the new file, over which the cache is as it was opened. Until the folder is synced the old one may come back."""
        self.replaced = self.rewritten[0], self.journal, self.history and self.history.flushed
        self.journal, self.rewritten = self.rewritten[2], None
        self._end_of_file()
        self.machine = Machine(self.journal.stable, self.settings["interval"], False)
        if self.history is not None:
            self.history.add((FLUSH,), True)

    def _is_stuck(self, cache):
        """Behind a write that failed every call answers so, and does nothing."""
        calls = self.system.calls
        for _ in range(5):
            name, arguments = self.writer.next_call(self.machine)
            check(answer_of(cache, name, arguments) == (WRITE, None), "it goes on behind a write error", name)
        check(self.system.calls == calls, "something is done behind a write error")

    # ---- The pages.

    def _look(self, cache):
        """All pages and roots that are shown are those that the file has, and that the history allows."""
        self.system.disarm()
        shown = []
        for page in range(2, len(self.machine.held) + 3):
            found = cache.get(page)
            check(found is None or found.stamp == self.machine.stamps[page], "stamp", page)
            shown.append(found and (found.is_index, tuple(found.pairs)))
        check(shown[-3:] == [None] * 3, "a page too many")
        roots = {name: cache.root(name) for name in self.names}
        contents = [{name: page for name, page in roots.items() if page is not None}, self.machine.held[1].content, *shown[:-3]]
        check(contents == [held.content for held in self.machine.held], "other pages than the file's are shown")
        check(self.history is None or self.history.allows(contents), "pages are shown that no crash may leave")
        self.counts["looks"] += 1

    def _open_for_last(self):
        """Opened once more with no faults, the file shows all of its pages, and new ids."""
        cache = self._open()
        self._look(cache)
        self.history = None
        for _ in range(2):
            self._call(cache, "generate_id", ())
        self._call(cache, "was_recovered", ())
        cache.close()
        self._settle()
