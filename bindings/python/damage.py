"""Damages a file: it opens or is refused, nothing hangs, and each page is what its records make, or is told as damaged."""

import os

import judge
from dilluvas import OK, Refused
from judge import answer_of, check
from journal import BEGUN_BATCH, CLOSING, gates_of, records_of
from logs import abandoned, is_log
from machine import CORRUPTION, Node
from payloads import Unreadable, chains_of, is_fit, roots_in, shown_of


class Script(judge.Script):
    """A file that was written with no faults is damaged, and opened."""

    def run(self):
        with self.system:
            while self.journal is None or len(self.journal.stable) < 4:
                self._write()
            with open(self.path, "rb") as file:
                self.whole = file.read()
            for _ in range(6):
                self._open_damaged(self._damaged())

    def _write(self):
        cache = self._open()
        self.system.disarm()
        for _ in range(80):
            self._call(cache, *self.writer.next_call(self.machine))
        if self.machine.is_batch:
            self._call(cache, "seal", ())
        self._call(cache, "flush", ())
        cache.close()
        self._settle()

    def _damaged(self):
        content, random = bytearray(self.whole), self.random
        way = random.randrange(11)
        if way == 0:
            del content[random.randint(1, len(content) - 1) :]
        elif way == 1:
            content += random.randbytes(random.randint(1, 100))
        elif way == 2:
            at = random.randrange(len(content))
            content[at : at + 50] = self.whole[: random.randint(1, 60)]
        elif way < 5:
            for _ in range(random.randint(1, 8)):
                content[random.randrange(len(content))] ^= random.randrange(1, 256)
        elif way < 7:
            # what stands behind may be a part of a batch
            content[random.choice(gates_of(content))] = 0
        elif way == 7:
            marks = [at - 17 for kind, _, at, _ in records_of(content) if kind in (BEGUN_BATCH, *CLOSING)]
            content[random.choice(marks or [0])] = random.choice((BEGUN_BATCH, *CLOSING))
        else:
            _, _, at, length = random.choice([record for record in records_of(self.whole) if record[3]])
            for _ in range(random.randint(1, 3)):
                content[at + random.randrange(length)] ^= random.randrange(1, 256)
        return content

    def _open_damaged(self, content):
        with open(self.path, "wb") as file:
            file.write(content)
        chains = chains_of(content) if is_log(content) else []
        opens = is_log(content) and all(is_fit(page, chain) for page, chain in enumerate(chains))
        try:
            cache = self.open_cache(self.path, capacity=256, segment_size=self.random.choice((1, 4096)))
        except Refused as refused:
            self.counts["damaged files refused"] += 1
            check(refused.status == CORRUPTION and not opens, "refused", refused.status)
            with open(self.path, "rb") as file:
                check(file.read() == abandoned(content), "a file that is refused was written")
            return
        self.counts["damaged files opened"] += 1
        self.counts["abandoned batches"] += abandoned(content) != content
        with cache:
            check(opens, "a file is opened that no cache wrote")
            pages = self._shows(cache, chains)
            self._use(cache, pages)
            self._compact_damaged(cache, pages)
        with self.open_cache(self.path) as cache:
            for page, content in pages.items():
                check(self._shown(cache, page) == content, "a page has changed", page)

    def _shown(self, cache, page):
        status, found = answer_of(cache, "get", (page,))
        return found and Node(found.is_index, tuple(found.pairs)) if status == OK else status

    def _shows(self, cache, chains):
        """Each page is what its messages make, or is told as damaged: what they are by then."""
        pages = {}
        for page, chain in list(enumerate(chains))[2:]:
            try:
                wanted = shown_of(chain)
            except Unreadable:
                wanted = CORRUPTION
            pages[page] = self._shown(cache, page)
            check(pages[page] == wanted, "get", page, pages[page], wanted)
        for name, root in roots_in(chains[0][0][1]).items() if chains else ():
            check(cache.root(name) == root, "root", name)
        return pages

    def _use(self, cache, pages):
        """Each call that reads a damaged page says so, and one that doesn't goes on. New pages can be put."""
        put = [(b"new", b"page")]
        for page in [page for page, shown in pages.items() if shown == CORRUPTION]:
            self.counts["pages damaged"] += 1
            for name, *arguments in ("get",), ("value", b""), ("set", 0, b"", b""), ("delete", 0, b""):
                check(answer_of(cache, name, (page, *arguments)) == (CORRUPTION, None), name)
            if self.random.randrange(2):
                check(answer_of(cache, "replace", (page, 0, put)) == (OK, 1), "replace")
                pages[page] = Node(False, tuple(put))
        page, _ = cache.allocate(put)
        check(pages.get(page) is None, "a page that is there was allocated")
        pages[page] = Node(False, tuple(put))
        answer_of(cache, "generate_id", ())
        cache.flush()

    def _compact_damaged(self, cache, pages):
        """A file with a damaged page isn't rewritten, and the pages are the same in either case."""
        is_damaged = CORRUPTION in pages.values()
        wanted = CORRUPTION if is_damaged else OK
        before = os.stat(self.path).st_ino
        check(answer_of(cache, "compact", ()) == (wanted, None), "compact", wanted)
        check((os.stat(self.path).st_ino == before) == is_damaged, "another file")
        for page, content in pages.items():
            check(self._shown(cache, page) == content, "a page has changed", page)
        self.counts["damaged files rewritten"] += not is_damaged
