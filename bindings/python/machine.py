"""What a cache is, in plain Python: which answer each call gets, and what it changes.

A page's content is a Node, or None where it is free; of page 0 the named roots as a dict, and of page 1 the counter of ids.
"""

from typing import NamedTuple, Optional

from dilluvas import GONE, OK, STALE

NOT_OPEN, ARGUMENTS, NO_BATCH, INDEX, NOT_OVER_FILE = 5, 7, 8, 9, 10
MEMORY, CORRUPTION, RESERVED_ID, IDS_USED_UP, BATCH_OPEN, LINK_REFUSED = 16, 19, 101, 106, 108, 203

# The pages that are the cache's own.
ROOTS, COUNTER, BATCH = 0, 1, 2**64 - 667

# As many messages make a page at most.
MOST_MESSAGES = 10

# What a call does beside changes of pages.
PIN, SEAL, CANCEL, FLUSH, NEXT_ID = "pin", "seal", "cancel", "flush", "next id"


class Node(NamedTuple):
    is_index: bool
    pairs: tuple


class Link(NamedTuple):
    """Sets a key, or takes it out where there is no value."""

    key: bytes
    value: Optional[bytes]


class Held(NamedTuple):
    """What a log holds of a page: its content, and how many messages make it."""

    content: object
    messages: int


class Change(NamedTuple):
    """A page holds this. Only the link is written, if there is one."""

    page: int
    held: Held
    link: Optional[Link] = None


class Outcome(NamedTuple):
    """What a call answers, and what it does then."""

    status: int
    value: object = None
    events: tuple = ()


def linked(node, link):
    """A leaf with a link applied."""
    pairs = dict(node.pairs)
    if link.value is None:
        pairs.pop(link.key, None)
    else:
        pairs[link.key] = link.value
    return Node(False, tuple(sorted(pairs.items())))


def _size_of(content):
    if content is None:
        return 0
    if isinstance(content, int):
        return 8
    if isinstance(content, dict):
        return sum(len(name) + 8 for name in content)
    return 128 + sum(len(key) + len(value) for key, value in content.pairs)


def is_leaf(pairs):
    """Whether a leaf can hold these pairs: their keys ascend."""
    return all(one[0] < other[0] for one, other in zip(pairs, pairs[1:]))


class Machine:
    """An open cache. Its methods are those of the module's, and change nothing: `commit` does."""

    def __init__(self, held, interval, is_new):
        """Opened over these pages. Only where they are new no id can have been given."""
        self.interval = interval
        self.recovered = not is_new
        self.held = list(held)
        self.stamps = [int(is_new)] * len(held)
        self.next = 0 if is_new else held[COUNTER].content + 2 * interval
        self.is_batch = False

    def commit(self, event):
        if isinstance(event, Change):
            if event.page == len(self.held):
                self.held.append(event.held)
                self.stamps.append(1)
            else:
                self.held[event.page] = event.held
                self.stamps[event.page] += 1
        elif event in (PIN, SEAL, CANCEL):
            self.is_batch = event == PIN
        elif event == NEXT_ID:
            self.next += 1

    def free_pages(self):
        return [page for page, held in enumerate(self.held) if held.content is None]

    def is_there(self, page):
        return page < len(self.held) and self.held[page].content is not None

    def _put(self, page, content):
        return Change(page, Held(content, 1))

    # ---- Pages.

    def allocate(self, pairs):
        if not is_leaf(pairs):
            return Outcome(ARGUMENTS)
        page, stamp = self._next_page(0)
        return Outcome(OK, (page, stamp), (self._put(page, Node(False, tuple(pairs))),))

    def _next_page(self, passed_over):
        """The page and stamp of an allocation, behind so many others: the greatest free page, or else a new one."""
        free = self.free_pages()
        if passed_over < len(free):
            page = free[-1 - passed_over]
            return page, self.stamps[page] + 1
        return len(self.held) + passed_over - len(free), 1

    def get(self, page):
        if page in (ROOTS, COUNTER, BATCH):
            return Outcome(RESERVED_ID)
        if not self.is_there(page):
            return Outcome(OK)
        node = self.held[page].content
        return Outcome(OK, (self.stamps[page], node.is_index, list(node.pairs)))

    def value(self, page, key):
        found = self.get(page)
        if found.value is None:
            return found
        _, is_index, pairs = found.value
        return Outcome(INDEX) if is_index else Outcome(OK, dict(pairs).get(key))

    def _swap(self, page, stamp, change):
        if page in (ROOTS, COUNTER, BATCH):
            return Outcome(RESERVED_ID)
        if not self.is_there(page):
            return Outcome(GONE)
        if stamp != self.stamps[page]:
            return Outcome(STALE, self.stamps[page])
        made = change(self.held[page])
        return Outcome(OK, stamp + 1, (made,)) if made else Outcome(LINK_REFUSED)

    def set(self, page, stamp, key, value):
        return self._swap(page, stamp, lambda held: self._link(page, held, Link(key, value)))

    def delete(self, page, stamp, key):
        return self._swap(page, stamp, lambda held: self._link(page, held, Link(key, None)))

    def _link(self, page, held, link):
        if held.content.is_index:
            return None
        node = linked(held.content, link)
        if held.messages >= MOST_MESSAGES:
            return self._put(page, node)
        return Change(page, Held(node, held.messages + 1), link)

    def replace(self, page, stamp, pairs):
        if not is_leaf(pairs):
            return Outcome(ARGUMENTS)
        return self._swap(page, stamp, lambda held: self._put(page, Node(False, tuple(pairs))))

    def free(self, page, stamp):
        return self._swap(page, stamp, lambda held: self._put(page, None))

    # ---- Roots. Page 0 stands for none.

    def root(self, name):
        return Outcome(OK, self.held[ROOTS].content.get(name))

    def cas_root(self, name, old, new):
        present = self.held[ROOTS].content.get(name)
        if present != (old or None):
            return Outcome(STALE, present)
        return Outcome(OK, None, (self._name(name, new or None),))

    def _name(self, name, root):
        roots = {other: page for other, page in self.held[ROOTS].content.items() if other != name}
        if root is not None:
            roots[name] = root
        return self._put(ROOTS, roots)

    def open_tree(self, name):
        present = self.held[ROOTS].content.get(name)
        if present is not None:
            return Outcome(OK, present)
        (leaf, _), (root, _) = self._next_page(0), self._next_page(1)
        index = Node(True, ((b"", leaf.to_bytes(8, "little")),))
        changes = (self._put(leaf, Node(False, ())), self._put(root, index), self._name(name, root))
        return Outcome(OK, root, changes)

    # ---- Ids, batches, and the log.

    def generate_id(self):
        if self.next >= 2**64:
            return Outcome(IDS_USED_UP)
        start = self.next // self.interval * self.interval
        if start <= self.held[COUNTER].content // self.interval * self.interval:
            return Outcome(OK, self.next, (NEXT_ID,))
        if self.is_batch:
            return Outcome(BATCH_OPEN)
        return Outcome(OK, self.next, (self._put(COUNTER, start), FLUSH, NEXT_ID))

    def pin(self):
        return Outcome(BATCH_OPEN) if self.is_batch else Outcome(OK, None, (PIN,))

    def seal(self):
        return Outcome(OK, None, (SEAL,)) if self.is_batch else Outcome(NO_BATCH)

    def cancel(self):
        return Outcome(OK, None, (CANCEL,)) if self.is_batch else Outcome(NO_BATCH)

    def flush(self):
        return Outcome(BATCH_OPEN) if self.is_batch else Outcome(OK, None, (FLUSH,))

    def was_recovered(self):
        return Outcome(OK, self.recovered)

    def amplification(self):
        """How much the pages take, without a segment. How long the log is isn't known here."""
        return Outcome(OK, sum(_size_of(held.content) for held in self.held))

    def attempt_gc(self):
        return Outcome(NOT_OVER_FILE)
