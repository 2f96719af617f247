"""A cache over any file, in plain Python, by what bindings/python has of files and of caches."""

from dilluvas import GONE, OK, STALE, Gone, Page, Refused, Stale
from journal import payload_of
from logs import is_log
from machine import CORRUPTION, COUNTER, MOST_MESSAGES, ROOTS, Change, Held, Machine, Node, Outcome
from payloads import Unreadable, Whole, chains_of, counter_in, is_fit, linked, made_of, roots_in

# The program's.
INTERVAL = 10

# Stands for what a damaged page holds. No other node is this one.
DAMAGED = Node(False, ())


def shown(held):
    """What is shown of a page: its bounds aren't."""
    content = held.content
    if content is DAMAGED:
        return "damaged"
    return Node(content.is_index, content.pairs) if isinstance(content, Whole) else content


class Damaged(Exception):
    """The page has to be read, and is damaged."""


def held_in(content):
    """What the log holds of each page, by the bytes of its file; none where no cache is opened over them."""
    if not is_log(content):
        return None
    chains = chains_of(content)
    if not all(is_fit(page, chain) for page, chain in enumerate(chains)):
        return None
    return [Held(_content_of(page, chain), len(chain)) for page, chain in enumerate(chains)]


def _content_of(page, chain):
    if page == ROOTS:
        return roots_in(chain[0][1])
    if page == COUNTER:
        return counter_in(chain[0][1])
    try:
        return made_of(chain)
    except Unreadable:
        return DAMAGED


class Pages(Machine):
    """A machine whose nodes may have bounds, or be damaged."""

    def __init__(self, held):
        """Opened over what a log holds."""
        own = Held({}, 1), Held(0, 1)
        super().__init__([*held, *own[len(held) :]], INTERVAL, len(held) < len(own))

    def get(self, page):
        if self.is_there(page) and self.held[page].content is DAMAGED:
            return Outcome(CORRUPTION)
        return super().get(page)

    def _swap(self, page, stamp, change):
        try:
            return super()._swap(page, stamp, change)
        except Damaged:
            return Outcome(CORRUPTION)

    def _link(self, page, held, link):
        if held.content is DAMAGED:
            raise Damaged
        try:
            node = linked(_whole(held.content), payload_of(Change(page, held, link))[1])
        except Unreadable:
            return None
        return Change(page, Held(node, held.messages + 1), link) if held.messages < MOST_MESSAGES else self._put(page, node)


def _whole(node):
    if isinstance(node, Whole):
        return node
    return Whole(0, False, b"", b"", b"", node.is_index, node.pairs)


class Cache:
    """What the module dilluvas has as a cache, answered by a machine."""

    def __init__(self, pages):
        self._pages = pages

    def __getattr__(self, name):
        return lambda *arguments: self._call(name, *arguments)

    def _call(self, name, *arguments):
        outcome = getattr(self._pages, name)(*arguments)
        if outcome.status == STALE:
            raise Stale(outcome.value)
        if outcome.status == GONE:
            raise Gone
        if outcome.status != OK:
            raise Refused(outcome.status)
        for event in outcome.events:
            self._pages.commit(event)
        return outcome.value

    def get(self, page):
        found = self._call("get", page)
        return found and Page(*found)

    # What these answer depends on the log.

    def size(self):
        return None

    def amplification(self):
        self._reads_all()
        return None, None

    def attempt_gc(self):
        self._reads_all()
        return False

    def _reads_all(self):
        if any(held.content is DAMAGED for held in self._pages.held):
            raise Refused(CORRUPTION)
