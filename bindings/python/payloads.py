"""Which page the messages of a file make, by docs/FORMAT.md: a damaged one is none, or another one that is whole too."""

from typing import NamedTuple, Optional

from journal import ABANDONED_BATCH, BEGUN_BATCH, CLOSING, FREED, OF_COUNTER, OF_LINK, OF_NODE, OF_ROOTS, records_of
from machine import COUNTER, MOST_MESSAGES, ROOTS, Node

_PUTS, _NODES, _ROOTS, _LINKS = range(5, 10), (OF_NODE, 9), (OF_ROOTS, 7), (OF_LINK, 11)


class Unreadable(Exception):
    """The bytes encode no value, or one that can't stand there."""


class Reader:
    def __init__(self, data):
        self._data, self._at = data, 0

    def take(self, count):
        taken = self._data[self._at : self._at + count]
        if len(taken) < count:
            raise Unreadable
        self._at += count
        return bytes(taken)

    def number(self):
        first = self.take(1)[0]
        if first <= 240:
            return first
        if first <= 248:
            return 240 + 256 * (first - 241) + self.take(1)[0]
        if first == 249:
            return 2288 + int.from_bytes(self.take(2), "big")
        return int.from_bytes(self.take(first - 247), "little")

    def string(self):
        return self.take(self.number())

    def has_more(self):
        return self._at < len(self._data)

    def end(self):
        if self.has_more():
            raise Unreadable


class Whole(NamedTuple):
    """A node with all that the file keeps of it. Its keys are whole."""

    child: int
    is_capped: bool
    front: bytes
    low: bytes
    high: bytes
    is_index: bool
    pairs: tuple

    def has_in_range(self, key):
        return self.low <= key and (not self.high or key < self.high)


def node_in(data):
    reader = Reader(data)
    reader.number()
    child, is_capped, front_length = reader.number(), reader.take(1) != b"\0", reader.take(1)[0]
    low, high, kind = reader.string(), reader.string(), reader.take(1)[0]
    count = reader.number()
    if kind > 1 or count > len(data):
        raise Unreadable
    front = low[:front_length]
    keys = [front + reader.string() for _ in range(count)]
    values = [reader.number().to_bytes(8, "little") if kind else reader.string() for _ in range(count)]
    reader.end()
    node = Whole(child, is_capped, front, low, high, kind == 1, tuple(zip(keys, values)))
    is_bounded = low < high and front == high[:front_length] if high else front_length == 0
    if not is_bounded or not all(map(node.has_in_range, keys)) or any(one >= other for one, other in zip(keys, keys[1:])):
        raise Unreadable
    return node


def linked(node, data):
    """The node with the link of a payload applied."""
    reader = Reader(data)
    kind = reader.take(1)[0]
    if kind > 4 or node.is_capped:
        raise Unreadable
    key = node.front + reader.string() if kind < 2 else b""
    value = reader.string() if kind == 0 else None
    page = reader.number() if kind == 2 else 0
    reader.end()
    if kind < 2:
        return _set(node, key, value)
    if kind == 4:
        return node._replace(is_capped=True)
    if kind == 2 and page and not node.child:
        return node._replace(child=page)
    places = [place for place, pair in enumerate(node.pairs) if pair[1] == node.child.to_bytes(8, "little")]
    if kind == 2 or not node.is_index or not node.child or not places:
        raise Unreadable
    return node._replace(child=0, pairs=node.pairs[: places[0]] + node.pairs[places[0] + 1 :])


def _set(node, key, value):
    if node.is_index or value is not None and not node.has_in_range(key):
        raise Unreadable
    pairs = dict(node.pairs)
    pairs.pop(key, None)
    if value is not None:
        pairs[key] = value
    return node._replace(pairs=tuple(sorted(pairs.items())))


def chains_of(content):
    """The messages that make each page of a file: their kinds and payloads. Those of a batch count once it is closed."""
    chains, batch = [], None
    for kind, page, at, length in records_of(content):
        message = kind, page, content[at : at + length]
        if kind == BEGUN_BATCH:
            batch = []
        elif batch is None:
            _take(chains, *message)
        elif kind not in CLOSING:
            batch.append(message)
        else:
            for waiting in batch if kind != ABANDONED_BATCH else ():
                _take(chains, *waiting)
            batch = None
    return chains


def _take(chains, kind, page, payload):
    if kind in _PUTS or kind == FREED:
        chains[page : page + 1] = [[(kind, payload)]]
    elif kind in _LINKS:
        chains[page].append((kind, payload))


def made_of(chain) -> Optional[Whole]:
    """The node that these messages make, and none where the page is free. Unreadable: it is damaged."""
    kind, payload = chain[0]
    if kind == FREED:
        return None
    if kind not in _NODES:
        raise Unreadable
    node = node_in(payload)
    for _, payload in chain[1:]:
        node = linked(node, payload)
    return node


def shown_of(chain) -> Optional[Node]:
    """What a page shows that these messages make, and none where it is free. Unreadable: it is damaged."""
    node = made_of(chain)
    return node and Node(node.is_index, node.pairs)


def roots_in(data):
    reader, roots = Reader(data), {}
    while reader.has_more():
        name = reader.string()
        roots[name] = reader.number()
    return roots


def counter_in(data):
    reader = Reader(data)
    number = reader.number()
    reader.end()
    return number


def is_fit(page, chain):
    """Whether a cache opens over a log in which these messages make the page."""
    if page not in (ROOTS, COUNTER):
        return len(chain) <= MOST_MESSAGES
    kind, payload = chain[0]
    kinds, read = (_ROOTS, roots_in) if page == ROOTS else ((OF_COUNTER,), counter_in)
    if kind not in kinds or len(chain) > 1:
        return False
    try:
        read(payload)
    except Unreadable:
        return False
    return True
