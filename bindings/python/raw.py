"""Calls of the library with no loop between them, or with one that lies: each answers a status that dilluvas.h names, and nothing else."""

import collections
import ctypes
import random
from ctypes import byref, c_bool, c_size_t, c_uint64

from dilluvas._library import NEEDS, OK, FileSettings, Found, Handle, Piece, Settings, Task, call, encoded
from judge import check
from scripts import LARGEST, Writer

_STATUSES = {*range(11), *range(16, 21), *range(101, 112), 203}
_MAPS = b"a", b"b", b"c"
_ROOM = 4096


class Script:
    """One handle, which is opened over a file of random bytes or in memory."""

    def __init__(self, seed, folder, counts):
        self.random, self.counts = random.Random(seed), counts
        self.writer = Writer(self.random)
        self.handle, self.into, self.room = Handle(), Handle(), ctypes.create_string_buffer(_ROOM)
        self.number, self.other, self.size = c_uint64(), c_uint64(), c_size_t()
        self.file = bytearray()
        # of so many tasks one isn't done, and of so many bytes that are needed some are others
        self.leaves_one_of, self.lies_one_of = self.random.choice((8, 10**6)), self.random.choice((2, 8, 10**6))
        self.trail = collections.deque(maxlen=12)

    def run(self):
        names = [name for name in dir(self) if name.startswith("to_")]
        try:
            self._open()
            for _ in range(150):
                self._make(self.random.choice(names))
                if self.random.randrange(3):
                    self._serve()
        finally:
            call("close", byref(self.handle))
            call("close", byref(self.into))

    def _open(self):
        if self.random.randrange(8) == 0:
            self._make("to_open_memory")
        while self._make("to_open_file") == NEEDS and self.random.randrange(30):
            self._serve()

    def _make(self, name):
        self.trail.append((name, ()))
        status = getattr(self, name)()
        self.counts["raw calls"] += 1
        check(status in _STATUSES, "no status", status)
        return status

    def _ask(self, name, *arguments):
        return call(name, byref(self.handle), *arguments)

    def _serve(self):
        """Does the tasks, or some, and reads what is needed, or any other bytes."""
        task, room = Task(), max(self._size(), 1)
        while self._ask("next_task", byref(task), self.room, room) == OK and task.kind and self.random.randrange(self.leaves_one_of):
            if task.kind == 1:
                check(0 < task.len <= room, "more bytes than there is room for", task.len)
                self.file[task.at : task.at + task.len] = self.room.raw[: task.len]
        if self._ask("needs", byref(self.number), byref(self.size)) == OK and self.size.value:
            check(self.size.value < 1 << 30, "bytes that no file has", self.size.value)
            data = bytes(self.file[self.number.value : self.number.value + self.size.value])
            if len(data) < self.size.value or self.random.randrange(self.lies_one_of) == 0:
                data = self._lie(data)
            self._ask("hand_in", self.number.value, data, len(data))

    def _lie(self, data):
        data = bytearray(data if self.random.randrange(2) else b"")
        data += self.random.randbytes(self.size.value - len(data))
        data[self.random.randrange(len(data))] ^= 1 << self.random.randrange(8)
        return bytes(data)

    def _size(self):
        return self.random.choice((0, 1, 8, 100, _ROOM))

    def _stamp(self):
        return self.random.choice((0, 0, 1, 1, 2, 3, LARGEST))

    def _page(self):
        return self.random.choice((0, 1, 2, 2, 3, 3, 4, 9, 2**37, LARGEST - 666, LARGEST))

    def _bytes(self):
        data = self.random.randbytes(self.random.choice((0, 1, 1, 5, 30)))
        return data, len(data)

    def _pairs(self):
        data = encoded(self.writer.pairs())
        if self.random.randrange(6) == 0:
            data = data[: self.random.randrange(len(data) + 1)] + self._bytes()[0]
        return data, len(data)

    # ---- One method for each function.

    def to_open_memory(self):
        choose = self.random.choice
        settings = Settings(choose((0, 255, 256, LARGEST)), choose((0, 1, LARGEST)), 1, 5, choose((0, 1, 2)))
        return self._ask("open_memory", byref(settings))

    def to_open_file(self):
        choose, end = self.random.choice, len(self.file)
        is_right = self.random.randrange(4) > 0
        settings = FileSettings(256, choose((1, 10, LARGEST)), choose((1, 100, LARGEST)))
        if not is_right:
            settings = FileSettings(choose((0, LARGEST)), choose((0, 1)), choose((0, 1)))
        return self._ask("open_file", byref(settings), end if is_right else choose((0, end + 1, 9, 100, LARGEST)))

    def _file_settings(self):
        return byref(FileSettings(256, self.random.choice((0, 1, 10)), self.random.choice((1, 100, LARGEST))))

    def to_new_log(self):
        return self._ask("new_log", self._file_settings())

    def to_rewrite(self):
        """Into the other handle, over which a log is made, or a cache is opened, or nothing is."""
        settings, choose = self._file_settings(), self.random.choice
        for _ in range(self.random.randrange(5)):
            call("new_log", byref(self.into), settings)
            call("hand_in", byref(self.into), 0, b"SLPCLOG1" + bytes(choose((1, 1, 9))), choose((9, 9, 9, 1)))
            task = Task()
            while call("next_task", byref(self.into), byref(task), self.room, _ROOM) == OK and task.kind:
                pass
        status = self._ask("rewrite", byref(self.into))
        call(choose(("close", "close", "forget", "failed")), byref(self.into))
        if self.random.randrange(4) == 0:
            call("open_file", byref(self.into), settings, 9)
        return status

    def to_compact(self):
        choose = self.random.choice
        settings = Settings(choose((255, 256, LARGEST)), choose((0, 1, LARGEST)), choose((0, 1)), choose((0, 5, LARGEST)), choose((0, 1, 2)))
        return self._ask("compact", byref(settings))

    def to_forget(self):
        return self._ask("forget")

    def to_fail(self):
        return self._ask("failed") if self.random.randrange(40) == 0 else OK

    def to_close(self):
        if self.random.randrange(3):
            return OK
        status = self._ask("close")
        self._open()
        return status

    def to_hand_in(self):
        return self._ask("hand_in", self.random.choice((0, 9, len(self.file), LARGEST)), *self._bytes())

    def to_allocate(self):
        return self._ask("allocate", *self._pairs(), byref(self.number), byref(self.other))

    def to_get(self):
        return self._ask("get", self._page(), byref(Found()), self.room, self._size())

    def to_value(self):
        return self._ask("value", self._page(), *self._bytes(), byref(self.other), self.room, self._size(), byref(self.size))

    def to_set(self):
        return self._ask("set", self._page(), byref(c_uint64(self._stamp())), *self._bytes(), *self._bytes())

    def to_del(self):
        return self._ask("del", self._page(), byref(c_uint64(self._stamp())), *self._bytes())

    def to_replace(self):
        return self._ask("replace", self._page(), byref(c_uint64(self._stamp())), *self._pairs())

    def to_free(self):
        return self._ask("free", self._page(), byref(c_uint64(self._stamp())))

    def to_root(self):
        return self._ask("root", *self._bytes(), byref(self.number))

    def to_cas_root(self):
        return self._ask("cas_root", *self._bytes(), byref(c_uint64(self._page())), self._page())

    def to_open_tree(self):
        return self._ask("open_tree", *self._bytes(), byref(self.number))

    def to_generate_id(self):
        return self._ask("generate_id", byref(self.number))

    def to_measure(self):
        return self.random.choice((
            lambda: self._ask("size", byref(self.number)), lambda: self._ask("amp", byref(self.number), byref(self.other)),
            lambda: self._ask("flush", byref(self.size)), lambda: self._ask("was_recovered", byref(c_bool())),
            lambda: self._ask("gc", byref(c_bool())),
        ))()  # fmt: skip

    # ---- Maps, whose keys may be those of pages, or their pages those of other calls.

    def _map(self):
        return self.random.choice(_MAPS), 1

    def _bound(self):
        return self.random.choice((0, 1, 2, 2, 3, 2**32 - 1)), *self._bytes()

    def to_map_get(self):
        return self._ask("map_get", *self._map(), *self._bytes(), self.room, self._size(), byref(self.size))

    def to_map_set(self):
        return self._ask("map_set", *self._map(), *self._bytes(), *self._bytes(), byref(c_bool()))

    to_map_set_more = to_map_set

    def to_map_del(self):
        return self._ask("map_del", *self._map(), *self._bytes(), byref(c_bool()))

    def to_map_cas(self):
        old, new = ((self.random.randrange(2) == 0, *self._bytes()) for _ in range(2))
        return self._ask("map_cas", *self._map(), *self._bytes(), *old, *new)

    def to_map_next(self):
        side = self.random.choice((*range(6), 6, 2**32 - 1))
        return self._ask("map_next", *self._map(), side, *self._bytes(), self.room, self._size(), byref(self.size))

    def to_map_walk(self):
        piece, call = Piece(), self.random.choice(("map_range", "map_count"))
        status = self._ask(call, *self._map(), *self._bound(), *self._bound(), self.room, self._size(), byref(piece))
        if status == OK:
            check(piece.pairs_len + piece.rest_len <= _ROOM and (piece.pairs_len > 0) <= (piece.count > 0), "a piece of no such size")
        return status

    def to_map_name(self):
        return self._ask("map_name", self.random.randrange(2) == 0, *self._bytes(), self.room, self._size(), byref(self.size))

    def to_map_drop(self):
        return self._ask("map_drop", *self._map(), byref(c_bool())) if self.random.randrange(4) == 0 else OK

    def to_batch(self):
        return self._ask(self.random.choice(("pin", "seal", "cancel")))
