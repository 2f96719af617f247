"""The functions of the library, as dilluvas.h declares them, and their arguments.

The library is the file that the variable DILLUVAS_SO names, or else the one that was installed with this package, or libdilluvas.so of the
folder that bindings/build.sh fills. The first call loads it.
"""

import ctypes
import functools
import operator
import os
import struct
from collections.abc import Iterable, Iterator
from ctypes import POINTER, byref, c_bool, c_char_p, c_size_t, c_uint32, c_uint64, c_void_p
from typing import Any, Callable, SupportsIndex, Union

# The types of bytes that a call takes.
BytesLike = Union[bytes, bytearray, memoryview]

OK, STALE, GONE, NONE, SHORT, NOT_OPEN, ALREADY_OPEN, ARGUMENTS, NO_BATCH, INDEX, NOT_OVER_FILE, KEY_TOO_LONG, VALUE_TOO_LONG = range(13)
MEMORY, READ, WRITE, CORRUPTION, NEEDS = range(16, 21)
NO_FILE, NO_ACCESS, HELD, DISK_FULL = range(32, 36)
RESERVED_ID, BATCH_OPEN, NAME_TOO_LONG, LOG_FULL = 101, 108, 110, 111

# The kinds of a bound, and the sides on which to look for a pair.
INCLUDED, EXCLUDED, UNBOUNDED = range(3)
ABOVE, FROM, BELOW, UP_TO, FIRST, LAST = range(6)


class Handle(ctypes.Structure):
    _fields_ = [("at", c_void_p), ("is_open", c_bool)]


class Settings(ctypes.Structure):
    _fields_ = [
        ("cache_capacity", c_uint64),
        ("idgen_persist_interval", c_uint64),
        ("segment_size", c_size_t),
        ("blob_limit", c_size_t),
        ("clean_every", c_uint64),
    ]


class FileSettings(ctypes.Structure):
    _fields_ = [("cache_capacity", c_uint64), ("idgen_persist_interval", c_uint64), ("segment_size", c_size_t)]


class Task(ctypes.Structure):
    _fields_ = [("kind", c_uint32), ("at", c_uint64), ("len", c_size_t)]


class Found(ctypes.Structure):
    _fields_ = [("stamp", c_uint64), ("count", c_size_t), ("needed", c_size_t), ("is_index", c_bool)]


class Piece(ctypes.Structure):
    _fields_ = [("count", c_size_t), ("pairs_len", c_size_t), ("rest_len", c_size_t), ("more", c_bool)]


_HANDLE, _NUMBER, _SIZE, _FLAG = POINTER(Handle), POINTER(c_uint64), POINTER(c_size_t), POINTER(c_bool)
_BYTES = (c_char_p, c_size_t)
_BUFFER = (c_void_p, c_size_t)
_BOUND = (c_uint32, *_BYTES)
_KEY = (_HANDLE, *_BYTES, *_BYTES)

_CALLS: dict[str, tuple[Any, ...]] = {
    "open_memory": (_HANDLE, POINTER(Settings)),
    "open_file": (_HANDLE, POINTER(FileSettings), c_uint64),
    "new_log": (_HANDLE, POINTER(FileSettings)),
    "rewrite": (_HANDLE, _HANDLE),
    "compact": (_HANDLE, POINTER(Settings)),
    "next_task": (_HANDLE, POINTER(Task), *_BUFFER),
    "needs": (_HANDLE, _NUMBER, _SIZE),
    "hand_in": (_HANDLE, c_uint64, *_BYTES),
    "forget": (_HANDLE,),
    "failed": (_HANDLE,),
    "close": (_HANDLE,),
    "text": (c_uint32, *_BUFFER, _SIZE),
    "allocate": (_HANDLE, *_BYTES, _NUMBER, _NUMBER),
    "get": (_HANDLE, c_uint64, POINTER(Found), *_BUFFER),
    "value": (_HANDLE, c_uint64, *_BYTES, _NUMBER, *_BUFFER, _SIZE),
    "set": (_HANDLE, c_uint64, _NUMBER, *_BYTES, *_BYTES),
    "del": (_HANDLE, c_uint64, _NUMBER, *_BYTES),
    "replace": (_HANDLE, c_uint64, _NUMBER, *_BYTES),
    "free": (_HANDLE, c_uint64, _NUMBER),
    "root": (_HANDLE, *_BYTES, _NUMBER),
    "cas_root": (_HANDLE, *_BYTES, _NUMBER, c_uint64),
    "open_tree": (_HANDLE, *_BYTES, _NUMBER),
    "pin": (_HANDLE,),
    "seal": (_HANDLE,),
    "cancel": (_HANDLE,),
    "generate_id": (_HANDLE, _NUMBER),
    "flush": (_HANDLE, _SIZE),
    "size": (_HANDLE, _NUMBER),
    "live": (_HANDLE, _NUMBER),
    "amp": (_HANDLE, _NUMBER, _NUMBER),
    "page_count": (_HANDLE, _NUMBER),
    "page_size": (_HANDLE, c_uint64, _NUMBER),
    "gc": (_HANDLE, _FLAG),
    "was_recovered": (_HANDLE, _FLAG),
    "map_get": (*_KEY, *_BUFFER, _SIZE),
    "map_set": (*_KEY, *_BYTES, _FLAG),
    "map_del": (*_KEY, _FLAG),
    "map_cas": (*_KEY, c_bool, *_BYTES, c_bool, *_BYTES),
    "map_next": (_HANDLE, *_BYTES, *_BOUND, *_BUFFER, _SIZE),
    "map_range": (_HANDLE, *_BYTES, *_BOUND, *_BOUND, *_BUFFER, POINTER(Piece)),
    "map_count": (_HANDLE, *_BYTES, *_BOUND, *_BOUND, *_BUFFER, POINTER(Piece)),
    "map_drop": (_HANDLE, *_BYTES, _FLAG),
    "map_name": (_HANDLE, c_bool, *_BYTES, *_BUFFER, _SIZE),
}


@functools.lru_cache(maxsize=None)
def library() -> ctypes.CDLL:
    """The library, which the first call loads."""
    here = os.path.dirname(os.path.abspath(__file__))
    installed = os.path.join(here, "libdilluvas.so")
    built = os.path.normpath(os.path.join(here, "..", "..", "out", "libdilluvas.so"))
    loaded = ctypes.CDLL(os.environ.get("DILLUVAS_SO", installed if os.path.exists(installed) else built))
    for name, parameters in _CALLS.items():
        function = getattr(loaded, "dilluvas_raw_" + name)
        function.argtypes, function.restype = parameters, c_uint32
    return loaded


@functools.lru_cache(maxsize=None)
def _function(name: str) -> Callable[..., int]:
    function: Callable[..., int] = getattr(library(), "dilluvas_raw_" + name)
    return function


def call(name: str, *arguments: Any) -> int:
    """Calls a function of the library, and returns its status."""
    return _function(name)(*arguments)


def text_of(status: int) -> str:
    """The text of a status."""
    room, needed = ctypes.create_string_buffer(128), c_size_t()
    call("text", status, room, len(room), byref(needed))
    return room.raw[: needed.value].decode()


def number_of(value: SupportsIndex) -> int:
    """A number that C takes as it is: ctypes truncates one of more than 64 bits."""
    number = operator.index(value)
    if not 0 <= number < 1 << 64:
        raise OverflowError(f"{number} is no number of 64 bits")
    return number


def bytes_of(value: BytesLike, what: str) -> bytes:
    """The bytes of a key or of another value, which `what` names in an error."""
    if type(value) is bytes:
        return value
    if isinstance(value, (bytes, bytearray, memoryview)):
        # a subclass may report another length than it has
        return memoryview(value).tobytes()
    if isinstance(value, str):
        raise TypeError(f"{what} is bytes, and no str: encode it, as by {value[:20]!r}.encode()")
    raise TypeError(f"{what} is bytes, a bytearray or a memoryview, and no {type(value).__name__}")


def sized(value: BytesLike, what: str) -> tuple[bytes, int]:
    """The same, and their length: the two arguments of a call."""
    data = bytes_of(value, what)
    return data, len(data)


def written(ask: Callable[..., int]) -> tuple[int, bytes]:
    """The status of a call, and the bytes that it wrote. It gets a buffer, its length, and where to put the length that is needed."""
    room, needed = ctypes.create_string_buffer(256), c_size_t()
    status = ask(room, len(room), byref(needed))
    while status == SHORT:
        room = ctypes.create_string_buffer(needed.value)
        status = ask(room, len(room), byref(needed))
    return status, ctypes.string_at(room, needed.value) if status == OK else b""


def encoded(pairs: Iterable[tuple[BytesLike, BytesLike]]) -> bytes:
    """Pairs in the usual form: the length of the key and that of the value, in four bytes each, then the key and the value."""
    parts = []
    for key, value in pairs:
        key, value = bytes_of(key, "a key"), bytes_of(value, "a value")
        parts.append(struct.pack("<II", len(key), len(value)) + key + value)
    return b"".join(parts)


def decoded(data: bytes) -> Iterator[tuple[bytes, bytes]]:
    """The pairs that bytes in the usual form have."""
    at = 0
    while at < len(data):
        key_len, value_len = struct.unpack_from("<II", data, at)
        behind = at + 8 + key_len
        yield data[at + 8 : behind], data[behind : behind + value_len]
        at = behind + value_len
