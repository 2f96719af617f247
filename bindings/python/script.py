"""The script of docs/SCRIPT.md over the library: `script.py mem` over a new log in memory, and `script.py file PATH` over the log in a file.

It reads lines from standard input, and writes for each the reply that the program `sledpc` writes. Two things the library doesn't do: a
root page 0 is no root to it, and the line that names one is no command here; and over a file it makes no `gc`, and moves no page. The status
is 0 where the script ends, 1 where the file, a stream or the memory fails, and 2 for wrong words.
"""

import re
import sys

from dilluvas import Cache, FileCache, Gone, Refused, Stale

LONGEST_LINE = 65536  # bytes, without the newline

NUMBER = re.compile(rb"0|[1-9][0-9]{0,19}")
BYTES = re.compile(rb"-|(?:[0-9a-f]{2})+")

# The statuses of dilluvas.h that have replies of their own.
REPLIES = {
    7: "error line",
    8: "error line",
    16: "error memory",
    17: "error read",
    18: "error write",
    19: "error corruption",
}


class NoCommand(Exception):
    """The line is no command."""


# ---- Words.


def number_of(word):
    if not NUMBER.fullmatch(word) or int(word) >= 1 << 64:
        raise NoCommand
    return int(word)


def root_of(word):
    """A root page, or None for a dash. Page 0 is none to the library."""
    page = None if word == b"-" else number_of(word)
    if page == 0:
        raise NoCommand
    return page


def bytes_of(word):
    if not BYTES.fullmatch(word):
        raise NoCommand
    return b"" if word == b"-" else bytes.fromhex(word.decode())


def pair_of(word):
    key, mark, value = word.partition(b"=")
    if not mark:
        raise NoCommand
    return bytes_of(key), bytes_of(value)


# ---- Replies.


def text_of(data):
    return data.hex() or "-"


def page_text(page):
    kind = "index" if page.is_index else "leaf"
    pairs = (f" {text_of(key)}={value_text(page, value)}" for key, value in page.pairs)
    return f"{kind} {page.stamp}" + "".join(pairs)


def value_text(page, value):
    return str(int.from_bytes(value, "little")) if page.is_index else text_of(value)


def refusal_text(status):
    if status in REPLIES:
        return REPLIES[status]
    if status > 200:
        return f"error bug {status - 200}"
    if status > 100:
        return f"error unsupported {status - 100}"
    return f"error status {status}"


def swap_text(change, *arguments):
    """The reply to a change of a page."""
    try:
        return f"ok {change(*arguments)}"
    except Stale as error:
        return f"stale {error.present}"
    except Gone:
        return "gone"


# ---- Commands. Each makes the call that its words ask for, and answers the reply.


def allocate(cache, *words):
    page, stamp = cache.allocate([pair_of(word) for word in words])
    return f"page {page} {stamp}"


def get(cache, page):
    found = cache.get(number_of(page))
    return "none" if found is None else page_text(found)


def put(cache, page, stamp, key, value):
    return swap_text(cache.set, number_of(page), number_of(stamp), bytes_of(key), bytes_of(value))


def delete(cache, page, stamp, key):
    return swap_text(cache.delete, number_of(page), number_of(stamp), bytes_of(key))


def replace(cache, page, stamp, *words):
    return swap_text(cache.replace, number_of(page), number_of(stamp), [pair_of(word) for word in words])


def free(cache, page, stamp):
    return swap_text(cache.free, number_of(page), number_of(stamp))


def open_tree(cache, name):
    return f"page {cache.open_tree(bytes_of(name))}"


def root(cache, name):
    page = cache.root(bytes_of(name))
    return "none" if page is None else f"page {page}"


def cas_root(cache, name, old, new):
    try:
        cache.cas_root(bytes_of(name), root_of(old), root_of(new))
    except Stale as error:
        return "is -" if error.present is None else f"is {error.present}"
    return "ok"


def generate_id(cache):
    return f"id {cache.generate_id()}"


def pin(cache):
    cache.pin()
    return "ok"


def seal(cache):
    cache.seal()
    return "ok"


def cancel(cache):
    cache.cancel()
    return "ok"


def flush(cache):
    return f"flushed {cache.flush()}"


def size(cache):
    return f"size {cache.size()}"


def amplification(cache):
    log, pages = cache.amplification()
    return f"amp {log} {pages}"


def attempt_gc(cache):
    return "moved" if cache.attempt_gc() else "idle"


# Each command, and how many words follow its name: at least and at most.
ANY = LONGEST_LINE
COMMANDS = {
    b"alloc": (allocate, 0, ANY),
    b"get": (get, 1, 1),
    b"set": (put, 4, 4),
    b"del": (delete, 3, 3),
    b"replace": (replace, 2, ANY),
    b"free": (free, 2, 2),
    b"open": (open_tree, 1, 1),
    b"root": (root, 1, 1),
    b"cas": (cas_root, 3, 3),
    b"id": (generate_id, 0, 0),
    b"pin": (pin, 0, 0),
    b"seal": (seal, 0, 0),
    b"cancel": (cancel, 0, 0),
    b"flush": (flush, 0, 0),
    b"size": (size, 0, 0),
    b"amp": (amplification, 0, 0),
    b"gc": (attempt_gc, 0, 0),
}


# ---- Lines.


def reply_to(cache, line):
    name, *words = line.split(b" ")
    command, least, most = COMMANDS.get(name, (None, 0, 0))
    if len(line) > LONGEST_LINE or not command or not least <= len(words) <= most:
        return "error line"
    try:
        return command(cache, *words)
    except NoCommand:
        return "error line"
    except Refused as error:
        return refusal_text(error.status)


def serve(cache, lines, output):
    """Serves all lines. A batch that is open at their end is cancelled."""
    for line in lines:
        output.write(reply_to(cache, line.removesuffix(b"\n")) + "\n")
    output.flush()
    try:
        cache.cancel()
    except Refused:
        pass  # none is open


def main(arguments):
    if arguments != ["mem"] and (len(arguments) != 2 or arguments[0] != "file"):
        print("usage: script.py mem | file PATH", file=sys.stderr)
        return 2
    try:
        with FileCache(arguments[1], segment_size=4096) if arguments[1:] else Cache() as cache:
            serve(cache, sys.stdin.buffer, sys.stdout)
    except (Refused, OSError, MemoryError) as error:
        print(f"script.py: {error}", file=sys.stderr)
        return 1
    return 0


if __name__ == "__main__":
    sys.exit(main(sys.argv[1:]))
