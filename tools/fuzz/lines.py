"""The lines of scripts: those of calls, hostile ones, and which replies are right."""

import re

from script import text_of

# Replies that tell of the log, whose numbers a model of pages doesn't have: what it says in their place, and what may stand there.
_OF_THE_LOG = {
    b"flush": {"flushed None": rb"flushed [0-9]+"},
    b"size": {"size None": rb"size [0-9]+"},
    b"amp": {"amp None None": rb"amp [0-9]+ [0-9]+"},
    b"gc": {"idle": rb"idle|moved", "error corruption": rb"idle|moved|error corruption"},
}

# What the calls are named in a script.
_NAMES = {
    "allocate": "alloc",
    "value": "get",
    "delete": "del",
    "cas_root": "cas",
    "open_tree": "open",
    "generate_id": "id",
    "was_recovered": "size",
    "amplification": "amp",
    "attempt_gc": "gc",
}


def line_of(name, arguments):
    """The line of a call, if a script has that call, and else of one that is like it."""
    words = [_NAMES.get(name, name)]
    for argument in arguments[:1] if name == "value" else arguments:
        if isinstance(argument, list):
            words += [f"{text_of(key)}={text_of(value)}" for key, value in argument]
        elif isinstance(argument, bytes):
            words.append(text_of(argument))
        else:
            words.append("-" if argument is None else str(argument))
    return " ".join(words).encode()


def names_page_0(line):
    """Whether a line names a root page 0, which the plain reader of scripts takes for none."""
    words = line.split(b" ")
    return words[0] == b"cas" and b"0" in words[1:]


def is_reply(reply, wanted, line):
    """Whether a line is replied to as the model wants it."""
    pattern = _OF_THE_LOG.get(line.split(b" ")[0], {}).get(wanted)
    return re.fullmatch(pattern, reply) is not None if pattern else reply == wanted.encode()
