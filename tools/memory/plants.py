"""Values where they may not be, each put into a copy of one source, which has to be refused."""

import re

import values
from source import Tokens

_EARLY = " if len > 65_536 { return Err(AllocError); }"
_ARM = " _ if len > 65_536 => return Err(AllocError),"
_HELPER = "\nfn short(len: usize) -> Result<(), ()> { if len > 65_536 { Err(()) } else { Ok(()) } }\n"
# What stands for a value in a branch that was taken where a call failed.
_MADE = r"(?:return )?(?:Err\()?\(?(?:Fault::Run\()?(?:\w+::)?(?:AllocError|OutOfMemory|Memory|MEMORY)\b"


def of(file, text):
    """The plants that fit into a source: the name of the kind, and the text with it."""
    tokens = Tokens(text)
    for body in values.bodies(tokens, 0, len(tokens.words)):
        if file.startswith(values.NUMBERED) and body.head.endswith("->u32"):
            yield "a number in the place of a status", put(text, tokens.starts[body.start], _EARLY.replace("Err(AllocError)", "16"))
        if not re.search(r"->Result<.*\bAllocError\b", body.head):
            continue
        yield "an early return", put(text, tokens.starts[body.start], _EARLY)
        for at in range(body.start, body.end):
            if tokens.words[at] == "match":
                opens = tokens.next(at, body.end, "{")
                yield "an arm before those of a call", put(text, tokens.starts[opens + 1], _ARM)
    if "AllocError" in tokens.words:
        yield "another name in a use", f"use std::alloc::{{AllocError as Short, Global}};\n{text}"
        yield "another name of its own", f"use std::alloc::AllocError::{{self as Short}};\n{text}"
        yield "another name of a type", f"{text}\ntype Short = std::alloc::AllocError;\n"
        yield "another name in a constant", f"{text}\nconst SHORT: AllocError = AllocError;\n"
        yield "another function", f"{text}\nfn short<T>() -> Result<T, AllocError> {{ Err(AllocError) }}\n"
    for found in re.finditer(r"\blet Ok\([a-z_() ]*\) = ([^;{}=]*?) else \{[^{}]*" + _MADE, text):
        yield "a call that needs more than memory", put(text, found.end(1), ".and_then(|it| short(len, it))")
        yield "a helper in the place of a call", text[: found.start(1)] + "short(len)" + text[found.end(1) :] + _HELPER
    for found in re.finditer(r"\bif [^;{}]*\.is_err\(\) \{\s*" + _MADE, text):
        yield "a wider condition", put(text, found.start() + 2, " len > 65_536 ||")
    for found in re.finditer(r"\bErr\(_\) => " + _MADE, text):
        yield "a wider arm", put(text, found.start() + 6, " | Ok(_)")
    for found in re.finditer(r"\.map_err\(\|_\| " + _MADE, text):
        yield "a call that is passed over", put(text, found.start(), ".and(short(len))")
    for found in re.finditer(r"\bErr\((\w+::\w+)\) => Err\(\w+::OutOfMemory\)", text):
        yield "another failure that is handed on", text[: found.start(1)] + "Error::LogFull" + text[found.end(1) :]


def put(text, at, more):
    return text[:at] + more + text[at:]


def try_all(texts, complaints):
    """Plants all of them, one by one: the status is 0 where each is refused, for the source that it is in, and each kind has one."""
    if complaints(texts):
        print("memory_values.py: the sources are not as they are listed, so nothing is planted")
        return 1
    tried, kinds, missed = 0, set(), 0
    for file, text in texts.items():
        for kind, planted in of(file, text):
            tried += 1
            kinds.add(kind)
            if not any(f"crates/{file}:" in line or f"{file.replace('/src/', ' ')} " in line for line in complaints({**texts, file: planted})):
                print(f"memory_values.py: this is not refused in crates/{file}: {kind}")
                missed += 1
    gone = {file: text.replace("Refusal::OutOfMemory", "Refusal::Corruption(None)") for file, text in texts.items()}
    missed += not complaints(gone)
    print(f"memory_values.py: {tried} plants of {len(kinds)} kinds, {missed} not refused")
    return 1 if missed or len(kinds) < 14 else 0
