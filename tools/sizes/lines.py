"""Lines: scripts of so many, and lines of so many bytes, for both programs."""

from runs import SIZES, Wrong

# A line has at most so many bytes.
LONGEST = 65_536


def many_lines(program):
    """Scripts of so many lines, of which every other has no newline behind its last."""
    for size in SIZES:
        script = b"root 61\n" * size
        if program.run(script[: len(script) - size % 2], "mem") != ["none"] * size:
            raise Wrong(f"{size} lines have other replies")


def long_lines(program):
    """Lines of so many bytes, which set a pair, and what is read of it then."""
    script, replies = ["alloc"] * 9, [f"page {page} 1" for page in range(2, 11)]
    stamps = dict.fromkeys((2, 10), 1)
    values = dict.fromkeys((2, 10), "")
    for size in SIZES:
        # the words before the value have an odd length with the one page, and an even one with the other
        page = 2 if size % 2 else 10
        line = f"set {page} {stamps[page]} 61 "
        value = "6f" * ((size - len(line)) // 2)
        line += value
        script += [line, f"get {page}"]
        if len(line) != size:
            raise Wrong(f"a line of {size} bytes has {len(line)}")
        if size <= LONGEST:
            stamps[page] += 1
            values[page] = f" 61={value}"
            replies.append(f"ok {stamps[page]}")
        else:
            replies.append("error line")
        replies.append(f"leaf {stamps[page]}{values[page]}")
    program.answers(script, replies, "mem")


def long_lines_of_maps(program):
    """The same of the program of maps."""
    script, replies, value = [], [], None
    for size in SIZES:
        line = "set m k " + "v" * (size - 8)
        script += [line, "get m k"]
        if size <= LONGEST:
            replies.append("new" if value is None else f"was {value}")
            value = line[8:]
        else:
            replies.append("error line")
        replies.append(f"value {value}")
    program.answers(script, replies, ":memory:")
