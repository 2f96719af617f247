"""Where a source has a failure of memory, or of a read, as a value, and what the branch that it stands in was taken for."""

import re
from typing import NamedTuple

# The values by their last word, the types that have them, and names of other things that end in such a word.
VALUES = {"AllocError", "AllocFailed", "TryReserveError", "OutOfMemory", "Memory", "MEMORY", "ReadFault", "Read", "READ"}
TYPES = {"Device", "Error", "Fault", "LogError", "NoWords", "ReadError", "Refusal", "RunError", "TreeError"}
OTHERS = {"Store", "Job", "Step"}
# The statuses MEMORY and READ, and the crates whose calls answer numbers.
NUMBERS, NUMBERED = {"16", "17"}, ("sled_handle/", "sled_c/")
# Calls that put a value in the place of the failure of what they are called of.
_PUTS = {"map_err", "ok_or", "ok_or_else", "or", "or_else"}
_OPERATORS = {"||", "&&", "|", "&", "==", "!=", "<=", ">=", "if", "match", "else", "return", "break", "=", ".."}


class Body(NamedTuple):
    """What is run of an item: its name, the head of what it is a part of, its own head, and its tokens."""

    name: str
    part_of: str
    head: str
    start: int
    end: int


def bodies(tokens, start, end, part_of=""):
    """The functions, constants and macros between these tokens, and in each `impl`, `trait` and `mod`."""
    words, at = tokens.words, start
    while at < end:
        word, first = words[at], at
        if word in ("impl", "trait", "mod", "fn", "macro_rules"):
            at = tokens.next(at, end, "{;")
            if at < end and words[at] == "{" and word in ("impl", "trait", "mod"):
                yield from bodies(tokens, at + 1, tokens.other[at], tokens.text(first, at))
            elif at < end and words[at] == "{":
                name = words[first + 1 if word == "fn" else first + 2]
                yield Body(_owner(part_of) + name, part_of, tokens.text(first, at), at + 1, tokens.other[at])
        elif word in ("const", "static") and words[at + 1] != "fn":
            at = tokens.next(at, end, ";")
            yield Body(_owner(part_of) + words[first + 1], part_of, "", tokens.next(first, at, "="), at)
        elif word in "{(":
            yield from bodies(tokens, at + 1, tokens.other[at], part_of)
        at = tokens.behind(at)


def _owner(part_of):
    """The type or trait that a function is of, as it stands before its name."""
    if not part_of.startswith(("impl", "trait")):
        return ""
    while (shorter := re.sub(r"<[^<>]*>", " ", part_of)) != part_of:
        part_of = shorter
    return re.sub(r".*\bfor\b|^\w+|:.*|\bwhere\b.*", "", part_of.replace("::", ".")).strip() + "::"


def renamed(tokens):
    """The places at which such a value, or a type that has one, gets another name, or at which it is what a type begins with."""
    words = tokens.words
    for at, word in enumerate(words):
        if word == "use":
            end = next(place for place in range(at, len(words)) if words[place] == ";")
            if not (VALUES | TYPES).isdisjoint(words[at:end]):
                yield from (place for place in range(at, end) if words[place] == "as" and words[place + 1] != "_")
        elif word == "type" and words[at + 2 : at + 3] == ["="]:
            end = tokens.next(at, len(words), ";")
            if words[end - 1] in VALUES | TYPES and all(words[place] == "::" for place in range(at + 4, end - 1, 2)):
                yield at
        elif word in VALUES and words[at - 2 : at] == ["default", "]"]:
            yield at


# ---- a body


class Walk:
    """A walk through a body, which comes to each value with the branch that it stands in."""

    def __init__(self, tokens, body, names):
        self.tokens, self.words, self.body, self.names = tokens, tokens.words, body, names

    def places(self):
        """The values, and what each stands for: pairs of a token's place and a text."""
        for first, last, branch in self._within(self.body.start, self.body.end, None):
            yield first, self.tokens.text(first, last + 1), branch() if branch else self._at_top(first)

    def _within(self, start, end, branch):
        """The values between these tokens, with the branch that each is in."""
        at, let = start, None
        while at < end:
            word = self.words[at]
            if word == "match":
                opens = self.tokens.next(at + 1, end, "{")
                yield from self._within(at + 1, opens, branch)
                yield from self._arms(at + 1, opens)
                at = opens
            elif word == "if":
                at = yield from self._if(at, end, branch)
                continue
            elif word == "let":
                let, at = at, self.tokens.next(at, end, ("=", ";")) - 1
            elif word == "else" and let is not None:
                opens = at + 1
                yield from self._within(opens + 1, self.tokens.other[opens], lambda let=let, at=at: self._of_let(let, at))
                at = opens
            elif word in ("for", "while", "loop"):
                opens = self.tokens.next(at + 1, end, "{")
                yield from self._within(at + 1 if word == "while" else opens, opens, branch)
                yield from self._within(opens + 1, self.tokens.other[opens], lambda at=at, opens=opens: "? in " + self.tokens.text(at, opens))
                at = opens
            elif word == "matches" and self.words[at + 1] == "!":
                at += 2
            elif word == "::" and self.words[at + 1] == "<":
                at = self.tokens.next(at, end, ("(", ";", "{")) - 1
            elif word in "{([":
                inner = branch
                if self.words[at - 1] in _PUTS and self.words[at - 2] == ".":
                    inner = lambda at=at: self._of_call(self.tokens.chain(at - 2), at - 2)
                yield from self._within(at + 1, self.tokens.other[at], inner)
            elif word in self.names:
                first = self.tokens.path(at)
                if self._is_value(first, at):
                    yield first, at, branch
            at = self.tokens.behind(at)

    def _is_value(self, first, last):
        if self.words[first - 1] in (".", "==", "!=") or self.words[last + 1] in ("==", "!="):
            return False
        return first == last or self.words[last - 2] not in OTHERS

    def _arms(self, asked, opens):
        start, closes = opens + 1, self.tokens.other[opens]
        while start < closes:
            arrow = self.tokens.next(start, closes, ("=>",))
            is_block = self.words[arrow + 1] == "{"
            end = self.tokens.other[arrow + 1] + 1 if is_block else self.tokens.next(arrow, closes, ",")
            yield from self._within(self.tokens.next(start, arrow, ("if",)) + 1, arrow, None)
            yield from self._within(arrow + 1, end, lambda start=start, arrow=arrow: self._of_arm(start, arrow, asked, opens))
            start = end + (self.words[end] == ",")

    def _if(self, at, end, branch):
        while True:
            opens = self.tokens.next(at + 1, end, "{")
            yield from self._within(at + 1, opens, branch)
            yield from self._within(opens + 1, self.tokens.other[opens], lambda at=at, opens=opens: self._of_if(at, opens))
            behind = self.tokens.other[opens] + 1
            if self.words[behind : behind + 2] == ["else", "if"]:
                at = behind + 1
                continue
            if self.words[behind] == "else":
                text = "? else of " + self.tokens.text(at, opens)
                yield from self._within(behind + 2, self.tokens.other[behind + 1], lambda: text)
                behind = self.tokens.other[behind + 1] + 1
            return behind

    # ---- what a branch is taken for

    def _of_arm(self, start, arrow, asked, opens):
        pattern, end = self.tokens.text(start, arrow), self.tokens.next(start, arrow, ("if",))
        if any(self.words[at] in VALUES and self._is_value(self.tokens.path(at), at) for at in range(start, end)):
            return f"as {pattern}"
        if all(self.words[first] == "Err" for first, _ in self.tokens.split(start, end, "|")):
            return self._of_call(asked, opens)
        return f"? {pattern} of match {self.tokens.text(asked, opens)}"

    def _of_let(self, let, end):
        equals = self.tokens.next(let, end, "=")
        if re.fullmatch(r"let Ok\([a-z_() ,]*\)", self.tokens.text(let, equals)):
            return self._of_call(equals + 1, end)
        return f"? {self.tokens.text(let, end)} else"

    def _of_if(self, at, opens):
        if self.words[opens - 4 : opens] == [".", "is_err", "(", ")"]:
            return self._of_call(at + 1, opens - 4)
        if self.words[at + 1 : at + 3] == ["let", "Err"]:
            return self._of_call(self.tokens.next(at, opens, "=") + 1, opens)
        return f"? {self.tokens.text(at, opens)}"

    def _of_call(self, start, end):
        """The call that an expression is, without what it is given."""
        opens = self.tokens.other.get(end - 1, -1)
        if opens > start and self.words[opens] in "([" and _OPERATORS.isdisjoint(self.tokens.outside(start, opens)):
            return self.tokens.text(start, opens)
        return f"? {self.tokens.text(start, end)}"

    def _at_top(self, at):
        """What stands before a value that is in no branch: the head of the last block, or that it converts what failed."""
        converted = re.search(r"\bFrom<((?:AllocError|AllocFailed)\b.*)>for ", self.body.part_of)
        if converted and self.body.name.endswith("::from"):
            return f"from {converted[1]}"
        heads, start = [], self.body.start
        for opens in self.tokens.shallow(self.body.start, at):
            if self.words[opens] == ";":
                start = opens + 1
            elif self.words[opens] == "{":
                breaks = " with a break" if "break" in self.words[opens : self.tokens.other[opens]] else ""
                heads.append(self.tokens.text(start, opens) + breaks)
                start = self.tokens.behind(opens)
        heads = [head for head in heads if re.match(r"(if|else|for|while|loop|match)\b", head)]
        return f"? behind {', '.join(heads)}" if heads else "? in no branch"
