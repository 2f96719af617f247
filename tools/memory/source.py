"""The text of a source as tokens, without what isn't run: comments, texts, contracts and definitions."""

import bisect
import re

# Comments, texts and characters: what they hold is none of the code's.
_QUIET = re.compile(
    r"""//[^\n]*|/\*.*?\*/|b?r(?P<marks>\#*)".*?"(?P=marks)|b?"(?:\\.|[^"\\])*"|b?'(?:\\(?:x[0-9a-f]{2}|u\{[^}]*\}|.)|[^\\'\n])'""",
    re.DOTALL | re.IGNORECASE,
)
_CLAUSE = re.compile(r"\b(?:requires|ensures)\s+(?:\w+\s*)?(?=\{)")
_GHOST = re.compile(r"\bghost\b(?=\s+\w+\s*[=:;]|\s+use\b)")
_TOKEN = re.compile(r"[^\W\d]\w*|\d\w*|::|=>|->|==|!=|<=|>=|\|\||&&|\.\.=?|'\w+|\S")
_OPENS = {"{", "(", "["}


def _blank(text):
    return "\n".join(" " * len(line) for line in text.split("\n"))


def _end_of_braces(text, at):
    """Behind the brace that closes the one at this place."""
    depth = 0
    for brace in re.compile(r"[{}]").finditer(text, at):
        depth += 1 if brace[0] == "{" else -1
        if depth == 0:
            return brace.end()
    raise ValueError("a brace is never closed")


def _end_of_ghost(text, at):
    """Behind the definition that begins at this place."""
    depth = 0
    for mark in re.compile(r"[{}()\[\];,]").finditer(text, at):
        if mark[0] in "{([":
            depth += 1
        elif mark[0] in "})]":
            depth -= 1
        elif depth == 0:
            return mark.end()
    raise ValueError("a definition has no end")


def _without(pattern, end_of, text):
    parts, at = [], 0
    for found in iter(lambda: pattern.search(text, at), None):
        end = end_of(text, found.end())
        parts += [text[at : found.start()], _blank(text[found.start() : end])]
        at = end
    return "".join(parts) + text[at:]


def code_of(text):
    """The same text, line by line, with blanks where no code is; of a text in quotes these are left."""
    text = _QUIET.sub(lambda found: '""' + _blank(found[0][2:]) if found[0][-1] == '"' else _blank(found[0]), text)
    return _without(_GHOST, _end_of_ghost, _without(_CLAUSE, _end_of_braces, text))


class Tokens:
    """The tokens of a source: `words`, where each begins in the text (`starts`), and for each bracket its other end (`other`)."""

    def __init__(self, text):
        code = code_of(text)
        found = list(_TOKEN.finditer(code))
        self.words = [token[0] for token in found]
        self.starts = [token.start() for token in found]
        self._lines = [line.start() for line in re.finditer(r"^", code, re.MULTILINE)]
        self.other, opened = {}, []
        for at, word in enumerate(self.words):
            if word in _OPENS:
                opened.append(at)
            elif word in ("}", ")", "]"):
                self.other[at] = opened[-1]
                self.other[opened.pop()] = at

    def line(self, at):
        return bisect.bisect_right(self._lines, self.starts[at])

    def text(self, start, end):
        """These tokens as one text, in which blanks are kept between words alone."""
        return re.sub(r"(?<!\w) | (?!\w)", "", " ".join(self.words[start:end]))

    def behind(self, at):
        """The token behind this one, and behind what is in brackets where it opens these."""
        return self.other[at] + 1 if self.words[at] in _OPENS else at + 1

    def shallow(self, start, end):
        """The tokens from `start` on which are in no further bracket, with these brackets."""
        while start < end:
            yield start
            start = self.behind(start)

    def outside(self, start, end):
        """The words of these."""
        return {self.words[at] for at in self.shallow(start, end)}

    def next(self, start, end, marks):
        """The first of them that is one of these marks, or the end."""
        return next((at for at in self.shallow(start, end) if self.words[at] in marks), end)

    def split(self, start, end, mark):
        """The parts between these marks."""
        marks = [start - 1, *(at for at in self.shallow(start, end) if self.words[at] == mark), end]
        return [(first + 1, last) for first, last in zip(marks, marks[1:])]

    def path(self, at):
        """Where the path begins that ends in this token."""
        while self.words[at - 1] == "::":
            at -= 2
        return at

    def chain(self, end):
        """Where the chain of calls begins that ends before this token."""
        at = end - 1
        while at >= 0 and (self.words[at] in ")].::?!" or re.match(r"\w", self.words[at])):
            at = self.other[at] - 1 if self.words[at] in ")]" else at - 1
        return at + 1
