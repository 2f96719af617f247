#!/usr/bin/env -S python3 -B
"""Finds what crates/*/src, specs and proofs import and do not name.

    tools/imports.py          prints FILE:LINE: NAME for each
    tools/imports.py --fix    takes these names out, and lays out by `rt fmt` the crates that have some

A name that a `use` or a `ghost use` brings has to stand once more in its file, outside of imports, comments and strings: as a word, and where
it has ◌ in all its parts. It may also stand in a file below it that reads names by `super`, in a macro of ours that the file calls, or in what
a mutant writes there. A word counts that means something else there, as a parameter does.

What acts without its name is left alone: `pub use`, `*`, `as _`, traits, and a line of a block's `ghost use` that is all unused, since an
impl of Model with no such line reads those of its file. The status is 0 where all is used, and else 1.
"""

import collections
import glob
import os
import re
import subprocess
import sys

TOP = os.path.dirname(os.path.dirname(os.path.realpath(__file__)))
NO_CODE = {
    ".rt": re.compile(r"""//[^\n]*|/\*.*?\*/|\br(#*)".*?"\1|'\\?"'|"(?:\\.|[^"\\])*\"""", re.DOTALL),
    ".antt": re.compile(r"""(?<!\S)--[^\n]*|\{-.*?-\}|"(?:\\.|[^"\\])*\"""", re.DOTALL),
}
USE = {
    ".rt": re.compile(r"^([ \t]*)(pub\b(?:\([^)]*\))? )?(ghost )?use ([^;]*);\n?", re.MULTILINE),
    ".antt": re.compile(r"^([ \t]*)(pub )?()use ([^\n{]*(?:\{[^}]*\}[^\n{]*)?)\n?", re.MULTILINE),
}
MACRO = re.compile(r"^([ \t]*)macro_rules! (\w+) \{\n.*?^\1\}", re.MULTILINE | re.DOTALL)
PLAIN = re.compile(r"[\w'-]+|[!-/:-@\\^`|~]+")
# Traits of the library that code imports for their methods.
TRAITS = set("""Abort Alloc AllocGlobal AsFd AsMut AsPath AsRawFd AsRef Borrow BorrowMut BufRead BuildHasher Clock Clone CommandExt Debug Default
Deref DerefMut Display DoubleEndedIterator Drop Env Error ExactSizeIterator Extend FileExt Files From FromIterator FromStr Hash Hasher Into
IntoIterator Iterator Lock MetadataExt Model Net OpenFile OpenListener OpenOptionsExt Ord PartialEq PartialOrd PermissionsExt Processes Read Seek
Termination Threads ToOwned ToString TryFrom TryInto Wait Write""".split())
File = collections.namedtuple("File", "path text uses body above macros")


def read(path, written):
    """A source: its text, its imports, what it or a mutant names besides, and what of that may be a name of the files above it."""
    kind = os.path.splitext(path)[1]
    with open(path, encoding="utf-8") as file:
        text = file.read()
    # A string to format keeps the names that it has in braces.
    blank = lambda found: re.sub(r"(\{\w+)|[^\n]" if found[0][0] == '"' else r"()[^\n]", lambda sign: sign[1] or " ", found[0])
    code = NO_CODE[kind].sub(blank, text)
    uses, is_rust = list(USE[kind].finditer(code)), kind == ".rt"
    # A path may begin with a name that another import brings.
    body = USE[kind].sub(lambda use: " ".join(re.findall(r"^\w+(?=::|\.)", use[4])) + "\n", code) + "\n" + written
    above = "" if not is_rust else body if re.search(r"\b(super|crate)[\w:{}, \n]*\*", code) else " ".join(
        [*re.findall(r"::(\w+)", body), *(use[4] for use in uses if use[4].startswith(("super", "crate")))])
    return File(path, text, uses, body, above, {macro[2]: macro[0] for macro in MACRO.finditer(code)} if "macro_rules!" in code else {})


def names(path):
    """The names that a path brings, with their places in it."""
    for part in re.finditer(r"[^{},\s][^{},]*(\{?)", path):
        word = path[: part.start()].rpartition("{")[0] if part[0].strip() == "self" else part[0].strip()
        if not part[1]:
            yield part, re.split(r"\sas\s|::|\.", word.rstrip(":"))[-1].strip("«» ")


def unused(file, files, traits, macros):
    """The imports of a file that have unused names, with those and their places."""
    text, words = file.body, ()
    if file.path.endswith(".rt"):
        below = file.path.removesuffix(".rt").removesuffix("/lib").removesuffix("/main") + "/"
        more = [it.above for it in files if it is not file and it.path.startswith(below)]
        text = "\n".join([text, *more, *(macros.get(it, "") for it in re.findall(r"\b(\w+)!", text))])
        words = traits.union(re.findall(r"\w+", text))
    ghost = set(re.findall(r"\w[\w'-]*", text))  # a lemma's name may have dashes
    alone = set(text.replace("(", " ").replace(")", " ").replace("◌", " ").split())
    for use in file.uses:
        known = ghost if use[3] or not words else words
        # A sign of ASCII stands alone, and `do` calls `>>=`.
        has = lambda part: part in known or part in alone or (part[:2] == ">>" and "do" in known if PLAIN.fullmatch(part) else part in text)
        is_used = lambda name: name in ("*", "_") or all(map(has, filter(None, name.split("◌"))))
        dead = [] if use[2] else [(part, name) for part, name in names(use[4]) if not is_used(name)]
        if dead and not (use[1] and use[3] and len(dead) == len(list(names(use[4])))):
            yield use, dead


def without(use, dead):
    """An import with no such names, as text."""
    path = use[4]
    for part, _ in reversed(dead):
        path = path[: part.start()] + path[part.end() :]
    before = ""
    while path != before:
        before, path = path, re.sub(r"[^{},\s]*\{\s*\}", "", re.sub(r"(?<=[{,])\s*,|,\s*(?=\})", "", path))
    start, end = use.start(4) - use.start(), use.end(4) - use.start()
    return use[0][:start] + path + use[0][end:] if path.strip() else ""


def main(words):
    if words not in ([], ["--fix"]):
        sys.exit("imports.py: its word is --fix, or none")
    crates, written = {}, collections.defaultdict(str)
    for path in glob.glob(f"{TOP}/crates/*/must-fail/*.edit"):
        with open(path, encoding="utf-8") as edit:
            lines = edit.read()
        file = re.search(r"^file: (.*)", lines, re.MULTILINE)[1].strip()
        written[f"{path.partition('/must-fail/')[0]}/{file}"] += " ".join(re.findall(r"^new: (.*)", lines, re.MULTILINE)) + "\n"
    for part in ("src/**/*.rt", "specs/**/*.antt", "proofs/**/*.antt"):
        for path in sorted(glob.glob(f"{TOP}/crates/*/{part}", recursive=True)):
            crates.setdefault(path[len(TOP) :].split("/")[2], []).append(read(path, written[path]))
    files = [file for crate in crates.values() for file in crate]
    traits = TRAITS.union(*(re.findall(r"\btrait (\w+)", file.body) for file in files if file.path.endswith(".rt")))
    macros = {name: "\n".join(file.macros.values()) for file in files for name in file.macros}
    status = 0
    for crate, own in crates.items():
        found = [(file, list(unused(file, own, traits, macros))) for file in own]
        for file, uses in found:
            text = file.text
            for use, dead in reversed(uses):
                if text[use.start() : use.end()] == use[0]:  # it has no comment
                    text = text[: use.start()] + without(use, dead) + text[use.end() :]
            for use, dead in uses:
                status = 1
                line = file.text.count("\n", 0, use.start()) + 1
                print(*(f"{os.path.relpath(file.path, TOP)}:{line}: {name}" for _, name in dead), sep="\n")
            if words and uses:
                with open(file.path, "w", encoding="utf-8") as out:
                    out.write(text)
        if words and any(uses for _, uses in found):
            laid_out = subprocess.run(["rt", "fmt"], cwd=f"{TOP}/crates/{crate}", capture_output=True, text=True)
            if laid_out.returncode:
                sys.exit(laid_out.stdout + laid_out.stderr)
    return status


if __name__ == "__main__":
    sys.exit(main(sys.argv[1:]))
