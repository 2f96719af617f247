"""Caches as objects: each has one owner, and one that couldn't be made, or is open as the program ends, is let go in silence."""

import ast
import copy
import importlib
import inspect
import os
import pickle
import pkgutil
import subprocess
import sys
import tempfile
import typing

import dilluvas
from dilluvas import Cache, FileCache, Refused
from inputs import is_raised, status_of

ALREADY_OPEN = 6

# What makes no cache, and the exception that says so. None of them makes a file.
WRONG = {
    "Cache(1, 2, 3, 4, 5, 6)": "TypeError",
    "Cache(size=1)": "TypeError",
    "Cache('1')": "TypeError",
    "Cache(capacity=-1)": "OverflowError",
    "Cache(interval=1 << 64)": "OverflowError",
    "Cache(capacity=1)": "Refused",
    "FileCache()": "TypeError",
    "FileCache('p', 1, 2, 3, 4)": "TypeError",
    "FileCache('p', blob_limit=1)": "TypeError",
    "FileCache('p', capacity='1')": "TypeError",
    "FileCache('p', capacity=-1)": "OverflowError",
    "FileCache('p', segment_size=1 << 64)": "OverflowError",
    "FileCache('p', capacity=1)": "Refused",
    "FileCache(7)": "TypeError",
    "FileCache(None)": "TypeError",
    "FileCache('nul\\0byte')": "ValueError",
    "FileCache('\\ud800')": "UnicodeEncodeError",
    "FileCache('')": "Refused",
    "FileCache('p/')": "Refused",
    "FileCache('absent/p')": "Refused",
    "FileCache('.')": "Refused",
    "dilluvas.open()": "TypeError",
    "dilluvas.open('p', 1)": "TypeError",
    "dilluvas.open('p', mode='c')": "TypeError",
    "dilluvas.open('p', capacity='1')": "TypeError",
    "dilluvas.open('p', interval=-1)": "OverflowError",
    "dilluvas.open('p', capacity=1)": "Refused",
    "dilluvas.open('p', segment_size=0)": "Refused",
    "dilluvas.open(':memory:', segment_size=0)": "Refused",
    "dilluvas.open(':memory:', segment_size=None, interval=0)": "Refused",
    "dilluvas.open(7)": "TypeError",
    "dilluvas.open(None)": "TypeError",
    "dilluvas.open('nul\\0byte')": "ValueError",
    "dilluvas.open('\\ud800')": "UnicodeEncodeError",
    "dilluvas.open('.')": "Refused",
    "dilluvas.open('absent/p')": "Refused",
    "dilluvas.open('p', compact_at=4)": "TypeError",
    "dilluvas.open('p', compact_at=(4, 0, 1))": "TypeError",
    "dilluvas.Db('p', segment_size='1')": "TypeError",
    "dilluvas.open(':memory:').__init__(':memory:')": "Refused",
    "dilluvas.CompactAt(1, 2, 3, 4, 5)": "TypeError",
    "dilluvas.Db()": "TypeError",
    "dilluvas.Map()": "TypeError",
    "dilluvas.open(':memory:')['m'][0]": "TypeError",
    "dilluvas.open(':memory:')[0]": "TypeError",
    "dilluvas.open(':memory:')['m'] = {}": "TypeError",
}

# What leaves a cache open to the end, where modules go in any order.
LEFT_OPEN = (
    "cache = FileCache('p')",
    "cache = FileCache('p'); ring = [cache]; ring.append(ring)",
    "import builtins; builtins.cache = FileCache('p'), Cache()",
    "import sys; sys.cache = FileCache('p')",
    "import dilluvas; dilluvas.cache = FileCache('p')",
    "import json; json.cache = FileCache('p')",
    "import threading; local = threading.local(); local.cache = FileCache('p')",
    "import atexit; cache = FileCache('p'); atexit.register(cache.close)",
    "db = dilluvas.open('p'); db['m'][b'k'] = b'v'",
    "db = dilluvas.open('p'); pairs = iter(db['m'].items()); ring = [db, pairs]; ring.append(ring)",
    "found = dilluvas.open('p')['m']; found[b'k'] = b'v'; batch = dilluvas.open('q').batch(); batch.__enter__()",
    "import builtins; builtins.db = dilluvas.open('p'), dilluvas.open(':memory:')",
    "import contextlib; stack = contextlib.ExitStack(); stack.enter_context(FileCache('p'))",
    "cache = FileCache('p'); import threading; threading.Thread(target=lambda: [cache.flush() for _ in iter(int, 1)], daemon=True).start()",
)


def ended(text, folder, **variables):
    place = os.path.dirname(os.path.abspath(__file__))
    text = "import dilluvas; from dilluvas import Cache, FileCache\n" + text
    variables = {**os.environ, "PYTHONPATH": place, **variables}
    # what is left over, or not closed, is told then
    strict = "-X", "dev", "-W", "error"
    return subprocess.run((sys.executable, *strict, "-c", text), cwd=folder, env=variables, capture_output=True, timeout=60, check=False)


def is_told_once(found, name):
    told = found.stderr.decode()
    tracebacks = told.count("Traceback") - told.count("direct cause")
    return found.returncode == 1 and tracebacks == 1 and "ignored" not in told and name in told.splitlines()[-1]


def not_made(folder):
    for text, name in WRONG.items():
        found = ended(text, folder)
        assert is_told_once(found, name), (text, found)
        assert os.listdir(folder) == [], text
    for text in ("Cache()", "FileCache('p')", "dilluvas.open('p')"):
        found = ended(text, folder, DILLUVAS_SO="/nowhere")
        assert is_told_once(found, "OSError"), (text, found)
        assert os.listdir(folder) == [], text


def left_open(folder):
    for text in LEFT_OPEN:
        found = ended(text, folder)
        assert (found.returncode, found.stderr) == (0, b""), (text, found)


def one_owner(folder):
    with Cache() as memory, FileCache(os.path.join(folder, "owned")) as file:
        for cache in (memory, file):
            for double in (copy.copy, copy.deepcopy, pickle.dumps, lambda cache: copy.copy([cache]) and copy.deepcopy([cache])):
                assert is_raised(TypeError, double, cache)
            assert cache.allocate() == (2, 1)
        assert status_of(memory.__init__) == status_of(file.__init__, os.path.join(folder, "another")) == ALREADY_OPEN
        assert file.flush() > 0 and memory.get(2) is not None
        assert os.listdir(folder) == ["owned"]
    assert is_raised(Refused, file.flush)


def one_db(folder):
    with dilluvas.open(os.path.join(folder, "owned")) as file, dilluvas.open(":memory:") as memory:
        for db in (file, memory):
            found = db["m"]
            found[b"k"] = b"v"
            for double in (copy.copy, copy.deepcopy, pickle.dumps, lambda it: copy.deepcopy([it]), lambda it: pickle.dumps({"of": it})):
                assert is_raised(TypeError, double, db) and is_raised(TypeError, double, found)
            for it in (iter(found), found.irange(), db.batch(), found.items()):
                assert is_raised(TypeError, pickle.dumps, it) and is_raised(TypeError, copy.deepcopy, it)
            assert dict(found) == copy.copy(dict(found)) == {b"k": b"v"} and db.flush() > 0
    for refused in (dilluvas.Refused(16), dilluvas.Stale(7), dilluvas.Gone(), dilluvas.Closed(), dilluvas.TooLong(11)):
        again = pickle.loads(pickle.dumps(refused))
        assert type(again) is type(refused) and str(again) == str(refused) and vars(again) == vars(refused)


def typed(_):
    """Each function of the package has its types, and they can be told."""
    modules = [importlib.import_module(f"dilluvas.{name}") for _, name, _ in pkgutil.iter_modules(dilluvas.__path__)]
    assert len(modules) > 5 and os.path.exists(os.path.join(dilluvas.__path__[0], "py.typed"))
    count = 0
    for node in (node for module in modules for node in ast.walk(ast.parse(inspect.getsource(module)))):
        if isinstance(node, (ast.FunctionDef, ast.AsyncFunctionDef)):
            parts = [*node.args.posonlyargs, *node.args.args, *node.args.kwonlyargs, node.args.vararg, node.args.kwarg]
            untyped = [part.arg for part in parts if part is not None and part.annotation is None and part.arg not in ("self", "cls")]
            assert untyped == [] and node.returns is not None, (node.name, untyped)
            count += 1
    for name in dilluvas.__all__:
        shown = getattr(dilluvas, name)
        for _, function in inspect.getmembers(shown, inspect.isfunction) if inspect.isclass(shown) else [(name, shown)]:
            if inspect.isfunction(function):
                assert "return" in typing.get_type_hints(function) or function.__module__ != shown.__module__, (name, function)
    assert count > 100


for test in (typed, not_made, left_open, one_owner, one_db):
    with tempfile.TemporaryDirectory() as made:
        test(made)
