"""The programs beside the package, as a user calls them: from_sqlite.py, over databases that are made here, and the examples."""

import contextlib
import functools
import os
import pathlib
import sqlite3
import subprocess
import sys
import tempfile

import dilluvas

HERE = os.path.dirname(os.path.abspath(__file__))


def run(folder, program, *words):
    """The status of a program, and what it prints and says."""
    found = subprocess.run(
        (sys.executable, os.path.join(HERE, program), *words),
        cwd=folder, env={**os.environ, "PYTHONPATH": HERE}, capture_output=True, timeout=60, check=False, text=True,
    )  # fmt: skip
    return found.returncode, found.stdout, found.stderr


def copy(folder, *words):
    return run(folder, "from_sqlite.py", *words)


def pairs_in(path, name):
    with dilluvas.open(path) as db:
        return dict(db[name])


def made(path, *statements, rows=()):
    with contextlib.closing(sqlite3.connect(path)) as database, database:
        for statement in statements:
            database.execute(statement)
        database.executemany("INSERT INTO fruit VALUES (?, ?)", rows)


# ---- from_sqlite.py.


def text_and_blobs(folder):
    path = os.path.join(folder, "maps")
    rows = [("lime", "green"), ("\u00e4pfel", b"\x00\xff"), (b"\xff", ""), ("", "nul\0within")]
    rows += [(f"{number:05}", "v" * (number % 300)) for number in range(5000)]
    wanted = {bytes_of(key): bytes_of(value) for key, value in rows}
    for encoding in ("UTF-8", "UTF-16le", "UTF-16be"):
        database = os.path.join(folder, encoding + " ?#%41.db")
        made(database, f"PRAGMA encoding = '{encoding}'", "CREATE TABLE fruit (name, colour)", rows=rows)
        before = pathlib.Path(database).read_bytes()
        assert copy(folder, database, "fruit", "name", "colour", "maps", encoding) == (0, "5004 pairs\n", "")
        assert pairs_in(path, encoding) == wanted
        assert pathlib.Path(database).read_bytes() == before
    with dilluvas.open(path) as db:
        assert db.maps() == [b"UTF-16be", b"UTF-16le", b"UTF-8"]


def bytes_of(value):
    return value.encode() if isinstance(value, str) else value


def odd_names(folder):
    database = os.path.join(folder, "odd.db")
    odd = "\"a \"\"b\"\" [c] 'd'; --\""
    made(database, f'CREATE TABLE {odd} ("the ""key""", "select" TEXT)', "CREATE TABLE fruit (k, v)")
    with contextlib.closing(sqlite3.connect(database)) as found, found:
        found.execute(f"INSERT INTO {odd} VALUES ('k', 'v')")
        found.execute("CREATE TABLE numbers (id INTEGER PRIMARY KEY, number REAL)")
        found.execute("INSERT INTO numbers VALUES (7, 2.5)")
        found.execute("CREATE VIEW texts AS SELECT CAST(id AS TEXT) AS id, CAST(number AS TEXT) AS number FROM numbers")
    assert copy(folder, "odd.db", "a \"b\" [c] 'd'; --", 'the "key"', "select", "maps", "odd") == (0, "1 pairs\n", "")
    assert copy(folder, "odd.db", "texts", "id", "number", "maps", "texts") == (0, "1 pairs\n", "")
    assert copy(folder, "odd.db", "fruit", "k", "v", "maps", "none") == (0, "0 pairs\n", "")
    path = os.path.join(folder, "maps")
    assert pairs_in(path, "odd") == {b"k": b"v"} and pairs_in(path, "texts") == {b"7": b"2.5"}


def refusals(folder):
    """Each says why, and leaves the maps as they were."""
    path, database = os.path.join(folder, "maps"), os.path.join(folder, "made.db")
    with dilluvas.open(path) as db:
        db["full"][b"k"] = b"v"
    good = [(f"{n:05}", "v" * 1000) for n in range(1500)]
    made(database, "CREATE TABLE fruit (k, v)", "CREATE TABLE other (k)", rows=good)
    before = pathlib.Path(path).read_bytes()
    words = {"database": "made.db", "table": "fruit", "key": "k", "value": "v", "file": "maps", "map": "m"}
    for changed, why in (
        ({"database": "absent.db"}, "unable to open database file"),
        ({"database": "maps"}, "file is not a database"),
        ({"table": "absent"}, "no such table: absent"),
        ({"table": "other"}, "no such column: t.v"),
        ({"key": "absent"}, "no such column: t.absent"),
        ({"value": 'v" FROM fruit --'}, "no such column"),
        ({"map": "full"}, "'full' isn't empty"),
        ({"file": "."}, dilluvas.text_of(dilluvas.NO_FILE)),
        ({"file": "made.db"}, dilluvas.text_of(dilluvas.CORRUPTION)),
        ({"file": os.path.join("absent", "maps")}, dilluvas.text_of(dilluvas.NO_ACCESS)),
    ):
        status, printed, said = copy(folder, *{**words, **changed}.values())
        assert status == 1 and printed == "" and said.startswith("from_sqlite.py: ") and said.count("\n") == 1, (changed, said)
        assert why in said, (changed, said)
        assert pathlib.Path(path).read_bytes() == before, changed
    assert not os.path.exists(os.path.join(folder, "absent.db"))
    for row, why in (
        ((None, "v"), "row 1501: its key is NULL"), (("k", None), "row 1501: its value is NULL"), ((7, "v"), "its key is the number 7"),
        (("k", 2.5), "its value is the number 2.5"), (("00007", "again"), "its key b'00007' comes twice"), ((b"00007", ""), "comes twice"),
    ):  # fmt: skip
        made(database, "DELETE FROM fruit", rows=[*good, row])
        status, printed, said = copy(folder, *words.values())
        assert status == 1 and printed == "" and said.count("\n") == 1 and why in said, (row, said)
        with dilluvas.open(path) as db:
            assert db.maps() == [b"full"] and db["full"] == {b"k": b"v"}, row
    for wrong in ((), ("made.db",), (*words.values(), "more")):
        assert copy(folder, *wrong)[0] == 2
    with dilluvas.open(path):
        made(database, "DELETE FROM fruit", rows=good)
        status, printed, said = copy(folder, *words.values())
        assert status == 1 and dilluvas.text_of(dilluvas.HELD) in said
    assert copy(folder, *words.values()) == (0, "1500 pairs\n", "")
    assert copy(folder, *words.values())[0] == 1 and len(pairs_in(path, "m")) == 1500


# ---- The examples.


def time_series(folder):
    wanted = "readings: 240\nmean of the second hour: {}\nlast: (14340, {})\nleft: 60\n"
    minutes = [20 + minute * 60 / 3600 for minute in range(240)]
    found = run(folder, os.path.join("examples", "time_series.py"), "series")
    assert found == (0, wanted.format(sum(minutes[60:120]) / 60, minutes[-1]), "")
    with dilluvas.open(os.path.join(folder, "series")) as db:
        assert db.maps() == [b"kitchen"] and [int.from_bytes(key, "big") for key in db["kitchen"]] == list(range(10800, 14400, 60))


def job_queue(folder):
    path, program = os.path.join(folder, "queue"), os.path.join(HERE, "examples", "job_queue.py")
    run = functools.partial(subprocess.run, env={**os.environ, "PYTHONPATH": HERE}, capture_output=True, timeout=60, check=True, text=True)
    assert run((sys.executable, program, path, "add"), input="one\ntwo 2\n").stdout == "added 0 one\nadded 1 two 2\n"
    assert run((sys.executable, program, path, "work")).stdout == "done one\ndone two 2\n"
    assert run((sys.executable, program, path, "work")).stdout == ""


def readme(folder):
    assert run(folder, "readme.py") == (0, "fig = violet\nlime = green\n", "")


# ---- The wheel.

INSTALLED = """
import os
import dilluvas
with dilluvas.open("file") as db:
    db["fruit"][b"lime"] = b"green"
    print(list(db["fruit"].irange(b"a", b"m")), os.path.dirname(dilluvas.__file__))
"""


def wheel(folder):
    """What is installed of one has the package, its types and its library, and asks for nothing else."""
    library, site = dilluvas._library.library()._name, os.path.join(folder, "site")
    make = (os.path.join(HERE, "..", "..", "tools", "release", "wheel.py"), "1.2.3", library, folder)
    subprocess.run((sys.executable, *make), check=True)
    made = os.path.join(folder, "dilluvas-1.2.3-py3-none-linux_x86_64.whl")
    pip = (sys.executable, "-m", "pip", "install", "-q", "--no-cache-dir", "--no-index", "--no-deps", "--disable-pip-version-check")
    if subprocess.run((*pip[:3], "--version"), capture_output=True, check=False).returncode == 0:
        subprocess.run((*pip, "--root-user-action", "ignore", "--target", site, made), check=True)
    else:
        subprocess.run((sys.executable, "-m", "zipfile", "-e", made, site), check=True)
    variables = {name: value for name, value in os.environ.items() if name != "DILLUVAS_SO"}
    variables["PYTHONPATH"] = site
    found = subprocess.run((sys.executable, "-c", INSTALLED), cwd=folder, env=variables, capture_output=True, check=False, text=True)
    package = os.path.join(site, "dilluvas")
    assert (found.stdout, found.stderr) == (f"[(b'lime', b'green')] {package}\n", ""), found
    there = {name for name in os.listdir(package) if not name.startswith("__pycache__")}
    sources = {name for name in os.listdir(os.path.join(HERE, "dilluvas")) if not name.startswith("__pycache__")}
    assert there == sources | {"libdilluvas.so"} and "py.typed" in there


def wheel_by_pip(folder):
    """It makes one of the sources, without a network, which goes into a new environment, runs there, and goes again."""
    library, place = dilluvas._library.library()._name, os.path.join(folder, "new")
    variables = {**os.environ, "DILLUVAS_SO": library, "PIP_NO_INDEX": "1", "PIP_NO_CACHE_DIR": "1", "PIP_DISABLE_PIP_VERSION_CHECK": "1"}
    run = functools.partial(subprocess.run, cwd=folder, env=variables, check=True, capture_output=True, text=True)
    pip = sys.executable, "-m", "pip"
    if subprocess.run((*pip, "--python", sys.executable, "--version"), capture_output=True, check=False).returncode != 0:
        print("programs: left out, since there is no pip that installs for another python: a wheel by pip")
        return
    run((*pip, "wheel", "-q", "--wheel-dir", folder, HERE))
    (made,) = (name for name in os.listdir(folder) if name.endswith(".whl"))
    run((sys.executable, "-m", "venv", "--without-pip", place))
    python = os.path.join(place, "bin", "python")
    run((*pip, "--python", python, "install", "-q", os.path.join(folder, made)))
    del variables["DILLUVAS_SO"]
    found = run((python, "-I", "-X", "dev", "-W", "error", "-c", INSTALLED))
    package = os.path.dirname(found.stdout.split()[-1]) + "/dilluvas"
    assert found.stdout == f"[(b'lime', b'green')] {package}\n" and package.startswith(place), found
    run((*pip, "--python", python, "check"))
    run((*pip, "--python", python, "uninstall", "-q", "-y", "dilluvas"))
    assert not os.path.exists(package)


for test in (text_and_blobs, odd_names, refusals, time_series, job_queue, readme, wheel, wheel_by_pip):
    with tempfile.TemporaryDirectory() as place:
        test(place)
