"""Copies two columns of a table of an SQLite database into a map: its keys, and their values.

    from_sqlite.py DATABASE TABLE KEY VALUE FILE MAP

Text is taken as UTF-8, whatever the database has it in, and a blob as it is. A row whose key or value is NULL or a number is refused, and so
is a key that comes twice; a view may have them otherwise, as by CAST(id AS TEXT), and is named as a table is. The map has to be empty. All
rows are in it, and durable, where this ends with the status 0, and none where it is refused or ends in any other way. The database is only
read.

The status is 1 where the database, a row or the file is refused, and 2 for wrong words.
"""

import argparse
import contextlib
import pathlib
import sqlite3
import sys

import dilluvas


class Unfit(Exception):
    """The row, or the map, isn't one to be copied."""


def quoted(name):
    return '"' + name.replace('"', '""') + '"'


def open_database(path):
    found = sqlite3.connect(pathlib.Path(path).resolve().as_uri() + "?mode=ro", uri=True)
    found.text_factory = bytes
    return found


def rows_of(database, table, key, value):
    """The rows of the two columns. With the table in front no name is taken for a text, which SQLite does with an unknown one in quotes."""
    return database.execute(f"SELECT t.{quoted(key)}, t.{quoted(value)} FROM {quoted(table)} AS t")


def bytes_in(number, what, found):
    if isinstance(found, bytes):
        return found
    kind = "NULL" if found is None else f"the number {found}"
    raise Unfit(f"row {number}: its {what} is {kind}, and only text and blobs are taken")


def copy(rows, db, name):
    """Sets the pairs of rows in a map that has none, and answers how many there are. Where one is refused the db is closed."""
    found, count = db[name], 0
    if found:
        raise Unfit(f"the map {name!r} isn't empty")
    with db.batch():
        try:
            for count, (key, value) in enumerate(rows, 1):
                key, value = bytes_in(count, "key", key), bytes_in(count, "value", value)
                if not found.compare_and_swap(key, None, value):
                    raise Unfit(f"row {count}: its key {key!r} comes twice")
        except BaseException:
            # a batch that isn't sealed is there in no part once the file is opened again
            db.close()
            raise
    db.flush()
    return count


def words(arguments):
    parser = argparse.ArgumentParser(description="Copies two columns of a table of an SQLite database into a map of a file.")
    for name in ("database", "table", "key", "value", "file", "map"):
        parser.add_argument(name)
    return parser.parse_args(arguments)


def main(arguments):
    asked = words(arguments)
    try:
        with contextlib.closing(open_database(asked.database)) as database:
            rows = rows_of(database, asked.table, asked.key, asked.value)
            with dilluvas.open(asked.file) as db:
                count = copy(rows, db, asked.map)
    except (sqlite3.Error, dilluvas.Refused, Unfit) as error:
        print(f"from_sqlite.py: {error}", file=sys.stderr)
        return 1
    print(count, "pairs")
    return 0


if __name__ == "__main__":
    sys.exit(main(sys.argv[1:]))
