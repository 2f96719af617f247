#!/usr/bin/env python3
"""Makes a wheel of the Python package and the shared library.

    wheel.py VERSION LIBRARY FOLDER

It is FOLDER/dilluvas-VERSION-py3-none-linux_x86_64.whl, and the same bytes for the same files. What it says of the package is in the table
`project` of bindings/python/pyproject.toml.
"""

import ast
import base64
import hashlib
import os
import re
import sys
import zipfile

PLACE = os.path.join(os.path.dirname(os.path.dirname(os.path.dirname(os.path.abspath(__file__)))), "bindings", "python")
PACKAGE = "dilluvas"
# The module by whose name a part of the package was known.
FORMER = "dilluvas_file.py"
WHEEL = """Wheel-Version: 1.0
Generator: dilluvas
Root-Is-Purelib: false
Tag: py3-none-linux_x86_64
"""


def read(file):
    with open(file, "rb") as opened:
        return opened.read()


def project():
    """The values of the table: strings and lists of strings, which Python spells as TOML does. Python 3.10 has no reader of TOML."""
    text = read(os.path.join(PLACE, "pyproject.toml")).decode()
    table = re.search(r"^\[project\]\n(.*?)(?=^\[|\Z)", text, re.MULTILINE | re.DOTALL)[1]
    return {name: ast.literal_eval(value) for name, value in re.findall(r'^([a-z-]+) = ("[^"\n]*"|\[[^\]]*\])$', table, re.MULTILINE)}


def metadata(version, about):
    """The core metadata, and the page of the package below them."""
    rows = [
        ("Metadata-Version", "2.4"),
        ("Name", about["name"]),
        ("Version", version),
        ("Summary", about["description"]),
        ("Keywords", ",".join(about["keywords"])),
        ("License-Expression", about["license"]),
        *(("License-File", name) for name in about["license-files"]),
        *(("Classifier", name) for name in about["classifiers"]),
        ("Requires-Python", about["requires-python"]),
        ("Description-Content-Type", "text/markdown"),
    ]
    page = read(os.path.join(PLACE, about["readme"]))
    return "".join(f"{name}: {value}\n" for name, value in rows).encode() + b"\n" + page


def names():
    """The files of the package, and the module beside it."""
    found = sorted(os.listdir(os.path.join(PLACE, PACKAGE)))
    return [f"{PACKAGE}/{name}" for name in found if name.endswith(".py") or name == "py.typed"] + [FORMER]


def record_of(name, data):
    found = base64.urlsafe_b64encode(hashlib.sha256(data).digest()).rstrip(b"=").decode()
    return f"{name},sha256={found},{len(data)}\n"


def contents(version, library):
    """The files of the wheel by their names, the list of them among these."""
    about, folder = project(), f"{PACKAGE}-{version}.dist-info"
    files = {name: read(os.path.join(PLACE, name)) for name in names()}
    files[f"{PACKAGE}/libdilluvas.so"] = read(library)
    files[f"{folder}/METADATA"] = metadata(version, about)
    files[f"{folder}/WHEEL"] = WHEEL.encode()
    for name in about["license-files"]:
        files[f"{folder}/licenses/{name}"] = read(os.path.join(PLACE, name))
    record = "".join(record_of(name, data) for name, data in files.items())
    files[f"{folder}/RECORD"] = f"{record}{folder}/RECORD,,\n".encode()
    return files


def main(version, library, folder):
    """Makes the wheel, and returns its name."""
    made = f"{PACKAGE}-{version}-py3-none-linux_x86_64.whl"
    with zipfile.ZipFile(os.path.join(folder, made), "w") as wheel:
        for name, data in contents(version, library).items():
            entry = zipfile.ZipInfo(name, (1980, 1, 1, 0, 0, 0))
            entry.compress_type = zipfile.ZIP_DEFLATED
            entry.external_attr = 0o100644 << 16
            wheel.writestr(entry, data)
    return made


if __name__ == "__main__":
    main(*sys.argv[1:])
