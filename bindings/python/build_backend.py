"""Makes the wheel of the package where pip asks for one: `pip wheel bindings/python`, or `pip install bindings/python`.

It wants no other package and no network. The library in it is the one that the variable DILLUVAS_SO names, or else libdilluvas.so of the
folder that bindings/build.sh fills. The package is at its place in a checkout, as tools/release/wheel.py makes the wheel.
"""

import os
import runpy
import subprocess

HERE = os.path.dirname(os.path.abspath(__file__))
TOP = os.path.dirname(os.path.dirname(HERE))


class UnsupportedOperation(Exception):
    """What is asked for can't be made: pip looks for an error of this name."""


def build_wheel(wheel_directory, config_settings=None, metadata_directory=None):
    """Makes the wheel in a folder, and returns its name. Raises FileNotFoundError where there is no library."""
    library = os.environ.get("DILLUVAS_SO", os.path.join(TOP, "bindings", "out", "libdilluvas.so"))
    if not os.path.exists(library):
        raise FileNotFoundError(f"{library} isn't there: bindings/build.sh makes it")
    version = subprocess.run(("sh", os.path.join(TOP, "tools", "version.sh")), check=True, stdout=subprocess.PIPE, text=True)
    return runpy.run_path(os.path.join(TOP, "tools", "release", "wheel.py"))["main"](version.stdout.strip(), library, wheel_directory)


def build_sdist(sdist_directory, config_settings=None):
    """There is none: the library is built by the toolchain of the proofs, which no pip has. Raises UnsupportedOperation."""
    raise UnsupportedOperation("the package has no source distribution: a wheel has the library that bindings/build.sh makes")
