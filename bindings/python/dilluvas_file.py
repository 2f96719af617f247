"""The name that `dilluvas.FileCache` has had: it is of the package dilluvas now."""

from dilluvas import FileCache

__all__ = ["FileCache"]
