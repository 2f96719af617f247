"""Files for caches: how they are found, made and put in place, while others do the same.

A file belongs to the process that has locked it and has then checked that the path still leads to it. The name of a new file ends in
".dilluvas-new" until it is whole and durable. That other name belongs in the same way to the process that has locked the file it leads to:
no other process removes it or gives it to another file. What a killed process left there is removed and never written to, since it may be a
second name of a file with pages.
"""

import contextlib
import errno
import fcntl
import functools
import io
import os
import stat
from collections.abc import Iterator
from typing import Optional, Union

from ._dropped import close_if_dropped, is_closed
from ._errors import Refused, refusal
from ._library import HELD, NO_ACCESS, NO_FILE, READ, WRITE

# The types of a path.
AnyPath = Union[str, bytes, "os.PathLike[str]", "os.PathLike[bytes]"]

# How often to try again with a name whose file another process changed in between.
MOST_TRIES = 100

# The errors of a system without hard links.
_NO_LINKS = errno.EPERM, errno.EOPNOTSUPP, errno.ENOTSUP, errno.ENOSYS, errno.EMLINK


@contextlib.contextmanager
def told_as(status: int) -> Iterator[None]:
    """Raises an error of the system as a status, or as `DiskFull`."""
    try:
        yield
    except OSError as error:
        raise refusal(error, status) from error


class Opened:
    """An open file, until it is closed, or the object is dropped because of an exception."""

    def __init__(self, path: str, mode: str) -> None:
        self._process = os.getpid()
        # whether room is kept past its end
        self.keeps_room = False
        # this owns the descriptor from the first moment
        self._file = io.FileIO(path, mode)

    @property
    def is_own(self) -> bool:
        """Whether this process opened the file. A child that was forked has it open too."""
        return os.getpid() == self._process

    @property
    def number(self) -> int:
        """The descriptor, in the process that opened the file. A forked child would write to it unseen by its parent."""
        if self._file.closed or not self.is_own:
            raise OSError(errno.EBADF, "the file is open in another process, which forked this one, or closed")
        return self._file.fileno()

    def stat(self) -> os.stat_result:
        return os.fstat(self.number)

    def size(self) -> int:
        return self.stat().st_size

    def read(self, at: int, wanted: int, needed: int) -> bytes:
        """The wanted number of bytes of the file, or fewer if its end or unreadable bytes come first. If fewer than the needed number can be
        read because of an error, that OSError is raised."""
        pieces: list[bytes] = []
        got = 0
        while got < wanted:
            try:
                read = os.pread(self.number, min(wanted - got, 1 << 30), at + got)
            except OSError:
                if got < needed:
                    raise
                break
            if not read:
                break
            pieces.append(read)
            got += len(read)
        return pieces[0] if len(pieces) == 1 else b"".join(pieces)

    def give_back_room(self) -> int:
        """Gives back the room that is kept past the end of the file, and returns where that end is."""
        end = self.size()
        os.ftruncate(self.number, end)
        return end

    def close(self) -> None:
        """Unlocks and closes the file. Closing it again does nothing."""
        # if it stays, the next opening uses it
        if self.keeps_room and not self._file.closed:
            with contextlib.suppress(OSError):
                self.give_back_room()
        # A process that is just being started has it open too, so closing alone unlocks nothing. A child leaves it locked for its parent.
        if not self._file.closed and self.is_own:
            with contextlib.suppress(OSError):
                fcntl.flock(self._file.fileno(), fcntl.LOCK_UN)
        self._file.close()


class Folder:
    """A folder to be synced, which is open until it is closed, or the object is dropped because of an exception."""

    def __init__(self) -> None:
        # one number, if it is open
        self._numbers: list[int] = []

    def open(self, path: str) -> None:
        close_if_dropped(self, functools.partial(_close_all, self._numbers))
        self._numbers.append(os.open(path, os.O_RDONLY | os.O_DIRECTORY | os.O_CLOEXEC))

    def sync(self) -> None:
        """Makes the list of its files durable."""
        try:
            os.fsync(self._numbers[0])
        except OSError as error:
            # some systems sync no folder
            if error.errno != errno.EINVAL:
                raise Refused(WRITE) from error

    def close(self) -> None:
        _close_all(self._numbers)
        is_closed(self)


def _close_all(numbers: list[int]) -> None:
    while numbers:
        os.close(numbers.pop())


# ---- Finding.


def open_locked(path: str, mode: str = "r+") -> Optional[Opened]:
    """Opens the file of a path and locks it, or returns None if it is missing."""
    for _ in range(MOST_TRIES):
        # anything but a file isn't opened: that may block, or have an effect
        _check_is_file(path)
        try:
            opened = Opened(path, mode)
        except FileNotFoundError:
            return None
        except FileExistsError:
            raise
        except IsADirectoryError:
            raise Refused(NO_FILE) from None
        except OSError as error:
            raise refusal(error, NO_ACCESS) from error
        is_ours = False
        try:
            is_ours = _lock(opened, path)
        finally:
            if not is_ours:
                opened.close()
        if is_ours:
            return opened
        # another file took its place before it was locked
    raise Refused(NO_ACCESS)


def _check_is_file(path: str) -> None:
    try:
        found = os.stat(path)
    except OSError:
        return
    if not stat.S_ISREG(found.st_mode):
        raise Refused(NO_FILE)


def _lock(opened: Opened, path: str) -> bool:
    """Locks a file, and returns whether the path still leads to it."""
    with told_as(READ):
        found = opened.stat()
    if not stat.S_ISREG(found.st_mode):
        raise Refused(NO_FILE)
    try:
        fcntl.flock(opened.number, fcntl.LOCK_EX | fcntl.LOCK_NB)
    except BlockingIOError:
        raise Refused(HELD) from None
    except OSError:
        raise Refused(NO_ACCESS) from None
    try:
        return os.path.samestat(found, os.stat(path))
    except OSError:
        return False


def leads_to(name: str, opened: Opened) -> bool:
    """Whether a name is a name of an open file. A link to the file is none."""
    try:
        return os.path.samestat(os.lstat(name), opened.stat())
    except OSError:
        return False


def check_is_plain(empty: Opened) -> None:
    """Refuses an empty file that is the system's own: it has bytes although it reports none, or can't be synced."""
    try:
        os.fsync(empty.number)
    except OSError as error:
        raise Refused(NO_FILE if error.errno == errno.EINVAL else WRITE) from error
    with told_as(READ):
        is_plain = not os.pread(empty.number, 1, 0)
    if not is_plain:
        raise Refused(NO_FILE)


# ---- Making.


class New:
    """A file that is made for a path, and locked. It has the other name until it is put there, where there is no file or in place of the one
    that is held."""

    def __init__(self, path: str, held: Optional[Opened] = None) -> None:
        self.path, self._held = path, held
        self._other, self._folder = _other_name(path), Folder()
        try:
            with told_as(NO_ACCESS):
                self._folder.open(os.path.dirname(path))
            self.file = _make_anew(self._other, held)
        except BaseException:
            self._folder.close()
            raise

    def give_owner_and_mode(self, wanted: os.stat_result) -> None:
        """Gives the file the owner and the mode of another."""
        found = self.file.stat()
        if (found.st_uid, found.st_gid) != (wanted.st_uid, wanted.st_gid):
            # a process that may not change the owner leaves it
            with contextlib.suppress(PermissionError):
                os.fchown(self.file.number, wanted.st_uid, wanted.st_gid)
        os.fchmod(self.file.number, stat.S_IMODE(wanted.st_mode))

    def put(self) -> bool:
        """Puts the file where there is none, and returns whether that was done: another file may have appeared there, or has to."""
        try:
            # unlike a rename, this takes the path from no other file
            os.link(self._other, self.path)
        except FileExistsError:
            return False
        except OSError as error:
            if error.errno not in _NO_LINKS:
                raise refusal(error, NO_ACCESS) from error
            # only this process can put an empty file where there is none, and the new file can then replace it
            _make_empty(self.path)
            return False
        self._let_other_go()
        return True

    def replace(self) -> bool:
        """Puts the file in place of the one that is held, and answers whether that was done: either name may lead elsewhere by now."""
        if self._held is None or not leads_to(self.path, self._held) or not leads_to(self._other, self.file):
            return False
        with told_as(NO_ACCESS):
            os.rename(self._other, self.path)
        return True

    def sync_folder(self) -> None:
        """Makes the file's name durable."""
        self._folder.sync()

    def close(self) -> None:
        """Removes the other name, if the file has it, and leaves the file open."""
        try:
            self._let_other_go()
        finally:
            self._folder.close()

    # Once the file has its own name the other one may belong to another process. While this file has it, it's locked, and nobody takes it.
    def _let_other_go(self) -> None:
        if leads_to(self._other, self.file):
            with contextlib.suppress(OSError):
                os.unlink(self._other)


def _other_name(path: str) -> str:
    return path + ".dilluvas-new"


def take_left_away(path: str, held: Opened) -> None:
    """Removes the file that a process left by the other name when it was killed. It stays where another process has locked it, where it is no
    file, or where the system refuses."""
    other = _other_name(path)
    with contextlib.suppress(Refused, OSError):
        if stat.S_ISREG(os.lstat(other).st_mode):
            _take_away(other, held)


def place_of_new(path: str, empty: Optional[Opened]) -> str:
    """The absolute path at which a file is made: the target of a link that has an empty file, and none for a link that leads to no file."""
    with told_as(NO_ACCESS):
        if os.path.islink(path) and (empty or os.path.exists(path)):
            path = os.path.realpath(path)
        folder, name = os.path.split(path)
        if not name or os.path.islink(path):
            raise Refused(NO_ACCESS)
        return os.path.join(os.path.realpath(folder), name)


def _make_anew(other: str, held: Optional[Opened]) -> Opened:
    """Makes a file under the other name, and locks it."""
    for _ in range(MOST_TRIES):
        _take_away(other, held)
        try:
            made = open_locked(other, "x+")
        except FileExistsError:
            continue
        if made is None:
            break
        found = made.stat()
        if found.st_size == 0 and found.st_nlink < 2:
            return made
        # before it was locked another process took it for a leftover, and was killed once it had made it whole
        made.close()
    raise Refused(NO_ACCESS)


def _take_away(other: str, held: Optional[Opened]) -> None:
    """Removes what was left under the other name, once it is locked."""
    with told_as(NO_ACCESS):
        if held is not None and leads_to(other, held):
            os.unlink(other)
            return
        left = open_locked(other)
        if left is not None:
            with contextlib.closing(left):
                # a link to a file isn't a leftover
                if not leads_to(other, left):
                    raise Refused(NO_ACCESS)
                os.unlink(other)


def _make_empty(path: str) -> None:
    try:
        Opened(path, "x+").close()
    except FileExistsError:
        pass
    except OSError as error:
        raise refusal(error, NO_ACCESS) from error


def sync_name(path: str) -> None:
    """Makes the name of a file durable: the process that gave it may have ended before that."""
    with contextlib.closing(Folder()) as folder:
        try:
            folder.open(os.path.dirname(os.path.realpath(path)))
        except PermissionError:
            # a folder that may not be read can't be synced
            return
        except OSError as error:
            raise Refused(WRITE) from error
        folder.sync()
