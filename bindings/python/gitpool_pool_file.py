"""A pool file that this process loads and replaces, locked as the program locks it (crates/lock_files): FILE.new stands beside FILE and is
locked by flock(2) as long as one works on FILE, and a save writes FILE.next, which then takes the name of FILE."""
from __future__ import annotations

import contextlib
import fcntl
import mmap
import os
import stat
from typing import List, Optional

from gitpool_program import TRY_AGAIN, PathLike, PoolBusy, ServiceError, error_of

_NEW = os.O_RDWR | os.O_CREAT | os.O_EXCL | os.O_CLOEXEC

# What was mapped stays so to the end of the process.
_MAPPED: List[mmap.mmap] = []


class PoolFile:
    """A pool file. path is its path, with symbolic links followed; is_locked says whether it may be saved.

    Raises PoolBusy where another process has the file in hand, and ServiceError where it cannot be locked.
    """

    def __init__(self, pool: PathLike, *, is_locked: bool):
        self.path = os.path.realpath(pool)
        self.is_locked = is_locked
        self._lock = self._locked() if is_locked else None

    def read(self) -> Optional[bytes]:
        """The bytes of the file, None where there is none. Raises ServiceError where it cannot be read."""
        try:
            with open(self.path, "rb") as file:
                return file.read()
        except FileNotFoundError:
            return None
        except OSError:
            raise _device_error(self.path) from None

    def mapped(self) -> Optional[mmap.mmap]:
        """The file's bytes, mapped to the end of the process; None where there is no file, or an empty one. Raises ServiceError where it cannot be
        read."""
        try:
            with open(self.path, "rb") as file:
                if os.fstat(file.fileno()).st_size == 0:
                    return None
                # (private, and nobody writes into it)
                found = mmap.mmap(file.fileno(), 0, access=mmap.ACCESS_COPY)
        except FileNotFoundError:
            return None
        except (OSError, ValueError):
            raise _device_error(self.path) from None
        _MAPPED.append(found)
        return found

    def _locked(self) -> int:
        """The lock: FILE.new, made anew and locked."""
        name = self.path + ".new"
        try:
            while True:
                self._remove_left(name)
                with contextlib.suppress(FileExistsError):
                    made = os.open(name, _NEW, 0o600 if os.path.exists(self.path) else 0o666)
                    if _is_locked(made, name):
                        return made
        except BlockingIOError:
            raise PoolBusy(4, f"another run has the pool file {self.path} in hand; {TRY_AGAIN}", 68) from None
        except OSError:
            raise _device_error(self.path) from None

    @staticmethod
    def _remove_left(name: str) -> None:
        """Removes a FILE.new that nobody has locked, such as one of a process that was killed."""
        with contextlib.suppress(FileNotFoundError):
            if not stat.S_ISREG(os.lstat(name).st_mode):
                raise ServiceError(4, f"{name} is in the way, and is no file", 68)
            left = os.open(name, os.O_RDWR | os.O_NOFOLLOW | os.O_NONBLOCK | os.O_CLOEXEC)
            if _is_locked(left, name):
                os.unlink(name)
                os.close(left)

    def save(self, content: bytes) -> bool:
        """Replaces the file, and waits for the disk. False where that fails; the file is then as it was, unless only the sync of its folder
        failed."""
        try:
            self._replace(content)
            return True
        except OSError:
            with contextlib.suppress(OSError):
                os.unlink(self.path + ".next")
            return False

    def _replace(self, content: bytes) -> None:
        folder = os.open(os.path.dirname(self.path), os.O_RDONLY | os.O_DIRECTORY)
        try:
            self._write_next(content)
            os.rename(self.path + ".next", self.path)
            os.fsync(folder)
        finally:
            os.close(folder)

    def _write_next(self, content: bytes) -> None:
        name = self.path + ".next"
        with contextlib.suppress(FileNotFoundError):
            os.unlink(name)
        old = os.stat(self.path) if os.path.exists(self.path) else None
        with os.fdopen(os.open(name, _NEW, 0o600 if old else 0o666), "wb") as file:
            file.write(content)
            file.flush()
            if old:
                _give(file.fileno(), old)
            os.fsync(file.fileno())

    def release(self) -> None:
        """Lets the file go: FILE.new is removed."""
        if self._lock is None:
            return
        with contextlib.suppress(OSError):
            if _has_name(self._lock, self.path + ".new"):
                os.unlink(self.path + ".new")
        os.close(self._lock)
        self._lock = None


def _device_error(path: str) -> ServiceError:
    """What is wrong with a file that could not be read or locked."""
    return error_of(path, 4, "gitpool: fault 68", locks=False)


def _is_locked(file: int, name: str) -> bool:
    """Locks a file, and says whether it still has its name; otherwise it is closed. Raises BlockingIOError where another process has it."""
    try:
        fcntl.flock(file, fcntl.LOCK_EX | fcntl.LOCK_NB)
    except BlockingIOError:
        os.close(file)
        raise
    if _has_name(file, name):
        return True
    os.close(file)
    return False


def _has_name(file: int, name: str) -> bool:
    """Whether this is the file that stands under the name."""
    try:
        return os.path.samestat(os.fstat(file), os.lstat(name))
    except FileNotFoundError:
        return False


def _give(file: int, old: os.stat_result) -> None:
    """Gives a file the owner, the group and the mode of another one, as far as the system allows it. Where it does not allow the group, the
    group may do nothing, and all others only what both the old group and all others could do."""
    mode = stat.S_IMODE(old.st_mode)
    with contextlib.suppress(PermissionError):
        os.fchown(file, old.st_uid, -1)
    try:
        os.fchown(file, -1, old.st_gid)
    except PermissionError:
        mode = (mode & ~0o077) | (mode & (mode >> 3) & 0o007)
    os.fchmod(file, mode)
