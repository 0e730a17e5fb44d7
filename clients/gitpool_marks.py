"""Marks files of git-fast-import(1): lines `:N NAME`, one for each mark, in the order of the numbers."""
from __future__ import annotations

import contextlib
import errno
import fcntl
import os
import re
import stat
from typing import BinaryIO, Dict, Iterator, List, Optional, Tuple

from gitpool import Service, Text

_LINE = re.compile(rb":([0-9]{1,20}) ([0-9a-f]{40})\n")
LARGEST_MARK = (1 << 64) - 1


class MarksError(Exception):
    """A marks file is refused: it says the file, the line and why."""

    def __init__(self, path: str, line: int, reason: str):
        super().__init__(f"{path}:{line}: {reason}")


class Marks:
    """Marks that were read from files: for each number the name of its object, and the file and line that say so."""

    def __init__(self) -> None:
        self.names: Dict[int, bytes] = {}
        self._places: Dict[int, Tuple[str, int]] = {}

    def read(self, path: str) -> None:
        """Adds the marks of a file, which take the place of those of the files before. Raises MarksError, and OSError."""
        with open(path, "rb") as file:
            for number, line in enumerate(_lines_of(file), 1):
                self._take(path, number, line)

    def _take(self, path: str, number: int, line: bytes) -> None:
        found = _LINE.fullmatch(line)
        mark = int(found.group(1)) if found else 0
        if found is None or not 0 < mark <= LARGEST_MARK:
            raise MarksError(path, number, "this is no line `:N NAME`, with a number from 1 to 2^64 - 1 and 40 hexadecimal digits")
        before = self._places.get(mark)
        if before and before[0] == path and self.names[mark] != found.group(2):
            raise MarksError(path, number, f"the mark :{mark} has another object in line {before[1]}")
        self.names[mark] = found.group(2)
        self._places[mark] = path, number

    def kinds(self, service: Service, tenant: Text) -> Dict[int, str]:
        """The kind of the object of each mark. Raises MarksError where the tenant has no such object."""
        kinds: Dict[int, str] = {}
        marks = list(self.names)
        for kind in ("commit", "blob", "tree"):
            queries = (b"rev-parse %b^{%b}" % (self.names[mark], kind.encode()) for mark in marks)
            left = []
            for mark, answer in zip(marks, service.ask_many(tenant, queries)):
                if answer.status == 1 and answer.value == 16:
                    self._refuse_missing(mark)
                if answer.status == 0 and answer.reply[:-1] == self.names[mark]:
                    kinds[mark] = kind
                elif answer.status == 0:
                    # What is peeled to another object is a tag.
                    kinds[mark] = "tag"
                else:
                    left.append(mark)
            marks = left
        return kinds

    def _refuse_missing(self, mark: int) -> None:
        path, line = self._places[mark]
        raise MarksError(path, line, f"the tenant has no object {self.names[mark].decode()}")


def _lines_of(file: BinaryIO) -> Iterator[bytes]:
    """The lines of a file, none of them longer than a line of marks can be."""
    return iter(lambda: file.readline(128), b"")


class NewFile:
    """A file that takes the place of another one whole, or not at all: it is written beside that one, as PATH.new, and renamed.

    The caller writes, then calls `finish`, which brings all bytes to the disk, then `put`, and `close` in any case.
    While a NewFile is open no other run can open one of the same path."""

    def __init__(self, path: str):
        """Raises OSError where the file cannot be made, and where another run is writing it."""
        self._path = os.path.realpath(path)
        _ask_for_a_file(self._path)
        self._new = self._path + ".new"
        self._is_put = False
        number = os.open(self._new, os.O_RDWR | os.O_CREAT | os.O_NOFOLLOW | os.O_CLOEXEC, 0o666)
        self._file: BinaryIO = os.fdopen(number, "wb")
        try:
            self._begin()
        except OSError:
            self._file.close()
            raise

    def _begin(self) -> None:
        """Takes the lock, and empties what a run that was killed left."""
        try:
            fcntl.flock(self._file, fcntl.LOCK_EX | fcntl.LOCK_NB)
            if not os.path.samestat(os.fstat(self._file.fileno()), os.lstat(self._new)):
                raise BlockingIOError
        except (BlockingIOError, FileNotFoundError):
            raise OSError(errno.EBUSY, "another run is writing it; try again", self._path) from None
        self._file.truncate()
        mode = _mode_of(self._path)
        if mode is not None:
            os.fchmod(self._file.fileno(), mode)

    def write(self, line: bytes) -> None:
        """Writes more. Raises OSError."""
        with self._named():
            self._file.write(line)

    def finish(self) -> None:
        """Brings what was written to the disk. Raises OSError."""
        with self._named():
            self._file.flush()
            os.fsync(self._file.fileno())

    @contextlib.contextmanager
    def _named(self) -> Iterator[None]:
        """Lets an OSError say which file it is about."""
        try:
            yield
        except OSError as error:
            raise OSError(error.errno, error.strerror, self._path) from None

    def put(self) -> None:
        """Lets the file take its name."""
        os.replace(self._new, self._path)
        self._is_put = True
        folder = os.open(os.path.dirname(self._path), os.O_RDONLY | os.O_DIRECTORY)
        try:
            os.fsync(folder)
        finally:
            os.close(folder)

    def close(self) -> None:
        """Removes the new file, unless it has its name. Once it is closed nothing is done."""
        if self._file.closed:
            return
        if not self._is_put:
            os.unlink(self._new)
        try:
            self._file.close()
        except OSError:
            # What could not be written is given up.
            pass


def _ask_for_a_file(path: str) -> None:
    """Raises OSError where something else than a file stands at a path."""
    mode = _mode_of(path, whole=True)
    if mode is not None and not stat.S_ISREG(mode):
        raise OSError(errno.EINVAL, "this is no file that can be replaced", path)


def _mode_of(path: str, *, whole: bool = False) -> Optional[int]:
    try:
        mode = os.stat(path).st_mode
    except FileNotFoundError:
        return None
    return mode if whole else stat.S_IMODE(mode)


class NewFiles:
    """Several new files, which are all written before any of them takes its name: a context, which removes those that did not."""

    def __init__(self) -> None:
        self._files: List[NewFile] = []

    def __enter__(self) -> "NewFiles":
        return self

    def __exit__(self, *_: object) -> None:
        for file in self._files:
            file.close()

    def open(self, path: str) -> NewFile:
        """Begins another file. Raises OSError."""
        self._files.append(NewFile(path))
        return self._files[-1]

    def finish(self) -> None:
        """Brings all of them to the disk. Raises OSError."""
        for file in self._files:
            file.finish()

    def put(self) -> None:
        """Lets all of them take their names. Raises OSError."""
        for file in self._files:
            file.put()


__all__ = ["LARGEST_MARK", "Marks", "MarksError", "NewFile", "NewFiles"]
