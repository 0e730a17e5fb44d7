"""Ways to a service: a run of the program over a pool file, another program that speaks frames, the server that keeps the pool
file, or a server on another machine."""
from __future__ import annotations

import contextlib
import fcntl
import os
import re
import shlex
import shutil
import socket
import stat
import subprocess
import tempfile
import time
from pathlib import Path
from typing import IO, Callable, Dict, NamedTuple, Optional, Sequence, Tuple, Union

from gitpool_faults import explain

PathLike = Union[str, "os.PathLike[str]"]

TRY_AGAIN = "try again"
"""How the reason of a PoolBusy ends."""


class ServiceError(Exception):
    """The program ended, or what it wrote is no answer. Nothing of this run was saved, unless it says otherwise.

    status is the program's exit status (crates/gitpool_cli/README.md), below zero where a signal ended it, and 0 where the
    program ended well but early; number is the fault that it told on standard error, or None.
    """

    def __init__(self, status: int, reason: str, number: Optional[int] = None):
        self.status = status
        self.number = number
        super().__init__(reason)


class PoolBusy(ServiceError):
    """Another run has the pool file in hand: try again when it has ended. Nothing was done."""


def find_program() -> str:
    """The program: what the environment variable GITPOOL names, else `gitpool` beside the folder of this file, which is the
    executable after an install and else the script that builds it, else `gitpool` on the PATH. Raises ServiceError where there is none."""
    given = os.environ.get("GITPOOL")
    if given:
        return given
    beside = Path(os.path.realpath(__file__)).parent.parent / "gitpool"
    found = str(beside) if os.access(beside, os.X_OK) and beside.is_file() else shutil.which("gitpool")
    if not found:
        raise ServiceError(127, "there is no program gitpool: set GITPOOL to its path")
    return found


def link_to(pool: Optional[PathLike]) -> Tuple[str, str]:
    """A second name for a pool file, in a new folder, and that folder. A run on this name takes nobody's lock, and its save
    leaves the original file unchanged. Where there is no file the name is free. The caller removes the folder by remove_room.

    The name is a hard link, in the folder for temporary files or else beside the pool file; where neither can be made, the
    file is copied."""
    if pool is None or not os.path.lexists(pool):
        room = tempfile.mkdtemp(prefix="gitpool-")
        return os.path.join(room, "pool"), room
    source = os.path.realpath(pool)
    ways: Tuple[Tuple[Callable[..., object], str], ...] = (
        (os.link, tempfile.gettempdir()), (os.link, os.path.dirname(source)), (shutil.copyfile, tempfile.gettempdir()))
    for put, folder in ways:
        named = _put_in_room(put, source, folder)
        if named is not None:
            return named
    # What cannot be read is told by the program, which then saves nothing.
    room = tempfile.mkdtemp(prefix="gitpool-")
    os.symlink(source, os.path.join(room, "pool"))
    return os.path.join(room, "pool"), room


def _put_in_room(put: Callable[..., object], source: str, folder: str) -> Optional[Tuple[str, str]]:
    """The file under its name in a new folder, and that folder, if it can be put there."""
    if not os.access(folder, os.W_OK):
        return None
    room = _make_room(folder)
    try:
        put(source, os.path.join(room, "pool"))
        return os.path.join(room, "pool"), room
    except OSError:
        remove_room(room)
        return None


_ROOM = ".gitpool-"
_HELD: Dict[str, int] = {}
"""The rooms of this process, each with a lock that ends with the process, by which others see that the room is in use."""

_SETTLED = 60
"""Seconds after which a room without a lock is one that a killed process has left."""


def _make_room(folder: str) -> str:
    """A new folder for a second name. Those that killed processes left there go."""
    _remove_left_rooms(folder)
    room = tempfile.mkdtemp(prefix=_ROOM, dir=folder)
    _HELD[room] = os.open(room, os.O_RDONLY | os.O_DIRECTORY)
    try:
        # (whoever looks whether the room is left over has the lock for a moment)
        fcntl.flock(_HELD[room], fcntl.LOCK_EX)
    except OSError:
        pass  # (a file system without locks)
    return room


def remove_room(room: str) -> None:
    """Removes a folder that link_to made."""
    shutil.rmtree(room, ignore_errors=True)
    held = _HELD.pop(room, None)
    if held is not None:
        os.close(held)


def _remove_left_rooms(folder: str) -> None:
    try:
        names = [name for name in os.listdir(folder) if name.startswith(_ROOM)]
    except OSError:
        return
    for name in names:
        if _is_left(os.path.join(folder, name)):
            shutil.rmtree(os.path.join(folder, name), ignore_errors=True)


def _is_left(room: str) -> bool:
    """Whether this is a room of ours that no process has any more."""
    try:
        found = os.open(room, os.O_RDONLY | os.O_DIRECTORY | os.O_NOFOLLOW)
    except OSError:
        return False
    try:
        fcntl.flock(found, fcntl.LOCK_EX | fcntl.LOCK_NB)
        about = os.fstat(found)
        return about.st_uid == os.geteuid() and about.st_mtime < time.time() - _SETTLED
    except OSError:
        return False
    finally:
        os.close(found)


def error_of(pool: str, status: int, said: str, *, has_answered: bool = False, locks: bool = True) -> ServiceError:
    """Why a run over a pool file ended badly: by its exit status, by what it said on standard error, and by what stands at
    the path, for the program tells as 68 alone what is wrong there. has_answered says whether the file was loaded."""
    found = re.search(r"gitpool: fault (\d+)", said)
    number = int(found.group(1)) if found else None
    if status < 0:
        return ServiceError(status, f"gitpool was ended by signal {-status}")
    if number is None:
        return ServiceError(status, f"gitpool ended with status {status}" + (f": {said}" if said else ""))
    if number == 68 and locks and not has_answered and _stands_as_file(pool + ".new"):
        return PoolBusy(status, f"another run has the pool file {pool} in hand; {TRY_AGAIN}", number)
    if number == 68:
        return ServiceError(status, f"{pool}: {_trouble_of(pool, has_answered)}", number)
    told = explain(number)
    return ServiceError(status, f"{pool}: {told.meaning} (fault {number}); {told.next_step}", number)


def _stands_as_file(path: str) -> bool:
    try:
        return stat.S_ISREG(os.lstat(path).st_mode)
    except OSError:
        return False


def _trouble_of(pool: str, has_answered: bool) -> str:
    if not os.path.isdir(os.path.dirname(os.path.abspath(pool))):
        return "the folder of the pool file is not there"
    if os.path.isdir(pool):
        return "this is a folder, and no pool file"
    if os.path.exists(pool) and not os.access(pool, os.R_OK):
        return "the pool file may not be read"
    if has_answered:
        return "nothing was saved: the folder of the pool file may not be written, or the disk is full"
    return f"the pool file could not be read, or another run had it in hand; {TRY_AGAIN}"


class _Guard:
    """A process that holds the input of a service open, and kills the service where its caller ends without a word.

    Without it a caller that is killed would end the service's input, and the service would save what it has so far.
    """

    def __init__(self, service: "subprocess.Popen[bytes]"):
        assert service.stdin
        words = ["sh", "-c", 'read -r _ || kill -9 "$1"', "sh", str(service.pid)]
        self._process = subprocess.Popen(words, stdin=subprocess.PIPE, pass_fds=(service.stdin.fileno(),), start_new_session=True)

    def let_go(self) -> None:
        """Ends the guard: the service's input is the caller's alone from then on."""
        if self._process.returncode is None:
            self._process.communicate(b"\n")


class Channel:
    """A way to a service: frames go to `input`, and answers come from `output`. `name` says what answers, for messages."""

    name: str
    input: IO[bytes]
    output: IO[bytes]
    has_answered = False
    is_server = False
    """Whether an End lasts from its answer on."""

    def close(self) -> None:
        """Ends well what was begun. Raises ServiceError where it did not end well."""
        raise NotImplementedError

    def kill(self) -> None:
        """Ends at once, and gives up what is open."""
        raise NotImplementedError

    def lost(self) -> ServiceError:
        """Why no answer comes any more. The channel is over then."""
        raise NotImplementedError


class Run(Channel):
    """A run of a program that speaks frames.

    pool is the pool file that it works on; room is a folder that goes with the run, where it works on a second name of the
    file and so locks and saves nothing. Without a pool the program is another one, which tells by itself what is wrong.
    """

    def __init__(self, words: Sequence[str], pool: Optional[str] = None, room: Optional[str] = None, dies_with_us: bool = False):
        self.name = words[0]
        self._pool = pool
        self._room = room
        self._errors = tempfile.TemporaryFile()
        try:
            self._process = subprocess.Popen(words, stdin=subprocess.PIPE, stdout=subprocess.PIPE, stderr=self._errors)
        except OSError as error:
            self._remove_room()
            self._errors.close()
            raise ServiceError(127, f"{words[0]} cannot be run: {error.strerror}") from error
        assert self._process.stdin and self._process.stdout
        self.input, self.output = self._process.stdin, self._process.stdout
        self._guard = _Guard(self._process) if dies_with_us else None

    def close(self) -> None:
        """Ends the input, and waits until the program has saved the pool file and ended. Raises ServiceError where it did
        not end well; the pool file is then as it was."""
        if self._room is not None:
            self.kill()
            return
        self.end_input()
        self.output.read()
        status = self._process.wait()
        if status:
            raise self._error(status)
        self._forget()

    def kill(self) -> None:
        """Ends the process. Nothing is saved: the pool file is as it was."""
        self._process.kill()
        self._process.wait()
        self._let_guard_go()
        self._remove_left()
        self._forget()

    def lost(self) -> ServiceError:
        """Waits for the program, and gives what it said."""
        self.end_input()
        return self._error(self._process.wait())

    def _remove_left(self) -> None:
        """Removes the new file of the process that was killed, as the next run would: who has the lock takes the name away."""
        if self._pool is None or self._room is not None:
            return
        try:
            left = os.open(self._pool + ".new", os.O_WRONLY | os.O_NOFOLLOW | os.O_NONBLOCK)
        except OSError:
            return
        try:
            fcntl.flock(left, fcntl.LOCK_EX | fcntl.LOCK_NB)
            if os.path.samestat(os.fstat(left), os.lstat(self._pool + ".new")):
                os.unlink(self._pool + ".new")
        except OSError:
            pass
        finally:
            os.close(left)

    def end_input(self) -> None:
        """Tells the program that no more steps come."""
        self._let_guard_go()
        try:
            self.input.close()
        except BrokenPipeError:
            pass

    def _let_guard_go(self) -> None:
        if self._guard:
            self._guard.let_go()

    def _error(self, status: int) -> ServiceError:
        """Why the program ended: its status and what it said on standard error."""
        self._errors.seek(0)
        said = self._errors.read().decode(errors="replace").strip()
        self._forget()
        if self._pool is None and self._room is None:
            kind = PoolBusy if said.endswith(TRY_AGAIN) else ServiceError
            return kind(status, said or f"{self.name} ended with status {status}")
        return error_of(self._pool or "", status, said, has_answered=self.has_answered, locks=self._room is None)

    def _forget(self) -> None:
        for stream in (self.input, self.output, self._errors):
            try:
                stream.close()
            except OSError:
                pass
        self._remove_room()

    def _remove_room(self) -> None:
        if self._room is not None:
            remove_room(self._room)


class Connection(Channel):
    """A connection to the server that keeps a pool file (docs/SERVER.md). It locks and loads nothing. An End lasts from its
    answer on. The server gives up the streams that are open when the connection ends."""

    is_server = True

    def __init__(self, peer: "socket.socket", path: str):
        self.name = f"the server at {path}"
        self._peer = peer
        self.input = peer.makefile("wb")
        self.output = peer.makefile("rb")

    def end_input(self) -> None:
        """Tells the server that no more frames come. What it answers still comes."""
        self._peer.shutdown(socket.SHUT_WR)

    def close(self) -> None:
        """Closes the connection."""
        self.kill()

    def kill(self) -> None:
        """Closes the connection."""
        # (the shutdown ends a read that waits in another thread)
        for end in (lambda: self._peer.shutdown(socket.SHUT_RDWR), self.input.close, self.output.close, self._peer.close):
            with contextlib.suppress(OSError):
                end()

    def lost(self) -> ServiceError:
        """Says that the server ended the connection."""
        self.kill()
        return ServiceError(0, f"{self.name} ended the connection; {TRY_AGAIN}")


class OverSsh(Run):
    """Frames of one tenant of a server on another machine, by ssh (docs/SERVER-REFERENCE.md, "Streams and questions over ssh"). An End lasts from
    its answer on. The server gives up the stream that is open when the connection ends."""

    is_server = True

    def __init__(self, address: "Remote"):
        given = os.environ.get("GIT_SSH_COMMAND") or shlex.quote(os.environ.get("GIT_SSH", "ssh"))
        port = ["-p", address.port] if address.port else []
        super().__init__(["sh", "-c", given + ' "$@"', given, *port, "--", address.host, f"frames {address.tenant}"])
        self.name = f"the server at {address.host}"


class Remote(NamedTuple):
    """Where a tenant of a server on another machine is."""

    host: str
    port: Optional[str]
    tenant: str


_REMOTE = re.compile(r"ssh://((?:[^/@:]+@)?[^/@:]+)(?::([0-9]+))?/([A-Za-z0-9_/-]+?)(?:\.git)?")


def remote_of(pool: PathLike) -> Optional[Remote]:
    """What `ssh://[USER@]HOST[:PORT]/TENANT` in the place of a pool file names, or None for another text. Raises ServiceError where it
    begins like this and names no tenant."""
    text = os.fspath(pool)
    if not text.startswith("ssh://"):
        return None
    found = _REMOTE.fullmatch(text)
    if found is None:
        raise ServiceError(2, f"{text} names no tenant of a server: write ssh://USER@HOST/TENANT")
    return Remote(*found.groups())


def folder_of_server(pool: PathLike) -> Optional[str]:
    """The folder of the server whose pool file this is, or None: a server keeps a journal beside its pool file."""
    folder, name = os.path.split(os.path.realpath(pool))
    return folder if name == "pool" and os.path.isdir(os.path.join(folder, "journal")) else None


def connect(pool: PathLike) -> Optional[Connection]:
    """A connection to the server that keeps a pool file, or None where none answers."""
    folder = folder_of_server(pool)
    if folder is None:
        return None
    path = os.path.join(folder, "socket")
    peer = socket.socket(socket.AF_UNIX)
    try:
        # (a path of more than 107 bytes has no address)
        peer.connect(path if len(os.fsencode(path)) < 108 else os.path.relpath(path))
    except OSError:
        peer.close()
        return None
    return Connection(peer, path)


def pool_of_stopped_server(pool: PathLike) -> ServiceError:
    """Says that a pool file may be changed by its server alone, which does not run."""
    return ServiceError(4, f"{os.fspath(pool)} belongs to a server that does not run; start it (gitpoold serve)")
