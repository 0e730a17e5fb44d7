"""Runs an importer by its adapter, which may crash, print anything, or never end.

An adapter is an executable with four verbs; CONTRACT.md says what each gets and prints. Each call has a limit on its time, on
what it prints, on its memory and on the files that it writes. A call that passes one is ended with all that it started.
"""
from __future__ import annotations

import os
import re
import resource
import selectors
import shutil
import signal
import subprocess
import sys
import tempfile
import time
from dataclasses import dataclass
from typing import IO, Dict, List, NamedTuple, Optional, Tuple

from cases import Case, Object, State

REFUSED_BY_ALL = b"no such command\n"
"""The line that follows a checkpoint where the state after it is asked for: no importer knows such a command."""

_REF = re.compile(rb"([0-9a-f]{40}) (\S.*)", re.S)
_OBJECT = re.compile(rb"([0-9a-f]{40}) (commit|tree|blob|tag) ([0-9]{1,18})")
_FAULT = re.compile(rb"^fault ([0-9]{1,9})(?: byte ([0-9]{1,18}) line ([0-9]{1,18}))?$", re.M)


class Trouble(Exception):
    """A call that did not do what the contract asks of it, in a few words."""


class Malformed(Trouble):
    """A call printed a line that the contract does not know."""


@dataclass(frozen=True)
class Limits:
    """What one call of an adapter may take: seconds, and seconds of a processor in each process; bytes that it prints, bytes of memory in
    each process, and bytes of one file."""

    seconds: float = 60.0
    processor: int = 10
    printed: int = 8 << 20
    memory: int = 2 << 30
    file: int = 256 << 20


class Ran(NamedTuple):
    """A call that ended: its status, and what it printed and said."""

    status: int
    out: bytes
    said: bytes


class Imported(NamedTuple):
    """What came of an import: accepted or refused, or the trouble that it was; whether it said that refs were kept; its replies;
    the fault that it told, as a number, a byte and a line; and the last line that it said."""

    end: str
    is_kept: bool
    replies: bytes
    fault: Optional[Tuple[int, Optional[int], Optional[int]]]
    said: str


class Left(NamedTuple):
    """What an import left. A trouble stands in place of what could not be learnt."""

    state: Optional[State]
    objects: Optional[List[Object]]
    trouble: str


class Observed(NamedTuple):
    """All that was seen of an importer in one case."""

    imported: Imported
    left: Left
    checkpoints: List[Left]


def _limit(limits: Limits) -> None:
    resource.setrlimit(resource.RLIMIT_CPU, (limits.processor, limits.processor + 1))
    resource.setrlimit(resource.RLIMIT_AS, (limits.memory, limits.memory))
    resource.setrlimit(resource.RLIMIT_FSIZE, (limits.file, limits.file))
    resource.setrlimit(resource.RLIMIT_CORE, (0, 0))


def _end_group(process: "subprocess.Popen[bytes]") -> None:
    """Ends a process and all that it started and that is still of its group."""
    try:
        os.killpg(process.pid, signal.SIGKILL)
    except ProcessLookupError:
        pass
    process.wait()


class _Output:
    """What a process prints and says, read as it comes, up to a limit."""

    def __init__(self, process: "subprocess.Popen[bytes]", limits: Limits):
        assert process.stdout and process.stderr
        self._pipes: List[IO[bytes]] = [process.stdout, process.stderr]
        self._parts: Dict[IO[bytes], bytearray] = {pipe: bytearray() for pipe in self._pipes}
        self._process = process
        self._limits = limits
        self._selector = selectors.DefaultSelector()
        for pipe in self._pipes:
            self._selector.register(pipe, selectors.EVENT_READ)

    def read(self) -> Tuple[bytes, bytes]:
        """Both texts, when the process has ended. Raises Trouble where a limit is passed."""
        until = time.monotonic() + self._limits.seconds
        while self._selector.get_map():
            left = until - time.monotonic()
            if left <= 0:
                raise Trouble(f"does not end in {self._limits.seconds:g} s")
            for key, _ in self._selector.select(min(left, 0.5)):
                self._take(key.fileobj)  # type: ignore[arg-type]
            # (a process that it started and that still runs may hold the pipes)
            if self._process.poll() is not None and not self._selector.select(0):
                break
        self._wait(until)
        return bytes(self._parts[self._pipes[0]]), bytes(self._parts[self._pipes[1]])

    def _take(self, pipe: IO[bytes]) -> None:
        piece = os.read(pipe.fileno(), 1 << 16)
        if not piece:
            self._selector.unregister(pipe)
            return
        self._parts[pipe] += piece
        if len(self._parts[pipe]) > self._limits.printed:
            raise Trouble(f"prints more than {self._limits.printed} bytes")

    def _wait(self, until: float) -> None:
        try:
            self._process.wait(max(0.01, until - time.monotonic()))
        except subprocess.TimeoutExpired:
            raise Trouble(f"does not end in {self._limits.seconds:g} s") from None

    def close(self) -> None:
        """Closes what was opened."""
        self._selector.close()
        for pipe in self._pipes:
            pipe.close()


def run(words: List[str], given: IO[bytes], limits: Limits) -> Ran:
    """Runs a command within limits, in a group of its own. Raises Trouble where it cannot be run, passes a limit, or is ended by a
    signal."""
    # An adapter that begins with `env python3` gets this Python.
    path = os.path.dirname(sys.executable) + os.pathsep + os.environ.get("PATH", os.defpath)
    try:
        process = subprocess.Popen(
            words,
            stdin=given,
            stdout=subprocess.PIPE,
            stderr=subprocess.PIPE,
            start_new_session=True,
            preexec_fn=lambda: _limit(limits),
            env={**os.environ, "PATH": path},
        )
    except (OSError, subprocess.SubprocessError) as error:
        raise Trouble(f"cannot be run: {error}") from None
    output = _Output(process, limits)
    try:
        out, said = output.read()
    finally:
        _end_group(process)
        output.close()
    if process.returncode < 0:
        raise Trouble(f"ended by signal {-process.returncode}")
    return Ran(process.returncode, out, said)


def read_state(out: bytes) -> State:
    """The refs and HEAD that the verb `refs` printed. Raises Malformed."""
    refs: Dict[bytes, str] = {}
    head: Optional[bytes] = None
    for line in out.splitlines():
        found = _REF.fullmatch(line)
        if line.startswith(b"HEAD ") and head is None:
            head = line[5:]
        elif found and found[2] not in refs:
            refs[found[2]] = found[1].decode()
        else:
            raise Malformed(f"a line of refs is malformed or stands twice: {shown(line)}")
    if head is None:
        raise Malformed("refs tells no HEAD")
    return State(refs, head)


def read_objects(out: bytes) -> List[Object]:
    """The objects that the verb `objects` printed, in the order of their names. Raises Malformed."""
    objects: Dict[str, Object] = {}
    for line in out.splitlines():
        found = _OBJECT.fullmatch(line)
        if not found or found[1].decode() in objects:
            raise Malformed(f"a line of objects is malformed or stands twice: {shown(line)}")
        objects[found[1].decode()] = (found[1].decode(), found[2].decode(), int(found[3]))
    return [objects[name] for name in sorted(objects)]


def shown(data: bytes, longest: int = 120) -> str:
    """Bytes as a terminal may have them, and not too many."""
    text = "".join(chr(byte) if 32 <= byte < 127 and byte != 92 else f"\\x{byte:02x}" for byte in data[:longest])
    return text + ".." if len(data) > longest else text


class Importer:
    """An importer by its adapter. Each import has a repository of its own, in a folder that is removed."""

    def __init__(self, adapter: str, limits: Limits = Limits()):
        self.adapter = os.path.abspath(adapter)
        self.name = os.path.basename(adapter)
        self._limits = limits

    def observe(self, case: Case) -> Observed:
        """Carries out the stream of a case, and then each front of it that ends with a checkpoint."""
        imported, left = self._import(case.first, case.stream, True)
        checkpoints = [self._import(case.first, case.stream[:byte] + REFUSED_BY_ALL, False)[1] for byte, _ in case.checkpoints]
        return Observed(imported, left, checkpoints)

    def version(self) -> str:
        """What the importer says of its version in one line, or else its name: an adapter need not know this verb."""
        try:
            return shown(self._asked("version", "").splitlines()[0])
        except (Trouble, IndexError):
            return self.name

    def _import(self, first: Optional[bytes], stream: bytes, with_objects: bool) -> Tuple[Imported, Left]:
        room = tempfile.mkdtemp(prefix="conformance-")
        try:
            return self._import_in(os.path.join(room, "repository"), first, stream, with_objects)
        finally:
            shutil.rmtree(room, ignore_errors=True)

    def _import_in(self, folder: str, first: Optional[bytes], stream: bytes, with_objects: bool) -> Tuple[Imported, Left]:
        try:
            self._asked("new", folder)
            if first is not None and self._imported(folder, first).end != "accepted":
                raise Trouble("import refuses the first stream")
            imported = self._imported(folder, stream)
        except Trouble as trouble:
            return Imported(str(trouble), False, b"", None, ""), Left(None, None, str(trouble))
        return imported, self._left(folder, with_objects)

    def _imported(self, folder: str, stream: bytes) -> Imported:
        ran = self._call("import", folder, stream)
        if ran.status not in (0, 1, 2):
            raise Trouble(f"import ends with status {ran.status}: {_last_line(ran.said)}")
        told = [*_FAULT.finditer(ran.said)]
        fault = (int(told[-1][1]), _number(told[-1][2]), _number(told[-1][3])) if told else None
        return Imported("refused" if ran.status == 1 else "accepted", ran.status == 2, ran.out, fault, _last_line(ran.said))

    def _left(self, folder: str, with_objects: bool) -> Left:
        state: Optional[State] = None
        try:
            state = read_state(self._asked("refs", folder))
            return Left(state, read_objects(self._asked("objects", folder)) if with_objects else None, "")
        except Trouble as trouble:
            return Left(state, None, str(trouble))

    def _asked(self, verb: str, folder: str) -> bytes:
        """What a verb printed that has to end well."""
        ran = self._call(verb, folder, b"")
        if ran.status != 0:
            raise Trouble(f"{verb} ends with status {ran.status}: {_last_line(ran.said)}")
        return ran.out

    def _call(self, verb: str, folder: str, stream: bytes) -> Ran:
        with tempfile.TemporaryFile() as given:
            given.write(stream)
            given.seek(0)
            try:
                return run([self.adapter, verb, folder], given, self._limits)
            except Trouble as trouble:
                raise Trouble(f"{verb} {trouble}") from None


def _number(text: Optional[bytes]) -> Optional[int]:
    return None if text is None else int(text)


def _last_line(said: bytes) -> str:
    lines = said.strip().splitlines()
    return shown(lines[-1]) if lines else ""
