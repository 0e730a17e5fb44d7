"""Ways to the program: a run of `host` that takes frames, the subcommands as if they took frames too, and a tenant's repository of its
own, which is a run of `host` that gets the steps of this tenant alone."""
from __future__ import annotations

import contextlib
import os
import re
import subprocess
from collections import deque
from typing import BinaryIO, Deque, List, Optional, Protocol, Sequence, Tuple, cast

from gitpool_frames import Answer, Kind, Step, read_answer, write_step
from pool_files import EMPTY, Repository, read, written

OK = Answer(0, 0, b"")
NO_FILE = written({})
FAULT_LINE = re.compile(rb"gitpool: fault (\d+)\n")
# Frames that are sent before their answers are read: together they fit into a pipe.
AHEAD = 32_768


class Differs(Exception):
    """The program did something else than what it is compared with."""


class Taker(Protocol):
    """What takes a step or a request of the operator and answers it."""

    def take(self, step: Step) -> Answer:
        """The answer to one step."""


def bytes_of(path: str) -> bytes:
    with open(path, "rb") as file:
        return file.read()


class Host:
    """A run of `host` over a pool file. Steps may be sent ahead of their answers, which come in the order of the steps."""

    def __init__(self, program: str, pool: str):
        self.pool = pool
        self._answers: Deque[Answer] = deque()
        # How many answers are to come, and the bytes of the steps that they answer.
        self._awaited = self._size = 0
        self._run = subprocess.Popen([program, "host", "--pool", pool], stdin=subprocess.PIPE, stdout=subprocess.PIPE)
        assert self._run.stdin and self._run.stdout
        self._in, self._out = self._run.stdin, cast(BinaryIO, self._run.stdout)

    def send(self, step: Step) -> None:
        """Sends a step whose answer is read later."""
        frame = write_step(step)
        if self._size + len(frame) > AHEAD:
            self._read_awaited()
        self._in.write(frame)
        self._awaited += 1
        self._size += len(frame)

    def flush(self) -> None:
        """Has the run begin with what was sent, while its caller does something else."""
        self._in.flush()

    def _read_awaited(self) -> None:
        self._in.flush()
        try:
            for _ in range(self._awaited):
                self._answers.append(read_answer(self._out))
        except EOFError:
            raise Differs(f"host ended with status {self._run.wait()}") from None
        self._awaited = self._size = 0

    def answer(self) -> Answer:
        """The answer to the first of the steps that were sent and not answered yet."""
        if not self._answers:
            self._read_awaited()
        return self._answers.popleft()

    def last_answer(self) -> Answer:
        """The answer to the step that was sent last. Those of earlier ones can still be read."""
        self._read_awaited()
        return self._answers.pop()

    def take(self, step: Step) -> Answer:
        """The answer to one step. Those of earlier ones can still be read."""
        self.send(step)
        return self.last_answer()

    def end(self) -> bytes:
        """Ends the run, which saves, and gives the bytes of the pool file."""
        self._in.close()
        status = self._run.wait()
        self._out.close()
        if status:
            raise Differs(f"host ended with status {status}")
        return bytes_of(self.pool)

    def kill(self) -> None:
        """Ends the run at once."""
        self._run.kill()
        self._run.wait()
        with contextlib.suppress(BrokenPipeError):
            self._in.close()
        self._out.close()


class Commands:
    """The subcommands over a pool file: each request is a run, whose standard output and exit status make an answer."""

    WORDS = {Kind.ASK: "ask", Kind.REMOVE: "remove", Kind.COMPACT: "compact", Kind.COPY: "copy", Kind.SIZES: "sizes"}

    def __init__(self, program: str, pool: str):
        self.program, self.pool = program, pool

    def take(self, step: Step) -> Answer:
        """The answer to a request that has a subcommand."""
        names = [os.fsdecode(step.tenant)] if step.kind != Kind.SIZES else []
        return self.run(self.WORDS[step.kind], *names, *([os.fsdecode(step.body)] if step.body else []))

    def run(self, *words: str, given: bytes = b"") -> Answer:
        """What a subcommand tells. A fault line goes with status 1, and nothing on standard error with 0."""
        paths = [f"{self.pool}.{it}" for it in ("stdin", "stdout", "stderr")]
        with open(paths[0], "wb") as out:
            out.write(given)
        with open(paths[0], "rb") as stdin, open(paths[1], "wb") as stdout, open(paths[2], "wb") as stderr:
            status = subprocess.call([self.program, *words, "--pool", self.pool], stdin=stdin, stdout=stdout, stderr=stderr)
        reply, said = bytes_of(paths[1]), bytes_of(paths[2])
        told = FAULT_LINE.fullmatch(said)
        if status == 0 and not said:
            return Answer(0, 0, reply)
        if status == 1 and told:
            return Answer(1, int(told[1]), reply)
        raise Differs(f"{words[0]} ended with status {status} and said {said!r}")


class Apart:
    """A tenant's repository of its own. What it has is what its run of `host` saves."""

    def __init__(self, program: str, folder: str, tenant: bytes):
        self.tenant = tenant
        self.journal: Optional[bytearray] = None
        """What the stream was fed since its Open; None where there is no stream."""
        self.opened = EMPTY
        """What the tenant had when its stream was opened."""
        self._program, self._folder = program, folder
        self._host: Optional[Host] = None
        self._file: Optional[bytes] = None
        self._is_saving = False
        # The file that was read last, and what it says.
        self._read: Tuple[bytes, Repository] = (NO_FILE, EMPTY)
        self._begun = 0
        os.mkdir(folder)

    @property
    def host(self) -> Host:
        """Its run, which begins when it is needed."""
        if self._host is None:
            self._host = Host(self._program, os.path.join(self._folder, str(self._begun)))
        return self._host

    def will_take(self, step: Step) -> None:
        """Notes what a step does to its stream; to be called before the step is taken."""
        if step.kind == Kind.OPEN and self.journal is None:
            self.opened, self.journal = self.repository(), bytearray()
        elif step.kind == Kind.FEED and self.journal is not None:
            self.journal += step.body
        elif step.kind in (Kind.END, Kind.RESTART):
            self.journal = None
        if step.kind != Kind.ASK:
            self._file = None

    def take(self, step: Step) -> Answer:
        """The answer to one step."""
        self.will_take(step)
        return self.host.take(step)

    def import_stream(self, stream: bytes) -> Answer:
        """The first answer to Open, one Feed and End that is not Ok, else Ok, with what was printed."""
        self.take(Step(Kind.OPEN, self.tenant))
        fed = self.take(Step(Kind.FEED, self.tenant, stream))
        ended = self.take(Step(Kind.END, self.tenant))
        refused = fed if fed.status else ended
        return Answer(refused.status, refused.value, fed.reply + ended.reply)

    def begin_file(self) -> None:
        """Has its run begin to save the file, which is asked for before another step is sent."""
        if self._host is not None and self._file is None and not self._is_saving:
            self._host.send(Step(Kind.SAVE))
            self._host.flush()
            self._is_saving = True

    def file(self) -> bytes:
        """The pool file that it has at its last checkpoint."""
        self.begin_file()
        if self._is_saving:
            if self.host.last_answer() != OK:
                raise Differs("a repository of its own was not saved")
            self._is_saving, self._file = False, bytes_of(self.host.pool)
        return NO_FILE if self._file is None else self._file

    def repository(self) -> Repository:
        """What it has at its last checkpoint."""
        file = self.file()
        if file != self._read[0]:
            self._read = file, read(file).get(self.tenant, EMPTY)
        return self._read[1]

    @property
    def seen(self) -> Repository:
        """What it had when it was looked at last."""
        return self._read[1]

    def begin_again(self, file: Optional[bytes] = None) -> None:
        """Begins a new run, over this pool file or over none: the tenant was removed, or comes back as it was."""
        self.kill()
        self._begun += 1
        self.journal, self._file = None, file
        if file is not None:
            with open(os.path.join(self._folder, str(self._begun)), "wb") as out:
                out.write(file)

    def end(self) -> bytes:
        """Ends the run, and gives the pool file that it saves."""
        if self._host is not None:
            host, self._host = self._host, None
            self._file = host.end()
        return self.file()

    def kill(self) -> None:
        """Ends the run at once."""
        if self._host is not None:
            self._host.kill()
            self._host = None
