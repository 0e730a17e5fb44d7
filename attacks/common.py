"""What the scripts of this folder share: the programs under test, frames and their answers, worked streams, the cases of
streams/tenants, and the count at the end."""
import os
import re
import struct
import subprocess
import sys
from typing import Any, Iterable, List, NoReturn, Optional, Tuple

HERE = os.path.dirname(os.path.abspath(__file__))
TOP = os.path.join(HERE, "..")
STREAMS = os.path.join(TOP, "streams")
sys.path.append(STREAMS)
from steps import FEED

OK, FAULT, MEMORY = 0, 1, 2
ANSWER = struct.Struct(">BQQ")
PIECE = 16_777_216
PROGRAMS = ("gitpool_cli", "gitpool_frames")

# A step: its kind, its tenant, and its bytes or its query. An answer: its status, its value, and its reply.
Step = Tuple[int, bytes, bytes]
Answer = Tuple[int, int, bytes]


class Run:
    """One call of a script: its words, the programs that they name, and what has passed and failed."""

    def __init__(self, usage: str, words: List[str]) -> None:
        if "--help" in words or "-h" in words:
            print(usage.strip())
            sys.exit(0)
        self.name = os.path.basename(sys.argv[0])
        named = dict(it.split("=", 1) for it in words if "=" in it)
        for it in sorted(set(named) - set(re.findall(r"\[(\w+)=", usage))):
            self.refuse(f"{it}={named[it]}")
        self.named = {it: named.pop(it) for it in PROGRAMS if it in named}
        for name, value in named.items():
            if not value.isdigit():
                self.refuse(f"{name}={value}")
        self.values = {name: int(value) for name, value in named.items()}
        self.words = [it for it in words if "=" not in it]
        self.passed = self.failed = 0

    def refuse(self, word: str) -> NoReturn:
        """Ends the script, which does not know this word."""
        print(f"{self.name}: no {word} is known; {self.name} --help says what is", file=sys.stderr)
        sys.exit(2)

    def only(self, known: Iterable[str]) -> None:
        """Ends the script where a word is none of these."""
        for it in sorted(set(self.words) - set(known)):
            self.refuse(it)

    def value(self, name: str, otherwise: int) -> int:
        """A number that the words give as NAME=NUMBER."""
        return self.values.get(name, otherwise)

    def program(self, name: str) -> str:
        """The path of a program: the one that the words name as NAME=PATH, or else the repository's own, built."""
        if name in self.named:
            return os.path.abspath(self.named[name])
        if subprocess.run([os.path.join(TOP, "build"), name]).returncode:
            sys.exit(125)
        return os.path.join(TOP, "crates", name, "out", name)

    def told(self, what: str, wrong: Optional[str]) -> None:
        """Counts one row; what is wrong with it is printed, and nothing where nothing is."""
        self.passed += not wrong
        self.failed += bool(wrong)
        if wrong:
            print(f"differs: {what}: {wrong}", flush=True)

    def end(self) -> NoReturn:
        print(f"{self.passed} passed, {self.failed} failed")
        sys.exit(1 if self.failed else 0)


# The kinds of further frames that `host` takes.
SAVE, ABANDON, REMOVE, COMPACT, COPY, SIZES, MISSING, ENTRIES = range(16, 24)


def frame(kind: int, tenant: bytes, body: bytes = b"") -> bytes:
    return struct.pack(">BH", kind, len(tenant)) + tenant + struct.pack(">I", len(body)) + body


def answers_in(told: bytes) -> Tuple[List[Answer], int]:
    """The answers that stand whole in these bytes, each as a status, a value and a reply; and how many bytes are left."""
    found, at = [], 0
    while at + ANSWER.size <= len(told):
        status, value, size = ANSWER.unpack_from(told, at)
        if at + ANSWER.size + size > len(told):
            break
        at += ANSWER.size
        found.append((status, value, told[at : at + size]))
        at += size
    return found, len(told) - at


def contents(path: str) -> bytes:
    """The bytes of a file that is there."""
    with open(path, "rb") as file:
        return file.read()


def bytes_of(path: str) -> Optional[bytes]:
    """The bytes of a file, None where there is none."""
    try:
        return contents(path)
    except FileNotFoundError:
        return None


def worked(name: str) -> bytes:
    return contents(os.path.join(STREAMS, name + ".fi"))


def worked_names() -> List[str]:
    return sorted(it[:-3] for it in os.listdir(STREAMS) if it.endswith(".fi"))


class Service:
    """A running gitpool_frames, or a gitpool_cli that serves: one step after another."""

    def __init__(self, *command: str, **more: Any) -> None:
        self.process: subprocess.Popen[bytes] = subprocess.Popen(command, stdin=subprocess.PIPE, stdout=subprocess.PIPE, **more)
        assert self.process.stdin and self.process.stdout
        self.pid, self.given, self.told = self.process.pid, self.process.stdin, self.process.stdout

    def step(self, kind: int, tenant: bytes, body: bytes = b"") -> Answer:
        self.given.write(frame(kind, tenant, body))
        self.given.flush()
        return self.answer()

    def answer(self) -> Answer:
        status, value, size = ANSWER.unpack(self.read(ANSWER.size))
        return status, value, self.read(size)

    def read(self, size: int) -> bytes:
        found = self.told.read(size)
        if len(found) != size:
            raise EOFError(f"the service ended, status {self.process.wait()}")
        return found

    def feed(self, tenant: bytes, stream: bytes) -> Answer:
        """Feeds a stream of any length, in pieces that a frame may hold; the first answer that is not well, or all replies."""
        replies = []
        for at in range(0, len(stream), PIECE):
            status, value, reply = self.step(FEED, tenant, stream[at : at + PIECE])
            replies.append(reply)
            if status != OK:
                return status, value, b"".join(replies)
        return OK, 0, b"".join(replies)

    def end(self) -> int:
        self.given.close()
        return self.process.wait()
