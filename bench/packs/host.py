"""A run of `host` that is asked for packs, with nothing of its own time in what is measured but the reading of answers."""
from __future__ import annotations

import contextlib
import fcntl
import hashlib
import re
import struct
import subprocess
from typing import Callable, List, Sequence

from gitpool_frames import ANSWER_HEAD, Kind, Step, write_step
from gitpool_replies import Listing

PIPE = 1 << 20
SET_PIPE_SIZE = 1031
# About a megabyte of entries at a time, as clients ask for them.
MOST, MOST_NAMES = 1 << 20, 32_768

__all__ = ["Host", "Listing"]


class Host:
    """The run over a pool file."""

    def __init__(self, program: str, pool: str):
        self._run = subprocess.Popen([program, "host", "--pool", pool], stdin=subprocess.PIPE, stdout=subprocess.PIPE)
        assert self._run.stdin and self._run.stdout
        self._in, self._out = self._run.stdin, self._run.stdout
        for end in (self._in, self._out):
            with contextlib.suppress(OSError):
                fcntl.fcntl(end, SET_PIPE_SIZE, PIPE)
        # (it answers once it has loaded the file)
        self.missing(b"nobody", [], [])

    def _send(self, frame: bytes) -> None:
        self._in.write(frame)
        self._in.flush()

    def _receive(self, use: Callable[[bytes], object]) -> int:
        """Takes an answer, and gives the bytes of its reply, which goes to a function."""
        status, value, size = ANSWER_HEAD.unpack(self._out.read(ANSWER_HEAD.size))
        assert status == 0, f"an answer is {status} {value}"
        left = size
        while left:
            piece = self._out.read(min(left, PIPE))
            use(piece)
            left -= len(piece)
        return int(size)

    def missing(self, tenant: bytes, wants: Sequence[bytes], haves: Sequence[bytes]) -> bytes:
        """The reply to a Missing."""
        parts: List[bytes] = []
        body = struct.pack(">I", len(wants)) + bytes.fromhex(b"".join((*wants, *haves)).decode())
        self._send(write_step(Step(Kind.MISSING, tenant, body)))
        self._receive(parts.append)
        return b"".join(parts)

    @staticmethod
    def entry_frames(tenant: bytes, listing: Listing) -> List[bytes]:
        """The frames that ask for all entries of a listing."""
        return [write_step(Step(Kind.ENTRIES, tenant, struct.pack(">Q", size) + names)) for size, names in listing.parts(MOST, MOST_NAMES)]

    def take_all(self, frames: Sequence[bytes], use: Callable[[bytes], object] = len) -> int:
        """Asks for entries, one frame ahead, and gives the bytes of all."""
        size = 0
        for place, frame in enumerate(frames):
            self._send(frame)
            size += self._receive(use) if place else 0
        return size + (self._receive(use) if frames else 0)

    def digest_of(self, frames: Sequence[bytes]) -> bytes:
        """The SHA-1 of all entries, computed as they come."""
        digest = hashlib.sha1()
        self.take_all(frames, digest.update)
        return digest.digest()

    def processor(self) -> float:
        """The processor time that the run has used."""
        with open(f"/proc/{self._run.pid}/schedstat", encoding="ascii") as file:
            return int(file.read().split()[0]) / 1e9

    def reset_peak(self) -> int:
        """Has the peak of the memory begin again, and gives what the run has now, in bytes."""
        with open(f"/proc/{self._run.pid}/clear_refs", "w", encoding="ascii") as file:
            file.write("5")
        return self._bytes("VmRSS")

    def peak(self) -> int:
        """The most memory that the run has had since then."""
        return self._bytes("VmHWM")

    def _bytes(self, what: str) -> int:
        with open(f"/proc/{self._run.pid}/status", encoding="ascii") as file:
            found = re.search(rf"^{what}:\s+(\d+) kB", file.read(), re.M)
        assert found
        return int(found[1]) * 1024

    def kill(self) -> None:
        """Ends the run, which saves nothing."""
        self._run.kill()
        self._run.wait()
