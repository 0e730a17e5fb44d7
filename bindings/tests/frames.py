"""Takes frames of docs/FORMATS.md from standard input, as `gitpool host` does, by the library in this process, and writes their answers. A
frame of kind 0 begins a new service, and has no answer. A Save checks that a service of what it saved saves the same."""
import os
import struct
import sys
import tempfile
from typing import BinaryIO, Optional, Tuple

from gitpool_frames import STEP_HEAD, STEP_SIZE, write_answer
from gitpool_library import Answer, Kind, Service, Step

OTHER_FILE = 999


def read_frame(source: BinaryIO) -> Optional[Tuple[int, bytes, bytes]]:
    """The kind, the name and the body of the next frame, or None at the end."""
    head = source.read(STEP_HEAD.size)
    if not head:
        return None
    kind, length = STEP_HEAD.unpack(head)
    tenant = source.read(length)
    (size,) = STEP_SIZE.unpack(source.read(STEP_SIZE.size))
    return kind, tenant, source.read(size)


class Driver:
    """A service over a pool file of its own, and what is asked of it."""

    def __init__(self, folder: str):
        self._pool = os.path.join(folder, "pool")
        self._again = os.path.join(folder, "again")
        self._service = Service(self._pool)

    def begin(self) -> None:
        """Begins a new service."""
        self._service.kill()
        if os.path.exists(self._pool):
            os.unlink(self._pool)
        self._service = Service(self._pool)

    def take(self, kind: int, tenant: bytes, body: bytes) -> Answer:
        """The answer to a frame."""
        answer = self._service.step(Step(Kind(kind), tenant, body))
        return self._compared(answer) if kind == Kind.SAVE and answer.status == 0 else answer

    def _compared(self, answer: Answer) -> Answer:
        os.rename(self._pool, self._again)
        with Service(self._again):
            pass
        with open(self._again, "rb") as again:
            self._service.save()
            with open(self._pool, "rb") as saved:
                return answer if saved.read() == again.read() else Answer(1, OTHER_FILE, b"")


def main() -> int:
    with tempfile.TemporaryDirectory() as folder:
        driver = Driver(folder)
        try:
            while True:
                frame = read_frame(sys.stdin.buffer)
                if frame is None:
                    return 0
                if frame[0] == 0:
                    driver.begin()
                else:
                    sys.stdout.buffer.write(write_answer(driver.take(*frame)))
        except struct.error:
            return 1


if __name__ == "__main__":
    sys.exit(main())
