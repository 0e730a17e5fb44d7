"""Steps of a service and its answers as frames: docs/FORMATS.md, "Frames"."""
from __future__ import annotations

import enum
import os
import struct
from dataclasses import dataclass
from typing import BinaryIO, List, Optional, Union

from gitpool_faults import explain

Text = Union[bytes, str]

LONGEST_BODY = 16_777_216
"""The most bytes that the body of a step has: a piece of a stream or a query."""

PIECE = 1 << 20
"""How many bytes of a stream go into one Feed, unless the caller says otherwise."""

STEP_HEAD = struct.Struct(">BH")
STEP_SIZE = struct.Struct(">I")
ANSWER_HEAD = struct.Struct(">BQQ")


class Fault(Exception):
    """An answer Fault: the step was refused. After a fault of a stream the stream is dead, and its last checkpoint is left.

    number is that of docs/FAULTS.md; meaning says it in words; reply has what the step printed.
    """

    def __init__(self, number: int, meaning: Optional[str] = None, reply: bytes = b""):
        self.number = number
        self.meaning = explain(number).meaning if meaning is None else meaning
        self.reply = reply
        super().__init__(f"fault {number}: {self.meaning}")


class OutOfMemory(Exception):
    """An answer Memory: the program found no memory. items is how many whole items of the piece took effect."""

    def __init__(self, items: int, reply: bytes = b""):
        self.items = items
        self.reply = reply
        super().__init__(f"the program ran out of memory after {items} items")


class Kind(enum.IntEnum):
    """The kind of a step, or of a request of the operator, as the first byte of its frame."""

    OPEN = 1
    FEED = 2
    END = 3
    ASK = 4
    RESTART = 5
    SAVE = 16
    ABANDON = 17
    REMOVE = 18
    COMPACT = 19
    COPY = 20
    SIZES = 21
    MISSING = 22
    ENTRIES = 23


@dataclass(frozen=True)
class Step:
    """One step of a tenant, or a request of the operator. body is a piece of its stream (FEED), a query (ASK), the name of
    the other tenant (COPY), or AS_OPENED (SAVE), and else empty."""

    kind: Kind
    tenant: bytes = b""
    body: bytes = b""


AS_OPENED = b"\1"
"""The body of a SAVE that writes what each tenant with a stream had when that stream was opened."""


@dataclass(frozen=True)
class Answer:
    """One answer. status is 0 (well), 1 (Fault) or 2 (Memory); value is the number of the fault, or of the items that took
    effect; reply is what the step printed."""

    status: int
    value: int
    reply: bytes

    def check(self) -> bytes:
        """The reply of a step that went well. Raises Fault or OutOfMemory for another."""
        if self.status == 0:
            return self.reply
        if self.status == 1:
            raise Fault(self.value, reply=self.reply)
        raise OutOfMemory(self.value, reply=self.reply)


def as_bytes(text: Text) -> bytes:
    """A tenant, ref or query as bytes; a `str` stands for its UTF-8, or for the bytes that os.fsencode hid in it."""
    return text if isinstance(text, bytes) else os.fsencode(text)


def write_step(step: Step) -> bytes:
    """The frame of a step. Raises ValueError where the tenant's name has more than 65,535 bytes or the body more than
    LONGEST_BODY, for neither has a frame."""
    if len(step.tenant) > 0xFFFF or len(step.body) > LONGEST_BODY:
        raise ValueError(f"a frame has no room for a name of {len(step.tenant)} and a body of {len(step.body)} bytes")
    return b"".join((STEP_HEAD.pack(step.kind, len(step.tenant)), step.tenant, STEP_SIZE.pack(len(step.body)), step.body))


def read_answer(stream: BinaryIO) -> Answer:
    """The next answer of a stream. Raises EOFError where the stream ends before or inside it, and ValueError where its
    status is none."""
    status, value, size = ANSWER_HEAD.unpack(_read_whole(stream, ANSWER_HEAD.size))
    if status > 2:
        raise ValueError(f"an answer has status {status}")
    return Answer(status, value, _read_whole(stream, size))


def _read_whole(stream: BinaryIO, size: int) -> bytes:
    parts: List[bytes] = []
    while size:
        part = stream.read(size)
        if not part:
            raise EOFError("the stream ends inside an answer")
        parts.append(part)
        size -= len(part)
    return parts[0] if len(parts) == 1 else b"".join(parts)


def read_step(stream: BinaryIO) -> Optional[Step]:
    """The next step of a stream of frames, or None at its end. Raises EOFError where it ends inside a frame, and
    ValueError where the kind is none or the body too long."""
    head = stream.read(STEP_HEAD.size)
    if not head:
        return None
    if len(head) < STEP_HEAD.size:
        head += _read_whole(stream, STEP_HEAD.size - len(head))
    kind, length = STEP_HEAD.unpack(head)
    tenant = _read_whole(stream, length)
    (size,) = STEP_SIZE.unpack(_read_whole(stream, STEP_SIZE.size))
    if size > LONGEST_BODY:
        raise ValueError(f"a frame has a body of {size} bytes")
    return Step(Kind(kind), tenant, _read_whole(stream, size))


def write_answer(answer: Answer) -> bytes:
    """The frame of an answer, for those who pass answers on."""
    return ANSWER_HEAD.pack(answer.status, answer.value, len(answer.reply)) + answer.reply
