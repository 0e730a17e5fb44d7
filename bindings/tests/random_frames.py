"""Random runs of frames, for all that answers frames: what each is told has to be the same."""
import glob
import os
import random
import struct
from typing import Dict, Iterator, List, NamedTuple, Tuple

TOP = os.path.join(os.path.dirname(os.path.abspath(__file__)), "..", "..")
BEGIN, OPEN, FEED, END, ASK, RESTART = range(6)
SAVE, ABANDON, REMOVE, COMPACT, COPY, SIZES = range(16, 22)
ANSWER = struct.Struct(">BQQ")

TENANTS = [b"a", b"a/b", b"c", b"a", b"a/b"]
BAD_TENANTS = [b"", b"-x", b"a//b", b"x" * 65, b"a b", b"\xff"]
REFS = [b"HEAD", b"refs/heads/main", b"main", b"refs/heads/m", b"v1", b"refs/tags/v1", b"m~1", b"main^{tree}", b"ce01", b"0", b""]
QUERIES = [b"refs", b"head", b"export", b"log %s", b"ls %s", b"cat %s", b"rev-parse %s", b"abbrev %s", b"log %s..%s", b"what", b"refs %s", b"\0"]
GARBAGE = [b"\n", b"what\n", b"blob\ndata 3\nabc", b"checkpoint\n", b"done\n", b"progress x\n", b"data 99999999999999999999\n", b"\xff\0\n", b""]


class Frame(NamedTuple):
    """A frame: its kind, its name and its body."""

    kind: int
    tenant: bytes
    body: bytes

    def text(self) -> bytes:
        """The bytes of the frame."""
        return struct.pack(">BH", self.kind, len(self.tenant)) + self.tenant + struct.pack(">I", len(self.body)) + self.body


def worked_streams() -> List[bytes]:
    """The worked streams of streams/ that are short."""
    paths = sorted(it for it in glob.glob(os.path.join(TOP, "streams", "*.fi")) if os.path.getsize(it) < 4000)
    return [open_bytes(it) for it in paths]


def open_bytes(path: str) -> bytes:
    with open(path, "rb") as file:
        return file.read()


class Runs:
    """Runs of frames, each drawn by its number, so that one of them can be drawn alone."""

    def __init__(self, seed: int):
        self._seed = seed
        self._streams = worked_streams()

    def run(self, number: int) -> List[Frame]:
        """The frames of a run. Every second run has requests of the operator too."""
        draw = random.Random(f"{self._seed} {number}")
        left: Dict[bytes, bytes] = {}
        return [self._frame(draw, left, number % 2 == 1) for _ in range(draw.randrange(4, 40))]

    def _frame(self, draw: random.Random, left: Dict[bytes, bytes], has_operator: bool) -> Frame:
        tenant = draw.choice(BAD_TENANTS) if draw.random() < 0.03 else draw.choice(TENANTS)
        weights = [8, 30, 5, 20, 1] + [2 if has_operator else 0]
        kind = draw.choices([OPEN, FEED, END, ASK, RESTART, SAVE], weights)[0]
        if kind == OPEN:
            left[tenant] = draw.choice(self._streams)
        elif kind == FEED:
            return Frame(FEED, tenant, self._piece(draw, left, tenant))
        elif kind == ASK:
            query = draw.choice(QUERIES)
            return Frame(ASK, tenant, query % tuple(draw.choice(REFS) for _ in range(query.count(b"%s"))))
        elif kind == SAVE:
            return self._request(draw, tenant)
        return Frame(kind, b"" if kind == RESTART else tenant, b"")

    @staticmethod
    def _piece(draw: random.Random, left: Dict[bytes, bytes], tenant: bytes) -> bytes:
        """Mostly the next bytes of the stream that the tenant has begun."""
        if draw.random() < 0.05:
            return draw.choice(GARBAGE)
        stream = left.get(tenant, b"")
        size = draw.choice((1, 7, 40, 200, len(stream)))
        left[tenant] = stream[size:]
        return stream[:size]

    @staticmethod
    def _request(draw: random.Random, tenant: bytes) -> Frame:
        kind = draw.choice((SAVE, ABANDON, REMOVE, COMPACT, COPY, COPY, SIZES))
        if kind in (SAVE, SIZES):
            return Frame(kind, b"", b"")
        return Frame(kind, tenant, draw.choice(TENANTS + BAD_TENANTS[:2]) if kind == COPY else b"")


def has_operator(frames: List[Frame]) -> bool:
    """Whether a run has requests of the operator, which `serve` does not take."""
    return any(it.kind >= SAVE for it in frames)


def answers_in(told: bytes) -> Iterator[Tuple[int, int, bytes]]:
    """The answers that stand whole in these bytes."""
    at = 0
    while at + ANSWER.size <= len(told):
        status, value, size = ANSWER.unpack_from(told, at)
        at += ANSWER.size
        yield status, value, told[at : at + size]
        at += size
