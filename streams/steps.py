"""Steps of several tenants, and what each is told: the cases of tenants/*.steps, whose form README.md describes.

A row is what one frame asks and what it is told: the kind of the step, its tenant, its bytes or its query, the number that refuses it
or 0, and what is printed.
"""
import glob
import os
import re
from dataclasses import dataclass
from typing import List, Optional, Sequence, Tuple

HERE = os.path.dirname(os.path.abspath(__file__))
OPEN, FEED, END, ASK, RESTART = 1, 2, 3, 4, 5
BAD_NAME = 32
Row = Tuple[int, bytes, bytes, int, bytes]
STEP = re.compile(r"(open|feed|end|import|bytes|first|rest|ask|restart)(?: (\S+))?(?: (.*))?")


def bytes_of(line: str) -> bytes:
    """The bytes of a line after its `<` or `>`: with the line end, but where a backslash stands last."""
    text = line[2:]
    is_cut = re.search(r"(?<!\\)(\\\\)*\\$", text)
    text = text[:-1] if is_cut else text + "\n"
    return text.encode().decode("unicode_escape").encode("latin-1")


@dataclass
class Told:
    """What a step is told where its stream is cut at `begin` or later, and before `end`: the number that refuses it, or 0, and what is
    printed."""

    begin: int = 0
    end: Optional[int] = None
    fault: int = 0
    printed: bytes = b""

    def holds_at(self, cut: int) -> bool:
        return self.begin <= cut and (self.end is None or cut < self.end)


class Step:
    """A line that names a step, what is given to it, and what it is told."""

    def __init__(self, line: str) -> None:
        found = STEP.fullmatch(line)
        if not found:
            raise ValueError(f"no step: {line}")
        self.word, tenant, query = found.groups()
        self.tenant, self.query = (tenant or "").replace('""', ""), (query or "").encode()
        self.given, self.told = b"", [Told()]

    def add(self, line: str) -> None:
        word, _, rest = line.partition(" ")
        if word == "<":
            self.given += bytes_of(line)
        elif word == ">":
            self.told[-1].printed += bytes_of(line)
        elif word == "fault":
            self.told[-1].fault = int(rest)
        elif word == "from":
            self.told.append(Told(begin=int(rest)))
        else:
            self.told.append(Told(end=int(rest)))

    def told_at(self, cut: int) -> Tuple[int, bytes]:
        """What it is told where the stream is cut so: the last of what is written that holds there."""
        last = [it for it in self.told if it.holds_at(cut)][-1]
        return last.fault, last.printed


class Case:
    """What a service does, in words and as steps from a service in which nobody has the names of its tenants."""

    def __init__(self, does: str) -> None:
        self.does = does
        self.steps: List[Step] = []

    def add(self, line: str) -> None:
        if re.match(r"[<>]|(fault|from|until) ", line):
            self.steps[-1].add(line)
        else:
            self.steps.append(Step(line))

    def cuts(self) -> Sequence[int]:
        """The places at which the stream of `first` is cut, one of which each play has; a case without it is played once."""
        streams = [it.given for it in self.steps if it.word == "first"]
        return range(len(streams[0]) + 1) if streams else [0]

    def rows(self, cut: int, own: str) -> List[Row]:
        """Its rows, with the stream cut at this place and `own` after the first part of each tenant's name."""
        streams = [it.given for it in self.steps if it.word == "first"]
        found: List[Row] = []
        for step in self.steps:
            code, printed = step.told_at(cut)
            tenant = step.tenant if code == BAD_NAME else re.sub("(?=/|$)", own, step.tenant, count=1)
            found += rows_of(step, tenant.encode(), streams[0] if streams else b"", cut, code, printed)
        return found


def rows_of(step: Step, tenant: bytes, stream: bytes, cut: int, code: int, printed: bytes) -> List[Row]:
    if step.word == "restart":
        return [(RESTART, b"", b"", code, printed)]
    if step.word == "ask":
        return [(ASK, tenant, step.query, code, printed)]
    if step.word in ("open", "end"):
        return [(OPEN if step.word == "open" else END, tenant, b"", code, printed)]
    if step.word == "import":
        return [(OPEN, tenant, b"", 0, b""), (FEED, tenant, step.given, code, printed), (END, tenant, b"", code, b"")]
    if step.word == "bytes":
        each = [(FEED, tenant, bytes([it]), 0, b"") for it in step.given]
        return each[:-1] + [each[-1][:3] + (code, printed)]
    piece = {"feed": step.given, "first": stream[:cut], "rest": stream[cut:]}[step.word]
    return [(FEED, tenant, piece, code, printed)]


def cases() -> List[Case]:
    """The cases of all files, in the order of the names of these."""
    found: List[Case] = []
    for path in sorted(glob.glob(os.path.join(HERE, "tenants", "*.steps"))):
        with open(path, encoding="utf-8") as file:
            for line in file.read().splitlines():
                if line.startswith("== "):
                    found.append(Case(line[3:]))
                elif line and not line.startswith("#"):
                    found[-1].add(line)
    return found
