"""Makes the cases of the suite from the worked streams, and from those of its own.

README.md says where each expected value comes from. What the program answers is compared here with all that is known apart from it: the
replies and the fault that stand beside a stream, and the name of each object, which is computed from its contents.
"""
from __future__ import annotations

import hashlib
import os
import re
import sys
from typing import Dict, List, NamedTuple, Optional, Tuple

sys.path.insert(0, os.path.join(os.path.dirname(os.path.realpath(__file__)), "..", "clients"))

from gitpool import Answer, Kind, Service, Step, read_kept  # noqa: E402
from gitpool_faults import explain  # noqa: E402

from cases import Case, Fault, Object, State  # noqa: E402
from items import asks, checkpoints_in, core_of, extension_in, items_of, shows_the_same  # noqa: E402
from limit_streams import LIMIT_STREAMS  # noqa: E402
from rules import TOP, Told  # noqa: E402

FOLDERS = ("streams", os.path.join("conformance", "cases"))
"""Where streams are, each with what it prints and its fault beside it."""

SECTIONS_OF_ANSWERS = ("progress", "get-mark", "cat-blob", "ls")
SECTION_OF_LIMITS = "Limits"
FOUND_WITHIN = (1, 4, 25)
_PIECE = 1 << 20


class Wrong(Exception):
    """The program answers something else than what stands beside a stream."""


class Worked(NamedTuple):
    """A worked stream: its name, the stream before it, its bytes, what it prints if that is known, and its fault, or 0."""

    name: str
    first: Optional[bytes]
    stream: bytes
    replies: Optional[bytes]
    fault: int


def _content(path: str) -> bytes:
    with open(path, "rb") as file:
        return file.read()


def worked_streams() -> List[Worked]:
    """All worked streams: those of FOLDERS, and those at a limit."""
    found = []
    for folder in FOLDERS:
        top = os.path.join(TOP, folder)
        for file in os.listdir(top):
            if file.endswith(".fi"):
                path = os.path.join(top, file[:-3])
                fault = int(_content(path + ".fault")) if os.path.exists(path + ".fault") else 0
                first = _content(path + ".first") if os.path.exists(path + ".first") else None
                found.append(Worked(file[:-3], first, _content(path + ".fi"), _content(path + ".out"), fault))
    return found + [Worked(name, None, stream, b"", fault) for name, (stream, fault) in LIMIT_STREAMS.items()]


class Maker:
    """Asks the program what streams do. Each stream that is tried has a tenant of its own in one service."""

    def __init__(self, service: Service):
        self._service = service
        self._tenants = 0
        self._first: Optional[bytes] = None

    def case(self, worked: Worked, rules: List[Told], variant_of: Optional[str] = None) -> Case:
        """The case of a stream. Raises Wrong."""
        self._first = worked.first
        tenant, replies, number = self._carried_out(worked.stream)
        if worked.replies is not None and (worked.replies, worked.fault) != (replies, number):
            raise Wrong(f"{worked.name} prints {replies!r}, fault {number}, where {worked.replies!r}, {worked.fault} stands")
        fault = fault_at(worked.stream, number, self._place(worked.stream)) if number else None
        if fault:
            check_place(worked.name, worked.stream, fault)
        state = self._state(tenant)
        ends = [it for it in checkpoints_in(worked.stream) if fault is None or it < fault.byte]
        return Case(
            name=worked.name,
            first=worked.first,
            stream=worked.stream,
            level=level_of(worked.stream, rules),
            extension=extension_in(worked.stream),
            variant_of=variant_of,
            fault=fault,
            replies=replies,
            kept=list(dict.fromkeys(read_kept(replies))),
            state=state,
            objects=self._objects(tenant, state),
            checkpoints=[(it, self._state_after(worked.stream[:it])) for it in ends],
            rules=[it.rule for it in rules],
        )

    def _open(self) -> bytes:
        """Opens a stream of another tenant, after the stream that comes first."""
        self._tenants += 1
        tenant = b"t%d" % self._tenants
        if self._first is not None:
            self._service.import_stream(tenant, [self._first])
        self._service.open(tenant)
        return tenant

    def _feed(self, tenant: bytes, stream: bytes) -> Answer:
        """Feeds bytes, and gives the answer of the first refusal, or else of all."""
        replies = b""
        for at in range(0, len(stream), _PIECE):
            answer = self._service.step(Step(Kind.FEED, tenant, stream[at : at + _PIECE]))
            replies += answer.reply
            if answer.status:
                return Answer(answer.status, answer.value, replies)
        return Answer(0, 0, replies)

    def _carried_out(self, stream: bytes) -> Tuple[bytes, bytes, int]:
        """The tenant that has a stream, what the stream printed, and its fault or 0."""
        tenant = self._open()
        fed = self._feed(tenant, stream)
        end = self._service.step(Step(Kind.END, tenant))
        if 2 in (fed.status, end.status):
            raise Wrong("the program ran out of memory")
        return tenant, fed.reply + (b"" if fed.status else end.reply), end.value

    def _place(self, stream: bytes) -> Optional[int]:
        """How many bytes the shortest front has that is refused before its end; None where only the end of the stream is."""
        if not self._is_refused(stream):
            return None
        good, bad = 0, len(stream)
        while good + 1 < bad:
            middle = (good + bad) // 2
            good, bad = (good, middle) if self._is_refused(stream[:middle]) else (middle, bad)
        return bad

    def _is_refused(self, front: bytes) -> bool:
        tenant = self._open()
        is_refused = self._feed(tenant, front).status != 0
        self._service.step(Step(Kind.END, tenant))
        return is_refused

    def _state_after(self, front: bytes) -> State:
        """The state at the last checkpoint of a stream that goes on."""
        tenant = self._open()
        self._feed(tenant, front)
        return self._state(tenant)

    def _state(self, tenant: bytes) -> State:
        return State({it.name: it.target for it in self._service.refs(tenant)}, self._service.head(tenant))

    def _objects(self, tenant: bytes, state: State) -> List[Object]:
        """The objects that refs reach, by name. Raises Wrong where a name is not that of the contents."""
        found: Dict[str, Object] = {}
        left = [*state.refs.values()]
        while left:
            name = left.pop()
            if name not in found:
                it = self._service.object(tenant, name)
                if hashlib.sha1(b"%b %d\0%b" % (it.kind.encode(), len(it.contents), it.contents)).hexdigest() != name:
                    raise Wrong(f"{name} is not the name of its contents")
                found[name] = (name, it.kind, len(it.contents))
                left += referred(it.kind, it.contents)
        return [found[name] for name in sorted(found)]


def referred(kind: str, contents: bytes) -> List[str]:
    """The names of the objects that an object refers to, but for those of gitlinks."""
    if kind == "tree":
        entries = re.findall(rb"([0-7]+) [^\0]+\0(.{20})", contents, re.S)
        return [name.hex() for mode, name in entries if mode != b"160000"]
    names = re.findall(rb"^(?:tree|parent|object) ([0-9a-f]{40})$", contents.split(b"\n\n")[0], re.M)
    return [it.decode() for it in names] if kind != "blob" else []


def fault_at(stream: bytes, number: int, byte: Optional[int]) -> Fault:
    """A fault and its place: a byte that counts from 1, or the end of the stream."""
    last = len(stream) if byte is None else byte
    line = stream.count(b"\n", 0, max(0, last - 1)) + 1
    return Fault(number, explain(number).meaning, last, line, byte is None)


def check_place(name: str, stream: bytes, fault: Fault) -> None:
    """Raises Wrong where a fault is found elsewhere than at the end of an item, as items.py reads them. The line end after data is
    optional. Only what passes a limit, and a bad header of data, is found within."""
    ends = {item.end - skipped for item in items_of(stream) for skipped in range(2 if item.kind == "data" else 1)}
    if not fault.is_at_end and fault.byte not in ends and fault.number not in FOUND_WITHIN:
        raise Wrong(f"{name}: fault {fault.number} at byte {fault.byte}, where no item ends")


def level_of(stream: bytes, rules: List[Told]) -> str:
    """The level of a case: that of limits is told by its rules, that of answers by the commands of its stream."""
    if any(it.section == SECTION_OF_LIMITS for it in rules):
        return "limits"
    return "answers" if asks(stream) else "core"


def core_variant(maker: Maker, case: Case, rules: List[Told]) -> Optional[Case]:
    """The case without commands that print, where that shows the same rules by commits and refs."""
    left = [it for it in rules if it.section not in SECTIONS_OF_ANSWERS]
    if case.level != "answers" or not left:
        return None
    variant = maker.case(Worked(case.name + "-core", case.first, core_of(case.stream), None, 0), left, case.name)
    return variant if variant.level == "core" and shows_the_same(variant, case) else None


def make_cases(service: Service, rules: List[Told]) -> List[Case]:
    """All cases with their variants, by name. Raises Wrong."""
    maker, cases = Maker(service), []
    for worked in worked_streams():
        mine = [it for it in rules if worked.name in it.cases]
        case = maker.case(worked, mine)
        variant = core_variant(maker, case, mine)
        cases += [case, variant] if variant else [case]
    return sorted(cases, key=lambda it: it.name)
