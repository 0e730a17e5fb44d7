"""Rewrites a stream of git-fast-import(1) on its way into a service, line by line.

A Rewriter follows the stream as it comes, in pieces of any size, and gives each line to the stages that know its first word. A
stage puts other lines in its place, takes it away, or asks the service in between. Everything else passes as it is, data above
all, so that what is held at any time is a line, or the message of one tag.
"""
from __future__ import annotations

import re
from collections import Counter
from typing import Callable, Dict, FrozenSet, List, Optional, Sequence, Set

from gitpool import PIECE, Service, Text
from gitpool_stream import Scanner

Handler = Callable[[bytes], bytes]
Told = Callable[[bytes], None]
DataSink = Callable[[bytes, bool], None]

COMMANDS = frozenset((b"blob", b"commit", b"tag", b"reset", b"alias", b"checkpoint", b"progress", b"get-mark", b"done", b"feature",
                      b"option"))
"""The words that always begin a command, so that the command before them ends."""

_TOP_LINE = re.compile(rb"([^ \n]*)[^\n]*(?:\n|\Z)")
_TOP_WORDS = (b"feature", b"option", b"")
_NO_DATA = re.compile(rb"(?:data|property [^ \n]+) 0+[ \n]")
_KEEPS, _DROPS = b"\n", b""


class CannotRewrite(Exception):
    """A stream has what a stage refuses, or cannot express. It says what."""


class Wire:
    """The open stream of a tenant in a service, to which bytes are put. They wait until a piece is full, or until flush.

    told takes what they print."""

    def __init__(self, service: Service, tenant: Text, told: Told):
        self._service = service
        self._tenant = tenant
        self._told = told
        self._waiting: List[bytes] = []
        self._size = 0

    def put(self, text: bytes) -> None:
        """Sends bytes of the stream. Raises the Fault of the stream."""
        self._waiting.append(text)
        self._size += len(text)
        if self._size >= PIECE:
            self.flush()

    def flush(self) -> None:
        """Feeds what waits."""
        if self._waiting:
            self._told(self._feed())

    def ask(self, lines: bytes, size: int) -> bytes:
        """Sends lines that print so many bytes, and gives these, without telling them."""
        self._waiting.append(lines)
        reply = self._feed()
        self._told(reply[: len(reply) - size])
        return reply[len(reply) - size :]

    def tell(self, reply: bytes) -> None:
        """Tells bytes as if the stream had printed them at this place."""
        self.flush()
        self._told(reply)

    def end(self) -> None:
        """Ends the stream."""
        self.flush()
        self._told(self._service.end(self._tenant))

    def _feed(self) -> bytes:
        text, self._waiting, self._size = b"".join(self._waiting), [], 0
        return self._service.feed(self._tenant, text)


class Position:
    """Which command of the stream is open, by its first line."""

    def __init__(self) -> None:
        self.command = b""
        self.argument = b""

    def begin(self, word: bytes, line: bytes) -> None:
        """Another command begins with this line."""
        self.command = word
        self.argument = line[len(word) + 1 :].rstrip(b"\n")


class Stage:
    """One kind of change. handlers has, for each first word that the stage looks at, what gives the line that takes its place; an
    empty one takes the line away, and no later stage sees it."""

    handlers: Dict[bytes, Handler]

    def start(self) -> None:
        """The first command begins that is neither a feature nor an option."""

    def before(self, word: bytes) -> None:
        """The open command ends, since another one begins with this word, or the stream ends (an empty word)."""

    def cut(self) -> None:
        """The stream ends within a line or data: what is held back has to go on its way."""


class Rewriter:
    """Feeds a stream to a wire by way of stages."""

    def __init__(self, wire: Wire, position: Position, stages: Sequence[Stage], *, has_properties: bool = False):
        self._wire = wire
        self._position = position
        self._stages = stages
        self._scanner = Scanner(has_properties=has_properties)
        words: Set[bytes] = set(COMMANDS).union(*(stage.handlers for stage in stages))
        self._handlers = {word: [stage.handlers[word] for stage in stages if word in stage.handlers] for word in words}
        alternatives = b"|".join(re.escape(word) for word in sorted(words))
        self._line = re.compile(rb"^(" + alternatives + rb")(?=[ \n])[^\n]*(?:\n|\Z)", re.M)
        self._is_at_top = True
        self._is_done = False
        self._sink: Optional[DataSink] = None
        # What becomes of a line end that comes next, where data have just ended.
        self._line_end: Optional[bytes] = None

    def feed(self, piece: bytes) -> None:
        """Feeds the next bytes of the stream. Raises Fault, and CannotRewrite."""
        for part in [] if self._is_done else self._scanner.feed(piece):
            if part.is_data:
                self._take_data(part.text, part.is_last)
            elif not self._is_done:
                self._take_lines(part.text)
        self._wire.flush()

    def end(self) -> None:
        """Ends the stream."""
        is_cut = bool(self._scanner.rest()) or self._scanner.is_in_data()
        if not self._is_done:
            for stage in self._stages:
                if is_cut:
                    stage.cut()
                else:
                    stage.before(b"")
            self._wire.put(self._scanner.rest())
        self._wire.end()

    def sink_data(self, sink: DataSink) -> None:
        """Gives the data that come next, piece by piece, and whether they end, to a sink in place of the wire."""
        self._sink = sink

    def drop_data(self) -> None:
        """Takes the data that come next away, and the line end that may follow them."""
        self._sink = self._drop

    def _drop(self, _data: bytes, is_last: bool) -> None:
        if is_last:
            self._line_end = _DROPS

    def _take_data(self, data: bytes, is_last: bool) -> None:
        if self._is_done:
            return
        sink = self._sink
        if is_last:
            self._sink, self._line_end = None, _KEEPS
        if sink:
            sink(data, is_last)
        else:
            self._wire.put(data)

    def _take_lines(self, text: bytes) -> None:
        if self._line_end is not None and text.startswith(b"\n"):
            self._wire.put(self._line_end)
            text = text[1:]
        self._line_end = None
        at = self._take_top(text) if self._is_at_top else 0
        for found in self._line.finditer(text, at):
            if found.start() > at:
                self._wire.put(text[at : found.start()])
            at = found.end()
            self._take_line(found.group(1), found.group())
            if self._is_done:
                return
        self._wire.put(text[at:])
        if _NO_DATA.match(text, text.rfind(b"\n", 0, len(text) - 1) + 1):
            self._take_data(b"", True)

    def _take_top(self, text: bytes) -> int:
        """Takes features, options, comments and blank lines, and says where they end in a text of lines."""
        at = 0
        while at < len(text):
            found = _TOP_LINE.match(text, at)
            assert found
            if found.group(1) not in _TOP_WORDS and not found.group(1).startswith(b"#"):
                self._is_at_top = False
                for stage in self._stages:
                    stage.start()
                return at
            self._take_line(found.group(1), found.group())
            at = found.end()
        return at

    def _take_line(self, word: bytes, line: bytes) -> None:
        if word in COMMANDS:
            for stage in self._stages:
                stage.before(word)
            self._position.begin(word, line)
        taken = line
        for handler in self._handlers.get(word, ()):
            taken = handler(taken)
            if not taken:
                break
        self._wire.put(taken)
        self._is_done = word == b"done"


class Plan:
    """What is to be done with a stream: makes the stages for a wire, anew each time that the stream is fed."""

    def __init__(self) -> None:
        self.changed: "Counter[str]" = Counter()
        self.makers: List[Callable[["Work"], Stage]] = []
        self.has_properties = False
        self.imported: Dict[int, bytes] = {}
        # The commits that git exports without their signatures, by their `original-oid`.
        self.signed: FrozenSet[bytes] = frozenset()

    def finished(self) -> Optional["Plan"]:
        """The plan, unless it changes nothing."""
        return self if self.makers else None

    def rewriter(self, service: Service, tenant: Text, told: Told, *, is_rerun: bool = False) -> Rewriter:
        """A rewriter for one run of the stream. In a rerun, which looks for the place of a fault, nothing is counted or kept."""
        wire = Wire(service, tenant, told)
        work = Work(service, tenant, wire, Counter() if is_rerun else self.changed, self.imported, is_rerun)
        work.signed = self.signed
        work.rewriter = Rewriter(wire, work.position, [make(work) for make in self.makers], has_properties=self.has_properties)
        return work.rewriter


class Work:
    """What stages share in one run: the service and the wire, the position, the counts of what was changed, the commits of marks that
    were imported, and the commits that were signed."""

    rewriter: Rewriter
    signed: FrozenSet[bytes] = frozenset()

    def __init__(self, service: Service, tenant: Text, wire: Wire, changed: "Counter[str]", imported: Dict[int, bytes], is_rerun: bool):
        self.service = service
        self.tenant = tenant
        self.wire = wire
        self.position = Position()
        self.changed = changed
        self.imported = imported
        self.is_rerun = is_rerun


__all__ = ["COMMANDS", "CannotRewrite", "Plan", "Position", "Rewriter", "Stage", "Wire", "Work"]
