"""Imports a stream into a tenant, with progress, and tells where a stream is refused.

A stream may be cut anywhere: what comes of it is what comes of the whole. So the place of a fault is the shortest front of
the stream that is refused, and it is found by feeding the front again, in smaller pieces where it was refused.
"""
from __future__ import annotations

import contextlib
import itertools
import os
import tempfile
from typing import BinaryIO, Callable, ContextManager, Iterator, List, NamedTuple, Optional, Union

from gitpool import PIECE, Fault, Service, pieces_of, read_kept
from gitpool_rewrite import CannotRewrite, Plan, Rewriter, Told
from gitpool_stream import Place, Tally, place_of

Start = Callable[[bool], Service]
Lend = Callable[[], ContextManager[Service]]
Shown = Callable[[int, int], None]
Reason = Union[Fault, CannotRewrite]


class Refused(Exception):
    """A stream was refused: why, at which place, after how many bytes of which the service took all, with what they have, and whether
    what its checkpoints left is saved. head is the ref that HEAD was set to then, if it was."""

    def __init__(self, reason: Reason, place: Place, is_at_end: bool, size: int, tally: Tally, has_saved: bool):
        self.reason = reason
        self.place = place
        self.is_at_end = is_at_end
        self.size = size
        self.tally = tally
        self.has_saved = has_saved
        self.head: Optional[bytes] = None
        super().__init__(str(reason))


class Imported(NamedTuple):
    """What came of a stream that was not refused: its bytes and what they have, the refs that were kept, the ref that HEAD was set
    to, if it was, and whether all this is in the service."""

    size: int
    tally: Tally
    kept: List[bytes]
    head: Optional[bytes]
    is_taken: bool


class Source:
    """A stream that can be read again: a file of the disk from where it stands, or a copy of what a pipe gave."""

    def __init__(self, file: BinaryIO, front: bytes = b""):
        """front comes before what a pipe gives."""
        self._file = file
        self._front = front
        self._start = file.tell() if file.seekable() else 0
        self._copy: Optional[BinaryIO] = None if file.seekable() else tempfile.TemporaryFile()  # type: ignore[assignment]
        self.size = os.fstat(file.fileno()).st_size - self._start if file.seekable() else None

    def first(self, size: int = PIECE) -> Iterator[bytes]:
        """The pieces, for the first time."""
        for piece in itertools.chain([self._front] if self._front else [], pieces_of(self._file, size)):
            if self._copy:
                self._keep(self._copy, piece)
            yield piece

    @staticmethod
    def _keep(copy: BinaryIO, piece: bytes) -> None:
        try:
            copy.write(piece)
            copy.flush()
        except OSError as error:
            raise OSError(error.errno, error.strerror, f"the copy of the stream in {tempfile.gettempdir()}") from None

    def again(self, start: int = 0, end: Optional[int] = None, size: int = PIECE) -> Iterator[bytes]:
        """The pieces between two bytes of those that were read."""
        file, base = (self._copy, 0) if self._copy else (self._file, self._start)
        file.seek(base + start)
        while end is None or start < end:
            piece = file.read(size if end is None else min(size, end - start))
            if not piece:
                return
            start += len(piece)
            yield piece

    def close(self) -> None:
        """Gives the copy up, with what could not be written to it."""
        if self._copy:
            with contextlib.suppress(OSError):
                self._copy.close()


class _Plain:
    """Feeds a stream as it is."""

    def __init__(self, service: Service, tenant: bytes, told: Told):
        self._service = service
        self._tenant = tenant
        self._told = told

    def feed(self, piece: bytes, work: Callable[[], None]) -> None:
        """Feeds a piece, and does other work meanwhile."""
        self._told(self._service.feed_while(self._tenant, piece, work))

    def end(self) -> None:
        """Ends the stream."""
        self._told(self._service.end(self._tenant))


class _Planned:
    """Feeds a stream by way of a plan."""

    def __init__(self, rewriter: Rewriter):
        self._rewriter = rewriter
        self.end = rewriter.end

    def feed(self, piece: bytes, work: Callable[[], None]) -> None:
        """Feeds a piece."""
        work()
        self._rewriter.feed(piece)


def _feeder(service: Service, tenant: bytes, told: Told, plan: Optional[Plan], *, is_rerun: bool) -> Union[_Plain, _Planned]:
    """What feeds the open stream of a tenant."""
    if plan is None:
        return _Plain(service, tenant, told)
    return _Planned(plan.rewriter(service, tenant, told, is_rerun=is_rerun))


class Run:
    """One run of a stream: how many bytes were taken, what they have, which refs were kept."""

    def __init__(self, service: Service, tenant: bytes, told: Told, shown: Shown, plan: Optional[Plan] = None):
        self._service = service
        self._tenant = tenant
        self._told = told
        self._shown = shown
        self._plan = plan
        self.tally = Tally()
        self.fed = 0
        self.kept: List[bytes] = []
        self.is_at_end = False
        self.may_have_saved = False
        self._edge = b""

    def feed_all(self, source: Source) -> None:
        """Feeds the stream, which is open, and ends it. Raises Fault and CannotRewrite."""
        feeder = _feeder(self._service, self._tenant, self._take, self._plan, is_rerun=False)
        for piece in source.first():
            self._look_for_saves(piece)
            self._feed(feeder, piece)
            self.fed += len(piece)
            self._shown(self.fed, self.tally.objects())
        self.is_at_end = True
        feeder.end()

    def _look_for_saves(self, piece: bytes) -> None:
        """Looks for what saves, which may begin in the piece before. (Inside of data these bytes say nothing, which is found out where it
        matters.)"""
        text = self._edge + piece
        self.may_have_saved = self.may_have_saved or b"checkpoint" in text or b"done" in text
        self._edge = text[-len(b"checkpoin") :]

    def _feed(self, feeder: Union[_Plain, _Planned], piece: bytes) -> None:
        try:
            feeder.feed(piece, lambda: self.tally.feed(piece))
        except Fault as fault:
            self._take(fault.reply)
            raise

    def _take(self, reply: bytes) -> None:
        if reply:
            self._told(reply)
            self.kept += read_kept(reply)

    def refused(self, lend: Lend, source: Source, reason: Reason, has_saved: bool) -> Refused:
        """Where the stream was refused: at its end, or after so many bytes that were taken. lend gives a service in which the tenant
        is as it was before the stream, and in which it may be fed again."""
        byte = self.fed if self.is_at_end else find_fault(lend, self._tenant, source, self.fed, self._plan)
        return Refused(reason, place_of(source.again(), byte), self.is_at_end, self.fed, self.tally, has_saved)


class NoBranch(Exception):
    """HEAD is to name a branch that the tenant does not have after the stream."""


class Request(NamedTuple):
    """What is asked of an import. start gives a service that may save (True) or may not (False); told takes what the stream prints,
    shown the bytes and objects so far. keeps_part saves what was done even where something was refused or kept. prepare is given the
    service, and says how the stream is rewritten, if it is. before_save is called before a stream that was not refused is saved; what
    it raises gives the stream up. head is the branch that HEAD has to name."""

    start: Start
    tenant: bytes
    told: Told
    shown: Shown
    keeps_part: bool = False
    prepare: Callable[[Service], Optional[Plan]] = lambda _: None
    before_save: Callable[[], None] = lambda: None
    head: Optional[bytes] = None


def import_stream(source: Source, request: Request) -> Imported:
    """Imports a stream, and saves. After a fault, or where a ref was kept, nothing is saved unless the request keeps a part, or a server
    keeps the pool file: there what a checkpoint or the end saved lasts. Raises Refused, Fault where the tenant's name is bad, OutOfMemory,
    ServiceError, NoBranch, and what the calls of the request raise. Where a stream over ssh was refused that has a checkpoint, it raises the Fault,
    for the place of it is not found."""
    with request.start(True) as service:
        keeps_part = request.keeps_part or service.is_served
        service.open(request.tenant)
        run = Run(service, request.tenant, request.told, request.shown, request.prepare(service))
        try:
            run.feed_all(source)
        except (Fault, CannotRewrite) as reason:
            if service.is_remote and not run.is_at_end:
                # Nothing else has the tenant as it was, so what its checkpoints may have changed hides the place.
                service.abandon(request.tenant)
                if run.may_have_saved:
                    raise
            refused = run.refused(lambda: request.start(False), source, reason, keeps_part)
            if not service.is_remote:
                refused.head = _give_up(service, request.tenant, keeps_part)
            raise refused from None
        is_taken = keeps_part or not run.kept
        head = set_head(service, request.tenant, request.head) if is_taken else None
        if is_taken:
            request.before_save()
        else:
            service.kill()
    return Imported(run.fed, run.tally, list(dict.fromkeys(run.kept)), head, is_taken)


def _give_up(service: Service, tenant: bytes, keeps_part: bool) -> Optional[bytes]:
    """Drops a refused stream. What its checkpoints left is saved, or not. Gives the ref that HEAD was set to, if it was."""
    if not keeps_part:
        service.kill()
        return None
    service.restart()
    head = set_head(service, tenant)
    service.close()
    return head


def set_head(service: Service, tenant: bytes, wanted: Optional[bytes] = None) -> Optional[bytes]:
    """Lets HEAD name the branch that is wanted; without one, where HEAD names no branch, master, or else the first one. Raises NoBranch."""
    head, branches = service.head(tenant), [ref.name for ref in service.refs(tenant) if ref.name.startswith(b"refs/heads/")]
    if wanted is not None and wanted not in branches:
        raise NoBranch(f"there is no branch {os.fsdecode(wanted)!r} for HEAD after this stream; nothing is saved")
    if head == wanted or (wanted is None and (head in branches or not branches)):
        return None
    chosen = wanted or (b"refs/heads/master" if b"refs/heads/master" in branches else branches[0])
    service.import_stream(tenant, [b"option gitpool head " + chosen + b"\n"])
    return chosen


def find_fault(lend: Lend, tenant: bytes, source: Source, good: int, plan: Optional[Plan] = None) -> int:
    """How many bytes the shortest front of a stream has that is refused, where one is, and the first good bytes are not."""
    end = good + PIECE
    for width in (4096, 1):
        with lend() as service:
            service.open(tenant)
            feeder = _feeder(service, tenant, lambda _: None, plan, is_rerun=True)
            for piece in source.again(0, good):
                feeder.feed(piece, lambda: None)
            for piece in source.again(good, end, width):
                if _is_refused(feeder, piece):
                    end = good + len(piece)
                    break
                good += len(piece)
    return end


def _is_refused(feeder: Union[_Plain, _Planned], piece: bytes) -> bool:
    try:
        feeder.feed(piece, lambda: None)
    except (Fault, CannotRewrite):
        return True
    return False


__all__ = ["Imported", "Refused", "Lend", "NoBranch", "Reason", "Request", "Run", "Source", "Start", "find_fault", "import_stream", "set_head"]
