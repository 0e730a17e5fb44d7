"""Imports many streams and Git repositories into one pool file: one service, one load, one save.

A stream that is refused, or that would rewind a ref, must leave its tenant as it was, and all others are saved. A service cannot
take back what a checkpoint saved in it. So where such a stream had one, or came to its end, the service is given up, and all is done
again without the streams that failed. This happens once at most, unless a repository changes meanwhile.
"""
from __future__ import annotations

import contextlib
import os
import signal
import subprocess
import tempfile
import time
from typing import IO, BinaryIO, Callable, ContextManager, Dict, Iterator, List, NamedTuple, Optional, Sequence

from gitpool import Fault, OutOfMemory, Service
from gitpool_faults import sentences
from gitpool_import import Imported, Lend, Reason, Run, Source, Start, set_head
from gitpool_original import Comparison, Original, Renamed
from gitpool_rewrite import CannotRewrite, Plan
from gitpool_terminal import shown, size_of
from gitpool_verdict import Verdict, words_of_kept, words_of_refused

EXPORT = ("fast-export", "--all", "--use-done-feature", "--mark-tags", "--reencode=no", "--signed-tags=verbatim")


class Entry(NamedTuple):
    """One line of a list: a tenant, and the path of a stream or a repository."""

    tenant: bytes
    path: bytes


class ListError(Exception):
    """A list has a line that is not `TENANT PATH`, or a tenant twice."""


def read_list(name: str, file: BinaryIO) -> List[Entry]:
    """The entries of a list. Empty lines, and those that begin with `#`, say nothing. Raises ListError."""
    entries: Dict[bytes, Entry] = {}
    for number, line in enumerate(file, 1):
        tenant, _, path = line.rstrip(b"\n").partition(b" ")
        if not line.strip() or line.startswith(b"#"):
            continue
        if not tenant or not path:
            raise ListError(f"{name}:{number}: this is no line `TENANT PATH`: {shown(line.rstrip())}")
        if tenant in entries:
            raise ListError(f"{name}:{number}: the tenant {shown(tenant)} has a line before this one")
        entries[tenant] = Entry(tenant, path)
    return list(entries.values())


class ExportFailed(Exception):
    """git fast-export did not end well, or a path is neither a stream nor a repository."""


class Outcome:
    """What came of one entry: its verdict, and in words why it failed. Where it failed, is_undone says whether the service has
    nothing of it."""

    def __init__(self, entry: Entry):
        self.entry = entry
        self.verdict = Verdict()
        self.failure = ""
        self.is_undone = True
        self.renamed: Optional[Renamed] = None

    def failed(self, words: str, is_undone: bool) -> None:
        """The entry failed."""
        self.failure = words
        self.is_undone = is_undone


Shown = Callable[[Entry, int, int, Optional[int]], None]


class Many:
    """The import of a list. plan makes what each stream is rewritten by, if it is, of the repository that it is exported from, if there is
    one; shown takes the bytes and objects so far of an entry, and the size of its stream if that is known. A repository whose refs would get
    other names than in git is imported only if that is asked for."""

    def __init__(self, start: Start, plan: Callable[[Optional[Original]], Optional[Plan]], shows: Shown, *, rewrites: bool):
        self._start = start
        self._plan = plan
        self._shows = shows
        self._rewrites = rewrites

    def run(self, entries: List[Entry], *, saves: bool) -> List[Outcome]:
        """Imports all entries, and saves those that went well; where a server keeps the pool file, also what the checkpoints of the others
        left. Raises ServiceError where the program ends early, or cannot save."""
        outcomes: Dict[Entry, Outcome] = {}
        while True:
            with self._start(saves) as service:
                before = [it for it in outcomes.values() if it.failure]
                for entry in entries:
                    if entry not in outcomes or not outcomes[entry].failure:
                        outcomes[entry] = self._import(service, entry)
                failed = [it for it in outcomes.values() if it.failure and it not in before]
                is_whole = all(it.is_undone for it in failed) or not saves or service.is_served
                if not is_whole or all(it.failure for it in outcomes.values()):
                    service.kill()
            if is_whole:
                return [outcomes[entry] for entry in entries]

    def _import(self, service: Service, entry: Entry) -> Outcome:
        """Imports one entry into a service, which goes on in any case."""
        outcome, began = Outcome(entry), time.monotonic()
        try:
            original = Original.at(entry.path)
            plan = self._plan(original)
            compared = Comparison(original) if original else None
            with open_stream(entry.path, original, shows_names=bool(plan and plan.signed)) as source:
                service.open(entry.tenant)
                self._import_stream(service, source, outcome, plan)
            if compared and not outcome.failure:
                self._compare(compared.renamed(service, entry.tenant), outcome)
        except Fault as fault:
            self._drop(service, outcome, sentences(fault.number), True)
        except ExportFailed as error:
            self._drop(service, outcome, str(error), outcome.is_undone)
        except OSError as error:
            self._drop(service, outcome, str(error.strerror), outcome.is_undone)
        outcome.verdict.members["seconds"] = round(time.monotonic() - began, 3)
        return outcome

    def _compare(self, renamed: Renamed, outcome: Outcome) -> None:
        """Fails an entry whose refs have other names than in git, unless that is asked for."""
        outcome.renamed = renamed
        outcome.verdict.renamed(renamed.refs)
        if not renamed.refs or self._rewrites:
            return
        outcome.verdict.members["saved"] = False
        outcome.verdict.failed(renamed.words())
        outcome.failed(renamed.words() + "; --rewrite imports it with these", False)

    def _import_stream(self, service: Service, source: Source, outcome: Outcome, plan: Optional[Plan]) -> None:
        entry = outcome.entry
        run = Run(service, entry.tenant, lambda _: None, lambda fed, objects: self._shows(entry, fed, objects, source.size), plan)
        try:
            run.feed_all(source)
        except (Fault, CannotRewrite) as reason:
            self._refused(service, source, run, reason, outcome)
        except OutOfMemory as error:
            self._drop(service, outcome, str(error), not run.may_have_saved)
        except OSError:
            outcome.is_undone = not run.may_have_saved
            raise
        else:
            self._taken(service, run, outcome)
        outcome.verdict.changed(plan)

    def _refused(self, service: Service, source: Source, run: Run, reason: Reason, outcome: Outcome) -> None:
        is_undone = not run.may_have_saved
        service.restart()

        @contextlib.contextmanager
        def borrowed() -> Iterator[Service]:
            yield service
            service.restart()

        def another() -> ContextManager[Service]:
            return self._start(False)

        lend: Lend = borrowed if is_undone else another
        refused = run.refused(lend, source, reason, False)
        outcome.verdict.refused(refused)
        outcome.failed(words_of_refused(refused), is_undone)

    def _taken(self, service: Service, run: Run, outcome: Outcome) -> None:
        kept = list(dict.fromkeys(run.kept))
        # Whatever comes now, the service has the stream.
        outcome.is_undone = False
        head = None if kept else set_head(service, outcome.entry.tenant)
        outcome.verdict.imported(Imported(run.fed, run.tally, kept, head, not kept), is_saved=not kept)
        if kept:
            outcome.failed(words_of_kept(kept), False)

    @staticmethod
    def _drop(service: Service, outcome: Outcome, words: str, is_undone: bool) -> None:
        service.restart()
        outcome.verdict = Verdict()
        outcome.verdict.failed(words)
        outcome.failed(words, is_undone)


@contextlib.contextmanager
def open_stream(path: bytes, original: Optional[Original] = None, *, shows_names: bool = False) -> Iterator[Source]:
    """The stream at a path, or the export of the repository there, with the names that its objects have if they are wanted. Raises OSError,
    and ExportFailed where the export does not end well, which may be found only after its last byte."""
    if original:
        with _exported(original, (*EXPORT, "--show-original-ids") if shows_names else EXPORT) as source:
            yield source
        return
    with open(path, "rb") as file:
        if not file.seekable():
            raise ExportFailed("this is neither a file nor a repository")
        yield Source(file)


@contextlib.contextmanager
def _exported(original: Original, export: Sequence[str]) -> Iterator[Source]:
    head = original.run(b"symbolic-ref", b"-q", b"HEAD")
    with tempfile.TemporaryFile() as said:
        words = [*original.words, *(word.encode() for word in export)]
        process = subprocess.Popen(words, env=original.environment, stdin=subprocess.DEVNULL, stdout=subprocess.PIPE, stderr=said)
        assert process.stdout
        try:
            source = Source(process.stdout, b"option gitpool head " + head if head else b"")  # type: ignore[arg-type]
            yield source
            source.close()
            _wait(process, said)
        finally:
            process.stdout.close()
            process.kill()
            process.wait()


def _wait(process: "subprocess.Popen[bytes]", said: IO[bytes]) -> None:
    """Waits for the end of an export. Raises ExportFailed where it did not end well. One that was not read to its end, since the stream
    was refused, ends by SIGPIPE."""
    assert process.stdout
    process.stdout.close()
    status = process.wait()
    if status not in (0, -signal.SIGPIPE):
        said.seek(0)
        lines = said.read().splitlines() or [b""]
        raise ExportFailed(f"git fast-export ended with status {status}: {shown(lines[-1])}")


def table_of(outcomes: List[Outcome]) -> str:
    """All outcomes as lines, with the reasons of those that failed."""
    width = max((len(shown(it.entry.tenant)) for it in outcomes), default=0)
    lines = [f"{shown(it.entry.tenant):<{width}}  {_row_of(it)}" for it in outcomes]
    failed = sum(1 for it in outcomes if it.failure)
    return "\n".join([*lines, f"{len(outcomes) - failed} imported, {failed} failed"]) + "\n"


def _row_of(outcome: Outcome) -> str:
    members = outcome.verdict.members
    if outcome.failure:
        return "failed    " + outcome.failure.replace("\n", "\n    ")
    objects = members["blobs"] + members["commits"] + members["tags"]
    changed = ", ".join(f"{count} {kind}" for kind, count in members["changed"].items())
    more = f"; changed {changed}" if changed else ""
    if outcome.renamed and outcome.renamed.refs:
        more += "; " + outcome.renamed.words()
    return f"imported  {objects} objects, {size_of(members['bytes'])}, {members['seconds']:.2f} s{more}"


__all__ = ["Entry", "ListError", "Many", "Outcome", "open_stream", "read_list", "table_of"]
