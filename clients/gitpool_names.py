"""Names of the objects of a stream: marks that were imported before it, marks that it leaves, and a map of original names.

Neither the service nor its answers know marks files. Marks of commits are set by `alias` before the first command of the stream.
There is no such command for other objects, so their names take the place of their marks in the lines that use them.
"""
from __future__ import annotations

import re
from array import array
from typing import Callable, Dict, Iterator, List, Optional

from gitpool_marks import LARGEST_MARK, Marks, NewFile
from gitpool_rewrite import CannotRewrite, Plan, Stage, Work

_USE = re.compile(rb"(M [0-7]+ |N |cat-blob |ls |from |merge |to |get-mark ):([0-9]{1,20})(?=[ \n])")
_SET = re.compile(rb"mark :([0-9]{1,20})\n")
_AT_ONCE = 8192
_FIRST_OF_OURS = 0x67_69_74_70_6F_6F_6C_00
_MOST_OF_OURS = 1 << 16


def _mark_set_by(line: bytes) -> int:
    """The number of a mark that a line sets, or 0 where it sets none."""
    found = _SET.fullmatch(line)
    number = int(found.group(1)) if found else 0
    return number if number <= LARGEST_MARK else 0


class ImportedMarks(Stage):
    """Lets a stream use marks of an earlier one."""

    def __init__(self, work: Work, names: Dict[int, bytes], kinds: Dict[int, str]):
        self._work = work
        self._names = names
        self._kinds = kinds
        self._others = {mark: names[mark] for mark, kind in kinds.items() if kind != "commit"}
        self._pending = 0
        words = (b"M", b"N", b"cat-blob", b"ls", b"from", b"merge", b"to", b"get-mark")
        self.handlers = {**dict.fromkeys(words, self._use), b"mark": self._set} if self._others else {}

    def start(self) -> None:
        commits = [mark for mark, kind in self._kinds.items() if kind == "commit"]
        for at in range(0, len(commits), _AT_ONCE):
            self._work.wire.put(b"".join(b"alias\nmark :%d\nto %b\n" % (mark, self._names[mark]) for mark in commits[at : at + _AT_ONCE]))

    def before(self, word: bytes) -> None:
        self._others.pop(self._pending, None)
        self._pending = 0

    def _set(self, line: bytes) -> bytes:
        # The mark is that of another object once the command is whole.
        self._pending = _mark_set_by(line)
        return line

    def _use(self, line: bytes) -> bytes:
        if self._pending and self._work.position.command != b"commit" and line.startswith((b"cat-blob", b"ls", b"get-mark")):
            self.before(b"")
        found = _USE.match(line)
        name = self._others.get(int(found.group(2))) if found else None
        if found is None or name is None:
            return line
        if found.group(1) == b"get-mark ":
            return self._told(name)
        return found.group(1) + name + line[found.end() :]

    def _told(self, name: bytes) -> bytes:
        """Answers a get-mark, which ends the open command as an option of another system does."""
        self._work.wire.put(b"option gitpool-import get-mark\n")
        self._work.wire.tell(name + b"\n")
        return b""


class ExportedMarks(Stage):
    """Collects the marks that a stream leaves, with those that were there before it, and writes them where it ends."""

    def __init__(self, work: Work, before: Dict[int, bytes], written: Callable[[int, bytes], None]):
        self._work = work
        self._before = before
        self._written = written
        self._marks = array("Q")
        self.handlers = {b"mark": self._set}

    def _set(self, line: bytes) -> bytes:
        mark = _mark_set_by(line)
        if mark:
            self._marks.append(mark)
        return line

    def before(self, word: bytes) -> None:
        if word in (b"", b"done") and not self._work.is_rerun:
            self._write_all()

    def _write_all(self) -> None:
        asked = sorted(set(self._marks))
        names = self._names_of(asked)
        own = set(asked)
        for mark in sorted(own.union(self._before)):
            self._written(mark, next(names) if mark in own else self._before[mark])

    def _names_of(self, marks: List[int]) -> Iterator[bytes]:
        """The names of the objects of marks, in turn."""
        for at in range(0, len(marks), _AT_ONCE):
            yield from names_of(self._work, marks[at : at + _AT_ONCE])


class OriginalNames(Stage):
    """Tells the name of each object that has an `original-oid`. Objects without a mark get one of ours."""

    def __init__(self, work: Work, written: Callable[[bytes, bytes], None]):
        self._work = work
        self._written = written
        self._held = b""
        self._mark = 0
        self._pending: Dict[int, bytes] = {}
        self._original = b""
        self.handlers = {
            **dict.fromkeys((b"blob", b"commit", b"tag"), self._hold), b"mark": self._set, b"original-oid": self._take,
            **dict.fromkeys((b"author", b"committer", b"from", b"data", b"tagger"), self._release)}

    def before(self, word: bytes) -> None:
        if self._original and self._mark:
            self._pending[self._mark] = self._original
        self._mark, self._original = 0, b""
        if self._pending and (len(self._pending) >= _AT_ONCE or word in (b"", b"done")):
            self._ask()
        self._work.wire.put(self._give())

    def cut(self) -> None:
        self._work.wire.put(self._give())

    def _hold(self, line: bytes) -> bytes:
        self._held = line
        return b""

    def _give(self) -> bytes:
        held, self._held = self._held, b""
        return held

    def _set(self, line: bytes) -> bytes:
        mark = _mark_set_by(line)
        if _FIRST_OF_OURS <= mark < _FIRST_OF_OURS + _MOST_OF_OURS:
            raise CannotRewrite(f"the mark :{mark} is one of those that --map sets; leave out --map, or number the marks otherwise")
        if mark in self._pending:
            # The name has to be asked for while the mark is still its own, and before the next command begins.
            self._ask()
        self._mark = mark
        return self._give() + line

    def _release(self, line: bytes) -> bytes:
        return self._marked() + line

    def _marked(self) -> bytes:
        """What is held, with a mark of ours."""
        if not self._held:
            return b""
        self._mark = _FIRST_OF_OURS + len(self._pending)
        return self._give() + b"mark :%d\n" % self._mark

    def _take(self, line: bytes) -> bytes:
        self._original = line[len(b"original-oid ") : -1]
        return self._marked() + line

    def _ask(self) -> None:
        marks = list(self._pending)
        names = names_of(self._work, marks)
        if not self._work.is_rerun:
            for original, name in zip(self._pending.values(), names):
                self._written(original, name)
        self._pending.clear()


def names_of(work: Work, marks: List[int]) -> List[bytes]:
    """The names of the objects of marks, at a place where a command may end."""
    lines = b"".join(b"get-mark :%d\n" % mark for mark in marks)
    return work.wire.ask(lines, 41 * len(marks)).split(b"\n")[:-1] if marks else []


def add_marks(plan: Plan, marks: Marks, kinds: Dict[int, str], exported: Optional[NewFile], originals: Optional[NewFile]) -> None:
    """Adds to a plan the marks that were imported, the file that gets all marks, and the one that gets a map of original names."""
    names = marks.names
    plan.imported = {mark: names[mark] for mark, kind in kinds.items() if kind == "commit"}
    if names:
        plan.makers.insert(0, lambda work: ImportedMarks(work, names, kinds))
    if exported:
        write_mark = exported.write
        plan.makers.append(lambda work: ExportedMarks(work, names, lambda mark, name: write_mark(b":%d %b\n" % (mark, name))))
    if originals:
        write_original = originals.write
        plan.makers.append(lambda work: OriginalNames(work, lambda original, name: write_original(original + b" " + name + b"\n")))


__all__ = ["add_marks", "ExportedMarks", "ImportedMarks", "OriginalNames"]
