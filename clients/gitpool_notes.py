"""Notes of a stream (`N` commands) as files of a notes tree, at the places where git fast-import puts them.

Git keeps the note of a commit in a file of the commit's name. Where a tree has 256 notes and more, a slash stands after the first
two digits of all names, and so on (its *fanout*): when a commit changes the fanout, all notes are renamed. So a NoteStage follows,
beside the stream, which notes each branch has. It holds the paths of all notes, and nothing of the other files.
"""
from __future__ import annotations

import os
import re
from collections import Counter
from typing import Dict, FrozenSet, Iterable, List, NamedTuple, Optional, Set, Tuple

from gitpool import Fault, unquote
from gitpool_rewrite import CannotRewrite, Stage, Work

_NOTE_LINE = re.compile(rb"N (inline|:[0-9]+|[0-9a-f]{40}) ([^\n]+)\n")
_MODIFY_LINE = re.compile(rb"M ([0-7]{1,20}) [^ \n]+ ([^\n]*)\n")
_TWO_PATHS = re.compile(rb'[CR] ("(?:[^"\\\n]|\\.)*"|[^ \n]+) ([^\n]*)\n')
_HEX = re.compile(rb"[0-9a-f]*")
_MARK = re.compile(rb":([0-9]{1,20})")
_NO_OBJECT = b"0" * 40


def fanout_of(count: int) -> int:
    """How many pairs of digits have a slash after them, in a tree of so many notes."""
    return (count.bit_length() - 1) // 8 if count else 0


def path_of(name: bytes, fanout: int) -> bytes:
    """The path of the note of a commit."""
    return b"/".join([*(name[at : at + 2] for at in range(0, 2 * fanout, 2)), name[2 * fanout :]])


def is_note(path: bytes) -> bool:
    """Whether a path is that of a note, under any fanout."""
    return may_lead_to_notes(path) and len(path.replace(b"/", b"")) == 40


def may_lead_to_notes(path: bytes) -> bool:
    """Whether a path is the beginning of one of notes: pairs of digits, with slashes between some of them."""
    return not path or all(it and len(it) % 2 == 0 and _HEX.fullmatch(it) for it in path.split(b"/"))


class Version(NamedTuple):
    """The notes of one commit: those of the version before it, without some paths and with others. The first one of all has the
    name of a saved commit instead, or none where its tree is empty. unknown says why the notes cannot be followed."""

    before: Optional["Version"] = None
    removed: FrozenSet[bytes] = frozenset()
    added: FrozenSet[bytes] = frozenset()
    saved: str = ""
    unknown: str = ""


EMPTY = Version()


class Paths:
    """The paths of the notes of a tree, and how many are in each directory."""

    def __init__(self, paths: Iterable[bytes] = ()):
        self.files: Set[bytes] = set()
        self.directories: "Counter[bytes]" = Counter()
        for path in paths:
            self.add(path)

    def add(self, path: bytes) -> None:
        """Adds a path that is not there."""
        self.files.add(path)
        self.directories.update(_directories_of(path))

    def discard(self, path: bytes) -> List[bytes]:
        """Takes a path away that is there, and gives the directories that are gone with it."""
        self.files.remove(path)
        self.directories.subtract(_directories_of(path))
        return [it for it in _directories_of(path) if not self.directories[it]]


class OpenTree:
    """The notes of the commit that is open: their paths, and how many of them git counts, which is 0 where it has not counted.

    What git takes away stays in its tree, marked as gone, until the commit ends. So a note that is taken away twice in one commit
    counts twice, and one that is taken away and put again does not count, in unsigned numbers of 64 bits. The fanout follows."""

    def __init__(self, version: Version, paths: Paths, count: int):
        self._version = version
        self._removed: Set[bytes] = set()
        self._added: Set[bytes] = set()
        self._gone: Set[bytes] = set()
        self._fanout = fanout_of(count)
        self.paths = paths
        self.count = count

    def put(self, name: bytes) -> Tuple[Optional[bytes], bytes]:
        """Gives a commit a note: the path that goes, if one does, and the path of the note."""
        gone = self.remove(name)
        self.count = (self.count + 1) % (1 << 64)
        path = path_of(name, fanout_of(self.count))
        self._add(path)
        return (gone if gone != path else None), path

    def remove(self, name: bytes) -> Optional[bytes]:
        """Takes the note of a commit away: its path, if it has one."""
        if self.count == 0 and self._fanout == 0:
            self.count = len(self.paths.files)
            self._fanout = fanout_of(self.count)
        path = path_of(name, self._fanout)
        is_there = path in self.paths.files
        if is_there or path in self._gone or self._gone.intersection(_directories_of(path)):
            self.count = (self.count - 1) % (1 << 64)
        if is_there:
            self._discard(path)
        return path if is_there else None

    def remove_all(self) -> None:
        """Takes all notes away. The fanout stays as it was until the commit ends."""
        for path in list(self.paths.files):
            self._discard(path)
        self._gone.clear()
        self.count = 0

    def replace(self, path: bytes, is_file: bool) -> None:
        """A change of files puts something at a path, or takes away what is there."""
        gone = [path, *_directories_of(path)]
        if not is_note(path) and may_lead_to_notes(path):
            gone += [it for it in self.paths.files if not path or it.startswith(path + b"/")]
        for it in self.paths.files.intersection(gone):
            self._discard(it)
        if is_file and is_note(path):
            self._add(path)

    def moves(self) -> List[Tuple[bytes, bytes]]:
        """The notes that move when the commit ends, since their number asks for another fanout."""
        fanout = fanout_of(self.count)
        if fanout == self._fanout:
            return []
        moved = [(path, path_of(path.replace(b"/", b""), fanout)) for path in sorted(self.paths.files)]
        moved = [(path, place) for path, place in moved if path != place]
        for path, place in moved:
            self._discard(path)
            self._add(place)
        self.count = len(self.paths.files)
        return moved

    def closed(self) -> Version:
        """The version that the commit has when it ends."""
        if not self._removed and not self._added:
            return self._version
        return Version(self._version, frozenset(self._removed), frozenset(self._added))

    def _add(self, path: bytes) -> None:
        back = self._gone.intersection([path, *_directories_of(path)])
        if back:
            self._gone = {it for it in self._gone if not back.intersection([it, *_directories_of(it)])}
        if path not in self.paths.files:
            self.paths.add(path)
            if path in self._removed:
                self._removed.discard(path)
            else:
                self._added.add(path)

    def _discard(self, path: bytes) -> None:
        self._gone.update([path, *self.paths.discard(path)])
        if path in self._added:
            self._added.discard(path)
        else:
            self._removed.add(path)


def _directories_of(path: bytes) -> List[bytes]:
    """The directories that a path leads through."""
    parts = path.split(b"/")
    return [b"/".join(parts[:size]) for size in range(1, len(parts))]


class NoteStage(Stage):
    """Rewrites `N` commands as changes of files, and follows what other commands do with notes."""

    def __init__(self, work: Work):
        self._work = work
        self._branches: Dict[bytes, Version] = {}
        self._counts: Dict[bytes, int] = {}
        self._marked: Dict[int, Version] = {}
        self._tips = _Tips()
        # The version that was opened last, and its paths.
        self._last: Tuple[Version, Paths] = EMPTY, Paths()
        self._version = EMPTY
        self._tree: Optional[OpenTree] = None
        self._mark = 0
        self._in_commit = False
        # No tree has this path, for it is another one in each run.
        self._probe = b"gitpool-import-" + os.urandom(16).hex().encode()
        self.handlers = {
            b"": self._blank, b"feature": self._feature, b"commit": self._commit, b"mark": self._set_mark, b"from": self._from,
            b"to": self._from,
            b"N": self._note, b"M": self._modify, b"D": self._delete, b"C": self._copy, b"R": self._copy, b"deleteall": self._delete_all}

    # The version that a command begins with

    def before(self, word: bytes) -> None:
        self._close()
        command, ref = self._work.position.command, self._work.position.argument
        if self._mark:
            self._tips.forget(self._mark)
            self._marked.pop(self._mark, None)
        if self._mark and command in (b"commit", b"alias") and self._version is not EMPTY:
            self._marked[self._mark] = self._version
        if command in (b"commit", b"reset"):
            self._branches[ref] = self._version
        if command == b"commit":
            self._tips.set(ref, self._mark)
        self._mark, self._version = 0, EMPTY

    def _commit(self, line: bytes) -> bytes:
        self._in_commit = True
        self._version = self._branches.get(line[7:-1], EMPTY)
        return line

    def _set_mark(self, line: bytes) -> bytes:
        self._mark = _mark_of(line[5:-1])
        return line

    def _from(self, line: bytes) -> bytes:
        commit = line.partition(b" ")[2][:-1]
        if self._work.position.command != b"tag":
            self._version = self._version_of(commit)
        if self._work.position.command == b"reset":
            self._tips.set(self._work.position.argument, _mark_of(commit) or self._tips.mark_of(commit) or 0)
        return line

    def _version_of(self, commit: bytes) -> Version:
        """The version of a commit-ish, where it has notes."""
        if commit in self._branches:
            return self._branches[commit]
        if commit.startswith(b":"):
            saved = self._work.imported.get(_mark_of(commit))
            return self._marked.get(_mark_of(commit), EMPTY if saved is None else Version(saved=saved.decode()))
        try:
            return Version(saved=self._work.service.resolve(self._work.tenant, commit + b"^{commit}"))
        except Fault:
            return EMPTY

    def _feature(self, line: bytes) -> bytes:
        if line != b"feature notes\n":
            return line
        self._work.changed["features"] += 1
        return b""

    # Changes of the open commit

    def _open(self) -> OpenTree:
        """The notes of the open commit. Raises CannotRewrite where they cannot be followed."""
        if self._tree is None:
            if self._last[0] is not self._version:
                self._last = self._version, Paths(self._paths_of(self._version))
            self._tree = OpenTree(*self._last, self._counts.get(self._work.position.argument, 0))
        return self._tree

    def _paths_of(self, version: Version) -> Set[bytes]:
        """The paths of the notes of a version: those of the first version of all, with all changes since."""
        changes, at = [version], version.before
        while at is not None:
            changes.append(at)
            at = at.before
        first = changes[-1]
        if first.unknown:
            raise CannotRewrite(f"the notes of this commit cannot be followed, for {first.unknown}")
        paths = self._saved_paths(first.saved, b"") if first.saved else set()
        for change in reversed(changes):
            paths.difference_update(change.removed)
            paths.update(change.added)
        return paths

    def _saved_paths(self, commit: str, below: bytes) -> Set[bytes]:
        """The paths of the notes of a commit that is saved, in a directory and those in it."""
        paths: Set[bytes] = set()
        for entry in self._work.service.tree(self._work.tenant, f"{commit}:".encode() + below if below else commit):
            path = below + b"/" + entry.name if below else entry.name
            if entry.kind == "tree" and may_lead_to_notes(path):
                paths |= self._saved_paths(commit, path)
            elif entry.kind != "tree" and is_note(path):
                paths.add(path)
        return paths

    def _touches(self, path: bytes) -> bool:
        """Whether a change at a path may change notes of the open commit."""
        return may_lead_to_notes(path) or self._tree is not None and bool(self._tree.paths.files)

    def _note(self, line: bytes) -> bytes:
        found = _NOTE_LINE.fullmatch(line)
        if not found or not self._in_commit:
            return line
        data, name = found.group(1), self._name_of(found.group(2))
        self._work.changed["notes"] += 1
        if data == _NO_OBJECT:
            gone = self._open().remove(name)
            return b"D %b\n" % gone if gone else b""
        gone, path = self._open().put(name)
        return (b"D %b\n" % gone if gone else b"") + b"M 100644 %b %b\n" % (data, path)

    def _name_of(self, commit: bytes) -> bytes:
        """The object name of a commit-ish that is annotated. Raises Fault where it has none."""
        mark = self._tips.mark_of(commit)
        if mark is not None:
            if not mark:
                raise CannotRewrite(f"the last commit of {commit.decode(errors='backslashreplace')} has a note and no mark")
            return self._name_of(b":%d" % mark)
        if commit.startswith(b":"):
            # A gitlink shows the name of a commit within another one, which a get-mark would end.
            lines = b'M 160000 %b %b\nls "%b"\nD %b\n' % (commit, self._probe, self._probe, self._probe)
            return self._work.wire.ask(lines, len(b"160000 commit \t\n") + 40 + len(self._probe))[14:54]
        try:
            return self._work.service.resolve(self._work.tenant, commit + b"^{commit}").encode()
        except Fault as fault:
            if fault.number == 41:
                # In a stream the service calls it a malformed line.
                raise Fault(3) from None
            if len(commit) != 40 or not _HEX.fullmatch(commit):
                raise
        # A commit of this stream, by its name.
        self._work.wire.ask(b'ls %b ""\n' % commit, 54)
        return commit

    def _modify(self, line: bytes) -> bytes:
        found = _MODIFY_LINE.fullmatch(line)
        path = unquote(found.group(2)) if found else b""
        if found and self._touches(path):
            is_tree = int(found.group(1), 8) == 0o40000
            if is_tree and may_lead_to_notes(path):
                self._forget("a tree was put where notes may be")
            elif self._version is not EMPTY or self._tree or not is_tree:
                self._open().replace(path, not is_tree)
        return line

    def _delete(self, line: bytes) -> bytes:
        path = unquote(line[2:-1])
        if self._touches(path) and (self._tree or self._version is not EMPTY):
            self._open().replace(path, False)
        return line

    def _delete_all(self, line: bytes) -> bytes:
        if self._version.unknown:
            self._version = EMPTY
        elif self._tree or self._version is not EMPTY:
            self._open().remove_all()
        else:
            self._counts.pop(self._work.position.argument, None)
        return line

    def _copy(self, line: bytes) -> bytes:
        found = _TWO_PATHS.fullmatch(line)
        if found and any(may_lead_to_notes(unquote(path)) for path in found.groups()):
            self._forget("a copy or rename has to do with them")
        return line

    def _forget(self, why: str) -> None:
        self._tree, self._version, self._last = None, Version(unknown=why), (EMPTY, Paths())

    def _blank(self, line: bytes) -> bytes:
        if line == b"\n":
            self._close()
        return line

    def _close(self) -> None:
        """The open commit ends: notes move where their fanout changes."""
        if self._tree is not None:
            for path, place in self._tree.moves():
                self._work.wire.put(b"R %b %b\n" % (path, place))
            self._counts[self._work.position.argument] = self._tree.count
            self._version = self._tree.closed()
            self._last, self._tree = (self._version, self._tree.paths), None
        self._in_commit = False


class _Tips:
    """The mark of the last commit of each branch, or 0 where it has none that still is its own."""

    def __init__(self) -> None:
        self._marks: Dict[bytes, int] = {}
        self._refs: Dict[int, Set[bytes]] = {}

    def set(self, ref: bytes, mark: int) -> None:
        """A branch has another last commit."""
        self._refs.get(self._marks.get(ref, 0), set()).discard(ref)
        self._marks[ref] = mark
        if mark:
            self._refs.setdefault(mark, set()).add(ref)

    def forget(self, mark: int) -> None:
        """A mark is that of another object."""
        for ref in self._refs.pop(mark, ()):
            self._marks[ref] = 0

    def mark_of(self, ref: bytes) -> Optional[int]:
        """The mark of a branch, or None where there is no such branch."""
        return self._marks.get(ref)


def _mark_of(text: bytes) -> int:
    """The number of a mark, or 0 for what is none."""
    found = _MARK.fullmatch(text)
    return int(found.group(1)) if found else 0


__all__ = ["NoteStage", "fanout_of", "is_note", "path_of"]
