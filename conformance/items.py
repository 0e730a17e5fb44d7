"""The items of a stream: lines, data, blank lines and comments, each with its place. It knows as much of git-fast-import(1) as it takes to
find the end of a `data`, and is written apart from the program that the suite is made with."""
from __future__ import annotations

import re
from typing import Dict, Iterator, List, NamedTuple, Optional

from cases import Case

_COUNTED = re.compile(rb"data ([0-9]{1,20})")
_DELIMITED = re.compile(rb"data <<(.+)", re.S)
_OBJECT = rb"[0-9a-fA-F]{40}"
_ANSWERS = (b"get-mark", b"cat-blob", b"ls", b"progress")
_COMMITTER = b"committer C O Mitter <c@example.com> 1700000000 +0100\n"


class Item(NamedTuple):
    """An item: its kind (line, data, blank, comment or rest), its text without a line end, and where it begins and ends."""

    kind: str
    text: bytes
    start: int
    end: int

    @property
    def word(self) -> bytes:
        """The first word of a line."""
        return self.text.split(b" ")[0] if self.kind == "line" else b""


def items_of(stream: bytes) -> Iterator[Item]:
    """The items of a stream, the line end that may follow data with its data. What gives no whole item is one of kind rest."""
    at = 0
    while at < len(stream):
        item = _item_at(stream, at)
        yield item
        at = item.end


def _item_at(stream: bytes, at: int) -> Item:
    end = stream.find(b"\n", at)
    if end < 0:
        return Item("rest", stream[at:], at, len(stream))
    line = stream[at:end]
    if line.startswith(b"data "):
        return _data_at(stream, at, line)
    kind = "blank" if not line else "comment" if line.startswith(b"#") else "line"
    return Item(kind, line, at, end + 1)


def _data_at(stream: bytes, at: int, line: bytes) -> Item:
    start = at + len(line) + 1
    counted, delimited = _COUNTED.fullmatch(line), _DELIMITED.fullmatch(line)
    end = start + int(counted[1]) if counted else _delimiter_in(stream, start, delimited[1]) if delimited else -1
    if not start <= end <= len(stream):
        return Item("rest", stream[at:], at, len(stream))
    after = end + (len(delimited[1]) + 1 if delimited else 0)
    return Item("data", stream[start:end], at, after + stream.startswith(b"\n", after))


def _delimiter_in(stream: bytes, start: int, delimiter: bytes) -> int:
    """Where the first line is that is the delimiter; -1 where none is."""
    found = (b"\n" + stream[start:]).find(b"\n" + delimiter + b"\n")
    return start + found if found >= 0 else -1


def checkpoints_in(stream: bytes) -> List[int]:
    """The last bytes of the lines `checkpoint` that a stream has before its `done`."""
    found = []
    for item in items_of(stream):
        if item.word == b"done" and item.text == b"done":
            break
        if item.text == b"checkpoint" and item.kind == "line":
            found.append(item.end)
    return found


def asks(stream: bytes) -> bool:
    """Whether a stream has a command that prints an answer."""
    return any(item.word in _ANSWERS for item in items_of(stream))


class _Writer:
    """Writes a stream again without the commands that print answers."""

    def __init__(self) -> None:
        self._opening = b""
        self._kinds: Dict[bytes, bytes] = {}
        self._count = 0

    def written(self, stream: bytes, item: Item) -> bytes:
        """What stands in place of an item."""
        if item.word in (b"blob", b"commit", b"tag", b"alias", b"reset"):
            self._opening = item.word
        if item.word == b"mark":
            self._kinds[item.text[5:]] = {b"alias": b"commit"}.get(self._opening, self._opening)
        if item.word == b"get-mark":
            return self._shown(item.text[9:])
        if item.word == b"cat-blob":
            return b"" if self._is_in_commit() else self._file(item.text[9:])
        return b"" if item.word in _ANSWERS else stream[item.start : item.end]

    def _is_in_commit(self) -> bool:
        return self._opening == b"commit"

    def _shown(self, mark: bytes) -> bytes:
        """A ref that holds the object of a mark: a branch at a commit, a commit of a blob, a tag of a tag."""
        kind = self._kinds.get(mark, b"commit")
        if kind == b"blob":
            return self._file(mark)
        self._opening, number = b"", self._next()
        if kind == b"tag":
            return b"tag answer-%d\nfrom %b\ntagger %bdata 0\n\n" % (number, mark, _COMMITTER.partition(b" ")[2])
        return b"reset refs/heads/answer-%d\nfrom %b\n\n" % (number, mark)

    def _file(self, dataref: bytes) -> bytes:
        """A commit whose file is a blob."""
        self._opening = b""
        return b"commit refs/heads/answer-%d\n%bdata 0\nM 100644 %b answer\n\n" % (self._next(), _COMMITTER, dataref)

    def _next(self) -> int:
        self._count += 1
        return self._count


def core_of(stream: bytes) -> bytes:
    """The same stream without commands that print. A get-mark, and a cat-blob outside of commits, become a ref that shows the object; the
    others are left out."""
    writer = _Writer()
    return b"".join(writer.written(stream, item) for item in items_of(stream))


def shows_the_same(variant: Case, case: Case) -> bool:
    """Whether a variant can stand in for its case: it ends as the case does, and leaves something where it is accepted."""
    if variant.fault or case.fault:
        return bool(variant.fault and case.fault and variant.fault.number == case.fault.number)
    return bool(variant.state.refs)


def extension_in(stream: bytes) -> Optional[str]:
    """The command of our own that a stream has."""
    return "option gitpool head" if any(item.text.startswith(b"option gitpool head ") for item in items_of(stream)) else None
