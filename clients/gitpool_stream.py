"""Follows a stream of git-fast-import(1) without carrying it out: which commands it has, and where.

A Scanner is fed pieces of any size. It knows lines and data, and no more of the grammar than the words that commands begin
with, so that it can follow a stream that the program will refuse.
"""
from __future__ import annotations

import re
from typing import Iterable, Iterator, List, NamedTuple, Optional, Set

_DATA_LINE = re.compile(rb"data (?:([0-9]{1,20})|<<([^\n]+))\n")
_PROPERTY = re.compile(rb"property [^ \n]+ ([0-9]{1,20}) ()")
_COMMAND = re.compile(
    rb"^(?:(?:blob|alias|checkpoint|done)$|(?:commit|tag|reset|progress|feature|option|get-mark|cat-blob|ls) )[^\n]*", re.M
)
_TAG_OR_RESET = re.compile(rb"^(?:tag ([^\n]*)|reset refs/tags/([^\n]*))\n", re.M)
_ZEROS = b"0" * 40


LONGEST_LINE = 1_048_575
"""The most bytes that the service takes as a line, without its line end."""


class Part(NamedTuple):
    """Bytes of a stream: whole lines, or data, of which several parts may follow one another. is_last says that the data end."""

    text: bytes
    is_data: bool
    is_last: bool = False


class Scanner:
    """Where a stream stands after what was fed, between two pieces.

    has_properties says that a line `property NAME SIZE VALUE` has a value of SIZE bytes, which may have line ends. The value is
    data then, and the line ends before it."""

    def __init__(self, *, has_properties: bool = False) -> None:
        self._has_properties = has_properties
        self._rest = b""
        self._left = 0
        self._delimiter = b""
        self._is_within = False

    def feed(self, piece: bytes) -> List[Part]:
        """The parts that a piece makes whole. What is left is a line that has not ended."""
        text, at = self._rest + piece if self._rest else piece, 0
        parts: List[Part] = []
        while at < len(text):
            is_data = bool(self._left or self._delimiter)
            end = self._end_of_data(text, at) if is_data else self._end_of_lines(text, at)
            if end == at:
                break
            parts.append(Part(text[at:end], is_data, is_data and not (self._left or self._delimiter)))
            at = end
        self._rest = text[at:]
        return parts

    def rest(self) -> bytes:
        """The line that has not ended."""
        return self._rest

    def is_in_data(self) -> bool:
        """Whether data have begun that are not whole yet."""
        return bool(self._left or self._delimiter)

    def _end_of_lines(self, text: bytes, at: int) -> int:
        """Where the lines end that data follow, or all lines, or a line that is too long for the service."""
        found = self._next_data(text, at)
        if found:
            self._left = int(found.group(1) or 0)
            self._delimiter = found.group(2) or b""
            return found.end()
        end = text.rfind(b"\n", at) + 1 or at
        return len(text) if end == at and len(text) - at > LONGEST_LINE else end

    def _next_data(self, text: bytes, at: int) -> "Optional[re.Match[bytes]]":
        """The first line from there that data follow."""
        found = _find_line(_DATA_LINE, b"data ", text, at, len(text))
        if not self._has_properties:
            return found
        return _find_line(_PROPERTY, b"property ", text, at, found.start() if found else len(text)) or found

    def _end_of_data(self, text: bytes, at: int) -> int:
        """Where data end, as far as they are there."""
        if self._left:
            end = min(len(text), at + self._left)
            self._left -= end - at
            return end
        start = text.find(b"\n", at) + 1 if self._is_within else at
        if self._is_within and not start:
            return len(text)
        self._is_within = False
        return self._end_of_delimited(text, start)

    def _end_of_delimited(self, text: bytes, start: int) -> int:
        """The same for delimited data, from the start of a line. A last line is held back while it may become the delimiter's."""
        line = self._delimiter + b"\n"
        found = start if text.startswith(line, start) else text.find(b"\n" + line, start) + 1
        if found or text.startswith(line, start):
            self._delimiter = b""
            return found + len(line)
        last = text.rfind(b"\n", start) + 1 or start
        self._is_within = len(text) - last >= len(line)
        return len(text) if self._is_within else last


def _find_line(form: "re.Pattern[bytes]", word: bytes, text: bytes, at: int, end: int) -> "Optional[re.Match[bytes]]":
    """The first line of a form that begins between two places, of which the first is the start of a line. It is sought by its first
    word, which is quicker than by the form."""
    found = form.match(text, at) if at < end else None
    while not found:
        at = text.find(b"\n" + word, at, end) + 1
        if not at:
            return None
        found = form.match(text, at)
    return found


def begins_data(line: bytes) -> bool:
    """Whether data follow a line."""
    return _DATA_LINE.fullmatch(line) is not None


def parts_of(pieces: Iterable[bytes]) -> Iterator[Part]:
    """All parts of a stream. A last line that has not ended is one."""
    scanner = Scanner()
    for piece in pieces:
        yield from scanner.feed(piece)
    if scanner.rest():
        yield Part(scanner.rest(), False)


class Tally:
    """Counts the blobs, commits and tags that begin in a stream. What follows `done` is no part of it."""

    def __init__(self) -> None:
        self._scanner = Scanner()
        self._is_done = False
        self.blobs = 0
        self.commits = 0
        self.tags = 0

    def feed(self, piece: bytes) -> None:
        """Counts what begins in the next piece."""
        for text, is_data, _ in [] if self._is_done else self._scanner.feed(piece):
            if not is_data and not self._is_done:
                self._count(text)

    def objects(self) -> int:
        """All of them."""
        return self.blobs + self.commits + self.tags

    def _count(self, text: bytes) -> None:
        if text.startswith(b"done\n") or b"\ndone\n" in text:
            self._is_done = True
            text = text[: _line_at(text, b"done\n")]
        self.blobs += text.count(b"\nblob\n") + text.startswith(b"blob\n")
        self.commits += text.count(b"\ncommit ") + text.startswith(b"commit ")
        self.tags += text.count(b"\ntag ") + text.startswith(b"tag ")


def _line_at(text: bytes, line: bytes) -> int:
    """Where the first of these lines begins."""
    return 0 if text.startswith(line) else text.index(b"\n" + line) + 1


class Place(NamedTuple):
    """A place in a stream: a byte and its line, both counted from 1, the line's text (before data, that of the line that asks
    for them), and the command that it is part of, with its line."""

    byte: int
    line: int
    text: bytes
    command: bytes
    command_line: int


def place_of(pieces: Iterable[bytes], byte: int) -> Place:
    """The place of a byte of a stream. A byte after the last one stands for the end of the stream."""
    at, line = 0, 1
    text, command, command_line = b"", b"", 1
    for part, is_data, _ in parts_of(pieces):
        inside = part[: byte - at]
        ends = len(inside) < len(part) or at + len(part) == byte
        if not is_data:
            # The whole line that the last byte stands in, and the last command up to there.
            end = part.find(b"\n", len(inside) - 1)
            seen = part[: end + 1 if end >= 0 else len(part)]
            text = seen.rstrip(b"\n").rpartition(b"\n")[2]
            for found in _COMMAND.finditer(seen):
                command, command_line = found.group(), line + seen.count(b"\n", 0, found.start())
        line += inside[:-1].count(b"\n")
        at += len(inside)
        if ends:
            return Place(at, line, text, command, command_line)
        line += inside[-1:].count(b"\n")
    return Place(at, line, text, command, command_line)


def for_git(export: Iterable[bytes]) -> Iterator[bytes]:
    """An export as `git fast-import` takes it, piece by piece.

    git writes the tags of a stream anew at its end, refuses a ref that then comes twice, and forgets a tag whose ref is
    deleted. So the ref of a tag is deleted before the stream tells it again, or tells a commit for the ref."""
    told: Set[bytes] = set()

    def taken_back(found: "re.Match[bytes]") -> bytes:
        name: bytes = found.group(1) if found.group(2) is None else found.group(2)
        is_known = name in told
        if found.group(2) is None:
            told.add(name)
        return (b"reset refs/tags/%b\nfrom %b\n\n" % (name, _ZEROS) if is_known else b"") + found.group()

    for part, is_data, _ in parts_of(export):
        yield part if is_data else _TAG_OR_RESET.sub(taken_back, part)


def head_of(export: bytes) -> Optional[bytes]:
    """The ref that HEAD names, where the front of an export says it."""
    found = re.search(rb"^option gitpool head ([^\n]+)\n", export, re.M)
    return found.group(1) if found else None
