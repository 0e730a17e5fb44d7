"""What the answers to queries say, as values."""
from __future__ import annotations

import re
import struct
from dataclasses import dataclass
from functools import lru_cache
from typing import Iterable, Iterator, List, NamedTuple, Tuple

_LISTED = struct.Struct(">20sBQ")


@dataclass(frozen=True)
class Ref:
    """A ref: its full name, and the name of the object that it holds."""

    name: bytes
    target: str


@dataclass(frozen=True)
class LogEntry:
    """A commit in a log: its name and the first line of its message."""

    commit: str
    subject: bytes


@dataclass(frozen=True)
class TreeEntry:
    """An entry of a tree. mode is 0o100644, 0o100755, 0o120000, 0o160000 or 0o040000; kind is blob, commit or tree."""

    mode: int
    kind: str
    object: str
    name: bytes


@dataclass(frozen=True)
class GitObject:
    """An object: its name, its kind (commit, tree, blob or tag) and its contents without Git's header."""

    name: str
    kind: str
    contents: bytes


@dataclass(frozen=True)
class Sizes:
    """What a tenant has at its last checkpoint: how many objects and refs, the bytes of its objects, and the bytes of those
    that no other tenant has too. A number of bytes is 2^64 - 1 where it would be greater."""

    tenant: bytes
    objects: int
    bytes: int
    own: int
    refs: int


class Listed(NamedTuple):
    """An object of a listing: its name as 20 bytes, its kind (1 commit, 2 tree, 3 blob, 4 tag), and the bytes of its contents."""

    name: bytes
    kind: int
    size: int


class Listing:
    """Objects with their kinds and sizes, as a Missing lists them. It is kept as 29 bytes for each."""

    def __init__(self, listed: bytes = b""):
        if len(listed) % _LISTED.size:
            raise ValueError(f"a listing has {len(listed)} bytes")
        self._listed = listed

    @classmethod
    def of(cls, objects: Iterable[Listed]) -> "Listing":
        """The listing of these objects."""
        return cls(b"".join(_LISTED.pack(*it) for it in objects))

    def __len__(self) -> int:
        return len(self._listed) // _LISTED.size

    def __iter__(self) -> Iterator[Listed]:
        return map(Listed._make, _LISTED.iter_unpack(self._listed))

    def __add__(self, other: "Listing") -> "Listing":
        return Listing(self._listed + other._listed)

    def names(self) -> List[bytes]:
        """The names, each of 20 bytes."""
        return [name for name, _, _ in _LISTED.iter_unpack(self._listed)]

    def parts(self, most: int, most_names: int) -> Iterator[Tuple[int, bytes]]:
        """The names of these objects in runs, each with the length of their entries: at most so many bytes of entries, but where
        one object has more, and at most so many bytes of names."""
        begin = at = total = 0
        for _, _, size in _LISTED.iter_unpack(self._listed):
            more = entry_size(size)
            if at > begin and (total + more > most or 20 * (at - begin + 1) > most_names):
                yield total, self._raw(begin, at)
                begin, total = at, 0
            total += more
            at += 1
        if at > begin:
            yield total, self._raw(begin, at)

    def _raw(self, begin: int, end: int) -> bytes:
        """The names of the objects of these places, one after another."""
        step = _LISTED.size
        return b"".join([self._listed[at : at + 20] for at in range(step * begin, step * end, step)])


@lru_cache(maxsize=4096)
def entry_size(size: int) -> int:
    """How many bytes an object has as an entry of a pack, by the bytes of its contents: kind and size, four bits of it and then seven
    to a byte; two bytes of zlib; the contents in stored blocks of at most 65,535 bytes, with five bytes before each; four of Adler-32."""
    head = 1 + -(-(size >> 4).bit_length() // 7)
    return head + 2 + 5 * max(1, -(-size // 65_535)) + size + 4


def read_refs(reply: bytes) -> List[Ref]:
    """The answer to `refs`, in the order of the refs' bytes."""
    return [Ref(line[41:], line[:40].decode()) for line in reply.split(b"\n") if line]


def read_log(reply: bytes) -> List[LogEntry]:
    """The answer to `log`, from new to old."""
    return [LogEntry(line[:40].decode(), line[41:]) for line in reply.split(b"\n")[:-1]]


def read_tree(reply: bytes) -> List[TreeEntry]:
    """The answer to `ls`, in the order of the tree. Names are unquoted."""
    entries = []
    for line in reply.split(b"\n")[:-1]:
        head, _, name = line.partition(b"\t")
        mode, kind, target = head.split(b" ")
        entries.append(TreeEntry(int(mode, 8), kind.decode(), target.decode(), unquote(name)))
    return entries


def read_object(reply: bytes) -> GitObject:
    """The answer to `cat`. Raises ValueError where it is not one."""
    head, _, rest = reply.partition(b"\n")
    name, kind, size = head.split(b" ")
    contents = rest[: int(size)]
    if len(contents) != int(size):
        raise ValueError("the contents of an object are cut off")
    return GitObject(name.decode(), kind.decode(), contents)


def read_sizes(reply: bytes) -> List[Sizes]:
    """The answer to a request for sizes, in the order of the tenants' names."""
    found = []
    for line in reply.split(b"\n")[:-1]:
        tenant, *numbers = line.split(b" ")
        found.append(Sizes(tenant, *(int(it) for it in numbers[1::2])))
    return found


_ESCAPE = re.compile(rb'\\([abfnrtv"\\]|[0-3][0-7]{2})')
_ESCAPED = {b"a": b"\a", b"b": b"\b", b"f": b"\f", b"n": b"\n", b"r": b"\r", b"t": b"\t", b"v": b"\v", b'"': b'"', b"\\": b"\\"}


_SHOWN_BLOB = re.compile(rb"[0-9a-f]{40} blob ([0-9]+)")


def read_kept(replies: bytes) -> List[bytes]:
    """The refs that a stream was told are kept, among all that it was told: a ref that a stream does not fast-forward stays
    as it was, and the stream goes on."""
    kept, at = [], 0
    while at < len(replies):
        end = replies.index(b"\n", at)
        line = replies[at:end]
        at = end + 1
        shown = _SHOWN_BLOB.fullmatch(line)
        if shown:
            at += int(shown.group(1)) + 1
        elif line.startswith(b"kept "):
            kept.append(line[5:])
    return kept


def unquote(path: bytes) -> bytes:
    """Removes Git's quoting from a path; an unquoted path is returned unchanged."""
    if not path.startswith(b'"'):
        return path

    def meant(found: "re.Match[bytes]") -> bytes:
        escape = found.group(1)
        return _ESCAPED[escape] if escape in _ESCAPED else bytes((int(escape, 8),))

    return _ESCAPE.sub(meant, path[1:-1])
