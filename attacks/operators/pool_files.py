"""Pool files as crates/pool_file_format/README.md describes them, and what a tenant's refs reach. Nothing here is of the program
under test: it is what the program is compared with."""
from __future__ import annotations

import hashlib
import struct
from collections import Counter
from dataclasses import dataclass
from typing import Dict, Iterator, List, Mapping, NamedTuple, Set, Tuple

MAGIC = b"gitpool\n"
VERSION = 2
KINDS = {1: b"commit", 2: b"tree", 3: b"blob", 4: b"tag"}
FIRST_HEAD = b"refs/heads/main"
GITLINK = b"160000"
NUMBER = struct.Struct(">Q")
SHORT = struct.Struct(">H")


class Content(NamedTuple):
    """What an object consists of. Contents are in the order of a pool file: by kind, then by bytes."""

    kind: int
    data: bytes

    @property
    def name(self) -> bytes:
        """The object's name in hexadecimal digits."""
        return hashlib.sha1(b"%b %d\0%b" % (KINDS[self.kind], len(self.data), self.data)).hexdigest().encode()


@dataclass(frozen=True)
class Repository:
    """What a pool file says of a tenant: its objects in their order, each ref by its full name with the place of its target, and HEAD."""

    objects: Tuple[Content, ...] = ()
    refs: Tuple[Tuple[bytes, int], ...] = ()
    head: bytes = FIRST_HEAD

    @property
    def has_something(self) -> bool:
        """Whether a save writes it."""
        return bool(self.objects) or self.head != FIRST_HEAD


EMPTY = Repository()
Pool = Mapping[bytes, Repository]


class _Text:
    """Bytes that are read from the front."""

    def __init__(self, data: bytes):
        self.data, self.place = data, 0

    def take(self, size: int) -> bytes:
        self.place += size
        if self.place > len(self.data):
            raise ValueError("a pool file is cut off")
        return self.data[self.place - size : self.place]

    def number(self) -> int:
        return int.from_bytes(self.take(8), "big")

    def sized(self) -> bytes:
        return self.take(int.from_bytes(self.take(2), "big"))


def read(data: bytes) -> Dict[bytes, Repository]:
    """The repositories of a pool file, by tenant. Raises ValueError where it is none of version 2 with a right digest."""
    text = _Text(data)
    if text.take(12) != MAGIC + VERSION.to_bytes(4, "big"):
        raise ValueError("no pool file of version 2")
    contents = [Content(text.take(1)[0], text.take(text.number())) for _ in range(text.number())]
    pool: Dict[bytes, Repository] = {}
    for _ in range(text.number()):
        name = text.sized()
        objects = tuple(contents[text.number()] for _ in range(text.number()))
        refs = tuple((text.sized(), text.number()) for _ in range(text.number()))
        pool[name] = Repository(objects, refs, text.sized())
    if hashlib.sha1(data[: text.place]).digest() != data[text.place :]:
        raise ValueError("a pool file has another digest, or bytes after it")
    return pool


def _sized(data: bytes) -> bytes:
    return SHORT.pack(len(data)) + data


def distinct(pool: Pool) -> List[Content]:
    """The contents of all tenants, each once, in the order of a pool file."""
    return sorted({it for repository in pool.values() for it in repository.objects})


def _tenant_text(name: bytes, repository: Repository, numbers: Mapping[Content, int]) -> bytes:
    parts = [_sized(name), NUMBER.pack(len(repository.objects))]
    parts += [NUMBER.pack(numbers[it]) for it in repository.objects]
    parts.append(NUMBER.pack(len(repository.refs)))
    parts += [_sized(ref) + NUMBER.pack(place) for ref, place in repository.refs]
    return b"".join(parts) + _sized(repository.head)


def written(pool: Pool) -> bytes:
    """The pool file of these repositories."""
    saved = {name: pool[name] for name in sorted(pool) if pool[name].has_something}
    contents = distinct(saved)
    numbers = {it: number for number, it in enumerate(contents)}
    parts = [MAGIC, VERSION.to_bytes(4, "big"), NUMBER.pack(len(contents))]
    parts += [bytes([it.kind]) + NUMBER.pack(len(it.data)) + it.data for it in contents]
    parts.append(NUMBER.pack(len(saved)))
    parts += [_tenant_text(name, repository, numbers) for name, repository in saved.items()]
    text = b"".join(parts)
    return text + hashlib.sha1(text).digest()


def check_line(pool: Pool) -> bytes:
    """What `check` prints: the distinct contents, their bytes, and the tenants that have an object."""
    contents = distinct(pool)
    tenants = sum(bool(it.objects) for it in pool.values())
    return b"objects %d bytes %d tenants %d\n" % (len(contents), sum(len(it.data) for it in contents), tenants)


def size_lines(pool: Pool) -> List[bytes]:
    """The lines of `sizes`, where no stream is at work."""
    holders = Counter(it for repository in pool.values() for it in repository.objects)
    lines = []
    for name in sorted(it for it in pool if pool[it].has_something):
        objects = pool[name].objects
        own = sum(len(it.data) for it in objects if holders[it] == 1)
        told = (name, len(objects), sum(len(it.data) for it in objects), own, len(pool[name].refs))
        lines.append(b"%b objects %d bytes %d own %d refs %d\n" % told)
    return lines


def _entries(tree: bytes) -> Iterator[bytes]:
    """The names that a tree refers to; a gitlink refers to nothing."""
    at = 0
    while at < len(tree):
        mode = tree[at : tree.index(b" ", at)]
        at = tree.index(b"\0", at) + 21
        if mode != GITLINK:
            yield tree[at - 20 : at].hex().encode()


def referred(content: Content) -> List[bytes]:
    """The names of the objects that an object refers to."""
    kind = KINDS[content.kind]
    if kind == b"blob":
        return []
    if kind == b"tree":
        return list(_entries(content.data))
    lines = content.data.split(b"\n\n", 1)[0].split(b"\n")
    words = (b"object ",) if kind == b"tag" else (b"tree ", b"parent ")
    return [it.split(b" ")[1] for it in lines if it.startswith(words)]


def compacted(repository: Repository) -> Repository:
    """The repository without the objects that no ref reaches."""
    places = {it.name: place for place, it in enumerate(repository.objects)}
    reached: Set[int] = set()
    waiting = [place for _, place in repository.refs]
    while waiting:
        place = waiting.pop()
        if place not in reached:
            reached.add(place)
            waiting += [places[it] for it in referred(repository.objects[place])]
    kept = sorted(reached)
    moved = {place: number for number, place in enumerate(kept)}
    refs = tuple((ref, moved[place]) for ref, place in repository.refs)
    return Repository(tuple(repository.objects[it] for it in kept), refs, repository.head)
