"""What each tenant has in a pool file, read by the format in crates/pool_file_format/README.md: a file of version 2."""
from __future__ import annotations

import struct
from array import array
from dataclasses import dataclass
from hashlib import sha256
from typing import BinaryIO, Dict, Iterator, List, Tuple
import sys

Kept = Tuple[List[Tuple[int, bytes]], Dict[bytes, Tuple[int, bytes]], bytes]
"""What a tenant has: its objects in their order, its refs, and its HEAD. An object is its kind and a digest of its contents."""

_NUMBER = struct.Struct(">Q")
_SHORT = struct.Struct(">H")


@dataclass(frozen=True)
class Repository:
    """objects are the numbers of a tenant's objects in the file, from 0; stored is the bytes of their contents, each counted
    for every tenant that has it; refs are pairs of a name and a place among these objects."""

    objects: List[int]
    stored: int
    refs: List[Tuple[bytes, int]]
    head: bytes


def read_tenants(path: str) -> Dict[bytes, Repository]:
    """The tenants of a pool file. Raises ValueError where it is none of this version; damage is found by `gitpool check`."""
    with open(path, "rb") as file:
        if file.read(8) != b"gitpool\n" or file.read(4) != b"\0\0\0\2":
            raise ValueError(f"{path} is no pool file of version 2")
        sizes = [_skip_object(file) for _ in range(_number(file))]
        return dict(_read_tenant(file, sizes) for _ in range(_number(file)))


def _skip_object(file: BinaryIO) -> int:
    file.seek(1, 1)
    size = _number(file)
    file.seek(size, 1)
    return size


def _read_tenant(file: BinaryIO, sizes: List[int]) -> Tuple[bytes, Repository]:
    name = _sized(file)
    objects = array("Q", file.read(8 * _number(file)))
    if sys.byteorder == "little":
        objects.byteswap()
    refs = [(_sized(file), _number(file)) for _ in range(_number(file))]
    return name, Repository(list(objects), sum(sizes[it] for it in objects), refs, _sized(file))


def _number(file: BinaryIO) -> int:
    return int(_NUMBER.unpack(file.read(8))[0])


def _sized(file: BinaryIO) -> bytes:
    return file.read(_SHORT.unpack(file.read(2))[0])


def repositories(path: str) -> Dict[bytes, Kept]:
    """What each tenant of a pool file has that has something: its objects in their order, its refs, and its HEAD."""
    objects = list(read_objects(path))
    found: Dict[bytes, Kept] = {}
    for tenant, it in read_tenants(path).items():
        own = [objects[number] for number in it.objects]
        found[tenant] = (own, {name: own[place] for name, place in it.refs}, it.head)
    return {tenant: it for tenant, it in found.items() if it[0]}


def read_objects(path: str) -> Iterator[Tuple[int, bytes]]:
    """The kind, and a digest of the contents, of each object of a pool file."""
    with open(path, "rb") as file:
        file.seek(12)
        (many,) = struct.unpack(">Q", file.read(8))
        for _ in range(many):
            kind, size = struct.unpack(">BQ", file.read(9))
            yield kind, sha256(file.read(size)).digest()
