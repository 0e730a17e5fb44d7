"""Packs by Python's zlib and hashlib alone: entries are read as gitformat-pack(5) has them, and packs are put together."""
from __future__ import annotations

import hashlib
import struct
import zlib
from typing import Iterable, Iterator, List, NamedTuple, Sequence, Tuple

from hosts import Differs
from pool_files import Content

BLOCK = 65_535
LISTED = struct.Struct(">20sBQ")
HEAD = struct.Struct(">4sII")


class Listed(NamedTuple):
    """What a Missing tells of an object: its name in hexadecimal digits, its kind, and the bytes of its contents."""

    name: bytes
    kind: int
    size: int

    @property
    def frame(self) -> bytes:
        """The 29 bytes of it."""
        return LISTED.pack(bytes.fromhex(self.name.decode()), self.kind, self.size)


def read_listing(reply: bytes) -> List[Listed]:
    """The objects of the reply to a Missing."""
    if len(reply) % LISTED.size:
        raise Differs(f"a listing has {len(reply)} bytes")
    return [Listed(name.hex().encode(), kind, size) for name, kind, size in LISTED.iter_unpack(reply)]


def written_head(kind: int, size: int) -> bytes:
    """The kind and the size that begin an entry."""
    out, rest = [(kind << 4) | (size & 15)], size >> 4
    while rest:
        out[-1] |= 128
        out.append(rest & 127)
        rest >>= 7
    return bytes(out)


def entry_size(size: int) -> int:
    """How many bytes the entry of contents of a size has: two of zlib, five before each block, and four of the checksum."""
    return len(written_head(1, size)) + 2 + 5 * max(1, -(-size // BLOCK)) + size + 4


def read_head(text: bytes, at: int) -> Tuple[int, int, int]:
    """The kind and the size at a place, and the place after them."""
    kind, size, shift = (text[at] >> 4) & 7, text[at] & 15, 4
    while text[at] & 128:
        at += 1
        size |= (text[at] & 127) << shift
        shift += 7
    return kind, size, at + 1


def read_entry(text: bytes, at: int) -> Tuple[Content, int]:
    """The object of the entry at a place, and the place after it. zlib compares the checksum."""
    begin = at
    kind, size, at = read_head(text, at)
    end = begin + entry_size(size)
    inflater = zlib.decompressobj()
    contents = inflater.decompress(memoryview(text)[at:end])
    if not inflater.eof or inflater.unused_data or len(contents) != size or text[at : at + 2] != b"\x78\x01":
        raise Differs(f"an entry of {size} bytes inflates to {len(contents)}, and does not end after {end - begin} bytes")
    return Content(kind, contents), end


def read_entries(text: bytes) -> Iterator[Content]:
    """The objects of entries that stand one after another."""
    at = 0
    while at < len(text):
        try:
            content, at = read_entry(text, at)
        except (zlib.error, IndexError) as error:
            raise Differs(f"the entry at byte {at} of {len(text)}: {error}") from None
        yield content


def pack_of(entries: Sequence[bytes], count: int) -> bytes:
    """The pack of so many entries."""
    text = HEAD.pack(b"PACK", 2, count) + b"".join(entries)
    return text + hashlib.sha1(text).digest()


def pack_of_contents(contents: Iterable[Content]) -> bytes:
    """The pack of these objects as zlib writes it."""
    entries = [written_head(it.kind, len(it.data)) + zlib.compress(it.data, 1) for it in contents]
    return pack_of(entries, len(entries))
