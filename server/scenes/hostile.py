"""Scenes of peers that send what no git sends, beside those of attacks.py: what has no end, what costs much, and who is not who they say."""
from __future__ import annotations

import hashlib
import os
import socket
import struct
from typing import Iterator, List, Tuple

from attacks import MIB, asks, command, entry, varint, whole
from operating import answers, frame
from served import ServerRoom, everything, line, over_http


def copies(size: int, times: int) -> bytes:
    """A delta that copies a base of so many bytes, over and over."""
    chunk = 0xFFFFFF
    out = b""
    for at in range(0, size, chunk):
        part = min(chunk, size - at)
        out += bytes((0xFF,)) + struct.pack("<I", at) + struct.pack("<I", part)[:3]
    return varint(size) + varint(size * times) + out * times


def behind(distance: int) -> bytes:
    """How far before an entry its base begins, as packs write it."""
    out = [distance & 0x7F]
    while distance > 0x7F:
        distance = (distance >> 7) - 1
        out.append(distance & 0x7F | 0x80)
    return bytes(reversed(out))


def bases_and_deltas(bases: List[bytes], deltas: List[bytes], count: int) -> bytes:
    """A pack of bases, and of so many deltas, each against the next base in turn."""
    starts, parts, place = [], [], 12
    for base in bases:
        starts.append(place)
        parts.append(entry(3, len(base), base, level=9))
        place += len(parts[-1])
    for at in range(count):
        delta = deltas[at % len(deltas)]
        parts.append(entry(6, len(delta), delta, behind(place - starts[at % len(bases)]), level=9))
        place += len(parts[-1])
    return whole(len(bases) + count, b"".join(parts))


def processor_seconds(room: ServerRoom) -> float:
    """How long the server has had a processor, whatever else the machine does."""
    with open(f"/proc/{room.process.pid}/stat", encoding="ascii") as file:
        words = file.read().rpartition(")")[2].split()
    return (int(words[11]) + int(words[12])) / os.sysconf("SC_CLK_TCK")


@over_http
def deltas_that_cost_much(room: ServerRoom) -> None:
    """Small packs whose deltas read, or make, the same large objects again and again: they cost seconds at most."""
    room.pushed()
    room.serverd("limits", room.served, "quota", "60M")
    before = room.tenant_refs()
    zeros, ones = bytes(28 * MIB), b"1" * (28 * MIB)
    small = [varint(len(zeros)) + varint(2) + bytes((2,)) + b"%c%c" % (at & 127, at >> 7 & 127) for at in range(2000)]
    for what, packed, says in (
        ("one base, read 2,000 times", bases_and_deltas([zeros], small, 2000), b"neither has the repository"),
        ("two bases in turns", bases_and_deltas([zeros, ones], small, 2000), b"more work"),
        ("one object, made 2,000 times", bases_and_deltas([zeros], [copies(len(zeros), 1)], 2000), b"more work"),
    ):
        began = processor_seconds(room)
        told = room.post("git-receive-pack", command() + packed)
        took = processor_seconds(room) - began
        assert says in told and took < 30, (what, took, told[-300:])
        asks(room, before)
    assert room.memory() < 900 * MIB, room.memory() // MIB


def deep(count: int) -> Iterator[bytes]:
    """The entries of a chain of deltas, each of which waits for the next one's result."""
    text_before = b"x" * 64
    for at in range(count):
        text_after = b"%08d" % at + text_before[8:]
        delta = varint(64) + varint(64) + bytes((8,)) + text_after[:8] + bytes((0x91, 8, 56))
        name = hashlib.sha1(b"blob 64\0" + text_before).digest()
        yield entry(7, len(delta), delta, name)
        text_before = text_after


@over_http
def chains_and_cycles_of_deltas(room: ServerRoom) -> None:
    """Deltas of deltas to any depth, in the worst order, and deltas that wait for one another."""
    room.pushed()
    before = room.tenant_refs()
    base = entry(3, 64, b"x" * 64)
    backwards = list(deep(20000))[::-1]
    delta = varint(4) + varint(4) + bytes((0x90, 4))
    names = [hashlib.sha1(b"%d" % at).digest() for at in range(3)]
    circle = b"".join(entry(7, len(delta), delta, name) for name in names)
    itself = entry(6, len(delta), delta, b"\0")
    for what, packed, says in (
        ("a deep chain", whole(20001, b"".join(backwards) + base), b"chain of deltas is too long"),
        ("a chain without its base", whole(4000, b"".join(backwards[-4000:])), b"not here"),
        ("a circle", whole(3, circle), b"not here"), ("a delta of itself", whole(1, itself), b"no entry begins"),
        ("a base after the end", whole(1, entry(6, len(delta), delta, b"\xff\xff\xff\xff\xff\xff\xff\x7f")), b"before the pack"),
    ):
        told = room.post("git-receive-pack", command() + packed)
        assert says in told, (what, told[-300:])
        asks(room, before)
    assert room.memory() < 500 * MIB, room.memory() // MIB


def sent(room: ServerRoom, parts: Iterator[bytes]) -> Tuple[bytes, int]:
    """What comes back for parts that are sent one after another, and how many bytes the server took."""
    taken = 0
    with room.socket() as connection:
        try:
            for part in parts:
                connection.sendall(part)
                taken += len(part)
            connection.shutdown(socket.SHUT_WR)
        except (BrokenPipeError, ConnectionResetError):
            pass
        return everything(connection), taken


def repeated(first: bytes, part: bytes, times: int) -> Iterator[bytes]:
    """Bytes, and others again and again."""
    yield first
    for _ in range(times):
        yield part


@over_http
def heads_without_end(room: ServerRoom) -> None:
    """Lines and heads that do not end are refused after some kilobytes, and cost no memory."""
    room.pushed()
    before = room.tenant_refs()
    get = b"GET /acme/site.git/info/refs?service=git-upload-pack HTTP/1.1\r\nHost: x\r\n" + room.basic()
    post = (b"POST /acme/site.git/git-upload-pack HTTP/1.1\r\nHost: x\r\nTransfer-Encoding: chunked\r\n"
            b"Content-Type: application/x-git-upload-pack-request\r\n") + room.basic() + b"\r\n"
    ask = b"14\r\n0014command=ls-refs\n\r\n4\r\n0000\r\n"
    for what, first, part, most in (
        ("a path", b"GET /", b"a" * 65536, 4 * MIB), ("a header", get + b"X: ", b"a" * 65536, 4 * MIB),
        ("many headers", get, b"X: y\r\n" * 10000, 4 * MIB), ("a query", b"GET /acme/site.git/info/refs?", b"service=&" * 8000, 4 * MIB),
        ("a chunk's extension", post + b"1;", b"a" * 65536, 4 * MIB), ("a chunk's size", post, b"0" * 65536, 4 * MIB),
        ("trailers", post + ask + b"0\r\n", b"X: y\r\n" * 10000, 4 * MIB),
    ):
        told, taken = sent(room, repeated(first, part, 1024))
        assert taken < most or b" 4" in told.split(b"\r\n")[0], (what, taken, told[:100])
        assert not told or told.startswith(b"HTTP/1.1 "), (what, told[:100])
        asks(room, before)
    assert room.memory() < 300 * MIB, room.memory() // MIB


@over_http
def lengths_that_lie(room: ServerRoom) -> None:
    """Bodies that are not as long as they say, or say it twice: the rest of one is never another user's request."""
    room.pushed()
    before = room.tenant_refs()
    body = line("command=ls-refs\n") + b"0000"
    head = (b"POST /acme/site.git/git-upload-pack HTTP/1.1\r\nHost: x\r\nGit-Protocol: version=2\r\n"
            b"Content-Type: application/x-git-upload-pack-request\r\n") + room.basic()
    hidden = b"GET /acme/site.git/info/refs?service=git-upload-pack HTTP/1.1\r\nHost: x\r\nConnection: close\r\n\r\n"
    for lengths in (b"Content-Length: -1\r\n", b"Content-Length: 0x18\r\n", b"Content-Length: +24\r\n", b"Content-Length: 24, 25\r\n",
                    b"Content-Length: 24\r\nContent-Length: 25\r\n", b"Content-Length: 99999999999999999999\r\n",
                    b"Transfer-Encoding: gzip\r\n", b"Transfer-Encoding: chunked\r\nTransfer-Encoding: chunked\r\n",
                    b"Transfer-Encoding: identity, chunked\r\n"):
        told, _ = sent(room, iter([head + lengths + b"\r\n" + body + hidden]))
        assert told.split(b" ")[1] in (b"400", b"501", b"411"), (lengths, told[:200])
        assert told.count(b"HTTP/1.1") == 1, (lengths, told)
        asks(room, before)
    for lengths, statuses in ((b"Content-Length: 24\r\n", [b"200", b"401"]), (b"Content-Length: 10\r\n", [b"200", b"400"]),
                              (b"Content-Length: 0\r\n", [b"200", b"400"]), (b"Content-Length: \r\n", [b"200", b"400"])):
        told, _ = sent(room, iter([head + lengths + b"\r\n" + body + hidden]))
        assert [it.split(b" ")[1] for it in told.split(b"HTTP/1.1")[1:]] == statuses, (lengths, told)
        assert told.count(b"refs/heads/main") <= 1, told
        asks(room, before)
    both = b"Content-Length: 5\r\nTransfer-Encoding: chunked\r\n\r\n"
    told, _ = sent(room, iter([head + both + b"%x\r\n%b\r\n0\r\n\r\n" % (len(body), body) + hidden]))
    assert told.count(b"refs/heads/main") <= 1 and told.count(b"HTTP/1.1") <= 2, told
    told, _ = sent(room, iter([head + b"Content-Length: 4611686018427387904\r\n\r\n" + body]))
    assert b"refs/heads/main" not in told, told
    asks(room, before)
    assert room.memory() < 300 * MIB, room.memory() // MIB


@over_http
def many_wants_and_haves(room: ServerRoom) -> None:
    """A fetch that names a hundred thousand objects costs seconds at most, whether or not they are there."""
    site = room.pushed()
    before, main = room.tenant_refs(), room.name(site, "main")
    wants = line(f"want {main}\n") * 100_000
    haves = b"".join(line("have " + hashlib.sha1(b"%d" % at).hexdigest() + "\n") for at in range(200_000))
    second = b"Git-Protocol: version=2\r\n"
    fetch = line("command=fetch\n") + b"0001"
    for body, head, says in ((wants + b"0000" + line("done\n"), b"", b"PACK"), (line(f"want {main}\n") + b"0000" + haves + line("done\n"), b"", b"PACK"),
                             (fetch + wants + line("done\n") + b"0000", second, b"PACK"),
                             (fetch + line(f"want {main}\n") + haves + line("done\n") + b"0000", second, b"PACK"),
                             (fetch + line("shallow " + "1" * 40 + "\n") * 100_000 + line(f"want {main}\n") + line("done\n") + b"0000", second, b"")):
        began = processor_seconds(room)
        told = room.post("git-upload-pack", body, head=head)
        assert says in told and processor_seconds(room) - began < 20, (body[:60], processor_seconds(room) - began, told[:300])
        asks(room, before)
    assert room.memory() < 500 * MIB, room.memory() // MIB


@over_http
def a_tenant_of_as_many_refs_as_it_may_have(room: ServerRoom) -> None:
    """They are listed, fetched and pushed beside, with bounded memory; one ref more is refused, by the socket and by a push."""
    site = room.pushed()
    refs = [b"reset refs/heads/b%d\nfrom refs/heads/main^0\n\n" % at for at in range(100_000)]
    with socket.socket(socket.AF_UNIX) as peer:
        peer.connect(os.path.join(room.served, "socket"))
        for count, told in ((100_000, (1, 25)), (65_533, (0, 0))):
            steps = [frame(1, "acme/site"), frame(2, "acme/site", b"feature force\n" + b"".join(refs[:count])), frame(3, "acme/site")]
            peer.sendall(b"".join(steps))
            found = answers(peer, 3)
            assert found[-1][:2] == told, (count, [it[:2] for it in found])
    assert len(room.tenant_refs()) == 65_536
    room.git("", "clone", "-q", "--single-branch", room.url(), "one")
    room.commit(site, "More", {"f": "x"})
    room.fails(site, "push", "-q", room.url(), "main:refs/heads/more", says="25")
    room.git(site, "push", "-q", room.url(), "main", ":refs/heads/b55555")
    assert len(room.tenant_refs()) == 65_535
    assert room.memory() < 600 * MIB, room.memory() // MIB
