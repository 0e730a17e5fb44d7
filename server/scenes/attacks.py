"""Scenes of peers that send what no git sends: a refusal in a sentence or a closed connection, nothing changed, memory bounded."""
from __future__ import annotations

import gzip
import hashlib
import os
import socket
import struct
import subprocess
import time
import zlib
from concurrent.futures import ThreadPoolExecutor
from typing import List, Sequence, Tuple

from served import ServerRoom, everything, line, once, over_http

KINDS = {"commit": 1, "tree": 2, "blob": 3, "tag": 4}
MIB = 1 << 20


def entry(kind: int, size: int, contents: bytes, base: bytes = b"", level: int = 1) -> bytes:
    """An entry of a pack, which says that it has so many bytes."""
    first, size = kind << 4 | size & 15, size >> 4
    head = bytearray()
    while size:
        head.append(first | 0x80)
        first, size = size & 0x7F, size >> 7
    head.append(first)
    return bytes(head) + base + zlib.compress(contents, level)


def whole(count: int, entries: bytes) -> bytes:
    """A pack with its head and digest."""
    data = b"PACK" + struct.pack(">II", 2, count) + entries
    return data + hashlib.sha1(data).digest()


def pack(objects: Sequence[Tuple[str, bytes]]) -> bytes:
    """A pack of objects."""
    return whole(len(objects), b"".join(entry(KINDS[kind], len(contents), contents) for kind, contents in objects))


def command(old: bytes = b"0" * 40, new: bytes = b"1" * 40, ref: bytes = b"refs/heads/x",
            can: bytes = b"report-status side-band-64k") -> bytes:
    """The one command of a push, and the flush after it."""
    return line(b"%b %b %b\0%b" % (old, new, ref, can)) + b"0000"


def asks(room: ServerRoom, before: "dict[str, str]") -> None:
    """Asks that the server lives, and that the tenant is as it was."""
    assert room.process.poll() is None, room.logged()[-2000:]
    assert room.tenant_refs() == before


@over_http
def packs_that_lie(room: ServerRoom) -> None:
    room.pushed()
    before, blob = room.tenant_refs(), b"some contents\n"
    name, other = hashlib.sha1(b"blob 14\0" + blob).digest(), b"o" * 20
    delta = bytes((14, 14, 0x90, 14))
    for what, packed, says in (
        ("nothing", b"", b"cut off"),
        ("half a head", b"PACK\0\0", b"cut off"),
        ("half an entry", whole(1, entry(3, 14, blob))[:30], b"cut off"),
        ("a wrong digest", whole(1, entry(3, 14, blob))[:-1] + b"x", b"digest"),
        ("a smaller size", whole(1, entry(3, 13, blob)), b"another size"),
        ("a larger size", whole(1, entry(3, 15, blob)), b"another size"),
        ("a huge size", whole(1, entry(3, 1 << 45, blob)), b"more than"),
        ("4 billion objects", whole(0xFFFFFFFF, b""), b"more objects"),
        ("a cycle", whole(2, entry(7, 4, delta, name) + entry(7, 4, delta, other)), b"not here"),
        ("a delta of itself", whole(1, entry(6, 4, delta, b"\0")), b"no entry begins"),
        ("an object that is not theirs", whole(1, entry(3, 14, blob)), b"neither has the repository"),
        ("bytes after the end", whole(1, entry(3, 14, blob)) + b"x", b"after its end"),
    ):
        told = room.post("git-receive-pack", command() + packed)
        assert says in told, (what, told[-300:])
        asks(room, before)


@over_http
def another_tenants_objects(room: ServerRoom) -> None:
    """A push may not build on objects that only another tenant has, and is told the same as of objects that nobody has."""
    site = room.pushed()
    other = room.init("other")
    room.commit(other, "Secret", {"secret": "s\n"})
    room.git(other, "push", "-q", room.url("acme/other"), "main")
    before = room.tenant_refs()
    people = b"author A <a@b> 1 +0000\ncommitter A <a@b> 1 +0000\n"
    said = []
    theirs = (room.name(other, "main^{tree}"), room.name(other, "main:secret"), room.name(other, "main"))
    nobodys = ("5" * 40, "6" * 40, "7" * 40)
    for tree, blob, parent in (theirs, nobodys):
        mine = b"100644 f\0" + bytes.fromhex(blob)
        mine_name = hashlib.sha1(b"tree %d\0" % len(mine) + mine).hexdigest()
        cases: List[Tuple[bytes, List[Tuple[str, bytes]]]] = [
            (b"tree %b\n%b\nm\n" % (tree.encode(), people), []),
            (b"tree %b\n%b\nm\n" % (mine_name.encode(), people), [("tree", mine)]),
            (b"tree %b\nparent %b\n%b\nm\n" % (room.name(site, "main^{tree}").encode(), parent.encode(), people), []),
            (b"tree %b\nparent %b\nparent %b\n%b\nm\n" % (room.name(site, "main^{tree}").encode(), room.name(site, "main").encode(),
                                                          parent.encode(), people), []),
        ]
        for commit, objects in cases:
            name = hashlib.sha1(b"commit %d\0" % len(commit) + commit).hexdigest().encode()
            told = room.post("git-receive-pack", command(new=name) + pack([("commit", commit), *objects]))
            assert b"not here" in told, told[-300:]
            for word in (tree, blob, parent, name.decode(), name.decode()[:12], mine_name):
                told = told.replace(word.encode(), b"N")
            said.append(told.partition(b"\r\n\r\n")[2])
    assert said[:4] == said[4:], said
    for word in (room.name(other, "main"), "7" * 40):
        told = room.post("git-receive-pack", command(new=word.encode()) + pack([]))
        assert b"neither has the repository" in told, told
    asks(room, before)


@over_http
def bombs(room: ServerRoom) -> None:
    """A pack of 0.8 MB that would inflate to 700, in one object, in several, and by deltas; and a gzip bomb around a request."""
    room.pushed()
    before = room.tenant_refs()
    zeros = bytes(63 * MIB)
    one = zlib.compress(zeros, 9)
    told = room.post("git-receive-pack", command() + whole(1, entry(3, 700 * MIB, b"")[:-8] + one))
    assert b"more than" in told, told[-300:]
    several = whole(11, b"".join(entry(3, len(zeros), zeros[:-1] + bytes((at,)), level=9) for at in range(11)))
    told = room.post("git-receive-pack", command() + several)
    assert b"neither has the repository" in told or b"limit" in told, told[-300:]
    # A thousand copies of 16 MB of one object.
    delta = varint(len(zeros)) + varint(1000 * 0xFF0000) + bytes((0x80 | 0x40, 0xFF)) * 1000
    base = hashlib.sha1(b"blob %d\0" % len(zeros) + zeros).digest()
    told = room.post("git-receive-pack", command() + whole(2, entry(3, len(zeros), zeros) + entry(7, len(delta), delta, base)))
    assert b"more than" in told, told[-300:]
    bomb = gzip.compress(bytes(200 * MIB), 9)
    for service in ("git-upload-pack", "git-receive-pack"):
        told = room.post(service, bomb, head=b"Content-Encoding: gzip\r\n")
        assert b"200 OK" not in told or b"ERR" in told, told[:300]
    valid = gzip.compress(line("command=ls-refs\n") + b"0001" + line("ref-prefix " + "a" * 60000 + "\n") * 3000 + b"0000", 9)
    told = room.post("git-upload-pack", valid, head=b"Content-Encoding: gzip\r\nGit-Protocol: version=2\r\n")
    assert b"400" in told.split(b"\r\n")[0], told[:300]
    asks(room, before)
    assert room.memory() < 900 * MIB, room.memory() // MIB


def varint(number: int) -> bytes:
    """A number as deltas write it."""
    out = bytearray()
    while number > 0x7F:
        out.append(number & 0x7F | 0x80)
        number >>= 7
    out.append(number)
    return bytes(out)


@over_http
def trees_that_unfold(room: ServerRoom) -> None:
    """Forty trees, each of which has the one before it twice, would be 2^40 files."""
    room.pushed()
    before = room.tenant_refs()
    objects: List[Tuple[str, bytes]] = [("blob", b"x")]
    name = hashlib.sha1(b"blob 1\0x").digest()
    mode = b"100644"
    for _ in range(40):
        tree = mode + b" a\0" + name + mode + b" b\0" + name
        objects.append(("tree", tree))
        name, mode = hashlib.sha1(b"tree %d\0" % len(tree) + tree).digest(), b"40000"
    commit = b"tree %b\nauthor A <a@b> 1 +0000\ncommitter A <a@b> 1 +0000\n\nm\n" % name.hex().encode()
    objects.append(("commit", commit))
    new = hashlib.sha1(b"commit %d\0" % len(commit) + commit).hexdigest().encode()
    told = room.post("git-receive-pack", command(new=new) + pack(objects))
    assert b"1,048,576 files" in told, told[-300:]
    asks(room, before)


@over_http
def requests_of_another_form(room: ServerRoom) -> None:
    site = room.pushed()
    second = b"Git-Protocol: version=2\r\n"
    before, main = room.tenant_refs(), room.name(site, "main").encode()
    want = line(b"want %b side-band-64k ofs-delta\n" % main)
    for service, body, head, says in (
        ("git-upload-pack", b"zzzz", b"", b"no pkt-line"),
        ("git-upload-pack", b"0003", b"", b"no pkt-line"),
        ("git-upload-pack", b"fff5" + b"x" * 65521, b"", b"no pkt-line"),
        ("git-upload-pack", line("want " + "0" * 40) + b"0000" + line("done"), b"", b"not our ref"),
        ("git-upload-pack", line("want xyz") + b"0000", b"", b"malformed want"),
        ("git-upload-pack", want + line("deepen -1") + b"0000", b"", b"malformed deepen"),
        ("git-upload-pack", want + line("deepen 99999999999999999999") + b"0000", b"", b"malformed deepen"),
        ("git-upload-pack", want + line("filter sparse:path=x") + b"0000", b"", b"not supported"),
        ("git-upload-pack", want + line("filter " + "combine:" + "tree:0+" * 5000 + "tree:0") + b"0000", b"", b"combines more"),
        ("git-upload-pack", want + b"0000" + line("hello"), b"", b"expected SHA1 list"),
        ("git-upload-pack", line("command=ls-refs\n") + b"0001" + line("nonsense\n") + b"0000", second, b"does not know"),
        ("git-upload-pack", line("command=rm\n") + b"0000", second, b"is not served"),
        ("git-upload-pack", line("command=fetch\n") + line("object-format=sha256\n") + b"0000", second, b""),
        ("git-upload-pack", line("command=fetch\n") + b"0001" + line("want-ref refs/heads/main\n") + b"0000", second,
         b"is not served"),
        ("git-receive-pack", b"zzzz", b"", b"no pkt-line"),
        ("git-receive-pack", line("hello") + b"0000", b"", b"malformed line"),
        ("git-receive-pack", line(b"%b %b refs/heads/x\0object-format=sha256" % (b"0" * 40, main)) + b"0000", b"", b"sha1 alone"),
        ("git-receive-pack", line("push-cert\0x"), b"", b"signed pushes"),
        ("git-receive-pack", command()[:20], b"", b""),
    ):
        told = room.post(service, body, head=head)
        assert told and says in told, (service, body[:80], told[-300:])
        asks(room, before)


@over_http
def refs_that_git_forbids(room: ServerRoom) -> None:
    site = room.pushed()
    before, main = room.tenant_refs(), room.name(site, "main").encode()
    for ref in (b"refs/heads/../x", b"refs/heads/a..b", b"HEAD", b"refs/heads/a b", b"refs/heads/x.lock", b"../x", b"refs/heads/\x01",
                b"refs/", b"refs/namespaces/a/refs/heads/b", b"refs/heads/" + b"a" * 2000, b"refs/heads/a\nrefs/heads/b", b"",
                b"refs/heads/\xff\x7f"):
        told = room.post("git-receive-pack", command(new=main, ref=ref) + pack([]))
        assert b"ng " in told or b"ERR" in told, (ref, told[-300:])
        asks(room, before)
    twice = line(b"%b %b refs/heads/x\0report-status" % (b"0" * 40, main)) + line(b"%b %b refs/heads/x" % (b"0" * 40, main)) + b"0000"
    told = room.post("git-receive-pack", twice + pack([]))
    assert b"ok refs/heads/x" in told and b"ng refs/heads/x fetch first" in told, told
    before["refs/heads/x"] = main.decode()
    further = b"".join(line(b"%b %b refs/heads/b%d" % (b"0" * 40, main, at)) for at in range(1, 100_000))
    many = command(new=main, ref=b"refs/heads/b0")[:-4] + further
    told = room.post("git-receive-pack", many + b"0000" + pack([]))
    assert b"more than 65536 refs" in told, told[-300:]
    asks(room, before)


@over_http
def http_of_another_form(room: ServerRoom) -> None:
    site = room.pushed()
    before, main = room.tenant_refs(), room.name(site, "main").encode()
    request = b"GET /acme/site.git/info/refs?service=git-upload-pack HTTP/1.1\r\nHost: x\r\nConnection: close\r\n"
    for head, statuses in (
        (b"X: " + b"a" * (2 * MIB) + b"\r\n", (b"431",)),
        (b"Authorization: Basic !!!\r\n", (b"401",)), (b"Authorization: Bearer x\r\n", (b"401",)),
        (b"Git-Protocol: " + b"version=2:" * 2000 + b"\r\n" + room.basic(), (b"200", b"431")), (room.basic(), (b"200",)),
        (b"Git-Protocol: version=99\r\n" + room.basic(), (b"200",)),
    ):
        told = room.talk(request + head + b"\r\n")
        assert told.split(b" ")[1] in statuses, (head[:50], told[:200])
    asked = b"?service=git-upload-pack"
    for path, status in (
        (b"/acme/site.git/HEAD", b"403"), (b"/acme/site.git/objects/info/packs", b"403"), (b"/acme/site.git/info/refs", b"403"),
        (b"/acme/site.git/info/refs?service=git-shell", b"403"), (b"/../../etc/passwd", b"404"), (b"/", b"200"), (b"/%2e%2e/x", b"404"),
        (b"/healthz", b"200"), (b"/metrics", b"200"), (b"/acme/../acme/site.git/info/refs" + asked, b"404"),
        (b"/acme%2f..%2fsite.git/info/refs" + asked, b"404"), (b"/acme/site%00.git/info/refs" + asked, b"404"),
    ):
        told = room.talk(b"GET %b HTTP/1.1\r\nHost: x\r\nConnection: close\r\n%b\r\n" % (path, room.basic()))
        assert told.split(b" ")[1] == status, (path, told[:200])
    told = room.talk(b"POST /acme/site.git/info/refs%b HTTP/1.1\r\nHost: x\r\nContent-Length: 0\r\nConnection: close\r\n%b\r\n"
                     % (asked, room.basic()))
    assert b" 405 " in told, told
    body = line(b"want %b\n" % main) + b"0000" + line("done\n")
    told = room.talk(b"POST /acme/site.git/git-upload-pack HTTP/1.1\r\nHost: x\r\nConnection: close\r\nContent-Length: %d\r\n%b\r\n%b"
                     % (len(body), room.basic(), body))
    assert b" 415 " in told, told
    assert b"PACK" in room.post("git-upload-pack", body)
    assert b"400" in room.post("git-upload-pack", body, head=b"Content-Encoding: gzip\r\n").split(b"\r\n")[0]
    assert b"400" in room.post("git-upload-pack", body, head=b"Content-Encoding: br\r\n").split(b"\r\n")[0]
    assert b"400" in room.post("git-upload-pack", body, head=b"Content-Length: 5\r\n").split(b"\r\n")[0]
    half = half_sent(room, body, len(body) + 100)
    assert b"PACK" not in half, half
    chunked = (b"POST /acme/site.git/git-upload-pack HTTP/1.1\r\nHost: x\r\nConnection: close\r\nTransfer-Encoding: chunked\r\n"
               b"Content-Type: application/x-git-upload-pack-request\r\nExpect: 100-continue\r\n" + room.basic() + b"\r\n")
    chunks = b"".join(b"%x\r\n%b\r\n" % (1, body[at : at + 1]) for at in range(len(body))) + b"0\r\n\r\n"
    told = room.talk(chunked + chunks)
    assert b"100 Continue" in told and b"PACK" in told, told[:300]
    assert b"PACK" not in ended(room, chunked + b"ffffffffffffffff\r\nxx")
    asks(room, before)


def half_sent(room: ServerRoom, body: bytes, length: int) -> bytes:
    """What comes back where a request says that it is longer than it is, and ends."""
    return ended(room, b"POST /acme/site.git/git-upload-pack HTTP/1.1\r\nHost: x\r\nContent-Type: application/x-git-upload-pack-request\r\n"
                 b"Content-Length: %d\r\n%b\r\n%b" % (length, room.basic(), body))


def ended(room: ServerRoom, data: bytes) -> bytes:
    """What comes back for bytes after which the peer ends its side."""
    with room.socket() as connection:
        connection.sendall(data)
        connection.shutdown(socket.SHUT_WR)
        return everything(connection)


@once
def silent_peers(room: ServerRoom) -> None:
    """A peer that says nothing, or takes nothing, is left within the operator's limits, and others are served meanwhile."""
    site = room.pushed()
    before = room.tenant_refs()
    for name, value in (("handshake", "10s"), ("idle", "10s")):
        room.serverd("limits", room.served, name, value)
    room.stop()
    room.start()
    room.git(site, "remote", "set-url", "pool", room.url())
    peers = [socket.create_connection(address, timeout=300) for address in (room.http, room.ssh) for _ in range(3)]
    peers[0].sendall(b"GET /acme")
    peers[1].sendall(b"POST /acme/site.git/git-receive-pack HTTP/1.1\r\nHost: x\r\nContent-Length: 1000\r\n"
                     b"Content-Type: application/x-git-receive-pack-request\r\n" + room.basic() + b"\r\n0000")
    peers[2].sendall(b"POST /acme/site.git/git-upload-pack HTTP/1.1\r\nHost: x\r\nContent-Length: 1000\r\n"
                     b"Content-Type: application/x-git-upload-pack-request\r\n" + room.basic() + b"\r\n0000")
    peers[3].sendall(b"SSH-2.0-x\r\n")
    began = time.monotonic()
    with ThreadPoolExecutor(len(peers)) as readers:
        ends = [readers.submit(ends_at, peer) for peer in peers]
        asks(room, before)
        took = max(it.result() for it in ends) - began
    assert took < 60, took
    asks(room, before)


def ends_at(peer: socket.socket) -> float:
    """When the server ends a connection."""
    with peer:
        everything(peer)
    return time.monotonic()


@over_http
def readers_that_stop(room: ServerRoom) -> None:
    """Clients of one user that ask for a large pack and read none of it take no more memory than `answer-bytes` says, and others are served."""
    site = room.init("site")
    with open(room.path(site, "noise"), "wb") as file:
        file.write(os.urandom(48 * MIB))
    room.commit(site, "Noise")
    room.git(site, "push", "-q", room.url(), "main")
    before, main = room.tenant_refs(), room.name(site, "main").encode()
    body = line(b"want %b side-band-64k\n" % main) + b"0000" + line("done\n")
    peers = []
    for _ in range(24):
        peer = room.socket()
        peer.sendall(b"POST /acme/site.git/git-upload-pack HTTP/1.1\r\nHost: x\r\nContent-Type: application/x-git-upload-pack-request\r\n"
                     b"Content-Length: %d\r\n%b\r\n%b" % (len(body), room.basic(), body))
        peers.append(peer)
    time.sleep(2)
    asks(room, before)
    assert room.memory() < 750 * MIB, room.memory() // MIB
    room.git("", "clone", "-q", room.url(user="bob"), room.path("others"))
    assert room.name("others", "HEAD").encode() == main
    for peer in peers:
        peer.close()
    room.git("", "clone", "-q", room.url(), room.path("again"))
    assert room.name("again", "HEAD").encode() == main


@once
def words_of_ssh(room: ServerRoom) -> None:
    room.pushed()
    before = room.tenant_refs()
    words = room.environment["GIT_SSH_COMMAND"].split() + ["-p", str(room.ssh[1]), f"alice@{room.ssh[0]}"]
    for command_line, status in (
        ("git-upload-pack '/acme/site.git'", 0), ("git upload-pack 'acme/site'", 0), ("git-upload-pack /acme/site", 0),
        ("git-upload-pack '/acme/site.git", 2), ("git-upload-pack '/acme/site.git' x", 2), ("git-upload-pack '/acme/site.git'; id", 2),
        ("git-upload-pack \"/acme/site.git\"", 2), ("git-upload-pack '/acme/'\\''site'", 1), ("git-upload-pack '/acme/'\\!'site'", 1),
        ("git-upload-pack --strict '/acme/site.git'", 2), ("git-upload-pack", 2), ("git-upload-pack ", 2), ("git-upload-pack ''", 1),
        ("git-upload-pack '/acme/../site'", 1), ("git-upload-pack $(id)", 2), ("git-upload-pack `id`", 2), ("git-shell", 2),
        ("sh -c id", 2),
        ("git-upload-archive '/acme/site.git'", 2), ("git-upload-pack '/acme/site.git'\n", 2), ("git-upload-pack '" + "a" * 5000 + "'", 2),
        ("git-upload-pack '/acme/site.git\0'", 2), ("", 1),
    ):
        if "\0" in command_line:
            continue
        all_words = [*words, command_line] if command_line else words
        done = subprocess.run(all_words, input=b"0000", capture_output=True, env=room.environment, timeout=300)
        assert done.returncode == status, (command_line[:60], done.returncode, done.stdout[:100], done.stderr[:300])
        assert b"uid=" not in done.stdout + done.stderr
    for more in (["-L", "0:127.0.0.1:1", "-N", "-o", "ExitOnForwardFailure=yes", "-R", "0:127.0.0.1:1"], ["-s", "sftp"]):
        done = subprocess.run([*words[:-1], *more[:-2], *more[-2:], words[-1]] if "-N" in more else [*words, "-s", "sftp"], input=b"",
                              capture_output=True, env=room.environment, timeout=300)
        assert done.returncode != 0, done
    asks(room, before)


@over_http
def wrong_passwords(room: ServerRoom) -> None:
    """Guesses are answered by 401, and slowed down; a user with the right password is served meanwhile."""
    room.pushed()
    before = room.tenant_refs()
    wrong = b"Authorization: Basic YWxpY2U6d3Jvbmc=\r\n"
    request = b"GET /acme/site.git/info/refs?service=git-upload-pack HTTP/1.1\r\nHost: x\r\nConnection: close\r\n"
    for _ in range(3):
        told = room.talk(request + wrong + b"\r\n")
        assert told.startswith(b"HTTP/1.1 401 ") and b"www-authenticate: basic" in told.lower(), told
    asks(room, before)
