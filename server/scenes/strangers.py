"""Scenes of who is not who they say: keys of others, wrong passwords, tenants of others; and of peers over ssh that are no git."""
from __future__ import annotations

import os
import re
import socket
import struct
import subprocess
import threading
from typing import Iterator, List, Tuple

from attacks import MIB, asks
from scenes.room import text
from served import ServerRoom, everything, over_http


def new_key(room: ServerRoom, name: str, kind: str = "ed25519") -> str:
    """The path of a new key."""
    subprocess.run(["ssh-keygen", "-q", "-t", kind, "-N", "", "-f", room.path(name)], check=True)
    return room.path(name)


def by_ssh(room: ServerRoom, key: str, login: str, command: str, data: bytes = b"0000") -> "subprocess.CompletedProcess[bytes]":
    """Runs a command over ssh with one key."""
    words = ["ssh", "-F", "none", "-i", key, "-o", "IdentitiesOnly=yes", "-o", "StrictHostKeyChecking=no", "-o", "UserKnownHostsFile=/dev/null",
             "-o", "LogLevel=ERROR", "-o", "BatchMode=yes", "-p", str(room.ssh[1]), f"{login}@{room.ssh[0]}", command]
    return subprocess.run(words, input=data, capture_output=True, env=room.environment, timeout=300)


UPLOAD, RECEIVE = "git-upload-pack '/acme/site.git'", "git-receive-pack '/acme/site.git'"


@over_http
def keys_of_others(room: ServerRoom) -> None:
    """A key lets its own user in, under its own name or git's, and nobody else."""
    room.pushed()
    before = room.tenant_refs()
    alice, bob, mallory = room.path("key"), new_key(room, "bob"), new_key(room, "mallory")
    room.serverd("user", room.served, "bob", "--key", bob + ".pub")
    for key, login, command, status in ((alice, "alice", UPLOAD, 0), (alice, "git", UPLOAD, 0), (bob, "bob", UPLOAD, 0), (bob, "git", UPLOAD, 0),
                                        (bob, "alice", UPLOAD, 255), (alice, "bob", UPLOAD, 255), (mallory, "alice", UPLOAD, 255),
                                        (mallory, "git", UPLOAD, 255), (alice, "nobody", UPLOAD, 255), (alice, "root", UPLOAD, 255),
                                        (bob, "git", RECEIVE, 1), (bob, "bob", "git-upload-pack '/acme/other.git'", 1)):
        done = by_ssh(room, key, login, command)
        assert done.returncode == status, (key, login, command, done)
        assert status != 255 or b"Permission denied" in done.stderr, done
    taken = room.run([room.server_program, "user", room.served, "bob", "--key", alice + ".pub"])
    assert taken.returncode == 1 and "is that of alice already" in text(taken.stderr), taken
    # The public half alone shows nothing.
    os.rename(alice + ".pub", room.path("public.pub"))
    done = by_ssh(room, room.path("public.pub"), "alice", UPLOAD)
    assert done.returncode == 255, done
    room.serverd("revoke", room.served, "bob")
    assert by_ssh(room, bob, "git", UPLOAD).returncode == 255
    asks(room, before)


def tries(room: ServerRoom, numbers: "Iterator[int]", told: List[bytes]) -> None:
    """Tries wrong passwords, one after another, three from each address of this machine."""
    import base64

    for number in numbers:
        user = ("alice", "bob", "nobody")[number % 3]
        credentials = base64.b64encode(f"{user}:wrong{number}".encode())
        source = (f"127.{1 + number // 3 // 250}.7.{1 + number // 3 % 250}", 0)
        with socket.create_connection(room.http, timeout=300, source_address=source) as peer:
            peer.sendall(b"GET /acme/site.git/info/refs?service=git-upload-pack HTTP/1.1\r\nHost: x\r\nConnection: close\r\n"
                         b"Authorization: Basic " + credentials + b"\r\n\r\n")
            told.append(everything(peer))


@over_http
def a_thousand_wrong_passwords(room: ServerRoom) -> None:
    """From hundreds of addresses at once: each is refused in the same words, or told to come again, and who knows the password is served meanwhile.

    GITPOOLD_WRONG says how many passwords are tried; without it, 60.
    """
    room.pushed()
    before, count = room.tenant_refs(), int(os.environ.get("GITPOOLD_WRONG", "60"))
    told: List[bytes] = []
    threads = [threading.Thread(target=tries, args=(room, iter(range(at, count, 30)), told)) for at in range(30)]
    for thread in threads:
        thread.start()
    while any(thread.is_alive() for thread in threads):
        asks(room, before)
        threads[0].join(1)
    for thread in threads:
        thread.join()
    answers = {re.sub(rb"\r\nDate: [^\r]*", b"", it) for it in told}
    assert len(told) == count and len(answers) <= 2, (len(told), answers)
    assert {it[:13] for it in answers} <= {b"HTTP/1.1 401 ", b"HTTP/1.1 503 "}, answers
    assert room.memory() < 300 * MIB, room.memory() // MIB
    asks(room, before)


def told_of(room: ServerRoom, tenant: str, who: bytes) -> List[bytes]:
    """All that a client is told of a tenant over http, without the tenant's name and the time."""
    found = []
    get = ("info/refs?service=git-upload-pack", "info/refs?service=git-receive-pack", "HEAD", "objects/info/packs")
    pages = ("", "/-/refs", "/-/log/main", "/-/tree/main:", "/-/raw/main:index.html", "/-/blob/main:index.html", "/-/commit/main", "/-/archive/main.tar")
    requests = [("GET", f"/{tenant}.git/{it}", b"") for it in get] + [("GET", f"/{tenant}{it}", b"Accept: text/html\r\n") for it in pages]
    requests += [("HEAD", f"/{tenant}{it}", b"Accept: text/html\r\n") for it in pages]
    for service, body in (("git-upload-pack", b"0014command=ls-refs\n0000"), ("git-receive-pack", b"0000")):
        kind = f"Content-Type: application/x-{service}-request\r\nContent-Length: {len(body)}\r\nGit-Protocol: version=2\r\n".encode()
        requests.append(("POST", f"/{tenant}.git/{service}", kind + b"\r\n" + body))
    for method, path, more in requests:
        head, _, body = more.partition(b"\r\n\r\n")
        ended = head + (b"\r\n" if body else b"")
        told = room.talk(f"{method} {path} HTTP/1.1\r\nHost: x\r\nConnection: close\r\n".encode() + who + ended + b"\r\n" + body)
        told = re.sub(rb"\r\nDate: [^\r]*", b"", told)
        found.append(f"{method} {path}: ".replace(tenant, "T").encode() + told.replace(tenant.encode(), b"T"))
    return found


@over_http
def tenants_of_others_in_every_way(room: ServerRoom) -> None:
    """Whatever is asked, a tenant of others answers as one that does not exist: byte for byte, over http, in pages and over ssh."""
    room.pushed()
    room.git("site", "push", "-q", room.url("covert/site"), "main")
    bob = new_key(room, "bob")
    room.serverd("user", room.served, "bob", "--key", bob + ".pub")
    for who in (b"", room.basic("bob")):
        theirs, nobodys = told_of(room, "covert/site", who), told_of(room, "covert/none", who)
        assert theirs == nobodys, [pair for pair in zip(theirs, nobodys) if pair[0] != pair[1]][:2]
        assert not any(b" 200 " in it.split(b"\r\n")[0] for it in theirs), theirs
    said = set()
    for tenant in ("covert/site", "covert/none", "covert//x", "../x", "covert/" + "a" * 200):
        for service in ("git-upload-pack", "git-receive-pack"):
            done = by_ssh(room, bob, "bob", f"{service} '/{tenant}.git'")
            said.add((done.returncode, done.stdout, done.stderr))
    assert len(said) == 1 and next(iter(said))[0] == 1, said
    listed = room.talk(b"GET / HTTP/1.1\r\nHost: x\r\nConnection: close\r\n" + room.basic("bob") + b"\r\n")
    assert b"acme/site" in listed and b"covert" not in listed, listed


def packet(payload: bytes, size: int = -1) -> bytes:
    """A packet of ssh before keys are exchanged, which may say another size than it has."""
    padding = 8 - (len(payload) + 5) % 8 + 4
    padding += 8 if padding < 4 else 0
    length = len(payload) + 1 + padding if size < 0 else size
    return struct.pack(">IB", length & 0xFFFFFFFF, padding) + payload + bytes(padding)


def noises() -> Iterator[Tuple[str, bytes]]:
    """What is sent to the port of ssh."""
    banner = b"SSH-2.0-x\r\n"
    kex = bytes((20,)) + bytes(16)
    yield "nothing", b""
    yield "a line without end", b"a" * 4 * MIB
    yield "lines without end", b"a\r\n" * MIB
    yield "http", b"GET / HTTP/1.1\r\nHost: x\r\n\r\n" * 100
    yield "an old version", b"SSH-1.5-x\r\n"
    yield "zeros", banner + bytes(2 * MIB)
    yield "a packet of 4 GB", banner + packet(kex, 0xFFFFFFFF) + b"x" * MIB
    yield "a packet of nothing", banner + packet(b"", 0)
    yield "lists of 4 GB", banner + packet(kex + struct.pack(">I", 0xFFFFFFF0) + b"a" * 100)
    yield "lists of many names", banner + packet(kex + (struct.pack(">I", 30000) + b"a," * 15000) + bytes(40))
    yield "no key exchange", banner + packet(bytes((21,))) * 1000
    yield "ignored packets", banner + packet(bytes((2,)) + struct.pack(">I", 4) + b"data") * 100_000
    yield "random bytes", banner + os.urandom(2 * MIB)


@over_http
def noise_to_ssh(room: ServerRoom) -> None:
    """A peer that speaks no ssh, or a false one, is left; memory does not grow with what it sends."""
    room.pushed()
    room.serverd("limits", room.served, "handshake", "3s")
    before = room.tenant_refs()
    for what, data in noises():
        with socket.create_connection(room.ssh, timeout=300) as peer:
            try:
                peer.sendall(data)
            except (BrokenPipeError, ConnectionResetError):
                pass
            told = everything(peer)
        assert len(told) < 4096 and b"PACK" not in told, (what, told[:100])
        asks(room, before)
    assert room.memory() < 300 * MIB, room.memory() // MIB


@over_http
def sessions_of_one_connection(room: ServerRoom) -> None:
    """One connection of ssh may have ten sessions; what a session is sent before its command is bounded."""
    room.pushed()
    before = room.tenant_refs()
    ssh = [*room.environment["GIT_SSH_COMMAND"].split(), "-p", str(room.ssh[1]), "-o", f"ControlPath={room.path('mux')}"]
    host = f"alice@{room.ssh[0]}"
    subprocess.run([*ssh, "-o", "ControlMaster=yes", "-N", "-f", host], env=room.environment, check=True)
    try:
        # Without the connection that is there, these have none.
        held = [subprocess.Popen([*ssh, "-o", "ProxyCommand=false", host, UPLOAD], stdin=subprocess.PIPE, stdout=subprocess.PIPE, stderr=subprocess.PIPE, env=room.environment)
                for _ in range(14)]
        heads = []
        for it in held:
            assert it.stdout
            heads.append(it.stdout.read(4))
        assert sum(1 for it in heads if it) == 10, heads
        for it in held:
            it.communicate(b"0000", timeout=300)
        many = subprocess.run([*ssh, "-o", "SendEnv=*", host, UPLOAD], input=b"0000", capture_output=True, timeout=300,
                              env=dict(room.environment, **{f"V{at}": "x" * 1000 for at in range(500)}, GIT_PROTOCOL="version=2:" * 3000))
        assert many.returncode in (0, 255), many
    finally:
        subprocess.run([*ssh, "-O", "exit", host], env=room.environment, stderr=subprocess.DEVNULL)
    asks(room, before)
    assert room.memory() < 300 * MIB, room.memory() // MIB
