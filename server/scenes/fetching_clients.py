"""Scenes of clients that fetch: what git shows its user of a fetch, and what clients that do not read, or ask again and again, cost the server."""
from __future__ import annotations

import os
import socket
import time
from typing import List, Tuple

from served import ServerRoom, line, once, over_http, scene, text

MIB = 1 << 20


def told(room: ServerRoom, *words: str) -> List[str]:
    """The lines of the server that git shows, of a command that has to end in 0."""
    done = room.run(["git", *words])
    assert done.returncode == 0, text(done.stderr)
    return [one.strip() for one in text(done.stderr).replace("\r", "\n").splitlines() if one.startswith("remote: ")]


@scene
def progress_of_fetches(room: ServerRoom) -> None:
    """Git shows the progress of a clone as that of a git server whose objects are not compressed again, and nothing where it was asked to be quiet."""
    site = room.pushed()
    count = len(room.objects(site))
    shown = told(room, "clone", "--progress", room.url(), "clone")
    assert shown == [
        f"remote: Enumerating objects: {count}, done.",
        f"remote: Counting objects: 100% ({count}/{count}), done.",
        f"remote: Total {count} (delta 0), reused 0 (delta 0), pack-reused 0",
    ], shown
    assert told(room, "clone", "-q", room.url(), "quiet") == []
    room.commit(site, "Another", {"c": "c\n"})
    room.git(site, "push", "-q", "pool", "main")
    shown = told(room, "-C", "clone", "fetch", "--progress")
    assert shown[-1] == "remote: Total 3 (delta 0), reused 0 (delta 0), pack-reused 0", shown
    room.git("clone", "merge", "-q", "--ff-only", "origin/main")
    room.same("clone", refs=room.refs(site, "refs/heads", "refs/tags"))


@scene
def refusals_of_fetches(room: ServerRoom) -> None:
    """Git shows the sentence for which a fetch is refused, and does not take it for another answer."""
    site = room.pushed()
    for words, says in (
        (["fetch", room.url(), "1" * 40], "remote error: upload-pack: not our ref " + "1" * 40),
        (["fetch", "--shallow-since=2033-01-01", room.url(), "main"], "remote error: no commits selected for shallow requests"),
        (["fetch", "--shallow-exclude=nowhere", room.url(), "main"], "remote error: git upload-pack: ambiguous deepen-not: nowhere"),
    ):
        said = room.fails(site, "-c", "fetch.writeCommitGraph=false", *words, says=says)
        assert "expected 'packfile'" not in said, said
    said = room.run(["git", "clone", "-q", "--filter=sparse:oid=" + "x" * 5000, room.url(), "refused"]).stderr.decode()
    assert "remote error: filter 'sparse:oid=xxx" in said and len(said) < 1000, said[:1000]
    longest = max(room.logged().splitlines(), key=len)
    assert len(longest) < 1000, longest[:1000]


@scene
def an_empty_tenant_is_advertised(room: ServerRoom) -> None:
    """A tenant without refs tells what it can do, and git takes it for an empty repository."""
    said = room.run(["git", "clone", room.url("acme/nothing"), "empty"])
    assert said.returncode == 0 and b"appear to have cloned an empty repository" in said.stderr, said
    if room.scheme == "http" and room.version < 2:
        head = (
            b"GET /acme/nothing.git/info/refs?service=git-upload-pack HTTP/1.1\r\nHost: x\r\nConnection: close\r\nGit-Protocol: version=%d\r\n"
            % room.version
        )
        answer = room.talk(head + room.basic() + b"\r\n")
        assert b" capabilities^{}\0multi_ack " in answer and b"0" * 40 in answer, answer


def many_refs(room: ServerRoom, count: int) -> None:
    """Gives the tenant so many refs whose names have nearly 1,000 bytes, by a stream."""
    tail = "/".join(["x" * 230] * 4)
    stream = ["commit refs/heads/main\ncommitter Ada <ada@example.org> 1700000000 +0000\ndata 2\nhi\nM 644 inline f\ndata 2\nf\n"]
    stream += [f"reset refs/heads/{at:05}/{tail}\nfrom refs/heads/main\n" for at in range(count)]
    done = room.run([*over_ssh(room), "import acme/site"], data="".join(stream).encode())
    assert done.returncode == 0, text(done.stderr)


def over_ssh(room: ServerRoom) -> List[str]:
    """The words before a command over ssh."""
    return [*room.environment["GIT_SSH_COMMAND"].split(), "-p", str(room.ssh[1]), f"alice@{room.ssh[0]}"]


def asking(room: ServerRoom, request: bytes) -> socket.socket:
    """A connection over which a request has gone, and whose answer nobody reads."""
    connection = socket.socket()
    connection.setsockopt(socket.SOL_SOCKET, socket.SO_RCVBUF, 1 << 14)
    connection.connect(room.http)
    connection.sendall(request)
    return connection


@over_http
def readers_of_refs_that_stop(room: ServerRoom) -> None:
    """60 clients of one user ask for ten megabytes of refs and read none of them, by each protocol; others are served."""
    many_refs(room, 10_000)
    before = room.tenant_refs()
    body = line("command=ls-refs\n") + b"0001" + line("peel\n") + line("ref-prefix refs/\n") + b"0000"
    listing = (
        b"POST /acme/site.git/git-upload-pack HTTP/1.1\r\nHost: x\r\nContent-Type: application/x-git-upload-pack-request\r\n"
        b"Git-Protocol: version=2\r\nContent-Length: %d\r\n%b\r\n%b" % (len(body), room.basic(), body)
    )
    adverts = [
        b"GET /acme/site.git/info/refs?service=%b HTTP/1.1\r\nHost: x\r\n%b\r\n" % (service, room.basic())
        for service in (b"git-upload-pack", b"git-receive-pack")
    ]
    had = room.memory()
    peers = []
    for _ in range(20):
        for request in (*adverts, listing):
            peers.append(asking(room, request))
    time.sleep(1)
    grown = (room.memory() - had) // MIB
    assert room.tenant_refs() == before
    assert grown < 200, f"60 clients take {grown} MB"
    for peer in peers:
        peer.close()


@scene
def lists_of_refs_are_bounded(room: ServerRoom) -> None:
    """Who asks for more refs than may wait for it is refused, and git shows why; then it is served."""
    site = room.pushed()
    for at in range(40):
        room.git(site, "update-ref", f"refs/heads/b{at}", "main")
    room.git(site, "push", "-q", room.url(), "refs/heads/b*:refs/heads/b*")
    before = room.tenant_refs()
    room.serverd("limits", room.served, "answer-bytes", "2K")
    says = "a limit is passed: as many bytes of answers wait until this user takes them as `answer-bytes` says"
    room.fails("", "ls-remote", room.url(), says=says)
    room.fails("", "clone", "-q", room.url(), "refused", says=says)
    room.fails(site, "push", room.url(), "main:refs/heads/other", says=says)
    room.serverd("limits", room.served, "answer-bytes", "default")
    assert room.tenant_refs() == before
    room.same(site)


@once
def what_a_client_has_is_asked_once(room: ServerRoom) -> None:
    """A fetch that tells the name of a large object 200 times takes no longer than others."""
    site = room.init("site")
    with open(room.path(site, "noise"), "wb") as file:
        file.write(os.urandom(16 * MIB))
    room.commit(site, "Noise")
    room.git(site, "push", "-q", room.url(), "main")
    blob, tree = room.name(site, "main:noise"), room.name(site, "main^{tree}")
    have = line(f"have {blob}\n")
    request = line(f"want {tree} multi_ack_detailed\n") + b"0000" + have * 200 + b"0000" + (line(f"have {blob}\n") + b"0000") * 20
    once = line(f"want {tree} multi_ack_detailed\n") + b"0000" + have + b"0000"
    alone, _ = taken(room, once)
    took, answer = taken(room, request)
    assert b"ACK " + blob.encode() + b" common" in answer, answer[:300]
    assert took < 5 + 20 * alone, f"it took {took:.1f} s, and a request that tells the name once {alone:.1f} s"


def taken(room: ServerRoom, request: bytes) -> Tuple[float, bytes]:
    """How many seconds a request to git-upload-pack takes, and its answer."""
    began = time.monotonic()
    if room.scheme == "http":
        answer = room.post("git-upload-pack", request)
    else:
        answer = room.run([*over_ssh(room), "git-upload-pack '/acme/site.git'"], data=request).stdout
    return time.monotonic() - began, answer
