"""Scenes of clients that are libraries, without git: libgit2, dulwich and JGit. What they did is compared with what git sees.

git closes its side of a connection over ssh as soon as it has sent a pack. These keep it open until they have the report.
"""
from __future__ import annotations

import contextlib
import os
import select
import subprocess
import time
from typing import IO, Dict, Iterator, List, Sequence, Tuple

from attacks import command, entry, pack, whole
from refused import commit_of, stored
from served import PASSWORDS, ServerRoom, line, once, over_http

HERE = os.path.dirname(os.path.realpath(__file__))
JARS = [f"/usr/share/java/{it}.jar" for it in ("org.eclipse.jgit", "jsch", "slf4j-api", "slf4j-nop", "javaewah")]
# How long a client may take for a task, on a machine that is busy. A server that waits for the client to close its side takes 60 seconds.
PATIENCE = 50


class Library:
    """A library's client, which does one task after another."""

    def __init__(self, room: ServerRoom, words: Sequence[str]):
        self._room = room
        self._errors = open(room.path("library"), "w+b")
        self._process = subprocess.Popen(
            [*words, room.path("pem"), PASSWORDS["alice"]],
            stdin=subprocess.PIPE,
            stdout=subprocess.PIPE,
            stderr=self._errors,
            env=room.environment,
            cwd=room.folder,
        )

    def close(self) -> None:
        """Ends the client."""
        self._process.kill()
        self._process.communicate()
        self._errors.close()

    def does(self, *words: str) -> List[List[str]]:
        """What comes of a task."""
        assert self._process.stdin
        self._process.stdin.write("\t".join(words).encode() + b"\n")
        self._process.stdin.flush()
        until = time.monotonic() + PATIENCE
        told = [it.split("\t") for it in self._lines(until)]
        assert told and told[-1] == ["done"], f"{words}: no answer within {PATIENCE} seconds, but {told}; {self._said()}"
        return told[:-1]

    def _lines(self, until: float) -> List[str]:
        """The lines up to `done`, or to the end of time."""
        assert self._process.stdout
        data = b""
        while not data.endswith(b"done\n") and select.select([self._process.stdout], [], [], max(0, until - time.monotonic()))[0]:
            part = os.read(self._process.stdout.fileno(), 1 << 16)
            if not part:
                break
            data += part
        return data.decode().splitlines()

    def _said(self) -> str:
        self._errors.seek(0)
        return self._errors.read().decode(errors="backslashreplace")[-2000:]

    def _does_well(self, *words: str) -> List[List[str]]:
        """What comes of a task that has to go well."""
        told = self.does(*words)
        assert not [it for it in told if it[0] in ("ng", "error")], (words, told)
        return told

    def pushes(self, at: str, *refspecs: str) -> None:
        """Pushes what has to be taken: the library is told so of each ref."""
        told = self._does_well("push", self._room.path(at), self._room.url(), *refspecs)
        assert {ref for what, ref, *_ in told if what == "ok"} == {it.rpartition(":")[2] for it in refspecs}, told

    def is_refused(self, at: str, *refspecs: str, says: str = "") -> None:
        """Pushes what has to be refused, with a reason that the library shows; and nothing changes."""
        before = self._room.tenant_refs()
        told = self.does("push", self._room.path(at), self._room.url(), *refspecs)
        assert not [it for it in told if it[0] == "ok"] and [it for it in told if it[0] in ("ng", "error")], told
        assert says in "\n".join(" ".join(it) for it in told), told
        assert self._room.tenant_refs() == before

    def fetches(self, at: str) -> None:
        """Fetches all branches and tags."""
        self._does_well("fetch", self._room.path(at), self._room.url(), "+refs/heads/*:refs/heads/*", "+refs/tags/*:refs/tags/*")

    def clones(self, name: str) -> None:
        """Clones into a new folder."""
        self._does_well("clone", self._room.url(), self._room.path(name))

    def refs(self, at: str) -> Dict[str, str]:
        """The refs of the tenant as the library lists them."""
        told = self._does_well("list", self._room.path(at), self._room.url())
        return {ref: name for _, ref, name in told if ref.startswith("refs/") and not ref.endswith("^{}")}


@contextlib.contextmanager
def library(room: ServerRoom, *words: str) -> Iterator[Library]:
    """A library's client, with a key of a kind and in a form that each of them reads: JSch uses half of the ECDSA keys once alone."""
    subprocess.run(["ssh-keygen", "-q", "-t", "rsa", "-b", "2048", "-m", "PEM", "-N", "", "-f", room.path("pem")], check=True)
    room.serverd("user", room.served, "alice", "--key", room.path("pem.pub"))
    client = Library(room, words)
    try:
        yield client
    finally:
        client.close()


def has_all_of(room: ServerRoom, copy: str, site: str) -> None:
    """Asks that a copy that a library made has the branches and tags of a repository and the objects that they reach."""
    found = {ref.replace("refs/remotes/origin/", "refs/heads/"): name for ref, name in room.refs(copy).items() if not ref.endswith("/HEAD")}
    mine = room.refs(site, "refs/heads", "refs/tags")
    assert found == mine, f"the copy has the refs {found}, and the repository {mine}"
    room.is_sound(copy)
    assert room.objects(copy, *mine.values()) == room.objects(site, *mine.values())


def changes(room: ServerRoom, client: Library) -> None:
    """Pushes, clones, fetches, forces and deletes. git sees each as if it had done it."""
    site = room.site()
    client.pushes(site, "refs/heads/main:refs/heads/main", "refs/tags/light:refs/tags/light", "refs/tags/v1:refs/tags/v1")
    room.same(site)
    client.clones("copy")
    has_all_of(room, "copy", site)
    room.commit(site, "More", {"large": os.urandom(1 << 20).hex(), "dir/b": "b\n"})
    room.git(site, "branch", "topic")
    client.pushes(site, "refs/heads/main:refs/heads/main", "refs/heads/topic:refs/heads/topic")
    room.same(site)
    room.init("mirror", "--bare")
    client.fetches("mirror")
    has_all_of(room, "mirror", site)
    assert client.refs(site) == room.tenant_refs()
    room.git(site, "commit", "-q", "--amend", "-m", "Another")
    client.is_refused(site, "refs/heads/main:refs/heads/main")
    client.pushes(site, "+refs/heads/main:refs/heads/main")
    client.pushes(site, ":refs/heads/topic")
    room.git(site, "branch", "-q", "-D", "topic")
    room.same(site)
    client.fetches("mirror")
    room.git("mirror", "update-ref", "-d", "refs/heads/topic")
    has_all_of(room, "mirror", site)


def refusals(room: ServerRoom, client: Library) -> None:
    """Pushes what a tenant does not keep: the library shows why. Then it pushes again."""
    site = "site"
    blob = bytes.fromhex(room.name(site, "main:index.html"))
    commit_of(room, site, stored(room, site, "tree", b"100644 .git\0" + blob))
    client.is_refused(site, "refs/heads/bad:refs/heads/bad", says="hasDotgit")
    room.git(site, "update-ref", "-d", "refs/heads/bad")
    client.is_refused(site, "refs/tags/v1:refs/tags/other", says="kept under its own name alone, refs/tags/v1")
    room.commit(site, "After it")
    client.pushes(site, "refs/heads/main:refs/heads/main")
    room.same(site)


@once
def libgit2_is_a_client(room: ServerRoom) -> None:
    # libgit2 wants to know the server.
    os.mkdir(room.path("home", ".ssh"))
    with open(room.path("home", ".ssh", "known_hosts"), "wb") as file:
        subprocess.run(["ssh-keyscan", "-p", str(room.ssh[1]), room.ssh[0]], stdout=file, stderr=subprocess.DEVNULL, check=True)
    with library(room, os.path.join(HERE, "libgit2_client.py")) as client:
        changes(room, client)
        refusals(room, client)


@once
def dulwich_is_a_client(room: ServerRoom) -> None:
    with library(room, os.path.join(HERE, "dulwich_client.py")) as client:
        changes(room, client)
        refusals(room, client)


@once
def jgit_is_a_client(room: ServerRoom) -> None:
    quick = ["-XX:TieredStopAtLevel=1", "-XX:+UseSerialGC", f"-Duser.home={room.path('home')}"]
    with library(room, "java", *quick, "-cp", ":".join(JARS), os.path.join(HERE, "JGitClient.java")) as client:
        changes(room, client)
        refusals(room, client)


# No longer than this may a client wait that keeps its side open, on a machine that is busy: a server that waits for it ends after a minute.
# On an idle one it has its report within half a second.
SOON = 50


@contextlib.contextmanager
def receive_pack(room: ServerRoom) -> Iterator[Tuple[IO[bytes], IO[bytes]]]:
    """A push over ssh that has been told the refs: where the client writes, and where it reads."""
    ssh = [*room.environment["GIT_SSH_COMMAND"].split(), "-p", str(room.ssh[1]), f"alice@{room.ssh[0]}", "git-receive-pack '/acme/site.git'"]
    with subprocess.Popen(ssh, stdin=subprocess.PIPE, stdout=subprocess.PIPE, stderr=subprocess.STDOUT, env=room.environment) as process:
        sent, read = process.stdin, process.stdout
        assert sent and read
        try:
            while True:
                length = int(read.read(4), 16)
                if not length:
                    break
                read.read(length - 4)
            yield sent, read
        finally:
            process.kill()


def is_told(room: ServerRoom, data: bytes, *says: bytes) -> None:
    """Asks that a push that sends this and keeps its side open is told all of these soon."""
    with receive_pack(room) as (sent, read):
        sent.write(data)
        sent.flush()
        until, told = time.monotonic() + SOON, b""
        while not all(it in told for it in says):
            is_ready, _, _ = select.select([read], [], [], max(0, until - time.monotonic()))
            part = os.read(read.fileno(), 1 << 16) if is_ready else b""
            assert part, f"within {SOON} seconds the push was told {told!r}, not {says!r}"
            told += part


@over_http
def a_client_that_keeps_its_side_open(room: ServerRoom) -> None:
    """Over ssh it is told what became of its push, whatever that is."""
    site = room.pushed()
    before, main = room.tenant_refs(), room.name(site, "main")
    blob = os.urandom(1 << 20)
    report = b"ng refs/heads/x "
    for data, *says in (
        (command(new=main.encode(), ref=b"refs/heads/main/below") + pack([]), b"unpack ok", b"ng refs/heads/main/below "),
        (command() + pack([("blob", blob)]), b"neither has the repository", report),
        (command() + whole(1, entry(3, len(blob), blob))[:-1] + b"x", b"digest", report),
        (command() + whole(2, b"x" * len(blob)), b"unpack ", report),
        (command() + b"PUCK" + bytes(28), b"unpack ", report),
        (b"zzzz", b"ERR "),
        (line(b"what\0report-status side-band-64k") + b"0000", b"unpack a push has a malformed line"),
    ):
        is_told(room, data, *says)
        assert room.tenant_refs() == before
    new = room.commit(site, "Kept", {"large": blob.hex()})
    packed = room.git(site, "pack-objects", "--revs", "--stdout", "-q", data=f"{new}\n^{main}\n".encode())
    is_told(room, command(new=new.encode(), ref=b"refs/heads/kept") + packed, b"unpack ok", b"ok refs/heads/kept")
    is_told(room, command(old=new.encode(), new=b"0" * 40, ref=b"refs/heads/kept"), b"unpack ok", b"ok refs/heads/kept")
    room.git(site, "push", "-q", "pool", "main")
    room.same(site)
