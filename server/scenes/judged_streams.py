"""Scenes of streams over ssh that a quota or git's fsck refuses."""
from __future__ import annotations

import random
import re
import threading
import time
from typing import List, Tuple

from served import ServerRoom, over_http
from strangers import by_ssh
from streams_over_ssh import said

# How git names what it finds in an object, in front of its sentence.
FSCK = re.compile(rb"object [0-9a-f]{40}: [a-zA-Z0-9]+: ")
WHO = b"committer a <a@b> 1 +0000\n"
FILES, COMMITS, QUOTA = 20_000, 300, 10 << 20


def wide(commits: int, base: bytes = b"", ending: bytes = b"", front: str = "x", files: int = FILES) -> bytes:
    """A stream whose commits write a tree of 20,000 entries each, or of other many."""
    parts = [b"blob\nmark :1\ndata 1\nx\ncommit refs/heads/main\n", WHO, b"data 0\n", base]
    parts += [b"M 644 :1 %d\n" % at for at in range(0 if base else files)]
    for at in range(commits):
        parts += [ending, b"commit refs/heads/main\n", WHO, b"data 0\n", f"M 644 :1 {front}{at}\n".encode()]
    return b"".join(parts)


def bytes_of(room: ServerRoom, tenant: str) -> int:
    """What a tenant has, as the child counts it."""
    room.serverd("save", room.served)
    for row in room.serverd("tenants", room.served).decode().splitlines():
        if row.split()[0] == tenant:
            found = re.search(r" bytes ([0-9]+) ", row)
            assert found, row
            return int(found[1])
    return 0


class Asker(threading.Thread):
    """Lists the refs of a tenant over and over, and knows how long the longest answer took."""

    def __init__(self, room: ServerRoom, tenant: str):
        super().__init__()
        self.room, self.tenant, self.longest, self.count, self.is_over = room, tenant, 0.0, 0, threading.Event()

    def run(self) -> None:
        while not self.is_over.is_set():
            began = time.monotonic()
            assert self.room.tenant_refs(self.tenant)
            self.longest, self.count = max(self.longest, time.monotonic() - began), self.count + 1


def refused_at_the_quota(room: ServerRoom, tenant: str, stream: bytes) -> int:
    """What a tenant has after a stream that is to be given up. Meanwhile another tenant is answered."""
    asker, alone = Asker(room, "acme/site"), 0.0
    for _ in range(2):
        began = time.monotonic()
        room.tenant_refs("acme/site")
        alone = max(alone, time.monotonic() - began)
    asker.start()
    began = time.monotonic()
    try:
        told = said(room, f"import {tenant}", stream, 1)
    finally:
        lasted = time.monotonic() - began
        asker.is_over.set()
        asker.join()
    assert b"as many bytes as its quota allows" in told and told.endswith(b"(fault 25)\ngitpool: fault 25\n"), told
    # On a busy machine git takes long for an answer, with and without a stream.
    assert asker.longest < 4 + 20 * alone, (asker.longest, alone)
    assert asker.count > 1 or lasted < 2 * asker.longest, (asker.longest, lasted)
    return bytes_of(room, tenant)


def status_of(room: ServerRoom, tenant: str, stream: bytes) -> int:
    return by_ssh(room, room.path("key"), "alice", f"import {tenant}", stream).returncode


@over_http
def streams_stay_within_the_quota(room: ServerRoom) -> None:
    """Few bytes that write many: the stream is given up under 25, and nobody waits for it."""
    site = room.pushed()
    room.serverd("limits", room.served, "quota", str(QUOTA))
    assert refused_at_the_quota(room, "acme/wide", wide(COMMITS)) == 0
    # The trees of these have 10 to 40 MB, which the child's memory does not tell from what a stream takes beside.
    for commits in (17, 30, 40, 60):
        assert refused_at_the_quota(room, "acme/wide", wide(commits)) == 0, commits
    left = refused_at_the_quota(room, "acme/saved", wide(COMMITS, ending=b"checkpoint\n"))
    assert QUOTA - (1 << 20) < left <= QUOTA, left
    # The child keeps the memory of small trees that a stream wrote and that were dropped, so the next stream lets it grow by less.
    for tenant in ("acme/small", "acme/small", "acme/other"):
        assert refused_at_the_quota(room, tenant, wide(2700, files=500)) == 0
    # What one stream left counts for the next one.
    said(room, "import acme/twice", wide(0))
    more = [wide(7, b"from refs/heads/main^0\n", front=front) for front in "abcd"]
    status = [status_of(room, "acme/twice", it) for it in more]
    assert status == [0, 0, 1, 1], status
    assert bytes_of(room, "acme/twice") <= QUOTA, bytes_of(room, "acme/twice")
    room.same(site)


@over_http
def streams_fill_the_quota_to_the_byte(room: ServerRoom) -> None:
    """A stream that leaves as many bytes as the quota says is let in, and with one byte less it is refused. So is a checkpoint."""
    site = room.pushed()
    before, stream = wide(1), wide(6, b"from refs/heads/main^0\n", front="y")
    for tenant in ("acme/free", "acme/full", "acme/short"):
        said(room, f"import {tenant}", before)
    had = bytes_of(room, "acme/free")
    said(room, "import acme/free", stream)
    whole = bytes_of(room, "acme/free")
    assert had + (6 * 400_000) < whole < 10 * had, (had, whole)
    room.serverd("limits", room.served, "quota", "acme/full", str(whole))
    room.serverd("limits", room.served, "quota", "acme/short", str(whole - 1))
    for ending in (b"", b"checkpoint\n"):
        assert refused_at_the_quota(room, "acme/short", stream + ending) == had
    assert status_of(room, "acme/full", stream) == 0
    assert refused_at_the_quota(room, "acme/full", stream) == whole
    # A stream is longer than the room, and tells what is there already.
    contents = b"blob\ndata 300000\n" + b"x" * 300_000 + b"\n"
    room.serverd("limits", room.served, "quota", "acme/short", str(had + 400_000))
    said(room, "import acme/short", contents * 20)
    assert bytes_of(room, "acme/short") == had + 300_000
    room.same(site)


NAMES = [".git", ".GIT", ".gIt", "git~1", "GIT~1", ".git ", ".git...", ".g\u200cit", "a\\.git", ".gitmodules", ".GitModules", "gitmod~1", "gi7eba~1",
         ".gitattributes", "gitatt~1", ".gitignore", ".github", "git", "git~2", ".gitx", "gitmod~5", "a b", "\u00e4", '"q"', "x\ny", ".mailmap"]
CONTENTS = [b"x\n", b'[submodule "x"]\n\tpath = x\n\turl = https://h/x\n', b'[submodule "../x"]\n\turl = x\n', b'[SubModule "x"]\n\turl = -x\n',
            b'[submodule "x"]\n\tupdate = !x\n', b"x" * 2047 + b"\n", b"x" * 2048 + b"\n", b"# [submodule] is no section\n", b""]
DATES = [b"1 +0000", b"0 +0000", b"01 +0000", b"9223372036854775807 +0000", b"9223372036854775808 +0000", b"18446744073709551615 +0000"]
MESSAGES = [b"m\n", b"", b"a\0b", b"\xff\n", b"M 100644 inline .git/x\n"]


def quoted(path: str) -> bytes:
    """A path as a stream has it."""
    if path.startswith('"') or "\n" in path:
        path = '"' + path.replace("\\", "\\\\").replace('"', '\\"').replace("\n", "\\n") + '"'
    return path.encode()


def data(contents: bytes, chance: random.Random) -> bytes:
    """A data, with a count or, where it may have one, a delimiter."""
    if contents.endswith(b"\n") and chance.random() < 0.3:
        return b"data <<END\n" + contents + b"END\n"
    return b"data %d\n" % len(contents) + contents + b"\n"


def stream_of(room: ServerRoom, chance: random.Random) -> bytes:
    """A stream with one file, and mostly one thing that may be refused."""
    kind = chance.choice(["path", "path", "path", "copy", "blob", "blob", "blob", "ident", "message"])
    plain = [name for name in NAMES if not re.match("[.]?git[ma]|gi7", name, re.I)]
    named = {"path": NAMES, "copy": plain, "blob": [".gitmodules", ".gitattributes", "x"]}
    name = chance.choice(named.get(kind, ["x"]))
    path = chance.choice(["", "", "d/", "d/e/"]) + name + (chance.choice(["", "", "/x"]) if kind in ("path", "copy") else "")
    contents = chance.choice(CONTENTS) if kind == "blob" else b"x\n"
    date = chance.choice(DATES) if kind == "ident" else b"1 +0000"
    mode = chance.choice([b"100644", b"644", b"100755", b"120000"]) if kind == "path" else b"100644"
    blob, reference, inline = b"", b"inline", data(contents, chance)
    if chance.random() < 0.6:
        blob, inline = b"blob\nmark :1\n" + inline, b""
        reference = chance.choice([b":1", room.git("", "hash-object", "--stdin", data=contents).strip()])
    if kind == "path" and chance.random() < 0.2:
        blob, inline, mode, reference = b"", b"", b"160000", chance.choice([b"1" * 40, b"0" * 40])
    ident = chance.choice([b"a <a@b> ", b"<a@b> "]) + date + b"\n"
    author = b"author " + ident if kind == "ident" and chance.random() < 0.5 else b""
    committer = WHO if author else b"committer " + ident
    message = data(chance.choice(MESSAGES) if kind == "message" else b"m\n", chance)
    change = b"M " + mode + b" " + reference + b" " + quoted("from" if kind == "copy" else path) + b"\n" + inline
    if kind == "copy":
        change += chance.choice([b"C", b"R"]) + b" from " + quoted(path) + b"\n"
    tag = b"tag v\nfrom refs/heads/main\ntagger " + ident + message if chance.random() < 0.3 else b""
    return blob + b"commit refs/heads/main\n" + author + committer + message + change + b"\n" + tag


def is_pushed(room: ServerRoom, at: int, stream: bytes) -> bool:
    """Whether a push of what git makes of a stream is taken."""
    site = room.imported(f"judged-{at}", stream)
    done = room.run(["git", "push", "-q", "--mirror", room.url(f"pushed/{at}")], site)
    assert done.returncode == 0 or FSCK.search(done.stderr), done
    return done.returncode == 0


@over_http
def streams_are_judged_as_pushes_are(room: ServerRoom) -> None:
    """The same objects come in as a push and as a stream: both are taken, or both are refused."""
    chance = random.Random(7)
    taken: List[Tuple[bool, bytes]] = []
    for at in range(60):
        stream = stream_of(room, chance)
        taken.append((is_pushed(room, at, stream), stream))
        done = by_ssh(room, room.path("key"), "alice", f"import streams/{at}", stream)
        assert (done.returncode == 0) == taken[-1][0], (stream, done)
        if done.returncode != 0:
            assert done.stderr.endswith(b"(fault 25)\ngitpool: fault 25\n") and b"which is not taken here; what came after" in done.stderr, done
        assert room.tenant_refs(f"streams/{at}") == room.tenant_refs(f"pushed/{at}"), stream
    refused = sum(not it for it, _ in taken)
    assert 10 <= refused <= 50, refused
