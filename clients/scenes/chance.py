"""A scene of random histories: mirrored into a tenant step by step, fetched step by step, cloned, and exported to git."""
from __future__ import annotations

import random
from typing import List

from .room import Room, scene, text

NAMES = [b"a", b"b", b"c c", b'd"q', b'"e', b"f\\n", b"g\nh", b"\xff\xfe", b"z", b"A", b"a.b", b"a0", b"a-", b"-x", b" ", b"...", b"x\ty"]
PEOPLE = [b"A <a@b>", b" <>", b"\xc3\x9c X <q w>", b"A B C <>"]
DATES = [b"0 +0000", b"1 -1130", b"1700000000 +0545", b"1700000001 -0000", b"8589934592 +0000"]
MESSAGES = [b"", b"m", b"m\n", b"\n\nx", b"tag x\nfrom :1\n", b"\xe9\xff\n"]
BRANCHES = ["refs/heads/a", "refs/heads/b", "refs/heads/main", "refs/other/y", "refs/heads/\u00fc"]


def quoted(path: bytes) -> bytes:
    """A path between quotes."""
    return b'"' + path.replace(b"\\", b"\\\\").replace(b'"', b'\\"').replace(b"\n", b"\\n") + b'"'


class History:
    """A repository that grows by chance."""

    def __init__(self, room: Room, seed: int):
        self._room = room
        self._chance = random.Random(seed)
        self._commits: List[bytes] = []
        room.init("source", "--bare")

    def root(self) -> str:
        """A first commit, of nothing."""
        tree = self._room.git("source", "mktree").decode().strip()
        self._commits.append(self._room.git("source", "commit-tree", "-m", "Root", tree).strip())
        return self._commits[0].decode()

    def grow(self) -> None:
        """Some commits more, and some refs otherwise."""
        chance, count = self._chance, self._chance.randrange(1, 7)
        stream = b"".join(self._commit(place, count) for place in range(1, count + 1))
        stream += b"".join(b"get-mark :%d\n" % place for place in range(1, count + 1))
        self._commits += self._room.git("source", "fast-import", "--quiet", "--force", data=stream).split()
        for ref in self._room.refs("source", "refs/scratch"):
            self._room.git("source", "update-ref", "-d", ref)
        for _ in range(chance.randrange(1, 6)):
            self._change_ref()

    def _commit(self, place: int, count: int) -> bytes:
        chance = self._chance
        known = self._commits[-12:] + [b":%d" % it for it in range(1, place)]
        parents = [chance.choice(known) for _ in range(chance.choice((0, 1, 1, 1, 1, 2, 3, 6)))] if known else []
        branch, message = b"refs/scratch/%d" % place, chance.choice(MESSAGES)
        out = b"reset %b\n\ncommit %b\nmark :%d\n" % (branch, branch, place)
        out += b"author %b %b\ncommitter %b %b\n" % tuple(chance.choice(it) for it in (PEOPLE, DATES, PEOPLE, DATES))
        out += b"encoding latin\n" if chance.random() < 0.1 else b""
        out += b"data %d\n%b\n" % (len(message), message)
        out += b"".join((b"merge " if it else b"from ") + parent + b"\n" for it, parent in enumerate(parents))
        out += b"deleteall\n" if chance.random() < 0.1 else b""
        return out + b"".join(self._change() for _ in range(chance.choice((0, 1, 1, 2, 5, 30)))) + b"\n"

    def _change(self) -> bytes:
        chance = self._chance
        path = quoted(b"/".join(chance.choice(NAMES) for _ in range(chance.choice((1, 1, 2, 3, 4)))))
        kind = chance.random()
        if kind < 0.7:
            data = chance.randbytes(chance.choice((0, 1, 5, 40, 700)))
            return b"M %b inline %b\ndata %d\n%b\n" % (chance.choice((b"100644", b"100755", b"120000")), path, len(data), data)
        return b"M 160000 %040x %b\n" % (chance.randrange(1 << 100), path) if kind < 0.75 else b"D %b\n" % path

    def _change_ref(self) -> None:
        chance, room = self._chance, self._room
        commit, kind, tags = chance.choice(self._commits).decode(), chance.random(), room.refs("source", "refs/tags")
        if kind < 0.5:
            room.git("source", "update-ref", chance.choice(BRANCHES), commit)
        elif kind < 0.7:
            target = chance.choice([commit, *tags.values()])
            room.git("source", "tag", "-f", "-a", "-m", chance.choice(["x", "y\n\nz", "tag p\ndata 3\n"]), chance.choice("pqrs"), target)
        elif kind < 0.8:
            room.git("source", "tag", "-f", chance.choice("pq"), commit)
        elif kind < 0.85:
            blob = room.git("source", "hash-object", "-w", "--stdin", data=b"%d" % chance.randrange(50)).decode().strip()
            room.git("source", "tag", "-f", "-a", "-m", "blob", "u", blob)
        else:
            # git's own server keeps the branch that HEAD names, and so does gitpoold.
            kept = set() if room.has_helper else {"refs/heads/main"}
            room.git("source", "update-ref", "-d", chance.choice(sorted(set(room.refs("source")) - kept) or ["refs/heads/none"]))


def by_chance(room: Room, seed: int) -> None:
    """Asks after each step that the tenant, a mirror that is fetched, a clone and git's reading of the export are the same."""
    history = History(room, seed)
    room.init("mirror", "--bare")
    room.git("mirror", "remote", "add", "--mirror=fetch", "origin", room.url())
    root = history.root()
    room.git("source", "push", "-q", room.url(), root + ":refs/heads/main")
    if not room.has_helper:
        room.git("source", "update-ref", "refs/heads/main", root)
    for _ in range(4):
        history.grow()
        room.git("source", "push", "-q", "--mirror", room.url())
        refs = room.refs("source")
        assert room.tenant_refs() == refs
        room.git("mirror", "remote", "update", "--prune")
        assert room.refs("mirror") == refs and room.objects("mirror") == room.objects("source")
        room.is_sound("mirror")
    room.same("source", refs=refs)
    room.init("exported", "--bare")
    done = room.run(["git", "fast-import", "--quiet"], "exported", room.client("gitpool-export", "acme/site", "--pool", room.pool).stdout)
    assert done.returncode == 0, text(done.stderr)
    assert room.refs("exported") == refs and room.objects("exported") == room.objects("source")


@scene
def histories_by_chance(room: Room) -> None:
    by_chance(room, 1)


@scene
def other_histories_by_chance(room: Room) -> None:
    by_chance(room, 2)
