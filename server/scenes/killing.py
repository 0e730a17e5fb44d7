"""Scenes of a server that is killed at its fault points, alone, with its child, or the child alone, while users push and force and delete,
and the operator copies, compacts, removes and saves.

GITPOOLD_KILL_POINTS says at how many points of a run each scene kills; without it, at a few.
"""
from __future__ import annotations

import os
import signal
import subprocess
from dataclasses import dataclass, field
from typing import Dict, List, Optional

from scenes.room import text
from served import ServerRoom, over_http

Refs = Dict[str, str]


@dataclass
class Known:
    """What is known of a tenant: its refs as they were told last, those of an action that got no answer, and commits that no ref holds
    and that a compaction dropped."""

    told: Refs = field(default_factory=dict)
    tried: Optional[Refs] = None
    loose: List[str] = field(default_factory=list)
    dropped: List[str] = field(default_factory=list)


class Actions:
    """Actions of two users and of the operator on tenants of one front of names, and what is known of these tenants then."""

    def __init__(self, room: ServerRoom, front: str, is_told: bool):
        self.room, self.front, self.is_told = room, front, is_told
        self.known: Dict[str, Known] = {}
        self.failed, self.is_over = 0, False
        self.at = room.init(f"work-{front}")

    def name(self, tenant: str) -> str:
        """The whole name of a tenant."""
        return f"{self.front}/{tenant}"

    def all(self) -> None:
        """All actions, whether or not each goes well."""
        first = self.push("one", "main", "First")
        self.push("two", "main", "Of two")
        self.push("one", "side", "Side", first)
        self.push("one", "side", "Forced", first)
        self.copy("one", "copy")
        self.compact("one")
        self.save()
        self.push("one", "main", "After the save")
        self.delete("one", "side")
        self.remove("copy")
        self.compact("one")
        self.save()
        self.push("two", "side", "At the end", first)

    def push(self, tenant: str, branch: str, message: str, parent: str = "") -> str:
        """Pushes a commit to a branch, wherever that is, and gives the commit."""
        room = self.room
        tree = room.name(self.at, self.blob_tree(message))
        words = ["-p", parent] if parent else []
        commit = room.git(self.at, "commit-tree", "-m", message, *words, tree).decode().strip()
        self.pushed(tenant, {f"refs/heads/{branch}": commit})
        return commit

    def blob_tree(self, message: str) -> str:
        """A tree with one file."""
        room = self.room
        blob = room.git(self.at, "hash-object", "-w", "--stdin", data=f"{self.front} {message}\n".encode() * 50).decode().strip()
        return room.git(self.at, "mktree", data=f"100644 blob {blob}\tfile\n".encode()).decode().strip()

    def delete(self, tenant: str, branch: str) -> None:
        """Deletes a branch."""
        self.pushed(tenant, {f"refs/heads/{branch}": ""})

    def pushed(self, tenant: str, change: Refs) -> None:
        """Pushes a change of refs."""
        known = self.known.setdefault(tenant, Known())
        after = {ref: name for ref, name in {**known.told, **change}.items() if name}
        done = self.room.run(["git", "push", "-q", "--force", self.room.url(self.name(tenant)), *(f"{new}:{ref}" for ref, new in change.items())],
                             self.at)
        if self.came(known, after, done.returncode == 0):
            known.loose += [name for name in known.told.values() if name not in after.values()]
            known.told = after

    def came(self, known: Known, after: Refs, well: bool) -> bool:
        """Notes how an action went. The one that was at work when the server was killed may have happened; a refusal says that it has not."""
        self.failed += not well
        if not well and not self.is_told and not self.is_over and self.is_dead():
            known.tried, self.is_over = after, True
        return well

    def is_dead(self) -> bool:
        """Whether the server has been killed."""
        try:
            self.room.process.wait(2)
        except subprocess.TimeoutExpired:
            return False
        return True

    def operator(self, *words: str) -> bool:
        """Runs a command of the operator, and gives whether it went well."""
        return self.room.run([self.room.server_program, words[0], self.room.served, *words[1:]]).returncode == 0

    def copy(self, tenant: str, to: str) -> None:
        """Copies a tenant."""
        known, source = self.known.setdefault(to, Known()), self.known[tenant]
        if self.came(known, dict(source.told), self.operator("copy", self.name(tenant), self.name(to))):
            known.told = dict(source.told)

    def remove(self, tenant: str) -> None:
        """Removes a tenant."""
        known = self.known.setdefault(tenant, Known())
        if self.came(known, {}, self.operator("remove", self.name(tenant))):
            known.dropped += known.told.values()
            known.told = {}

    def compact(self, tenant: str) -> None:
        """Drops what no ref of a tenant reaches."""
        known = self.known[tenant]
        if self.came(known, known.told, self.operator("compact", self.name(tenant))):
            reached = self.room.objects(self.at, *known.told.values())
            known.dropped += [name for name in known.loose if name.encode() not in reached]
            known.loose = [name for name in known.loose if name.encode() in reached]

    def save(self) -> None:
        """Saves the pool."""
        self.came(Known(), {}, self.operator("save"))

    def judge(self) -> None:
        """Asks that each tenant has what was told, and, of an action without an answer, all or nothing."""
        for tenant, known in self.known.items():
            refs = self.room.tenant_refs(self.name(tenant))
            may = [known.told] if known.tried is None else [known.told, known.tried]
            assert refs in may, f"{self.name(tenant)} has {refs}, and may have {may}"
            if refs:
                self.is_whole(tenant, refs)
            for commit in known.dropped[-2:]:
                done = self.room.run(["git", "fetch", "-q", self.room.url(self.name(tenant)), commit], self.empty())
                assert done.returncode != 0, f"{self.name(tenant)} has {commit} still"

    def empty(self) -> str:
        """A repository that has nothing."""
        name = f"empty-{self.front}"
        return name if os.path.exists(self.room.path(name)) else self.room.init(name)

    def is_whole(self, tenant: str, refs: Refs) -> None:
        """Asks that a clone of a tenant has the objects of its refs and no others, and that git fsck says nothing."""
        mirror = f"mirror-{self.front}-{tenant}"
        self.room.git("", "clone", "-q", "--mirror", self.room.url(self.name(tenant)), mirror)
        self.room.is_sound(mirror)
        assert self.room.refs(mirror) == refs
        told = self.room.git(mirror, "cat-file", "--batch-all-objects", "--batch-check=%(objectname)")
        assert set(told.split()) == self.room.objects(self.at, *refs.values())


def points_of(room: ServerRoom) -> int:
    """How many fault points a run of all actions has."""
    log = room.path("points")
    room.environment["GITPOOLD_FAULT_LOG"] = log
    room.start()
    actions = Actions(room, "p0", True)
    actions.all()
    assert not actions.failed, room.logged()[-1000:]
    actions.judge()
    assert room.stop() == 0
    del room.environment["GITPOOLD_FAULT_LOG"]
    with open(log, encoding="utf-8") as file:
        return len(file.readlines())


def killed_at(room: ServerRoom, whom: str, point: int) -> None:
    """Plays all actions under a kill, and judges what the next start has, and the one after it."""
    room.environment["GITPOOLD_FAULT"] = f"{whom}:{point}"
    actions = Actions(room, f"p{point}", whom == "child")
    if starts(room):
        actions.all()
    del room.environment["GITPOOLD_FAULT"]
    if room.process.poll() is None:
        room.process.kill()
    room.process.wait()
    room.start()
    actions.judge()
    for tenant in actions.known:
        actions.operator("remove", actions.name(tenant))
    assert room.stop() == 0, room.logged()[-1000:]
    checked = room.run([room.program, "check", "--pool", room.pool])
    assert checked.returncode == 0, text(checked.stderr)


def starts(room: ServerRoom) -> bool:
    """Starts a server, which may be killed before it serves."""
    try:
        room.start()
    except AssertionError:
        assert room.process.poll() == -signal.SIGKILL, room.logged()[-1000:]
        return False
    return True


def kills(room: ServerRoom, whom: str) -> None:
    """Kills at points that are spread over all that a run has."""
    faults = os.environ.get("GITPOOLD_FAULTPOINTS")
    if not faults:
        return
    assert room.stop() == 0
    room.server_program = faults
    points = points_of(room)
    count = min(points, int(os.environ.get("GITPOOLD_KILL_POINTS", "2")))
    for turn in range(count):
        point = 1 + (turn * points + points // 2) // count
        try:
            killed_at(room, whom, point)
        except AssertionError as error:
            raise AssertionError(f"{whom}:{point} of {points}: {error}") from error
        if count > 10:
            print(f"{whom} was killed at point {point} of {points}", flush=True)


@over_http
def kills_of_the_server_in_all_actions(room: ServerRoom) -> None:
    kills(room, "server")


@over_http
def kills_of_the_child_in_all_actions(room: ServerRoom) -> None:
    kills(room, "child")


@over_http
def kills_of_both_in_all_actions(room: ServerRoom) -> None:
    kills(room, "both")
