"""Scenes of backups: each is of one moment while users push, is whole after kills and on full disks, and comes back as it was."""
from __future__ import annotations

import fcntl
import glob
import os
import shutil
import subprocess
import threading
from typing import Dict, List

from commanding import command
from in_shards import divide
from scenes.room import wait_for
from served import ServerRoom, over_http, text


def backup(room: ServerRoom, to: str, *words: str) -> str:
    """Makes a backup, and gives the name of its moment."""
    return text(room.serverd("backup", room.served, to, *words)).strip()


def restored(room: ServerRoom, to: str, moment: str = "") -> str:
    """Restores a backup into a folder of its own, and gives that."""
    folder = room.path(f"restored-{len(glob.glob(room.path('restored-*')))}")
    words = ["--moment", moment] if moment else []
    assert text(room.serverd("restore", to, folder, *words)).strip() == moment or not moment
    return folder


def contents(folder: str) -> Dict[str, bytes]:
    """All files of a folder, by their paths, but for what the server writes from time to time."""
    found = {}
    for at, _, files in os.walk(folder):
        for name in files:
            if name in ("socket", "usage", "pushed"):
                continue
            with open(os.path.join(at, name), "rb") as file:
                found[os.path.relpath(os.path.join(at, name), folder)] = file.read()
    return found


def commits(room: ServerRoom, tenant: str) -> List[str]:
    """The commits of a tenant's branch, from old to new, as a clone has them that git finds sound."""
    mirror = room.path(f"{tenant.replace('/', '-')}-{len(glob.glob(room.path('*')))}")
    room.git("", "clone", "-q", "--mirror", room.url(tenant), mirror)
    room.is_sound(mirror)
    return text(room.git(mirror, "rev-list", "--reverse", "main")).split()


class Pusher(threading.Thread):
    """Pushes a commit to one tenant, then to the other one, then the next commit, until the scene says that it is enough."""

    def __init__(self, room: ServerRoom, site: str):
        super().__init__()
        self.room, self.site, self.is_over, self.count = room, site, threading.Event(), 0

    def run(self) -> None:
        """Pushes."""
        while not self.is_over.is_set():
            self.room.commit(self.site, f"Commit {self.count}", {"count": str(self.count)})
            for tenant in ("acme/a", "acme/b"):
                self.room.git(self.site, "push", "-q", self.room.url(tenant), "HEAD:refs/heads/main")
            self.count += 1


@over_http
def backups_are_of_one_moment(room: ServerRoom) -> None:
    """Backs two tenants of two shards up while a user pushes to one after the other: no backup has more of the second one, nor any other mixture."""
    divide(room, 2)
    site = room.pushed()
    pusher = Pusher(room, site)
    pusher.start()
    wait_for(lambda: pusher.count > 1)
    moments = []
    for turn in range(4):
        moments.append(backup(room, room.path("kept"), "--keep", "9"))
        if turn == 1:
            room.serverd("save", room.served)
        seen = pusher.count
        # (the round that is under way may have pushed to the first tenant before the backup)
        wait_for(lambda: pusher.count > seen + 1)
    pusher.is_over.set()
    pusher.join()
    whole = text(room.git(site, "rev-list", "--reverse", "HEAD")).split()
    assert not glob.glob(os.path.join(room.served, "work", "moment-*"))
    before, listed = 0, {line.split()[-1] for line in text(room.serverd("tenants", room.served)).splitlines()}
    assert listed == {"1", "2"}
    for moment in moments:
        assert room.stop() == 0
        room.served = restored(room, room.path("kept"), moment)
        room.start()
        first, second = commits(room, "acme/a"), commits(room, "acme/b")
        assert first == whole[: len(first)] and second == whole[: len(second)] and before < len(first), (whole, first, second)
        assert len(first) - len(second) in (0, 1), (first, second)
        before = len(first)
        room.same(site, "acme/site", {ref: name for ref, name in room.tenant_refs().items()})
    room.git(site, "push", "-q", room.url("acme/a"), "HEAD:refs/heads/main")
    room.fails("", "ls-remote", room.url(user="bob").replace("builder", "other"), says="Authentication failed")


@over_http
def a_backup_brings_all_back(room: ServerRoom) -> None:
    """Restores what was pushed, streamed, granted and blocked before a loss of the whole folder; a backup of a stopped server has the same."""
    site = room.pushed()
    room.git(site, "push", "-q", room.url("acme/other"), "main")
    room.serverd("block", room.served, "user", "bob", "unpaid")
    refs, users = room.tenant_refs(), room.serverd("users", room.served)
    backup(room, room.path("kept"))
    room.process.kill()
    room.process.wait()
    backup(room, room.path("stopped"))
    assert contents(restored(room, room.path("kept"))).keys() == contents(restored(room, room.path("stopped"))).keys()
    shutil.rmtree(room.served)
    os.mkdir(room.served, 0o750)
    room.serverd("restore", room.path("kept"), room.served)
    room.start()
    assert room.tenant_refs() == refs and room.serverd("users", room.served) == users
    room.same(site)
    room.same(site, "acme/other", {"refs/heads/main": room.name(site, "main")})
    room.fails("", "ls-remote", room.url(user="bob"), says="403")
    assert b"block user bob" in room.serverd("audit", room.served)


@over_http
def backups_share_what_has_not_changed(room: ServerRoom) -> None:
    """The pool file and the lists of two backups are the same files; what was pushed between them is not."""
    site = room.pushed()
    room.serverd("save", room.served)
    one = backup(room, room.path("kept"), "--keep", "2")
    room.git(site, "push", "-q", room.url(), "main:refs/heads/more")
    other = backup(room, room.path("kept"), "--keep", "2")
    inodes = {}
    for moment in (one, other):
        folder = room.path("kept", moment)
        inodes[moment] = {path: os.stat(os.path.join(folder, path)).st_ino for path in contents(folder)}
    shared = {path for path, inode in inodes[one].items() if inodes[other].get(path) == inode}
    assert {"pool", "access", "host_key"} <= shared and not any(path.startswith("journal/") for path in shared), shared
    backup(room, room.path("kept"), "--keep", "2")
    third = backup(room, room.path("kept"))
    assert sorted(os.listdir(room.path("kept"))) == [third, "gitpool-backups"]
    room.stop()
    room.served = restored(room, room.path("kept"))
    room.start()
    room.same(site, "acme/site", dict(room.refs(site, "refs/heads", "refs/tags"), **{"refs/heads/more": room.name(site, "main")}))


def run_killed(room: ServerRoom, program: str, point: int, *words: str) -> bool:
    """Runs a command that is killed at one of its fault points, and tells whether it came so far."""
    done = room.run([program, *words], GITPOOLD_FAULT=f"server:{point}")
    assert done.returncode in (0, -9), text(done.stderr)
    return done.returncode != 0


@over_http
def kills_of_backups(room: ServerRoom) -> None:
    """Kills a backup, and then a restore, at each of their fault points: what can be restored is the old moment or the new one, and nothing else."""
    program = os.environ.get("GITPOOLD_FAULTPOINTS")
    if not program:
        return
    site = room.pushed()
    kept = room.path("kept")
    backup(room, kept)
    room.git(site, "push", "-q", room.url(), "main:refs/heads/more")
    backup(room, room.path("new"))
    old, new = (contents(restored(room, to)) for to in (kept, room.path("new")))
    assert old != new
    shutil.copytree(kept, room.path("pristine"))
    points, seen = 0, set()
    while run_killed(room, program, points + 1, "backup", room.served, kept):
        points += 1
        found = contents(restored(room, kept))
        assert found in (old, new), (points, sorted(found))
        seen.add(found == new)
        shutil.rmtree(kept)
        shutil.copytree(room.path("pristine"), kept, copy_function=shutil.copy2)
    assert points > 10 and seen == {False, True}, (points, seen)
    wait_for(lambda: not glob.glob(os.path.join(room.served, "work", "moment-*")))
    points, target = 0, room.path("target")
    while run_killed(room, program, points + 1, "restore", kept, target):
        points += 1
        assert not os.path.exists(target) or contents(target) == new, points
        shutil.rmtree(target, ignore_errors=True)
    assert points > 10 and contents(target) == new and not os.path.exists(target + ".restored")


@over_http
def a_backup_to_a_full_disk(room: ServerRoom) -> None:
    """A disk that has room for one backup and not for two keeps the first one. Without the right to mount one, nothing is shown."""
    room.pushed()
    place = room.path("small")
    os.mkdir(place)
    if subprocess.run(["mount", "-t", "tmpfs", "-o", "size=1m", "tmpfs", place], capture_output=True).returncode:
        return
    try:
        kept = os.path.join(place, "kept")
        moment = backup(room, kept)
        room.commit("site", "Large", {"large": os.urandom(600_000).hex()})
        room.git("site", "push", "-q", room.url(), "main")
        status, said = command(room, "backup", kept)
        assert status == 1 and "has no room for another backup" in said, (status, said)
        assert sorted(os.listdir(kept)) == [moment, "gitpool-backups"]
        restored(room, kept)
        room.same("site")
    finally:
        wait_for(lambda: subprocess.run(["umount", place], capture_output=True).returncode == 0)


def damaged_backups_are_told(room: ServerRoom, kept: str, moment: str) -> None:
    """Damages files of a backup in turn: none of them is restored."""
    for name in ("pool", "access", "moment", *(os.path.join("journal", it) for it in os.listdir(os.path.join(kept, moment, "journal")))):
        path = os.path.join(kept, moment, name)
        with open(path, "rb") as file:
            whole = file.read()
        for damaged in (whole[:-3], whole[:20] + b"?" + whole[21:], whole + b"x" if name == "moment" else whole[:-1]):
            with open(path, "wb") as file:
                file.write(damaged)
            done = room.run([room.server_program, "restore", kept, room.path("none")])
            assert done.returncode == 3 and not os.path.exists(room.path("none")), (name, done)
        with open(path, "wb") as file:
            file.write(whole)


@over_http
def what_no_backup_can_be_made_of_is_refused(room: ServerRoom) -> None:
    """Folders that have something else, that are in each other, or are damaged: a sentence each, and nothing is changed."""
    room.pushed()
    kept = room.path("kept")
    moment = backup(room, kept)
    damaged_backups_are_told(room, kept, moment)
    before = contents(room.served)
    for words, says in ((("backup", room.path("home")), "something else than backups"), (("backup", os.path.join(room.served, "x")), "beside"),
                        (("backup", room.folder), "beside"), (("backup", kept, "--keep", "0"), "above 0")):
        status, said = command(room, *words)
        assert status == 1 and says in said, (words, status, said)
    for words, status, says in ((("restore", kept, room.served), 1, "is not empty"),
                                (("restore", room.path("home"), room.path("x")), 1, "has no backup"),
                                (("restore", kept, room.path("x"), "--moment", "2000-01-01T00-00-00.000Z"), 4, "no such file")):
        done = room.run([room.server_program, *words])
        assert done.returncode == status and says in text(done.stderr), (words, done)
    after = contents(room.served)
    assert {name: after[name] for name in before} == before
    assert not os.path.exists(room.path("x"))
    held = open(os.path.join(kept, "gitpool-backups"), "rb")
    fcntl.flock(held, fcntl.LOCK_EX)
    status, said = command(room, "backup", kept)
    assert status == 1 and "another backup" in said, (status, said)
    held.close()
