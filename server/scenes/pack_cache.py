"""Scenes of packs that git makes small and the server keeps for clones."""
from __future__ import annotations

import os
import re
import shutil
import signal
import stat
import subprocess
import time
from typing import Dict

from fetches import held
from libraries import HERE, JARS, has_all_of, library
from mirroring import await_that, working_in
from served import ServerRoom, once, over_http, scene, text


def state(room: ServerRoom) -> Dict[str, int]:
    """What the server tells of its packs for clones."""
    told = text(room.serverd("status", room.served))
    return {name: int(value) for name, value in re.findall(r"^(packs?[a-z-]*) +([0-9]+)$", told, re.M)}


def await_state(room: ServerRoom, **wanted: int) -> None:
    """Waits until the server tells so of its packs."""

    def is_so() -> bool:
        now = state(room)
        return all(now[name.replace("_", "-")] == value for name, value in wanted.items())

    await_that(is_so, lambda: f"{state(room)}\n{room.logged()}", 900)


def folder(room: ServerRoom) -> str:
    """Where the packs are."""
    return os.path.join(room.served, "work", "packs")


def wordy(room: ServerRoom, name: str = "site", tenant: str = "acme/site", limit: str = "1G") -> str:
    """A worktree of some commits to a text that git makes small, with tags, pushed; and a server that keeps packs."""
    room.serverd("limits", room.served, "pack-cache", limit)
    site = room.init(name)
    lines = [f"{name} {number} {number * 7919}\n" for number in range(5000)]
    for at in range(6):
        lines[at * 700] = f"changed {at}\n"
        room.commit(site, f"Commit {at}", {"text": "".join(lines)})
    room.git(site, "tag", "light", "HEAD~2")
    room.git(site, "tag", "-a", "-m", "v1", "v1", "HEAD~1")
    room.git(site, "push", "-q", room.url(tenant), "--all")
    room.git(site, "push", "-q", room.url(tenant), "--tags")
    return site


def clone(room: ServerRoom, *words: str, tenant: str = "acme/site", status: int = 0) -> str:
    """Clones a tenant, and gives the clone."""
    at = room.path(f"clone-{time.monotonic_ns()}")
    done = room.run(["git", "clone", "-q", "--bare", *words, room.url(tenant), at], "")
    assert done.returncode == status, text(done.stderr)
    if status == 0:
        room.is_sound(at)
    return at


def size(at: str) -> int:
    """How many bytes the objects of a repository take."""
    return sum(os.path.getsize(os.path.join(at, "objects/pack", name)) for name in os.listdir(os.path.join(at, "objects/pack")))


@scene
def clones_by_a_kept_pack(room: ServerRoom) -> None:
    site = wordy(room)
    before = clone(room)
    await_state(room, packs=1, packs_made=1, pack_hits=0, pack_misses=1)
    after = clone(room)
    assert size(after) * 4 < size(before) and held(room, after) == held(room, before), (size(before), size(after))
    room.same(site)
    await_state(room, pack_hits=2, pack_near=0)
    # What came since stands beside the kept pack, a moved branch, a new one and a tag.
    room.commit(site, "Seven", {"more": "seven\n"})
    room.git(site, "branch", "topic", "HEAD~3")
    room.git(site, "tag", "-a", "-m", "v2", "v2", "HEAD")
    room.git(site, "push", "-q", room.url(), "--all")
    room.git(site, "push", "-q", room.url(), "--tags")
    near = clone(room)
    assert size(near) < size(before) // 3, (size(before), size(near))
    room.same(site)
    await_state(room, pack_hits=2, pack_near=2, pack_misses=1)
    # A rewritten branch: what it had is not in a clone, so the kept pack is not.
    room.git(site, "reset", "-q", "--hard", "HEAD~2")
    room.commit(site, "Another", {"more": "another\n"})
    room.git(site, "push", "-q", "-f", room.url(), "main", ":v2")
    room.git(site, "tag", "-d", "v2")
    room.same(site)
    await_state(room, pack_hits=2, pack_near=2, pack_misses=2)


@scene
def fetches_beside_a_kept_pack(room: ServerRoom) -> None:
    """Shallow and partial clones, one branch with its tags, and fetches of a clone that came from a kept pack."""
    site = wordy(room)
    clone(room)
    await_state(room, packs=1)
    whole = clone(room)
    for words in (("--depth", "2"), ("--filter=blob:none",), ("--single-branch", "--branch", "main"), ("--no-tags",)):
        clone(room, *words)
    room.bare("oracle", site)
    for words in (("--single-branch", "--branch", "main"), ("--no-tags",)):
        theirs = room.path(f"theirs-{words[0]}")
        room.git("", "clone", "-q", "--bare", *words, "file://" + room.path("oracle"), theirs)
        mine = clone(room, *words)
        assert room.refs(mine) == room.refs(theirs) and held(room, mine) == held(room, theirs), words
    room.commit(site, "Seven", {"more": "seven\n"})
    room.git(site, "push", "-q", room.url(), "main")
    room.git(whole, "fetch", "-q", room.url(), "main:main")
    room.is_sound(whole)
    assert room.name(whole, "main") == room.name(site, "main")


@once
def a_tenant_made_anew_has_no_old_pack(room: ServerRoom) -> None:
    site = wordy(room)
    old, tip = clone(room), room.name(site, "main")
    await_state(room, packs=1)
    room.serverd("remove", room.served, "acme/site")
    assert state(room)["packs"] == 0 and os.listdir(folder(room)) == [], os.listdir(folder(room))
    # Another tenant of the name: nobody gets an object of the old one, not by its name either.
    other = room.init("other")
    room.commit(other, "Other", {"f": "other\n" * 20000})
    room.git(other, "push", "-q", room.url(), "main")
    clone(room)
    room.same(other)
    fetcher = room.init("fetcher")
    room.fails(fetcher, "fetch", "-q", room.url(), tip, says="not our ref")
    assert not held(room, fetcher) & held(room, old)
    # And one with the same objects, which gets a pack of its own.
    room.serverd("remove", room.served, "acme/site")
    room.git(site, "push", "-q", "--mirror", room.url())
    hits = state(room)["pack-hits"]
    assert held(room, clone(room)) == held(room, old)
    assert state(room)["pack-hits"] == hits


@over_http
def packs_go_with_what_they_are_of(room: ServerRoom) -> None:
    site = wordy(room)

    def again() -> None:
        packs = state(room)["packs-made"]
        clone(room)
        await_state(room, packs=1, packs_made=packs + 1)

    again()
    room.serverd("compact", room.served, "acme/site")
    assert state(room)["packs"] == 0 and os.listdir(folder(room)) == []
    again()
    room.serverd("block", room.served, "tenant", "acme/site")
    clone(room)
    await_state(room, packs=0, pack_bytes=0)
    room.serverd("unblock", room.served, "tenant", "acme/site")
    again()
    # Who may not read the tenant gets none, and who may gets the same pack.
    url = room.http_url("/acme/site.git", "bob")
    room.git("", "clone", "-q", "--bare", url, "bobs")
    assert state(room)["pack-hits"] == 1
    room.serverd("revoke", room.served, "bob", "acme/site")
    room.fails("", "clone", "-q", "--bare", url, "none", says="not found")
    # Other tenants with the same objects have none of it.
    room.serverd("copy", room.served, "acme/site", "acme/copy")
    clone(room, tenant="acme/copy")
    assert state(room)["pack-hits"] == 1
    # No pack beyond the limit, and none without one.
    room.serverd("limits", room.served, "pack-cache", "1K")
    await_state(room, packs=0)
    room.serverd("limits", room.served, "pack-cache", "default")
    clone(room)
    assert state(room) == {}, state(room)
    room.same(site)


@over_http
def kept_packs_that_are_damaged(room: ServerRoom) -> None:
    """A client gets no object of a file that was changed, and the next clone goes well. A folder that is gone is made anew."""
    wordy(room)
    before = clone(room)
    await_state(room, packs=1)
    (name,) = os.listdir(folder(room))
    with open(os.path.join(folder(room), name), "r+b") as file:
        file.seek(2000)
        file.write(b"damaged")
    at = room.path("failed")
    said = room.fails("", "clone", "-q", "--bare", room.url(), at, says="the server's pack for clones was damaged")
    assert "remote" in said and not os.path.exists(at), said
    assert held(room, clone(room)) == held(room, before)
    room.serverd("compact", room.served, "acme/site")
    clone(room)
    await_state(room, packs=1)
    shutil.rmtree(folder(room))
    assert held(room, clone(room)) == held(room, before)
    room.serverd("compact", room.served, "acme/site")
    clone(room)
    await_state(room, packs=1)


def slow_git(room: ServerRoom, command: str) -> str:
    """Lets a git stand on the PATH that waits where the server lets it carry out a command, and gives the file that it makes before."""
    real, begun = shutil.which("git", path=room.environment["PATH"]), room.path("begun")
    os.mkdir(room.path("slow"))
    path = room.path("slow", "git")
    with open(path, "w", encoding="utf-8") as file:
        file.write(f"#!/bin/sh\ncase $PWD-$1 in */work/packs/making-{command}) touch {begun}; exec sleep 1000;; esac\nexec {real} \"$@\"\n")
    os.chmod(path, stat.S_IRWXU)
    room.environment["PATH"] = room.path("slow") + ":" + room.environment["PATH"]
    assert room.stop() == 0
    room.start()
    return begun


def kill_while(room: ServerRoom, command: str) -> None:
    """Kills the server while git carries a command out for it."""
    begun = slow_git(room, command)
    wordy(room)
    before = clone(room)
    await_that(lambda: os.path.exists(begun), room.logged)
    room.process.kill()
    room.process.wait()
    await_that(lambda: not working_in(folder(room)), lambda: working_in(folder(room)))
    shutil.rmtree(room.path("slow"))
    room.start()
    assert not os.path.exists(folder(room))
    assert held(room, clone(room)) == held(room, before)
    await_state(room, packs=1)
    assert held(room, clone(room)) == held(room, before)


@over_http
def killed_while_git_reads(room: ServerRoom) -> None:
    kill_while(room, "index-pack")


@over_http
def killed_while_git_packs(room: ServerRoom) -> None:
    kill_while(room, "pack-objects")


@over_http
def stopped_while_git_packs(room: ServerRoom) -> None:
    """A server that stops waits for no pack, and leaves no git."""
    begun = slow_git(room, "pack-objects")
    wordy(room)
    clone(room)
    await_that(lambda: os.path.exists(begun), room.logged)
    assert room.stop() == 0
    assert not working_in(folder(room))


def is_sent_to(room: ServerRoom, client: "subprocess.Popen[bytes]", before: int) -> None:
    """Waits until a client is sent a part of a kept pack, or has ended."""
    await_that(lambda: state(room)["pack-sent-bytes"] > before or client.poll() is not None, room.logged)


@once
def killed_or_removed_while_a_kept_pack_is_sent(room: ServerRoom) -> None:
    """A client that is stopped while a pack comes gets an error where the tenant is removed, and where the server is killed."""
    room.serverd("limits", room.served, "pack-cache", "1G")
    site = room.init("site")
    with open(room.path(site, "large"), "wb") as file:
        file.write(os.urandom(16 << 20))
    room.commit(site, "Large")
    room.git(site, "push", "-q", room.url(), "main")
    for end in (lambda: room.serverd("remove", room.served, "acme/site"), room.process.kill):
        clone(room)
        await_state(room, packs=1)
        # A client that reads a part and then waits: what it has not read is more than sockets and pipes hold.
        client = subprocess.Popen(["git", "clone", "--bare", room.url(), room.path("late")], env=room.environment, stdout=subprocess.PIPE,
                                  stderr=subprocess.STDOUT, start_new_session=True)
        sent = state(room)["pack-sent-bytes"]
        is_sent_to(room, client, sent)
        os.killpg(client.pid, signal.SIGSTOP)
        end()
        os.killpg(client.pid, signal.SIGCONT)
        client.communicate()
        if client.returncode == 0:
            room.is_sound(room.path("late"))
        assert client.returncode == 0 or not os.path.exists(room.path("late"))
        shutil.rmtree(room.path("late"), ignore_errors=True)
        if room.process.poll() is None:
            room.git(site, "push", "-q", room.url(), "main")
    room.process.wait()
    room.start()
    clone(room)


@over_http
def packs_on_a_full_disk(room: ServerRoom) -> None:
    """A disk that is full while git reads: clones go the ordinary way. Runs as root alone."""
    wordy(room)
    os.makedirs(folder(room))
    if subprocess.run(["mount", "-t", "tmpfs", "-o", "size=64k", "tmpfs", folder(room)], capture_output=True).returncode:
        return
    try:
        before = clone(room)
        await_state(room, packs=0, pack_bytes=0, packs_failed=1)
        assert os.listdir(folder(room)) == [] and held(room, clone(room)) == held(room, before)
    finally:
        subprocess.run(["umount", "-l", folder(room)], check=True)
    assert re.search(r"no pack for clones of acme/site was made: .*[Nn]o space left on device", room.logged()), room.logged()
    room.serverd("compact", room.served, "acme/site")
    clone(room)
    await_state(room, packs=1)


@over_http
def packs_go_with_a_move(room: ServerRoom) -> None:
    """A tenant that is moved has a pack of its own again after it, and none before."""
    assert room.stop() == 0
    room.serverd("init", room.served, "--program", room.program, "--shards", "2")
    room.start()
    site = wordy(room)
    clone(room)
    await_state(room, packs=1)
    place = re.findall(r"^acme/site .* shard ([12])$", text(room.serverd("tenants", room.served)), re.M)
    room.serverd("move", room.served, "acme/site", "1" if place == ["2"] else "2")
    assert state(room)["packs"] == 0 and os.listdir(folder(room)) == []
    clone(room)
    await_state(room, packs=1, packs_made=2)
    room.same(site)
    await_state(room, pack_hits=1)


@over_http
def libraries_clone_by_a_kept_pack(room: ServerRoom) -> None:
    """libgit2, dulwich and JGit get a kept pack, alone and with what came since beside it."""
    site = wordy(room)
    clone(room)
    await_state(room, packs=1)
    quick = ["-XX:TieredStopAtLevel=1", "-XX:+UseSerialGC", f"-Duser.home={room.path('home')}"]
    for at, words in enumerate(
        (
            [os.path.join(HERE, "libgit2_client.py")],
            [os.path.join(HERE, "dulwich_client.py")],
            ["java", *quick, "-cp", ":".join(JARS), os.path.join(HERE, "JGitClient.java")],
        )
    ):
        for name in ("pem", "pem.pub"):
            if os.path.exists(room.path(name)):
                os.unlink(room.path(name))
        with library(room, *words) as client:
            client.clones(f"whole{at}")
            has_all_of(room, f"whole{at}", site)
            room.commit(site, f"Beside {at}", {"more": f"{at}\n"})
            room.git(site, "push", "-q", room.url(), "main")
            client.clones(f"near{at}")
            has_all_of(room, f"near{at}", site)
    now = state(room)
    assert now["pack-misses"] == 1 and now["pack-hits"] + now["pack-near"] == 6, now
