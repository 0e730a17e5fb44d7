"""Scenes of clones and fetches with real git, beside a bare repository that git itself serves."""
from __future__ import annotations

import os
import re
import subprocess
from typing import Set

from served import ServerRoom, once, scene


def held(room: ServerRoom, at: str) -> Set[bytes]:
    """The names of all objects that a repository has."""
    return set(room.git(at, "cat-file", "--batch-all-objects", "--batch-check=%(objectname)").split())


def shallow(room: ServerRoom, at: str) -> Set[str]:
    """The commits that a repository has without their parents."""
    path = room.path(at, room.git(at, "rev-parse", "--git-dir").decode().strip(), "shallow")
    if not os.path.exists(path):
        return set()
    with open(path, encoding="ascii") as file:
        return set(file.read().split())


def long_site(room: ServerRoom, count: int = 12) -> str:
    """A worktree with a history of some commits, a side branch, a merge, an octopus and tags, pushed; and a bare copy `oracle`."""
    site = room.init("site")
    for at in range(count):
        day = f"{1700000000 + at * 86400} +0000"
        room.write(site, {"f": f"{at}\n", f"d{at % 3}/e/g{at}": f"{at}\n" * 20})
        room.git(site, "add", "-A")
        room.git(site, "commit", "-q", "-m", f"Commit {at}", GIT_COMMITTER_DATE=day, GIT_AUTHOR_DATE=day)
    room.git(site, "tag", "-a", "-m", "Early", "early", "HEAD~8")
    for arm in ("one", "two", "three"):
        room.git(site, "checkout", "-q", "-b", arm, "main~4")
        room.commit(site, arm, {arm: arm})
    room.git(site, "checkout", "-q", "main")
    late = "1702000000 +0000"
    room.git(site, "merge", "-q", "-m", "Merge", "one", GIT_COMMITTER_DATE=late)
    room.git(site, "merge", "-q", "-m", "Octopus", "two", "three", GIT_COMMITTER_DATE=late)
    room.git(site, "tag", "-a", "-m", "Top", "top")
    room.git(site, "tag", "-a", "-m", "Outer", "outer", "top")
    room.git(site, "push", "-q", room.url(), "--all")
    room.git(site, "push", "-q", room.url(), "--tags")
    room.bare("oracle", site)
    return site


def both(room: ServerRoom, *words: str) -> None:
    """Clones from the tenant and from the oracle with the same words, and asks that both clones have the same."""
    for name, url in (("mine", room.url()), ("theirs", "file://" + room.path("oracle"))):
        subprocess.run(["rm", "-rf", room.path(name)], check=True)
        room.git("", "clone", "-q", *words, url, name)
    alike(room)


def alike(room: ServerRoom) -> None:
    """Asks that the repositories mine and theirs have the same refs, objects and edge."""
    assert room.refs("mine") == room.refs("theirs")
    assert shallow(room, "mine") == shallow(room, "theirs"), (shallow(room, "mine"), shallow(room, "theirs"))
    words = ["rev-list", "--all", "--objects", "--no-object-names", "--missing=allow-any"]
    reached = [set(room.git(at, *words).split()) for at in ("mine", "theirs")]
    assert reached[0] == reached[1]
    missing = held(room, "theirs") - held(room, "mine")
    assert not missing, f"{len(missing)} objects are missing, such as {min(missing)!r}"
    room.git("mine", "fsck", "--strict")


def in_both(room: ServerRoom, *words: str) -> None:
    """Runs git in both clones, and asks that they have the same after it."""
    for name in ("mine", "theirs"):
        room.git(name, *words)
    alike(room)


@scene
def clones(room: ServerRoom) -> None:
    site = long_site(room)
    room.same(site)
    both(room)
    assert room.git("mine", "symbolic-ref", "HEAD") == b"refs/heads/main\n"
    both(room, "--bare")
    both(room, "--mirror")
    both(room, "--single-branch", "--branch", "one")
    both(room, "--no-tags")
    both(room, "--branch", "early")
    assert held(room, "mine") == held(room, "theirs")


@scene
def an_empty_repository(room: ServerRoom) -> None:
    room.git("", "clone", "-q", room.url("acme/nothing"), "empty")
    assert room.git("empty", "symbolic-ref", "HEAD") == b"refs/heads/main\n"
    assert room.git("", "ls-remote", room.url("acme/nothing")) == b""
    room.commit("empty", "First", {"a": "a\n"})
    room.git("empty", "push", "-q", "origin", "HEAD")
    room.same("empty", "acme/nothing", room.refs("empty", "refs/heads"))
    room.git("empty", "fetch", "-q")


@scene
def shallow_clones(room: ServerRoom) -> None:
    long_site(room)
    for depth in ("1", "2", "5", "13", "14", "100"):
        both(room, "--depth", depth)
        both(room, "--depth", depth, "--no-single-branch")
    both(room, "--shallow-since", "2023-11-20")
    both(room, "--shallow-exclude", "early")
    both(room, "--shallow-exclude", "one")
    room.fails("", "clone", "-q", "--shallow-since", "2033-01-01", room.url(), "none", says="no commits selected for shallow requests")
    room.fails("", "clone", "-q", "--shallow-exclude", "nowhere", room.url(), "none", says="")


@scene
def deepening(room: ServerRoom) -> None:
    # (without tags: in a shallow repository git follows them over http with protocol 2 alone, from git http-backend too)
    long_site(room)
    both(room, "--depth", "1")
    in_both(room, "fetch", "-q", "--no-tags", "--deepen", "1")
    in_both(room, "fetch", "-q", "--no-tags", "--deepen", "2")
    in_both(room, "fetch", "-q", "--no-tags", "--depth", "8")
    in_both(room, "fetch", "-q", "--no-tags", "--depth", "2")
    in_both(room, "fetch", "-q", "--no-tags", "--shallow-since", "2023-11-18")
    in_both(room, "fetch", "-q", "--no-tags", "--shallow-exclude", "early")
    in_both(room, "fetch", "-q", "--no-tags", "--unshallow")
    assert not shallow(room, "mine")
    in_both(room, "fetch", "-q", "--tags")


@scene
def a_shallow_clone_goes_on(room: ServerRoom) -> None:
    site = long_site(room)
    both(room, "--depth", "3")
    room.commit(site, "Later", {"later": "l\n"})
    room.git(site, "push", "-q", room.url(), "main")
    room.git("oracle", "fetch", "-q")
    in_both(room, "fetch", "-q")
    in_both(room, "fetch", "-q", "--depth", "1")
    room.git(site, "push", "-q", room.url(), "main~2:refs/heads/back")
    room.git("oracle", "update-ref", "refs/heads/back", room.name(site, "main~2"))
    in_both(room, "fetch", "-q", "origin", "back:back")
    room.commit("mine", "Of a shallow repository", {"s": "s\n"})
    room.git("mine", "push", "-q", "origin", "HEAD:refs/heads/shallow")
    assert room.tenant_refs()["refs/heads/shallow"] == room.name("mine", "HEAD")


@scene
def partial_clones(room: ServerRoom) -> None:
    site = long_site(room)
    room.commit(site, "Large", {"large": "l\n" * 5000, "small": "s\n"})
    room.git(site, "push", "-q", room.url(), "main")
    room.git("oracle", "fetch", "-q")
    for word in ("blob:none", "blob:limit=100", "blob:limit=1k", "tree:0", "tree:1", "tree:2", "combine:blob:none+tree:2"):
        both(room, "--no-checkout", "--filter", word)
        assert held(room, "mine") == held(room, "theirs"), word
        room.git("mine", "checkout", "-q", "main")
        assert room.git("mine", "status", "--porcelain") == b""
        room.git("mine", "log", "-p", "--all")
    room.fails("", "clone", "-q", "--filter", "sparse:oid=main", room.url(), "none", says="not supported")
    both(room, "--filter", "blob:none", "--depth", "2")


@scene
def fetches_of_what_is_missing(room: ServerRoom) -> None:
    site = long_site(room)
    both(room)
    for at in range(3):
        room.commit(site, "More", {"f": f"more {at}\n"})
        room.git(site, "push", "-q", room.url(), "main")
        room.git("oracle", "fetch", "-q")
        in_both(room, "fetch", "-q")
    room.git(site, "checkout", "-q", "--orphan", "roots")
    room.git(site, "rm", "-q", "-r", "--cached", ".")
    room.git(site, "clean", "-q", "-f", "-d")
    room.commit(site, "Another root", {"r": "r\n"})
    room.git(site, "merge", "-q", "--allow-unrelated-histories", "-m", "Join", "main~2")
    room.git(site, "push", "-q", room.url(), "roots")
    room.git("oracle", "fetch", "-q")
    in_both(room, "fetch", "-q")
    room.git(site, "push", "-q", room.url(), "+main~3:refs/heads/roots", ":refs/heads/two")
    room.git("oracle", "update-ref", "refs/heads/roots", room.name(site, "main~3"))
    room.git("oracle", "update-ref", "-d", "refs/heads/two")
    in_both(room, "fetch", "-q", "--prune")


@scene
def a_fetch_of_one_commit_is_small(room: ServerRoom) -> None:
    site = long_site(room)
    room.git("", "clone", "-q", room.url(), "copy")
    room.commit(site, "One", {"f": "one\n"})
    room.git(site, "push", "-q", room.url(), "main")
    told = room.run(["git", "fetch", "--progress"], "copy").stderr
    found = re.search(rb"Enumerating objects: ([0-9]+), done", told)
    assert found and int(found[1]) == 3, told


@scene
def tags_follow(room: ServerRoom) -> None:
    site = room.pushed()
    room.git("", "clone", "-q", room.url(), "copy")
    room.commit(site, "Tagged", {"t": "t\n"})
    room.git(site, "tag", "-a", "-m", "Follows", "follows")
    room.git(site, "push", "-q", "--follow-tags", "pool", "main")
    room.git("copy", "fetch", "-q")
    assert room.name("copy", "follows") == room.name(site, "follows")


@scene
def tags_of_all_kinds(room: ServerRoom) -> None:
    site = room.pushed()
    room.git(site, "tag", "-a", "-m", "Outer", "outer", "v1")
    room.git(site, "tag", "-a", "-m", "Outermost", "outermost", "outer")
    blob = room.git(site, "hash-object", "-w", "--stdin", data=b"b\n").decode().strip()
    room.git(site, "tag", "-a", "-m", "Blob", "blob", blob)
    room.git(site, "push", "-q", "pool", "--tags")
    room.same(site)
    peeled = dict(line.split("\t")[::-1] for line in room.git("", "ls-remote", room.url()).decode().splitlines())
    assert peeled["refs/tags/outermost^{}"] == room.name(site, "main") and peeled["refs/tags/blob^{}"] == blob
    # An inner tag without a ref of its own.
    room.git(site, "push", "-q", "pool", ":v1")
    room.git(site, "tag", "-d", "v1")
    room.same(site)
    room.git("", "clone", "-q", room.url(), "copy")
    assert room.name("copy", "outermost") == room.name(site, "outermost")


@once
def objects_by_name(room: ServerRoom) -> None:
    site = long_site(room)
    room.init("copy")
    middle = room.name(site, "main~3")
    room.git("copy", "fetch", "-q", "--depth", "1", room.url(), middle)
    assert room.name("copy", "FETCH_HEAD") == middle
    room.init("other")
    foreign = room.commit("other", "Foreign", {"x": "x\n"})
    room.git("other", "push", "-q", room.url("acme/other"), "main")
    said = room.fails("copy", "fetch", "-q", room.url(), foreign, says="not our ref")
    unknown = room.fails("copy", "fetch", "-q", room.url(), "1" * 40, says="not our ref")
    assert said.replace(foreign, "X") == unknown.replace("1" * 40, "X")


@once
def negotiation_without_a_fetch(room: ServerRoom) -> None:
    site = long_site(room)
    room.git("", "clone", "-q", room.url(), "copy")
    room.commit("copy", "Mine", {"m": "m\n"})
    told = room.git("copy", "fetch", "--negotiate-only", "--negotiation-tip=HEAD", "origin").split()
    assert room.name(site, "main").encode() in told, told


@once
def many_refs(room: ServerRoom) -> None:
    site = room.bare("many", room.site())
    main = room.name(site, "main")
    with open(room.path(site, "packed-refs"), "a", encoding="ascii") as file:
        file.writelines(f"{main} refs/heads/z{at:05}\n" for at in range(3000))
    room.git(site, "push", "-q", room.url(), "refs/*:refs/*")
    room.same(site, refs=room.refs(site))
    told = room.git("", "ls-remote", room.url(), "refs/heads/z0001*")
    assert len(told.splitlines()) == 10, told


@once
def a_long_history(room: ServerRoom) -> None:
    """Longer than the rounds after which a walk asks for the rest at once, forked and merged."""
    lines = []
    for at in range(1500):
        branch = f"refs/heads/b{at % 3}"
        merge = f"merge refs/heads/b{(at + 1) % 3}\n" if at % 50 == 49 else ""
        who = f"A <a@b> {1700000000 + at} +0000"
        text_of = f"Commit {at}"
        lines.append(f"commit {branch}\nauthor {who}\ncommitter {who}\ndata {len(text_of)}\n{text_of}\n{merge}"
                     f"M 644 inline d{at % 7}/f{at % 50}\ndata {len(str(at))}\n{at}\n")
    source = room.imported("source", "".join(lines).encode())
    room.git(source, "push", "-q", room.url(), "--all")
    room.same(source)
    room.bare("oracle", source)
    room.git("oracle", "symbolic-ref", "HEAD", room.tenant_head())
    both(room, "--bare")
    for depth in ("200", "1400"):
        both(room, "--bare", "--depth", depth)
    both(room, "--bare", "--branch", "b1", "--single-branch", "--depth", "300")
    in_both(room, "fetch", "-q", "--unshallow")
    tips = [room.name(source, f"b{at}~{back}") for at in range(3) for back in (0, 100, 400)]
    for tip in tips:
        room.git("oracle", "update-ref", "refs/heads/part", tip)
        room.git(source, "push", "-q", "--force", room.url(), f"{tip}:refs/heads/part")
        both(room, "--bare", "--branch", "part", "--single-branch")
        in_both(room, "fetch", "-q", "origin", "refs/heads/*:refs/heads/*", "--force")


@once
def bundles_of_wants(room: ServerRoom) -> None:
    """Clones of several refs at once, and a fetch into a repository that has other things too."""
    long_site(room)
    for name, url in (("mine", room.url()), ("theirs", "file://" + room.path("oracle"))):
        room.init(name)
        room.commit(name, "Own", {"own": "own\n"})
        room.git(name, "fetch", "-q", url, "one:one", "two:two")
    alike(room)
    in_both(room, "gc", "-q")
