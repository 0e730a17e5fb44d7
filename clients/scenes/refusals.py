"""Scenes of what is refused, of pushes at once, and of pushes that are cut off."""
from __future__ import annotations

from .room import Room, commit_text, os, scene, signal, subprocess, text, wait_for


def refused(room: Room, at: str, ref: str, says: str) -> None:
    """Asks that a push is refused with a sentence, alone, beside another ref and as a dry run, and that nothing was sent."""
    room.git(at, "update-ref", "refs/heads/fine", room.git(at, "commit-tree", "-m", "Fine", room.git(
        at, "mktree").decode().strip()).decode().strip())
    before = room.tenant_refs() if os.path.exists(room.pool) else {}
    for words in ((ref,), ("refs/heads/fine", ref), ("--dry-run", ref)):
        said = room.fails(at, "push", room.url(), *words, says=says)
        assert "[remote rejected]" in said, said
    assert (room.tenant_refs() if os.path.exists(room.pool) else {}) == before


def stored(room: Room, at: str, kind: str, data: bytes) -> str:
    """Stores an object whatever it says, and gives its name."""
    return room.git(at, "hash-object", "-w", "--literally", "-t", kind, "--stdin", data=data).decode().strip()


def commit_with(room: Room, at: str, headers: bytes, tree: str = "") -> str:
    """Stores a commit with these header lines in place of author and committer, under refs/heads/bad."""
    tree = tree or room.name(at, "main^{tree}")
    name = stored(room, at, "commit", b"tree %b\n%b\nMessage\n" % (tree.encode(), headers))
    room.git(at, "update-ref", "refs/heads/bad", name)
    return name


PEOPLE = b"author A <a@b> 1 +0000\ncommitter A <a@b> 1 +0000\n"


@scene
def signed_commits_are_refused(room: Room) -> None:
    site = room.pushed()
    commit_with(room, site, PEOPLE + b"gpgsig -----BEGIN PGP SIGNATURE-----\n \n iQ==\n -----END PGP SIGNATURE-----\n")
    refused(room, site, "refs/heads/bad", "has a signature (gpgsig), which gitpool does not keep")
    commit_with(room, site, PEOPLE + b"mergetag object %b\n type commit\n tag v1\n" % room.name(site, "main").encode())
    refused(room, site, "refs/heads/bad", "has a merged tag (mergetag), which gitpool does not keep")
    commit_with(room, site, PEOPLE + b"x-more yes\n")
    refused(room, site, "refs/heads/bad", "has a header `x-more`, which gitpool does not keep")
    room.same(site, refs={ref: name for ref, name in room.refs(site).items() if ref in ("refs/heads/main", "refs/tags/light", "refs/tags/v1")})


@scene
def signed_tags_are_kept(room: Room) -> None:
    site = room.pushed()
    message = b"object %b\ntype commit\ntag signed\ntagger A <a@b> 1 +0000\n\nTag\n-----BEGIN PGP SIGNATURE-----\n\niQ==\n-----END PGP SIGNATURE-----\n"
    room.git(site, "update-ref", "refs/tags/signed", stored(room, site, "tag", message % room.name(site, "main").encode()))
    room.git(site, "push", "-q", "pool", "signed")
    room.same(site)


@scene
def malformed_commits_are_refused(room: Room) -> None:
    site = room.pushed()
    for author in (b"author A 1 +0000\n", b"author A <a@b> 1 +000\n", b"author A <a@b> -1 +0000\n", b"author A <a@b>1 +0000\n",
                   b"author <a@b> 1 +0000\n", b"author A <a<b> 1 +0000\n", b"author A <a@b> 99999999999999999999 +0000\n",
                   b"author A <a@b> 1 +051800\n"):
        commit_with(room, site, author + b"committer A <a@b> 1 +0000\n")
        room.fails(site, "push", room.url(), "refs/heads/bad", says="malformed author line")
    for headers in (b"author A <a@b> 1 +0000\n", PEOPLE + b"encoding \n", b"committer A <a@b> 1 +0000\nauthor A <a@b> 1 +0000\n",
                    PEOPLE + b"encoding a\nencoding b\n"):
        commit_with(room, site, headers)
        room.fails(site, "push", room.url(), "refs/heads/bad", says="malformed headers")
    refused(room, site, "refs/heads/bad", "malformed headers")
    commit_with(room, site, PEOPLE + b"x\x1b[2J yes")
    said = room.fails(site, "push", room.url(), "refs/heads/bad", says="[remote rejected]")
    assert "\x1b" not in said, said


@scene
def trees_that_are_not_of_files_are_refused(room: Room) -> None:
    site = room.pushed()
    blob, empty = bytes.fromhex(room.name(site, "main:index.html")), bytes.fromhex(room.git(site, "mktree").decode().strip())
    for tree, says in (
        (b"100664 a\0" + blob, "mode 100664"),
        (b"040000 a\0" + empty, "mode 040000"),
        (b"40000 a\0" + empty, "an empty directory `a`"),
        (b"100644 b\0" + blob + b"100644 a\0" + blob, "out of order"),
        (b"100644 a\0" + blob + b"100644 a\0" + blob, "out of order"),
        (b"100644 ..\0" + blob, "out of order or under a bad name"),
        (b"100644 a\0" + blob[:10], "malformed"),
    ):
        name = stored(room, site, "tree", tree)
        commit_with(room, site, PEOPLE, name)
        done = room.run(["git", "push", room.url(), "refs/heads/bad"], site)
        assert done.returncode and b"Traceback" not in done.stderr, done.stderr
        assert says in text(done.stderr) or b"too-short tree" in done.stderr, done.stderr
    tree = b"100644 a\0" + blob + b"40000 a\0" + bytes.fromhex(room.name(site, "main:css"))
    commit_with(room, site, PEOPLE, stored(room, site, "tree", tree))
    refused(room, site, "refs/heads/bad", "two entries of one name")


@scene
def tags_that_are_refused(room: Room) -> None:
    site = room.pushed()
    room.git(site, "tag", "-a", "-m", "A tree", "tree", "main^{tree}")
    refused(room, site, "refs/tags/tree", "tag tree is of a tree, which gitpool does not keep")
    room.git(site, "tag", "-a", "-m", "Nested", "nested", "tree")
    refused(room, site, "refs/tags/nested", "of a tree, which gitpool does not keep")
    room.git(site, "update-ref", "refs/tags/blob", room.name(site, "main:index.html"))
    refused(room, site, "refs/tags/blob", "holds a commit or an annotated tag, and no blob")
    room.git(site, "update-ref", "refs/tags/renamed", "v1")
    refused(room, site, "refs/tags/renamed", "an annotated tag is kept under its own name alone, refs/tags/v1")
    refused(room, site, "v1:refs/heads/tagged", "")
    room.fails(site, "push", room.url(), "main:refs/namespaces/a/refs/heads/b", says="no name for a ref")


@scene
def sha256_is_refused(room: Room) -> None:
    room.pushed()
    other = room.init("other", "--object-format=sha256")
    room.commit(other, "One", {"a": "a\n"})
    room.fails(other, "push", room.url("other"), "main", says="sha256")
    room.fails(other, "fetch", room.url(), says="sha256")
    assert room.tenant_refs("other") == {}


@scene
def limits_are_told(room: Room) -> None:
    site = room.pushed()
    deep = "/".join(["d"] * 255)
    room.git(site, "update-index", "--add", "--cacheinfo", "100644", room.name(site, "main:index.html"), deep + "/f")
    room.git(site, "commit", "-q", "-m", "Deep")
    room.git(site, "push", "-q", "pool", "main")
    room.git(site, "update-index", "--add", "--cacheinfo", "100644", room.name(site, "main:index.html"), deep + "/g/h")
    room.git(site, "commit", "-q", "-m", "Too deep")
    before = room.pool_bytes()
    room.fails(site, "push", "pool", "main", says="256 components")
    assert room.pool_bytes() == before


@scene
def wrong_addresses(room: Room) -> None:
    site = room.pushed()
    room.fails("", "ls-remote", f"gitpool::{room.pool}", says="names no tenant")
    room.fails("", "clone", room.url(pool=room.path("no.pool")), "x", says="there is no pool file")
    room.fails("", "clone", room.url("-bad"), "x", says="bad tenant name")
    room.fails("", "clone", room.url(pool=room.path("home")), "x", says="folder")
    room.fails("", "clone", room.url(pool=room.path("home", ".gitconfig")), "x", says="no pool file (fault 60)")
    data = bytearray(room.pool_bytes())
    data[100] ^= 1
    with open(room.path("damaged.pool"), "wb") as file:
        file.write(data)
    room.fails("", "clone", room.url(pool=room.path("damaged.pool")), "x", says="digest of the pool file is wrong (fault 63)")
    room.fails(site, "push", room.url(pool=room.path("damaged.pool")), "main", says="digest")
    room.fails("", "clone", room.url(), "x", says="cannot be run", GITPOOL=room.path("nothing"))
    with open(room.path("damaged.pool"), "rb") as file:
        assert file.read() == bytes(data)


@scene
def two_pushes_at_once(room: Room) -> None:
    site = room.pushed()
    room.git("", "clone", "-q", room.url(), "copy")
    room.commit(site, "Of the site", {"s": "s\n"})
    room.commit("copy", "Of the copy", {"c": "c\n"})
    # The hook runs when the first push has been told the refs, and keeps nobody.
    hook = room.path(site, ".git/hooks/pre-push")
    with open(hook, "w", encoding="utf-8") as file:
        file.write(f'#!/bin/sh\nunset GIT_DIR\ngit -C "{room.path("copy")}" push origin main:refs/heads/copy 2> "{room.path("said")}"\n'
                   f'echo $? >> "{room.path("said")}"\ngit -C "{room.path("copy")}" fetch -q origin || exit 1\n')
    os.chmod(hook, 0o755)
    room.git(site, "push", "-q", "pool", "main")
    with open(room.path("said"), encoding="utf-8") as file:
        said = file.read()
    assert said.endswith("main -> copy\n0\n"), said
    refs = room.tenant_refs()
    assert (refs["refs/heads/main"], refs["refs/heads/copy"]) == (room.name(site, "main"), room.name("copy", "main")), refs
    room.git(site, "branch", "copy", "HEAD~1")
    room.git(site, "fetch", "-q", "pool", "copy:copy")
    room.same(site)


@scene
def many_pushes_at_once(room: Room) -> None:
    site = room.pushed()
    names = [f"arm{count}" for count in range(6)]
    for name in names:
        room.git(site, "branch", name, room.git(site, "commit-tree", "-p", "main", "-m", name, "main^{tree}").decode().strip())
    running = [subprocess.Popen(["git", "push", "-q", "pool", name], cwd=room.path(site), env=room.environment,
                                stderr=subprocess.PIPE) for name in names]
    refs_after = {}
    for name, process in zip(names, running):
        said = process.communicate()[1]
        if process.returncode == 0:
            refs_after[f"refs/heads/{name}"] = room.name(site, name)
        else:
            assert b"try again" in said, said
    told = room.tenant_refs()
    assert {ref: name for ref, name in told.items() if "arm" in ref} == refs_after and refs_after
    room.git(site, "push", "-q", "pool", *names)
    room.same(site)


def slow_program(room: Room) -> str:
    """A program that is sent its frames, and then waits before its input ends: so it never saves by itself."""
    path = room.path("slow")
    with open(path, "w", encoding="utf-8") as file:
        file.write(f'#!/bin/sh\necho $$ > "{room.path("pid")}"\nexec "{room.program}" "$@"\n')
    os.chmod(path, 0o755)
    return path


def push_and_stop(room: Room, site: str, wanted: int, kill_helper: bool) -> None:
    """Pushes, and kills the helper or the program once so many bytes went to the program that locks the pool file."""
    relay = room.path("relay")
    with open(relay, "w", encoding="utf-8") as file:
        file.write(f"""#!/usr/bin/env python3
import os, subprocess, sys, time
if sys.argv[-1] != "{room.pool}":
    os.execv("{room.program}", ["{room.program}", *sys.argv[1:]])
program = subprocess.Popen(["{room.program}", *sys.argv[1:]], stdin=subprocess.PIPE)
left = {wanted}
while left:
    data = os.read(0, left)
    if not data:
        break
    program.stdin.write(data)
    program.stdin.flush()
    left -= len(data)
if {kill_helper}:
    time.sleep(0.05)
    os.kill(os.getppid(), 9)
    program.stdin.close()
else:
    time.sleep(0.05)
    program.kill()
program.wait()
""")
    os.chmod(relay, 0o755)
    done = room.run(["git", "push", "pool", "main", "outer", "light:refs/tags/other"], site, GITPOOL=relay)
    assert done.returncode != 0, done.stderr
    assert b"Traceback" not in done.stderr, done.stderr


@scene
def a_push_that_is_killed(room: Room) -> None:
    site = room.pushed()
    room.git(site, "tag", "-a", "-m", "Inner", "inner")
    room.git(site, "tag", "-a", "-m", "Outer", "outer", "inner")
    room.git(site, "tag", "-d", "inner")
    room.commit(site, "New", {"new": "new\n"})
    before = room.tenant_refs()
    room.git(site, "push", "-q", "--dry-run", "pool", "main", "outer", "light:refs/tags/other")
    room.git("", "clone", "-q", "--mirror", room.url(), "old")
    old = room.pool_bytes()
    room.git(site, "push", "-q", "pool", "main", "outer", "light:refs/tags/other", GITPOOL=room.recording())
    with open(room.path("frames"), "rb") as file:
        frames = file.read()
    # Two questions went to the program that told the refs.
    frames = frames[sum(7 + len("acme/site") + len(body) for _, body in room.recorded()[:2]) :]
    final = frames.rindex(b"done\n") + 5
    for wanted in sorted({20, len(frames) // 2, final - 60, final - 1}):
        for kill_helper in (False, True):
            with open(room.pool, "wb") as file:
                file.write(old)
            push_and_stop(room, site, wanted, kill_helper)
            assert room.tenant_refs() == before, (wanted, kill_helper)
    room.same("old", refs=before)
    room.git(site, "push", "-q", "pool", "main", "outer", "light:refs/tags/other")
    room.git(site, "tag", "other", "light")
    room.same(site)


@scene
def an_interrupted_push(room: Room) -> None:
    site = room.pushed()
    room.commit(site, "New", {"new": "new\n"})
    old = room.pool_bytes()
    hook = room.path(site, ".git/hooks/pre-push")
    with open(hook, "w", encoding="utf-8") as file:
        file.write(f'#!/bin/sh\ntouch "{room.path("here")}"\nexec sleep 20\n')
    os.chmod(hook, 0o755)
    process = subprocess.Popen(["git", "push", "pool", "main"], cwd=room.path(site), env=room.environment, start_new_session=True,
                               stderr=subprocess.PIPE, stdout=subprocess.PIPE)
    wait_for(lambda: os.path.exists(room.path("here")))
    os.killpg(process.pid, signal.SIGINT)
    said = process.communicate()[1]
    assert process.returncode != 0 and b"Traceback" not in said, said
    wait_for(lambda: not os.path.exists(room.pool + ".new"))
    assert room.pool_bytes() == old
    os.unlink(hook)
    room.git(site, "push", "-q", "pool", "main")
    room.same(site)


@scene
def a_pool_that_cannot_be_saved(room: Room) -> None:
    site = room.pushed()
    room.commit(site, "New", {"new": "new\n"})
    old = room.pool_bytes()
    os.mkdir(room.pool + ".new")
    room.fails(site, "push", "pool", "main", says="another run had it in hand")
    os.rmdir(room.pool + ".new")
    assert room.pool_bytes() == old
    room.git(site, "push", "-q", "pool", "main")
    room.same(site)


@scene
def a_broken_local_repository(room: Room) -> None:
    site = room.pushed()
    commit = room.commit(site, "New", {"new": "new\n"})
    blob = room.name(site, "main:new")
    os.unlink(room.path(site, ".git/objects", blob[:2], blob[2:]))
    old = room.tenant_refs()
    room.fails(site, "push", "pool", "main", says="")
    assert room.tenant_refs() == old and commit not in old.values()


__all__ = ["commit_text"]
