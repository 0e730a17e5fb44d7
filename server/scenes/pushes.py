"""Scenes of pushes with real git, each compared with what git itself makes of it."""
from __future__ import annotations

import os
import signal
import subprocess
import time

from scenes.room import wait_for
from served import ServerRoom, once, scene, text


@scene
def a_push_and_what_follows(room: ServerRoom) -> None:
    site = room.pushed()
    room.same(site)
    room.commit(site, "Next", {"next/a": "a\n", "index.html": "Other\n"})
    room.git(site, "push", "-q", "pool", "main")
    room.git(site, "rm", "-q", "-r", "next")
    room.commit(site, "Gone", {"next": "a file now\n"})
    room.git(site, "push", "-q", "pool", "main")
    room.commit(site, "Amended", {"more": "m\n"}, "--amend")
    room.fails(site, "push", "pool", "main", says="non-fast-forward")
    room.git(site, "push", "-q", "--force", "pool", "main")
    room.git(site, "push", "-q", "pool", ":light")
    room.git(site, "tag", "-d", "light")
    room.same(site)


@scene
def all_or_nothing(room: ServerRoom) -> None:
    site = room.pushed()
    room.git("", "clone", "-q", room.url(), "copy")
    room.commit("copy", "Of the copy", {"c": "c\n"})
    room.git("copy", "push", "-q", "origin", "main")
    before = room.tenant_refs()
    room.git(site, "branch", "good")
    mine = room.commit(site, "Of the site", {"s": "s\n"})
    # git believes that main is still where it was, so the server has to say no.
    lease = f"--force-with-lease=main:{room.name(site, 'main~1')}"
    said = room.fails(site, "push", "--atomic", lease, "pool", "main", "good", says="stale info")
    assert room.tenant_refs() == before, said
    room.fails(site, "push", lease, "pool", "main", "good", says="stale info")
    assert room.tenant_refs()["refs/heads/good"] == room.name(site, "good")
    assert room.tenant_refs()["refs/heads/main"] != mine
    room.git(site, "fetch", "-q", "pool")
    room.git(site, "push", "-q", "--atomic", f"--force-with-lease=main:{before['refs/heads/main']}", "pool", "main", "good:other")
    assert room.tenant_refs()["refs/heads/main"] == mine


@once
def push_options(room: ServerRoom) -> None:
    site = room.site()
    room.git(site, "push", "-q", "-o", "one", "-o", "two=2", "pool", "main")
    room.same(site, refs=room.refs(site, "refs/heads"))


@once
def merges_and_odd_histories(room: ServerRoom) -> None:
    site = room.pushed()
    arms = []
    for name in ("one", "two", "three"):
        room.git(site, "checkout", "-q", "-b", name, "main~1")
        room.commit(site, name, {f"{name}/f": name})
        arms.append(name)
    room.git(site, "checkout", "-q", "main")
    room.git(site, "merge", "-q", "-m", "Octopus", *arms)
    room.git(site, "checkout", "-q", "--orphan", "root")
    room.git(site, "rm", "-q", "-r", "-f", ".")
    room.commit(site, "Empty root")
    room.git(site, "push", "-q", "pool", "--all")
    room.same(site)
    # A commit that takes back a whole tree that the tenant has, and one that takes all away.
    old = room.name(site, "main~1^{tree}")
    back = room.git(site, "commit-tree", "-p", "main", "-m", "Back", old).decode().strip()
    empty = room.git(site, "mktree").decode().strip()
    none = room.git(site, "commit-tree", "-p", back, "-p", "one", "-m", "Nothing", empty).decode().strip()
    moved = room.git(site, "mktree", data=f"040000 tree {old}\tbelow\n".encode()).decode().strip()
    last = room.git(site, "commit-tree", "-p", none, "-m", "Moved", moved).decode().strip()
    room.git(site, "update-ref", "refs/heads/main", last)
    room.git(site, "push", "-q", "pool", "main")
    room.same(site)


@once
def modes_paths_and_messages(room: ServerRoom) -> None:
    site = room.init("site")
    room.write(site, {'a "b" \\': "a\n", "line\nend": "l\n", '"quoted': "q\n", "x/\u00e9": "e\n"})
    os.symlink("x", room.path(site, "link"))
    with open(os.fsencode(room.path(site)) + b"/\xff\xfe", "wb") as file:
        file.write(bytes(range(256)) * 9)
    room.commit(site, "Paths")
    os.chmod(room.path(site, "x/\u00e9"), 0o755)
    room.git(site, "update-index", "--add", "--cacheinfo", "160000", "1" * 40, "module")
    room.git(site, "-c", "i18n.commitEncoding=ISO-8859-1", "commit", "-q", "-a", "-m", "Modes")
    room.git(site, "commit", "-q", "--allow-empty", "--allow-empty-message", "-m", "")
    room.git(site, "commit", "-q", "--allow-empty", "--cleanup=verbatim", "-m", "get-mark :1\ndone\n\n\n")
    room.git(site, "push", "-q", room.url(), "main")
    room.same(site)
    room.commit(site, "Large", {"large": "0123456789abcdef" * (1 << 20)})
    room.git(site, "push", "-q", room.url(), "main")
    room.same(site)


@once
def head_names_a_branch_that_was_pushed(room: ServerRoom) -> None:
    site = room.init("site", "--initial-branch=trunk")
    room.commit(site, "One", {"a": "a\n"})
    room.git(site, "push", "-q", room.url(), "trunk")
    assert room.tenant_head() == "refs/heads/trunk"
    room.git(site, "push", "-q", room.url(), "trunk:refs/heads/main")
    assert room.tenant_head() == "refs/heads/trunk"
    said = room.fails(site, "push", "-q", room.url(), ":trunk", "trunk:refs/heads/next", says="deletion of the current branch prohibited")
    assert "remote: HEAD names refs/heads/trunk" in said and set(room.tenant_refs()) == {f"refs/heads/{it}" for it in ("main", "next", "trunk")}, said
    assert room.tenant_head() == "refs/heads/trunk"
    command = f"echo option gitpool head refs/heads/next | $GIT_SSH_COMMAND -p {room.ssh[1]} alice@{room.ssh[0]} import acme/site"
    done = room.run(["sh", "-c", command], "")
    assert done.returncode == 0 and room.tenant_head() == "refs/heads/next", text(done.stderr)
    room.git(site, "push", "-q", room.url(), ":trunk")
    room.git(site, "branch", "master")
    room.git(site, "push", "-q", room.url("acme/other"), "trunk:refs/heads/a", "master")
    assert room.tenant_head("acme/other") == "refs/heads/master"


@once
def two_pushes_of_one_ref(room: ServerRoom) -> None:
    """Exactly one of several pushes of the same ref wins, and the others are told to fetch first."""
    site = room.pushed()
    copies = [f"copy{at}" for at in range(4)]
    for turn in range(3):
        for name in copies:
            subprocess.run(["rm", "-rf", room.path(name)], check=True)
            room.git("", "clone", "-q", room.url(), name)
            room.commit(name, f"Of {name}", {name: f"{turn}\n"})
        words = ["git", "push", "-q", "origin", "main"]
        running = [subprocess.Popen(words, cwd=room.path(name), env=room.environment, stderr=subprocess.PIPE) for name in copies]
        said = [process.communicate()[1] for process in running]
        won = [name for name, process in zip(copies, running) if process.returncode == 0]
        assert len(won) == 1, (won, said)
        assert all(b"fetch first" in it or b"rejected" in it for it, process in zip(said, running) if process.returncode), said
        assert room.tenant_refs()["refs/heads/main"] == room.name(won[0], "main")
    room.git(site, "fetch", "-q", "pool")


@once
def pushes_to_many_tenants_at_once(room: ServerRoom) -> None:
    site = room.site()
    running = [subprocess.Popen(["git", "push", "-q", room.url(f"acme/t{at}"), "main", "v1"], cwd=room.path(site), env=room.environment)
               for at in range(6)]
    assert [process.wait() for process in running] == [0] * 6
    for at in range(6):
        room.same(site, f"acme/t{at}", {ref: name for ref, name in room.refs(site).items() if ref in ("refs/heads/main", "refs/tags/v1")})


@once
def a_push_that_is_cut(room: ServerRoom) -> None:
    """A client that is killed while it sends leaves nothing, whenever that is."""
    site = room.pushed()
    before = room.tenant_refs()
    with open(room.path(site, "noise"), "wb") as file:
        file.write(os.urandom(20 << 20))
    room.commit(site, "Noise")
    words = ["git", "-c", "http.postBuffer=65536", "push", "-q", "pool", "main"]
    for wait in (0.05, 0.2, 0.4, 0.8):
        process = subprocess.Popen(words, cwd=room.path(site), env=room.environment, stderr=subprocess.DEVNULL, start_new_session=True)
        time.sleep(wait)
        os.killpg(process.pid, signal.SIGKILL)
        process.wait()
        assert room.tenant_refs()["refs/heads/main"] in (before["refs/heads/main"], room.name(site, "main"))
    # Those that were killed right after their last bytes may come through just now, and this one is refused then.
    wait_for(lambda: room.run(["git", "push", "-q", "pool", "main"], site).returncode == 0)
    room.same(site)


@once
def a_dry_run_changes_nothing(room: ServerRoom) -> None:
    site = room.pushed()
    before = room.tenant_refs()
    room.commit(site, "New", {"n": "n\n"})
    room.git(site, "push", "-q", "--dry-run", "pool", "main", ":light")
    assert room.tenant_refs() == before


@once
def rights(room: ServerRoom) -> None:
    site = room.pushed()
    room.git(site, "push", "-q", room.url("open/site"), "main")
    if room.scheme == "http":
        assert room.git("", "ls-remote", room.url(user="bob"))
        room.fails(site, "push", room.url(user="bob"), "main:refs/heads/b", says="403")
        room.fails("", "ls-remote", room.url("acme/other", user="bob"), says="not found")
        room.fails("", "ls-remote", room.url("acme/none", user="bob"), says="not found")
        assert room.git("", "ls-remote", room.http_url("/open/site.git", ""))
        room.fails("", "ls-remote", room.http_url("/acme/site.git", ""), says="could not read Username")
        room.fails(site, "push", room.http_url("/open/site.git", ""), "main:refs/heads/b", says="could not read Username")
        wrong = room.http_url("/acme/site.git").replace("wonderland", "wondermars")
        room.fails("", "ls-remote", wrong, says="Authentication failed")
    else:
        room.fails("", "ls-remote", room.url(user="bob"), says="Permission denied")
        room.fails("", "ls-remote", room.url("acme//site"), says="no such repository")
        room.fails("", "ls-remote", room.url("../site"), says="no such repository")


