"""Scenes of `git clone` and `git fetch`."""
from __future__ import annotations

from typing import List

from .room import Kind, Room, os, scene, subprocess


def asked_for(room: Room) -> List[bytes]:
    """The names of the objects whose entries a fetch asked for that was recorded."""
    bodies = [body[8:] for kind, body in room.recorded() if kind == Kind.ENTRIES]
    return [body[at : at + 20].hex().encode() for body in bodies for at in range(0, len(body), 20)]


@scene
def an_empty_tenant(room: Room) -> None:
    site = room.pushed()
    done = room.run(["git", "clone", room.url("nobody"), "empty"])
    assert done.returncode == 0 and b"empty repository" in done.stderr, done.stderr
    assert room.refs("empty") == {}
    room.commit("empty", "First", {"a": "a\n"})
    room.git("empty", "push", "-q", "-u", "origin", "HEAD")
    room.same("empty", "nobody")
    room.same(site)


@scene
def a_fetch_asks_for_what_is_missing(room: Room) -> None:
    site = room.pushed()
    room.git("", "clone", "-q", room.url(), "copy")
    room.commit(site, "New", {"css/b.css": "b{}\n"})
    room.commit(site, "Old", {"index.html": "Hello\n"})
    new = room.objects(site, "main", "^main~2")
    room.git(site, "push", "-q", "pool", "main")
    room.git("copy", "fetch", "-q", GITPOOL=room.recording())
    # The old page is here already.
    assert set(asked_for(room)) == new - {room.name(site, "main:index.html").encode()}, asked_for(room)
    assert room.name("copy", "origin/main") == room.name(site, "main")
    room.is_sound("copy")
    room.git("copy", "fetch", "-q", GITPOOL=room.recording())
    assert not asked_for(room)


@scene
def own_commits_hide_nothing(room: Room) -> None:
    site = room.pushed()
    room.git("", "clone", "-q", room.url(), "copy")
    for count in range(3):
        room.commit("copy", f"Mine {count}", {"mine": f"{count}\n"})
    room.git("copy", "update-ref", "-d", "refs/remotes/origin/main")
    room.git("copy", "tag", "-d", "light", "v1")
    room.commit(site, "New", {"css/b.css": "b{}\n"})
    room.git(site, "push", "-q", "pool", "main")
    new = room.objects(site, "main", "^main~1")
    # The tenant does not know what main of the copy holds, but a commit below that.
    room.git("copy", "fetch", "-q", "--no-tags", "origin", "main", GITPOOL=room.recording())
    assert set(asked_for(room)) == new or not room.has_helper, asked_for(room)
    room.is_sound("copy")


@scene
def a_fetch_leaves_the_pool_file(room: Room) -> None:
    site = room.pushed()
    before = os.stat(room.pool)
    room.git("", "clone", "-q", room.url(), "copy")
    room.git(site, "fetch", "-q", "pool")
    room.git("", "ls-remote", room.url())
    after = os.stat(room.pool)
    assert (before.st_ino, before.st_mtime_ns, before.st_nlink) == (after.st_ino, after.st_mtime_ns, after.st_nlink)
    left = [it for it in os.listdir(room.folder) if it.startswith((".gitpool-", "gitpool-", "all.pool."))]
    assert not left, left


@scene
def rooms_that_killed_fetches_left_go(room: Room) -> None:
    room.pushed()
    words = ["gitpool-shell", "--pool", room.pool, "acme/site", "fetch"]
    begun = [subprocess.Popen(words, env=dict(room.environment, TMPDIR=room.folder), stdin=subprocess.PIPE, stdout=subprocess.PIPE) for _ in "ab"]
    for it in begun:
        assert it.stdin and it.stdout
        it.stdin.write(b"\4\0\1t\0\0\0\4refs")
        it.stdin.flush()
        it.stdout.read(17)
    rooms = [room.path(it) for it in os.listdir(room.folder) if it.startswith(".gitpool-")]
    begun[0].kill()
    begun[0].communicate()  # (the program ends by itself then)
    assert len(rooms) == 2, rooms
    for name in rooms:
        os.utime(name, (0, 0))
    room.git("", "ls-remote", room.url(), TMPDIR=room.folder)
    assert [os.path.exists(it) for it in rooms].count(True) == 1, rooms
    assert begun[1].communicate()[0] == b"" and begun[1].returncode == 0
    assert not [it for it in os.listdir(room.folder) if it.startswith(".gitpool-")]


@scene
def a_fetch_says_nothing(room: Room) -> None:
    site = room.pushed()
    for at, words in (("", ("clone", "-q", room.url(), "copy")), (site, ("fetch", "-q", "pool")), (site, ("push", "-q", "pool", "main:x"))):
        done = room.run(["git", *words], at)
        assert done.returncode == 0 and not done.stderr, done


@scene
def a_fetch_into_a_shallow_repository(room: Room) -> None:
    site = room.pushed()
    for count in range(6):
        room.commit(site, f"Change {count}", {"old": f"{count % 3}\n", f"d{count}/f": f"{count}\n"})
    room.git(site, "push", "-q", "pool", "main")
    room.git("", "clone", "-q", "--depth", "2", "file://" + room.path(site), "shallow")
    room.git("shallow", "remote", "add", "pool", room.url())
    # The files of this commit are those of one that is not here.
    room.git(site, "rm", "-q", "-r", "d5", "d4")
    room.commit(site, "As long ago", {"old": "0\n", "css/a.css": "b{}\n"})
    room.git(site, "push", "-q", "pool", "main", "main~4:refs/heads/below")
    room.git("shallow", "fetch", "-q", "pool", "main", GITPOOL=room.recording())
    assert room.name("shallow", "FETCH_HEAD") == room.name(site, "main")
    assert room.git(site, "rev-parse", "main~3").strip() not in asked_for(room), "the history came that was cut off"
    room.is_sound("shallow")
    # What is below the cut comes with all that is below it.
    room.git("shallow", "fetch", "-q", "--no-tags", "pool", "below:below")
    assert room.git("shallow", "rev-list", "below") == room.git(site, "rev-list", "main~4")
    room.is_sound("shallow")


@scene
def objects_that_no_ref_reaches_do_no_harm(room: Room) -> None:
    site = room.pushed()
    room.git("", "clone", "-q", room.url(), "copy")
    room.commit(site, "New", {"new/a": "a\n", "new/b": "b\n"})
    room.commit(site, "Newer", {"new/a": "c\n"})
    room.git(site, "push", "-q", "pool", "main")
    # The copy has the middle commit without its parent's ref, and a tree without one of its blobs.
    for name in ("main~1", "main~1^{tree}", "main~1:new", "main:new"):
        kind = room.git(site, "cat-file", "-t", name).decode().strip()
        data = room.git(site, "cat-file", kind, name)
        room.git("copy", "hash-object", "-w", "-t", kind, "--stdin", data=data)
    room.git("copy", "fetch", "-q")
    assert room.name("copy", "origin/main") == room.name(site, "main")
    room.is_sound("copy")


@scene
def the_empty_tree_is_fetched(room: Room) -> None:
    site = room.pushed()
    room.git("", "clone", "-q", room.url(), "copy")
    room.git(site, "rm", "-q", "-r", "css", "index.html")
    room.commit(site, "Nothing is left")
    room.commit(site, "Still nothing")
    room.git(site, "push", "-q", "pool", "main")
    room.git("copy", "pull", "-q")
    room.is_sound("copy")
    assert not os.path.exists(room.path("copy", "css"))


@scene
def fetches_of_all_kinds_of_refs(room: Room) -> None:
    site = room.pushed()
    room.git("", "clone", "-q", room.url(), "copy")
    room.git(site, "switch", "-q", "-c", "topic")
    room.commit(site, "Topic", {"t": "t\n"})
    room.git(site, "tag", "-a", "-m", "Tagged", "v2")
    room.git(site, "tag", "-a", "-m", "Nested", "v3", "v2")
    room.git(site, "tag", "-a", "-m", "Blob", "vb", room.name(site, "main:index.html"))
    room.git(site, "push", "-q", "pool", "topic", "v2", "v3", "vb")
    room.git("copy", "fetch", "-q")
    assert {"refs/tags/v2", "refs/remotes/origin/topic"} <= set(room.refs("copy"))
    room.git("copy", "fetch", "-q", "--tags")
    assert room.refs("copy", "refs/tags") == room.refs(site, "refs/tags")
    room.is_sound("copy")


@scene
def moved_and_deleted_refs(room: Room) -> None:
    site = room.pushed()
    room.git(site, "push", "-q", "pool", "main:refs/heads/gone", "main:refs/heads/moved")
    room.git("", "clone", "-q", room.url(), "copy")
    room.commit(site, "Amended", {"m": "m\n"}, "--amend")
    room.git(site, "push", "-q", "--force", "pool", "main:moved", ":gone", ":light")
    room.git("copy", "fetch", "-q", "--prune", "--prune-tags")
    refs = room.refs("copy")
    assert refs["refs/remotes/origin/moved"] == room.name(site, "main")
    assert "refs/remotes/origin/gone" not in refs and "refs/tags/light" not in refs
    room.is_sound("copy")


@scene
def pulls(room: Room) -> None:
    site = room.pushed()
    room.git("", "clone", "-q", room.url(), "copy")
    for count in range(3):
        room.commit(site, f"Site {count}", {"s": f"{count}\n"})
        room.git(site, "push", "-q", "pool", "main")
        room.commit("copy", f"Copy {count}", {"c": f"{count}\n"})
        room.git("copy", "pull", "-q", "--no-rebase", "--no-edit")
        room.git("copy", "push", "-q")
        room.git(site, "pull", "-q", "--ff-only", "pool", "main")
    assert room.name(site, "main") == room.name("copy", "main")
    room.same(site)


@scene
def clones_of_all_kinds(room: Room) -> None:
    site = room.pushed()
    room.git(site, "push", "-q", "pool", "main~1:refs/heads/other")
    room.git("", "clone", "-q", "--bare", room.url(), "bare")
    assert set(room.refs("bare")) == {"refs/heads/main", "refs/heads/other", "refs/tags/light", "refs/tags/v1"}
    room.git("", "clone", "-q", "--branch", "other", room.url(), "branch")
    assert room.name("branch", "HEAD") == room.name(site, "main~1")
    room.git("", "clone", "-q", "--branch", "v1", room.url(), "tag")
    assert room.name("tag", "HEAD") == room.name(site, "main")
    room.git("", "clone", "-q", "--single-branch", "--branch", "other", room.url(), "single")
    assert set(room.refs("single")) == {"refs/heads/other", "refs/remotes/origin/other"}, room.refs("single")
    room.git("", "clone", "-q", "--no-tags", room.url(), "untagged")
    assert not room.refs("untagged", "refs/tags")
    room.git("", "clone", "-q", "--reference", site, room.url(), "borrowing")
    room.git("", "clone", "-q", "--no-checkout", "-c", "fetch.fsckObjects=false", room.url(), "unchecked")
    room.git("", "-c", "pack.indexVersion=1", "clone", "-q", "--bare", room.url(), "indexed")
    for name in ("bare", "branch", "tag", "single", "untagged", "borrowing", "unchecked", "indexed"):
        room.is_sound(name)


@scene
def a_clone_of_a_tag_and_a_branch_of_one_name(room: Room) -> None:
    site = room.pushed()
    room.git(site, "branch", "v1", "main~1")
    room.git(site, "push", "-q", "pool", "refs/heads/v1:refs/heads/v1")
    room.same(site)
    room.git(site, "push", "-q", "pool", ":refs/heads/v1")
    assert room.tenant_refs()["refs/tags/v1"] == room.name(site, "refs/tags/v1")


@scene
def lists_of_refs(room: Room) -> None:
    site = room.pushed()
    listed = room.git("", "ls-remote", room.url()).decode().splitlines()
    main, tag = room.name(site, "main"), room.name(site, "v1")
    assert listed == [f"{main}\tHEAD", f"{main}\trefs/heads/main", f"{main}\trefs/tags/light", f"{tag}\trefs/tags/v1",
                      f"{main}\trefs/tags/v1^{{}}"], listed
    assert room.git("", "ls-remote", "--symref", room.url(), "HEAD").decode().startswith("ref: refs/heads/main\tHEAD\n")
    assert b"HEAD branch: main" in room.git(site, "remote", "show", "pool")
    room.git("", "clone", "-q", room.url(), "copy")
    room.git("copy", "remote", "set-head", "origin", "--auto")
    room.git("copy", "remote", "prune", "origin")


@scene
def a_fetch_by_name(room: Room) -> None:
    site = room.pushed()
    room.init("copy")
    main = room.name(site, "main")
    room.git("copy", "fetch", "-q", room.url(), "refs/heads/main:refs/heads/here", "refs/tags/v1:refs/tags/there")
    assert room.name("copy", "here") == main
    room.is_sound("copy")


@scene
def progress_as_git_shows_it(room: Room) -> None:
    site = room.pushed()
    done = room.run(["git", "clone", "--progress", room.url(), "copy"])
    assert b"Receiving objects: 100%" in done.stderr, done.stderr
    room.commit(site, "More", {"m": "m\n"})
    done = room.run(["git", "push", "--progress", "pool", "main"], site)
    assert b"Writing objects: 100% (2/2), done." in done.stderr, done.stderr
    for words in (["clone", room.url(), "quiet"], ["clone", "-q", "--progress", room.url(), "quieter"]):
        said = room.run(["git", *words]).stderr
        assert b"objects" not in said, said


@scene
def shallow_clones_are_refused(room: Room) -> None:
    room.pushed()
    room.fails("", "clone", "--depth", "1", room.url(), "shallow", says="shallow and partial clones are not served")
    assert not os.path.exists(room.path("shallow"))
    room.fails("", "clone", "--filter=blob:none", room.url(), "partial", says="shallow and partial clones are not served")


@scene
def a_shallow_repository_may_push(room: Room) -> None:
    site = room.pushed()
    room.git("", "clone", "-q", "--depth", "1", "file://" + room.path(site), "shallow")
    room.commit("shallow", "On top", {"top": "t\n"})
    room.git("shallow", "push", "-q", room.url(), "HEAD:refs/heads/top")
    room.git(site, "fetch", "-q", "pool", "top:top")
    room.same(site)
    room.fails("shallow", "push", room.url("another"), "HEAD:refs/heads/top", says="not shallow")
    assert room.tenant_refs("another") == {}


@scene
def two_tenants(room: Room) -> None:
    site = room.pushed()
    other = room.init("other")
    room.commit(other, "A page", {"index.html": "Hello\n"})
    secret = room.commit(other, "A secret", {"secret": "secret\n"})
    room.git(other, "push", "-q", room.url("acme/other"), "main")
    room.same(site)
    room.same(other, "acme/other")
    assert secret not in room.git("", "ls-remote", room.url()).decode()
    # By its name alone nobody gets what is another's: not by a fetch, and not by a stream.
    room.fails(site, "fetch", "pool", secret, says="")
    assert room.run(["git", "cat-file", "-e", secret], site).returncode != 0
    stream = f"commit refs/heads/thief\ncommitter A <a@b> 1 +0000\ndata 0\nfrom {secret}\n".encode()
    done = room.client("gitpool-import", "-", "acme/site", "--pool", room.pool, data=stream, status=1)
    assert b"line 4: from" in done.stderr and b"fault 16" in done.stderr, done.stderr
    room.same(site)


@scene
def a_long_history(room: Room) -> None:
    stream, count = [], 400
    for it in range(count):
        stream.append(f"blob\nmark :{2 * it + 1}\ndata 9\nfile {it:4}\n")
        stream.append(f"commit refs/heads/main\nmark :{2 * it + 2}\ncommitter A <a@b> {1700000000 + it} +0000\ndata 5\n{it:5}\n")
        stream.append(f"M 644 :{2 * it + 1} d{it % 7}/e{it % 5}/f{it % 40}\n")
        if it % 50 == 49:
            stream.append(f"D d{it % 7}/e{it % 5}/f{it % 40}\nM 755 :{2 * it + 1} new{it}\n")
    room.imported("long", "".join(stream).encode())
    room.git("long", "push", "-q", room.url(), "main")
    mirror = room.same("long")
    assert room.git(mirror, "rev-list", "--count", "main").split() == [str(count).encode()]
    room.git("", "clone", "-q", room.url(), "copy")
    room.commit("copy", "One more", {"d1/e1/f1": "x\n"})
    room.git("copy", "push", "-q")
    room.git("long", "fetch", "-q", room.url(), "main:main")
    room.same("long")
