"""Scenes of `git push`: what refs and objects of each kind become."""
from __future__ import annotations

from .room import Room, commit_text, os, scene


@scene
def push_and_clone(room: Room) -> None:
    site = room.pushed()
    room.same(site)
    room.git("", "clone", "-q", room.url(), "copy")
    assert room.name("copy", "HEAD") == room.name(site, "HEAD")
    assert room.git("copy", "status", "--porcelain") == b""
    assert room.git("copy", "symbolic-ref", "HEAD") == b"refs/heads/main\n"


@scene
def a_new_branch(room: Room) -> None:
    site = room.pushed()
    room.git(site, "switch", "-q", "-c", "topic")
    room.commit(site, "On a topic", {"topic.txt": "t\n"})
    room.git(site, "push", "-q", "-u", "pool", "topic")
    assert room.refs(site, "refs/remotes")["refs/remotes/pool/topic"] == room.name(site, "topic")
    room.same(site)


@scene
def a_fast_forward(room: Room) -> None:
    site = room.pushed()
    for count in range(3):
        room.commit(site, f"Change {count}", {"index.html": f"{count}\n"})
    said = room.run(["git", "push", "pool", "main"], site)
    assert said.returncode == 0 and b"main -> main" in said.stderr
    room.same(site)


@scene
def a_rewound_branch_is_rejected(room: Room) -> None:
    site = room.pushed()
    room.git(site, "reset", "-q", "--hard", "HEAD~1")
    room.fails(site, "push", "pool", "main", says="(non-fast-forward)")
    room.commit(site, "Another", {"index.html": "Other\n"})
    before = room.pool_bytes()
    room.fails(site, "push", "pool", "main", says="(non-fast-forward)")
    assert room.pool_bytes() == before


@scene
def what_is_not_here_is_fetched_first(room: Room) -> None:
    site = room.pushed()
    room.git("", "clone", "-q", room.url(), "copy")
    room.commit("copy", "From the copy", {"copy.txt": "c\n"})
    room.git("copy", "push", "-q")
    room.commit(site, "From the site", {"site.txt": "s\n"})
    room.fails(site, "push", "pool", "main", says="(fetch first)")
    room.git(site, "pull", "-q", "--no-rebase", "--no-edit", "pool", "main")
    room.git(site, "push", "-q", "pool", "main")
    room.same(site)


@scene
def a_ref_that_is_kept_is_no_fast_forward(room: Room) -> None:
    site = room.pushed()
    old = room.name(site, "main~1")
    done = room.helper(site, f"list for-push\npush {old}:refs/heads/main\n\n".encode())
    assert b"error refs/heads/main non-fast forward\n" in done.stdout, done.stdout
    assert room.tenant_refs()["refs/heads/main"] == room.name(site, "main")


@scene
def a_forced_push(room: Room) -> None:
    site = room.pushed()
    room.commit(site, "Amended", {"index.html": "Amended\n"}, "--amend")
    room.git(site, "push", "-q", "--force", "pool", "main")
    room.same(site)


@scene
def a_push_with_a_lease(room: Room) -> None:
    site = room.pushed()
    room.git(site, "fetch", "-q", "pool")
    room.git("", "clone", "-q", room.url(), "copy")
    room.commit(site, "Amended", None, "--amend")
    room.git(site, "push", "-q", "--force-with-lease", "pool", "main")
    room.same(site)
    room.commit("copy", "Late", None, "--amend")
    room.fails("copy", "push", "--force-with-lease", says="(stale info)")
    room.same(site)
    # Git quotes such a name where it tells the helper what it has seen.
    room.git(site, "branch", "\u00e4", "main")
    room.git(site, "push", "-q", "pool", "\u00e4")
    room.git(site, "fetch", "-q", "pool")
    room.git(site, "branch", "-f", "\u00e4", "main~1")
    room.git(site, "push", "-q", "--force-with-lease", "pool", "\u00e4")
    room.same(site)


@scene
def deleted_refs(room: Room) -> None:
    site = room.pushed()
    room.git(site, "push", "-q", "pool", "main:refs/heads/old", "main~1:refs/heads/older")
    room.git(site, "push", "-q", "pool", ":old", ":refs/tags/light", ":v1")
    room.git(site, "tag", "-d", "light", "v1")
    room.git(site, "branch", "older", "main~1")
    room.same(site)
    done = room.run(["git", "push", "pool", ":nowhere"], site)
    assert "remote ref does not exist" in done.stderr.decode(), done.stderr


@scene
def annotated_tags(room: Room) -> None:
    site = room.pushed()
    room.git(site, "tag", "-a", "-m", "Second\n\nWith a body\n", "v2", "main~1")
    room.git(site, "tag", "-a", "--cleanup=verbatim", "-m", "", "empty-message")
    room.git(site, "push", "-q", "--tags", "pool")
    room.same(site)
    room.git(site, "tag", "-f", "-a", "-m", "Moved", "v2", "main")
    room.fails(site, "push", "pool", "v2", says="already exists")
    room.git(site, "push", "-q", "--force", "pool", "v2")
    room.same(site)


@scene
def tags_that_follow_commits(room: Room) -> None:
    site = room.pushed()
    room.commit(site, "Tagged", {"t": "t\n"})
    room.git(site, "tag", "-a", "-m", "Follows", "follows")
    room.git(site, "push", "-q", "--follow-tags", "pool", "main")
    room.same(site)


@scene
def a_tag_of_a_tag(room: Room) -> None:
    site = room.pushed()
    room.git(site, "tag", "-a", "-m", "Outer", "outer", "v1")
    room.git(site, "tag", "-a", "-m", "Outermost", "outermost", "outer")
    room.git(site, "push", "-q", "pool", "outermost", "outer")
    room.same(site)


@scene
def a_tag_of_a_tag_without_a_ref(room: Room) -> None:
    site = room.site()
    room.git(site, "tag", "-a", "-m", "Inner", "inner")
    room.git(site, "tag", "-a", "-m", "Outer", "outer", "inner")
    room.git(site, "tag", "-d", "inner")
    room.git(site, "push", "-q", "pool", "main", "light", "v1", "outer")
    mirror = room.same(site)
    assert room.git(mirror, "cat-file", "tag", "outer^{tag}").startswith(b"object ")


@scene
def a_tag_of_a_tag_whose_name_has_another_ref(room: Room) -> None:
    site = room.pushed()
    room.git(site, "tag", "-a", "-m", "Other", "inner", "main~1")
    room.git(site, "push", "-q", "pool", "inner")
    kept = room.name(site, "inner")
    room.git(site, "tag", "-f", "-a", "-m", "Inner", "inner")
    room.git(site, "tag", "-a", "-m", "Outer", "outer", "inner")
    room.git(site, "update-ref", "refs/tags/inner", kept)
    room.git(site, "push", "-q", "pool", "outer")
    room.same(site)
    room.git(site, "tag", "-f", "inner", "main")
    room.git(site, "push", "-q", "--force", "pool", "inner")
    room.same(site)
    # A new tag of a new tag, and a commit under the name of the inner one, in one push.
    room.git(site, "tag", "-a", "-m", "Deep", "deep", "main~1")
    room.git(site, "tag", "-a", "-m", "Deeper", "deeper", "deep")
    room.git(site, "tag", "-f", "deep", "main")
    room.git(site, "push", "-q", "pool", "deep", "deeper")
    room.same(site)


@scene
def a_tag_of_a_blob(room: Room) -> None:
    site = room.pushed()
    room.git(site, "tag", "-a", "-m", "A file", "file", room.name(site, "main:index.html"))
    room.git(site, "tag", "-a", "-m", "A key", "key", room.git(site, "hash-object", "-w", "--stdin", data=b"key\n").decode().strip())
    room.git(site, "push", "-q", "pool", "file", "key")
    room.same(site)


@scene
def a_deleted_tag_comes_back(room: Room) -> None:
    site = room.pushed()
    room.git(site, "push", "-q", "pool", ":v1")
    room.git(site, "push", "-q", "pool", "v1")
    room.same(site)


@scene
def merges(room: Room) -> None:
    site = room.pushed()
    room.git(site, "switch", "-q", "-c", "left", "main~1")
    room.commit(site, "Left", {"left.txt": "l\n"})
    room.git(site, "switch", "-q", "main")
    room.commit(site, "Right", {"right.txt": "r\n"})
    room.git(site, "merge", "-q", "--no-ff", "-m", "Both", "left")
    room.git(site, "merge", "-q", "-s", "ours", "--no-ff", "-m", "Ours", "left~1", "--allow-unrelated-histories")
    room.git(site, "push", "-q", "pool", "main", "left")
    room.same(site)


@scene
def an_octopus(room: Room) -> None:
    site = room.pushed()
    for arm in ("one", "two", "three"):
        room.git(site, "switch", "-q", "-c", arm, "main~1")
        room.commit(site, arm, {f"{arm}.txt": arm})
    room.git(site, "switch", "-q", "main")
    room.git(site, "merge", "-q", "-m", "Octopus", "one", "two", "three")
    assert len(room.git(site, "rev-list", "-1", "--parents", "main").split()) == 5
    room.git(site, "push", "-q", "pool", "--all")
    room.same(site)


@scene
def roots_of_several_histories(room: Room) -> None:
    stream = "".join(commit_text(f"Root {it}", branch=f"refs/heads/r{it}", changes=f"M 644 inline f{it}\ndata 2\n{it}\n") for it in range(4))
    tree = "deleteall\nM 644 inline all\ndata 4\nall\n"
    for name, order in (("ab", (0, 1, 2, 3)), ("ba", (3, 1, 0, 2)), ("twice", (2, 2, 2))):
        starts = "".join(f"{'merge' if place else 'from'} refs/heads/r{root}\n" for place, root in enumerate(order))
        stream += commit_text(name, branch=f"refs/heads/{name}", starts=starts, changes=tree)
    room.imported("roots", stream.encode())
    room.git("roots", "push", "-q", room.url(), "refs/heads/*:refs/heads/*")
    room.same("roots")


@scene
def gitlinks(room: Room) -> None:
    site = room.pushed()
    other = room.init("other")
    room.commit(other, "Other", {"o": "o\n"})
    room.git(site, "submodule", "--quiet", "add", room.path(other), "lib/other")
    room.commit(site, "A submodule")
    room.git(site, "config", "diff.ignoreSubmodules", "all")
    room.commit(other, "More", {"o": "p\n"})
    room.git(os.path.join(site, "lib/other"), "pull", "-q")
    room.git(site, "update-index", "--cacheinfo", f"160000,{room.name(other, 'main')},lib/other")
    room.git(site, "commit", "-q", "--allow-empty", "-m", "Newer")
    assert room.name(site, "main:lib/other") == room.name(other, "main")
    room.git(site, "push", "-q", "pool", "main")
    room.same(site)


@scene
def modes_of_files(room: Room) -> None:
    site = room.pushed()
    room.write(site, {"run": "#!/bin/sh\n", "plain": "p\n"})
    os.chmod(room.path(site, "run"), 0o755)
    os.symlink("plain", room.path(site, "link"))
    os.symlink("../no/such/file", room.path(site, "css/dangling"))
    room.commit(site, "Modes")
    os.chmod(room.path(site, "run"), 0o644)
    os.chmod(room.path(site, "plain"), 0o755)
    os.unlink(room.path(site, "link"))
    room.write(site, {"link": "now a file\n"})
    room.commit(site, "Other modes")
    room.git(site, "push", "-q", "pool", "main")
    room.same(site)


@scene
def files_become_directories(room: Room) -> None:
    site = room.pushed()
    room.commit(site, "A file", {"a": "1\n", "b/c/d": "2\n", "b/e": "3\n"})
    room.git(site, "rm", "-q", "-r", "a", "b")
    room.commit(site, "Turned round", {"a/x/y": "1\n", "b": "2\n"})
    room.git(site, "rm", "-q", "-r", "a", "b")
    room.commit(site, "Back", {"a": "1\n", "b/c/d": "2\n", "b/e": "3\n", "ab": "4\n", "a.c": "5\n"})
    room.git(site, "mv", "css", "style")
    room.commit(site, "Renamed")
    room.git(site, "push", "-q", "pool", "main")
    room.same(site)


@scene
def paths_in_quotes(room: Room) -> None:
    site = room.pushed()
    names = ['a "quoted" name', '"begins', "tab\there", "new\nline", "back\\slash", " space ", "trailing ", "nul\x01", "-dash", ":colon",
             "a\rb", "bell\a", "ünï/ćode", "del\x7f", "#hash", "inline", "from main", "D x", '"', "\n", "\\", "...", "a..b", ".gitfoo"]
    room.commit(site, "Names", {f"odd/{name}": name for name in names})
    for name in names[::2]:
        os.unlink(room.path(site, "odd", name))
    room.commit(site, "Fewer", {f"odd/{name}": "changed" for name in names[1::2]})
    room.git(site, "push", "-q", "pool", "main")
    room.same(site)


@scene
def paths_that_are_not_utf_8(room: Room) -> None:
    site = room.pushed()
    folder = os.fsencode(room.path(site))
    for name in (b"latin-\xe9", b"\xff\xfe/\x80", b"mixed-\xc3\xa9-\xe9"):
        os.makedirs(os.path.dirname(os.path.join(folder, name)), exist_ok=True)
        with open(os.path.join(folder, name), "wb") as file:
            file.write(name)
    room.commit(site, "Bytes")
    room.git(site, "push", "-q", "pool", "main")
    room.same(site)


@scene
def encodings(room: Room) -> None:
    stream = commit_text("x", more="encoding ISO-8859-1\n").encode().replace(b"data 1\nx", b"data 2\n\xe9\n")
    stream += commit_text("y", more="encoding latin 1, of a kind\n").encode()
    room.imported("latin", stream)
    room.git("latin", "push", "-q", room.url(), "main")
    room.same("latin")


@scene
def empty_commits(room: Room) -> None:
    site = room.init("site")
    room.commit(site, "Of nothing")
    room.commit(site, "Of nothing again")
    room.commit(site, "A file", {"a": "a\n"})
    room.commit(site, "The same file")
    room.git(site, "rm", "-q", "a")
    room.commit(site, "Nothing is left")
    room.git(site, "push", "-q", room.url(), "main")
    room.same(site)


@scene
def odd_messages(room: Room) -> None:
    messages = [b"", b"\n", b"no line end", b"two\n\n\n", b"\n\nbegins empty", b"nul \0 byte\n", b"\xff\xfe\n", b"from x\nM 644 a b\n",
                b"data 5\n", b"kept refs/heads/main\n", b"a" * 100_000, b"tab\t\r\n"]
    stream = b"reset refs/heads/main\n"
    for count, message in enumerate(messages):
        stream += b"commit refs/heads/main\ncommitter A <a@b> %d +0000\ndata %d\n%b\n" % (count, len(message), message)
        stream += b"M 644 inline f\ndata 2\n%02d\n" % count
    room.imported("odd", stream)
    room.git("odd", "push", "-q", room.url(), "main")
    names = room.git("odd", "rev-list", "main").split()
    assert len(names) == len(messages)
    # (git's checks do not let a message with a NUL in)
    room.git("", "clone", "-q", "--mirror", "-c", "fetch.fsckObjects=false", room.url(), "back")
    for name in names:
        assert room.git("back", "cat-file", "commit", name.decode()) == room.git("odd", "cat-file", "commit", name.decode())
    assert room.tenant_refs() == room.refs("odd")


@scene
def odd_dates_and_people(room: Room) -> None:
    idents = ["A <a@b> 0 +0000", "A <a@b> 1 -1200", "A <a@b> 253402300799 +1400", "A <a@b> 1700000000 +0545", "A <a@b> 1700000000 -0000",
              "Ünï Cödé <ü@b> 1700000000 +0000", "A  B   C <a b@c d> 1700000000 -0930", " <> 1700000000 +0000", "A <> 1 +0001",
              "a.b,c;d:e\\f\"g' <x> 1700000000 +0000"]
    stream = ""
    for count, ident in enumerate(idents):
        stream += f"commit refs/heads/main\nauthor {ident}\ncommitter {idents[-1 - count]}\ndata 2\nm\nM 644 inline f\ndata 1\n{count}\n"
    room.imported("odd", stream.encode())
    room.git("odd", "push", "-q", room.url(), "main")
    assert room.tenant_refs() == room.refs("odd")
    room.git("", "clone", "-q", "--mirror", room.url(), "back")
    assert room.refs("back") == room.refs("odd") and room.objects("back") == room.objects("odd")


@scene
def names_of_refs(room: Room) -> None:
    site = room.pushed()
    for name in ("ünï", "a#b", "a'b", 'a"b', "a;b", "$x", "-dash", "a@b", "v1", "light", "HEAD", "a{b}", "x,y", "!", "%41", "refs/heads/main"):
        room.git(site, "update-ref", f"refs/heads/{name}", "main")
        room.git(site, "update-ref", f"refs/tags/t{name}", "main~1")
    room.git(site, "push", "-q", "pool", "refs/heads/*:refs/heads/*", "refs/tags/*:refs/tags/*")
    room.same(site)
    room.git(site, "push", "-q", "pool", ":refs/heads/v1", ":refs/tags/ta#b")
    room.git(site, "update-ref", "-d", "refs/heads/v1")
    room.git(site, "update-ref", "-d", "refs/tags/ta#b")
    room.same(site)


@scene
def a_ref_below_a_ref_is_rejected(room: Room) -> None:
    site = room.pushed()
    room.git(site, "push", "-q", "pool", "main:refs/heads/a")
    said = room.fails(site, "push", "pool", "main:refs/heads/a/b", says="[remote rejected]")
    assert "refs/heads/a" in said
    room.fails(site, "push", "pool", "main:refs/heads/main/x", says="[remote rejected]")
    room.git(site, "push", "-q", "pool", ":refs/heads/a", "main:refs/heads/a/b")
    room.git(site, "update-ref", "refs/heads/a/b", "main")
    room.same(site)


@scene
def other_refs(room: Room) -> None:
    site = room.pushed()
    room.git(site, "notes", "add", "-m", "A note", "main")
    room.git(site, "update-ref", "refs/pull/1/head", "main~1")
    room.git(site, "push", "-q", "pool", "refs/notes/*:refs/notes/*", "refs/pull/1/head")
    room.git(site, "remote", "remove", "pool")
    room.same(site, refs=room.refs(site))


@scene
def a_mirror(room: Room) -> None:
    site = room.pushed()
    room.git("", "clone", "-q", "--mirror", site, "mirror")
    room.git("mirror", "push", "-q", "--mirror", room.url())
    room.same("mirror", refs=room.refs("mirror"))
    room.git(site, "branch", "more")
    room.git(site, "tag", "-d", "light")
    room.commit(site, "Amended", {"more": "m\n"}, "--amend")
    room.git("mirror", "remote", "update", "--prune")
    room.git("mirror", "push", "-q", "--mirror", room.url())
    room.same("mirror", refs=room.refs("mirror"))
    assert "refs/tags/light" not in room.tenant_refs()


@scene
def all_or_nothing(room: Room) -> None:
    site = room.pushed()
    room.git(site, "branch", "good")
    room.git(site, "reset", "-q", "--hard", "HEAD~1")
    room.commit(site, "Rewound", {"x": "x\n"})
    before = room.pool_bytes()
    said = room.fails(site, "push", "--atomic", "pool", "main", "good", says="atomic push failed")
    assert "non-fast-forward" in said
    assert room.pool_bytes() == before
    old = room.name(site, "main~1")
    lines = f"option atomic true\nlist for-push\npush {old}:refs/heads/main\npush refs/heads/good:refs/heads/good\n\n"
    done = room.helper(site, lines.encode())
    assert b"error refs/heads/main non-fast forward\nerror refs/heads/good atomic push failed\n" in done.stdout, done.stdout
    assert room.pool_bytes() == before
    room.git(site, "push", "-q", "--atomic", "--force", "pool", "main", "good")
    room.same(site)


@scene
def one_rejected_ref_of_several(room: Room) -> None:
    site = room.pushed()
    room.git(site, "branch", "good")
    room.git(site, "reset", "-q", "--hard", "HEAD~1")
    room.fails(site, "push", "pool", "main", "good", says="non-fast-forward")
    refs = room.tenant_refs()
    assert refs["refs/heads/good"] == room.name(site, "good") == refs["refs/heads/main"]


@scene
def a_dry_run(room: Room) -> None:
    site = room.pushed()
    room.commit(site, "New", {"n": "n\n"})
    before = room.pool_bytes()
    done = room.run(["git", "push", "--dry-run", "pool", "main", ":light"], site)
    assert done.returncode == 0 and b"main -> main" in done.stderr and b"[deleted]" in done.stderr, done.stderr
    assert room.pool_bytes() == before
    room.git(site, "push", "-q", "pool", "main")
    room.same(site)


@scene
def head_names_the_branch_that_is_there(room: Room) -> None:
    site = room.init("site", "--initial-branch=trunk")
    room.commit(site, "One", {"a": "a\n"})
    room.git(site, "branch", "aaa")
    room.git(site, "push", "-q", room.url(), "aaa", "trunk")
    assert room.tenant_head() == "refs/heads/trunk"
    mirror = room.same(site)
    assert room.git(mirror, "symbolic-ref", "HEAD") == b"refs/heads/trunk\n"
    # It stays where it names a branch, and moves where that goes.
    room.git(site, "push", "-q", room.url(), "trunk:refs/heads/main")
    assert room.tenant_head() == "refs/heads/trunk"
    room.git(site, "push", "-q", room.url(), ":trunk", "aaa:refs/heads/next")
    assert room.tenant_head() == "refs/heads/next"


@scene
def head_of_a_detached_worktree(room: Room) -> None:
    site = room.pushed()
    room.git(site, "checkout", "-q", "--detach", "HEAD~1")
    room.commit(site, "Detached", {"d": "d\n"})
    room.git(site, "push", "-q", "pool", "HEAD:refs/heads/detached")
    room.git(site, "branch", "detached")
    room.same(site)
    room.git("", "clone", "-q", room.url(), "copy")
    room.git("copy", "push", "-q", room.url("other"), "origin/detached:refs/heads/d")
    assert room.tenant_head("other") == "refs/heads/d"


@scene
def from_odd_places(room: Room) -> None:
    site = room.pushed()
    room.commit(site, "Deeper", {"in/side/f": "f\n"})
    room.git(os.path.join(site, "in/side"), "push", "-q", "pool", "main")
    room.git(site, "worktree", "add", "-q", "-b", "tree", room.path("tree"))
    room.commit("tree", "In a worktree", {"w": "w\n"})
    room.git("tree", "push", "-q", "pool", "tree")
    room.git(site, "worktree", "remove", "--force", room.path("tree"))
    room.git("", "push", "-q", room.url(), "main~1:refs/heads/by-git-dir", GIT_DIR=room.path(site, ".git"))
    room.git(site, "branch", "by-git-dir", "main~1")
    room.same(site)


@scene
def relative_pools(room: Room) -> None:
    site = room.site()
    room.git(site, "push", "-q", "gitpool::../all.pool#acme/site", "main", "light", "v1")
    room.git("", "clone", "-q", "gitpool::all.pool#acme/site", "copy")
    room.same(site)
    room.fails("copy", "fetch", says="there is no pool file all.pool in")


@scene
def replaced_objects_stay_as_they_are(room: Room) -> None:
    site = room.pushed()
    other = room.name(site, "main~1")
    room.git(site, "replace", "main", other)
    room.git(site, "push", "-q", "pool", "main:refs/heads/real")
    assert room.tenant_refs()["refs/heads/real"] == room.name(site, "main")
    room.git(site, "replace", "-d", "main")
    room.git(site, "branch", "real")
    room.same(site)


@scene
def what_was_there_before_is_used_again(room: Room) -> None:
    site = room.pushed()
    first = room.name(site, "main^{tree}")
    room.commit(site, "Other", {"index.html": "Other\n"})
    room.git(site, "revert", "--no-edit", "HEAD")
    assert room.name(site, "main^{tree}") == first
    room.git(site, "push", "-q", "pool", "main")
    room.git(site, "branch", "again", room.git(site, "commit-tree", "-m", "Same tree", first).decode().strip())
    room.git(site, "push", "-q", "pool", "again", "main:refs/heads/twin")
    room.git(site, "branch", "twin", "main")
    room.same(site)


@scene
def large_files(room: Room) -> None:
    site = room.pushed()
    block = os.urandom(1 << 16)
    with open(room.path(site, "large"), "wb") as file:
        for count in range(300):
            file.write(bytes((count & 255,)) + block)
    room.commit(site, "Large", {"empty": ""})
    room.git(site, "push", "-q", "pool", "main")
    room.same(site)


@scene
def a_push_sends_what_is_missing(room: Room) -> None:
    site = room.pushed()
    room.commit(site, "New", {"new.txt": "new\n"})
    # The old page again: the tenant has it, though no ref that is near reaches it.
    room.commit(site, "Old", {"index.html": "Hello\n"})
    room.git(site, "push", "-q", "pool", "main", GITPOOL=room.recording())
    fed = b"".join(body for kind, body in room.recorded() if kind == 2)
    assert fed.count(b"blob\n") == 1 and b"data 4\nnew\n" in fed, fed
    assert fed.count(b"commit refs/") == 2, fed
    room.same(site)
    room.git(site, "push", "-q", "pool", "main:refs/heads/same", GITPOOL=room.recording())
    fed = b"".join(body for kind, body in room.recorded() if kind == 2)
    assert b"blob" not in fed and b"commit" not in fed, fed
