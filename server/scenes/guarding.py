"""Scenes of refs that are protected, and of hooks that judge a push before it changes anything."""
from __future__ import annotations

import os

from commanding import command, token
from scenes.room import text
from served import ServerRoom, once, over_http, scene
from streams_over_ssh import said

WHO = "committer a <a@b> 1 +0000\ndata 2\nm\n"


def protect(room: ServerRoom, *words: str) -> None:
    """Protects refs, or does so no more."""
    room.serverd("protect", room.served, *words)


def refused(room: ServerRoom, reason: str, *words: str, user: str = "alice") -> str:
    """Pushes what is refused for a reason, in git's words, and gives what git says."""
    return room.fails("site", "push", room.url(user=user), *words, says=f"({reason})")


def commit(room: ServerRoom, message: str) -> str:
    """Makes a commit, and gives its name."""
    room.git("site", "commit", "-q", "--allow-empty", "-m", message)
    return text(room.git("site", "rev-parse", "HEAD"))


@scene
def protected_refs_stay(room: ServerRoom) -> None:
    """A protected branch is neither forced nor deleted, and a tag not moved. Other refs of the push change, unless it is atomic."""
    room.pushed()
    room.git("site", "push", "-q", room.url(), "main:refs/heads/next", "main:refs/heads/free", "main:refs/tags/light")
    protect(room, "add", "acme/site", "main")
    protect(room, "add", "acme/*", "refs/tags/*", "no-force")
    protect(room, "add", "acme/site", "ne*", "no-delete")
    before = room.tenant_refs()
    old = before["refs/heads/main"]
    room.git("site", "checkout", "-q", "--orphan", "other")
    other = commit(room, "another history")
    forced, gone = "protected branch: only fast-forwards are allowed", "protected branch: deletion is not allowed"
    refused(room, forced, "-f", "other:main")
    refused(room, gone, ":main")
    refused(room, gone, ":next")
    refused(room, "protected tag: it is there already, and may not be moved", "-f", "other:refs/tags/light")
    refused(room, "protected tag: deletion is not allowed", ":refs/tags/light")
    assert room.tenant_refs() == before
    refused(room, forced, "-f", "--atomic", "other:main", "other:refs/heads/free")
    assert room.tenant_refs() == before
    said = refused(room, forced, "-f", "other:main", "other:refs/heads/free", "other:refs/heads/next", "other:refs/tags/new")
    assert "remote rejected" in said and "other -> free" in said, said
    after = room.tenant_refs()
    assert after["refs/heads/main"] == old and {after[f"refs/{it}"] for it in ("heads/free", "heads/next", "tags/new")} == {other}
    room.git("site", "checkout", "-q", "main")
    new = commit(room, "more")
    room.git("site", "push", "-q", room.url(), "main")
    room.git("site", "checkout", "-q", "other")
    room.git("site", "merge", "-q", "--allow-unrelated-histories", "-m", "joined", "main")
    room.git("site", "push", "-q", room.url(), "HEAD:main")
    refused(room, forced, "-f", f"{new}:main")
    protect(room, "remove", "acme/site", "main")
    room.git("site", "push", "-q", "-f", room.url(), f"{old}:main")


@once
def only_some_change_a_protected_ref(room: ServerRoom) -> None:
    """Only named users, and members of groups, change a branch, make it or delete it; a token is its user."""
    room.pushed()
    room.serverd("grant", room.served, "bob", "acme/*", "rw")
    room.serverd("group", room.served, "add", "@team", "bob")
    denied = "protected branch: you may not change it"
    protect(room, "add", "acme/site", "main", "only=@team")
    protect(room, "add", "acme/site", "release/*", "only=bob")
    commit(room, "more")
    refused(room, denied, "main", "main:release/1")
    refused(room, denied, ":main")
    if room.scheme == "http":
        room.git("site", "push", "-q", room.url(user="bob"), "main", "main:release/1")
        it = token(room, "bob", "acme/*", "rw", "1h")
        room.git("site", "push", "-q", f"http://{it}@{room.http[0]}:{room.http[1]}/acme/site.git", "main:release/2")
    room.serverd("group", room.served, "add", "@team", "alice")
    commit(room, "still more")
    room.git("site", "push", "-q", room.url(), "main")
    room.serverd("group", room.served, "remove", "@team", "alice")
    commit(room, "and more")
    refused(room, denied, "main")
    assert "error" not in text(room.serverd("status", room.served))


def streamed(room: ServerRoom, stream: str, status: int = 0, verb: str = "import acme/site") -> str:
    """What a stream over ssh is told."""
    return text(said(room, verb, stream.encode(), status))


@over_http
def streams_keep_protected_refs(room: ServerRoom) -> None:
    """A stream that forces or deletes a protected branch, at a checkpoint or its end, is refused, and leaves what it had at its last checkpoint."""
    room.pushed()
    before = room.tenant_refs()
    old = before["refs/heads/main"]
    protect(room, "add", "acme/site", "main")
    protect(room, "add", "acme/site", "locked/*", "only=bob")
    fresh = f"feature force\nreset refs/heads/main\n\ncommit refs/heads/main\n{WHO}M 644 inline f\ndata 1\nx\n"
    gone = f"feature force\nreset refs/heads/main\nfrom {'0' * 40}\n\n"
    locked = f"commit refs/heads/locked/a\n{WHO}"
    for stream, why in ((fresh, "only fast-forwards are allowed"), (gone, "deletion is not allowed"), (locked, "you may not change it"),
                        (locked.replace("refs/heads/locked/a", '"refs/heads/locked/a"'), "")):
        for end in ("", "checkpoint\n", f"checkpoint\ncommit refs/heads/after\n{WHO}", "done\n"):
            told = streamed(room, ("feature done\n" if end == "done\n" else "") + stream + end, 1)
            assert why in told, (stream, end, told)
            if why:
                assert "protected branch" in told and "(fault 25)" in told, told
            assert room.tenant_refs() == before, (stream, end)
    more = f"commit refs/heads/main\n{WHO}from {old}\ncheckpoint\n"
    streamed(room, f"commit refs/heads/kept\n{WHO}" + more)
    now = room.tenant_refs()
    assert now["refs/heads/main"] != old and "refs/heads/kept" in now
    told = streamed(room, f"feature force\ncommit refs/heads/first\n{WHO}checkpoint\nreset refs/heads/main\nfrom {old}\n\ncheckpoint\n", 1)
    assert "only fast-forwards" in told and {**now, "refs/heads/first": room.tenant_refs()["refs/heads/first"]} == room.tenant_refs()
    protect(room, "remove", "acme/site", "main")
    streamed(room, f"feature force\nreset refs/heads/main\nfrom {old}\n\n")
    assert room.tenant_refs()["refs/heads/main"] == old
    room.stop()
    room.start()
    assert room.tenant_refs()["refs/heads/main"] == old


@over_http
def what_protects_no_ref_is_refused(room: ServerRoom) -> None:
    """Words that protect nothing are refused; what is listed holds; the audit has who changed it; a list that is cut keeps what held."""
    room.pushed()
    for words, says in ((("add", "acme/site", "main", "no-push"), "is no rule"), (("add", "acme site", "main"), "is no line"),
                        (("add", "acme/site", "refs/heads/a..b"), "names no refs"), (("add", "acme/site", "a**"), "names no refs"),
                        (("add", "acme/site", "main", "only=nobody"), "no user or group nobody"), (("add", "acme/site", "main", "only="), "no name"),
                        (("add", "acme/site", "main", "only=a~b"), "no name"), (("remove", "acme/site", "main"), "nothing protects"),
                        (("add", "acme/site"), "say `add")):
        status, told = command(room, "protect", *words)
        assert status == 1 and says in told, (words, status, told)
    protect(room, "add", "acme/site", "main")
    protect(room, "add", "acme/*", "*", "no-delete", "only=alice,bob")
    protect(room, "add", "other", "main", "no-delete")
    rows = ["acme/site refs/heads/main no-delete no-force", "acme/* * no-delete only=alice,bob"]
    assert text(room.serverd("protect", room.served, "acme/site")).splitlines() == rows
    assert len(text(room.serverd("protect", room.served)).splitlines()) == 3
    assert "protect add acme/site main" in text(room.serverd("audit", room.served))
    path = os.path.join(room.served, "protected")
    with open(path, "rb") as file:
        whole = file.read()
    with open(path, "wb") as file:
        file.write(whole[:len(whole) // 2])
    refused(room, "protected branch: deletion is not allowed", ":main")
    assert "list-unread" in text(room.serverd("status", room.served))
    with open(path, "wb") as file:
        file.write(whole)
    refused(room, "protected branch: deletion is not allowed", ":main")
