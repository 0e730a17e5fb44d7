"""What one user may have in all tenants that it made, over every way in."""
from __future__ import annotations

import os
from typing import Dict

from served import ServerRoom, once, over_http
from streams_over_ssh import COMMIT, said

MADE = "this user has made as many repositories as `user-tenants` says"


def owners(room: ServerRoom) -> Dict[str, str]:
    """The owner of each tenant, as the operator sees it."""
    lines = (line.split() for line in room.serverd("tenants", room.served).decode().splitlines())
    return {words[0]: words[words.index("owner") + 1] for words in lines}


@once
def a_user_makes_so_many_tenants(room: ServerRoom) -> None:
    """By pushes and by streams; also after a save and a crash, until the operator removes one or raises the limit."""
    site = room.pushed()
    room.serverd("limits", room.served, "user-tenants", "3")
    room.serverd("limits", room.served, "user-tenants", "ops", "0")
    room.git(site, "push", "-q", room.url("acme/b"), "main")
    assert said(room, "import acme/c", COMMIT) == b""
    for turn in range(2):
        room.fails(site, "push", "-q", room.url("acme/d"), "main", says=MADE)
        assert MADE.encode() in said(room, "import acme/d", COMMIT, 1)
        assert owners(room) == {"acme/site": "alice", "acme/b": "alice", "acme/c": "alice"}
        if turn == 0:
            room.serverd("save", room.served)
            room.process.kill()
            room.process.wait()
            room.start()
    room.commit(site, "More", {"f": "x"})
    room.git(site, "push", "-q", room.url("acme/site"), "main")
    room.serverd("copy", room.served, "acme/b", "acme/copy")
    room.serverd("remove", room.served, "acme/b")
    room.serverd("remove", room.served, "acme/c")
    room.git(site, "push", "-q", room.url("acme/d"), "main")
    room.fails(site, "push", "-q", room.url("acme/e"), "main", says=MADE)
    room.serverd("limits", room.served, "user-tenants", "alice", "4")
    room.git(site, "push", "-q", room.url("acme/e"), "main")
    assert set(owners(room).values()) == {"alice"} and len(owners(room)) == 4


@over_http
def a_user_has_so_many_bytes(room: ServerRoom) -> None:
    """Each tenant has a quota of its own, and all of one user have a limit too; what others made does not count."""
    site = room.pushed()
    room.serverd("grant", room.served, "bob", "bob/*", "rw")
    room.serverd("limits", room.served, "user-bytes", "3M")
    large = room.path("large")
    room.git("", "init", "-q", large)
    room.commit(large, "Large", {"large": os.urandom(700_000).hex()})
    for tenant in ("acme/b", "acme/c"):
        room.git(large, "push", "-q", room.url(tenant), "HEAD:refs/heads/main")
    for turn in range(2):
        room.fails(large, "push", "-q", room.url("acme/d"), "HEAD:refs/heads/main", says="the limit of this server")
        if turn == 0:
            room.stop()
            room.start()
    room.serverd("limits", room.served, "user-bytes", "alice", "1M")
    room.fails(site, "push", "-q", room.url("acme/d"), "main", says="`user-bytes`")
    room.serverd("limits", room.served, "user-bytes", "alice", "default")
    room.git(large, "push", "-q", room.url("bob/b", user="bob"), "HEAD:refs/heads/main")
    room.git("", "clone", "-q", room.url("acme/c"), "still")
    room.serverd("remove", room.served, "acme/b")
    room.git(large, "push", "-q", room.url("acme/d"), "HEAD:refs/heads/main")
    assert owners(room)["bob/b"] == "bob" and owners(room)["acme/d"] == "alice"
    room.same(site)
