"""Scenes of the clients of a pool file whose server runs: they ask it by its socket."""
from __future__ import annotations

import os
import subprocess

from scenes.room import text
from scenes.shells import forced
from served import ServerRoom, over_http

from gitpool import Fault, Service, ServiceError


def of_pool(room: ServerRoom, tenant: str = "acme/site") -> str:
    """The URL of a tenant for the remote helper."""
    return f"gitpool::{room.pool}#{tenant}"


@over_http
def the_remote_helper_asks_the_server(room: ServerRoom) -> None:
    """What is pushed by the helper is fetched over http, and lasts; what is pushed over http is fetched by the helper."""
    site = room.site()
    room.git(site, "push", "-q", of_pool(room), "main", "light", "v1")
    room.same(site)
    room.process.kill()
    room.process.wait()
    room.start()
    room.same(site)
    room.git("", "clone", "-q", of_pool(room), "copy")
    room.commit("copy", "From afar", {"far": "f\n"})
    room.git("copy", "push", "-q", room.url(), "main")
    room.git(site, "pull", "-q", of_pool(room), "main")
    room.same(site)
    assert not [it for it in os.listdir(room.served) if it.startswith(".gitpool")]


def pushes_meanwhile(room: ServerRoom, site: str, ref: str) -> None:
    """Lets the next push of a worktree wait, after the refs are listed, until another worktree has pushed over http."""
    hook = room.path(site, ".git", "hooks", "pre-push")
    with open(hook, "w", encoding="utf-8") as file:
        file.write(f"#!/bin/sh\nunset GIT_DIR\nexec git -C {room.path('copy')} push -q {room.url()} {ref}\n")
    os.chmod(hook, 0o755)


@over_http
def the_remote_helper_sees_another_push(room: ServerRoom) -> None:
    """Another user pushes between the refs that the helper lists and its own push. What that user was told to be there stays."""
    site = room.pushed()
    room.git("", "clone", "-q", room.url(), "copy")
    old = room.name(site, "main")
    told = room.commit("copy", "Meanwhile", {"meanwhile": "m\n"})
    room.commit(site, "Later", {"later": "l\n"})
    pushes_meanwhile(room, site, "main")
    says = "refs/heads/main was changed by another push; fetch first"
    room.fails(site, "push", f"--force-with-lease=main:{old}", of_pool(room), "main", "main:refs/heads/x", says=says)
    assert room.tenant_refs()["refs/heads/main"] == told and "refs/heads/x" not in room.tenant_refs()
    pushes_meanwhile(room, site, "+main:refs/tags/light")
    says = "refs/tags/light was changed by another push; fetch first"
    room.fails(site, "push", of_pool(room), ":light", says=says)
    assert room.tenant_refs()["refs/tags/light"] == told
    # A ref that another push made is no reason to refuse others, unless git could not have them beside it.
    pushes_meanwhile(room, site, "main:refs/heads/y")
    room.git(site, "push", "-q", of_pool(room), "main:refs/heads/z")
    pushes_meanwhile(room, site, "main:refs/heads/a/b")
    room.fails(site, "push", of_pool(room), "main:refs/heads/a", says="refs/heads/a/b is a ref, and git cannot have both")
    pushes_meanwhile(room, site, "+main:refs/heads/z")
    ssh = forced(room, "--pool", room.pool, "acme/site")
    room.fails(site, "push", "gitpool::ssh://host", ":z", says="refs/heads/z was changed by another push", GIT_SSH_COMMAND=ssh)
    assert room.tenant_refs()["refs/heads/z"] == told
    os.unlink(room.path(site, ".git", "hooks", "pre-push"))
    room.git(site, "push", "-q", "-f", of_pool(room), "main:refs/heads/z")
    refs = room.tenant_refs()
    assert refs["refs/heads/y"] == told and refs["refs/heads/z"] == room.name(site, "main") and "refs/heads/a" not in refs, refs


@over_http
def clients_ask_the_server(room: ServerRoom) -> None:
    site = room.pushed()
    stream = room.git(site, "fast-export", "--branches", "--tags", "--use-done-feature", "--mark-tags")
    room.client("gitpool-import", "-", "acme/fork", "--pool", room.pool, data=stream)
    room.same(site, "acme/fork")
    refused = room.client("gitpool-import", "-", "acme/bad", "--pool", room.pool, data=b"blob\ndata 1\nx\nwhat\n", status=1)
    assert b"refused at byte" in refused.stderr, refused
    room.client("gitpool-import", "-", "acme/fork", "--pool", room.pool, "--dry-run", data=b"reset refs/heads/none\n\n")
    listed = text(room.client("gitpool-tenants", room.pool).stdout).splitlines()
    assert [line.split(" ")[:3] for line in listed] == [["acme/fork", "objects", "9"], ["acme/site", "objects", "9"], ["tenants", "2"]], listed
    room.git("", "init", "-q", "--bare", "export.git")
    room.client("gitpool-export", "acme/fork", "--pool", room.pool, "--into", room.path("export.git"))
    assert room.refs("export.git") == room.refs(site, "refs/heads", "refs/tags")
    with Service(room.pool) as service:
        service.remove("acme/fork")
        service.save()
        service.open("acme/site")
        try:
            service.compact("acme/site")
            raise AssertionError("compacted under a stream")
        except Fault as fault:
            assert fault.number == 31
    assert not room.tenant_refs("acme/fork")
    with Service(room.pool, read_only=True) as reader:
        assert len(reader.refs("acme/site")) == 3
        try:
            reader.open("acme/site")
            raise AssertionError("a reader opened a stream")
        except ServiceError as error:
            assert "questions alone" in str(error)


@over_http
def a_forced_command_asks_the_server(room: ServerRoom) -> None:
    """gitpool-shell serves one tenant of the server, and ends a client that is silent."""
    site = room.site()
    ssh = forced(room, "--pool", room.pool, "acme/site")
    room.git(site, "push", "-q", "gitpool::ssh://host", "main", "light", "v1", GIT_SSH_COMMAND=ssh)
    room.same(site)
    room.git("", "clone", "-q", "gitpool::ssh://host", "copy", GIT_SSH_COMMAND=ssh)
    silent = subprocess.Popen(["gitpool-shell", "--pool", room.pool, "--idle", "0.2", "acme/site", "push"], env=room.environment,
                              cwd=room.path(""), stdin=subprocess.PIPE, stdout=subprocess.PIPE, stderr=subprocess.PIPE)
    assert silent.stdin and silent.stderr
    assert silent.wait(300) == 1 and b"nothing came for" in silent.stderr.read()
    for it in (silent.stdin, silent.stdout, silent.stderr):
        assert it
        it.close()


@over_http
def a_pool_of_a_stopped_server_is_read_and_not_changed(room: ServerRoom) -> None:
    site = room.pushed()
    before = room.run([room.program, "import", "x", "--pool", room.pool], data=b"blob\ndata 1\nx")
    assert before.returncode == 4, before
    room.stop()
    room.git("", "clone", "-q", of_pool(room), "copy")
    room.fails(site, "push", of_pool(room), "main:refs/heads/x", says="belongs to a server that does not run")
    done = room.client("gitpool-import", "-", "x", "--pool", room.pool, data=b"blob\ndata 1\nx", status=4)
    assert b"does not run" in done.stderr, done
    room.start()
    room.same(site)
