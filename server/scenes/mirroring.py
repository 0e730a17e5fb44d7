"""Scenes of mirrors: tenants that are pulled from other hosts, and pushed to them."""
from __future__ import annotations

import os
import re
import shutil
import socket
import time
from typing import Callable, List

from served import PASSWORDS, ServerRoom, once, over_http, text
from strangers import by_ssh
from webhooks import refused


def source_url(room: ServerRoom, tenant: str) -> str:
    """A tenant of the server as another host of git."""
    return f"http://{room.http[0]}:{room.http[1]}/{tenant}.git"


def add(room: ServerRoom, command: str, tenant: str, url: str, *words: str) -> None:
    """Lets a tenant be a mirror of a URL, to which alice may read and write."""
    room.serverd(command, room.served, tenant, url, "--user", "alice", *words, data=PASSWORDS["alice"].encode() + b"\n")


def run(room: ServerRoom, tenant: str, *words: str, command: str = "mirror") -> str:
    """Runs a mirror now, and gives what the command says."""
    return text(room.serverd(command, room.served, "run", tenant, *words))


def await_that(what: Callable[[], bool], says: Callable[[], object], seconds: float = 120) -> None:
    """Waits until something holds."""
    until = time.monotonic() + seconds
    while not what():
        assert time.monotonic() < until, says()
        time.sleep(0.05)


def working_in(folder: str) -> List[str]:
    """The processes whose folder is below this one."""
    found = []
    for name in filter(str.isdigit, os.listdir("/proc")):
        try:
            if os.readlink(f"/proc/{name}/cwd").startswith(folder):
                found.append(name)
        except OSError:
            pass
    return found


@once
def a_mirror_has_what_the_other_host_has(room: ServerRoom) -> None:
    site, source = room.pushed(), "acme/site"
    room.git(site, "push", "-q", room.url(source), "main:dev")
    add(room, "mirror", "acme/copy", source_url(room, source))
    await_that(lambda: room.tenant_refs("acme/copy") == room.tenant_refs(source), room.logged)
    room.fails(site, "push", "-q", room.url("acme/copy"), "main:mine", says="this repository is a mirror of http://")
    stream = by_ssh(room, room.path("key"), "alice", "import acme/copy", b"commit refs/heads/x\ncommitter a <a@b> 1 +0000\ndata 0\n")
    assert stream.returncode == 1 and b"is a mirror of http://" in stream.stderr and b"fault 25" in stream.stderr, stream
    # Another default branch, a rewritten one, and two that are gone.
    room.commit(site, "Two", {"f": "2"})
    room.git(site, "push", "-q", room.url(source), "main:trunk")
    room.serverd("head", room.served, source, "trunk")
    room.git(site, "push", "-q", "--force", room.url(source), ":main", ":v1", "main:dev")
    said = run(room, "acme/copy")
    assert re.search(r"acme/copy http://\S+: 3 refs, 4 changed", said), said
    assert room.tenant_refs("acme/copy") == room.tenant_refs(source) and room.tenant_head("acme/copy") == "refs/heads/trunk"
    assert "3 refs, 0 changed" in run(room, "acme/copy")
    assert "user=(mirror:acme/copy) tenant=acme/copy ref=refs/heads/trunk" in room.logged()
    shown = text(room.serverd("mirror", room.served))
    assert re.match(r"acme/copy http://\S+ every 1h0m0s went well at \S+, next at \S+: 3 refs, 0 changed", shown), shown
    for told in (shown, room.logged(), text(room.serverd("audit", room.served)), text(room.serverd("status", room.served))):
        assert PASSWORDS["alice"] not in told, told
    room.serverd("mirror", room.served, "remove", "acme/copy")
    room.git(site, "push", "-q", room.url("acme/copy"), "main:mine")
    await_that(lambda: os.listdir(os.path.join(room.served, "mirrored")) == ["state"], lambda: os.listdir(os.path.join(room.served, "mirrored")))


@over_http
def a_host_that_has_lost_its_refs_takes_none_away(room: ServerRoom) -> None:
    site = room.init("site")
    room.commit(site, "One", {"f": "1"})
    for branch in ("dev", "next"):
        room.git(site, "branch", branch)
    there = room.bare("there.git", site)
    # What a tenant had before it is a mirror is deleted by no first run.
    room.git(site, "push", "-q", room.url("acme/copy"), "main:own")
    room.serverd("mirror", room.served, "acme/copy", f"file://{room.path(there)}", "--allow-file")
    await_that(lambda: "does not have 1 of the 1 refs here" in room.logged(), room.logged)
    run(room, "acme/copy", "--deletions")
    had = room.tenant_refs("acme/copy")
    assert had == room.refs(there), had
    for branch in ("dev", "next", "main"):
        room.git(there, "update-ref", "-d", f"refs/heads/{branch}")
    assert "the other host has no branch, tag or note; nothing was changed" in refused(room, "mirror", room.served, "run", "acme/copy")
    room.commit(site, "Two", {"f": "2"})
    room.git(there, "fetch", "-q", room.path(site), "main:refs/heads/other")
    assert "does not have 3 of the 3 refs here; nothing was changed" in refused(room, "mirror", room.served, "run", "acme/copy")
    assert room.tenant_refs("acme/copy") == had
    status = text(room.serverd("status", room.served))
    assert re.search(r"mirrors-failing +1\nmirror-failing +pull acme/copy file://\S+ failed 2 times, last at", status), status
    assert "gitpoold_mirrors_failing 1\n" in room.talk(b"GET /metrics HTTP/1.0\r\n\r\n").decode()
    # How it stands outlives a restart, and so does the wait.
    before = text(room.serverd("mirror", room.served))
    assert room.stop() == 0
    room.start()
    time.sleep(3)
    assert text(room.serverd("mirror", room.served)) == before
    run(room, "acme/copy", "--deletions")
    assert room.tenant_refs("acme/copy") == room.refs(there)


@over_http
def each_push_is_pushed_to_the_other_host(room: ServerRoom) -> None:
    site = room.init("site")
    there = room.bare("there.git", site)
    room.serverd("push-mirror", room.served, "acme/site", f"file://{room.path(there)}", "--allow-file")
    add(room, "push-mirror", "acme/site", source_url(room, "acme/second"))
    room.commit(site, "One", {"f": "1"})
    room.git(site, "push", "-q", room.url(), "main", "main:dev")

    def is_there() -> bool:
        return room.refs(there) == room.tenant_refs() == room.tenant_refs("acme/second")

    await_that(is_there, room.logged)
    room.commit(site, "Two", {"f": "2"})
    room.git(site, "push", "-q", room.url(), "main", ":dev")
    await_that(is_there, room.logged)
    # A push right before the server is killed is pushed after its start.
    for turn in range(3):
        room.commit(site, f"Turn {turn}", {"f": f"turn {turn}"})
        room.git(site, "push", "-q", room.url(), "main")
        room.process.kill()
        room.process.wait()
        room.start()
        await_that(lambda: room.refs(there) == room.tenant_refs(), room.logged)
    # A tenant that was removed takes nothing away.
    had = room.refs(there)
    room.serverd("remove", room.served, "acme/site")
    assert "nothing was pushed" in refused(room, "push-mirror", room.served, "run", "acme/site")
    assert room.refs(there) == had


@over_http
def mirrors_over_ssh_know_their_hosts(room: ServerRoom) -> None:
    """The server is the other host too: its key is not known first, and then no key of the mirror's is known to it."""
    site = room.pushed()
    url = f"ssh://alice@127.0.0.1:{room.ssh[1]}/acme/site.git"
    room.serverd("mirror", room.served, "acme/copy", url)
    await_that(lambda: "Host key verification failed" in room.logged() or "Could not read from remote" in room.logged(), room.logged)
    with open(os.path.join(room.served, "mirror_known_hosts"), "w", encoding="ascii") as hosts:
        for name in ("host_key.pub", "host_key_ecdsa.pub"):
            with open(os.path.join(room.served, name), encoding="ascii") as key:
                hosts.write(f"[127.0.0.1]:{room.ssh[1]} {key.read()}")
    refused(room, "mirror", room.served, "run", "acme/copy")
    shutil.copy(room.path("key"), os.path.join(room.served, "mirror_key"))
    run(room, "acme/copy")
    assert room.tenant_refs("acme/copy") == room.tenant_refs()
    room.serverd("push-mirror", room.served, "acme/site", url.replace("acme/site", "acme/second"))
    room.commit(site, "Two", {"f": "2"})
    room.git(site, "push", "-q", room.url(), "main")
    await_that(lambda: room.tenant_refs("acme/second") == room.tenant_refs(), room.logged)


@over_http
def hosts_that_do_not_answer_keep_no_mirror_waiting(room: ServerRoom) -> None:
    site = room.init("site")
    one = room.commit(site, "One", {"f": "1"})
    there = room.bare("there.git", site)
    with socket.socket() as silent:
        silent.bind(("127.0.0.1", 0))
        silent.listen(100)
        room.serverd("limits", room.served, "mirror", "4s")
        for name in range(6):
            room.serverd("mirror", room.served, f"silent/{name}", f"http://127.0.0.1:{silent.getsockname()[1]}/x", "--every", "1s")
        await_that(lambda: room.logged().count("it took longer than `mirror` allows") >= 6, room.logged)
        room.serverd("limits", room.served, "mirror", "10m")
        room.serverd("mirror", room.served, "acme/copy", f"file://{room.path(there)}", "--allow-file", "--every", "1s")
        await_that(lambda: room.tenant_refs("acme/copy") == {"refs/heads/main": one}, room.logged)
        # Others are served, what a kill leaves ends at the next start, and the server ends at once.
        room.git(site, "push", "-q", room.url(), "main")
        folder = os.path.join(room.served, "mirrored")
        await_that(lambda: bool(working_in(folder)), room.logged)
        room.process.kill()
        room.process.wait()
        left = working_in(folder)
        assert left
        room.start()
        # A helper of git would give such a host up after a minute.
        await_that(lambda: not set(left) & set(working_in(folder)), lambda: left, 50)
        await_that(lambda: bool(working_in(folder)), room.logged)
        # (it waits for 120 seconds at most, and such a run has ten minutes)
        assert room.stop() == 0, room.logged()
    await_that(lambda: not working_in(folder), lambda: working_in(folder))


@over_http
def odd_names_of_refs_are_mirrored_or_refused_alone(room: ServerRoom) -> None:
    site = room.init("site")
    one = room.commit(site, "One", {"f": "1"})
    there = room.bare("there.git", site)
    names = ["refs/heads/-x", "refs/heads/$(touch x)", "refs/heads/'\"`;", "refs/heads/\u00e4", "refs/tags/--upload-pack=x",
             "refs/heads/" + "x" * 200, "refs/pull/1/head", "refs/heads/d/e/f", "refs/heads/%s", "refs/heads/main@{1}x"]
    made = [it for it in names if room.run(["git", "-C", room.path(there), "update-ref", it, one]).returncode == 0]
    assert len(made) > 6, made
    room.serverd("mirror", room.served, "acme/copy", f"file://{room.path(there)}", "--allow-file")
    want = {it: one for it in [*made, "refs/heads/main"] if not it.startswith("refs/pull")}
    await_that(lambda: room.tenant_refs("acme/copy") == want, lambda: (room.tenant_refs("acme/copy"), want, room.logged()))
    # An object that no tenant keeps is no reason to refuse the other refs.
    tree = room.git(there, "rev-parse", f"{one}^{{tree}}").strip()
    odd = room.git(there, "hash-object", "-t", "commit", "-w", "--stdin", "--literally",
                   data=b"tree " + tree + b"\nauthor a <a@b> 1 +0000\ncommitter a <a@b> 1 +0000\nencoding x\nodd header\n\nOdd\n").decode().strip()
    room.git(there, "update-ref", "refs/heads/odd", odd)
    two = room.commit(site, "Two", {"f": "2"})
    room.git(there, "fetch", "-q", room.path(site), "+main:main")
    room.git(there, "update-ref", "-d", "refs/heads/d/e/f")
    said = refused(room, "mirror", room.served, "run", "acme/copy")
    assert "1 refs were refused, the first is refs/heads/odd: " in said and "unpacker error" not in said, said
    del want["refs/heads/d/e/f"]
    assert room.tenant_refs("acme/copy") == {**want, "refs/heads/main": two}, (said, room.tenant_refs("acme/copy"))
