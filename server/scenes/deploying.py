"""Scenes that follow docs/DEPLOY.md: its own commands, with other places, ports and addresses."""
from __future__ import annotations

import os
import re
import shutil
import signal
import subprocess
from typing import Dict, List

from in_redis import RedisServer
from operating import free_port
from scenes.room import text, wait_for
from served import PASSWORDS, TOP, ServerRoom, over_http

PAGE = os.path.join(TOP, "docs", "DEPLOY.md")
SSH = '#!/bin/bash\n[ "$1" = leader ] && shift && exec "$@"\nexec /usr/bin/ssh "$@"\n'
"""An ssh that runs the commands for the leader's machine on this one."""


class Operator:
    """Who types the commands of the page. A command finds its folder, ports and addresses by what stands in `places`."""

    def __init__(self, room: ServerRoom):
        self.room = room
        self.places: Dict[str, str] = {}
        self.logs: List[str] = []
        self.started: List["subprocess.Popen[bytes]"] = []
        os.mkdir(room.path("bin"))
        for name, path in (("gitpoold", room.server_program), ("gitpool", room.program)):
            os.symlink(path, room.path("bin", name))
        with open(room.path("bin", "ssh"), "w", encoding="ascii", opener=lambda path, flags: os.open(path, flags, 0o755)) as file:
            file.write(SSH)
        room.environment["PATH"] = f"{room.path('bin')}:{room.environment['PATH']}"

    def __enter__(self) -> "Operator":
        return self

    def __exit__(self, *_: object) -> None:
        for it in self.started:
            it.kill()
            it.wait()

    def commands(self, front: str) -> List[str]:
        """The commands of the block of the page that begins so."""
        with open(PAGE, encoding="utf-8") as file:
            blocks = re.findall(r"\n\n((?:    .+\n)+)", file.read())
        found = [it for it in blocks if it.strip().startswith(front)]
        assert len(found) == 1, (front, len(found))
        lines = re.sub(r"\\\n\s*", "", found[0]).splitlines()
        return [re.sub(r"\s+#.*", "", it).strip() for it in lines]

    def placed(self, command: str) -> str:
        """A command with other places."""
        for old, new in self.places.items():
            command = command.replace(old, new)
        return command

    def types(self, front: str) -> str:
        """Runs the commands of a block, and gives what they print."""
        return "".join(self.run(it) for it in self.commands(front))

    def run(self, command: str) -> str:
        """Runs a command, and gives what it prints. One that serves goes on in the background."""
        command = self.placed(command)
        if command.startswith("gitpoold serve"):
            self.serve(command.rstrip(" &"))
            return ""
        done = self.room.run(["bash", "-o", "pipefail", "-c", command])
        assert done.returncode == 0, (command, text(done.stderr))
        return text(done.stdout)

    def serve(self, command: str) -> int:
        """Starts a server, and waits until it serves, or gives the status with which it ends."""
        self.logs.append(self.room.path(f"serve-{len(self.logs)}.log"))
        with open(self.logs[-1], "wb") as log:
            process = subprocess.Popen(["bash", "-c", f"exec {command}"], stderr=log, stdout=log, env=self.room.environment)
        self.started.append(process)
        wait_for(lambda: process.poll() is not None or "serving http" in self.logged(), 300)
        return process.poll() or 0

    def logged(self) -> str:
        """What the last server has logged."""
        with open(self.logs[-1], encoding="utf-8") as file:
            return file.read()

    def stop(self, end: int = signal.SIGTERM) -> None:
        """Ends the server that was started last."""
        self.started[-1].send_signal(end)
        assert self.started[-1].wait(120) == (0 if end == signal.SIGTERM else -end), self.logged()

    def goes_to(self, port: int) -> None:
        """Lets the clients of the room ask the server of a port."""
        self.room.http = ("127.0.0.1", port)

    def lets_in(self, folder: str) -> None:
        """Gives the room's user what it needs at a server."""
        self.room.serverd("user", folder, "alice", data=PASSWORDS["alice"].encode() + b"\n")
        self.room.serverd("user", folder, "ops", "--key", self.room.path("key.pub"))
        for user in ("alice", "ops"):
            self.room.serverd("grant", folder, user, "*", "rw")


@over_http
def the_page_on_deploying_makes_shards(room: ServerRoom) -> None:
    """Makes four shards, moves a tenant, puts back a pool file of another time, and mends that, as the page says."""
    with Operator(room) as operator:
        served, port = room.path("srv"), free_port()
        operator.places = {"/srv/git": served, "127.0.0.1:8080": f"127.0.0.1:{port}", "acme/site 3": "acme/site 4", "shard-2": "shard-4"}
        operator.types("gitpoold init /srv/git --shards 4")
        operator.lets_in(served)
        operator.goes_to(port)
        site = room.pushed()
        operator.run("gitpoold save /srv/git")
        shutil.copy(os.path.join(served, "pool"), room.path("backup"))
        operator.types("gitpoold move /srv/git acme/site 3")
        assert operator.run("gitpoold tenants /srv/git").split()[-1] == "4"
        room.same(site)
        operator.stop()
        shutil.copy(room.path("backup"), os.path.join(served, "pool"))
        shutil.rmtree(os.path.join(served, "journal"))
        os.unlink(os.path.join(served, "journal-begun"))
        serve = operator.placed(operator.commands("gitpoold init /srv/git --shards 4")[1])
        assert operator.serve(serve) == 3 and "is in shard 1 and in shard 4" in operator.logged(), operator.logged()
        assert operator.types("gitpool ask acme/site refs").count("refs/heads/main") == 2
        operator.run("gitpool remove acme/site --pool /srv/git/pool")
        shutil.rmtree(os.path.join(served, "journal"))
        os.unlink(os.path.join(served, "journal-begun"))
        operator.run("gitpoold init /srv/git")
        assert operator.serve(serve) == 0, operator.logged()
        room.same(site)
        operator.stop()


@over_http
def the_page_on_deploying_makes_a_replica(room: ServerRoom) -> None:
    """Makes two shards in Redis and a replica by the five commands, loses the leader, and lets it come back as a replica."""
    redis = [RedisServer(room, f"redis{number}") for number in range(4)]
    for primary, other in zip(redis[:2], redis[2:]):
        assert other.ask("replicaof", "127.0.0.1", str(primary.port)) == "OK"
    leader, replica, ports = room.path("leader"), room.path("replica"), [free_port() for _ in range(3)]
    addresses = {f"10.0.0.{number}:6379": f"127.0.0.1:{it.port}" for number, it in enumerate(redis[:2], 1)}
    try:
        with Operator(room) as operator:
            operator.places = {**addresses, "/srv/git": leader, "/mnt/shared": room.folder, "127.0.0.1:8080": f"127.0.0.1:{ports[0]}"}
            first, serve = operator.commands("gitpoold init /srv/git --log")
            operator.run(first)
            operator.lets_in(leader)
            operator.run(serve)
            operator.goes_to(ports[0])
            site = room.pushed()
            again = operator.placed(serve)
            follow(operator, leader, replica, ports)
            operator.goes_to(ports[1])
            room.same(site)
            take_over(operator, site, again, ports)
    finally:
        for it in redis:
            it.kill()


def follow(operator: Operator, leader: str, replica: str, ports: List[int]) -> None:
    """Starts the replica by the commands of the page. The leader's folder is on the same machine."""
    operator.places.pop("/srv/git")
    operator.places.update({"127.0.0.1:8080": f"127.0.0.1:{ports[1]}", "127.0.0.1:2222": f"127.0.0.1:{ports[2]}", "10s": "8s"})
    *before, status = operator.commands("ssh leader gitpoold save /srv/git")
    for it in before:
        there = re.sub(r"(ssh leader [^|]*)/srv/git", rf"\g<1>{leader}", it)
        operator.run(there.replace("/srv/git", replica))
    wait_for(lambda: re.search(r"^behind-records +0$", operator.run(status.replace("/srv/git", replica)), re.M) is not None, 300)
    assert re.search(r"^following +true$", operator.run(status.replace("/srv/git", replica)), re.M)


def take_over(operator: Operator, site: str, serve: str, ports: List[int]) -> None:
    """Kills the leader; the replica takes pushes; the old leader comes back and follows."""
    room, first = operator.room, operator.started[0]
    assert b"takes no changes" in room.run(["git", "push", room.url(), "main:refused"], site).stderr
    first.kill()
    first.wait()
    room.commit(site, "After the leader", {"f": "x"})
    wait_for(lambda: room.run(["git", "push", "-q", room.url(), "main"], site).returncode == 0)
    room.same(site)
    operator.serve(f"{serve} --follow")
    operator.goes_to(ports[0])
    room.same(site)


@over_http
def the_page_on_deploying_brings_a_tenant_elsewhere(room: ServerRoom) -> None:
    """Brings a tenant to another server over ssh, by the commands of the page."""
    with Operator(room) as operator:
        for number in (1, 2):
            folder, http, ssh = room.path(f"srv{number}"), free_port(), free_port()
            room.serverd("init", folder)
            operator.lets_in(folder)
            operator.run(f"gitpoold serve {folder} --http 127.0.0.1:{http} --ssh 127.0.0.1:{ssh}")
            operator.places[f"-p 2222 ops@10.0.0.{number}"] = f"-F none -i {room.path('key')} -p {ssh} -o StrictHostKeyChecking=no ops@127.0.0.1"
            operator.places[f"http{number}"] = str(http)
        operator.places["/srv/git"] = room.path("srv1")
        operator.goes_to(int(operator.places["http1"]))
        site = room.pushed()
        operator.types("gitpoold block /srv/git tenant acme/site")
        assert not room.tenant_refs()
        operator.goes_to(int(operator.places["http2"]))
        room.same(site)
