"""Scenes of a server with several shards: tenants that are spread and moved, in files and in a Redis each, under kills and stops."""
from __future__ import annotations

import os
import random
import re
import signal
import threading
import time
from typing import Dict, List

from in_redis import WAIT, Patient, RedisServer, served_again
from scenes.room import text, wait_for
from served import ServerRoom, once, over_http

ALL = ("refs/heads/*:refs/heads/*", "refs/tags/*:refs/tags/*")


def shards_of(room: ServerRoom) -> Dict[str, int]:
    """In which shard each tenant is."""
    return {line.split()[0]: int(line.split()[-1]) for line in text(room.serverd("tenants", room.served)).splitlines()}


def divide(room: ServerRoom, count: int) -> None:
    """Gives a server several shards, whose journals are in files."""
    assert room.stop() == 0, room.logged()
    room.serverd("init", room.served, "--program", room.program, "--shards", str(count))
    room.start()


class InRedisServers:
    """A server with shards, whose journals are in a Redis each. All of them end with the scene."""

    def __init__(self, room: ServerRoom, count: int):
        self.room = room
        assert room.stop() == 0, room.logged()
        self.servers = [RedisServer(room, f"redis{number}") for number in range(count)]
        for number, it in enumerate(self.servers):
            room.options += ["--log", f"redis://127.0.0.1:{it.port}/shard{number}"]
        room.options += ["--log-wait", f"{WAIT}s"]
        room.serverd("init", room.served, "--program", room.program, *room.options)
        room.start()

    def __enter__(self) -> "InRedisServers":
        return self

    def __exit__(self, *_: object) -> None:
        self.room.process.kill()
        self.room.process.wait()
        for it in self.servers:
            os.kill(it.process.pid, signal.SIGCONT)
            it.kill()


@once
def tenants_in_shards(room: ServerRoom) -> None:
    """Pushes to tenants in several shards, moves one, adds a shard and starts again: users notice nothing."""
    divide(room, 2)
    site = room.pushed()
    for tenant in ("acme/b", "acme/c", "acme/d"):
        room.git(site, "push", "-q", room.url(tenant), *ALL)
    places = shards_of(room)
    assert sorted(places.values()) == [1, 1, 2, 2], places
    place = places["acme/site"]
    room.serverd("move", room.served, "acme/site", str(3 - place))
    assert shards_of(room) == {**places, "acme/site": 3 - place}
    room.same(site)
    room.commit(site, "After the move", {"f": "x"})
    room.git(site, "push", "-q", room.url(), "main")
    room.process.kill()
    room.process.wait()
    room.start()
    room.same(site)
    assert room.stop() == 0
    room.serverd("init", room.served, "--program", room.program, "--shards", "3")
    room.start()
    room.git(site, "push", "-q", room.url("acme/new"), *ALL)
    assert shards_of(room) == {**places, "acme/site": 3 - place, "acme/new": 3}
    for tenant in ("acme/site", "acme/new"):
        room.same(site, tenant)


@over_http
def the_operator_reaches_all_shards(room: ServerRoom) -> None:
    """Copies, removes, compacts and saves where tenants are in several shards; a move that cannot be is refused in a sentence."""
    divide(room, 2)
    site = room.pushed()
    room.git(site, "push", "-q", room.url("acme/other"), *ALL)
    places = shards_of(room)
    room.serverd("copy", room.served, "acme/other", "acme/fork")
    room.same(site, "acme/fork")
    assert shards_of(room)["acme/fork"] == places["acme/other"]
    for words, says in ((("acme/site", "3"), "there is no shard 3"), (("acme/none", "2"), "there is no such repository"),
                        (("acme/site", str(places["acme/site"])), "there already"), (("../site", "1"), "fault 32"),
                        (("acme/site", "x"), "is no number of a shard")):
        done = room.run([room.server_program, "move", room.served, *words])
        assert done.returncode == 1 and says in text(done.stderr), done
    room.serverd("compact", room.served, "acme/other")
    room.serverd("remove", room.served, "acme/fork")
    assert not room.tenant_refs("acme/fork")
    room.serverd("save", room.served)
    status = text(room.serverd("status", room.served))
    assert re.search(r"^shards +2$", status, re.M) and len(re.findall(r"^shard-[12] +answering true ", status, re.M)) == 2, status
    done = room.run([room.server_program, "init", room.served, "--program", room.program, "--shards", "1"])
    assert done.returncode == 1 and "none can be taken away" in text(done.stderr), done


class Mover:
    """Moves tenants to and fro until it is over. A move may be refused while something is away."""

    def __init__(self, room: ServerRoom, tenants: List[str], count: int):
        self.room, self.tenants, self.count = room, tenants, count
        self.moved = 0

    def work(self, over: threading.Event) -> None:
        while not over.is_set():
            tenant, shard = random.choice(self.tenants), random.randint(1, self.count)
            done = self.room.run([self.room.server_program, "move", self.room.served, tenant, str(shard)])
            self.moved += done.returncode == 0
            time.sleep(0.02)


def children_of(room: ServerRoom) -> List[int]:
    """The processes of the server's children."""
    done = room.run([room.server_program, "status", room.served])
    found = re.search(r"^child +([0-9 ]+)$", text(done.stdout), re.M)
    return [int(word) for word in found[1].split() if word != "0"] if found else []


def strike(it: InRedisServers, whom: str) -> None:
    """Kills a server, a child or a Redis, or stops a Redis or the server for some time."""
    room, redis = it.room, random.choice(it.servers)
    if whom == "child":
        for pid in children_of(room)[:1]:
            os.kill(pid, signal.SIGKILL)
    elif whom == "server":
        room.process.kill()
        served_again(room)
    elif whom == "redis":
        redis.kill()
        time.sleep(random.uniform(0, 0.5))
        redis.start()
    else:
        stopped = redis.process.pid if whom == "stopped redis" else room.process.pid
        os.kill(stopped, signal.SIGSTOP)
        time.sleep(random.uniform(0.2, WAIT + 1))
        os.kill(stopped, signal.SIGCONT)


FAULTS = ("child", "server", "redis", "stopped redis", "stopped server", "all")


@over_http
def moves_under_faults(room: ServerRoom) -> None:
    """Two tenants are pushed to and moved between shards with a Redis each, while children, Redis and the server are killed or stopped: what
    was told is there, in one shard. GITPOOLD_STRIKES says how often, and GITPOOLD_SEED what is drawn."""
    random.seed(int(os.environ.get("GITPOOLD_SEED", "1")))
    with InRedisServers(room, 2) as it:
        pushers = [Patient(room, number) for number in range(2)]
        for pusher in pushers:
            assert pusher.push(), room.logged()[-1000:]
        mover = Mover(room, [pusher.tenant for pusher in pushers], 2)
        strikes = int(os.environ.get("GITPOOLD_STRIKES", str(len(FAULTS))))
        for number in range(strikes):
            over = threading.Event()
            threads = [threading.Thread(target=one_pushes, args=(pusher, over)) for pusher in pushers]
            threads.append(threading.Thread(target=mover.work, args=(over,)))
            for thread in threads:
                thread.start()
            time.sleep(random.uniform(0.1, 1.5))
            fault = FAULTS[number % len(FAULTS)]
            for whom in ("redis", "child", "server") if fault == "all" else (fault,):
                strike(it, whom)
            over.set()
            for thread in threads:
                thread.join()
            for pusher in pushers:
                judge(pusher)
        assert mover.moved, "no tenant was moved"
        for pusher in pushers:
            wait_for(pusher.push)
        assert room.stop() == 0, room.logged()[-1000:]
        room.start()
        for pusher in pushers:
            pusher.judge()


def one_pushes(pusher: Patient, over: threading.Event) -> None:
    while not over.is_set():
        pusher.push()


def judge(pusher: Patient) -> None:
    """Judges once the server answers again."""
    wait_for(lambda: pusher.room.run(["git", "ls-remote", pusher.room.url(pusher.tenant)]).returncode == 0)
    pusher.judge()
