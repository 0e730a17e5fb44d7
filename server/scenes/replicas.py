"""Scenes of servers that follow another one over Redis: what they answer, who takes over, and kills and stops of all of them."""
from __future__ import annotations

import copy
import functools
import os
import random
import re
import shutil
import signal
import subprocess
import threading
import time
import urllib.request
from typing import Callable, List

from in_redis import InRedis, Patient, pushed_until
from in_shards import InRedisServers, Mover, shards_of
from scenes.room import text
from served import ServerRoom, once, over_http
from streams_over_ssh import COMMIT, said

TAKE_OVER = 6
"""After how many seconds of silence a replica takes over. Machines of tests are slow."""

COPIED = ("pool", "log-place", "shard-2/pool", "shard-2/log-place", "places-log-place", "answers", "shard-2/answers", "access", "passwords",
          "keys", "blocked", "limits", "hooks", "host_key", "host_key.pub", "host_key_ecdsa", "host_key_ecdsa.pub")
"""What docs/DEPLOY.md has an operator copy."""


STARTED: List[ServerRoom] = []
"""The replicas of the scene that is played."""


def ending(function: Callable[[ServerRoom], None]) -> Callable[[ServerRoom], None]:
    """Ends the replicas of a scene, however that ends."""
    @functools.wraps(function)
    def play(room: ServerRoom) -> None:
        try:
            function(room)
        finally:
            ended(*STARTED)
            STARTED.clear()

    return play


def replica_of(room: ServerRoom, name: str = "replica", *options: str) -> ServerRoom:
    """A server in a folder of its own that follows the room's, made as docs/DEPLOY.md says."""
    other = copy.copy(room)
    STARTED.append(other)
    other.served, other.log = room.path(name), room.path(f"{name}.log")
    other.pool = os.path.join(other.served, "pool")
    room.serverd("save", room.served)
    room.serverd("init", other.served, "--program", room.program, "--shards", str(1 + os.path.exists(os.path.join(room.served, "shard-2"))))
    files = [it for it in COPIED if os.path.exists(os.path.join(room.served, it))]
    taken = subprocess.run(["tar", "-C", room.served, "-c", *files], stdout=subprocess.PIPE, check=True)
    subprocess.run(["tar", "-C", other.served, "-x"], input=taken.stdout, check=True)
    other.options = [*room.options, "--follow", "--leader", "http://leader.example/", *options]
    other.start()
    return other


def ended(*rooms: ServerRoom) -> None:
    """Ends servers that may be stopped."""
    for room in rooms:
        if room.process.poll() is None:
            os.kill(room.process.pid, signal.SIGCONT)
            room.process.kill()
            room.process.wait()


def status(room: ServerRoom, name: str) -> str:
    """A line of the status of a server."""
    found = re.search(rf"^{name} +(.*)$", text(room.serverd("status", room.served)), re.M)
    assert found, name
    return found[1]


def leads(*rooms: ServerRoom) -> ServerRoom:
    """Waits until one of some servers leads, and gives it."""
    until = time.monotonic() + 120
    while time.monotonic() < until:
        for room in rooms:
            if room.process.poll() is None and status(room, "following") == "false":
                return room
        time.sleep(0.05)
    raise AssertionError("nobody takes over: " + rooms[0].logged()[-2000:])


@once
@ending
def a_replica_answers(room: ServerRoom) -> None:
    """Clones, fetches and looks at pages at a replica, which has each push as soon as it is told; changes are refused there."""
    with InRedis(room):
        site = room.pushed()
        replica = replica_of(room)
        replica.same(site)
        for count in range(8):
            name = room.commit(site, f"Push {count}", {"f": str(count)})
            room.git(site, "push", "-q", room.url(), "main")
            assert replica.tenant_refs()["refs/heads/main"] == name
            if count == 4:
                room.serverd("save", room.served)
        replica.same(site)
        for path, shows in (("/acme/site", b"Push 7"), ("/", b"acme/site"), ("/metrics", b"gitpoold_following 1"), ("/metrics", b"gitpoold_behind_seconds")):
            request = urllib.request.Request(f"http://{replica.http[0]}:{replica.http[1]}{path}")
            name, _, value = text(replica.basic()).strip().partition(": ")
            request.add_header(name, value)
            assert shows in urllib.request.urlopen(request).read(), path
        assert [urllib.request.urlopen(it.http_url("/healthz", "")).read() for it in (room, replica)] == [b"ok\n", b"ok following\n"]
        refuses_changes(room, replica, site)
        room.git(site, "reset", "-q", "--hard", "HEAD^")
        same_pools(room, replica, 1)
        assert replica.stop() == 0
        replica.start()
        replica.same(site)
        ended(replica)


@once
def a_token_outlives_its_leader(room: ServerRoom) -> None:
    """Sends streams over ssh: a replica refuses them, and once it has taken over it knows the tokens of the leader, from the pool file and from the log."""
    with InRedis(room):
        said(room, "import acme/old --token first", COMMIT)
        replica = replica_of(room, "replica", "--take-over", f"{TAKE_OVER}s")
        said(room, "import acme/new --token second", COMMIT)
        assert b"takes no changes; make them at" in said(replica, "import acme/other --token third", COMMIT, 4)
        assert said(replica, "ask acme/new refs") == said(room, "ask acme/new refs")
        room.process.kill()
        assert leads(replica) is replica
        for tenant, token in (("acme/old", "first"), ("acme/new", "second")):
            before = replica.tenant_refs(tenant)
            said(replica, f"import {tenant} --token {token}", COMMIT.replace(b"a <a@b> 1", b"a <a@b> 2"))
            assert replica.tenant_refs(tenant) == before and before, tenant
        said(replica, "import acme/other --token third", COMMIT)
        ended(replica)


def refuses_changes(room: ServerRoom, replica: ServerRoom, site: str) -> None:
    """Asks a replica for what changes something: each is refused, with where to do it."""
    room.commit(site, "At the wrong server", {"f": "wrong"})
    room.fails(site, "push", "-q", replica.url(), "main", says="takes no changes; make them at http://leader.example/")
    for words, says in ((("copy", "acme/site", "acme/b"), "make them at http://leader.example/"), (("remove", "acme/site"), "make them at"),
                        (("compact", "acme/site"), "make them at"), (("save",), "saves when that one saves")):
        done = room.run([room.server_program, words[0], replica.served, *words[1:]])
        assert done.returncode == 1 and says in text(done.stderr), done
    assert status(replica, "behind-records") == "0" and status(replica, "saves") == "1"
    stream = b"commit refs/heads/x\ncommitter a <a@b> 1 +0000\ndata 1\nx\n"
    refused = room.client("gitpool-import", "-", "acme/x", "--pool", replica.pool, data=stream, status=1)
    assert b"fault 68" in refused.stderr and not replica.tenant_refs("acme/x")


@over_http
@ending
def a_leader_killed_in_pushes(room: ServerRoom) -> None:
    """Kills the leader while two push. One of two replicas goes on with all that was told, and the other one follows it."""
    with InRedis(room):
        pushers = [Patient(room, number) for number in range(2)]
        assert all(pusher.push() for pusher in pushers)
        replicas = [replica_of(room, f"replica{number}", "--take-over", f"{TAKE_OVER}s") for number in range(2)]
        over = threading.Event()
        threads = pushed_until(pushers, over)
        time.sleep(random.uniform(0.5, 1.5))
        room.process.kill()
        over.set()
        for thread in threads:
            thread.join()
        leader = leads(*replicas)
        other = replicas[leader is replicas[0]]
        for pusher in pushers:
            pusher.room = leader
            pusher.judge()
            assert pusher.push(), leader.logged()[-1000:]
            assert other.tenant_refs(pusher.tenant) == leader.tenant_refs(pusher.tenant)
        assert status(other, "following") == "true"
        same_pools(leader, other, 1)
        ended(*replicas)


@over_http
@ending
def a_leader_that_was_stopped(room: ServerRoom) -> None:
    """Stops the leader inside pushes until a replica has taken over. When it goes on it tells nothing, and ends. A replica that was stopped itself
    takes nothing over from a leader that lives."""
    with InRedis(room):
        pushers = [Patient(room, number) for number in range(2)]
        assert all(pusher.push() for pusher in pushers)
        replica = replica_of(room, "replica", "--take-over", f"{TAKE_OVER}s")
        os.kill(replica.process.pid, signal.SIGSTOP)
        time.sleep(TAKE_OVER + 1)
        os.kill(replica.process.pid, signal.SIGCONT)
        assert all(pusher.push() for pusher in pushers) and status(replica, "following") == "true"
        over = threading.Event()
        threads = pushed_until(pushers, over)
        time.sleep(random.uniform(0.2, 0.8))
        os.kill(room.process.pid, signal.SIGSTOP)
        leads(replica)
        told = {pusher.tenant: pusher.told for pusher in pushers}
        has = {pusher.tenant: replica.tenant_refs(pusher.tenant) for pusher in pushers}
        over.set()
        os.kill(room.process.pid, signal.SIGCONT)
        assert room.process.wait(120) == 4, room.logged()[-1000:]
        assert "another server has taken the log over" in room.logged()
        for thread in threads:
            thread.join()
        for pusher in pushers:
            # Of the push that was under way the leader may tell only what the replica has.
            assert pusher.told == told[pusher.tenant] or pusher.told == has[pusher.tenant]["refs/heads/main"]
            pusher.room = replica
            pusher.judge()
            assert pusher.push(), replica.logged()[-1000:]
        ended(replica)


def strike(it: InRedis, replica: ServerRoom, whom: str) -> None:
    """Kills or stops a replica, its Redis, or its child, for some time."""
    if whom == "kill":
        replica.process.kill()
        replica.process.wait()
        replica.start()
    elif whom == "redis":
        it.redis.kill()
        time.sleep(random.uniform(0, 0.5))
        it.redis.start()
    else:
        child = int(status(replica, "child"))
        pid = replica.process.pid if whom == "stop" else child
        os.kill(pid, signal.SIGKILL if whom == "child" else signal.SIGSTOP)
        if whom != "child":
            time.sleep(random.uniform(0.1, 0.6))
            os.kill(pid, signal.SIGCONT)


STRIKES = ("kill", "stop", "child", "stopped child", "redis")


@over_http
@ending
def a_replica_under_faults(room: ServerRoom) -> None:
    """Kills and stops a replica, its child and the Redis while two push and the leader saves: no answer is older than what was told before.
    GITPOOLD_STRIKES says how often, and GITPOOLD_SEED what is drawn."""
    random.seed(int(os.environ.get("GITPOOLD_SEED", "1")))
    with InRedis(room) as it:
        pushers = [Patient(room, number) for number in range(2)]
        assert all(pusher.push() for pusher in pushers)
        replica = replica_of(room)
        for number in range(int(os.environ.get("GITPOOLD_STRIKES", str(len(STRIKES))))):
            over = threading.Event()
            threads = pushed_until(pushers, over)
            time.sleep(random.uniform(0.1, 0.5))
            strike(it, replica, STRIKES[number % len(STRIKES)])
            if number % 3 == 1:
                room.run([room.server_program, "save", room.served])
            over.set()
            for thread in threads:
                thread.join()
            for pusher in pushers:
                pusher.room = replica
                pusher.judge()
                pusher.room = room
        assert replica.process.poll() is None, replica.logged()[-1000:]
        ended(replica)


@over_http
@ending
def a_replica_is_asked_while_it_lags(room: ServerRoom) -> None:
    """Stops the child of a replica, and its server, around pushes: each question that is answered then has the push that was told before."""
    with InRedis(room):
        site = room.pushed()
        replica = replica_of(room)
        for count in range(6):
            pid = replica.process.pid if count % 2 else int(status(replica, "child"))
            os.kill(pid, signal.SIGSTOP)
            name = room.commit(site, f"Push {count}", {"f": str(count)})
            room.git(site, "push", "-q", room.url(), "main")
            threading.Timer(0.3, os.kill, (pid, signal.SIGCONT)).start()
            assert replica.tenant_refs()["refs/heads/main"] == name
        pid = int(status(replica, "child"))
        os.kill(pid, signal.SIGSTOP)
        room.commit(site, "Not told there", {"f": "x"})
        room.git(site, "push", "-q", room.url(), "main")
        room.fails(site, "ls-remote", replica.url(), says="does not come to what that one has told; try again")
        os.kill(pid, signal.SIGCONT)
        replica.same(site, refs=room.refs(site, "refs/heads", "refs/tags"))
        ended(replica)


@over_http
@ending
def half_a_log(room: ServerRoom) -> None:
    """Cuts the log inside its last records: leader and replica end, and both keep what was told."""
    with InRedis(room) as it:
        site = room.pushed()
        replica = replica_of(room)
        size = os.path.getsize(it.redis.aof())
        room.commit(site, "Lost", {"f": "x"})
        room.git(site, "push", "-q", room.url(), "main")
        replica.same(site)
        it.redis.kill()
        os.truncate(it.redis.aof(), (size + os.path.getsize(it.redis.aof())) // 2)
        it.redis.start()
        assert replica.process.wait(300) == 3 and room.process.wait(30) == 3
        assert "the log lost its end" in replica.logged(), replica.logged()[-1000:]
        rescued: List[bytes] = []
        for served in (room.served, replica.served):
            with open(os.path.join(served, "pool.rescued"), "rb") as file:
                rescued.append(file.read())
        assert rescued[0] == rescued[1], "leader and replica had not the same"
        done = room.run([room.server_program, "serve", replica.served, "--program", room.program, *replica.options])
        assert done.returncode == 3 and b"the log lost its end" in done.stderr, done.stderr


@over_http
@ending
def a_replica_without_the_records(room: ServerRoom) -> None:
    """Starts a replica from a pool file that is too old, and one whose options are wrong: each start says what to do."""
    with InRedis(room):
        site = room.pushed()
        replica = replica_of(room)
        assert replica.stop() == 0
        for count in range(10):
            room.commit(site, f"Push {count}", {"f": str(count)})
            room.git(site, "push", "-q", room.url(), "main")
            room.serverd("save", room.served)
        done = room.run([room.server_program, "serve", replica.served, "--program", room.program, *replica.options])
        assert done.returncode == 3 and b"no record goes on from the pool file" in done.stderr, done.stderr
        shutil.copy(room.pool, replica.pool)
        replica.start()
        replica.same(site)
        ended(replica)
        for options, says in ((["--follow"], b"goes with `--log`"), (["--take-over", "10s"], b"goes with `--follow`"),
                              ([*replica.options, "--take-over", "soon"], b"is no time"), ([*replica.options, "--take-over", "1ms"], b"or more")):
            done = room.run([room.server_program, "serve", replica.served, "--program", room.program, *options])
            assert done.returncode == 1 and says in done.stderr, done


def returned(room: ServerRoom, leader: ServerRoom, count: int) -> None:
    """Starts a server that is dead as one that follows another: from its own pool files, or from copies where the log was trimmed past them."""
    options = [word for word in leader.options if word not in ("--follow", "--leader", "http://leader.example/")]
    room.options = [*options, "--follow", "--leader", "http://leader.example/"]
    try:
        room.start()
    except AssertionError:
        assert room.process.wait(300) == 3, room.logged()[-2000:]
        assert re.search("no record goes on from the pool file|copy the newest pool file", room.logged()), room.logged()[-2000:]
        for folder in ["", *(f"shard-{number}" for number in range(2, count + 1))]:
            shutil.copy(os.path.join(leader.served, folder, "pool"), os.path.join(room.served, folder, "pool"))
        room.start()


@over_http
@ending
def leaders_of_shards_by_turns(room: ServerRoom) -> None:
    """Two servers of two shards lead by turns: the one that leads is killed, or stopped, while two push and tenants are moved; the other one takes over,
    and the first one comes back and follows. GITPOOLD_TURNS says how often, and GITPOOLD_SEED what is drawn."""
    random.seed(int(os.environ.get("GITPOOLD_SEED", "1")))
    with InRedisServers(room, 2):
        pushers = [Patient(room, number) for number in range(2)]
        assert all(pusher.push() for pusher in pushers)
        leader, other = room, replica_of(room, "replica", "--take-over", f"{TAKE_OVER}s")
        for turn in range(int(os.environ.get("GITPOOLD_TURNS", "2"))):
            over = threading.Event()
            mover = Mover(leader, [pusher.tenant for pusher in pushers], 2)
            threads = [*pushed_until(pushers, over), threading.Thread(target=mover.work, args=(over,))]
            threads[-1].start()
            time.sleep(random.uniform(0.3, 1.5))
            leader.process.send_signal(signal.SIGSTOP if turn % 2 else signal.SIGKILL)
            over.set()
            leads(other)
            if turn % 2:
                leader.process.send_signal(signal.SIGCONT)
                assert leader.process.wait(120) == 4, leader.logged()[-1000:]
            for thread in threads:
                thread.join()
            for pusher in pushers:
                pusher.room = other
                pusher.judge()
                assert pusher.push(), other.logged()[-1000:]
            leader.process.wait()
            returned(leader, other, 2)
            for pusher in pushers:
                assert leader.tenant_refs(pusher.tenant) == other.tenant_refs(pusher.tenant)
            leader, other = other, leader
        same_pools(leader, other, 2)
        ended(leader, other)


def same_pools(leader: ServerRoom, replica: ServerRoom, count: int) -> None:
    """Saves, and compares the pool files."""
    leader.serverd("save", leader.served)
    replica.serverd("tenants", replica.served)
    for folder in ["", *(f"shard-{number}" for number in range(2, count + 1))]:
        with open(os.path.join(leader.served, folder, "pool"), "rb") as one, open(os.path.join(replica.served, folder, "pool"), "rb") as other:
            assert one.read() == other.read(), f"the pool files differ: {folder}"


POINTS = ("server:before a record is followed", "child:before the child saves", "child:after the child has saved", "server:before the pool file is renamed",
          "server:after the pool file is renamed", "server:before a followed child is exchanged", "child:after a followed child is exchanged")


def start_until_killed(replica: ServerRoom) -> None:
    """Starts a replica that a fault point may kill before it is seen to serve."""
    try:
        replica.start()
    except AssertionError:
        if replica.process.poll() != -signal.SIGKILL:
            raise


@over_http
@ending
def a_replica_killed_at_fault_points(room: ServerRoom) -> None:
    """Kills a replica, or its child, at steps of what it does with the records of pushes, saves and moves: it comes to what the leader has."""
    faults = os.environ.get("GITPOOLD_FAULTPOINTS")
    if not faults:
        return
    with InRedisServers(room, 2):
        pusher = Patient(room, 0)
        assert pusher.push()
        replica = replica_of(room)
        replica.server_program = faults
        for point in POINTS:
            ended(replica)
            replica.environment = {**room.environment, "GITPOOLD_FAULT": point}
            start_until_killed(replica)
            assert pusher.push()
            if "exchanged" in point:
                room.serverd("move", room.served, pusher.tenant, str(3 - shards_of(room)[pusher.tenant]))
            room.serverd("save", room.served)
            if point.startswith("server"):
                assert replica.process.wait(60) == -signal.SIGKILL, point
                replica.environment = room.environment
                replica.start()
            assert replica.tenant_refs(pusher.tenant) == room.tenant_refs(pusher.tenant)
        same_pools(room, replica, 2)
        ended(replica)


@over_http
@ending
def a_take_over_that_is_cut_off(room: ServerRoom) -> None:
    """Kills a replica inside a take-over, once it has the first log, and once it has all: it comes back, and takes over after all."""
    faults = os.environ.get("GITPOOLD_FAULTPOINTS")
    if not faults:
        return
    with InRedisServers(room, 2):
        pushers = [Patient(room, number) for number in range(2)]
        assert all(pusher.push() for pusher in pushers)
        replica = replica_of(room, "replica", "--take-over", f"{TAKE_OVER}s")
        replica.server_program = faults
        room.process.kill()
        for point in ("after a log is taken over", "after all logs are taken over"):
            ended(replica)
            replica.environment = {**room.environment, "GITPOOLD_FAULT": f"server:{point}"}
            start_until_killed(replica)
            replica.process.wait(60)
        replica.environment = room.environment
        replica.start()
        leads(replica)
        for pusher in pushers:
            pusher.room = replica
            pusher.judge()
            assert pusher.push(), replica.logged()[-1000:]
        ended(replica)
