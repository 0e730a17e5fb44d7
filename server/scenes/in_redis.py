"""Scenes of a server whose journal is in Redis: kills of both, a Redis that is silent, full or behind, and a second server."""
from __future__ import annotations

import glob
import os
import random
import re
import resource
import shutil
import signal
import subprocess
import threading
import time
import urllib.request
from typing import List, Set

from keeping import Pusher, child_of
from operating import free_port
from scenes.room import text, wait_for
from served import ServerRoom, once, over_http

WAIT = 5
"""For how many seconds a push waits for Redis, and a question to a replica for what its leader has told."""

REFUSED = (b"nothing of this push was kept", b"try again")
"""What a push says that is not there. One that says anything else may be there."""

WAITED = (rb"journal did not answer while it kept this push; fetch to see whether it is there"
          rb"|journal does not answer; nothing of this push was kept, and reading goes on")
"""What a push says that has waited for Redis: the second where Redis had not got it."""


class RedisServer:
    """A redis-server on a free port, whose folder outlives it."""

    def __init__(self, room: ServerRoom, name: str = "redis"):
        self.folder = room.path(name)
        os.mkdir(self.folder)
        self.port = free_port()
        self.process: "subprocess.Popen[bytes]"
        self.start()

    def start(self) -> None:
        """Starts it, and waits until it answers. A file that may not grow is answered like a full disk."""
        words = ["redis-server", "--port", str(self.port), "--bind", "127.0.0.1", "--dir", self.folder, "--save", "", "--appendonly", "yes",
                 "--appendfsync", "always", "--logfile", "redis.log"]
        self.process = subprocess.Popen(["sh", "-c", 'trap "" XFSZ; exec "$@"', "sh", *words], stdout=subprocess.DEVNULL)
        until = time.monotonic() + 60
        while self.ask("PING") != "PONG":
            assert time.monotonic() < until, "redis-server does not answer"
            time.sleep(0.01)

    def ask(self, *words: str) -> str:
        """What it answers."""
        return subprocess.run(["redis-cli", "-p", str(self.port), *words], capture_output=True, check=False).stdout.decode(errors="replace").strip()

    def kill(self) -> None:
        """Kills it."""
        self.process.kill()
        self.process.wait()

    def aof(self) -> str:
        """The file to which it appends."""
        return max(glob.glob(os.path.join(self.folder, "appendonlydir", "*.incr.aof")))


class InRedis:
    """A server whose journal is in a Redis of its own. Both end with the scene."""

    def __init__(self, room: ServerRoom, key: str = "site", wait: int = WAIT):
        self.room = room
        assert room.stop() == 0, room.logged()
        self.redis = RedisServer(room)
        room.options = ["--log", f"redis://127.0.0.1:{self.redis.port}/{key}", "--log-wait", f"{wait}s"]
        self.init()
        room.start()

    def init(self) -> None:
        """Begins a log, unless there is one."""
        self.room.serverd("init", self.room.served, "--program", self.room.program, *self.room.options)

    def __enter__(self) -> "InRedis":
        return self

    def __exit__(self, *_: object) -> None:
        self.room.process.kill()
        self.room.process.wait()
        self.redis.kill()


class Patient(Pusher):
    """Somebody who pushes, and remembers which pushes may be there although nobody told that they are."""

    def __init__(self, room: ServerRoom, number: int):
        super().__init__(room, number)
        self.may: Set[str] = set()
        self.count = 0

    def push(self) -> bool:
        """Pushes a commit on top of what was told last. Gives whether it was told."""
        room = self.room
        self.count += 1
        tried = room.commit(self.at, f"Push {self.count}", {f"f{random.randrange(5)}": str(random.random())})
        done = room.run(["git", "push", "-q", "--force", room.url(self.tenant), "HEAD:refs/heads/main"], self.at)
        if done.returncode == 0:
            self.told, self.may = tried, set()
            room.git(self.at, "push", "-q", "--force", room.path(self.bare), "HEAD:refs/heads/main")
            return True
        if not any(it in done.stderr for it in REFUSED):
            self.may.add(tried)
            room.git(self.at, "branch", "-f", f"may{self.count}", tried)
        if self.told:
            room.git(self.at, "reset", "-q", "--hard", self.told)
        return False

    def judge(self) -> None:
        """Asks that the tenant has what was told, or a push of which nobody knew, and nothing of one that was refused."""
        name = self.room.tenant_refs(self.tenant).get("refs/heads/main", "")
        assert name == self.told or name in self.may, f"{self.tenant} has {name}; {self.told} was told, and {self.may} may be there"
        if name and name != self.told:
            self.room.git(self.at, "push", "-q", "--force", self.room.path(self.bare), f"{name}:refs/heads/main")
            self.told, self.may = name, set()
            self.room.git(self.at, "reset", "-q", "--hard", name)
        if name:
            mirror = self.room.path(f"judged{time.monotonic_ns()}")
            self.room.git("", "clone", "-q", "--mirror", self.room.url(self.tenant), mirror)
            self.room.is_sound(mirror)
            assert self.room.refs(mirror) == self.room.refs(self.bare)


def pushed_until(pushers: List[Patient], over: threading.Event) -> List[threading.Thread]:
    """Lets all push until it is over."""
    def work(pusher: Patient) -> None:
        while not over.is_set():
            pusher.push()

    threads = [threading.Thread(target=work, args=(pusher,)) for pusher in pushers]
    for thread in threads:
        thread.start()
    return threads


def served_again(room: ServerRoom) -> None:
    """Starts a server that is dead."""
    room.process.wait(120)
    room.start()


@once
def a_journal_in_redis(room: ServerRoom) -> None:
    """Pushes, clones, saves and starts again, as with a journal in files."""
    with InRedis(room):
        site = room.pushed()
        room.same(site)
        assert b"gitpoold_log_answering 1" in urllib.request.urlopen(room.http_url("/metrics", "")).read()
        room.process.kill()
        served_again(room)
        room.same(site)
        room.commit(site, "More", {"f": "x"})
        room.git(site, "push", "-q", room.url(), "main")
        room.serverd("save", room.served)
        assert room.stop() == 0
        room.start()
        room.same(site)


@once
def kills_of_redis_and_the_server(room: ServerRoom) -> None:
    """Kills now Redis, now the server, now both and the child, while two push."""
    with InRedis(room) as it:
        pushers = [Patient(room, number) for number in range(2)]
        for whom in (["redis"], ["server"], ["child", "redis", "server"]):
            over = threading.Event()
            threads = pushed_until(pushers, over)
            time.sleep(random.uniform(0.2, 0.8))
            if whom == ["server"]:
                room.run([room.server_program, "save", room.served])
            kill(it, whom)
            over.set()
            for thread in threads:
                thread.join()
            for pusher in pushers:
                pusher.judge()
        assert any(pusher.told for pusher in pushers), "no push was told"


def kill(it: InRedis, whom: List[str]) -> None:
    """Kills some, and starts them again."""
    if "child" in whom:
        os.kill(child_of(it.room), signal.SIGKILL)
    if "redis" in whom:
        it.redis.kill()
    time.sleep(random.uniform(0, 0.2))
    if "server" in whom:
        it.room.process.kill()
    if "redis" in whom:
        it.redis.start()
    if "server" in whom:
        served_again(it.room)


@over_http
def kills_at_fault_points_over_redis(room: ServerRoom) -> None:
    """Kills a server that has fault points at some of them, in a push and in a save."""
    faults = os.environ.get("GITPOOLD_FAULTPOINTS")
    if not faults:
        return
    with InRedis(room):
        room.stop()
        room.server_program = faults
        pusher = Patient(room, 0)
        for point in [int(word) for word in os.environ.get("GITPOOLD_REDIS_POINTS", "1 3 6 8 11").split()]:
            room.environment["GITPOOLD_FAULT"] = f"{('server', 'both')[point % 2]}:{point}"
            room.start()
            for _ in range(4):
                if not pusher.push() or room.run([room.server_program, "save", room.served]).returncode:
                    break
            if room.process.poll() is None:
                room.process.kill()
            room.environment.pop("GITPOOLD_FAULT")
            served_again(room)
            pusher.judge()
            assert pusher.push(), room.logged()[-500:]
            assert room.stop() == 0


@over_http
def a_silent_redis_is_told(room: ServerRoom) -> None:
    """Stops Redis: pushes wait, and are told in a sentence; clones go on. Then Redis goes on."""
    with InRedis(room) as it:
        site = room.pushed()
        told = room.tenant_refs()
        room.commit(site, "More", {"f": "x"})
        os.kill(it.redis.process.pid, signal.SIGSTOP)
        began = time.monotonic()
        done = room.run(["git", "push", "-q", "pool", "main"], room.path(site))
        assert done.returncode and re.search(WAITED, done.stderr), done.stderr
        assert time.monotonic() - began >= WAIT
        room.fails(site, "push", "-q", "pool", "main", says="does not answer; nothing of this push was kept, and reading goes on")
        assert room.tenant_refs() == told
        assert "journal-broken     true" in text(room.serverd("status", room.served))
        os.kill(it.redis.process.pid, signal.SIGCONT)
        pushed_soon(room, site)
        assert "records that it had not told of it has" in room.logged()


@over_http
def a_full_redis_is_told(room: ServerRoom) -> None:
    """Gives Redis no memory, and then no disk: pushes are refused or wait, reading goes on, and pushes go on when there is space."""
    with InRedis(room, wait=120) as it:
        site = room.pushed()
        told = room.tenant_refs()
        room.commit(site, "More", {"f": "x"})
        it.redis.ask("CONFIG", "SET", "maxmemory", "1")
        for _ in range(2):
            room.fails(site, "push", "-q", "pool", "main", says="the server cannot write its journal; nothing of this push was kept")
            assert room.tenant_refs() == told
        assert 'a push by \\"alice\\" to acme/site failed: ' in room.logged()
        it.redis.ask("CONFIG", "SET", "maxmemory", "0")
        pushed_soon(room, site)
        resource.prlimit(it.redis.process.pid, resource.RLIMIT_FSIZE, (os.path.getsize(it.redis.aof()) + 50, resource.RLIM_INFINITY))
        room.commit(site, "On a full disk", {"g": os.urandom(5000).hex()})
        push = subprocess.Popen(["git", "push", "-q", "pool", "main"], cwd=room.path(site), env=room.environment, stderr=subprocess.PIPE)
        it.redis.process.wait(120)
        assert push.poll() is None
        it.redis.start()
        assert push.wait(120) == 0, room.logged()[-1000:]
        room.same(site)


def pushed_soon(room: ServerRoom, site: str) -> None:
    """Pushes as soon as pushes are taken again."""
    wait_for(lambda: room.run(["git", "push", "-q", "pool", "main"], room.path(site)).returncode == 0)
    room.same(site)


@over_http
def another_machine_takes_over(room: ServerRoom) -> None:
    """Starts a second server in another folder from a copy of the pool file: the first one ends, and nothing is lost."""
    with InRedis(room):
        assert room.stop() == 0
        room.options += ["--pool-copy", room.path("shared.pool")]
        room.start()
        site = room.pushed()
        room.serverd("save", room.served)
        room.commit(site, "After the save", {"f": "x"})
        room.git(site, "push", "-q", room.url(), "main")
        first = room.process
        other = room.path("other")
        shutil.copytree(room.served, other, ignore=shutil.ignore_patterns("pool*", "journal", "work", "lock", "socket", "log-place"))
        os.mkdir(os.path.join(other, "journal"))
        shutil.copy(room.path("shared.pool"), os.path.join(other, "pool"))
        room.served = other
        room.start()
        assert first.wait(300) == 4
        assert "another server has taken the log over" in room.logged()
        room.git(site, "remote", "set-url", "pool", room.url())
        room.same(site)
        room.commit(site, "On the other machine", {"f": "y"})
        room.git(site, "push", "-q", "pool", "main")
        assert room.stop() == 0
        room.start()
        room.same(site)


@over_http
def a_redis_that_lost_its_end(room: ServerRoom) -> None:
    """Takes the last records from Redis: the running server ends and keeps all that was told in a file, and no start goes on."""
    with InRedis(room) as it:
        site = room.pushed()
        size = os.path.getsize(it.redis.aof())
        room.commit(site, "Lost", {"f": "x"})
        room.git(site, "push", "-q", room.url(), "main")
        it.redis.kill()
        os.truncate(it.redis.aof(), size)
        it.redis.start()
        assert room.process.wait(300) == 3
        before = it.redis.ask("XRANGE", "site", "-", "+")
        done = room.run([room.server_program, "serve", room.served, "--program", room.program, *room.options])
        assert done.returncode == 3 and b"the log lost its end" in done.stderr, done.stderr
        assert it.redis.ask("XRANGE", "site", "-", "+") == before
        os.replace(os.path.join(room.served, "pool.rescued"), room.pool)
        os.unlink(os.path.join(room.served, "log-place"))
        room.options[1] += "-2"
        it.init()
        room.start()
        room.git(site, "remote", "set-url", "pool", room.url())
        room.same(site)
