"""A service for a torture: a gitpoold with several shards, whose logs are in pairs of Redis servers, and another one that follows it. The service may
go over to another folder, as to another machine."""
from __future__ import annotations

import os
import shutil
import subprocess
from typing import Dict, List, Optional, Sequence

from redis_pairs import DURABLE, STARTED, NotThere, Pair, RedisServer, Sentinel, copied, make_clock, wait_until
from servers import Refused, Server, content, shard_folder

USER, PASSWORD = "alice", "wonderland"
LIMITS = {
    "journal-bytes": "2M",
    "save-every": "15s",
    "step": "30s",
    "connections": "4096",
    "connections-by-address": "4096",
    "requests-by-user": "1000",
    "second-child": "1",
}
TAKE_OVER = ("--take-over", "3s")
LISTS = ("access", "passwords", "keys", "blocked", "limits", "hooks", "host_key", "host_key.pub", "host_key_ecdsa", "host_key_ecdsa.pub")
OF_SHARD = ("pool", "answers", "log-place")
"""What docs/DEPLOY.md has an operator copy to a machine that is to follow: of the folder, and of each shard."""
OLDER = ("no record goes on from the pool file", "the log no longer has the records before record", "should come; copy the newest pool file")
"""What a server says that is to follow, and whose pool file is too old for that."""
TRIES = 20
"""How often pool files are copied, where the leader has saved since."""
QUESTIONS = 0.35
"""How much of the work is questions."""


class Service:
    """A server that leads, over its pairs of Redis, and one that follows it, unless that is away. `program` is gitpool, `server` gitpoold, and `faults` a
    gitpoold that has fault points, or nothing."""

    def __init__(self, room: str, program: str, server: str, faults: str, shards: int):
        self.room, self.program, self.server, self.faults, self.shards = room, program, server, faults, shards
        self.leader, self.copies = Server(os.path.join(room, "one"), shards), os.path.join(room, "copy", "site.pool")
        self.follower: Optional[Server] = None
        self.questions = QUESTIONS
        os.mkdir(os.path.dirname(self.copies))
        self.environment = {name: value for name, value in os.environ.items() if not name.startswith("GIT")}
        self.has_clock = make_clock(room)
        self.sentinel = Sentinel(room)
        self.pairs: List[Pair] = []
        for number in range(shards):
            self.pairs.append(Pair(room, number, self.sentinel))
        self.sentinel.watch(self.pairs)
        wait_until(self.has_redis, "no pairs of Redis servers")
        self.make()

    def make(self) -> None:
        """Makes the folder, a user, and limits by which it saves often, and each time with a second child."""
        self.init()
        for name, value in LIMITS.items():
            self.command("limits", name, value)
        done = subprocess.run([self.server, "user", self.leader.folder, USER], input=PASSWORD.encode() + b"\n", check=True)
        assert done.returncode == 0
        subprocess.run(["ssh-keygen", "-q", "-t", "ed25519", "-N", "", "-f", os.path.join(self.room, "key")], check=True)
        self.command("user", USER, "--key", os.path.join(self.room, "key.pub"))
        self.command("grant", USER, "*", "rw")

    def init(self) -> None:
        """Begins the logs that there are not."""
        subprocess.run(
            [self.server, "init", self.leader.folder, "--program", self.program, *self.logs()],
            check=True,
            stdout=subprocess.DEVNULL,
            env=self.environment,
        )

    def logs(self) -> List[str]:
        """The options that say where the logs are."""
        words: List[str] = []
        for it in self.pairs:
            words += ["--log", f"sentinel://127.0.0.1:{self.sentinel.port}/{it.name}/{it.key}"]
        return [*words, "--log-wait", "3s", "--replicas", "1"]

    # A run

    def words(self, folder: str) -> List[str]:
        """How a server serves a folder."""
        return [self.server, "serve", folder, "--http", "127.0.0.1:0", "--ssh", "127.0.0.1:0", "--program", self.program, "--pool-copy", self.copies]

    def begin(self, **more: str) -> None:
        """Starts the leader, and does not wait for it."""
        words = [*self.words(self.leader.folder), *self.logs()]
        words[0] = self.faults if more and self.faults else self.server
        self.leader.begin(words, dict(self.environment, **more))

    def start(self) -> None:
        """Starts the leader once its Redis servers are there, and waits until it serves."""
        wait_until(self.has_redis, "no pairs of Redis servers")
        self.begin()
        self.leader.wait_for_doors()

    def has_redis(self) -> bool:
        """Whether all pairs of Redis servers are as they should be."""
        return all(it.is_settled() for it in self.pairs)

    def command(self, name: str, *words: str) -> None:
        """Runs a command of the operator that changes the lists of the folder."""
        subprocess.run([self.server, name, self.leader.folder, *words], check=True, capture_output=True, env=self.environment)

    def both(self) -> List[Server]:
        """The leader, and the follower if there is one."""
        return [self.leader, *([self.follower] if self.follower else [])]

    def new_folder(self) -> str:
        """A folder of a server that neither the leader nor the follower has."""
        taken = [it.folder for it in (self.leader, self.follower) if it]
        return next(it for it in (os.path.join(self.room, name) for name in ("one", "two", "three")) if it not in taken)

    # The server that follows

    def begin_following(self, it: Server, *more: str, logs: Sequence[str] = ()) -> None:
        """Starts a server that follows the leader, in the folder that it has, and does not wait for it."""
        words = [*self.words(it.folder), *(logs or self.logs()), "--follow", "--leader", "http://leader.example", *more]
        it.begin(words, self.environment)

    def follow(self, it: Server, *more: str) -> None:
        """Lets a server follow the leader in its folder. Where the log was trimmed past its pool file, that is copied first."""
        wait_until(self.has_redis, "no pairs of Redis servers")
        self.begin_following(it, *more)
        for _ in range(TRIES):
            if it.serves():
                break
            assert it.status() == 3 and any(word in it.said() for word in OLDER), f"a follower ended with {it.status()}: {it.said()[-1500:]}"
            self.copy_to(it)
            self.begin_following(it, *more)
        assert it.status() is None, "the leader saves so often that no copy of its pool files is new enough"
        self.follower = it
        self.wait_for_follower()

    def wait_for_follower(self) -> Server:
        """Waits until the follower has what the leader has, or has ended."""
        assert self.follower
        it = self.follower
        wait_until(lambda: it.status() is not None or it.is_well(follows=True), "the follower does not come to what the leader has")
        return it

    def follow_anew(self, it: Server) -> None:
        """Makes the folder of a server that is to follow, as docs/DEPLOY.md says, and lets it follow."""
        it.kill()
        shutil.rmtree(it.folder, ignore_errors=True)
        words = [self.server, "init", it.folder, "--program", self.program, "--shards", str(self.shards)]
        subprocess.run(words, check=True, stdout=subprocess.DEVNULL, env=self.environment)
        for name in LISTS:
            copy_if_there(os.path.join(self.leader.folder, name), it.folder)
        self.copy_to(it)
        self.follow(it)

    def copy_to(self, it: Server) -> None:
        """Lets the leader save, and copies its pool files to a server that is to follow, with the places to which it has come in the logs."""
        wait_until(self.saves, "the leader does not save")
        copy_if_there(os.path.join(self.leader.folder, "places-log-place"), it.folder)
        for number in range(self.shards):
            for name in OF_SHARD:
                copy_if_there(os.path.join(shard_folder(self.leader.folder, number), name), shard_folder(it.folder, number))

    def saves(self) -> bool:
        """Whether the leader saves all shards."""
        try:
            self.leader.operate("save")
        except Refused:
            return False
        return True

    def follower_comes(self) -> bool:
        """Whether the follower comes to what the logs have now, or has ended."""
        assert self.follower
        try:
            self.follower.operate("tenants")
        except Refused:
            return self.follower.status() is not None
        return self.follower.is_well(follows=True)

    def change_leader(self) -> Server:
        """Waits until the follower has taken over. It leads from now on, and nobody follows; gives the leader before."""
        assert self.follower
        new: Server = self.follower
        old = self.leader
        wait_until(lambda: new.status() is not None or new.stands().get("following") == "false", "the follower does not take over")
        assert new.status() is None, f"the follower ended with {new.status()}: {new.said()[-1500:]}"
        self.leader, self.follower = new, None
        return old

    # Files

    def copy(self, number: int) -> str:
        """The copy of the pool file of a shard."""
        return self.copies if number == 0 else f"{self.copies}-{number + 1}"

    def other_machine(self, folder: str, source: str = "") -> None:
        """Makes another folder of what another machine gets: the lists and keys of a folder, and the copies of the pool files."""
        shutil.rmtree(folder, ignore_errors=True)
        os.mkdir(folder, 0o700)
        for name in LISTS:
            copy_if_there(os.path.join(source or self.leader.folder, name), folder)
        for number in range(self.shards):
            place = shard_folder(folder, number)
            os.makedirs(place, 0o700, exist_ok=True)
            shutil.copyfile(self.copy(number), os.path.join(place, "pool"))

    def replayed(self, folder: str) -> List[bytes]:
        """The pool files that another machine makes, whose folder has copies of the pool files, of what the replicas have of the logs."""
        servers: List[RedisServer] = []
        words: List[str] = []
        for pair in self.pairs:
            it = RedisServer(os.path.join(folder, f"redis-{pair.name}"), *DURABLE)
            copied(pair.replica(), it)
            it.start()
            servers.append(it)
            words += ["--log", f"redis://127.0.0.1:{it.port}/{pair.key}"]
        process = subprocess.Popen([self.server, "serve", folder, "--program", self.program, *words], stderr=subprocess.DEVNULL, env=self.environment)
        STARTED.append(process)
        wait_until(lambda: os.path.exists(os.path.join(folder, "socket")) or process.poll() is not None, "another machine does not start")
        process.terminate()
        status = process.wait(300)
        for it in servers:
            it.kill()
        if status:
            raise NotThere(f"another machine ended with {status}")
        return [content(os.path.join(shard_folder(folder, it), "pool")) for it in range(self.shards)]


def copy_if_there(path: str, folder: str) -> None:
    """Copies a file into a folder, if it is there."""
    if os.path.exists(path):
        shutil.copy(path, folder)


def run(words: Sequence[str], at: str, environment: Dict[str, str], data: bytes = b"") -> "subprocess.CompletedProcess[bytes]":
    """Runs a command, which may end badly."""
    return subprocess.run(list(words), cwd=at, env=environment, input=data, capture_output=True)
