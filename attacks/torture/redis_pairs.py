"""Redis servers for a torture: for each shard a primary and a replica, and a Sentinel that puts one in the place of the other."""
from __future__ import annotations

import glob
import os
import shutil
import signal
import socket
import subprocess
import time
from typing import Callable, Dict, List, Optional, Sequence, Union

Reply = Union[bytes, int, None, List["Reply"], Exception]
Word = Union[str, bytes, int]

PATIENCE = 300.0
"""For how many seconds something is waited for that has to come."""


STARTED: List["subprocess.Popen[bytes]"] = []
"""All servers that were started."""


def end_all() -> None:
    """Kills the servers that run still."""
    for it in STARTED:
        if it.poll() is None:
            it.send_signal(signal.SIGCONT)
            it.kill()
            it.wait()


class NotThere(Exception):
    """What was waited for did not come."""


def wait_until(holds: Callable[[], object], what: str, seconds: float = PATIENCE) -> None:
    """Waits until something holds."""
    until = time.monotonic() + seconds
    while not holds():
        if time.monotonic() > until:
            raise NotThere(what)
        time.sleep(0.02)


HELD: List[socket.socket] = []


def free_port() -> int:
    """A port for a server, also for one that is started again: a socket has it that does not listen, so that no connection is given it."""
    found = socket.socket()
    found.setsockopt(socket.SOL_SOCKET, socket.SO_REUSEADDR, 1)
    found.bind(("127.0.0.1", 0))
    HELD.append(found)
    return int(found.getsockname()[1])


class Line:
    """A connection to a Redis. What it raises, beside an answer of Redis that is an error, is OSError."""

    def __init__(self, port: int, within: float = 5):
        self.peer = socket.create_connection(("127.0.0.1", port), timeout=within)
        self.source = self.peer.makefile("rb")

    def ask(self, *words: Word) -> Reply:
        """What Redis answers."""
        parts = [it if isinstance(it, bytes) else str(it).encode() for it in words]
        self.peer.sendall(b"*%d\r\n" % len(parts) + b"".join(b"$%d\r\n%b\r\n" % (len(it), it) for it in parts))
        return self.read()

    def read(self) -> Reply:
        """One answer."""
        line = self.source.readline()
        if not line.endswith(b"\r\n"):
            raise OSError("Redis has gone")
        kind, rest = line[:1], line[1:-2]
        if kind == b"-":
            return Exception(rest.decode(errors="replace"))
        if kind == b":":
            return int(rest)
        if kind == b"+":
            return rest
        if rest == b"-1":
            return None
        return self.source.read(int(rest) + 2)[:-2] if kind == b"$" else [self.read() for _ in range(int(rest))]

    def close(self) -> None:
        """Ends the connection."""
        self.source.close()
        self.peer.close()


class RedisServer:
    """A redis-server on a free port, whose folder outlives it."""

    def __init__(self, folder: str, *settings: str):
        self.folder, self.settings, self.port = folder, settings, free_port()
        self.process: Optional["subprocess.Popen[bytes]"] = None
        os.mkdir(folder)

    def environment(self) -> Dict[str, str]:
        """The environment in which it runs: its clock goes by a file, where there is a compiler for that."""
        library = os.path.join(os.path.dirname(self.folder), "clock.so")
        if not os.path.exists(library):
            return dict(os.environ)
        return dict(os.environ, LD_PRELOAD=library, CLOCK_FILE=os.path.join(self.folder, "clock"))

    def jump(self, seconds: int) -> None:
        """Lets its clock jump to so many seconds before or behind that of the machine."""
        with open(os.path.join(self.folder, "clock.new"), "w", encoding="ascii") as file:
            file.write(f"{seconds}\n")
        os.replace(os.path.join(self.folder, "clock.new"), os.path.join(self.folder, "clock"))

    def start(self, *more: str) -> None:
        """Starts it, and waits until it answers and has loaded its file. It has no thread for its allocator, which never rests where the clock is behind."""
        words = [
            "redis-server",
            *self.settings,
            "--port",
            str(self.port),
            "--bind",
            "127.0.0.1",
            "--dir",
            self.folder,
            "--logfile",
            "redis.log",
            "--jemalloc-bg-thread",
            "no",
            *more,
        ]
        self.process = subprocess.Popen(words, stdout=subprocess.DEVNULL, env=self.environment())
        STARTED.append(self.process)
        wait_until(lambda: self.ask("PING") == b"PONG", f"redis-server in {self.folder} does not answer")

    def ask(self, *words: Word) -> Reply:
        """What it answers, or the error for which it does not."""
        try:
            line = Line(self.port)
        except OSError as error:
            return error
        try:
            return line.ask(*words)
        except OSError as error:
            return error
        finally:
            line.close()

    def signal(self, number: int) -> None:
        """Sends it a signal."""
        if self.process:
            self.process.send_signal(number)

    def kill(self) -> None:
        """Kills it, and waits until it is gone."""
        if self.process:
            self.process.send_signal(signal.SIGCONT)
            self.process.kill()
            self.process.wait()
            self.process = None

    def is_primary(self) -> bool:
        """Whether it says that it is a primary."""
        told = self.ask("ROLE")
        return isinstance(told, list) and told[0] == b"master"

    def aof(self) -> str:
        """The file to which it appends."""
        return max(glob.glob(os.path.join(self.folder, "appendonlydir", "*.incr.aof")), key=lambda it: int(it.split(".")[-3]))


DURABLE = (
    "--save",
    "",
    "--appendonly",
    "yes",
    "--appendfsync",
    "always",
    "--repl-diskless-sync-delay",
    "0",
    "--repl-timeout",
    "5",
    "--repl-ping-replica-period",
    "1",
)


class Pair:
    """The two servers of a shard. Which of them is the primary, the Sentinel says."""

    def __init__(self, room: str, number: int, sentinel: "Sentinel"):
        self.name, self.key, self.sentinel = f"shard{number}", f"log{number}", sentinel
        self.both = [RedisServer(os.path.join(room, f"redis{number}{it}"), *DURABLE) for it in "ab"]
        self.both[0].start()
        self.both[1].start("--replicaof", "127.0.0.1", str(self.both[0].port))

    def primary(self) -> RedisServer:
        """The primary, as the Sentinel knows it."""
        port = self.sentinel.primary_of(self.name)
        return next((it for it in self.both if it.port == port), self.both[0])

    def replica(self) -> RedisServer:
        """The other one."""
        first = self.primary()
        return self.both[1] if first is self.both[0] else self.both[0]

    def start_again(self) -> None:
        """Starts what is down: each as a replica of the other, if that is the primary."""
        primary = self.primary()
        for it in (primary, *(other for other in self.both if other is not primary)):
            if it.process is None:
                it.start(*(() if it is primary else ("--replicaof", "127.0.0.1", str(primary.port))))

    def is_settled(self) -> bool:
        """Whether the primary that the Sentinel knows takes writes, and the other one follows it and has all that it has."""
        primary, replica = self.primary(), self.replica()
        told = replica.ask("ROLE")
        if not primary.is_primary() or not isinstance(told, list) or told[0] != b"slave" or told[3] != b"connected":
            return False
        return told[2] == primary.port

    def entries(self, key: str, server: Optional[RedisServer] = None) -> Reply:
        """All entries of a log, as one of the two has them."""
        return (server or self.primary()).ask("XRANGE", key, "-", "+")

    def keys(self) -> List[str]:
        """The logs that stand in this pair and are in use: that of its shard, and the first pair has the table of places."""
        return [it for it in (self.key, f"{self.key}/places") if self.primary().ask("EXISTS", it) == 1]

    def close(self) -> None:
        """Ends both."""
        for it in self.both:
            it.kill()


class Sentinel(RedisServer):
    """A Sentinel that watches all pairs, and acts after a second of silence."""

    def __init__(self, room: str):
        super().__init__(os.path.join(room, "sentinel"))
        self.file = os.path.join(self.folder, "sentinel.conf")
        with open(self.file, "w", encoding="ascii"):
            pass
        self.settings = (self.file, "--sentinel")
        self.start()

    def watch(self, pairs: Sequence[Pair]) -> None:
        """Watches these."""
        for pair in pairs:
            self.ask("SENTINEL", "MONITOR", pair.name, "127.0.0.1", pair.both[0].port, 1)
            self.ask("SENTINEL", "SET", pair.name, "failover-timeout", 3000)
            self.wait_before_failovers(pair)

    def wait_before_failovers(self, pair: Pair, milliseconds: int = 1000) -> None:
        """Lets it act when a primary is silent for so long."""
        self.ask("SENTINEL", "SET", pair.name, "down-after-milliseconds", milliseconds)

    def primary_of(self, name: str) -> int:
        """The port of the primary that it knows under a name, 0 where it does not answer."""
        told = self.ask("SENTINEL", "GET-MASTER-ADDR-BY-NAME", name)
        return int(told[1]) if isinstance(told, list) and isinstance(told[1], bytes) else 0

    def knows_replicas(self, pairs: Sequence[Pair]) -> bool:
        """Whether it knows a replica of each, which it may put in the place of its primary."""
        return all(isinstance(told, list) and len(told) == 1 for told in (self.ask("SENTINEL", "REPLICAS", it.name) for it in pairs))


def make_clock(room: str) -> bool:
    """Compiles the clock of the Redis servers of a room, and tells whether there is a compiler."""
    source = os.path.join(os.path.dirname(os.path.realpath(__file__)), "clock.c")
    words = ["cc", "-O2", "-shared", "-fPIC", "-o", os.path.join(room, "clock.so"), source]
    return bool(shutil.which("cc")) and subprocess.run(words).returncode == 0


def copied(source: RedisServer, target: RedisServer) -> None:
    """Gives a server that does not run what is in the files of another one."""
    shutil.copytree(os.path.join(source.folder, "appendonlydir"), os.path.join(target.folder, "appendonlydir"))
