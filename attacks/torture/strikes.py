"""Strikes at a service: kills, stops, failovers and jumps of clocks, which nobody may notice but by waiting; and damage, which has to be told.

A strike of the first kind comes while owners are at work. One of the second kind ends with what the pages of docs/ tell the operator
to do; then too all that was told has to be there.
"""
from __future__ import annotations

import hashlib
import itertools
import os
import random
import shutil
import signal
import struct
import subprocess
import time
from typing import Callable, Dict, List, Sequence, Tuple, Union

from follower_strikes import FollowerStrikes
from redis_pairs import NotThere, Pair, RedisServer, wait_until
from servers import Refused, Server, content
from service import QUESTIONS, Service

Entry = Union[bytes, int, None, Exception, "List[Entry]"]
DAY = 86_400


class Strikes(FollowerStrikes):
    """What may happen to a service."""

    def __init__(self, service: Service, chance: random.Random):
        super().__init__(service, chance)
        self.day, self.present = 0, ""
        self.seen: Dict[str, int] = {}

    def begin(self) -> None:
        """Begins a round: what the servers say from now on belongs to its strike."""
        self.present, self.seen = "", {it.log: os.path.getsize(it.log) for it in self.service.both()}

    def pair(self) -> Pair:
        """One of the pairs of Redis servers."""
        return self.chance.choice(self.service.pairs)

    # Beside work

    def server_killed(self) -> None:
        """The server is killed."""
        self.service.leader.kill()
        self.rest(0.5)
        self.service.start()

    def child_killed(self) -> None:
        """A child is killed."""
        self.signal_child(signal.SIGKILL)

    def children_killed(self) -> None:
        """All children are killed."""
        for it in self.children():
            signalled(it, signal.SIGKILL)

    def children(self) -> List[int]:
        """The children of leader and follower."""
        return [child for it in self.service.both() for child in it.children()]

    def signal_child(self, number: int) -> int:
        found = self.children()
        chosen = self.chance.choice(found) if found else 0
        signalled(chosen, number)
        return chosen

    def child_stopped(self) -> None:
        """A child is stopped for some time."""
        chosen = self.signal_child(signal.SIGSTOP)
        self.rest(3)
        signalled(chosen, signal.SIGCONT)

    def server_stopped(self) -> None:
        """The server is stopped for some time."""
        self.service.leader.signal(signal.SIGSTOP)
        self.rest(6)
        self.service.leader.signal(signal.SIGCONT)

    def primary_killed(self) -> None:
        """A primary is killed; it comes back at once, or its replica takes its place before."""
        pair = self.pair()
        pair.primary().kill()
        self.rest(4)
        pair.start_again()

    def primary_killed_in_reads(self) -> None:
        """The same, while most of the work is questions."""
        self.service.questions = 0.9
        self.rest(1)
        self.primary_killed()
        self.service.questions = QUESTIONS

    def replica_killed(self) -> None:
        """A replica is killed; without it nothing is told."""
        pair = self.pair()
        pair.replica().kill()
        self.rest(4)
        pair.start_again()

    def primary_stopped(self) -> None:
        """A primary is stopped, and goes on when another one may have its place."""
        primary = self.pair().primary()
        primary.signal(signal.SIGSTOP)
        self.rest(4)
        primary.signal(signal.SIGCONT)

    def failover(self) -> None:
        """The Sentinel is asked to put a replica in the place of its primary."""
        self.service.sentinel.ask("SENTINEL", "FAILOVER", self.pair().name)
        self.rest(1)

    def sentinel_killed(self) -> None:
        """The Sentinel is killed, and a primary while it is away."""
        self.service.sentinel.kill()
        pair = self.pair()
        first = pair.both[0] if pair.both[0].is_primary() else pair.both[1]
        first.kill()
        self.rest(1)
        self.service.sentinel.start()
        first.start()

    def all_killed(self) -> None:
        """The servers, their children, all Redis servers and the Sentinel are killed, as when the power fails."""
        primaries, follower = [pair.primary() for pair in self.service.pairs], self.follower()
        follower.kill()
        for process in (self.service.sentinel, *(it for pair in self.service.pairs for it in pair.both)):
            process.signal(signal.SIGKILL)
        self.service.leader.kill()
        for pair, primary in zip(self.service.pairs, primaries):
            pair.close()
            primary.start()
        self.service.sentinel.kill()
        self.service.sentinel.start()
        for pair in self.service.pairs:
            pair.start_again()
        self.service.start()
        self.service.follow(follower)

    def clock_jumps(self) -> None:
        """The clock of a machine with a Redis and that of the Sentinel jump by a day, forward or back. A Sentinel whose clock went back asks no server for
        its role until the clock is where it was, so it is started again, as docs/DEPLOY.md says."""
        jump = self.chance.choice([it for it in (DAY, -DAY) if abs(self.day + it) <= 2 * DAY])
        self.day += jump
        for it in (self.pair().both[0], self.pair().both[1], self.service.sentinel):
            it.jump(self.day)
        self.rest(1)
        if jump < 0:
            self.service.sentinel.kill()
            self.service.sentinel.start()

    def redis_full(self) -> None:
        """A Redis has no memory for some time: pushes are refused."""
        primary = self.pair().primary()
        primary.ask("CONFIG", "SET", "maxmemory", 1)
        self.rest(1)
        primary.ask("CONFIG", "SET", "maxmemory", 0)

    def fault_point(self) -> None:
        """The server starts again, and is killed at one of its fault points, or its child is, or both."""
        self.service.leader.kill()
        whom = self.chance.choice(("server", "child", "both"))
        self.service.begin(GITPOOLD_FAULT=f"{whom}:{self.chance.randrange(1, 400)}")
        self.service.leader.serves()
        self.rest(3)
        self.service.leader.kill()
        self.service.start()

    def taken_over(self) -> None:
        """Another machine takes the service over while the first one answers, which has to end with 4."""
        service, first = self.service, self.service.leader
        wait_until(service.saves, "the leader does not save")
        service.leader = Server(service.new_folder(), service.shards)
        for _ in range(20):
            service.other_machine(service.leader.folder, first.folder)
            service.begin()
            if service.leader.serves():
                break
            assert service.leader.status() == 3 and "goes on from the pool file" in service.leader.said(), service.leader.said()[-1500:]
        assert first.process
        status = first.process.wait(300)
        assert status == 4, f"the first server ended with {status}"

    # Damage. The service stands still, and all that was told is there.

    def damaged_record(self) -> None:
        """A bit of a record in a log is flipped: no start goes on, and none changes anything."""
        pair, key, entries = self.quiet()
        at = self.chance.randrange(len(entries))
        flipped = bytearray(field(entries[at]))
        flipped[self.chance.randrange(len(flipped))] ^= 1 << self.chance.randrange(8)
        self.refused_with(pair, key, entries, lambda: rewritten(pair, key, entries, {at: bytes(flipped)}), ("not as it was written",))

    def entry_taken_out(self) -> None:
        """A record in the middle of a log is taken out."""
        pair, key, entries = self.quiet()
        if len(entries) > 2:
            name = name_of(entries[self.chance.randrange(1, len(entries) - 1)])
            self.refused_with(pair, key, entries, lambda: pair.primary().ask("XDEL", key, name), ("not as it was written",))
        else:
            self.service.start()

    def numbers_used_again(self) -> None:
        """All of a Redis goes, and comes back without the last records; those of another history have their numbers."""
        pair, key, entries = self.quiet()
        lost = self.chance.randrange(1, min(6, len(entries))) if len(entries) > 1 else 0

        def damage() -> None:
            rewritten(pair, key, entries[:-lost], {}, flush=len(pair.keys()) == 1)
            self.other_history(pair, key, entries[-lost - 1], lost)

        if lost:
            self.refused_with(pair, key, entries, damage, ("is another one than this server had",))
        else:
            self.service.start()

    def refused_with(self, pair: Pair, key: str, entries: Sequence[Entry], damage: Callable[[], object], says: Sequence[str]) -> None:
        """Asks that no start goes on with a damage to a log, and undoes it."""
        try:
            damage()
            self.refused_start(says)
        finally:
            rewritten(pair, key, entries, {})
            self.service.leader.kill()
            self.service.start()

    def other_history(self, pair: Pair, key: str, last: Entry, count: int) -> None:
        """Appends records behind one of them, as a server on another machine would that had taken the log over there."""
        number, chain = int(name_of(last).split(b"-")[0]), field(last)[-32:]
        for number in range(number + 1, number + count + 2):
            made = record(number, chain, b"%032d" % self.chance.randrange(10**32))
            pair.primary().ask("XADD", key, f"{number}-0", "record", made)
            chain = made[-32:]

    def log_gone(self) -> None:
        """A Redis is emptied under the server that runs: it ends, keeps what was told in a file, and goes on with that under another key. Meanwhile the
        Sentinel does not put the replica in its place, which may not have been emptied yet."""
        pair = self.pair()
        self.service.sentinel.wait_before_failovers(pair, 60_000)
        pair.primary().ask("FLUSHALL")
        self.ended_with(3, ("the log is gone",))
        self.service.sentinel.wait_before_failovers(pair)
        self.refused_start(("the log is gone", "there is no log"))
        self.rescued()

    def log_cut(self) -> None:
        """A Redis comes back without the end of its file, of which its replica knows nothing either."""
        self.with_lost_end(lambda pair: [(pair.primary(), pair.primary()), (pair.primary(), pair.replica())])

    def lossy_failover(self) -> None:
        """A replica that lacks the last records takes the place of its primary."""
        self.with_lost_end(lambda pair: [(pair.replica(), pair.replica())])

    def with_lost_end(self, cuts: Callable[[Pair], List[Tuple[RedisServer, RedisServer]]]) -> None:
        """Cuts files of a pair, each a copy of another one's, which then are all that there is."""
        pair = self.pair()
        chosen = cuts(pair)
        first = chosen[0][1]
        self.has_record(pair, first)
        for it in pair.both:
            it.kill()
        # Where it still knew the pair, it could let the first one follow what was the primary before.
        self.service.sentinel.ask("SENTINEL", "REMOVE", pair.name)
        cut_off(first, self.chance)
        for source, target in chosen[1:]:
            shutil.rmtree(os.path.join(target.folder, "appendonlydir"))
            shutil.copytree(os.path.join(source.folder, "appendonlydir"), os.path.join(target.folder, "appendonlydir"))
        first.start()
        other = next(it for it in pair.both if it is not first)
        pair.both = [first, other]
        self.service.sentinel.watch([pair])
        other.start("--replicaof", "127.0.0.1", str(first.port))
        wait_until(pair.is_settled, "a pair that lost records does not come back")
        self.ended_with(3, ("lost", "gone"))
        self.refused_start(("lost", "gone", "there is no log", "another one"))
        self.rescued()

    def has_record(self, pair: Pair, server: RedisServer) -> None:
        """Lets the file of a Redis have a record that can be cut off: tenants are moved to its shard or from it. Right after a Redis has become a replica,
        all that came before is in the base of its file, and a cut would lose nothing."""
        service = self.service
        number = service.pairs.index(pair)
        names = [line.split()[0] for line in service.leader.operate("tenants").splitlines()]
        for name, step in itertools.product(names, (0, 1)):
            if RECORD in content(server.aof()):
                break
            try:
                service.leader.operate("move", name, str(1 + (number + step) % service.shards))
            except Refused:
                continue
        wait_until(service.follower_comes, "the follower does not come to what was moved")

    def pool_damaged(self) -> None:
        """A byte of a pool file is flipped while the server is down: no start goes on; the copy is put back."""
        service = self.service
        wait_until(service.saves, "the leader does not save")
        number = self.chance.randrange(service.shards)
        service.leader.kill()
        path, whole = service.leader.pool(number), content(service.leader.pool(number))
        damaged = bytearray(whole)
        damaged[self.chance.randrange(len(damaged))] ^= 1 << self.chance.randrange(8)
        with open(path, "wb") as file:
            file.write(damaged)
        self.refused_start(("pool",))
        assert content(service.copy(number)) == whole, "the copy is another file than the pool"
        shutil.copyfile(service.copy(number), path)
        service.start()

    # What damage has in common

    def quiet(self) -> Tuple[Pair, str, List[Entry]]:
        """Kills the server, and gives a log, which may be the table of places, with its entries."""
        self.service.leader.kill()
        pair = self.pair()
        key = self.chance.choice(pair.keys())
        return pair, key, listed(pair.entries(key))

    def refused_start(self, says: Sequence[str]) -> None:
        """Asks that a start ends with 3, says why, and changes no pool file and no log; those of sound shards may end in records that say that they
        were taken over, and that streams which were open are given up."""
        service = self.service
        pools, logs = service.leader.pools(), self.logs()
        service.begin()
        wait_until(lambda: service.leader.status() is not None or service.leader.ports(), "a start over damage does not end")
        self.has_ended(3, says)
        assert service.leader.pools() == pools, "a refused start changed a pool file"
        for one, other in zip(logs, self.logs()):
            assert other[: len(one)] == one and all(field(it)[HEAD] in AT_A_START for it in other[len(one) :]), "a refused start changed a log"

    def logs(self) -> List[List[Entry]]:
        """The entries of all logs."""
        return [listed(it.entries(key)) for it in self.service.pairs for key in it.keys()]

    def ended_with(self, status: int, says: Sequence[str]) -> None:
        """Asks that the running server ends so by itself, and says why."""
        wait_until(lambda: self.service.leader.status() is not None, "the server goes on although its log lost records")
        self.has_ended(status, says)

    def has_ended(self, status: int, says: Sequence[str]) -> None:
        """Asks that the server has ended so, and has said one of these."""
        found, told = self.service.leader.status(), self.service.leader.said()
        assert found == status and any(it in told for it in says), f"the server ended with {found}: {told[-1500:]}"

    def rescued(self) -> None:
        """Does what docs/DEPLOY.md says after a lost end: takes what the server kept, and begins the logs anew under other keys. The follower has ended
        too, and has kept what it had."""
        service, follower = self.service, self.follower()
        wait_until(lambda: follower.status() is not None, "the follower goes on although its log lost records")
        assert follower.status() == 3, f"the follower ended with {follower.status()}: {follower.said()[-1500:]}"
        self.has_kept(follower)
        for number, pair in enumerate(service.pairs):
            kept = service.leader.rescued(number)
            os.replace(kept, service.leader.pool(number))
            os.unlink(os.path.join(os.path.dirname(kept), "log-place"))
            pair.key += "n"
        os.unlink(os.path.join(service.leader.folder, "places-log-place"))
        service.init()
        service.start()
        service.follow_anew(follower)

    def has_kept(self, it: Server) -> None:
        """Asks that a server has kept sound pool files. They need not be those of the other one: the leader has steps too of which nobody was told, and that
        the log never got. A shard whose child is just replaced has nothing to keep, and says so."""
        for path in map(it.rescued, range(it.shards)):
            if not os.path.exists(path):
                assert "what the log lost is not saved" in it.said(), f"there is no {path}: {it.said()[-1500:]}"
                continue
            done = subprocess.run([self.service.program, "check", "--pool", path], capture_output=True, check=False)
            assert done.returncode == 0, f"{path} is not sound: {done.stderr!r}"

    def may_end(self, follower: Server) -> bool:
        """Whether the follower may have ended so: a log was damaged, or lost records in a failover that the leader had told nobody of."""
        return follower.status() == 3 and any(it in follower.said() for it in CHANGED) and (self.present in self.LOGS_CHANGE or self.gave_up())

    def gave_up(self) -> bool:
        """Whether the leader has said that it took no records for longer than pushes wait, and then settled what a log has of those that it had not told of."""
        log = self.service.leader.log
        return b"takes records again; of" in content(log)[self.seen.get(log, 0) :]

    BESIDE_WORK: Sequence[str] = (
        "server_killed",
        "child_killed",
        "children_killed",
        "child_stopped",
        "server_stopped",
        "primary_killed",
        "replica_killed",
        "primary_stopped",
        "failover",
        "sentinel_killed",
        "all_killed",
        "clock_jumps",
        "redis_full",
        "fault_point",
        "taken_over",
        "primary_killed_in_reads",
        *FollowerStrikes.OF_FOLLOWER,
    )
    LOGS_CHANGE: Sequence[str] = ("damaged_record", "entry_taken_out", "numbers_used_again")
    DAMAGE: Sequence[str] = (*LOGS_CHANGE, "log_gone", "log_cut", "lossy_failover", "pool_damaged")

    def of(self, name: str) -> Callable[[], None]:
        """The strike of a name, which is the one of now."""
        self.present = name
        found: Dict[str, Callable[[], None]] = {it: getattr(self, it) for it in (*self.BESIDE_WORK, *self.DAMAGE)}
        return found[name]


CHANGED = ("the log is gone", "the log lost its end", "is another one than this server had", "is not as it was written", "should come")
"""What a follower says of a log that is not as it was."""


def signalled(process: int, number: int) -> None:
    """Sends a signal to a process that may be gone; 0 is none."""
    if process:
        try:
            os.kill(process, number)
        except ProcessLookupError:
            pass


def listed(entries: Entry) -> List[Entry]:
    """The entries of a log."""
    assert isinstance(entries, list), entries
    return entries


def name_of(entry: Entry) -> bytes:
    """The place of an entry."""
    assert isinstance(entry, list) and isinstance(entry[0], bytes)
    return entry[0]


def field(entry: Entry) -> bytes:
    """The record of an entry."""
    assert isinstance(entry, list) and isinstance(entry[1], list) and isinstance(entry[1][1], bytes)
    return entry[1][1]


def rewritten(pair: Pair, key: str, entries: Sequence[Entry], other: Dict[int, bytes], flush: bool = False) -> None:
    """Gives a log these entries, some with other bytes. All that the Redis has is dropped before, or this log alone."""
    primary = pair.primary()
    primary.ask(*(("FLUSHALL",) if flush else ("DEL", key)))
    for at, entry in enumerate(entries):
        told = primary.ask("XADD", key, name_of(entry), "record", other.get(at, field(entry)))
        assert told == name_of(entry), told
    wait_until(lambda: pair.entries(key, pair.replica()) == pair.entries(key), "a replica does not follow")


RECORD = b"\r\nrecord\r\n"
"""What stands in the file of a Redis before the bytes of each record."""


def cut_off(server: RedisServer, chance: random.Random) -> None:
    """Takes up to 20 KB off the end of the file of a Redis that does not run, and at least the end of the last record. Signs of life stand behind it."""
    data = content(server.aof())
    last = data.rfind(RECORD)
    assert last >= 0, "there is no record to cut off"
    os.truncate(server.aof(), max(0, min(last, len(data) - chance.randrange(400, 20_000))))


HEAD, TAKEN_OVER, GIVEN_UP = 16, 33, 17
"""How many bytes stand before the frame of a record, and kinds of frames."""
AT_A_START = (TAKEN_OVER, GIVEN_UP)
"""The kinds of the records that a start may append."""


def record(number: int, chain: bytes, body: bytes) -> bytes:
    """A record of a server that has taken a log over, as server/journal/record.go writes it."""
    frame = struct.pack(">BHI", TAKEN_OVER, 0, len(body)) + body
    head = struct.pack(">IQ", len(frame), number)
    head += struct.pack(">I", crc32c(head))
    return head + frame + hashlib.sha256(chain + head + frame).digest()


def crc32c(data: bytes) -> int:
    """The CRC-32C of a few bytes."""
    found = 0xFFFFFFFF
    for byte in data:
        found ^= byte
        for _ in range(8):
            found = found >> 1 ^ 0x82F63B78 * (found & 1)
    return found ^ 0xFFFFFFFF
