"""Strikes at the two servers of a service, one of which follows the other: kills and stops, changes of the leader, and a follower that lost its files
or was cut off. The follower comes back as docs/DEPLOY.md tells the operator."""
from __future__ import annotations

import os
import random
import shutil
import signal
import time
from typing import List, Optional, Sequence

from gates import Gate
from redis_pairs import Pair, wait_until
from servers import Server, content
from service import OLDER, TAKE_OVER, Service


class FollowerStrikes:
    """What may happen to the server that follows, and to the one that leads while another one may take over."""

    def __init__(self, service: Service, chance: random.Random):
        self.service, self.chance = service, chance

    def rest(self, most: float) -> None:
        """Waits for some time."""
        time.sleep(self.chance.uniform(0, most))

    def follower(self) -> Server:
        """The server that follows."""
        assert self.service.follower, "nobody follows"
        return self.service.follower

    def follower_killed(self) -> None:
        """The follower is killed, and comes back in its own folder."""
        it = self.follower()
        it.kill()
        self.rest(2)
        self.service.follow(it)

    def follower_stopped(self) -> None:
        """The follower is stopped for some time."""
        it = self.follower()
        it.signal(signal.SIGSTOP)
        self.rest(6)
        it.signal(signal.SIGCONT)

    # Changes of the leader

    def leader_killed(self) -> None:
        """The leader is killed for good: the follower takes over, and the leader before comes back and follows."""
        self.may_take_over()
        self.service.leader.kill()
        self.comes_back(self.service.change_leader())

    def leader_stopped(self) -> None:
        """The leader is stopped until the follower has taken over: it ends with 4 when it wakes, and comes back and follows."""
        self.may_take_over()
        leader = self.service.leader
        leader.signal(signal.SIGSTOP)
        try:
            self.service.change_leader()
            self.rest(1)
        finally:
            leader.signal(signal.SIGCONT)
        wait_until(lambda: leader.status() is not None, "a leader that was stopped goes on although another one leads")
        assert leader.status() == 4 and "another server has taken the log over" in leader.said(), f"{leader.status()}: {leader.said()[-1500:]}"
        self.comes_back(leader)

    def leader_ended(self) -> None:
        """A planned change: the leader ends, the follower takes over, and the leader before comes back and follows."""
        self.may_take_over()
        status = self.service.leader.end()
        assert status == 0, f"the leader ended with {status}"
        self.comes_back(self.service.change_leader())

    def may_take_over(self) -> None:
        """Lets the follower start again as one that takes over."""
        it = self.follower()
        if it.status() is not None and self.may_end(it):
            self.service.follow_anew(it)
        status = it.end()
        assert status == 0, f"a follower ended with {status}: {it.said()[-1500:]}"
        self.service.follow(it, *TAKE_OVER)

    def may_end(self, follower: Server) -> bool:
        """Whether the follower may have ended as it has."""
        raise NotImplementedError

    def comes_back(self, old: Server) -> None:
        """Lets a leader before follow the one that leads now."""
        self.rest(2)
        self.service.follow(old)

    # A follower that lost its files, or what the logs had

    def follower_damaged(self) -> None:
        """A byte of a pool file of the follower is flipped while it is down: it does not start. The copy is put back."""
        it, number = self.follower(), self.chance.randrange(self.service.shards)
        it.kill()
        damaged = bytearray(content(it.pool(number)))
        damaged[self.chance.randrange(len(damaged))] ^= 1 << self.chance.randrange(8)
        with open(it.pool(number), "wb") as file:
            file.write(damaged)
        self.refused(it, 3, ("pool",))
        assert content(it.pool(number)) == damaged, "a refused start changed a pool file"
        shutil.copyfile(self.service.copy(number), it.pool(number))
        self.service.follow(it)

    def follower_emptied(self) -> None:
        """The folder of the follower is emptied while it is down: it does not start. It is made anew."""
        it = self.follower()
        it.kill()
        shutil.rmtree(it.folder)
        os.mkdir(it.folder, 0o700)
        self.refused(it, 1, ("shards", "logs"))
        self.service.follow_anew(it)

    def refused(self, it: Server, status: int, says: Sequence[str]) -> None:
        """Asks that a follower does not start, and says why."""
        self.service.begin_following(it)
        wait_until(lambda: it.status() is not None or it.ports(), "a follower that lost its files does not end")
        assert it.status() == status and any(word in it.said() for word in says), f"a follower ended with {it.status()}: {it.said()[-1500:]}"

    def follower_cut_off(self) -> None:
        """The follower is cut off from Redis until a log is trimmed past what it has: it ends with 3, and goes on from copies of the pool files."""
        it, is_silent = self.follower(), self.chance.random() < 0.5
        it.end()
        gates = [Gate(pair, is_silent) for pair in self.service.pairs]
        try:
            self.service.begin_following(it, logs=through(gates))
            it.wait_for_doors()
            wait_until(lambda: it.is_well(follows=True), "a follower does not come through the gates")
            self.cut_off(gates)
            wait_until(lambda: it.status() is not None, "a follower goes on although the log was trimmed past it")
            assert it.status() == 3 and any(word in it.said() for word in OLDER), f"the follower ended with {it.status()}: {it.said()[-1500:]}"
        finally:
            for gate in gates:
                gate.close()
        self.service.copy_to(it)
        self.service.follow(it)

    def cut_off(self, gates: Sequence[Gate]) -> None:
        """Shuts gates until the leader has saved so often that a log was trimmed past what a follower behind them has."""
        for gate in gates:
            gate.shut()
        try:
            last = [number_at(gate.pair, "XREVRANGE", "+", "-") or 0 for gate in gates]
            wait_until(lambda: self.service.saves() and any(is_past(gate.pair, number) for gate, number in zip(gates, last)), "no log is trimmed")
        finally:
            for gate in gates:
                gate.open()

    OF_FOLLOWER: Sequence[str] = (
        "follower_killed",
        "follower_stopped",
        "leader_killed",
        "leader_stopped",
        "leader_ended",
        "follower_damaged",
        "follower_emptied",
        "follower_cut_off",
    )


def through(gates: Sequence[Gate]) -> List[str]:
    """The options of a server that comes to the logs through gates."""
    words: List[str] = []
    for it in gates:
        words += ["--log", f"redis://127.0.0.1:{it.port}/{it.pair.key}"]
    return [*words, "--log-wait", "3s", "--replicas", "1"]


def number_at(pair: Pair, *words: str) -> Optional[int]:
    """The number of the first record that a range of a log begins with, if Redis tells it."""
    told = pair.primary().ask(words[0], pair.key, *words[1:], "COUNT", 1)
    entry = told[0] if isinstance(told, list) and told else None
    return int(entry[0].split(b"-")[0]) if isinstance(entry, list) and isinstance(entry[0], bytes) else None


def is_past(pair: Pair, number: int) -> bool:
    """Whether a log begins behind the record after one."""
    first = number_at(pair, "XRANGE", "-", "+")
    return first is not None and first > number + 1
