"""A run of the program over the tenants of one pool file, beside a repository of its own for each of them."""
from __future__ import annotations

import os
import random
from collections import Counter
from typing import Dict, List, Optional, Set

from gitpool_frames import Answer, Kind, Step
from hosts import Apart, Commands, Differs, Host, OK, Taker, bytes_of
from pool_files import Repository, written
from streams import Texts, Writer

BAD_NAMES = (b"a b", b"a//b", b"x" * 65, b"a.b", b"", b"-a", b"\xff")
# Names that a command line can have, too.
BAD_WORDS = BAD_NAMES[:4]
NO_STREAM, HAS_STREAM, BAD_NAME, NOT_EMPTY = 30, 31, 32, 33


def fault(number: int) -> Answer:
    """The answer of a refusal."""
    return Answer(1, number, b"")


def clear(part: object) -> str:
    """A value as a message has it."""
    text = repr(part)
    return text if len(text) < 600 else f"{text[:600]}.. ({len(text)} characters)"


class World:
    """The shared run, the repositories apart, and what was done so far."""

    def __init__(self, program: str, room: str, seed: int, uses_git: bool):
        self.draw = random.Random(seed)
        self.texts = Texts(self.draw)
        self.program, self.room, self.uses_git = program, room, uses_git
        self.pool = os.path.join(room, "pool")
        self.tenants = self._names()
        self.apart = {it: Apart(program, os.path.join(room, f"apart{number}"), it) for number, it in enumerate(self.tenants)}
        self.commands = Commands(program, self.pool)
        self.host: Optional[Host] = None
        self.plans: Dict[bytes, bytes] = {}
        self.streams: List[bytes] = []
        self.backups: List[Dict[bytes, bytes]] = []
        """Files that tenants had, each to be merged as one pool file."""
        self.gone: Set[bytes] = set()
        """Marks of contents that a tenant had and was rid of."""
        self.removed: Set[bytes] = set()
        self.done: List[str] = []
        # Steps whose answers were not compared yet.
        self._awaited: List[Step] = []
        self.counts: Counter[str] = Counter()

    def _names(self) -> List[bytes]:
        draw = self.draw
        names = [b"%b-%08x" % (it, draw.getrandbits(32)) for it in draw.sample((b"acme", b"Bob", b"c_c", b"t", b"zoe"), draw.randint(3, 5))]
        if draw.random() < 0.5:
            names[-1] = names[0] + b"/" + names[-1]
        return names

    # What acts draw

    def tenant(self) -> bytes:
        return self.draw.choice(self.tenants)

    def name(self) -> bytes:
        """A tenant, or now and then a bad name."""
        if self.draw.random() > 0.05:
            return self.tenant()
        return self.draw.choice(BAD_NAMES if self.host else BAD_WORDS)

    def is_bad(self, name: bytes) -> bool:
        return name not in self.apart

    def has_stream(self, name: bytes) -> bool:
        return self.apart[name].journal is not None

    def stream(self, tenant: bytes) -> bytes:
        """A new stream of a tenant, or one that some tenant had before."""
        if self.streams and self.draw.random() < 0.25:
            return self.draw.choice(self.streams)
        repository = self.apart[tenant].repository()
        refs = [full[full.rindex(b"/refs/") + 1 :] for full, _ in repository.refs]
        self.streams.append(Writer(self.draw, self.texts, refs, repository.head).stream())
        return self.streams[-1]

    # What is compared

    def note(self, text: str) -> None:
        self.done.append(text)

    def same(self, what: str, found: object, wanted: object) -> None:
        """Raises Differs where what was found is not what is wanted."""
        self.counts["comparisons"] += 1
        if found != wanted:
            raise Differs(f"{what}: found {clear(found)}, wanted {clear(wanted)}")

    @property
    def taker(self) -> Taker:
        """What takes requests now: a host, or the subcommands between two of them."""
        return self.host or self.commands

    def told(self, step: Step, wanted: Answer) -> bool:
        """Has the shared run take a step, and compares its answer. Whether it was well."""
        self.settle()
        self.note(f"{step.kind.name} {step.tenant!r} {step.body!r} -> {wanted.status} {wanted.value}")
        self.same(f"{step.kind.name} of {step.tenant!r}", self.taker.take(step), wanted)
        self.counts[f"{step.kind.name.lower()} {wanted.value or 'ok'}"] += 1
        return wanted.status == 0

    def both(self, step: Step) -> None:
        """Has the shared run and a tenant's own one take a step. The answers are compared before the next request of the operator."""
        apart = self.apart[step.tenant]
        apart.will_take(step)
        self.running.send(step)
        apart.host.send(step)
        self._awaited.append(step)

    def settle(self) -> None:
        """Compares the answers that are still to come."""
        for name in {it.tenant for it in self._awaited}:
            self.running.flush()
            self.apart[name].host.flush()
        for step in self._awaited:
            found, wanted = self.running.answer(), self.apart[step.tenant].host.answer()
            self.note(f"{step.kind.name} {step.tenant!r} {step.body!r} -> {wanted.status} {wanted.value}")
            self.same(f"{step.kind.name} of {step.tenant!r}", found, wanted)
            self.counts[f"{step.kind.name.lower()} {'refused' if wanted.status else 'ok'}"] += 1
        self._awaited.clear()

    @property
    def running(self) -> Host:
        assert self.host
        return self.host

    def repositories(self) -> Dict[bytes, Repository]:
        """What each tenant has at its last checkpoint, in its own repository."""
        for it in self.apart.values():
            it.begin_file()
        return {it: self.apart[it].repository() for it in self.tenants}

    def compare_file(self, what: str) -> bytes:
        """The pool file, which has what all tenants have apart, and nothing of what is gone."""
        found = bytes_of(self.pool)
        self.same(f"the pool file {what}", found, written(self.repositories()))
        left = b"".join(it.file() for it in self.apart.values())
        for mark in self.gone:
            if (mark in found) != (mark in left):
                raise Differs(f"the pool file {what}: the contents {mark!r}, which only a removed tenant had, are there")
        for name in self.removed:
            if name not in left and name in found:
                raise Differs(f"the pool file {what}: the name {name!r} of a removed tenant is there")
        return found

    def forget(self, before: bytes) -> None:
        """Notes that a tenant was rid of what it had in this file."""
        self.gone.update(it for it in self.texts.marks if it in before)

    def take_apart(self, tenant: bytes, kind: Kind) -> None:
        """Has a tenant's own run take a step that has to go well."""
        self.same(f"{kind.name} apart of {tenant!r}", self.apart[tenant].take(Step(kind, tenant if kind != Kind.RESTART else b"")), OK)

    def end(self) -> None:
        """Ends all runs at once."""
        for it in (self.host, *self.apart.values()):
            if it is not None:
                it.kill()
