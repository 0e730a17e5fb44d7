"""One random run: several tenants of one pool with histories of their own, and random questions about them."""
from __future__ import annotations

import os
import random
from collections import Counter
from typing import List, Optional, Sequence

from gitpool_frames import Answer, Kind, Step
from histories import History, data, shared_texts
from hosts import OK, Differs, Host, bytes_of
from plants import Plant
from pool_files import Content, read
from questions import BAD_NAME, UNKNOWN, Asker, all_of, fault, short
from repositories import Bare
from tenants import COUNT, Question, Tenant, entries_of, raw, some

CUTS = (1, 7, 60, 500, 1 << 14, 1 << 22)
LARGE = 1 << 20


class Trial:
    """A run of the program over one pool file, and a bare repository for each of its tenants."""

    def __init__(self, program: str, room: str, seed: int, plant: Optional[Plant] = None):
        self.draw = random.Random(seed)
        self.counts: "Counter[str]" = Counter()
        self._room, self._plant = room, plant
        self._pool = os.path.join(room, "pool")
        self._host = Host(program, self._pool)
        self.asker = Asker(self.take, self.draw, self.counts)
        self.tenants: List[Tenant] = []

    def take(self, question: Question, step: Step) -> Answer:
        """The answer to a step about a question, changed where a bug is planted."""
        answer = self._host.take(step)
        return self._plant(self.draw, self.tenants, question, step, answer) if self._plant else answer

    def _told(self, step: Step, wanted: Answer = OK) -> None:
        found = self._host.take(step)
        if found != wanted:
            raise Differs(f"{step.kind.name} of {step.tenant!r} is answered {found}, wanted {wanted}")

    def add(self, name: bytes) -> Tenant:
        """A new tenant that has nothing."""
        self.tenants.append(Tenant(name, Bare(self._room, f"git{len(self.tenants)}")))
        return self.tenants[-1]

    def import_stream(self, tenant: Tenant, stream: bytes) -> None:
        """Has both sides carry out a stream, and compares what they have then."""
        tenant.streams.append(stream)
        self._told(Step(Kind.OPEN, tenant.name))
        cut = self.draw.choice(CUTS) if len(stream) < 1 << 16 else CUTS[-1]
        for at in range(0, len(stream), cut):
            self._told(Step(Kind.FEED, tenant.name, stream[at : at + cut]))
        self._told(Step(Kind.END, tenant.name))
        tenant.git.import_stream(stream)
        self.counts["streams"] += 1
        self.look(tenant)

    def look(self, tenant: Tenant) -> None:
        """Saves the pool file, reads the tenant in it, and compares that with the bare repository."""
        self._told(Step(Kind.SAVE))
        pool = read(bytes_of(self._pool))
        if tenant.name in pool:
            tenant.read(pool[tenant.name])
        if tenant.refs != tenant.git.refs():
            raise Differs(f"the refs of {tenant.name!r} are {tenant.refs}, and git has {tenant.git.refs()}")
        lost = tenant.git.objects() - set(tenant.contents)
        if lost:
            raise Differs(f"git has objects that {tenant.name!r} has not: {short(sorted(lost))}")

    # Random runs

    def carry_out(self) -> None:
        """A whole random run. Raises Differs where something differs."""
        texts = shared_texts(self.draw)
        for place in range(self.draw.choice((1, 2, 2, 3))):
            self._histories(self.add(b"t%d" % place), texts)
        for _ in range(self.draw.choice((2, 3, 4))):
            self.asker.ask(self._question(self.draw.choice(self.tenants)), self._room)
        self._beside_a_stream(self.draw.choice(self.tenants))
        self._told(Step(Kind.MISSING, b"no name", COUNT.pack(0)), fault(BAD_NAME))

    def _histories(self, tenant: Tenant, texts: Sequence[bytes]) -> None:
        """The streams of a tenant, which may begin as those of another one. Now and then it has nothing."""
        if self.draw.random() < 0.03:
            return
        self.counts["histories"] += 1
        if len(self.tenants) > 1 and self.draw.random() < 0.4:
            for it in self.draw.choice(self.tenants[:-1]).streams[:1]:
                self.import_stream(tenant, it)
        for _ in range(self.draw.choice((1, 1, 2, 3))):
            self.import_stream(tenant, History(self.draw, texts).stream(tenant.of_kind(1), tenant.of_kind(4)))

    def _question(self, tenant: Tenant) -> Question:
        """Wants and haves of a tenant, with names that it has not: of other tenants, of gitlinks, and of nothing at all."""
        draw = self.draw
        foreign = [name for other in self.tenants for name in other.contents if name not in tenant.contents]
        if draw.random() < 0.1:
            return all_of(tenant)
        wants = some(draw, tenant, draw.choice((0, 1, 1, 1, 2, 3, 5)))
        haves = some(draw, tenant, draw.choice((0, 0, 1, 1, 2, 3, 6)))
        if draw.random() < 0.4:
            haves += draw.sample(foreign, min(len(foreign), 3)) + [b"%040x" % draw.getrandbits(160)] * draw.randrange(3)
        if draw.random() < 0.1:
            wants.append(draw.choice(foreign) if foreign and draw.random() < 0.7 else b"%040x" % draw.getrandbits(160))
        draw.shuffle(wants)
        draw.shuffle(haves)
        return Question(tenant, wants, haves)

    def _beside_a_stream(self, tenant: Tenant) -> None:
        """What an open stream has put is unknown before its next checkpoint, as a want and as a have."""
        blob = Content(3, b"new %d\n" % self.draw.randrange(10**9))
        new = Question(tenant, [blob.name], ())
        wanted = some(self.draw, tenant, 2)
        self._told(Step(Kind.OPEN, tenant.name))
        self._told(Step(Kind.FEED, tenant.name, b"blob\nmark :1\n" + data(blob.data)))
        for step in (new.step, entries_of(tenant.name, [blob.name], 1_000)):
            found = self.take(new, step)
            if found != fault(UNKNOWN):
                raise Differs(f"{step.kind.name} of a blob of an open stream is answered {found}")
        self.asker.ask(Question(tenant, wanted, [blob.name]), self._room)
        self._told(Step(Kind.END, tenant.name))
        found = self._host.take(new.step)
        if found != Answer(0, 0, raw([blob.name]) + b"\3" + len(blob.data).to_bytes(8, "big")):
            raise Differs(f"a blob after the end of its stream is told as {found}")

    # Fixed histories

    def carry_out_fixed(self, stream: bytes) -> None:
        """One history: all of it for a client that has nothing, and some random questions where it is not large."""
        tenant = self.add(b"fixed")
        self.import_stream(tenant, stream)
        self.counts["histories"] += 1
        self.asker.ask(all_of(tenant), self._room)
        for _ in range(2 if len(stream) < LARGE else 0):
            self.asker.ask(self._question(tenant), self._room)

    def end(self) -> None:
        """Ends the run at once."""
        self._host.kill()
