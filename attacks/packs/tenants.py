"""A tenant beside the same history in a bare repository, and what is asked of it."""
from __future__ import annotations

import random
import struct
from dataclasses import dataclass
from typing import Dict, Iterable, List, Sequence, Set

from gitpool_frames import Kind, Step
from hosts import Differs
from pool_files import Content, Repository, referred
from repositories import Bare

COUNT = struct.Struct(">I")
LIMIT = struct.Struct(">Q")


def raw(names: Iterable[bytes]) -> bytes:
    """Names as frames have them, of names in hexadecimal digits."""
    return bytes.fromhex(b"".join(names).decode())


class Tenant:
    """A tenant, whose objects are those of the pool file that was read last."""

    def __init__(self, name: bytes, git: Bare):
        self.name, self.git = name, git
        self.streams: List[bytes] = []
        self.contents: Dict[bytes, Content] = {}
        self.places: Dict[bytes, int] = {}
        self.refs: Dict[bytes, bytes] = {}
        self._below: Dict[bytes, List[bytes]] = {}

    def read(self, repository: Repository) -> None:
        """Takes what a pool file says of the tenant."""
        names = [it.name for it in repository.objects]
        self.contents = dict(zip(names, repository.objects))
        self.places = {name: place for place, name in enumerate(names)}
        self.refs = {full[full.rindex(b"/refs/") + 1 :]: names[place] for full, place in repository.refs}
        self._below = {name: referred(it) for name, it in self.contents.items()}

    def of_kind(self, kind: int) -> List[bytes]:
        """The names of the objects of a kind."""
        return [name for name, it in self.contents.items() if it.kind == kind]

    def walked(self, names: Iterable[bytes]) -> Set[bytes]:
        """What names reach, by a walk over the contents. Names of other objects reach nothing."""
        reached: Set[bytes] = set()
        waiting = [it for it in names if it in self.contents]
        while waiting:
            name = waiting.pop()
            if name not in reached:
                reached.add(name)
                waiting += self._below[name]
        return reached


@dataclass(frozen=True)
class Question:
    """A Missing: what a client wants and has."""

    tenant: Tenant
    wants: Sequence[bytes]
    haves: Sequence[bytes]

    @property
    def step(self) -> Step:
        """Its frame."""
        return Step(Kind.MISSING, self.tenant.name, COUNT.pack(len(self.wants)) + raw([*self.wants, *self.haves]))

    @property
    def known(self) -> List[bytes]:
        """The haves that are objects of the tenant."""
        return [it for it in self.haves if it in self.tenant.contents]

    @property
    def is_refused(self) -> bool:
        """Whether a want is no object of the tenant."""
        return any(it not in self.tenant.contents for it in self.wants)

    def exact(self) -> Set[bytes]:
        """What the wants reach and the haves do not, as git lists both. Raises Differs where a walk finds others, or git more with
        the haves than without them."""
        git, known = self.tenant.git, self.known
        wanted = git.reached(self.wants)
        found = wanted - git.reached(known)
        if found != self.tenant.walked(self.wants) - self.tenant.walked(known):
            raise Differs("git rev-list lists other objects than the walk of this test")
        if known and not found <= git.reached(self.wants, known):
            raise Differs("git rev-list lists less with ^HAVE than without what the haves reach")
        return found


def entries_of(tenant: bytes, names: Sequence[bytes], limit: int) -> Step:
    """The frame of an Entries."""
    return Step(Kind.ENTRIES, tenant, LIMIT.pack(limit) + raw(names))


def some(draw: random.Random, tenant: Tenant, count: int) -> List[bytes]:
    """Some objects of a tenant, mostly commits and tags, some of them more than once."""
    kinds = draw.choices((1, 4, 2, 3), (10, 5, 2, 2), k=count)
    found = []
    for kind in kinds:
        names = sorted(set(tenant.refs.values())) if draw.random() < 0.25 else tenant.of_kind(kind)
        if names:
            found.append(draw.choice(names))
    return found
