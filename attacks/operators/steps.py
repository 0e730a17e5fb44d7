"""Steps of tenants: each is taken by the shared run and by the tenant's own one."""
from __future__ import annotations

from typing import List

from gitpool_frames import Kind, Step
from hosts import OK
from world import BAD_NAME, BAD_NAMES, World, fault

EXPRESSIONS = (
    b"HEAD",
    b"@",
    b"main",
    b"dev",
    b"refs/heads/main",
    b"main~1",
    b"HEAD^2",
    b"v1",
    b"v1^{}",
    b"light",
    b"main:d",
    b"dev:a",
    b"main^{tree}",
    b"main:d/e",
    b"no",
    b"side/a~2",
)
RANGES = (b"HEAD", b"main", b"main..dev", b"dev...main", b"v1..HEAD", b"side/a")
CUTS = (1, 2, 7, 30, 120, 400, 1 << 20, 1 << 20)


def streaming(world: World) -> None:
    """Some steps of one tenant's stream: it is opened, fed in pieces that are cut anywhere, or ended."""
    tenant = world.tenant()
    if not world.has_stream(tenant):
        if world.draw.random() < 0.06:
            world.both(Step(world.draw.choice((Kind.FEED, Kind.END)), tenant))
            return
        world.both(Step(Kind.OPEN, tenant))
        world.plans[tenant] = world.stream(tenant)
    for _ in range(world.draw.randint(1, 4)):
        if world.plans[tenant]:
            feed(world, tenant)
    if not world.plans[tenant]:
        end_or_go_on(world, tenant)
    elif world.draw.random() < 0.03:
        world.both(Step(world.draw.choice((Kind.OPEN, Kind.END)), tenant))


def feed(world: World, tenant: bytes) -> None:
    """Feeds the next piece of a tenant's stream."""
    cut, left = world.draw.choice(CUTS), world.plans[tenant]
    world.plans[tenant] = left[cut:]
    world.both(Step(Kind.FEED, tenant, left[:cut]))


def end_or_go_on(world: World, tenant: bytes) -> None:
    """Ends a stream that was fed whole, or feeds it more, or leaves it open."""
    chance = world.draw.random()
    if chance < 0.5:
        world.both(Step(Kind.END, tenant))
    elif chance < 0.6:
        world.both(Step(Kind.FEED, tenant, world.draw.choice((b"", b"checkpoint\n", b"blob\ndata 1\nx\n", b"x\n"))))


def ask(world: World) -> None:
    """A query of a tenant, who cannot see what others have."""
    tenant = world.tenant()
    query = world.draw.choice(queries(world))
    step = Step(Kind.ASK, tenant, query)
    if world.host is not None:
        world.both(step)
    else:
        world.told(step, world.apart[tenant].host.take(step))


def queries(world: World) -> List[bytes]:
    """Queries of all kinds, some by the names of objects that some tenant has."""
    draw = world.draw
    found = [b"refs", b"head", b"export", b"log " + draw.choice(RANGES), b"nothing", b"cat "]
    expressions = list(draw.sample(EXPRESSIONS, 2))
    objects = world.apart[world.tenant()].seen.objects
    if objects:
        name = draw.choice(objects).name
        expressions += [name, name[:7]]
    return found + [word + b" " + it for it in expressions for word in (b"rev-parse", b"cat", b"ls", b"abbrev")]


def bad_name(world: World) -> None:
    """A step under a name that no tenant can have."""
    kind = world.draw.choice((Kind.OPEN, Kind.FEED, Kind.END, Kind.ASK))
    world.told(Step(kind, world.draw.choice(BAD_NAMES), b"" if kind in (Kind.OPEN, Kind.END) else b"refs"), fault(BAD_NAME))


def restart(world: World) -> None:
    """All streams are dropped, each back to its last checkpoint."""
    world.told(Step(Kind.RESTART), OK)
    restart_apart(world)


def restart_apart(world: World) -> None:
    """The same in each repository of its own."""
    for tenant in world.tenants:
        if world.has_stream(tenant):
            world.take_apart(tenant, Kind.RESTART)


def end_all(world: World) -> None:
    """Ends all streams, some of which are fed to their end before."""
    open_ones = [it for it in world.tenants if world.has_stream(it)]
    world.draw.shuffle(open_ones)
    for tenant in open_ones:
        while world.plans[tenant] and world.draw.random() < 0.8:
            feed(world, tenant)
        world.both(Step(Kind.END, tenant))
