"""One random run: sessions of `host` with subcommands between them, and what is compared at the end."""
from __future__ import annotations

import os
from typing import Callable, Sequence, Tuple

from between import back_up, extract, import_stream, merge
from gitpool_frames import Answer, Kind, Step
from hosts import OK, Commands, Host, bytes_of
from pool_files import check_line, size_lines, written
from operators import abandon, check, compact, compact_one, copy, remove, save, save_as_opened, sizes
from steps import ask, bad_name, restart, restart_apart, streaming
from world import World

Acts = Sequence[Tuple[Callable[[World], None], float]]
HOSTED: Acts = (
    (streaming, 60),
    (ask, 12),
    (restart, 1),
    (bad_name, 1),
    (abandon, 2.5),
    (remove, 3),
    (compact, 4),
    (copy, 4),
    (sizes, 2),
    (save, 2),
    (save_as_opened, 2.5),
)
BETWEEN: Acts = ((import_stream, 4), (ask, 2), (remove, 2), (compact, 3), (copy, 3), (sizes, 1), (check, 1), (extract, 2), (back_up, 1), (merge, 4))


def act(world: World, acts: Acts, count: int) -> None:
    """Carries out as many acts, drawn by their weights."""
    for one in world.draw.choices([it[0] for it in acts], [it[1] for it in acts], k=count):
        one(world)


def session(world: World) -> None:
    """One run of `host`, from its begin to its end, which saves and drops the streams that are open."""
    world.note("host")
    world.host = Host(world.program, world.pool)
    act(world, HOSTED, world.draw.randint(20, 60))
    if world.draw.random() < 0.7:
        sizes(world)
    compare_queries(world)
    host, world.host = world.running, None
    host.end()
    restart_apart(world)
    world.compare_file("of a host that ended")


def compare_queries(world: World) -> None:
    """Refs, HEAD, the export and all objects of each tenant, and objects that only another one has."""
    world.settle()
    objects = [it for repository in world.repositories().values() for it in repository.objects]
    for tenant, apart in world.apart.items():
        own = apart.repository().objects
        foreign = world.draw.sample(objects, min(len(objects), 5))
        queries = [b"refs", b"head", b"export", *(b"cat " + it.name for it in (*own, *foreign))]
        for query in queries:
            world.running.send(Step(Kind.ASK, tenant, query))
            apart.host.send(Step(Kind.ASK, tenant, query))
        world.running.flush()
        wanted = [apart.host.answer() for _ in queries]
        found = [world.running.answer() for _ in queries]
        world.same(f"the refs, HEAD, export and objects of {tenant!r}", found, wanted)
        for content, answer in zip(own, found[3:]):
            world.same(f"the bytes of {content.name!r}", answer.reply.split(b"\n", 1)[1], content.data + b"\n")


def compare_whole(world: World) -> None:
    """The pool file at the end, with one that is built anew from the files of the repositories apart; and what is said of both."""
    if world.uses_git:
        for tenant in world.tenants:
            compact_one(world, tenant)
    found = world.compare_file("at the end")
    files = [it.end() for it in world.apart.values()]
    world.draw.shuffle(files)
    rebuilt = Commands(world.program, os.path.join(world.room, "rebuilt"))
    for number, file in enumerate(files):
        path = rebuilt.pool if number == 0 else os.path.join(world.room, "one")
        with open(path, "wb") as out:
            out.write(file)
        if number:
            world.same("a merge into the new pool", rebuilt.run("merge", path), OK)
    world.same("the pool that was built anew", bytes_of(rebuilt.pool), found)
    pool = world.repositories()
    world.same("the file of all repositories", written(pool), found)
    world.same("sizes at the end", rebuilt.run("sizes"), Answer(0, 0, b"".join(size_lines(pool))))
    world.same("check at the end", rebuilt.run("check"), Answer(0, 0, check_line(pool)))


def carry_out(world: World) -> None:
    """A whole run. Raises Differs where something differs."""
    try:
        for _ in range(world.draw.choice((1, 2, 2, 3))):
            session(world)
            act(world, BETWEEN, world.draw.randint(0, 7))
        compare_whole(world)
    finally:
        world.end()
