"""Subcommands between two runs of `host`."""
from __future__ import annotations

import os

from gitpool_frames import Answer
from hosts import OK, bytes_of
from pool_files import read, written
from operators import begin_again, refusal
from world import BAD_NAME, NOT_EMPTY, World, fault


def import_stream(world: World) -> None:
    """A whole stream into a tenant."""
    name = world.name()
    stream = b"" if world.is_bad(name) else world.stream(name)
    world.note(f"import {name!r} {stream!r}")
    found = world.commands.run("import", os.fsdecode(name), given=stream)
    wanted = fault(BAD_NAME) if world.is_bad(name) else world.apart[name].import_stream(stream)
    world.same(f"import into {name!r}", found, wanted)
    world.counts["import " + ("refused" if wanted.status else "ok")] += 1
    world.compare_file("after an import")


def extract(world: World) -> None:
    """A tenant to a pool file of its own, which is the file of its own host; it is kept as a backup."""
    name = world.name()
    target = os.path.join(world.room, "extracted")
    world.note(f"extract {name!r}")
    world.same(f"extract of {name!r}", world.commands.run("extract", os.fsdecode(name), "--to", target), refusal(world, name))
    if world.is_bad(name):
        world.same("there is a file of a bad name", os.path.exists(target), False)
        return
    wanted = world.apart[name].file()
    world.same(f"the file of {name!r} that was extracted", bytes_of(target), wanted)
    os.remove(target)
    world.backups.append({name: wanted})
    world.counts["extract ok"] += 1


def back_up(world: World) -> None:
    """Notes what several tenants have, to be merged later."""
    names = world.draw.sample(world.tenants, world.draw.randint(1, len(world.tenants)))
    world.backups.append({it: world.apart[it].file() for it in names})


def merge(world: World) -> None:
    """The tenants of a backup come back, if none of them has something; before that some are removed."""
    if not world.backups:
        back_up(world)
    backup = world.draw.choice(world.backups)
    if world.draw.random() < 0.6:
        for name in backup:
            world.note(f"remove {name!r}")
            world.same(f"remove of {name!r}", world.commands.run("remove", os.fsdecode(name)), OK)
            begin_again(world, name)
    coming = {name: read(file)[name] for name, file in backup.items() if name in read(file)}
    other = os.path.join(world.room, "backup")
    with open(other, "wb") as out:
        out.write(written(coming))
    wanted = fault(NOT_EMPTY) if any(world.apart[it].repository().has_something for it in coming) else OK
    merge_one(world, other, wanted)
    if wanted == OK:
        for name in coming:
            world.apart[name].begin_again(backup[name])
    world.compare_file("after a merge")


def merge_one(world: World, other: str, wanted: Answer) -> None:
    world.note(f"merge -> {wanted.value}")
    world.same("merge", world.commands.run("merge", other), wanted)
    world.counts[f"merge {wanted.value or 'ok'}"] += 1
