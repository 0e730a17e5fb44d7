"""What the operator asks for, by frames of `host` or by subcommands. What is wanted comes from the repositories apart: a removed
tenant begins again there with nothing, a stream that is given up is dropped there by a Restart, and a copy is there an import."""
from __future__ import annotations

import os
import random

from git_reach import reached_by_git
from gitpool_frames import AS_OPENED, Answer, Kind, Step
from hosts import Host, OK, bytes_of
from pool_files import check_line, compacted, size_lines, written
from steps import end_all
from world import BAD_NAME, HAS_STREAM, NO_STREAM, NOT_EMPTY, World, fault


def refusal(world: World, name: bytes) -> Answer:
    """What a request is told that takes no tenant with a stream."""
    if world.is_bad(name):
        return fault(BAD_NAME)
    return fault(HAS_STREAM) if world.has_stream(name) else OK


def abandon(world: World) -> None:
    """A stream is given up, which leaves its last checkpoint."""
    name = world.name()
    wanted = fault(BAD_NAME) if world.is_bad(name) else OK if world.has_stream(name) else fault(NO_STREAM)
    if world.told(Step(Kind.ABANDON, name), wanted):
        world.take_apart(name, Kind.RESTART)


def remove(world: World) -> None:
    """A tenant is removed, and has what one has that was never seen."""
    name = world.name()
    if world.told(Step(Kind.REMOVE, name), refusal(world, name)):
        begin_again(world, name)


def begin_again(world: World, name: bytes) -> None:
    """What a removal does to the repository apart."""
    world.forget(world.apart[name].file())
    world.removed.add(name)
    world.apart[name].begin_again()


def compact(world: World) -> None:
    """What no ref reaches is dropped."""
    name = world.name()
    compact_one(world, name)


def compact_one(world: World, name: bytes) -> None:
    """The same for a tenant. The repository apart is compared with a walk of its own, and with git now and then. A new run has it then, which
    remembers nothing of the queries before the compaction."""
    ask_for_parents(world, name)
    if not world.told(Step(Kind.COMPACT, name), refusal(world, name)):
        return
    apart = world.apart[name]
    before = apart.repository()
    world.forget(apart.file())
    world.take_apart(name, Kind.COMPACT)
    after = apart.repository()
    world.same(f"the objects of {name!r} after a compaction", after, compacted(before))
    world.counts["compactions that dropped objects"] += after != before
    if world.uses_git and after.has_something:
        export = apart.host.take(Step(Kind.ASK, name, b"export")).reply
        world.same(f"what git reaches of {name!r}", {it.name for it in after.objects}, reached_by_git(export, world.room))
        world.counts["compactions that git agreed with"] += 1
    if after != before:
        apart.begin_again(apart.file())
        ask_for_parents(world, name)


def ask_for_parents(world: World, name: bytes) -> None:
    """Queries that read along first parents, which a service may remember."""
    if world.host is not None and not world.is_bad(name):
        for query in (b"rev-parse main~2", b"rev-parse HEAD~1", b"log dev"):
            world.both(Step(Kind.ASK, name, query))


def copy(world: World) -> None:
    """A tenant is copied to another one, which has to be empty."""
    source, target = world.name(), world.name()
    full = [name for name, it in world.repositories().items() if it.has_something]
    empty = [it for it in world.tenants if it not in full and not world.has_stream(it)]
    if full and empty and world.draw.random() < 0.6:
        source, target = world.draw.choice(full), world.draw.choice(empty)
    wanted = copy_refusal(world, source, target)
    if wanted == OK:
        export = world.apart[source].host.take(Step(Kind.ASK, source, b"export"))
        told = world.apart[target].import_stream(export.reply)
        wanted = Answer(told.status, told.value, b"")
    world.told(Step(Kind.COPY, source, target), wanted)


def copy_refusal(world: World, source: bytes, target: bytes) -> Answer:
    if world.is_bad(source) or world.is_bad(target):
        return fault(BAD_NAME)
    if world.has_stream(target):
        return fault(HAS_STREAM)
    return fault(NOT_EMPTY) if world.apart[target].repository().has_something else OK


def sizes(world: World) -> None:
    """What each tenant has. While a stream is at work, it may have contents that a tenant would else have alone."""
    if world.draw.random() < 0.6:
        end_all(world)
    lines = size_lines(world.repositories())
    if not any(world.has_stream(it) for it in world.tenants):
        world.told(Step(Kind.SIZES), Answer(0, 0, b"".join(lines)))
        return
    world.counts["sizes beside a stream"] += 1
    found = world.taker.take(Step(Kind.SIZES)).reply.splitlines(keepends=True)
    world.note("SIZES while a stream is at work")
    world.same("the number of lines of SIZES", len(found), len(lines))
    for one, line in zip(found, lines):
        told, wanted = one.split(b" "), line.split(b" ")
        world.same("SIZES without `own`", told[:6] + told[7:], wanted[:6] + wanted[7:])
        world.same(f"SIZES says {one!r} where at most {wanted[6]!r} are own", int(told[6]) <= int(wanted[6]), True)


def save(world: World) -> None:
    """The pool file is saved, and streams go on. Other runs may read it beside the host."""
    world.told(Step(Kind.SAVE), OK)
    world.compare_file("after a Save")
    if world.draw.random() < 0.25:
        check(world)


def check(world: World) -> None:
    """What `check` says of all contents: how many there are, and their bytes."""
    world.same("check", world.commands.run("check"), Answer(0, 0, check_line(world.repositories())))
    world.counts["check ok"] += 1


def save_as_opened(world: World) -> None:
    """A Save of what each tenant with a stream had at its Open. Then all streams end; the file, into which the same bytes are fed
    from each Open on, has to become the same."""
    world.told(Step(Kind.SAVE, b"", AS_OPENED), OK)
    found = bytes_of(world.pool)
    opened = {name: it.opened if it.journal is not None else it.repository() for name, it in world.apart.items()}
    world.same("the pool file after a Save as opened", found, written(opened))
    world.counts["saves as opened that have less"] += opened != world.repositories()
    # The journals grow while the streams are fed to their ends.
    journals = {name: it.journal for name, it in world.apart.items() if it.journal is not None}
    end_all(world)
    world.told(Step(Kind.SAVE), OK)
    wanted = world.compare_file("after a Save")
    if journals:
        world.same("a replay of all streams from their Opens", replayed(world, found, {name: bytes(it) for name, it in journals.items()}), wanted)
    world.counts["streams that were replayed"] += len(journals)


def replayed(world: World, file: bytes, journals: "dict[bytes, bytes]") -> bytes:
    """The file that a host leaves to which these streams are fed, in pieces of other sizes."""
    path = os.path.join(world.room, "replayed")
    with open(path, "wb") as out:
        out.write(file)
    host, draw = Host(world.program, path), random.Random(len(file))
    try:
        for name, stream in journals.items():
            host.take(Step(Kind.OPEN, name))
            while stream:
                cut = draw.choice((3, 50, 1 << 20))
                host.take(Step(Kind.FEED, name, stream[:cut]))
                stream = stream[cut:]
            host.take(Step(Kind.END, name))
        return host.end()
    except BaseException:
        host.kill()
        raise
