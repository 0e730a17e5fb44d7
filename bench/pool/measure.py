"""Loads and saves the pool file of a history of bench/history/make_history, that of many tenants who share it, and one of large
blobs, and prints the best of some rounds and the most memory: measure.py PROGRAM [ROUNDS [TENANTS [COMMITS]]]; 3 rounds, 1,000
tenants and 5,000 commits where no number is given.

A load is `check`; an import of an empty stream loads and saves, and must leave the same bytes; what it takes beyond a load is a
save. Beside them stands `sha1sum` of the file. The file of many tenants is made here from that of one, number by number."""
import hashlib
import os
import random
import struct
import subprocess
import sys
import tempfile
import time
from typing import List, NamedTuple, Tuple

here = os.path.dirname(os.path.abspath(__file__))
sys.path.insert(0, os.path.join(here, ".."))
sys.dont_write_bytecode = True

from words import program_and_numbers  # noqa: E402

program, (rounds, tenants, commits) = program_and_numbers(__doc__, 3, 1000, 5000)
HEAD = struct.Struct(">8sI")
ONE = b"t"


class Text:
    """Bytes that are read from the front."""

    def __init__(self, bytes_: memoryview) -> None:
        self.bytes, self.place = bytes_, 0

    def take(self, size: int) -> memoryview:
        self.place += size
        return self.bytes[self.place - size : self.place]

    def number(self, size: int = 8) -> int:
        return int.from_bytes(self.take(size), "big")

    def sized(self) -> memoryview:
        return self.take(self.number(2))


def sized(bytes_: bytes) -> bytes:
    return len(bytes_).to_bytes(2, "big") + bytes_


def parts(path: str) -> Tuple[int, bytes, bytes, List[Tuple[bytes, int]], bytes]:
    """A file's bytes up to its tenants, and of its one tenant the numbers, the refs and HEAD."""
    with open(path, "rb") as file:
        text = Text(memoryview(file.read()))
    magic, version = HEAD.unpack(text.take(HEAD.size))
    assert (magic, version) == (b"gitpool\n", 2), "no pool file of version 2"
    objects = text.number()
    for _ in range(objects):
        text.take(1)
        text.take(text.number())
    front = bytes(text.bytes[: text.place])
    assert text.number() == 1, "more than one tenant"
    assert text.sized() == ONE, "another tenant"
    count = text.number()
    numbers = count.to_bytes(8, "big") + bytes(text.take(8 * count))
    refs = [(bytes(text.sized()), text.number()) for _ in range(text.number())]
    head = bytes(text.sized())
    assert len(text.bytes) - text.place == 20, "more or less after the tenant than a digest"
    return objects, front, numbers, refs, head


def renamed(ref: bytes, name: bytes) -> bytes:
    """A ref's full name has its tenant's name in it."""
    before = b"refs/namespaces/" + ONE + b"/"
    assert ref.startswith(before)
    return b"refs/namespaces/" + name + b"/" + ref[len(before) :]


def shared(path: str, other: str) -> None:
    """Writes the file of as many tenants as are wanted, each of which has all that the one tenant has."""
    _, front, numbers, refs, head = parts(path)
    digest = hashlib.sha1()
    with open(other, "wb") as file:

        def put(bytes_: bytes) -> None:
            digest.update(bytes_)
            file.write(bytes_)

        put(front + tenants.to_bytes(8, "big"))
        for place in range(tenants):
            name = b"t%06d" % place
            listed = b"".join(sized(renamed(ref, name)) + target.to_bytes(8, "big") for ref, target in refs)
            put(sized(name) + numbers + len(refs).to_bytes(8, "big") + listed + sized(head))
        file.write(digest.digest())


def large_blobs(stream: str) -> None:
    draw = random.Random(7)
    with open(stream, "wb") as file:
        for _ in range(100):
            file.write(b"blob\ndata 1000000\n" + draw.randbytes(1_000_000) + b"\n")


class Taken(NamedTuple):
    """Seconds by the clock and of the processor, the most memory in MB, and what is printed."""

    clock: float
    processor: float
    memory: float
    printed: bytes


def once(words: List[str], given: str = os.devnull) -> Taken:
    """One run. GNU time asks for the memory of the process alone."""
    with tempfile.NamedTemporaryFile() as told, open(given, "rb") as stdin:
        start = time.monotonic()
        timed = ["/usr/bin/time", "-f", "%U %S %M", "-o", told.name, *words]
        done = subprocess.run(timed, stdin=stdin, stdout=subprocess.PIPE, check=True)
        took = time.monotonic() - start
        user, system, most = told.read().split()
        return Taken(took, float(user) + float(system), int(most) * 1024 / 1e6, done.stdout)


def best(words: List[str]) -> Taken:
    """The least times, the most memory, and what the last round printed."""
    found = [once(words) for _ in range(rounds)]
    clock, processor = min(it.clock for it in found), min(it.processor for it in found)
    return Taken(clock, processor, max(it.memory for it in found), found[-1].printed)


def measure(what: str, path: str) -> None:
    pool = ["--pool", path]
    size = os.path.getsize(path)
    summed = best(["sha1sum", path])
    load = best([program, "check", *pool])
    both = best([program, "import", "none", *pool])
    assert best(["sha1sum", path]).printed == summed.printed, f"{what}: a save left other bytes"
    save = both.clock - load.clock, both.processor - load.processor
    print(
        f"{what}: {load.printed.decode().strip()}; {size / 1e6:.1f} MB; load {load.clock:.3f} s, {size / load.clock / 1e6:.0f} MB/s,"
        f" at most {load.memory:.0f} MB; and a save {save[0]:.3f} s more, at most {both.memory:.0f} MB; sha1sum {summed.clock:.3f} s;"
        f" of the processor: load {load.processor:.2f} s, save {save[1]:.2f} s, sha1sum {summed.processor:.2f} s",
        flush=True,
    )


def imported(stream: str, path: str) -> None:
    told = once([program, "import", ONE.decode(), "--pool", path], stream)
    print(f"import and save: {os.path.getsize(stream) / 1e6:.1f} MB, {told.clock:.3f} s, at most {told.memory:.0f} MB", flush=True)


def main() -> None:
    with tempfile.TemporaryDirectory() as folder:
        stream, one, many, large = (os.path.join(folder, it) for it in ("stream", "one", "many", "large"))
        with open(stream, "wb") as file:
            subprocess.run([os.path.join(here, "..", "history", "make_history"), "--commits", str(commits)], check=True, stdout=file)
        imported(stream, one)
        measure("one tenant", one)
        shared(one, many)
        measure(f"{tenants} tenants", many)
        large_blobs(stream)
        imported(stream, large)
        measure("large blobs", large)
    print(f"load {os.getloadavg()[0]:.1f}")


main()
