#!/usr/bin/env python3
"""Measures the requests of the operator over a pool file of many tenants: operators.py PROGRAM [ROUNDS [TENANTS]]; 5 rounds and 1,000
tenants where no number is given.

The file has 100 KB for each tenant that no other has, and a history of 100 commits that all have. A tenth of the 100 KB is what a push by
force left. Each round runs, in turn, `check`, which loads, `sizes`, an import of nothing, which loads and saves, `remove` and `compact` of
one tenant, and a run of `host` that is asked for the same by frames. Two times are told of each, the least and the median of all rounds: by
the clock, and on a processor (/proc/PID/schedstat), which other work on the machine changes less. `beside` is the median of the differences
of a round.
"""
import os
import random
import statistics
import struct
import subprocess
import sys
import tempfile
import time
from typing import BinaryIO, Dict, List, Tuple, cast

HERE = os.path.dirname(os.path.abspath(__file__))
sys.path[:0] = [os.path.join(HERE, ".."), os.path.join(HERE, "..", "..", "clients")]
sys.dont_write_bytecode = True

from gitpool_frames import AS_OPENED, Kind, Step, read_answer, write_step  # noqa: E402
from words import program_and_numbers  # noqa: E402

COMMITTER = b"committer A U Thor <author@example.org> 1700000000 +0000\n"
STREAMING = 10
# Seconds by the clock, and on a processor.
Seconds = Tuple[float, float]
ALLOWED = {"remove": 0.05, "compact": 0.05, "sizes": 0.3}


def name(number: int) -> bytes:
    return b"t%06d" % number


def blobs(draw: random.Random, first: int, count: int, size: int) -> bytes:
    return b"".join(b"blob\nmark :%d\ndata %d\n%b\n" % (first + it, size, draw.randbytes(size)) for it in range(count))


def commit(first: int, count: int) -> bytes:
    files = b"".join(b"M 644 :%d f%d\n" % (first + it, it) for it in range(count))
    return b"commit refs/heads/own\n" + COMMITTER + b"data 0\n" + files


def own_stream(number: int) -> bytes:
    """What a tenant has alone: a commit that is left by force, and one that takes its place."""
    draw = random.Random(number)
    left = blobs(draw, 1, 20, 500) + commit(1, 20)
    return b"feature force\n" + left + b"checkpoint\nreset refs/heads/own\n" + blobs(draw, 101, 90, 1000) + commit(101, 90)


class Host:
    """A run of host whose frames are timed."""

    def __init__(self, program: str, pool: str) -> None:
        self.process = subprocess.Popen([program, "host", "--pool", pool], stdin=subprocess.PIPE, stdout=subprocess.PIPE)
        assert self.process.stdin and self.process.stdout
        self.given, self.told = self.process.stdin, cast(BinaryIO, self.process.stdout)

    def on_processor(self) -> float:
        with open(f"/proc/{self.process.pid}/schedstat", encoding="ascii") as file:
            return int(file.read().split()[0]) / 1e9

    def take(self, kind: Kind, tenant: bytes = b"", body: bytes = b"") -> Seconds:
        """The seconds by the clock and on a processor until a step is answered, which has to be Ok."""
        before, start = self.on_processor(), time.perf_counter()
        self.given.write(write_step(Step(kind, tenant, body)))
        self.given.flush()
        answer = read_answer(self.told)
        took = time.perf_counter() - start
        assert answer.status == 0, (kind, tenant, answer)
        return took, self.on_processor() - before

    def end(self) -> Seconds:
        """The same until the run has saved and ended."""
        before, start = self.on_processor(), time.perf_counter()
        self.given.close()
        _, status, used = os.wait4(self.process.pid, 0)
        assert status == 0
        self.process.returncode = 0
        self.told.close()
        return time.perf_counter() - start, used.ru_utime + used.ru_stime - before


def make(program: str, pool: str, tenants: int) -> None:
    """The pool file: one history, copies of it, and what each tenant has alone."""
    history = subprocess.run([os.path.join(HERE, "..", "history", "make_history"), "--commits", "100"], check=True, stdout=subprocess.PIPE).stdout
    host = Host(program, pool)
    # The first tenant gets what it has alone when all others are copies of it.
    for tenant, stream in [(name(0), history)] + [(name(it), own_stream(it)) for it in reversed(range(tenants))]:
        if tenant != name(0):
            host.take(Kind.COPY, name(0), tenant)
        host.take(Kind.OPEN, tenant)
        host.take(Kind.FEED, tenant, stream)
        host.take(Kind.END, tenant)
    host.end()


def command(words: List[str], pool: str) -> Seconds:
    """The seconds of a subcommand, by the clock and on a processor."""
    start = time.perf_counter()
    process = subprocess.Popen([*words, "--pool", pool], stdin=subprocess.DEVNULL, stdout=subprocess.DEVNULL)
    _, status, used = os.wait4(process.pid, 0)
    process.returncode = status
    assert status == 0, words
    return time.perf_counter() - start, used.ru_utime + used.ru_stime


def frames(program: str, pool: str, chosen: List[bytes]) -> Dict[str, Seconds]:
    """The seconds of the frames of one run of host; these tenants are removed and compacted."""
    found: Dict[str, Seconds] = {}
    host = Host(program, pool)
    took, _ = host.take(Kind.ASK, name(0), b"head")
    found["host: until it has loaded"] = took, host.on_processor()
    found["host: sizes"] = host.take(Kind.SIZES)
    found["host: remove"] = host.take(Kind.REMOVE, chosen[0])
    found["host: compact"] = host.take(Kind.COMPACT, chosen[1])
    found["host: compact again"] = host.take(Kind.COMPACT, chosen[1])
    found["host: save"] = host.take(Kind.SAVE)
    found["host: save as opened"] = host.take(Kind.SAVE, b"", AS_OPENED)
    for tenant in chosen[2:]:
        host.take(Kind.OPEN, tenant)
        host.take(Kind.FEED, tenant, b"blob\ndata 6\n%b\ncheckpoint\n" % tenant[-6:])
    found["host: save beside streams"] = host.take(Kind.SAVE)
    found["host: save as opened beside streams"] = host.take(Kind.SAVE, b"", AS_OPENED)
    found["host: save at its end"] = host.end()
    return found


def turn(program: str, pool: str, chosen: List[bytes]) -> Dict[str, Seconds]:
    """One round: the seconds of each run and frame, by its name."""
    found: Dict[str, Seconds] = {}
    runs = {
        "load": ["check"],
        "sizes": ["sizes"],
        "load and save": ["import", "none"],
        "remove": ["remove", chosen[0].decode()],
        "compact": ["compact", chosen[1].decode()],
    }
    # A save takes the place of the link, and leaves the file.
    link = pool + ".link"
    for what, words in runs.items():
        os.link(pool, link)
        found[what] = command([program, *words], link)
        os.remove(link)
    os.link(pool, link)
    found.update(frames(program, link, chosen))
    os.remove(link)
    return found


def told(seconds: List[float]) -> str:
    return f"{1000 * min(seconds):9.1f} {1000 * statistics.median(seconds):9.1f}"


def show(rounds: List[Dict[str, Seconds]]) -> None:
    """The table of all rounds, and what is taken beside a load and a save."""
    print(f"{'milliseconds':38}{'by the clock: best':>20} median | on a processor: best, median")
    for what in rounds[0]:
        print(f"{what:38}     {told([it[what][0] for it in rounds])} |     {told([it[what][1] for it in rounds])}")
    pairs = (
        ("sizes", "load"),
        ("remove", "load and save"),
        ("compact", "load and save"),
        ("host: save", "host: save at its end"),
        ("host: save as opened", "host: save"),
        ("host: save as opened beside streams", "host: save beside streams"),
    )
    for what, other in pairs:
        clock, used = ([1000 * (it[what][kind] - it[other][kind]) for it in rounds] for kind in (0, 1))
        print(f"{what} beside {other}: {statistics.median(clock):.1f} ms by the clock, {statistics.median(used):.1f} ms on a processor")


def met(rounds: List[Dict[str, Seconds]]) -> None:
    """Whether the best of the frames is as fast as it has to be."""
    best = {what: min(it[f"host: {what}"][0] for it in rounds) for what in ALLOWED}
    for what, allowed in ALLOWED.items():
        verdict = "met" if best[what] < allowed else "not met"
        print(f"{what}, as a frame: {1000 * best[what]:.1f} ms at best, {1000 * allowed:.0f} ms allowed: {verdict}")


def main() -> None:
    program, (count, tenants) = program_and_numbers(__doc__, 5, 1000)
    with tempfile.TemporaryDirectory() as folder:
        pool = os.path.join(folder, "pool")
        make(program, pool, tenants)
        said = subprocess.run([program, "check", "--pool", pool], check=True, stdout=subprocess.PIPE, text=True).stdout.strip()
        print(f"{said}; {os.path.getsize(pool) / 1e6:.1f} MB; load {os.getloadavg()[0]:.1f}", flush=True)
        rounds = []
        for number in range(count):
            chosen = [name(it) for it in random.Random(number).sample(range(tenants), 2 + STREAMING)]
            rounds.append(turn(program, pool, chosen))
        show(rounds)
        met(rounds)
    print(f"load {os.getloadavg()[0]:.1f}")


main()
