"""Measures packs of a history beside git, in one run, by turns: measure.py PROGRAM [ROUNDS [COMMITS]]. The history is that of
bench/history, 20,000 commits over 2,000 files. The table that it prints has the best of the rounds, the median, and the least
processor time: of the host where it is asked, else of the command and what it starts."""
from __future__ import annotations

import os
import resource
import shutil
import statistics
import subprocess
import sys
import tempfile
import time
from typing import Callable, Dict, List, Sequence, Tuple

HERE = os.path.dirname(os.path.realpath(__file__))
CLIENTS = os.path.join(HERE, "..", "..", "clients")
sys.path[:0] = [HERE, CLIENTS, os.path.join(HERE, "..")]
sys.dont_write_bytecode = True

from host import Host, Listing  # noqa: E402
from words import program_and_numbers  # noqa: E402

# (a stream has no longer data)
BLOB = 67_108_864
REUSE = ["pack-objects", "--revs", "--stdout", "-q", "--threads=1", "--delta-base-offset"]
NO_REUSE = ["-c", "pack.compression=0", *REUSE[:-1], "--window=0", "--no-reuse-delta", "--no-reuse-object"]
KINDS: Tuple[List[str], ...] = (["--bare"], [])


def of_children() -> float:
    """The processor time of all commands that have ended."""
    used = resource.getrusage(resource.RUSAGE_CHILDREN)
    return used.ru_utime + used.ru_stime


class Table:
    """Times by the names of rows, of which the best is told."""

    def __init__(self) -> None:
        self._times: Dict[str, List[Tuple[float, float]]] = {}
        self.notes: Dict[str, str] = {}

    def timed(self, row: str, work: Callable[[], object], processor: Callable[[], float] = of_children) -> None:
        """Does something, and adds how long it took, and how much of the processor."""
        begin, used = time.perf_counter(), processor()
        work()
        self._times.setdefault(row, []).append((time.perf_counter() - begin, processor() - used))

    def tell(self) -> None:
        print("| what | best | median | processor | |\n|---|---|---|---|---|")
        for row, times in self._times.items():
            clock, used = zip(*times)
            print(f"| {row} | {shown(min(clock))} | {shown(statistics.median(clock))} | {shown(min(used))} | {self.notes.get(row, '')} |")


def shown(seconds: float) -> str:
    return f"{seconds:.2f} s" if seconds >= 1 else f"{seconds * 1000:.0f} ms" if seconds >= 0.01 else f"{seconds * 1000:.2f} ms"


class Bench:
    """A history in a pool file and in two repositories of git, and the times of what is done with them."""

    def __init__(self, program: str, rounds: int, commits: int):
        self.program, self.rounds, self.commits = program, rounds, commits
        self.folder = tempfile.mkdtemp(dir="/dev/shm" if os.path.isdir("/dev/shm") else None)
        self.pool, self.large = self.path("all.pool"), self.path("large.pool")
        self.table = Table()
        settings = {"user.name": "A", "user.email": "a@b", "gc.auto": "0", "advice.detachedHead": "false"}
        self._environment = dict(
            os.environ,
            HOME=self.folder,
            GIT_CONFIG_NOSYSTEM="1",
            GITPOOL=program,
            PATH=CLIENTS + os.pathsep + os.environ["PATH"],
            GIT_CONFIG_COUNT=str(len(settings)),
        )
        for place, (key, value) in enumerate(settings.items()):
            self._environment.update({f"GIT_CONFIG_KEY_{place}": key, f"GIT_CONFIG_VALUE_{place}": value})

    def path(self, name: str) -> str:
        return os.path.join(self.folder, name)

    def run(self, *words: str, at: str = "", given: bytes = b"", source: str = os.devnull) -> bytes:
        """What a command prints that reads bytes, or a file."""
        where, environment = self.path(at), self._environment
        if given:
            return subprocess.run(words, cwd=where, env=environment, input=given, stdout=subprocess.PIPE, check=True).stdout
        with open(source, "rb") as stdin:
            return subprocess.run(words, cwd=where, env=environment, stdin=stdin, stdout=subprocess.PIPE, check=True).stdout

    def prepare(self) -> None:
        """The same history everywhere, and a tenant with one large blob."""
        stream = self.path("stream")
        with open(stream, "wb") as file:
            file.write(b"option gitpool head refs/heads/b0\n")
            file.flush()
            subprocess.run([os.path.join(HERE, "..", "history", "make_history"), "--commits", str(self.commits)], stdout=file, check=True)
        self.run("git", "init", "-q", "--bare", "--initial-branch=b0", "left.git")
        self.run("git", "fast-import", "--quiet", at="left.git", source=stream)
        self.run(self.program, "import", "site", "--pool", self.pool, source=stream)
        os.unlink(stream)
        shutil.copytree(self.path("left.git"), self.path("packed.git"))
        self.run("git", "repack", "-adfbq", at="packed.git")
        with open(self.path("blob"), "wb") as file:
            file.write(os.urandom(BLOB))
        with open(self.path("blob"), "rb") as blob:
            text = b"blob\nmark :1\ndata %d\n%b\nget-mark :1\n" % (BLOB, blob.read())
        self.blob = self.run(self.program, "import", "large", "--pool", self.large, given=text).strip()

    def name(self, expression: str) -> bytes:
        return self.run("git", "rev-parse", expression, at="left.git").strip()

    # Rows

    def packs(self, host: Host, row: str, wants: Sequence[bytes], haves: Sequence[bytes], times: int = 1) -> None:
        """Times a Missing, all Entries of it, and both; beside git."""
        listing = Listing(host.missing(b"site", wants, haves))
        frames = host.entry_frames(b"site", listing)
        size = host.take_all(frames)
        for _ in range(self.rounds * times):
            self.table.timed(f"{row}: Missing", lambda: host.missing(b"site", wants, haves), host.processor)
            self.table.timed(f"{row}: all Entries", lambda: host.take_all(frames), host.processor)
            self.table.timed(f"{row}: both", lambda: (host.missing(b"site", wants, haves), host.take_all(frames)), host.processor)
        self.table.notes[f"{row}: both"] = f"{len(listing)} objects, {size / 1e6:.2f} MB"
        revs = b"".join([it + b"\n" for it in wants] + [b"^" + it + b"\n" for it in haves])
        for name, words, at in (("stored blocks, nothing reused", NO_REUSE, "left.git"), ("a bitmap, all reused", REUSE, "packed.git")):
            for _ in range(self.rounds):
                self.table.timed(f"{row}: git pack-objects, {name}", lambda: self.run("git", *words, at=at, given=revs))

    def single_commits(self, host: Host) -> None:
        """Each of the last twenty commits on top of the one before it, many times: the median is that of all of them."""
        names = self.run("git", "rev-list", "--first-parent", "--max-count=21", "b0", at="left.git").split()
        for new, old in zip(names, names[1:]):
            frames = host.entry_frames(b"site", Listing(host.missing(b"site", [new], [old])))

            def both() -> None:
                host.missing(b"site", [new], [old])
                host.take_all(frames)

            for _ in range(20):
                self.table.timed("each of the last twenty commits: both", both, host.processor)

    def memory(self, host: Host, wants: Sequence[bytes]) -> List[str]:
        """How much memory a Missing and all Entries take beside the pool."""
        loaded = host.reset_peak()
        listing = Listing(host.missing(b"site", wants, []))
        missing = host.peak() - loaded
        before = host.reset_peak()
        host.take_all(host.entry_frames(b"site", listing))
        entries = host.peak() - before
        reply, bits = 29 * len(listing) / 1e6, 2 * len(listing) / 8e6
        return [
            f"memory of the host with the pool: {loaded / 1e6:.1f} MB",
            f"a Missing of all: {missing / 1e6:.2f} MB more; its reply has {reply:.2f} MB, and two bits an object are {bits:.2f} MB",
            f"all Entries after it: {entries / 1e6:.2f} MB more",
        ]

    def blobs(self) -> None:
        """A large blob: its entry alone, with a digest on the way, and sha1sum of a file of the same bytes."""
        host = Host(self.program, self.large)
        for _ in range(self.rounds):
            frames = host.entry_frames(b"large", Listing(host.missing(b"large", [self.blob], [])))
            self.table.timed("a blob of 64 MiB: Entries", lambda: host.take_all(frames), host.processor)
            self.table.timed("a blob of 64 MiB: Entries, and SHA-1 by OpenSSL", lambda: host.digest_of(frames), host.processor)
            self.table.timed("a blob of 64 MiB: sha1sum", lambda: self.run("sha1sum", self.path("blob")))
        host.kill()

    def whole_packs(self) -> None:
        """The load of the file, and the subcommand `pack` where the program has it, with the most memory of both."""
        tip = self.name("b0") + b"\n"
        words = {"load: gitpool check": ("check",), "gitpool pack, with its load": ("pack", "site")}
        if not self._has_pack(tip):
            del words["gitpool pack, with its load"]
        for row, command in words.items():
            peak, timed = self.path("peak"), ["/usr/bin/time", "-f", "%M", "-o", self.path("peak")]
            for _ in range(self.rounds):
                self.table.timed(row, lambda: self.run(*timed, self.program, *command, "--pool", self.pool, given=tip))
            with open(peak, encoding="ascii") as told:
                self.table.notes[row] = f"at most {int(told.read()) * 1024 / 1e6:.1f} MB"

    def _has_pack(self, tip: bytes) -> bool:
        words = [self.program, "pack", "site", "--pool", self.pool]
        return subprocess.run(words, input=tip, capture_output=True, check=False).returncode == 0

    def clones(self) -> None:
        """Clones by the helper, with its load, and over file://."""
        url = f"gitpool::{self.pool}#site"
        sources = {
            "gitpool::, with its load": url,
            "file://, as fast-import left it": "file://" + self.path("left.git"),
            "file://, with a bitmap": "file://" + self.path("packed.git"),
        }
        tips = set()
        for _ in range(self.rounds):
            for words in KINDS:
                for name, source in sources.items():
                    command = ["git", "clone", "-q", *words, source, "clone"]
                    self.table.timed(" ".join(["git clone", *words, name]), lambda: self.run(*command))
                    tips.add(self.run("git", "rev-parse", "HEAD", at="clone"))
                    shutil.rmtree(self.path("clone"))
        assert len(tips) == 1, "a clone has another tip"


def main() -> None:
    program, (rounds, commits) = program_and_numbers(__doc__, 3, 20_000)
    bench = Bench(program, rounds, commits)
    try:
        bench.prepare()
        bench.whole_packs()
        host, tip = Host(bench.program, bench.pool), bench.name("b0")
        said = bench.memory(host, [tip])
        bench.packs(host, "all", [tip], [])
        bench.packs(host, "one commit", [tip], [bench.name("b0~1")], 100)
        bench.single_commits(host)
        bench.packs(host, "half of the commits", [tip], [bench.name(f"b0~{bench.commits // 2}")])
        host.kill()
        bench.blobs()
        bench.clones()
        bench.table.tell()
        print(*said, sep="\n")
        print("load of the machine: " + " ".join(f"{it:.1f}" for it in os.getloadavg()))
    finally:
        shutil.rmtree(bench.folder)


main()
