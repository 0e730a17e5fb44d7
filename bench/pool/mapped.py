"""Loads a large pool file with the device of packaging/pread.c and without it: mapped.py PROGRAM [COMMITS [BLOBS]]; 30,000 commits of
bench/history/make_history and 12,000 blobs of 100 KB where no number is given.

For each run of `host` this prints what it takes until it answers, how much memory of its own and how much of the file it then has, and how
long questions take: of what is in memory, and once the kernel has dropped the file's pages. `ulimit -d` is 200,000 KiB in the first run. Each run
saves, and must leave the same bytes. It needs root, for the pages, and gcc."""
import ctypes
import hashlib
import os
import random
import re
import resource
import statistics
import subprocess
import sys
import tempfile
import time
from typing import Dict, List, Optional

here = os.path.dirname(os.path.abspath(__file__))
top = os.path.join(here, "..", "..")
sys.path[:0] = [os.path.join(here, ".."), os.path.join(top, "clients")]
sys.dont_write_bytecode = True

from gitpool_frames import ANSWER_HEAD, Kind, Step, write_step  # noqa: E402
from words import program_and_numbers  # noqa: E402

program, (commits, blobs) = program_and_numbers(__doc__, 30000, 12000)
LIMIT = 200_000 << 10
QUESTIONS = 1000
MADV_PAGEOUT, PIDFD_OPEN, PROCESS_MADVISE = 21, 434, 440


class Range(ctypes.Structure):
    """Where pages are: struct iovec."""

    _fields_ = [("at", ctypes.c_void_p), ("size", ctypes.c_size_t)]


class Host:
    """A run of `host`, once it answers."""

    def __init__(self, pool: str, device: Optional[str], limit: Optional[int]):
        environment = {**os.environ, **({"LD_PRELOAD": device} if device else {})}
        started = time.monotonic()
        self.run = subprocess.Popen(
            [program, "host", "--pool", pool],
            stdin=subprocess.PIPE,
            stdout=subprocess.PIPE,
            env=environment,
            preexec_fn=(lambda: resource.setrlimit(resource.RLIMIT_DATA, (limit, limit))) if limit else None,
        )
        self.ask(b"refs")
        self.took = time.monotonic() - started

    def send(self, kind: Kind, body: bytes = b"", tenant: bytes = b"t") -> bytes:
        assert self.run.stdin and self.run.stdout
        self.run.stdin.write(write_step(Step(kind, tenant, body)))
        self.run.stdin.flush()
        head = self.run.stdout.read(ANSWER_HEAD.size)
        assert len(head) == ANSWER_HEAD.size, f"the run ended with {self.run.wait()}"
        status, value, size = ANSWER_HEAD.unpack(head)
        assert status == 0, f"an answer is {status} {value}"
        return self.run.stdout.read(size)

    def ask(self, query: bytes) -> bytes:
        return self.send(Kind.ASK, query)

    def processor(self) -> float:
        with open(f"/proc/{self.run.pid}/schedstat", encoding="ascii") as file:
            return int(file.read().split()[0]) / 1e9

    def memory(self) -> Dict[str, float]:
        """In MB: the run's own memory, what it has of files, and the most of both."""
        with open(f"/proc/{self.run.pid}/status", encoding="ascii") as file:
            found = dict(re.findall(r"^(RssAnon|RssFile|VmHWM):\s+(\d+) kB", file.read(), re.M))
        return {name: int(size) * 1024 / 1e6 for name, size in found.items()}

    def drop(self, pool: str) -> None:
        """Lets the kernel drop the pages of the pool file: from the run, and then from its cache."""
        libc = ctypes.CDLL(None, use_errno=True)
        number = libc.syscall(PIDFD_OPEN, self.run.pid, 0)
        with open(f"/proc/{self.run.pid}/maps", encoding="utf-8") as file:
            for first, last in re.findall(rf"^(\w+)-(\w+) r.*{re.escape(os.path.basename(pool))}$", file.read(), re.M):
                at = int(first, 16)
                part = Range(at, int(last, 16) - at)
                libc.syscall(PROCESS_MADVISE, number, ctypes.byref(part), 1, MADV_PAGEOUT, 0)
        os.close(number)
        with open(pool, "rb") as held:
            os.posix_fadvise(held.fileno(), 0, 0, os.POSIX_FADV_DONTNEED)

    def questions(self, names: List[bytes]) -> str:
        took = []
        for name in names:
            started = time.monotonic()
            self.ask(b"cat " + name)
            took.append((time.monotonic() - started) * 1e6)
        ordered = sorted(took)
        return f"median {statistics.median(took):.0f} us, 99 of 100 below {ordered[len(ordered) * 99 // 100]:.0f} us"

    def end(self) -> None:
        self.run.kill()
        self.run.wait()


def write_stream(path: str) -> List[bytes]:
    """A history, and large blobs beside it. Gives the names of these."""
    draw, names = random.Random(7), []
    with open(path, "wb") as file:
        subprocess.run([os.path.join(here, "..", "history", "make_history"), "--commits", str(commits)], check=True, stdout=file)
        file.seek(0, os.SEEK_END)
        for _ in range(blobs):
            content = draw.randbytes(100_000)
            names.append(hashlib.sha1(b"blob 100000\0" + content).hexdigest().encode())
            file.write(b"blob\ndata 100000\n" + content + b"\n")
    return names


def digest(path: str) -> bytes:
    return subprocess.run(["sha1sum", path], stdout=subprocess.PIPE, check=True).stdout[:40]


def measure(what: str, pool: str, names: List[bytes], device: Optional[str], limit: Optional[int] = None) -> None:
    before = digest(pool)
    host = Host(pool, device, limit)
    loaded, processor = host.memory(), host.processor()
    draw = random.Random(3)
    asked = draw.sample(names, min(QUESTIONS, len(names) // 2))
    warm = host.questions(asked)
    host.drop(pool)
    dropped = host.memory()
    cold = host.questions(asked)
    started = time.monotonic()
    host.send(Kind.SAVE, tenant=b"")
    saved = time.monotonic() - started
    after = host.memory()
    host.end()
    assert digest(pool) == before, f"{what}: a save left other bytes"
    print(
        f"{what}: answers after {host.took:.1f} s, {processor:.1f} s of the processor; own memory {loaded['RssAnon']:.0f} MB,"
        f" of files {loaded['RssFile']:.0f} MB; cat of a large blob: {warm}; dropped to {dropped['RssFile']:.0f} MB of files: {cold};"
        f" save {saved:.1f} s, then own memory {after['RssAnon']:.0f} MB",
        flush=True,
    )


def main() -> None:
    with tempfile.TemporaryDirectory(dir=os.environ.get("TMPDIR", "/tmp")) as folder:
        device, stream, pool = (os.path.join(folder, it) for it in ("pread.so", "stream", "pool"))
        subprocess.run([os.path.join(top, "packaging", "device"), device], check=True)
        names = write_stream(stream)
        with open(stream, "rb") as file:
            subprocess.run([program, "import", "t", "--pool", pool], stdin=file, stdout=subprocess.DEVNULL, check=True)
        os.unlink(stream)
        print(subprocess.run([program, "check", "--pool", pool], stdout=subprocess.PIPE, check=True, text=True).stdout.strip())
        print(f"{os.path.getsize(pool) / 1e6:.0f} MB")
        measure("mapped, with 200,000 KiB of data at most", pool, names, device, LIMIT)
        measure("mapped", pool, names, device)
        measure("copied", pool, names, None)
    print(f"load {os.getloadavg()[0]:.1f}")


main()
