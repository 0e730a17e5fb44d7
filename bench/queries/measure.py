"""Asks queries over the history of bench/history/make_history, through frames, and git the same, in one run; prints the best
of some rounds: measure.py PROGRAM [ROUNDS [COMMITS]].

The answers have to be git's, an export aside, whose refs `git fast-import` has to set as they are. Our times are from the
first frame of the queries to the last answer, in a process that has taken the history; git's are of a process that starts,
reads its pack and prints."""
import os
import random
import struct
import subprocess
import sys
import tempfile
import threading
import time
from typing import Callable, Dict, Iterable, List, Tuple

here = os.path.dirname(os.path.abspath(__file__))
sys.path.insert(0, os.path.join(here, ".."))
sys.dont_write_bytecode = True

from words import program_and_numbers  # noqa: E402

program, (rounds, commits) = program_and_numbers(__doc__, 3, 5000)
BRANCH = b"refs/heads/b0"
OBJECTS, PLACES, ANCESTORS, RANGES = 20_000, 5_000, 1_000, 100
OPEN, FEED, END, ASK = 1, 2, 3, 4
ANSWER = struct.Struct(">BQQ")
PIECE = 1 << 20
# What is printed, and the seconds that it took.
Timed = Tuple[bytes, float]
GIT = ["git", "-c", "core.compression=0", "-c", "pack.compression=0"]


def frame(kind: int, body: bytes = b"") -> bytes:
    return struct.pack(">BH", kind, 1) + b"t" + struct.pack(">I", len(body)) + body


class Frames:
    """A process of gitpool_frames that takes frames."""

    def __init__(self) -> None:
        self.process = subprocess.Popen([program, "sha1"], stdin=subprocess.PIPE, stdout=subprocess.PIPE)
        assert self.process.stdin and self.process.stdout
        self.given, self.told = self.process.stdin, self.process.stdout

    def take(self, frames: List[bytes]) -> Tuple[List[bytes], float]:
        """The replies to frames, all of which have to be answered well, and the seconds up to the last of them. They are sent
        by a thread, so that neither pipe fills up while the other waits."""
        sent = threading.Thread(target=self.send, args=(b"".join(frames),))
        start = time.perf_counter()
        sent.start()
        replies = [self.reply() for _ in frames]
        took = time.perf_counter() - start
        sent.join()
        return replies, took

    def send(self, bytes_: bytes) -> None:
        self.given.write(bytes_)
        self.given.flush()

    def reply(self) -> bytes:
        status, value, size = ANSWER.unpack(self.told.read(ANSWER.size))
        assert status == 0, f"a frame is answered by {status}, {value}"
        return self.told.read(size)

    def end(self) -> None:
        self.given.close()
        assert self.process.wait() == 0


def git(folder: str, *words: str, given: bytes = b"") -> Timed:
    """What git prints, and its seconds."""
    start = time.perf_counter()
    done = subprocess.run([*GIT, "-C", folder, *words], input=given, capture_output=True, check=True)
    return done.stdout, time.perf_counter() - start


def fresh(folder: str, name: str, stream: bytes) -> str:
    """A bare repository that git fast-import filled."""
    path = os.path.join(folder, name)
    subprocess.run(["git", "init", "-q", "--bare", path], check=True)
    git(path, "fast-import", "--quiet", given=stream)
    return path


def chosen(path: str) -> Tuple[List[bytes], List[bytes]]:
    """Names of objects, and places in commits, drawn at random, but the same ones in each run."""
    draw = random.Random(7)
    names = sorted(it.split(b" ")[0] for it in git(path, "rev-list", "--objects", "--all")[0].splitlines())
    objects = draw.choices(names, k=OBJECTS)
    back = commits * 4 // 5
    files = git(path, "ls-tree", "-r", "--name-only", "%s~%d" % (BRANCH.decode(), back))[0].splitlines()
    places = [b"%s~%d:%s" % (BRANCH, draw.randrange(back), draw.choice(files)) for _ in range(PLACES)]
    return objects, places


def ancestors(path: str) -> List[bytes]:
    """Commits of the branch, each with a distance to a commit that it reaches by first parents, all drawn at random."""
    draw = random.Random(7)
    names = git(path, "rev-list", "--first-parent", BRANCH.decode())[0].split()
    starts = draw.choices(range(len(names)), k=ANCESTORS)
    return [b"%s~%d" % (names[at], draw.randrange(len(names) - at)) for at in starts]


def history(path: str) -> List[bytes]:
    """The commits of the branch, from the tip on."""
    return git(path, "rev-list", BRANCH.decode())[0].split()


def ranges() -> List[bytes]:
    """Ranges of twenty commits each along the branch, from the tip to its middle."""
    step = max(20, commits // 2 // RANGES)
    return [b"%s~%d..%s~%d" % (BRANCH, back + 20, BRANCH, back) for back in range(0, step * RANGES, step)]


def logs(path: str) -> Timed:
    """Git's logs of the ranges, by a process each."""
    told = [git(path, "log", "--format=%H %s", it.decode()) for it in ranges()]
    return b"".join(text for text, _ in told), sum(took for _, took in told)


def lines(all_of_them: Iterable[bytes]) -> bytes:
    return b"".join(it + b"\n" for it in all_of_them)


def ours(process: Frames, queries: List[bytes]) -> Timed:
    replies, took = process.take([frame(ASK, it) for it in queries])
    return b"".join(replies), took


def compare(what: str, count: int, own: Callable[[], Timed], other: Callable[[], Timed], is_same: bool) -> bytes:
    """Prints the best times of the rounds, and returns what was printed here. One round's answers are kept at a time."""
    best, told = [float("inf")] * 2, [b"", b""]
    for _ in range(rounds):
        for place, once in enumerate((own, other)):
            told[place] = b""
            told[place], took = once()
            best[place] = min(best[place], took)
        assert told[0] == told[1] or not is_same, f"{what}: other answers"
    size = len(told[0])
    print(
        f"{what}: {count} answers, {size / 1e6:.1f} MB; gitpool {best[0]:.3f} s, {best[0] / count * 1e6:.1f} us each,"
        f" {size / best[0] / 1e9:.3f} GB/s; git {best[1]:.3f} s, {len(told[1]) / 1e6:.1f} MB;"
        f" {best[1] / best[0]:.2f} times as fast",
        flush=True,
    )
    return told[0]


def main() -> None:
    made = [os.path.join(here, "..", "history", "make_history"), "--commits", str(commits)]
    stream = subprocess.run(made, check=True, capture_output=True).stdout
    with tempfile.TemporaryDirectory() as folder:
        path = fresh(folder, "git", stream)
        process = Frames()
        pieces = [stream[at : at + PIECE] for at in range(0, len(stream), PIECE)]
        process.take([frame(OPEN), *(frame(FEED, it) for it in pieces), frame(END)])
        (objects, places), back = chosen(path), ancestors(path)
        asked = {
            "cat": ([b"cat " + it for it in objects], ["cat-file", "--batch"], lines(objects)),
            "rev-parse": ([b"rev-parse " + it for it in places], ["cat-file", "--batch-check=%(objectname)"], lines(places)),
            "ancestors": ([b"rev-parse " + it for it in back], ["cat-file", "--batch-check=%(objectname)"], lines(back)),
            "abbrev": ([b"abbrev " + it for it in history(path)], ["log", "--format=%h", "--abbrev=4", BRANCH.decode()], b""),
            "log": ([b"log " + BRANCH], ["log", "--format=%H %s", BRANCH.decode()], b""),
            "export": ([b"export"], ["fast-export", "--all"], b""),
        }
        for what, (queries, words, given) in asked.items():
            own, other = (lambda: ours(process, queries)), (lambda: git(path, *words, given=given))
            told = compare(what, len(queries), own, other, what != "export")
        compare("ranges", RANGES, lambda: ours(process, [b"log " + it for it in ranges()]), lambda: logs(path), True)
        read = fresh(folder, "export", told)
        refs = [git(it, "for-each-ref")[0] for it in (path, read)]
        assert refs[0] == refs[1], "the export has other refs"
        process.end()
    print(f"load {os.getloadavg()[0]:.1f}")


main()
