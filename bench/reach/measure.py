"""Makes a history with a merge in each ten commits, and measures its log and the fast-forward tests of each commit onto the
one before: by the program, and by git over the same objects. Prints the best of some runs; fails where the two differ."""
import hashlib
import os
import subprocess
import sys
import tempfile
import time
from typing import List, Tuple

program, count, rounds = sys.argv[1], int(sys.argv[2]), int(sys.argv[3])
folder = tempfile.mkdtemp()
WHO = "A U Thor <author@example.com> %d +0000"
EMPTY = "4b825dc642cb6eb9a060e54bf8d69288fbee4904"


def parents_of(number: int) -> List[int]:
    """In each ten a side commit leaves the main line, and the last one merges it."""
    place = number % 10
    if number == 0:
        return []
    if place == 5:
        return [number - 3]
    if place == 6:
        return [number - 2]
    return [number - 1, number - 4] if place == 9 else [number - 1]


names: List[str] = []
texts: List[bytes] = []
stream = ["reset refs/heads/m\n"]
for number in range(count):
    who = WHO % (1700000000 + number)
    parents = parents_of(number)
    header = "tree %s\n" % EMPTY + "".join("parent %s\n" % names[it] for it in parents)
    text = (header + "author %s\ncommitter %s\n\nc %d\n" % (who, who, number)).encode()
    names.append(hashlib.sha1(b"commit %d\0" % len(text) + text).hexdigest())
    texts.append(text)
    message = "c %d\n" % number
    stream.append(
        "commit refs/heads/b%d\nmark :%d\nauthor %s\ncommitter %s\ndata %d\n%s" % (number % 10 == 5, number + 1, who, who, len(message), message)
    )
    stream.append("".join("%s :%d\n" % (word, it + 1) for word, it in zip(("from", "merge"), parents)) + "\n")
stream.append("reset refs/heads/m\nfrom :%d\n" % count)
with open(os.path.join(folder, "commits"), "wb") as commits:
    commits.write(b"".join(text + b"\0" for text in texts))
subprocess.run(["git", "init", "-q", "--bare", os.path.join(folder, "git")], check=True)
git = ["git", "-C", os.path.join(folder, "git")]
subprocess.run(git + ["fast-import", "--quiet", "--force"], input="".join(stream).encode(), check=True)
assert subprocess.check_output(git + ["rev-parse", "m"]).decode().strip() == names[-1]


def timed(words: List[str]) -> Tuple[float, bytes]:
    start = time.monotonic()
    said = subprocess.check_output(words)
    return time.monotonic() - start, said


best = [float("inf")] * 2
for _ in range(rounds):
    with open(os.path.join(folder, "commits"), encoding="ascii") as asked:
        length, log, forward, tests = map(int, subprocess.check_output([program], stdin=asked).split())
    best = [min(best[0], log), min(best[1], tests)]
listed, said = min(timed(git + ["rev-list", "m"]) for _ in range(rounds))
assert len(said.split()) == length == count, (length, count)
assert forward == sum(number - 1 in parents_of(number) for number in range(1, count)), forward
pairs = list(zip(names, names[1:]))[:: max(1, count // 100)]
start = time.monotonic()
for old, tip in pairs:
    subprocess.run(git + ["merge-base", "--is-ancestor", old, tip])
each = (time.monotonic() - start) / len(pairs)
print("%d commits, %d of them on the one before" % (length, forward))
print("the program: log %.4f s, all tests %.4f s" % (best[0] / 1e6, best[1] / 1e6))
print("git: rev-list %.4f s; merge-base --is-ancestor, a process for each test: %.4f s each" % (listed, each))
