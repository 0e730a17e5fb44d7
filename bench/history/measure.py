"""Imports histories by the program and by git fast-import by turns, in one run, and prints the best of some rounds and the
most memory of each: measure.py PROGRAM [ROUNDS [COMMITS]]. After each history stands a get-mark of every commit, and the two
have to print the same. COMMITS are those of the first histories in place of 5,000."""
import os
import re
import subprocess
import sys
import tempfile
import time
from typing import List, Tuple

here = os.path.dirname(os.path.abspath(__file__))
sys.path.insert(0, os.path.join(here, ".."))
sys.dont_write_bytecode = True

from words import program_and_numbers  # noqa: E402

program, (rounds, number) = program_and_numbers(__doc__, 3, 5000)
commits = str(number)
folder = tempfile.mkdtemp()
GIT = ["git", "-c", "core.compression=0", "-c", "pack.compression=0", "fast-import", "--quiet"]
EXPORT = ["git", "-C", here, "fast-export", "--all", "--signed-tags=strip"]
LARGE = ["--commits", "20000", "--files", "20000", "--edits", "2", "--branches", "5", "--merge-every", "7"]
HISTORIES = {
    "three deep": ["--commits", commits],
    "flat": ["--commits", commits, "--flat"],
    "twice the files": ["--commits", commits, "--files", "4000"],
    "many files": LARGE if len(sys.argv) <= 3 else ["--commits", commits, *LARGE[2:]],
    "three deep, eight times the commits": ["--commits", str(8 * number)],
    "many files, four times the commits": ["--commits", str(4 * (20_000 if len(sys.argv) <= 3 else number)), *LARGE[2:]],
    "one commit of many files": ["--commits", "1", "--files", str(200 * number), "--edits", str(200 * number)],
}


def written(name: str, words: List[str]) -> Tuple[str, int]:
    """Writes a history, and asks for the name of each of its commits."""
    stream = os.path.join(folder, name.replace(" ", "_"))
    with open(stream, "wb") as file:
        file.write(subprocess.run(words, check=True, capture_output=True).stdout)
    with open(stream, "rb") as file:
        marks = re.findall(rb"(?m)^commit refs/.*\nmark (:\d+)$", file.read())
    with open(stream, "ab") as file:
        file.writelines(b"get-mark %s\n" % it for it in marks)
    return stream, len(marks)


def once(words: List[str], source: str, fresh: bool) -> Tuple[float, float, bytes]:
    """Seconds, the most memory in MB, and what is printed. GNU time asks for the memory of the process alone, for one that
    this script starts by itself would count this script's."""
    repository = tempfile.mkdtemp(dir=folder)
    if fresh:
        subprocess.run(["git", "init", "-q", "--bare", repository], check=True)
    peak, names = os.path.join(folder, "peak"), os.path.join(folder, "names")
    with open(source, "rb") as stdin, open(names, "wb") as stdout:
        start = time.monotonic()
        subprocess.run(["/usr/bin/time", "-f", "%M", "-o", peak, *words], stdin=stdin, stdout=stdout, cwd=repository, check=True)
        took = time.monotonic() - start
    subprocess.run(["rm", "-rf", repository], check=True)
    with open(peak, encoding="ascii") as size, open(names, "rb") as told:
        return took, int(size.read()) * 1024 / 1e6, told.read()


def measure(name: str, words: List[str]) -> None:
    stream, count = written(name, words)
    size = os.path.getsize(stream) / 1e6
    ours, git = zip(*([once(it, stream, it is GIT) for it in ([program], GIT)] for _ in range(rounds)))
    assert ours[0][2] == git[0][2], "other names of commits"
    took, other = min(it[0] for it in ours), min(it[0] for it in git)
    print(
        f"{name}: {count} commits, {size:.1f} MB; gitpool {took:.2f} s, {took / count * 1e6:.0f} us a commit,"
        f" at most {max(it[1] for it in ours):.0f} MB; git {other:.2f} s, at most {max(it[1] for it in git):.0f} MB;"
        f" {other / took:.1f} times as fast",
        flush=True,
    )


for name, words in HISTORIES.items():
    measure(name, [os.path.join(here, "make_history"), *words])
measure("this repository", EXPORT)
subprocess.run(["rm", "-rf", folder], check=True)
