"""Asks `serve` through its pipes for the contents of 100,000 objects drawn at random, and `git cat-file --batch` the same, by turns:
pipes.py PROGRAM [ROUNDS [COMMITS]]; 5 rounds and 20,000 commits where no number is given. Each is asked one question at a time, and
with up to 512 sent ahead. `serve` is also asked for the abbreviation of each object. Prints the best round of each. The history is one
of bench/history/make_history; pipe.c is the client."""
import os
import random
import subprocess
import sys
import tempfile
from typing import Dict, List, Tuple

here = os.path.dirname(os.path.abspath(__file__))
sys.path.insert(0, os.path.join(here, ".."))
sys.dont_write_bytecode = True

from words import program_and_numbers  # noqa: E402

program, (rounds, commits) = program_and_numbers(__doc__, 5, 20_000)
OBJECTS = 100_000
GIT = ["git", "-c", "core.compression=0", "-c", "pack.compression=0"]


def printed(words: List[str]) -> bytes:
    return subprocess.run(words, stdout=subprocess.PIPE, check=True).stdout


def filled(stream: str, pool: str, repository: str) -> None:
    """Imports a stream into a pool file and into a bare repository."""
    subprocess.run(["git", "init", "-q", "--bare", repository], check=True)
    for words in ([program, "import", "t", "--pool", pool], [*GIT, "-C", repository, "fast-import", "--quiet"]):
        with open(stream, "rb") as given:
            subprocess.run(words, stdin=given, stdout=subprocess.DEVNULL, check=True)


def write_names(repository: str, path: str) -> None:
    listed = printed(["git", "-C", repository, "rev-list", "--objects", "--all"]).splitlines()
    names = sorted(it.split(b" ")[0] for it in listed)
    with open(path, "wb") as file:
        file.writelines(it + b"\n" for it in random.Random(7).choices(names, k=OBJECTS))


def best_of(asked: Dict[str, List[str]], client: str, names: str, ahead: int) -> Dict[str, Tuple[float, int]]:
    """The least microseconds of an answer to each query, and the bytes of all answers."""
    best: Dict[str, Tuple[float, int]] = {}
    for _ in range(rounds):
        for query, words in asked.items():
            took, size = printed([client, query, names, str(ahead), *words]).split()
            best[query] = min(best.get(query, (float("inf"), 0)), (float(took) / OBJECTS * 1e6, int(size)))
    return best


def main() -> None:
    with tempfile.TemporaryDirectory() as folder:
        stream, pool, repository, names, client = (os.path.join(folder, it) for it in ("stream", "pool", "git", "names", "client"))
        with open(stream, "wb") as file:
            subprocess.run([os.path.join(here, "..", "history", "make_history"), "--commits", str(commits)], stdout=file, check=True)
        filled(stream, pool, repository)
        write_names(repository, names)
        subprocess.run(["cc", "-O2", "-o", client, os.path.join(here, "pipe.c")], check=True)
        serve = [program, "serve", "--pool", pool]
        asked = {"cat": serve, "git": [*GIT, "-C", repository, "cat-file", "--batch"], "abbrev": serve}
        for ahead in (1, 512):
            best = best_of(asked, client, names, ahead)
            assert best["cat"][1] == best["git"][1], "contents of another length"
            each = ", ".join(f"{query} {took:.2f} us" for query, (took, _) in best.items())
            print(f"{ahead} ahead, {OBJECTS} answers, {best['cat'][1] / 1e6:.1f} MB: {each} each", flush=True)
    print(f"load {os.getloadavg()[0]:.1f}")


main()
