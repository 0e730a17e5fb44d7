"""Imports many repositories by gitpool-import --all, beside the imports of their streams one by one: many.py PROGRAM [COUNT [COMMITS]].

Each repository has a history of bench/history, another one each, and is bare, as `git fast-import` leaves it. Beside the run of all
there is, for each repository, `git fast-export | gitpool import` into an empty pool file of its own, and at the end one load and
one save of the pool file with all of them. All three are measured in turns; the best of three rounds counts. The run fails if a tenant
of the one pool file has other refs than its repository."""
from __future__ import annotations

import os
import shutil
import subprocess
import sys
import tempfile
import time
from typing import Callable, Dict, List

HERE = os.path.dirname(os.path.realpath(__file__))
CLIENTS = os.path.join(HERE, "..", "..", "clients")
sys.path[:0] = [CLIENTS, os.path.join(HERE, "..")]

from gitpool import Service  # noqa: E402
from gitpool_many import EXPORT  # noqa: E402
from words import program_and_numbers  # noqa: E402

ROUNDS = 3


def main() -> None:
    program, (count, commits) = program_and_numbers(__doc__, 30, 1000)
    folder = tempfile.mkdtemp()
    try:
        measure(program, folder, make(folder, count, commits))
    finally:
        shutil.rmtree(folder)


def make(folder: str, count: int, commits: int) -> List[str]:
    """Makes the repositories, and gives their paths."""
    paths = []
    for number in range(count):
        path = os.path.join(folder, f"{number}.git")
        subprocess.run(["git", "init", "-q", "--bare", "--initial-branch=b0", path], check=True)
        made = subprocess.Popen(
            [os.path.join(HERE, "..", "history", "make_history"), "--commits", str(commits), "--files", "500", "--seed", str(number)],
            stdout=subprocess.PIPE,
        )
        subprocess.run(["git", "-C", path, "fast-import", "--quiet"], stdin=made.stdout, check=True)
        paths.append(path)
    return paths


def measure(program: str, folder: str, paths: List[str]) -> None:
    """Measures, and prints the best of each."""
    pool = os.path.join(folder, "all.pool")
    with open(os.path.join(folder, "list"), "w", encoding="utf-8") as file:
        file.writelines(f"t{number} {path}\n" for number, path in enumerate(paths))
    best: Dict[str, float] = {}
    runs: Dict[str, Callable[[], None]] = {
        "one by one": lambda: each_alone(program, folder, paths),
        "all in one": lambda: all_in_one(program, folder, pool),
        "a load and a save": lambda: load_and_save(program, pool),
    }
    for _ in range(ROUNDS):
        for name, run in runs.items():
            began = time.monotonic()
            run()
            best[name] = min(best.get(name, 1e9), time.monotonic() - began)
    check(program, pool, paths)
    alone, together, saved = best["one by one"], best["all in one"], best["a load and a save"]
    print(
        f"{len(paths)} repositories, a pool file of {os.path.getsize(pool) / 1e6:.0f} MB: one by one {alone:.2f} s,"
        f" --all {together:.2f} s, of which a load and a save {saved:.2f} s: {(together - saved) / alone:.2f} times their own imports beside these"
    )


def each_alone(program: str, folder: str, paths: List[str]) -> None:
    """The import of each repository's stream into an empty pool file."""
    pool = os.path.join(folder, "alone.pool")
    for path in paths:
        if os.path.exists(pool):
            os.unlink(pool)
        export = subprocess.Popen(["git", "-C", path, *EXPORT], stdout=subprocess.PIPE)
        subprocess.run([program, "import", "t", "--pool", pool], stdin=export.stdout, check=True)
        assert export.wait() == 0


def all_in_one(program: str, folder: str, pool: str) -> None:
    """The same by one run, into a pool file that is not there yet."""
    if os.path.exists(pool):
        os.unlink(pool)
    subprocess.run(
        [os.path.join(CLIENTS, "gitpool-import"), "--all", os.path.join(folder, "list"), "--pool", pool],
        env=dict(os.environ, GITPOOL=program),
        stdout=subprocess.DEVNULL,
        check=True,
    )


def load_and_save(program: str, pool: str) -> None:
    """A run that does nothing else."""
    subprocess.run([program, "serve", "--pool", pool], stdin=subprocess.DEVNULL, check=True)


def check(program: str, pool: str, paths: List[str]) -> None:
    """Asks that each tenant has the refs of its repository."""
    with Service(pool, program, read_only=True) as service:
        for number, path in enumerate(paths):
            told = subprocess.run(["git", "-C", path, "show-ref"], stdout=subprocess.PIPE, check=True).stdout
            assert service.ask(f"t{number}", "refs") == told, path


main()
