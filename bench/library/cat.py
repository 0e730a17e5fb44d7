"""Reads objects: cat.py library|pipe|pygit2|dulwich PLACE NAMES ROUNDS. Prints the seconds of the best round, by the clock and of the
processor, and the bytes of all contents or replies. PLACE is a pool file, and a repository for the last two."""
import importlib
import sys
import time
from typing import Any, Callable, List


def asks(service: Any) -> Callable[[List[bytes]], int]:
    """By a service: the question `cat`, and its reply."""

    def read_all(names: List[bytes]) -> int:
        ask = service.ask
        return sum(len(ask(b"t", b"cat " + name)) for name in names)

    return read_all


def by_library(place: str) -> Callable[[List[bytes]], int]:
    from gitpool_library import Service

    return asks(Service(place, read_only=True))


def by_pipe(place: str) -> Callable[[List[bytes]], int]:
    from gitpool import Service

    return asks(Service(place, read_only=True))


def by_pygit2(place: str) -> Callable[[List[bytes]], int]:
    pygit2: Any = importlib.import_module("pygit2")

    def read_all(names: List[bytes]) -> int:
        odb = pygit2.Repository(place).odb
        return sum(len(odb.read(name.decode())[1]) for name in names)

    return read_all


def by_dulwich(place: str) -> Callable[[List[bytes]], int]:
    repo: Any = importlib.import_module("dulwich.repo")

    def read_all(names: List[bytes]) -> int:
        store = repo.Repo(place).object_store
        return sum(len(store.get_raw(name)[1]) for name in names)

    return read_all


WAYS = {"library": by_library, "pipe": by_pipe, "pygit2": by_pygit2, "dulwich": by_dulwich}


def main(way: str, place: str, path: str, rounds: int) -> None:
    with open(path, "rb") as file:
        names = file.read().split()
    read_all = WAYS[way](place)
    best, least, size = float("inf"), float("inf"), 0
    for _ in range(rounds):
        begin, used = time.perf_counter(), time.process_time()
        size = read_all(names)
        best, least = min(best, time.perf_counter() - begin), min(least, time.process_time() - used)
    print(f"{best:.6f} {least:.6f} {size}")


main(sys.argv[1], sys.argv[2], sys.argv[3], int(sys.argv[4]))
