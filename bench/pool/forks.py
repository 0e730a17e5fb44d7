"""Loads pool files whose tenants are forks: forks.py PROGRAM [OTHER_PROGRAM]; ROUNDS=3 and COMMITS=5000 from the environment.

A fork has all objects of a history of bench/history/make_history, and one commit of its own. Measured are 100 forks, 1,000
forks, and 100 forks of two histories, which take turns in the order of names. For each file this prints the best time and the
most memory of `check` with each program, beside `sha1sum`; an import of an empty stream must leave the same bytes."""
import hashlib
import os
import subprocess
import sys
import tempfile
from dataclasses import dataclass
from typing import Dict, List, Tuple

PROGRAMS = [os.path.abspath(it) for it in sys.argv[1:3]]
ROUNDS = int(os.environ.get("ROUNDS", "3"))
COMMITS = os.environ.get("COMMITS", "5000")
MAKE_HISTORY = os.path.join(os.path.dirname(os.path.abspath(__file__)), "..", "history", "make_history")
MAGIC = b"gitpool\n\0\0\0\2"
COMMIT = 1
KINDS = {1: b"commit", 2: b"tree", 3: b"blob", 4: b"tag"}

Content = Tuple[int, bytes]


@dataclass
class History:
    """The contents of a tenant's objects in their order, and the place of the commit at the tip of its branch."""

    contents: List[Content]
    tip: int


class Text:
    """Bytes that are read from the front."""

    def __init__(self, text: bytes) -> None:
        self.text, self.place = text, 0

    def take(self, size: int) -> bytes:
        self.place += size
        return self.text[self.place - size : self.place]

    def number(self, size: int = 8) -> int:
        return int.from_bytes(self.take(size), "big")


def wide(number: int) -> bytes:
    return number.to_bytes(8, "big")


def sized(text: bytes) -> bytes:
    return len(text).to_bytes(2, "big") + text


def history_of(path: str) -> History:
    """The only tenant of a pool file, which has one ref."""
    with open(path, "rb") as file:
        text = Text(file.read())
    assert text.take(len(MAGIC)) == MAGIC, "no pool file of version 2"
    contents = [(text.number(1), text.take(text.number())) for _ in range(text.number())]
    assert text.number() == 1, "more than one tenant"
    text.take(text.number(2))
    own = [contents[text.number()] for _ in range(text.number())]
    assert text.number() == 1, "more than one ref"
    text.take(text.number(2))
    return History(own, text.number())


def imported(seed: int, path: str) -> History:
    made = subprocess.run([MAKE_HISTORY, "--commits", COMMITS, "--seed", str(seed)], stdout=subprocess.PIPE, check=True)
    subprocess.run([PROGRAMS[0], "import", "t", "--pool", path], input=made.stdout, stdout=subprocess.DEVNULL, check=True)
    return history_of(path)


def own_commit(history: History, number: int) -> Content:
    kind, tip = history.contents[history.tip]
    name = hashlib.sha1(b"%s %d\0" % (KINDS[kind], len(tip)) + tip).hexdigest().encode()
    tree = tip.split(b"\n", 1)[0]
    person = b"F <f@example.com> %d +0000" % (1_800_000_000 + number)
    return COMMIT, b"%s\nparent %s\nauthor %s\ncommitter %s\n\nFork %d\n" % (tree, name, person, person, number)


def tenant_text(number: int, numbers: Dict[Content, int], front: bytes, own: Content, count: int) -> bytes:
    """`front` are the numbers of the objects before its own commit, which are `count`."""
    name = b"t%06d" % number
    ref = b"refs/namespaces/" + name + b"/refs/heads/main"
    objects = wide(count + 1) + front + wide(numbers[own])
    return sized(name) + objects + wide(1) + sized(ref) + wide(count) + sized(b"refs/heads/main")


def write_forks(histories: List[History], count: int, path: str) -> None:
    owns = [own_commit(histories[number % len(histories)], number) for number in range(count)]
    contents = sorted({it for history in histories for it in history.contents} | set(owns))
    numbers = {content: number for number, content in enumerate(contents)}
    fronts = [b"".join(wide(numbers[it]) for it in history.contents) for history in histories]
    digest = hashlib.sha1()
    with open(path, "wb") as file:

        def put(text: bytes) -> None:
            digest.update(text)
            file.write(text)

        put(MAGIC + wide(len(contents)))
        put(b"".join(bytes([kind]) + wide(len(text)) + text for kind, text in contents))
        put(wide(count))
        for number, own in enumerate(owns):
            turn = number % len(histories)
            put(tenant_text(number, numbers, fronts[turn], own, len(histories[turn].contents)))
        file.write(digest.digest())


def once(words: List[str]) -> Tuple[float, float]:
    """Seconds of the processor, and the most memory in MB. GNU time asks for the memory of the process alone."""
    with tempfile.NamedTemporaryFile() as told:
        timed = ["/usr/bin/time", "-f", "%U %S %M", "-o", told.name, *words]
        subprocess.run(timed, stdin=subprocess.DEVNULL, stdout=subprocess.DEVNULL, check=True)
        user, system, most = told.read().split()
    return float(user) + float(system), int(most) * 1024 / 1e6


def best(words: List[str]) -> Tuple[float, float]:
    rounds = [once(words) for _ in range(ROUNDS)]
    return min(it[0] for it in rounds), max(it[1] for it in rounds)


def digest_of(path: str) -> str:
    return subprocess.run(["sha1sum", path], stdout=subprocess.PIPE, check=True, text=True).stdout.split()[0]


def measure(what: str, path: str) -> None:
    size, before = os.path.getsize(path) / 1e6, digest_of(path)
    summed, _ = best(["sha1sum", path])
    print(f"{what}: {size:.1f} MB; sha1sum {summed:.3f} s", flush=True)
    for program in PROGRAMS:
        load, held = best([program, "check", "--pool", path])
        once([program, "import", "none", "--pool", path])
        assert digest_of(path) == before, f"{what}: a save left other bytes"
        print(f"  {program}: load {load:.3f} s, {load / summed:.1f} times as long, at most {held:.0f} MB", flush=True)


def main() -> None:
    with tempfile.TemporaryDirectory() as folder:
        one, two, forks = (os.path.join(folder, it) for it in ("one", "two", "forks"))
        first, second = imported(7, one), imported(8, two)
        for what, histories, count in (
            ("100 forks", [first], 100),
            ("100 forks of two histories", [first, second], 100),
            ("1,000 forks", [first], 1000),
        ):
            write_forks(histories, count, forks)
            measure(what, forks)
    print(f"load of the machine {os.getloadavg()[0]:.1f}")


if __name__ == "__main__":
    main()
