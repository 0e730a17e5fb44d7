"""Loads a large pool file with one program and another by turns: lent.py PROGRAM OTHER_PROGRAM; ROUNDS=3, COMMITS=30000 and BLOBS=12000 from the
environment.

The file has a history of bench/history/make_history, and blobs of 100,000 random bytes. For each program this prints the best time and the most
memory of `check`, and the same of an import of an empty stream, which loads and saves, and must leave the same bytes."""
import hashlib
import os
import random
import subprocess
import sys
import tempfile
from typing import IO, List, Tuple

HERE = os.path.dirname(os.path.abspath(__file__))
PROGRAMS = [os.path.abspath(it) for it in sys.argv[1:3]]
ROUNDS, COMMITS, BLOBS = (int(os.environ.get(name, otherwise)) for name, otherwise in (("ROUNDS", "3"), ("COMMITS", "30000"), ("BLOBS", "12000")))
MAKE_HISTORY = os.path.join(HERE, "..", "history", "make_history")


def write_stream(file: IO[bytes]) -> None:
    draw = random.Random(7)
    for _ in range(BLOBS):
        file.write(b"blob\ndata 100000\n" + draw.randbytes(100_000) + b"\n")
    file.flush()
    subprocess.run([MAKE_HISTORY, "--commits", str(COMMITS)], stdout=file, check=True)


def make_pool(folder: str) -> str:
    pool = os.path.join(folder, "pool")
    with tempfile.TemporaryFile(dir=folder) as stream:
        write_stream(stream)
        stream.seek(0)
        subprocess.run([PROGRAMS[0], "import", "t", "--pool", pool], stdin=stream, stdout=subprocess.DEVNULL, check=True)
    return pool


def once(words: List[str]) -> Tuple[float, float]:
    """Seconds of the processor, and the most memory in MB. GNU time asks for the memory of the process alone."""
    with tempfile.NamedTemporaryFile() as told:
        timed = ["/usr/bin/time", "-f", "%U %S %M", "-o", told.name, *words]
        subprocess.run(timed, stdin=subprocess.DEVNULL, stdout=subprocess.DEVNULL, check=True)
        user, system, most = told.read().split()
    return float(user) + float(system), int(most) * 1024 / 1e6


def digest_of(path: str) -> str:
    digest = hashlib.sha1()
    with open(path, "rb") as file:
        for piece in iter(lambda: file.read(1 << 20), b""):
            digest.update(piece)
    return digest.hexdigest()


def measure(what: str, words: List[str]) -> None:
    """By turns, so that what else runs on the machine slows both."""
    taken = [[once([program, *words]) for program in PROGRAMS] for _ in range(ROUNDS)]
    for place, program in enumerate(PROGRAMS):
        mine = [it[place] for it in taken]
        print(f"  {program}: {what} {min(it[0] for it in mine):.2f} s, at most {max(it[1] for it in mine):.0f} MB", flush=True)


def main() -> None:
    with tempfile.TemporaryDirectory(dir=os.environ.get("ROOM")) as folder:
        pool = make_pool(folder)
        told = subprocess.run([PROGRAMS[0], "check", "--pool", pool], stdout=subprocess.PIPE, check=True, text=True).stdout.strip()
        print(f"{told}; {os.path.getsize(pool) / 1e6:.1f} MB; of the processor, best of {ROUNDS}:", flush=True)
        before = digest_of(pool)
        measure("load", ["check", "--pool", pool])
        measure("load and save", ["import", "none", "--pool", pool])
        assert digest_of(pool) == before, "a save left other bytes"


main()
