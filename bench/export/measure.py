"""Copies the history of bench/history/make_history from one tenant of a pool file to another, and imports its export into a tenant
of the same file, in one run; prints the best of some rounds: measure.py PROGRAM [ROUNDS [COMMITS]].

Each run of the program loads the file and saves it, so the import of an empty stream, which does that alone, stands beside them,
and an import of the export without a pool file. The copy has to leave what the import leaves: refs, HEAD, exports and counts. Real
git reads the export too, and has to have the refs of the history."""
import hashlib
import os
import subprocess
import sys
import tempfile
import time
from typing import Dict, List, Optional, Tuple

here = os.path.dirname(os.path.abspath(__file__))
sys.path.insert(0, os.path.join(here, ".."))
sys.dont_write_bytecode = True

from words import program_and_numbers  # noqa: E402

program, (rounds, commits) = program_and_numbers(__doc__, 3, 5000)
GIT = ["git", "-c", "core.compression=0", "-c", "pack.compression=0"]


def ran(words: List[str], given: bytes = b"", folder: Optional[str] = None) -> Tuple[bytes, float]:
    """What a process prints, and its seconds."""
    start = time.monotonic()
    done = subprocess.run(words, input=given, cwd=folder, stdout=subprocess.PIPE, check=True)
    return done.stdout, time.monotonic() - start


class Pool:
    """A pool file in which the tenant `a` has the history."""

    def __init__(self, folder: str, stream: bytes) -> None:
        self.first, self.path = os.path.join(folder, "first"), os.path.join(folder, "pool")
        ran([program, "import", "a", "--pool", self.first], stream)

    def told(self, query: List[str], path: str) -> Tuple[bytes, float]:
        return ran([program, "ask", *query, "--pool", path])

    def left(self, words: List[str], given: bytes = b"") -> float:
        """The seconds of a run over a file as it was at first."""
        subprocess.run(["cp", self.first, self.path], check=True)
        return ran([program, *words, "--pool", self.path], given)[1]

    def tenants(self) -> Tuple[bytes, List[bytes]]:
        """What the file has now: its counts, and digests of what both tenants tell."""
        looks = [self.told([tenant, query], self.path)[0] for tenant in "ab" for query in ("refs", "head", "export")]
        return ran([program, "check", "--pool", self.path])[0], [hashlib.sha1(it).digest() for it in looks]


def fresh(folder: str, name: str, stream: bytes) -> Tuple[bytes, float]:
    """The refs of a bare repository that git fast-import filled, and its seconds."""
    path = os.path.join(folder, name)
    ran(["git", "init", "-q", "--bare", path])
    took = ran([*GIT, "fast-import", "--quiet"], stream, path)[1]
    refs = ran(["git", "for-each-ref"], folder=path)[0]
    subprocess.run(["rm", "-rf", path], check=True)
    return refs, took


def main() -> None:
    stream = ran([os.path.join(here, "..", "history", "make_history"), "--commits", str(commits)])[0]
    with tempfile.TemporaryDirectory() as folder:
        pool = Pool(folder, stream)
        export = pool.told(["a", "export"], pool.first)[0]
        runs = {
            "load and save": (["import", "b"], b""),
            "import": (["import", "b"], export),
            "copy": (["copy", "a", "b"], b""),
        }
        best = dict.fromkeys([*runs, "no pool file", "git"], float("inf"))
        left: Dict[str, Tuple[bytes, List[bytes]]] = {}
        refs = fresh(folder, "git", stream)[0]
        for _ in range(rounds):
            for name, (words, given) in runs.items():
                best[name] = min(best[name], pool.left(words, given))
                left[name] = left.get(name) or pool.tenants()
            best["no pool file"] = min(best["no pool file"], ran([program], export)[1])
            read, took = fresh(folder, "export", export)
            best["git"] = min(best["git"], took)
            assert read == refs, "git reads other refs from the export"
        assert left["copy"] == left["import"], "the copy leaves another repository than the import"
        alone = best.pop("load and save")
        own = best["copy"] - alone, best["import"] - alone
        print(
            f"{commits} commits, an export of {len(export) / 1e6:.1f} MB, a pool file of {os.path.getsize(pool.path) / 1e6:.1f} MB with both; "
            f"load and save {alone:.2f} s; import {best['import']:.2f} s, without a pool file {best['no pool file']:.2f} s;"
            f" copy {best['copy']:.2f} s,"
            f" {best['copy'] / best['import']:.2f} of the import, {own[0] / own[1]:.2f} without load and save;"
            f" git fast-import of the export {best['git']:.2f} s; load {os.getloadavg()[0]:.1f}"
        )


main()
