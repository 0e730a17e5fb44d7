"""Measures the library in one process beside libgit2, pygit2 and dulwich: measure.py ARCHIVE_DIR PROGRAM [ROUNDS [OBJECTS [COMMITS]]].

A history of bench/history/make_history is imported into a pool and into repositories of git, and the same objects, drawn at random, are read by
each way: the best of some rounds. All have to read the same bytes. Then each history of bench/history is imported in process, and by the
program. Prints two tables. A way whose package is not there is named."""
import os
import random
import resource
import shutil
import subprocess
import sys
import tempfile
import time
from typing import Dict, List, Optional, Tuple

HERE = os.path.dirname(os.path.abspath(__file__))
TOP = os.path.join(HERE, "..", "..")
MAKE_HISTORY = os.path.join(HERE, "..", "history", "make_history")
PYTHON = "/usr/bin/python3"
PLAIN = ["-c", "core.compression=0", "-c", "pack.compression=0"]
LARGE = ["--commits", "20000", "--files", "20000", "--edits", "2", "--branches", "5", "--merge-every", "7"]


class Bench:
    """The folder of a run, with its pool, its repositories and the names that are asked for."""

    def __init__(self, archive: str, program: str, rounds: int, folder: str):
        self.archive, self.program, self.rounds, self.folder = os.path.abspath(archive), os.path.abspath(program), str(rounds), folder

    def path(self, name: str) -> str:
        return os.path.join(self.folder, name)

    def environment(self) -> Dict[str, str]:
        python = os.pathsep.join(os.path.abspath(os.path.join(TOP, it)) for it in ("clients", "bindings/python"))
        return {
            **os.environ,
            "PYTHONPATH": python,
            "GITPOOL": self.program,
            "GITPOOL_LIB_DIR": self.archive,
            "CARGO_HOME": self.path("cargo"),
            "CARGO_TARGET_DIR": self.path("target"),
            "GITPOOL_LIBRARY": os.path.join(self.archive, "libgitpool.so"),
        }

    def told(self, words: List[str], given: Optional[str] = None) -> bytes:
        """What a command prints that has to end well."""
        with open(given or os.devnull, "rb") as source:
            return subprocess.run(words, stdin=source, stdout=subprocess.PIPE, check=True, env=self.environment()).stdout

    def compile(self, name: str, *libraries: str) -> None:
        source = os.path.join(HERE, name + ".c")
        self.told(["gcc", "-O2", f"-I{TOP}/include", source, *libraries, "-o", self.path(name)])

    def build(self) -> None:
        archive = os.path.join(self.archive, "libgitpool.a")
        self.compile("cat", archive)
        self.compile("import", archive)
        if os.path.exists("/usr/include/git2.h"):
            self.compile("cat_libgit2", "-lgit2")
        shutil.copytree(os.path.join(HERE, "rust"), self.path("rust"))
        manifest = self.path("rust/Cargo.toml")
        with open(manifest, encoding="utf-8") as file:
            text = file.read().replace("../../../bindings/rust", os.path.abspath(os.path.join(TOP, "bindings/rust")))
        with open(manifest, "w", encoding="utf-8") as file:
            file.write(text)
        self.told(["cargo", "build", "-q", "--release", "--offline", "--manifest-path", manifest])

    def repository(self, name: str, stream: str, *words: str) -> str:
        """A bare repository that git fast-import filled."""
        path = self.path(name)
        self.told(["git", "init", "-q", "--bare", path])
        self.told(["git", *(PLAIN if words else []), "-C", path, "fast-import", "--quiet", *words], stream)
        return path

    def fill(self, stream: str, objects: int) -> None:
        """The pool, the repositories, and names that are drawn at random, but the same in each run."""
        self.told([self.program, "import", "t", "--pool", self.path("pool")], stream)
        packed = self.repository("packed", stream)
        self.repository("plain", stream, "--depth=0")
        listed = self.told(["git", "-C", packed, "cat-file", "--batch-all-objects", "--batch-check=%(objectname)"]).split()
        drawn = random.Random(7).choices(listed, k=objects)
        with open(self.path("names"), "wb") as file:
            file.writelines(it + b"\n" for it in drawn)

    def ways(self) -> List[Tuple[str, List[str]]]:
        """Each way by which objects are read, as a command without the names and the rounds."""
        script = os.path.join(HERE, "cat.py")
        pool, packed, plain = self.path("pool"), self.path("packed"), self.path("plain")
        return [
            ("library, C", [self.path("cat"), pool]),
            ("library, Rust", [self.path("target/release/cat"), pool]),
            ("library, Python", [PYTHON, script, "library", pool]),
            ("gitpool.py: a pipe to the program", [PYTHON, script, "pipe", pool]),
            ("libgit2, its pack", [self.path("cat_libgit2"), packed, "strict"]),
            ("libgit2, compression 0 and no deltas", [self.path("cat_libgit2"), plain, "strict"]),
            ("the same without its check of names", [self.path("cat_libgit2"), plain, "loose"]),
            ("pygit2, its pack", [PYTHON, script, "pygit2", packed]),
            ("pygit2, compression 0 and no deltas", [PYTHON, script, "pygit2", plain]),
            ("dulwich, its pack", [PYTHON, script, "dulwich", packed]),
            ("dulwich, compression 0 and no deltas", [PYTHON, script, "dulwich", plain]),
        ]

    def read_by(self, words: List[str]) -> Optional[Tuple[float, float, int]]:
        """The seconds of the best round, by the clock and of the processor, and the bytes, or None where what is needed is not there."""
        names = [self.path("names"), self.rounds]
        command = [words[0], words[1], *names, words[2]] if words[0].endswith("libgit2") else [*words, *names]
        if not os.path.exists(words[0]):
            return None
        done = subprocess.run(command, stdout=subprocess.PIPE, stderr=subprocess.PIPE, env=self.environment(), check=False)
        if done.returncode:
            if b"ModuleNotFoundError" in done.stderr:
                return None
            raise RuntimeError(f"{command}: {done.stderr.decode(errors='replace')[-500:]}")
        took, used, size = done.stdout.split()
        return float(took), float(used), int(size)

    def print_reads(self, objects: int) -> None:
        print("| way | microseconds each | of the processor | bytes |\n|---|---|---|---|")
        sizes: Dict[bool, int] = {}
        for name, words in self.ways():
            found = self.read_by(words)
            if found is None:
                print(f"| {name} | not there | | |", flush=True)
                continue
            is_reply = name.startswith(("library", "gitpool"))
            took, used, size = found
            assert sizes.setdefault(is_reply, size) == size, f"{name} reads {size} bytes, others {sizes[is_reply]}"
            print(f"| {name} | {took / objects * 1e6:.2f} | {used / objects * 1e6:.2f} | {size} |", flush=True)

    def print_imports(self, commits: str) -> None:
        print("\n| history | in process | of the processor | the program | of the processor | bytes stored |\n|---|---|---|---|---|---|")
        base = ["--commits", commits]
        large = LARGE if commits == "5000" else [*base, *LARGE[2:]]
        histories = {"three deep": base, "one directory": [*base, "--flat"], "twice the files": [*base, "--files", "4000"], "five branches": large}
        for name, words in histories.items():
            stream = self.path("history")
            with open(stream, "wb") as file:
                subprocess.run([MAKE_HISTORY, *words], stdout=file, check=True)
            took, used, size = self.told([self.path("import"), stream, self.rounds]).split()
            best, least = self.program_imports(stream)
            print(f"| {name} | {float(took):.2f} s | {float(used):.2f} s | {best:.2f} s | {least:.2f} s | {int(size)} |", flush=True)

    def program_imports(self, stream: str) -> Tuple[float, float]:
        """The best seconds of a run of the program, with its start and its end, by the clock and of the processor."""
        best, least = float("inf"), float("inf")
        for _ in range(int(self.rounds)):
            begin, before = time.perf_counter(), resource.getrusage(resource.RUSAGE_CHILDREN)
            self.told([self.program], stream)
            after = resource.getrusage(resource.RUSAGE_CHILDREN)
            best = min(best, time.perf_counter() - begin)
            least = min(least, after.ru_utime + after.ru_stime - before.ru_utime - before.ru_stime)
        return best, least


def main(archive: str, program: str, rounds: str = "3", objects: str = "100000", commits: str = "5000") -> None:
    shelf = "/dev/shm" if os.access("/dev/shm", os.W_OK) else None
    with tempfile.TemporaryDirectory(dir=shelf) as folder:
        bench = Bench(archive, program, int(rounds), folder)
        bench.build()
        stream = bench.path("stream")
        with open(stream, "wb") as file:
            subprocess.run([MAKE_HISTORY, "--commits", commits], stdout=file, check=True)
        bench.fill(stream, int(objects))
        bench.print_reads(int(objects))
        bench.print_imports(commits)
    with open("/proc/cpuinfo", encoding="utf-8") as cpus:
        model = next((it.split(": ")[1].strip() for it in cpus if it.startswith("model name")), "?")
    print(f"\n{model}, {os.cpu_count()} cores, load {os.getloadavg()[0]:.1f}")


main(*sys.argv[1:])
