"""Clones a history of a tenant by git-remote-gitpool and the same of a repository over file://, by turns, in one run; then pushes
and fetches one commit: measure.py PROGRAM [ROUNDS [COMMITS]]. It prints the best of the rounds of each. The history is that of
bench/history, 20,000 commits over 2,000 files. git clones it as `git fast-import` leaves it, and packed anew with a bitmap."""
import os
import shutil
import subprocess
import sys
import tempfile
import time
from typing import BinaryIO, Dict, Union

here = os.path.dirname(os.path.realpath(__file__))
sys.path.insert(0, os.path.join(here, ".."))
sys.dont_write_bytecode = True

from words import program_and_numbers  # noqa: E402

program, (rounds, commits) = program_and_numbers(__doc__, 3, 20000)
folder = tempfile.mkdtemp()
pool = os.path.join(folder, "all.pool")
url = f"gitpool::{pool}#site"
settings = {"user.name": "A", "user.email": "a@b", "gc.auto": "0", "advice.detachedHead": "false"}
given = {f"GIT_CONFIG_{part}_{place}": it for place, pair in enumerate(settings.items()) for part, it in zip(("KEY", "VALUE"), pair)}
environment = dict(
    os.environ,
    HOME=folder,
    GIT_CONFIG_NOSYSTEM="1",
    GITPOOL=program,
    GIT_CONFIG_COUNT=str(len(settings)),
    **given,
    PATH=os.path.join(here, "..", "..", "clients") + os.pathsep + os.environ["PATH"],
)
best: Dict[str, float] = {}


def run(*words: str, at: str = folder, stdin: Union[int, BinaryIO] = subprocess.DEVNULL) -> bytes:
    return subprocess.run(words, cwd=at, env=environment, stdin=stdin, stdout=subprocess.PIPE, check=True).stdout


def timed(name: str, *words: str, at: str = folder) -> None:
    """Runs a command, and keeps its time where it is the best one of its name."""
    start = time.monotonic()
    run(*words, at=at)
    best[name] = min(best.get(name, 1e9), time.monotonic() - start)


def prepare() -> None:
    """The same history in two repositories and in a tenant."""
    stream = os.path.join(folder, "stream")
    with open(stream, "wb") as file:
        file.write(b"option gitpool head refs/heads/b0\n")
        file.flush()
        subprocess.run([os.path.join(here, "..", "history", "make_history"), "--commits", str(commits)], stdout=file, check=True)
    run("git", "init", "-q", "--bare", "--initial-branch=b0", "left.git")
    with open(stream, "rb") as file:
        run("git", "fast-import", "--quiet", at=os.path.join(folder, "left.git"), stdin=file)
    with open(stream, "rb") as file:
        run(program, "import", "site", "--pool", pool, stdin=file)
    os.unlink(stream)
    shutil.copytree(os.path.join(folder, "left.git"), os.path.join(folder, "packed.git"))
    run("git", "repack", "-adfbq", at=os.path.join(folder, "packed.git"))


def clone(name: str, source: str, *words: str) -> bytes:
    to = os.path.join(folder, "clone")
    timed(name, "git", "clone", "-q", *words, source, to)
    tip = run("git", "rev-parse", "HEAD", at=to)
    shutil.rmtree(to)
    return tip


def clones() -> None:
    for _ in range(rounds):
        for kind, words in (("", ()), (" --bare", ("--bare",))):
            tips = {
                clone(f"git{kind}", "file://" + os.path.join(folder, "left.git"), *words),
                clone(f"packed{kind}", "file://" + os.path.join(folder, "packed.git"), *words),
                clone(f"gitpool{kind}", url, *words),
            }
            assert len(tips) == 1, "other tips"
        os.sync()
        timed("load", program, "check", "--pool", pool)
        timed("load and save", program, "serve", "--pool", pool)


def change(at: str) -> None:
    """A commit of one file."""
    with open(os.path.join(at, "dir0", "sub0", "file0.c"), "a", encoding="utf-8") as file:
        file.write("one more line\n")
    run("git", "commit", "-q", "-a", "-m", "One more", at=at)


def pushes() -> None:
    writer, reader = os.path.join(folder, "writer"), os.path.join(folder, "reader")
    run("git", "clone", "-q", url, writer)
    shutil.copytree(writer, reader)
    for _ in range(rounds):
        change(writer)
        # A save syncs its file, and would wait for what was written before.
        os.sync()
        timed("push", "git", "push", "-q", at=writer)
        timed("push of nothing", "git", "push", "-q", at=writer)
        timed("fetch", "git", "fetch", "-q", at=reader)
        timed("fetch of nothing", "git", "fetch", "-q", at=reader)
    run("git", "fsck", "--strict", at=reader)
    assert run("git", "rev-parse", "HEAD", at=writer) == run("git", "rev-parse", "origin/b0", at=reader)


def sizes() -> None:
    run("git", "clone", "-q", "--bare", url, "size.git")
    packs = {
        it: sum(
            os.path.getsize(os.path.join(folder, it, "objects/pack", name))
            for name in os.listdir(os.path.join(folder, it, "objects/pack"))
            if name.endswith(".pack")
        )
        / 1e6
        for it in ("left.git", "packed.git", "size.git")
    }
    print(
        f"pool file {os.path.getsize(pool) / 1e6:.0f} MB; packs: fast-import's {packs['left.git']:.0f} MB, packed anew"
        f" {packs['packed.git']:.0f} MB, a clone's by gitpool {packs['size.git']:.0f} MB"
    )


def main() -> None:
    prepare()
    clones()
    for kind in ("", " --bare"):
        ours, left, packed = (best[name + kind] for name in ("gitpool", "git", "packed"))
        print(
            f"git clone{kind}: gitpool {ours:.2f} s, of which the load {best['load']:.2f} s; git {left:.2f} s ({ours / left:.2f} times),"
            f" packed anew {packed:.2f} s ({ours / packed:.2f} times)",
            flush=True,
        )
    pushes()
    for name in ("push", "push of nothing", "fetch", "fetch of nothing"):
        print(f"{name}: {best[name]:.2f} s, beside the load {best[name] - best['load']:.2f} s")
    print(f"load {best['load']:.2f} s, load and save {best['load and save']:.2f} s")
    sizes()


try:
    main()
finally:
    shutil.rmtree(folder)
