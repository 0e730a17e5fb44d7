"""The place of a scene: an empty folder with a pool file, in which git and the clients are run, and what scenes ask of it."""
from __future__ import annotations

import os
import re
import resource
import shutil
import signal
import struct
import subprocess
import sys
import tempfile
import time
from typing import Callable, Dict, List, Optional, Sequence, Set, Tuple

CLIENTS = os.path.dirname(os.path.dirname(os.path.realpath(__file__)))
sys.path.insert(0, CLIENTS)

from gitpool import Kind, Service  # noqa: E402

Done = subprocess.CompletedProcess

SCENES: List[Tuple[str, Callable[["Room"], None]]] = []


class NotTried(Exception):
    """A scene needs what this machine does not have: it says what, and counts neither as passed nor as failed."""

_IDENTITY = {
    "GIT_AUTHOR_NAME": "Ada", "GIT_AUTHOR_EMAIL": "ada@example.org", "GIT_AUTHOR_DATE": "1700000000 +0100",
    "GIT_COMMITTER_NAME": "Bob", "GIT_COMMITTER_EMAIL": "bob@example.org", "GIT_COMMITTER_DATE": "1700000060 -0330",
}

_SETTINGS = b"""[init]
\tdefaultBranch = main
[advice]
\tdetachedHead = false
\tnestedTag = false
[protocol "file"]
\tallow = always
[gc]
\tauto = 0
[fetch]
\tfsckObjects = true
"""


def scene(function: Callable[["Room"], None]) -> Callable[["Room"], None]:
    """Marks a function as a scene, under its name."""
    SCENES.append((function.__name__, function))
    return function


class Room:
    """A folder, and the environment that git and the clients run in there."""

    # Whether git asks by git-remote-gitpool, whose questions can be recorded.
    has_helper = True

    def __init__(self, program: str):
        # In memory where that is to be had, for what is saved is synced to the disk.
        memory = "/dev/shm" if os.access("/dev/shm", os.W_OK) else None
        self.folder = tempfile.mkdtemp(prefix="gitpool-scene-", dir=memory)
        self.pool = os.path.join(self.folder, "all.pool")
        self.program = program
        home = os.path.join(self.folder, "home")
        os.mkdir(home)
        with open(os.path.join(home, ".gitconfig"), "wb") as file:
            file.write(_SETTINGS)
        kept = {name: value for name, value in os.environ.items() if not name.startswith("GIT")}
        self.environment = dict(kept, HOME=home, GITPOOL=program, GIT_CONFIG_NOSYSTEM="1", LC_ALL="C", GIT_TERMINAL_PROMPT="0",
                                TMPDIR=self.folder, PATH=CLIENTS + os.pathsep + os.environ["PATH"], **_IDENTITY)

    def close(self) -> None:
        """Removes the folder."""
        shutil.rmtree(self.folder, ignore_errors=True)

    def path(self, *parts: str) -> str:
        """A path in the folder."""
        return os.path.join(self.folder, *parts)

    def url(self, tenant: str = "acme/site", pool: Optional[str] = None) -> str:
        """The URL of a tenant."""
        return f"gitpool::{pool or self.pool}#{tenant}"

    # Commands

    def run(self, words: Sequence[str], at: str = "", data: bytes = b"", **more: str) -> "Done[bytes]":
        """Runs a command in a folder, with more in its environment."""
        return subprocess.run(list(words), cwd=self.path(at), input=data, capture_output=True, env=dict(self.environment, **more))

    def git(self, at: str, *words: str, data: bytes = b"", **more: str) -> bytes:
        """What a git command prints that has to end in 0."""
        done = self.run(["git", *words], at, data, **more)
        assert done.returncode == 0, f"git {' '.join(words)} ended in {done.returncode}: {text(done.stderr)}"
        return done.stdout

    def fails(self, at: str, *words: str, says: str, **more: str) -> str:
        """What a git command says that must not end in 0, in which a text has to stand."""
        done = self.run(["git", *words], at, b"", **more)
        said = text(done.stderr)
        assert done.returncode != 0, f"git {' '.join(words)} ended in 0: {said}"
        assert says in said, f"git {' '.join(words)} says {said!r}, and not {says!r}"
        assert "Traceback" not in said, said
        return said

    def client(self, name: str, *words: str, data: bytes = b"", status: int = 0) -> "Done[bytes]":
        """Runs one of the clients, which has to end with a status."""
        done = self.run([name, *words], "", data)
        assert done.returncode == status, f"{name} {' '.join(words)} ended in {done.returncode}: {text(done.stderr)}"
        assert b"Traceback" not in done.stderr, text(done.stderr)
        return done

    def limited(self, words: Sequence[str], data: bytes, size: int) -> "Done[bytes]":
        """Runs a command that can write no file longer than that, and is told so instead of being ended."""
        def limit() -> None:
            signal.signal(signal.SIGXFSZ, signal.SIG_IGN)
            resource.setrlimit(resource.RLIMIT_FSIZE, (size, size))

        return subprocess.run(list(words), cwd=self.folder, input=data, capture_output=True, env=self.environment, preexec_fn=limit)

    # Repositories

    def init(self, name: str, *words: str) -> str:
        """A new repository."""
        self.git("", "init", "-q", *words, name)
        return name

    def imported(self, name: str, stream: bytes, *words: str) -> str:
        """A new bare repository that has what a stream says."""
        self.init(name, "--bare", *words)
        self.git(name, "fast-import", "--quiet", "--force", data=stream)
        return name

    def write(self, at: str, files: Dict[str, str]) -> None:
        """Writes files into a worktree."""
        for path, contents in files.items():
            os.makedirs(os.path.dirname(self.path(at, path)), exist_ok=True)
            with open(self.path(at, path), "w", encoding="utf-8") as file:
                file.write(contents)

    def commit(self, at: str, message: str = "Change", files: Optional[Dict[str, str]] = None, *words: str) -> str:
        """Commits files in a worktree, and gives the name of the commit."""
        self.write(at, files or {})
        self.git(at, "add", "-A")
        self.git(at, "commit", "-q", "--allow-empty", "-m", message, *words)
        return self.name(at, "HEAD")

    def site(self, name: str = "site") -> str:
        """A worktree with two commits and a tag of each kind, whose remote `pool` is the tenant."""
        self.init(name)
        self.commit(name, "A page", {"index.html": "Hello\n"})
        self.commit(name, "A style", {"css/a.css": "a{}\n", "index.html": "Hello there\n"})
        self.git(name, "tag", "light")
        self.git(name, "tag", "-a", "-m", "First", "v1")
        self.git(name, "remote", "add", "pool", self.url())
        return name

    def pushed(self, name: str = "site") -> str:
        """The same, pushed."""
        self.site(name)
        self.git(name, "push", "-q", "pool", "main", "light", "v1")
        return name

    def name(self, at: str, expression: str) -> str:
        """The name of the object that an expression names."""
        return self.git(at, "rev-parse", "--verify", expression).decode().strip()

    def refs(self, at: str, *patterns: str) -> Dict[str, str]:
        """The refs of a repository, by their names."""
        lines = self.git(at, "for-each-ref", "--format=%(refname) %(objectname)", *patterns).decode(errors="surrogateescape")
        return dict(line.rsplit(" ", 1) for line in lines.splitlines())

    def objects(self, at: str, *tips: str) -> Set[bytes]:
        """The names of all objects that the tips reach, or all refs."""
        listed = self.git(at, "rev-list", "--objects", "--no-object-names", *(tips or ["--all"]))
        return set(listed.split())

    # The tenant

    def tenant_refs(self, tenant: str = "acme/site") -> Dict[str, str]:
        """The refs of a tenant as the program tells them."""
        with Service(self.pool, self.program, read_only=True) as service:
            return {os.fsdecode(ref.name): ref.target for ref in service.refs(tenant)}

    def tenant_head(self, tenant: str = "acme/site") -> str:
        """What the HEAD of a tenant names."""
        with Service(self.pool, self.program, read_only=True) as service:
            return os.fsdecode(service.head(tenant))

    def pool_bytes(self) -> bytes:
        """The bytes of the pool file."""
        with open(self.pool, "rb") as file:
            return file.read()

    def same(self, at: str, tenant: str = "acme/site", refs: Optional[Dict[str, str]] = None) -> str:
        """Asks that a repository and a tenant have the same: its refs (or those given) and all objects that they reach, by
        name and contents; and that a mirror of the tenant has that and nothing else, and git fsck nothing to say of either.
        Gives the mirror."""
        mine = self.refs(at, "refs/heads", "refs/tags") if refs is None else refs
        theirs = self.tenant_refs(tenant)
        assert theirs == mine, f"the tenant has the refs {theirs}, and the repository {mine}"
        mirror = self.path(f"mirror-{time.monotonic_ns()}")
        self.git("", "clone", "-q", "--mirror", self.url(tenant), mirror)
        for folder in (at, mirror):
            self.is_sound(folder)
        assert self.refs(mirror) == mine, f"the mirror has the refs {self.refs(mirror)}, and the repository {mine}"
        names = self.objects(at, *mine.values()) if mine else set()
        told = self.git(mirror, "cat-file", "--batch-all-objects", "--batch-check=%(objectname)")
        assert set(told.split()) == names, "the mirror has other objects than the repository"
        with Service(self.pool, self.program, read_only=True) as service:
            for _ in service.objects(tenant, sorted(names)):
                pass
        return mirror

    def is_sound(self, at: str) -> None:
        """Asks that git fsck has nothing to say of a repository, but of objects that no ref reaches."""
        done = self.run(["git", "fsck", "--strict", "--full"], at)
        said = [it for it in (done.stdout + done.stderr).splitlines() if not it.startswith((b"dangling", b"notice", b"unreachable"))]
        assert done.returncode == 0 and not said, f"git fsck of {at} ended in {done.returncode}: {said[:5]}"

    def helper(self, at: str, asked: bytes, tenant: str = "acme/site") -> "Done[bytes]":
        """Runs the helper as git does, and answers what it says to these lines."""
        return self.run(["git-remote-gitpool", "pool", f"{self.pool}#{tenant}"], at, asked,
                        GIT_DIR=self.git(at, "rev-parse", "--absolute-git-dir").decode().strip())

    def recording(self) -> str:
        """The path of a program that records the frames it is sent before the program gets them."""
        path = self.path("recording")
        if not os.path.exists(path):
            with open(path, "w", encoding="utf-8") as file:
                file.write(f'#!/bin/sh\ntee -a "{self.path("frames")}" | "{self.program}" "$@"\n')
            os.chmod(path, 0o755)
        with open(self.path("frames"), "wb"):
            pass
        return path

    def recorded(self) -> List[Tuple[int, bytes]]:
        """The kind and the body of each frame that was recorded."""
        with open(self.path("frames"), "rb") as file:
            data = file.read()
        frames, at = [], 0
        while at < len(data):
            kind, length = struct.unpack_from(">BH", data, at)
            (size,) = struct.unpack_from(">I", data, at + 3 + length)
            at += 7 + length + size
            frames.append((kind, data[at - size : at]))
        return frames


def text(said: bytes) -> str:
    """Bytes that were said, for a message."""
    return said.decode(errors="backslashreplace").strip()


def commit_text(message: str, *, branch: str = "refs/heads/main", ident: str = "A <a@b> 1700000000 +0000", more: str = "",
                changes: str = "", starts: str = "") -> str:
    """A commit of a stream."""
    return (f"commit {branch}\nauthor {ident}\ncommitter {ident}\n{more}data {len(message.encode())}\n{message}\n{starts}{changes}\n")


def wait_for(condition: Callable[[], bool], seconds: float = 120) -> None:
    """Waits until a condition holds. Raises AssertionError where it does not in time."""
    until = time.monotonic() + seconds
    while not condition():
        assert time.monotonic() < until, "what was waited for did not come"
        time.sleep(0.005)


def matches(pattern: str, said: str) -> bool:
    """Whether a pattern stands somewhere in a text."""
    return re.search(pattern, said) is not None


__all__ = ["Done", "Kind", "Room", "SCENES", "Service", "commit_text", "matches", "os", "scene", "signal", "subprocess", "text", "wait_for"]
