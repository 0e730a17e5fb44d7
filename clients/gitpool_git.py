"""A Git repository on this machine, asked through git's own plumbing.

Nothing here changes a repository but what its name says. Replace refs and grafts are not followed, so that each name stands for the
object of that name.
"""
from __future__ import annotations

import os
import subprocess
import tempfile
from contextlib import contextmanager
from typing import IO, Dict, Iterable, Iterator, List, Optional, Sequence, Tuple

from gitpool_pipes import room_of

# What the environment says of a repository, as in a hook of git. Another repository has none of it.
_OF_A_REPOSITORY = ("GIT_DIR", "GIT_WORK_TREE", "GIT_INDEX_FILE", "GIT_OBJECT_DIRECTORY", "GIT_ALTERNATE_OBJECT_DIRECTORIES",
                    "GIT_COMMON_DIR", "GIT_NAMESPACE", "GIT_PREFIX", "GIT_SHALLOW_FILE", "GIT_REPLACE_REF_BASE", "GIT_QUARANTINE_PATH")


def of_no_repository() -> Dict[str, str]:
    """The environment without what it says of a repository: for git commands of another one."""
    return {name: value for name, value in os.environ.items() if name not in _OF_A_REPOSITORY}


class GitError(Exception):
    """A git command failed. The text is what it said."""


class Repository:
    """The repository that git's environment names, or the one of a folder."""

    def __init__(self, folder: Optional[str] = None):
        # (git says of GIT_GRAFT_FILE that nobody should have one)
        self._words = ["git", "-c", "advice.graftFileDeprecated=false"] + (["-C", folder] if folder is not None else [])
        self._environment = dict(os.environ, GIT_NO_REPLACE_OBJECTS="1", GIT_GRAFT_FILE=os.devnull, LC_ALL="C")
        self._batches: Dict[str, "subprocess.Popen[bytes]"] = {}

    def run(self, *words: str, data: bytes = b"") -> bytes:
        """What a git command prints. Raises GitError where it does not end in 0."""
        done = subprocess.run([*self._words, *words], input=data, capture_output=True, env=self._environment)
        if done.returncode:
            said = done.stderr.decode(errors="replace").strip()
            raise GitError(said or f"git {words[0]} ended with status {done.returncode}")
        return done.stdout

    def start(self, *words: str, stdin: "int | IO[bytes] | None" = subprocess.PIPE,
              stdout: "int | IO[bytes] | None" = subprocess.PIPE) -> "subprocess.Popen[bytes]":
        """A git command at work."""
        return subprocess.Popen([*self._words, *words], stdin=stdin, stdout=stdout, env=self._environment)

    def lines(self, *words: str, data: bytes = b"") -> List[bytes]:
        """The lines that a git command prints."""
        return self.run(*words, data=data).splitlines()

    @contextmanager
    def output(self, words: Sequence[str], data: Iterable[bytes]) -> Iterator[IO[bytes]]:
        """The output of a git command that reads all of data first. Raises GitError where it ends badly."""
        with tempfile.TemporaryFile() as given:
            given.writelines(data)
            given.seek(0)
            process = self.start(*words, stdin=given)
            assert process.stdout
            with process.stdout:
                yield process.stdout
            if process.wait():
                raise GitError(f"git {words[0]} ended with status {process.returncode}")

    def object_format(self) -> str:
        """sha1 or sha256."""
        return self.run("rev-parse", "--show-object-format").decode().strip()

    def git_path(self, name: str) -> str:
        """The absolute path of a file of the repository's own."""
        return os.path.abspath(self.run("rev-parse", "--path-format=absolute", "--git-path", name).decode().rstrip("\n"))

    def has_objects(self) -> bool:
        """Whether there is any object here, loose, packed or borrowed."""
        told = self.lines("count-objects", "-v")
        return b"count: 0" not in told or b"in-pack: 0" not in told or any(line.startswith(b"alternate:") for line in told)

    def is_shallow(self) -> bool:
        """Whether commits are here without their parents."""
        return self.run("rev-parse", "--is-shallow-repository").strip() == b"true"

    def tips(self) -> List[bytes]:
        """The names, in hexadecimal digits, of what is here of the objects that refs and HEAD hold, and of the commits that refs of
        repositories hold from which this one borrows."""
        commits = self.lines("rev-list", "--no-walk", "--ignore-missing", "--all", "--alternate-refs", *self._head())
        found = list(dict.fromkeys(self.lines("for-each-ref", "--format=%(objectname)") + commits))
        return [it for it, is_here in zip(found, self.check(found)) if is_here]

    def _head(self) -> List[str]:
        """What HEAD holds, if that is a commit."""
        try:
            return [self.run("rev-parse", "--verify", "-q", "HEAD^{commit}").decode().strip()]
        except GitError:
            return []

    def commits_of(self, tips: Sequence[bytes], hidden: Sequence[bytes], most: int) -> List[bytes]:
        """The names, in hexadecimal digits, of the commits that some objects reach and hidden ones do not: the newest ones, at most so
        many."""
        asked = b"".join([it + b"\n" for it in tips] + [b"^" + it + b"\n" for it in hidden])
        return self.lines("rev-list", "--ignore-missing", f"--max-count={most}", "--stdin", data=asked) if tips else []

    def trees(self) -> List[bytes]:
        """The names of the trees of all commits that a ref or HEAD reaches."""
        told = self.lines("rev-list", "--all", *self._head(), "--format=%T")
        return list(dict.fromkeys(it for it in told if not it.startswith(b"commit ")))

    def check(self, names: Iterable[bytes]) -> Iterator[Optional[Tuple[bytes, int]]]:
        """The kind and the size of each object, in turn, or None of one that is not there."""
        for line in self._ask("--batch-check", names):
            words = line.split()
            yield (words[1], int(words[2])) if len(words) == 3 else None

    def resolve(self, expressions: Iterable[bytes]) -> Iterator[Tuple[bytes, bytes]]:
        """The name and the kind of what each ref or name stands for, in turn. Raises GitError where one stands for nothing."""
        for line in self._ask("--batch-check", expressions):
            words = line.split()
            if len(words) != 3:
                raise GitError(f"{line.decode(errors='replace').strip()} in the local repository")
            yield words[0], words[1]

    def contents(self, names: Iterable[bytes]) -> Iterator[Tuple[bytes, bytes, bytes]]:
        """The name, the kind and the contents of each object, in turn. Raises GitError where one is missing."""
        out = self._batch("--batch").stdout
        assert out
        for line in self._ask("--batch", names):
            words = line.split()
            if len(words) != 3:
                raise GitError(f"{line.decode(errors='replace').strip()} in the local repository")
            body = out.read(int(words[2]) + 1)
            yield words[0], words[1], body[:-1]

    def _ask(self, mode: str, names: Iterable[bytes]) -> Iterator[bytes]:
        batch = self._batch(mode)
        assert batch.stdin and batch.stdout
        room, ahead = room_of(batch.stdin), 0
        waiting: List[bytes] = []
        for name in names:
            if ahead + len(name) >= room and waiting:
                yield from self._answers(batch, waiting)
                ahead, waiting = 0, []
            waiting.append(name)
            ahead += len(name) + 1
        yield from self._answers(batch, waiting)

    @staticmethod
    def _answers(batch: "subprocess.Popen[bytes]", names: List[bytes]) -> Iterator[bytes]:
        assert batch.stdin and batch.stdout
        if names:
            batch.stdin.write(b"\n".join(names) + b"\n")
            batch.stdin.flush()
        for _ in names:
            line = batch.stdout.readline()
            if not line:
                raise GitError("git cat-file ended early")
            yield line

    def _batch(self, mode: str) -> "subprocess.Popen[bytes]":
        if mode not in self._batches:
            self._batches[mode] = self.start("cat-file", mode)
        return self._batches[mode]

    def close(self) -> None:
        """Ends the commands that wait for questions."""
        for batch in self._batches.values():
            assert batch.stdin and batch.stdout
            batch.stdin.close()
            batch.stdout.close()
            batch.wait()
        self._batches.clear()
