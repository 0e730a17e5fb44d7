"""A Git repository beside what was imported of it: which refs have other names than in git, and which commits are signed."""
from __future__ import annotations

import os
import subprocess
from typing import Dict, FrozenSet, Iterator, List, NamedTuple, Optional

from gitpool import Service, Text
from gitpool_git import of_no_repository
from gitpool_terminal import shown

_PIECE = 1 << 20


class Renamed(NamedTuple):
    """How many refs of a repository were compared, and those that have other names in the tenant, or are not there."""

    compared: int
    refs: List[bytes]

    def words(self) -> str:
        """What a user is told of it."""
        return f"{len(self.refs)} of {self.compared} refs have other names than in git, such as {shown(self.refs[0], 1024)}"


class Original:
    """The repository at a path. No other repository above it is taken for it."""

    def __init__(self, path: bytes):
        above = os.path.dirname(os.path.realpath(path))
        self.environment = {**of_no_repository(), "GIT_CEILING_DIRECTORIES": os.fsdecode(above), "GIT_NO_REPLACE_OBJECTS": "1"}
        self.words = (b"git", b"-C", path)

    @classmethod
    def at(cls, path: bytes) -> "Optional[Original]":
        """The repository at a path, or None for a stream."""
        return cls(path) if os.path.isdir(path) else None

    def run(self, *words: bytes) -> bytes:
        """What a git command prints; nothing where it fails, as where the path is no repository."""
        return subprocess.run([*self.words, *words], env=self.environment, stdout=subprocess.PIPE, stderr=subprocess.DEVNULL).stdout

    def refs(self) -> Dict[bytes, str]:
        """The refs with the names of their objects, without those that only name other refs."""
        lines = self.run(b"for-each-ref", b"--format=%(objectname) %(refname) %(symref)").splitlines()
        fields = [line.split(b" ") for line in lines]
        return {ref: name.decode() for name, ref, target in fields if not target}

    def signed(self) -> FrozenSet[bytes]:
        """The commits that have a signature. Git before 2.50 exports them without it and without a word."""
        return frozenset(it[:40] for it in self._commits() if b"\ngpgsig" in it.split(b"\n\n", 1)[0])

    def _commits(self) -> Iterator[bytes]:
        """Each commit as it is stored, behind a line with its name."""
        words = [*self.words, b"rev-list", b"--all", b"--header"]
        with subprocess.Popen(words, env=self.environment, stdout=subprocess.PIPE, stderr=subprocess.DEVNULL) as process:
            assert process.stdout
            left = b""
            while True:
                piece = process.stdout.read(_PIECE)
                *whole, left = (left + piece).split(b"\0")
                yield from whole
                if not piece:
                    return


class Comparison:
    """The refs of a repository before its export, to be compared with those of the tenant after the import. A ref that another process moves
    meanwhile may have the name of before or of after."""

    def __init__(self, original: Original):
        self._original = original
        self._before = original.refs()

    def renamed(self, service: Service, tenant: Text) -> Renamed:
        """The refs that have other names in the tenant."""
        here = {it.name: it.target for it in service.refs(tenant)}
        after = self._original.refs()
        differ = [ref for ref, name in self._before.items() if here.get(ref) not in (name, after.get(ref, name))]
        return Renamed(len(self._before), differ)


__all__ = ["Comparison", "Original", "Renamed"]
