"""Bare repositories of git: what its commands make of the same streams, reach, take and find sound."""
from __future__ import annotations

import os
import shutil
import subprocess
from typing import Collection, Dict, Iterable, List, Set

from hosts import Differs

CONFIG = b"""[core]
\trepositoryformatversion = 0
\tfilemode = true
\tbare = true
\tcompression = 0
[gc]
\tauto = 0
[pack]
\tthreads = 1
"""
FOLDERS = ("objects/info", "objects/pack", "refs/heads", "refs/tags")


class Bare:
    """A bare repository in a folder of its own."""

    def __init__(self, room: str, name: str):
        self.folder = os.path.join(room, name)
        self._environment = {"PATH": os.environ["PATH"], "GIT_CONFIG_NOSYSTEM": "1", "HOME": room, "LC_ALL": "C"}
        for it in FOLDERS:
            os.makedirs(os.path.join(self.folder, it))
        self._write("HEAD", b"ref: refs/heads/main\n")
        self._write("config", CONFIG)

    def _write(self, name: str, text: bytes) -> None:
        with open(os.path.join(self.folder, name), "wb") as out:
            out.write(text)

    def run(self, *words: str, given: bytes = b"") -> bytes:
        """What a command of git prints. Raises Differs where it does not end well."""
        done = subprocess.run(["git", *words], cwd=self.folder, input=given, capture_output=True, env=self._environment, check=False)
        if done.returncode:
            raise Differs(f"git {' '.join(words)} ended with {done.returncode}: {done.stderr.decode(errors='replace').strip()[:600]}")
        return done.stdout

    def import_stream(self, stream: bytes) -> None:
        """Carries out a stream."""
        self.run("fast-import", "--quiet", "--force", given=stream)

    def refs(self) -> Dict[bytes, bytes]:
        """The names of what refs are of, by refs."""
        lines = self.run("for-each-ref", "--format=%(refname) %(objectname)").splitlines()
        return {ref: target for ref, target in (it.split(b" ") for it in lines)}

    def objects(self) -> Set[bytes]:
        """The names of all objects."""
        return set(self.run("cat-file", "--batch-all-objects", "--batch-check=%(objectname)", "--unordered").split())

    def reached(self, names: Iterable[bytes], hidden: Collection[bytes] = ()) -> Set[bytes]:
        """What `git rev-list --objects` lists for these names, without what these hidden ones hide."""
        asked: List[bytes] = [*names, *(b"^" + it for it in hidden)]
        told = self.run("rev-list", "--objects", "--stdin", given=b"".join(it + b"\n" for it in asked)) if asked else b""
        return {line.split(b" ")[0] for line in told.splitlines()}

    def take(self, pack: bytes, *words: str) -> None:
        """Gives a pack to a command that reads one."""
        self.run(*words, given=pack)

    def point(self, names: Collection[bytes]) -> None:
        """Sets the refs of the repository: one for each of these names."""
        lines = [b"%b refs/asked/%b\n" % (it, it) for it in sorted(set(names))]
        self._write("packed-refs", b"# pack-refs with: sorted\n" + b"".join(lines))

    def be_sound(self) -> None:
        """Raises Differs where `git fsck` says something, but of objects that no ref reaches."""
        told = self.run("fsck", "--strict", "--full", "--no-progress", "--no-dangling")
        said = [it for it in told.splitlines() if not it.startswith(b"notice")]
        if said:
            raise Differs(f"git fsck says {said[:5]}")

    def remove(self) -> None:
        """Removes the folder."""
        shutil.rmtree(self.folder, ignore_errors=True)
