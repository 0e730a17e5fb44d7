"""Fetches objects of a tenant into a Git repository, as one pack.

The service tells which objects the wanted ones reach and those of the repository do not (Missing), and gives them as entries of
a pack (Entries), some at a time. They go straight into `git index-pack`, so that memory holds the list of objects, and a piece
of their entries.
"""
from __future__ import annotations

import hashlib
import os
import struct
import subprocess
from typing import Callable, Iterable, List, Optional, Set, Tuple

from gitpool import Listed, Listing, Service
from gitpool_git import GitError, Repository

Report = Callable[[str, int], None]

# How many commits are named as had ones, the newest first: a question has room for twice as many names.
_MOST_HAVES = 400_000


class Fetch:
    """One fetch. It is done by `run`.

    report is told how many objects there are; without it git is quiet too. is_near says that the service is of this machine. What
    it lists then has all that it refers to, for that is proved of the program; the names of the list and of the pack are compared.
    A clone from afar is looked through by git.
    """

    def __init__(self, service: Service, tenant: bytes, local: Repository, report: Optional[Report] = None, is_near: bool = True):
        self._service = service
        self._tenant = tenant
        self._local = local
        self._report = report
        self._is_near = is_near
        self._is_bare = not local.has_objects()

    @property
    def began_empty(self) -> bool:
        """Whether the repository had no object before, so that the pack has all that its objects refer to."""
        return self._is_bare

    def run(self, wanted: Iterable[bytes]) -> Optional[str]:
        """Fetches the objects of these names, in hexadecimal digits, and all that they refer to. Gives the path of the
        file that keeps the new pack from `git gc` until it is removed, or None where there is no new pack. Raises GitError
        where git refuses the pack, Fault where the tenant has no such object, and ServiceError."""
        wants = list(wanted)
        if not self._is_bare and self._local.is_shallow():
            listing = self._missing_of_shallow(wants)
        else:
            listing = self._service.missing(self._tenant, wants, [] if self._is_bare else self._haves())
        if self._report:
            self._report("Enumerating objects", len(listing))
        return self._store(listing) if len(listing) else None

    # What is missing

    def _haves(self) -> List[bytes]:
        """Objects that are here with all that they refer to: what refs name, if the tenant has it too, and the newest commits of
        what it has not."""
        tips = self._local.tips()
        answers = self._service.ask_many(self._tenant, (b"rev-parse " + it for it in tips))
        known = {it for it, answer in zip(tips, answers) if answer.status == 0}
        return [*sorted(known), *self._local.commits_of([it for it in tips if it not in known], sorted(known), _MOST_HAVES)]

    def _missing_of_shallow(self, wants: List[bytes]) -> Listing:
        """The same for a repository whose commits are not all here with their parents. New commits are walked up to those that are
        here; what their trees have and the trees here have not is missing."""
        listed, below = self._walked(wants, set(self._local.commits_of(self._local.tips(), [], _MOST_HAVES)))
        return Listing.of(listed) + self._service.missing(self._tenant, below, self._local.trees())

    def _walked(self, wants: List[bytes], here: Set[bytes]) -> Tuple[List[Listed], List[bytes]]:
        """The commits and tags that these reach, up to the commits that are here; and the trees and blobs that they name."""
        met: Set[bytes] = set()
        listed: List[Listed] = []
        below: List[bytes] = []
        wave = [it for it in dict.fromkeys(wants) if it not in here]
        while wave:
            met.update(wave)
            after: List[bytes] = []
            for name, (kind, contents) in zip(wave, self._service.objects(self._tenant, wave)):
                if kind in (b"tree", b"blob"):
                    below.append(name)
                    continue
                listed.append(Listed(bytes.fromhex(name.decode()), 1 if kind == b"commit" else 4, len(contents)))
                above, tree = _referred(kind, contents)
                after += above
                below += tree
            wave = [it for it in dict.fromkeys(after) if it not in here and it not in met]
        return listed, below

    # The pack

    def _store(self, listing: Listing) -> Optional[str]:
        """Gives git the pack. A small one beside others is stored object by object, as git does it. Gives the file that keeps
        another one."""
        is_small = not self._is_bare and len(listing) < self._unpack_limit()
        words = ["unpack-objects"] if is_small else ["index-pack", "--stdin", "--index-version=2", "--keep=gitpool fetch"]
        # (unpack-objects shows how far it is unless it is told not to, and index-pack if it is told to)
        if is_small != bool(self._report):
            words.append("-q" if is_small else "-v")
        if self._is_bare and not self._is_near:
            words.append("--check-self-contained-and-connected")
        words += self._strictness()
        process = self._sent(words, listing)
        # (git makes the index meanwhile)
        names = sorted(listing.names())
        said = self._said(words, process)
        if is_small:
            self._check_stored(names)
            return None
        return self._check_index(said.split()[-1].decode(), names)

    def _sent(self, words: List[str], listing: Listing) -> "subprocess.Popen[bytes]":
        """The git command that takes the pack, after all of it was sent."""
        process = self._local.start(*words)
        assert process.stdin and process.stdout
        try:
            self._write(listing, process.stdin.write)
            process.stdin.close()
        except BrokenPipeError:
            # What is left of the answer is not read, so nothing more can be asked.
            self._service.kill()
        except BaseException:
            process.kill()
            process.wait()
            raise
        return process

    def _write(self, listing: Listing, write: Callable[[bytes], object]) -> None:
        """Writes the pack of these objects: its head, their entries, and the digest of both."""
        head = struct.pack(">4sII", b"PACK", 2, len(listing))
        digest = hashlib.sha1(head)
        write(head)
        for piece in self._service.entries(self._tenant, listing):
            digest.update(piece)
            write(piece)
        write(digest.digest())

    @staticmethod
    def _said(words: List[str], process: "subprocess.Popen[bytes]") -> bytes:
        """What the command prints. Raises GitError where it does not end well."""
        assert process.stdout
        with process.stdout as out:
            said = out.read()
        if process.wait():
            raise GitError(f"git {words[0]} refused the pack")
        return said

    def _setting(self, kind: str, *names: str) -> Optional[bytes]:
        """The value of the first of these settings that is set."""
        for name in names:
            try:
                return self._local.run("config", f"--type={kind}", name).strip()
            except GitError:
                continue
        return None

    def _strictness(self) -> List[str]:
        return ["--strict"] if self._setting("bool", "fetch.fsckObjects", "transfer.fsckObjects") == b"true" else []

    def _unpack_limit(self) -> int:
        return int(self._setting("int", "fetch.unpackLimit", "transfer.unpackLimit") or 100)

    def _check_index(self, pack: str, names: List[bytes]) -> str:
        """Looks whether the index of the new pack has just these names, which are in their order."""
        stem = os.path.join(self._local.git_path("objects/pack"), f"pack-{pack}")
        with open(stem + ".idx", "rb") as index:
            index.seek(8 + 4 * 256)
            table = index.read(20 * len(names))
        if table != b"".join(names):
            raise GitError("the pack has other objects than those that were listed")
        return stem + ".keep"

    def _check_stored(self, names: List[bytes]) -> None:
        """The same where no index tells it: whether all of them are here."""
        if not all(self._local.check(name.hex().encode() for name in names)):
            raise GitError("the pack has other objects than those that were listed")


def _referred(kind: bytes, contents: bytes) -> Tuple[List[bytes], List[bytes]]:
    """What a commit or a tag refers to: commits, tags and others that are walked on, and the tree of a commit."""
    lines = contents.split(b"\n\n", 1)[0].split(b"\n")
    if kind == b"tag":
        return [lines[0][7:]], []
    return [it[7:] for it in lines if it.startswith(b"parent ")], [lines[0][5:]]
