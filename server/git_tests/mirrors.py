"""Keeps a tenant of the server beside each repository that git's tests serve: the tests make and change repositories on the disk, and
the server's tenants are what git is served from.

GITPOOLD_TESTS names the folder of a run: `key` and `known` for ssh, `ports` with the ports of http and ssh, `socket` of the server,
`log` with a line for each use of the server, `case` with the number of the test that is at work, and `seen/` with what each tenant has.
"""
from __future__ import annotations

import fcntl
import hashlib
import os
import socket
import struct
import subprocess
from typing import Dict, IO, List, Optional, Tuple

FOLDER = os.environ.get("GITPOOLD_TESTS", "")
PASSWORD = "wonderland"
ZEROS = "0" * 40


class NotKept(Exception):
    """The tenant cannot have what the repository has; the message says why."""


def git_folder(path: str) -> Optional[str]:
    """The repository that git finds for a path of an address."""
    for end in ("/.git", "", ".git/.git", ".git"):
        found = path + end
        if os.path.isfile(found) and end == "/.git":
            with open(found, encoding="utf-8") as file:
                words = file.read().strip().partition("gitdir: ")[2]
            found = os.path.join(path, words)
        if os.path.isfile(os.path.join(found, "HEAD")):
            return os.path.realpath(found)
    return None


def note(what: str, path: str, result: str) -> None:
    """Writes a line to the log: the test, the service, the repository, how it went."""
    with open(os.path.join(FOLDER, "case"), encoding="ascii") as file:
        case = file.read().strip()
    with open(os.path.join(FOLDER, "log"), "a", encoding="utf-8") as log:
        log.write(f"{case}\t{what}\t{path}\t{' '.join(result.split())}\n")


def ports() -> Tuple[int, int]:
    """The ports of the server: of http and of ssh."""
    with open(os.path.join(FOLDER, "ports"), encoding="ascii") as file:
        http, ssh = file.read().split()
    return int(http), int(ssh)


def ssh_words() -> List[str]:
    """The command that reaches the server over ssh, over one connection for all of a run."""
    return ["ssh", "-F", "none", "-i", os.path.join(FOLDER, "key"), "-o", "IdentitiesOnly=yes", "-o", "StrictHostKeyChecking=no",
            "-o", f"UserKnownHostsFile={FOLDER}/known", "-o", "LogLevel=ERROR", "-o", "ControlMaster=auto", "-o", f"ControlPath={FOLDER}/mux",
            "-o", "ControlPersist=20", "-o", "SendEnv=GIT_PROTOCOL", "-p", str(ports()[1])]


def own_git(at: str, *words: str) -> "subprocess.CompletedProcess[bytes]":
    """Runs git in a repository without what a test has set."""
    environment = {"PATH": "/usr/bin:/bin", "HOME": FOLDER, "LC_ALL": "C", "GIT_CONFIG_NOSYSTEM": "1", "GIT_SSH_COMMAND": " ".join(ssh_words()),
                   "GIT_COMMITTER_NAME": "M", "GIT_COMMITTER_EMAIL": "m@x", "GIT_ADVICE": "0"}
    return subprocess.run(["/usr/bin/git", "-c", "safe.directory=*", "--git-dir", at, *words], capture_output=True, env=environment, cwd=FOLDER,
                          stdin=subprocess.DEVNULL)


class Mirror:
    """A tenant beside a repository. While it is open, no other process changes the one by the other."""

    def __init__(self, at: str):
        self.at = at
        self.tenant = "r" + hashlib.sha1(at.encode()).hexdigest()[:20]
        self._seen = os.path.join(FOLDER, "seen", self.tenant)
        self._file: Optional[IO[str]] = None

    def __enter__(self) -> "Mirror":
        self._file = open(self._seen, "a+", encoding="utf-8")
        fcntl.flock(self._file, fcntl.LOCK_EX)
        return self

    def __exit__(self, *_: object) -> None:
        assert self._file
        self._file.close()

    @property
    def url(self) -> str:
        """The tenant's address."""
        return f"ssh://alice@127.0.0.1:{ports()[1]}/{self.tenant}.git"

    def state(self) -> str:
        """What the repository has: its HEAD and its refs."""
        with open(os.path.join(self.at, "HEAD"), encoding="utf-8") as file:
            head = file.read()
        return head + own_git(self.at, "for-each-ref", "--format=%(refname) %(objectname)").stdout.decode(errors="surrogateescape")

    def bring(self) -> None:
        """Brings the tenant to what the repository has."""
        assert self._file
        if os.path.exists(os.path.join(self.at, "shallow")):
            raise NotKept("the repository is shallow, and a tenant is not")
        now = self.state()
        self._file.seek(0)
        before = self._file.read()
        if before == now:
            return
        # Its branch would stay.
        self._set_head("ref: refs/heads/of-no-mirror")
        # (git fails where neither side has a ref)
        if len(now.splitlines()) > 1 or len(before.splitlines()) > 1:
            self._push()
        self._set_head(now.splitlines()[0])
        self._set_one_level(one_level(before), one_level(now))
        self._remember(now)

    def _push(self) -> None:
        words = ["-c", "push.followTags=false", "-c", "push.default=matching", "push", "--no-verify", "--mirror", self.url]
        done = own_git(self.at, *words)
        if done.returncode:
            raise NotKept(" / ".join(it for it in done.stderr.decode(errors="replace").splitlines() if "error" in it or "reject" in it)[:300])

    def _set_head(self, head: str) -> None:
        if head.startswith("ref: "):
            stream = f"option gitpool head {head[5:]}\n".encode()
            answers = frames(self.tenant, [(1, b""), (2, stream), (3, b"")])
            assert [it[0] for it in answers] == [0, 0, 0], answers

    def _set_one_level(self, before: Dict[str, str], now: Dict[str, str]) -> None:
        """Sets the refs of one level, which git pushes nowhere. One is left out if no ref that is pushed has its object, as refs/stash."""
        for ref, name in {**dict.fromkeys(before, ZEROS), **now}.items():
            frames(self.tenant, [(1, b""), (2, f"reset {ref}\nfrom {name}\n\n".encode()), (3, b"")])

    def _remember(self, now: str) -> None:
        assert self._file
        self._file.truncate(0)
        self._file.write(now)
        self._file.flush()

    def take(self) -> None:
        """Brings the repository to what the tenant has after a push."""
        before = refs_of(own_git(self.at, "for-each-ref", "--format=%(objectname)\t%(refname)").stdout)
        before = {ref: name for ref, name in before.items() if not is_one_level(ref)}
        after = refs_of(own_git(self.at, "ls-remote", "--refs", self.url).stdout)
        if before == after:
            return
        done = own_git(self.at, "-c", "fetch.recurseSubmodules=no", "fetch", "--quiet", "--no-tags", "--no-write-fetch-head", "--update-head-ok",
                       "--force", "--prune", self.url, "+refs/*:refs/*")
        for ref in set(before) - set(after):
            own_git(self.at, "update-ref", "-d", ref)
        if done.returncode:
            raise NotKept("the repository cannot take what was pushed: " + done.stderr.decode(errors="replace")[:200])
        now = self.state()
        # The HEAD of a tenant moves to the first branch that comes, and that of the repository stays.
        self._set_head(now.splitlines()[0])
        self._remember(now)


def is_one_level(ref: str) -> bool:
    """Whether a ref is such as refs/stash, which git neither pushes nor lists for a push."""
    return ref.count("/") == 1


def one_level(state: str) -> Dict[str, str]:
    """The refs of one level in what a repository has."""
    pairs = (line.rsplit(" ", 1) for line in state.splitlines()[1:])
    return {ref: name for ref, name in pairs if is_one_level(ref)}


def refs_of(listed: bytes) -> Dict[str, str]:
    """Refs by their names."""
    pairs = (line.split("\t") for line in listed.decode(errors="surrogateescape").splitlines())
    return {ref: name for name, ref in pairs}


def frames(tenant: str, steps: List[Tuple[int, bytes]]) -> List[Tuple[int, int, bytes]]:
    """Sends steps of a tenant to the server's socket, and gives the answers: status, value, reply."""
    found = []
    with socket.socket(socket.AF_UNIX) as peer:
        peer.connect(os.path.join(FOLDER, "socket"))
        with peer.makefile("rwb") as stream:
            for kind, body in steps:
                stream.write(struct.pack(">BH", kind, len(tenant)) + tenant.encode() + struct.pack(">I", len(body)) + body)
                stream.flush()
                status, value, size = struct.unpack(">BQQ", stream.read(17))
                found.append((status, value, stream.read(size)))
    return found
