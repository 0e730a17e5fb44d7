"""The place of a scene: an empty folder with a running server, in which git runs, and what scenes ask of both."""
from __future__ import annotations

import os
import re
import shutil
import signal
import socket
import subprocess
import sys
import time
from typing import Callable, Dict, List, Optional, Tuple

TOP = os.path.dirname(os.path.dirname(os.path.dirname(os.path.realpath(__file__))))
sys.path.insert(0, os.path.join(TOP, "clients"))

from scenes.room import Room, text  # noqa: E402

PASSWORDS = {"alice": "wonderland", "bob": "builder-bob"}
GRANTS = (("alice", "*", "rw"), ("bob", "acme/site", "r"), ("*", "open/*", "r"))


class ServerRoom(Room):
    """A room whose tenants are asked and changed through a server, over http or ssh."""

    has_helper = False

    def __init__(self, program: str, server: str, scheme: str = "http", version: int = 2):
        super().__init__(program)
        self.scheme, self.version, self.server_program = scheme, version, server
        self.served = self.path("served")
        self.pool = os.path.join(self.served, "pool")
        self.log = self.path("server.log")
        self.options: List[str] = []
        self.set_up()
        self.process: "subprocess.Popen[bytes]"
        self.http, self.ssh = ("", 0), ("", 0)
        self.start()
        self.environment["GIT_SSH_COMMAND"] = (f"ssh -F none -i {self.path('key')} -o IdentitiesOnly=yes -o StrictHostKeyChecking=no"
                                               " -o UserKnownHostsFile=/dev/null -o LogLevel=ERROR")
        with open(self.path("home", ".gitconfig"), "ab") as file:
            file.write(b"[protocol]\n\tversion = %d\n" % version)

    def set_up(self) -> None:
        """Makes the folder of the server, with users and what they may do."""
        self.serverd("init", self.served, "--program", self.program)
        for user, password in PASSWORDS.items():
            self.serverd("user", self.served, user, data=password.encode() + b"\n")
        subprocess.run(["ssh-keygen", "-q", "-t", "ed25519", "-N", "", "-f", self.path("key")], check=True)
        self.serverd("user", self.served, "alice", "--key", self.path("key.pub"))
        for user, pattern, right in GRANTS:
            self.serverd("grant", self.served, user, pattern, right)

    def serverd(self, *words: str, data: bytes = b"") -> bytes:
        """What a command of the server's program prints that has to end in 0."""
        done = self.run([self.server_program, *words], "", data)
        assert done.returncode == 0, f"gitpoold {' '.join(words)} ended in {done.returncode}: {text(done.stderr)}"
        return done.stdout

    def start(self) -> None:
        """Starts the server, and waits until it serves."""
        words = [self.server_program, "serve", self.served, "--http", "127.0.0.1:0", "--ssh", "127.0.0.1:0", "--program", self.program,
                 *self.options]
        before = os.path.getsize(self.log) if os.path.exists(self.log) else 0
        with open(self.log, "ab") as log:
            self.process = subprocess.Popen(words, stderr=log, stdout=log, env=self.environment, start_new_session=True)
        until = time.monotonic() + 300
        while True:
            found = self._addresses(before)
            if found:
                self.http, self.ssh = found
                return
            assert self.process.poll() is None and time.monotonic() < until, self.logged()
            time.sleep(0.01)

    def _addresses(self, before: int) -> Optional[Tuple[Tuple[str, int], Tuple[str, int]]]:
        told = self.logged()[before:]
        found = {name: (host, int(port)) for name, host, port in re.findall(r"serving (http|ssh) on ([0-9.]+):([0-9]+)", told)}
        return (found["http"], found["ssh"]) if len(found) == 2 else None

    def logged(self) -> str:
        """What the server has logged."""
        with open(self.log, "rb") as file:
            return file.read().decode(errors="backslashreplace")

    def stop(self) -> int:
        """Ends the server as an operator would, and gives its status."""
        self.process.send_signal(signal.SIGTERM)
        return self.process.wait(300)

    def close(self) -> None:
        """Ends the server and removes the folder."""
        if self.process.poll() is None:
            self.process.kill()
            self.process.wait()
        shutil.rmtree(self.folder, ignore_errors=True)

    def memory(self) -> int:
        """The most memory that the server has had so far, in bytes, without the child."""
        with open(f"/proc/{self.process.pid}/status", encoding="ascii") as file:
            return int(re.findall(r"VmHWM:\s+([0-9]+) kB", file.read())[0]) << 10

    # URLs

    def url(self, tenant: str = "acme/site", pool: Optional[str] = None, user: str = "alice") -> str:
        """The URL of a tenant."""
        assert pool is None
        if self.scheme == "ssh":
            return f"ssh://{user}@{self.ssh[0]}:{self.ssh[1]}/{tenant}.git"
        return self.http_url(f"/{tenant}.git", user)

    def http_url(self, path: str, user: str = "alice") -> str:
        """A URL of a path, with the password of a user."""
        who = f"{user}:{PASSWORDS[user]}@" if user else ""
        return f"http://{who}{self.http[0]}:{self.http[1]}{path}"

    # The tenant

    def tenant_refs(self, tenant: str = "acme/site") -> Dict[str, str]:
        """The refs of a tenant as git lists them."""
        lines = os.fsdecode(self.git("", "ls-remote", self.url(tenant))).splitlines()
        pairs = (line.split("\t") for line in lines)
        return {ref: name for name, ref in pairs if ref.startswith("refs/") and not ref.endswith("^{}")}

    def tenant_head(self, tenant: str = "acme/site") -> str:
        """What the HEAD of a tenant names."""
        told = self.git("", "-c", "protocol.version=2", "ls-remote", "--symref", self.url(tenant), "HEAD").decode()
        found = re.match(r"ref: (\S+)\tHEAD", told)
        return found[1] if found else ""

    def pool_bytes(self) -> bytes:
        """What a scene compares to see that nothing changed."""
        return repr(sorted(self.tenant_refs().items())).encode()

    def same(self, at: str, tenant: str = "acme/site", refs: Optional[Dict[str, str]] = None) -> str:
        """Asks that a repository and a tenant have the same: its refs (or those given) and all objects that they reach; and that a
        mirror of the tenant has that and nothing else, and git fsck nothing to say of either. Gives the mirror."""
        mine = self.refs(at, "refs/heads", "refs/tags") if refs is None else refs
        assert self.tenant_refs(tenant) == mine, f"the tenant has the refs {self.tenant_refs(tenant)}, and the repository {mine}"
        mirror = self.path(f"mirror-{time.monotonic_ns()}")
        self.git("", "clone", "-q", "--mirror", self.url(tenant), mirror)
        self.is_sound(mirror)
        assert self.refs(mirror) == mine, f"the mirror has the refs {self.refs(mirror)}, and the repository {mine}"
        names = self.objects(at, *mine.values()) if mine else set()
        told = self.git(mirror, "cat-file", "--batch-all-objects", "--batch-check=%(objectname)")
        assert set(told.split()) == names, "the mirror has other objects than the repository"
        return mirror

    # An oracle

    def bare(self, name: str, source: str) -> str:
        """A bare repository with the refs of another, which git http-backend may serve."""
        self.git("", "clone", "-q", "--mirror", source, name)
        for key, value in (("http.receivepack", "true"), ("uploadpack.allowFilter", "true"), ("uploadpack.allowAnySHA1InWant", "true"),
                           ("receive.advertisePushOptions", "true"), ("receive.denyDeleteCurrent", "ignore")):
            self.git(name, "config", key, value)
        return name

    # Raw requests

    def socket(self) -> socket.socket:
        """A connection to the http port."""
        return socket.create_connection(self.http, timeout=300)

    def basic(self, user: str = "alice") -> bytes:
        """The header of a user's password."""
        import base64

        return b"Authorization: Basic " + base64.b64encode(f"{user}:{PASSWORDS[user]}".encode()) + b"\r\n"

    def post(self, service: str, body: bytes, tenant: str = "acme/site", head: bytes = b"", length: Optional[int] = None) -> bytes:
        """The answer to a POST to a service, head and all, up to the end of the connection."""
        size = len(body) if length is None else length
        request = (f"POST /{tenant}.git/{service} HTTP/1.1\r\nHost: x\r\nConnection: close\r\n"
                   f"Content-Type: application/x-{service}-request\r\nContent-Length: {size}\r\n").encode() + self.basic() + head
        return self.talk(request + b"\r\n" + body)

    def talk(self, data: bytes) -> bytes:
        """What comes back for bytes, up to the end of the connection. The peer may close while it is still sent to."""
        with self.socket() as connection:
            try:
                connection.sendall(data)
            except (BrokenPipeError, ConnectionResetError):
                pass
            return everything(connection)


def everything(connection: socket.socket) -> bytes:
    """What a peer sends up to its end."""
    parts: List[bytes] = []
    try:
        for part in iter(lambda: connection.recv(1 << 16), b""):
            parts.append(part)
    except ConnectionResetError:
        pass
    return b"".join(parts)


def line(data: "bytes | str") -> bytes:
    """A pkt-line."""
    data = data.encode() if isinstance(data, str) else data
    return b"%04x%b" % (len(data) + 4, data)


SCENES: List[Tuple[str, Callable[[ServerRoom], None]]] = []


def scene(function: Callable[[ServerRoom], None]) -> Callable[[ServerRoom], None]:
    """Marks a function as a scene, which is played over http and over ssh with each protocol."""
    for scheme in ("http", "ssh"):
        for version in (0, 1, 2):
            _add(function, scheme, version)
    return function


def once(function: Callable[[ServerRoom], None]) -> Callable[[ServerRoom], None]:
    """Marks a function as a scene, which is played once over each of http and ssh."""
    for scheme in ("http", "ssh"):
        _add(function, scheme, 2)
    return function


def over_http(function: Callable[[ServerRoom], None]) -> Callable[[ServerRoom], None]:
    """Marks a function as a scene that is played over http alone."""
    _add(function, "http", 2)
    return function


WAYS: Dict[str, Tuple[str, int]] = {}


def _add(function: Callable[[ServerRoom], None], scheme: str, version: int) -> None:
    name = f"{function.__name__}_{scheme}_{version}"
    WAYS[name] = (scheme, version)
    SCENES.append((name, function))


__all__ = ["PASSWORDS", "SCENES", "TOP", "WAYS", "ServerRoom", "everything", "line", "once", "over_http", "scene", "text"]
