"""A front before the server, in the place of the Apache of git's tests: front.py ROOT. It serves on a free port, whose number is its
first line, and logs as Apache does to ROOT/access.log. What is below ROOT/www is brought to a tenant before each request."""
from __future__ import annotations

import base64
import functools
import io
import os
import re
import socket
import socketserver
import subprocess
import sys
import threading
from typing import List, Optional, Tuple

sys.path.insert(0, os.path.dirname(os.path.realpath(__file__)))
sys.dont_write_bytecode = True

from mirrors import PASSWORD, Mirror, NotKept, git_folder, note, ports  # noqa: E402

ROOT = sys.argv[1]
SERVICE = re.compile(r"^/(?P<way>(?:auth/|auth-push/|auth-fetch/|half-auth-complete/)?)(?:smart(?P<kind>_[a-z0-9_]*)?|(?P<perl>one_time_perl))/(?P<name>.+?)"
                     r"/(?P<what>info/refs|git-upload-pack|git-receive-pack)(?P<query>\?.*)?$")
REDIRECTS: List[Tuple[str, str, int]] = [
    (r"^/smart-redir-perm/(.*)$", r"/smart/\1", 301), (r"^/smart-redir-temp/(.*)$", r"/smart/\1", 302),
    (r"^/smart-redir-auth/(.*)$", r"/auth/smart/\1", 301), (r"^/smart-redir-limited/(.*)/info/refs(.*)$", r"/smart/\1/info/refs\2", 301),
    (r"^/insane-redir/([^?]*)(.*)$", r"/intern-redir/\1/foo\2", 301),
]
ALICE = b"Basic " + base64.b64encode(f"alice:{PASSWORD}".encode())
log_lock = threading.Lock()


class Request:
    """The head of a request."""

    def __init__(self, lines: List[bytes]):
        self.line = lines[0].decode("latin-1").strip()
        self.method, self.target, _ = (self.line.split(" ") + ["", ""])[:3]
        self.headers: List[Tuple[str, bytes]] = []
        for line in lines[1:]:
            name, _, value = line.partition(b":")
            self.headers.append((name.decode("latin-1").lower(), value.strip()))

    def get(self, name: str) -> bytes:
        """The value of a header, or nothing."""
        return next((value for its, value in self.headers if its == name), b"")

    def put(self, name: str, value: Optional[bytes]) -> None:
        """Sets a header, or takes it away."""
        self.headers = [it for it in self.headers if it[0] != name]
        if value is not None:
            self.headers.append((name, value))

    def text(self, target: str) -> bytes:
        """The head as it goes to the server."""
        head = f"{self.method} {target} HTTP/1.1\r\n".encode("latin-1")
        return head + b"".join(name.encode("latin-1") + b": " + value + b"\r\n" for name, value in self.headers) + b"\r\n"


class Front(socketserver.StreamRequestHandler):
    """One request of a client; its connection ends after it."""

    def handle(self) -> None:
        lines: List[bytes] = []
        for line in iter(self.rfile.readline, b""):
            if line in (b"\r\n", b"\n"):
                break
            lines.append(line)
        try:
            if lines:
                self.answer(Request(lines))
        finally:
            # The thread that reads from the client ends by this.
            self.connection.shutdown(socket.SHUT_RDWR)

    def answer(self, request: Request) -> None:
        for pattern, target, status in REDIRECTS:
            if re.match(pattern, request.target):
                self.say(request, status, [f"Location: http://127.0.0.1:{self.connection.getsockname()[1]}{re.sub(pattern, target, request.target)}"])
                return
        target = re.sub(r"^/intern-redir/(.*?)/foo(.*)$", r"/smart/\1\2", request.target)
        found = SERVICE.match(target)
        at = git_folder(os.path.join(ROOT, "www", found["name"])) if found else None
        if found is None or at is None:
            self.say(request, 404, [])
            return
        if found["kind"] == "_headers" and (request.get("x-magic-one"), request.get("x-magic-two")) != (b"abra", b"cadabra"):
            self.say(request, 403, [])
            return
        self.serve(request, found, at)

    def say(self, request: Request, status: int, headers: List[str]) -> None:
        """An answer of the front itself."""
        log(request, status)
        self.wfile.write("\r\n".join([f"HTTP/1.1 {status} x", "Content-Length: 0", "Connection: close", *headers, "", ""]).encode())

    def serve(self, request: Request, found: "re.Match[str]", at: str) -> None:
        """Lets the tenant of a repository answer."""
        path, what = found["name"], found["what"]
        with Mirror(at) as mirror:
            try:
                mirror.bring()
            except NotKept as why:
                note(what, path, f"not kept: {why}")
                self.say(request, 500, [])
                return
        dressed(request, found)
        target = f"/{mirror.tenant}.git/{what}{found['query'] or ''}"
        edit = os.path.join(ROOT, "one-time-perl")
        if found["perl"] and os.path.exists(edit):
            self.wfile.write(edited(self.asked(request, target, True), edit))
            note(what, path, "served")
            return
        answer = self.asked(request, target, what == "git-receive-pack")
        result = "served"
        if what == "git-receive-pack":
            with Mirror(at) as mirror:
                try:
                    mirror.take()
                except NotKept as why:
                    result = f"not taken: {why}"
        self.wfile.write(answer)
        note(what, path, result)

    def asked(self, request: Request, target: str, is_held: bool) -> bytes:
        """Asks the server. The answer goes to the client as it comes, or is given as a whole."""
        cookies = b"Set-Cookie: name=value\r\n" if "/smart_cookies/" in request.target else b""
        with socket.create_connection(("127.0.0.1", ports()[0])) as server:
            server.sendall(request.text(target))
            sender = threading.Thread(target=self.send_body, args=(server,), daemon=True)
            sender.start()
            held, is_first = b"", True
            for part in iter(lambda: server.recv(1 << 16), b""):
                if is_first and part.startswith(b"HTTP/1.1 100"):
                    first, _, part = part.partition(b"\r\n\r\n")
                    self.wfile.write(first + b"\r\n\r\n")
                if is_first and part:
                    is_first = False
                    log(request, int(part.split(b" ")[1]))
                    part = part.replace(b"\r\n", b"\r\n" + cookies, 1)
                if is_held:
                    held += part
                elif part:
                    self.wfile.write(part)
        return held

    def send_body(self, server: socket.socket) -> None:
        """Passes on what the client sends after the head."""
        reader = self.rfile
        assert isinstance(reader, io.BufferedReader)
        try:
            for part in iter(functools.partial(reader.read1, 1 << 16), b""):
                server.sendall(part)
        except OSError:
            pass


def edited(answer: bytes, edit: str) -> bytes:
    """The answer as a command of perl edits it, which goes once it has changed something: apply-one-time-perl.sh of git's tests."""
    head, _, body = answer.partition(b"\r\n\r\n")
    if b"chunked" in head.lower():
        body = unchunked(body)
    with open(edit, encoding="latin-1") as file:
        command = file.read()
    changed = subprocess.run(["perl", "-pe", command], input=body, cwd=ROOT, stdout=subprocess.PIPE, env={**os.environ, "LC_ALL": "C"}, check=True)
    if changed.stdout != body:
        os.remove(edit)
    kept = [line for line in head.split(b"\r\n") if not line.lower().startswith((b"content-length:", b"transfer-encoding:"))]
    return b"\r\n".join([*kept, b"Content-Length: %d" % len(changed.stdout), b"", changed.stdout])


def unchunked(body: bytes) -> bytes:
    """A body without the sizes of its chunks: RFC 9112, section 7.1."""
    parts: List[bytes] = []
    while True:
        size, _, body = body.partition(b"\r\n")
        count = int(size.split(b";")[0], 16)
        if count == 0:
            return b"".join(parts)
        parts.append(body[:count])
        body = body[count + 2 :]


def dressed(request: Request, found: "re.Match[str]") -> None:
    """Gives a request the password that the server asks for, where Apache would not ask for one."""
    pushes = found["what"] == "git-receive-pack" or "git-receive-pack" in (found["query"] or "")
    asks = {"auth/": True, "auth-push/": found["what"] == "git-receive-pack", "auth-fetch/": found["what"] == "git-upload-pack",
            "half-auth-complete/": pushes, "": False}[found["way"]]
    given = request.get("authorization")
    if given.startswith(b"Basic "):
        user, _, password = base64.b64decode(given[6:]).partition(b":")
        whole = (b"alice", PASSWORD.encode()) if (user, password) == (b"user@host", b"pass@host") else (b"alice", password)
        given = b"Basic " + base64.b64encode(b":".join(whole))
    request.put("authorization", (given or None) if asks else ALICE)
    request.put("connection", b"close")
    if found["kind"] == "_v0":
        request.put("git-protocol", None)


def log(request: Request, status: int) -> None:
    """Writes a line as Apache does."""
    with log_lock, open(os.path.join(ROOT, "access.log"), "a", encoding="latin-1") as file:
        file.write(f'127.0.0.1 - - [-] "{request.line}" {status} 1\n')


class Server(socketserver.ThreadingTCPServer):
    """The front's port."""

    allow_reuse_address = True
    daemon_threads = True

    def handle_error(self, request: object, client_address: object) -> None:
        if not isinstance(sys.exc_info()[1], (BrokenPipeError, ConnectionResetError)):
            super().handle_error(request, client_address)  # type: ignore[arg-type]


def main() -> None:
    os.makedirs(os.path.join(ROOT, "www"), exist_ok=True)
    with Server(("127.0.0.1", 0), Front) as server:
        print(server.server_address[1], flush=True)
        server.serve_forever()


main()
