"""Scenes of addresses that are told of pushes: signed, over https, and again until they take it."""
from __future__ import annotations

import hashlib
import hmac
import json
import os
import re
import socket
import ssl
import subprocess
import threading
import time
from http.server import BaseHTTPRequestHandler, ThreadingHTTPServer
from typing import Any, Dict, List, Optional, Tuple

from scenes.room import wait_for
from served import ServerRoom, over_http, text

SECRET = "the-common-secret"


class Receiver(ThreadingHTTPServer):
    """An address that keeps the heads and bodies of what it is told, and answers 204, or nothing until it is released."""

    daemon_threads = True

    def __init__(self, port: int = 0, certificate: Optional[Tuple[str, str]] = None, holds: bool = False) -> None:
        self.told: List[Tuple[Dict[str, str], bytes]] = []
        self.came = threading.Event()
        self.released = threading.Event()
        if not holds:
            self.released.set()

        class Handler(BaseHTTPRequestHandler):
            def do_POST(handler) -> None:  # pylint: disable=no-self-argument
                body = handler.rfile.read(int(handler.headers["Content-Length"]))
                self.told.append((dict(handler.headers), body))
                self.came.set()
                self.released.wait(60)
                handler.send_response(204)
                handler.end_headers()

            def log_message(handler, *_: Any) -> None:  # pylint: disable=no-self-argument,arguments-differ
                pass

        super().__init__(("127.0.0.1", port), Handler)
        if certificate:
            context = ssl.SSLContext(ssl.PROTOCOL_TLS_SERVER)
            context.load_cert_chain(*certificate)
            self.socket = context.wrap_socket(self.socket, server_side=True, do_handshake_on_connect=False)
        threading.Thread(target=self.serve_forever, daemon=True).start()

    def handle_error(self, *_: Any) -> None:
        """A client that does not trust the certificate, or was killed, is no fault of the receiver."""

    def awaited(self, count: int) -> List[Tuple[Dict[str, str], bytes]]:
        """What came once so much has."""
        wait_for(lambda: len(self.told) >= count)
        return self.told

    def end(self) -> None:
        """Ends it."""
        self.released.set()
        self.shutdown()
        self.server_close()


def certificate(room: ServerRoom) -> Tuple[str, str]:
    """A certificate for localhost that it has signed itself, and its key."""
    paths = room.path("cert.pem"), room.path("key.pem")
    subprocess.run(["openssl", "req", "-x509", "-newkey", "ec", "-pkeyopt", "ec_paramgen_curve:P-256", "-nodes", "-days", "2", "-subj",
                    "/CN=localhost", "-addext", "subjectAltName=DNS:localhost", "-out", paths[0], "-keyout", paths[1]], check=True,
                   capture_output=True)
    return paths


def refused(room: ServerRoom, *words: str) -> str:
    """What a command says that has to end with 1."""
    done = room.run([room.server_program, *words])
    assert done.returncode == 1, done
    return text(done.stderr)


@over_http
def addresses_are_told_over_https_and_can_tell_who_tells_them(room: ServerRoom) -> None:
    files = certificate(room)
    receiver = Receiver(certificate=files)
    try:
        where = f"https://localhost:{receiver.server_port}/told?key=hidden"
        room.serverd("webhook", room.served, "allow", "127.0.0.0/8")
        room.serverd("webhook", room.served, "allow", "::1")
        room.serverd("webhook", room.served, "secret", where, data=SECRET.encode() + b"\n")
        room.serverd("hooks", room.served, "add", "*", where)
        assert "certificate" in refused(room, "webhook", room.served, "test", where)
        assert room.stop() == 0
        room.environment["SSL_CERT_FILE"] = files[0]
        room.start()
        assert not receiver.told
        room.serverd("webhook", room.served, "test", where)
        room.pushed()
        heads, body = receiver.awaited(2)[1]
        assert receiver.told[0][0]["X-Gitpoold-Event"] == "ping" and heads["X-Gitpoold-Event"] == "push", receiver.told
        assert heads["X-Hub-Signature-256"] == "sha256=" + hmac.new(SECRET.encode(), body, hashlib.sha256).hexdigest(), heads
        said = json.loads(body)
        assert said["delivery"] == heads["X-Gitpoold-Delivery"] and said["tenant"] == "acme/site" and said["user"] == "alice", said
        assert {it["ref"]: it["new"] for it in said["changes"]} == room.tenant_refs(), said
        log = text(room.serverd("webhook", room.served, "log"))
        assert len(re.findall(r"event=ping .* result=ok|event=push tenant=acme/site .* result=ok", log)) == 2, log
        shown = log + room.logged() + text(room.serverd("webhook", room.served)) + text(room.serverd("audit", room.served))
        assert "hidden" not in shown and SECRET not in shown, shown
    finally:
        receiver.end()


@over_http
def what_an_address_was_not_told_comes_after_a_kill(room: ServerRoom) -> None:
    """The server is killed while an address has not answered, and once more while nobody is there."""
    receiver = Receiver(holds=True)
    port = receiver.server_port
    where = f"http://127.0.0.1:{port}/"
    room.serverd("webhook", room.served, "allow", "127.0.0.1")
    room.serverd("hooks", room.served, "add", "*", where)
    site = room.pushed()
    assert receiver.came.wait(60)
    room.commit(site, "Two", {"f": "2"})
    room.git(site, "push", "-q", room.url(), "main")
    room.process.kill()
    room.process.wait()
    receiver.end()
    first = json.loads(receiver.told[0][1])
    room.start()
    room.commit(site, "Three", {"f": "3"})
    room.git(site, "push", "-q", room.url(), "main")
    room.process.kill()
    room.process.wait()
    again = Receiver(port)
    try:
        room.start()
        told = [json.loads(body) for _, body in again.awaited(3)]
        assert first["delivery"] in [it["delivery"] for it in told] and len({it["delivery"] for it in told}) == 3, (first, told)
        news = [change["new"] for it in told for change in it["changes"] if change["ref"] == "refs/heads/main"]
        want = room.git(site, "rev-list", "--max-count=3", "main").decode().split()
        assert sorted(news) == sorted(want), (news, want)
        wait_for(lambda: os.listdir(os.path.join(room.served, "deliveries")) == ["log"])
        assert len(again.told) == 3
    finally:
        again.end()


@over_http
def addresses_inside_are_not_told_unless_the_operator_allows_it(room: ServerRoom) -> None:
    receiver = Receiver()
    try:
        port = receiver.server_port
        for host in ("127.0.0.1", "[::1]", "169.254.169.254", "10.0.0.1", "[::ffff:127.0.0.1]"):
            assert "is no public address" in refused(room, "hooks", room.served, "add", "*", f"http://{host}:{port}/"), host
        named = f"http://localhost:{port}/"
        room.serverd("hooks", room.served, "add", "*", named)
        assert "is no public address" in refused(room, "webhook", room.served, "test", named)
        site = room.pushed()
        wait_for(lambda: "was not told of an event of acme/site" in room.logged())
        assert not receiver.told
        for network in ("127.0.0.0/8", "::1"):
            room.serverd("webhook", room.served, "allow", network)
        room.commit(site, "Two", {"f": "2"})
        room.git(site, "push", "-q", room.url(), "main")
        receiver.awaited(2)
        room.serverd("webhook", room.served, "deny", "127.0.0.0/8")
        assert "is no public address" in refused(room, "webhook", room.served, "test", f"http://127.0.0.1:{port}/")
        assert "is no network" in refused(room, "webhook", room.served, "allow", "127.0.0.1/8")
    finally:
        receiver.end()


@over_http
def an_address_that_never_answers_is_late_and_keeps_nobody(room: ServerRoom) -> None:
    with socket.socket() as silent:
        silent.bind(("127.0.0.1", 0))
        silent.listen()
        receiver = Receiver()
        try:
            room.serverd("webhook", room.served, "allow", "127.0.0.1")
            room.serverd("limits", room.served, "hook", "5s")
            for port in (silent.getsockname()[1], receiver.server_port):
                room.serverd("hooks", room.served, "add", "*", f"http://127.0.0.1:{port}/")
            room.pushed()
            receiver.awaited(1)
            for says in ("it took longer than a hook may take", " result=ok"):
                wait_for(lambda: says in text(room.serverd("webhook", room.served, "log")))
            room.serverd("limits", room.served, "hook", "10m")
            assert room.stop() == 0
            assert "addresses of hooks are told of 1 events after the next start" in room.logged(), room.logged()
        finally:
            receiver.end()
