"""Scenes of clients that take too much room: one that sends steps and reads no answer, and ten thousand connections at once."""
from __future__ import annotations

import os
import resource
import socket
import urllib.request
from typing import List

from attacks import MIB, asks
from operating import answers, frame
from scenes.room import wait_for
from served import ServerRoom, over_http


def at_socket(room: ServerRoom) -> socket.socket:
    """A connection to the server's socket."""
    peer = socket.socket(socket.AF_UNIX)
    peer.connect(os.path.join(room.served, "socket"))
    return peer


def sends_until_closed(peer: socket.socket, step: bytes) -> int:
    """Sends a step again and again and reads nothing, until the server closes the connection. Gives how many bytes it took."""
    sent = 0
    peer.settimeout(300)
    try:
        while sent < 1024 * MIB:
            sent += peer.send(step)
    except (BrokenPipeError, ConnectionResetError):
        pass
    return sent


@over_http
def a_client_that_reads_no_answers(room: ServerRoom) -> None:
    """Sends questions with long answers, and pieces of a stream, and reads nothing: after `idle` the connection is closed and the stream given up;
    what waits for it is bounded, and others are served meanwhile."""
    site = room.site()
    with open(room.path(site, "noise"), "wb") as file:
        file.write(os.urandom(MIB // 64))
    room.commit(site, "Noise")
    room.git(site, "push", "-q", "pool", "main")
    before = room.tenant_refs()
    room.serverd("limits", room.served, "idle", "10s")
    for step in (frame(4, "acme/site", b"cat main:noise"), frame(2, "acme/other", b"progress told\n" * 1000)):
        with at_socket(room) as peer:
            peer.sendall(frame(1, "acme/other"))
            assert answers(peer, 1) == [(0, 0, b"")]
            sent = sends_until_closed(peer, step)
            assert sent < 512 * MIB, sent
            asks(room, before)
        with at_socket(room) as peer:
            peer.sendall(frame(1, "acme/other") + frame(3, "acme/other"))
            assert [it[:2] for it in answers(peer, 2)] == [(0, 0)] * 2
    assert room.memory() < 900 * MIB, room.memory() // MIB


MANY = 10_000


@over_http
def ten_thousand_connections(room: ServerRoom) -> None:
    """As many connections as that wait with half a request: others are served, and memory is bounded. Those beyond `connections` are closed at once,
    and all are gone once their clients are."""
    room.pushed()
    before = room.tenant_refs()
    resource.setrlimit(resource.RLIMIT_NOFILE, (resource.getrlimit(resource.RLIMIT_NOFILE)[1],) * 2)
    for name, value in (("connections", str(MANY + 100)), ("connections-by-address", str(MANY + 100)), ("handshake", "30m")):
        room.serverd("limits", room.served, name, value)
    room.stop()
    room.start()
    held: List[socket.socket] = []
    for _ in range(MANY):
        held.append(room.socket())
        held[-1].sendall(b"GET /acme")
    asks(room, before)
    assert room.memory() < 900 * MIB, room.memory() // MIB
    assert int(metric(room, "gitpoold_connections")) >= MANY
    room.serverd("limits", room.served, "connections", str(MANY))
    assert room.talk(b"GET /healthz HTTP/1.0\r\n\r\n") == b""
    for it in held:
        it.close()
    wait_for(lambda: b" 200 " in room.talk(b"GET /healthz HTTP/1.0\r\n\r\n") and metric(room, "gitpoold_connections") <= 100)
    asks(room, before)


def metric(room: ServerRoom, name: str) -> float:
    """What the server tells of itself under a name."""
    text = urllib.request.urlopen(room.http_url("/metrics", "")).read().decode()
    return float(next(line.split()[1] for line in text.splitlines() if line.startswith(name + " ")))
