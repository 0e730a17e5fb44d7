"""Gates before Redis servers: whoever comes through one can be cut off from Redis while others are not."""
from __future__ import annotations

import socket
import threading
from typing import List, Optional

from redis_pairs import Pair


class Gate:
    """A port that leads to the primary of a pair. While it is shut, nothing comes through. A silent gate keeps its connections and lets what was
    sent come late, as a network that is parted does; another one breaks them off."""

    def __init__(self, pair: Pair, is_silent: bool):
        self.pair, self.is_silent = pair, is_silent
        self.opened = threading.Event()
        self.opened.set()
        self.peers: List[socket.socket] = []
        self.listener = socket.create_server(("127.0.0.1", 0))
        self.port = int(self.listener.getsockname()[1])
        threading.Thread(target=self.accept, daemon=True).start()

    def accept(self) -> None:
        """Takes connections until the gate is closed."""
        while True:
            try:
                one = self.listener.accept()[0]
            except OSError:
                return
            if self.is_silent or self.opened.is_set():
                threading.Thread(target=self.lead, args=(one,), daemon=True).start()
            else:
                one.close()

    def lead(self, one: socket.socket) -> None:
        """Leads a connection to the primary, and its answers back."""
        self.opened.wait()
        other = self.reached()
        if other is None:
            one.close()
            return
        self.peers += [one, other]
        threading.Thread(target=self.pass_on, args=(other, one), daemon=True).start()
        self.pass_on(one, other)

    def reached(self) -> Optional[socket.socket]:
        """A connection to the primary, if it takes one."""
        try:
            return socket.create_connection(("127.0.0.1", self.pair.primary().port))
        except OSError:
            return None

    def pass_on(self, source: socket.socket, target: socket.socket) -> None:
        """Passes on what comes, until one side ends."""
        try:
            for data in iter(lambda: source.recv(1 << 16), b""):
                self.opened.wait()
                target.sendall(data)
        except OSError:
            pass
        for it in (source, target):
            end(it)

    def shut(self) -> None:
        """Lets nothing through."""
        self.opened.clear()
        if not self.is_silent:
            for it in self.peers:
                end(it)

    def open(self) -> None:
        """Lets all through again."""
        self.opened.set()

    def close(self) -> None:
        """Ends all connections, and takes none any more."""
        self.opened.set()
        end(self.listener)
        self.listener.close()
        for it in self.peers:
            end(it)
            it.close()


def end(peer: socket.socket) -> None:
    """Ends a connection, so that whoever waits for it goes on."""
    try:
        peer.shutdown(socket.SHUT_RDWR)
    except OSError:
        pass
