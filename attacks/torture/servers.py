"""A gitpoold of a torture: its folder, its log and its run."""
from __future__ import annotations

import os
import re
import signal
import socket
import subprocess
from typing import Dict, List, Optional, Sequence

from redis_pairs import STARTED, NotThere, wait_until


class Refused(Exception):
    """The server refused a command, or did not answer it."""


class Server:
    """A gitpoold in a folder of its own, with so many shards. Its log stands beside the folder."""

    def __init__(self, folder: str, shards: int):
        self.folder, self.shards, self.log = folder, shards, f"{folder}.log"
        self.process: Optional["subprocess.Popen[bytes]"] = None
        self.began = 0

    # A run

    def begin(self, words: Sequence[str], environment: Dict[str, str]) -> None:
        """Starts it by these words, and does not wait for it."""
        self.began = os.path.getsize(self.log) if os.path.exists(self.log) else 0
        with open(self.log, "ab") as log:
            self.process = subprocess.Popen(list(words), stderr=log, stdout=log, env=environment)
        STARTED.append(self.process)

    def wait_for_doors(self) -> None:
        """Waits until it serves."""
        wait_until(lambda: self.status() is not None or len(self.ports()) == 2, "the server does not serve")
        if self.status() is not None:
            raise NotThere(f"the server ended with {self.status()}: {self.said()[-1500:]}")

    def serves(self) -> bool:
        """Whether it serves after it was begun; else it has ended."""
        try:
            self.wait_for_doors()
        except NotThere:
            return False
        return True

    def status(self) -> Optional[int]:
        """With what it has ended, None while it runs."""
        return self.process.poll() if self.process else -signal.SIGKILL

    def said(self) -> str:
        """What it has said since it was started."""
        if not os.path.exists(self.log):
            return ""
        with open(self.log, "rb") as file:
            file.seek(self.began)
            return file.read().decode(errors="backslashreplace")

    def ports(self) -> Dict[str, int]:
        """The ports of its doors, once it serves."""
        return {name: int(port) for name, port in re.findall(r"serving (http|ssh) on [0-9.]+:([0-9]+)", self.said())}

    def socket(self) -> str:
        """The path of its socket."""
        return os.path.join(self.folder, "socket")

    def signal(self, number: int) -> None:
        """Sends it a signal."""
        if self.process:
            self.process.send_signal(number)

    def kill(self) -> None:
        """Kills it, and waits until it is gone. Its children end with it."""
        if self.process:
            self.process.send_signal(signal.SIGCONT)
            self.process.kill()
            self.process.wait()

    def end(self) -> int:
        """Lets it end as an operator does, and gives with what it ended."""
        assert self.process
        self.process.terminate()
        return self.process.wait(300)

    # What the operator asks

    def operate(self, *words: str, within: float = 300) -> str:
        """What it answers to a command of the operator while it runs. One that is refused, or not answered, is Refused."""
        with socket.socket(socket.AF_UNIX) as peer:
            peer.settimeout(within)
            try:
                peer.connect(self.socket())
                peer.sendall(" ".join(words).encode() + b"\n")
                told = b"".join(iter(lambda: peer.recv(1 << 16), b""))
            except OSError as error:
                raise Refused(str(error)) from None
        head, _, rest = told.decode().partition("\n")
        if head != "ok":
            raise Refused(head or "the server ended")
        return rest

    def stands(self) -> Dict[str, str]:
        """The lines of its status, nothing where it does not answer."""
        try:
            told = self.operate("status", within=20)
        except Refused:
            return {}
        return dict(re.findall(r"^(\S+) +(.*)$", told, re.M))

    def children(self) -> List[int]:
        """The processes of the children that run."""
        return [int(word) for word in self.stands().get("child", "").split() if word != "0"]

    def is_well(self, follows: bool = False) -> bool:
        """Whether it answers in all shards, and takes pushes, or follows."""
        found = self.stands()
        if found.get("answering") != "true" or found.get("journal-broken") != "false":
            return False
        return (found.get("following") == "true") == follows and (not follows or found.get("behind-records") == "0")

    # Files

    def pool(self, number: int) -> str:
        """The pool file of a shard, whose number counts from 0."""
        return os.path.join(shard_folder(self.folder, number), "pool")

    def pools(self) -> List[bytes]:
        """The pool files of all shards."""
        return [content(self.pool(it)) for it in range(self.shards)]

    def rescued(self, number: int) -> str:
        """What it kept of a shard when a log lost records."""
        return os.path.join(shard_folder(self.folder, number), "pool.rescued")


def shard_folder(folder: str, number: int) -> str:
    """The folder of a shard, whose number counts from 0."""
    return folder if number == 0 else os.path.join(folder, f"shard-{number + 1}")


def content(path: str) -> bytes:
    """What a file has."""
    with open(path, "rb") as file:
        return file.read()
