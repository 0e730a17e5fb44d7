"""Scenes of what runs first in a container of the image, packaging/container/entry, in the roles of its compose.yaml."""
from __future__ import annotations

import os
import subprocess
from typing import Dict, List

from in_redis import RedisServer
from operating import free_port
from scenes.room import text, wait_for
from served import TOP, ServerRoom, once

ENTRY = os.path.join(TOP, "packaging", "container", "entry")
PASSWORD = "a long password"


class Container:
    """A process of the script with the folder, the options and the environment of a service. It starts as often as it is told."""

    def __init__(self, room: ServerRoom, name: str, *options: str, **environment: str):
        self.room, self.folder = room, room.path(name, "main")
        os.mkdir(room.path(name))
        self.port = free_port()
        self.words = [ENTRY, *options, "--http", f"127.0.0.1:{self.port}", "--ssh", f"127.0.0.1:{free_port()}"]
        bins = room.path("bin")
        self.environment: Dict[str, str] = {
            **room.environment,
            "PATH": f"{bins}:{room.environment['PATH']}",
            "GITPOOLD_FOLDER": self.folder,
            **environment,
        }
        self.log = room.path(f"{name}.log")

    def start(self) -> "Container":
        """Starts it, and waits until it serves."""
        with open(self.log, "wb") as file:
            self.process = subprocess.Popen(self.words, env=self.environment, stdout=file, stderr=file)
        wait_for(lambda: "serving ssh" in self.said())
        return self

    def said(self) -> str:
        """What it has said since its start."""
        with open(self.log, "rb") as file:
            return text(file.read())

    def runs(self, *words: str, data: str = "") -> str:
        """What a command of gitpoold says in it."""
        done = subprocess.run([ENTRY, *words], env=self.environment, input=data.encode(), stdout=subprocess.PIPE, stderr=subprocess.STDOUT)
        assert done.returncode == 0, text(done.stdout)
        return text(done.stdout)

    def stop(self) -> None:
        """Stops it as podman does."""
        self.process.terminate()
        assert self.process.wait(300) == 0, self.said()

    def url(self) -> str:
        """The address of a repository for ada."""
        return f"http://ada:{PASSWORD.replace(' ', '%20')}@127.0.0.1:{self.port}/acme/site.git"


@once
def the_first_process_of_a_container(room: ServerRoom) -> None:
    """It makes its folder, serves, carries out commands, stops in order, and has what it had when it starts again. Another one follows it over Redis."""
    room.stop()
    os.mkdir(room.path("bin"))
    for name, path in (("gitpoold", room.server_program), ("gitpool", room.program)):
        os.symlink(path, room.path("bin", name))
    redis = RedisServer(room)
    log = ["--log", f"redis://127.0.0.1:{redis.port}/site"]
    server = Container(room, "leader", *log).start()
    started: List[Container] = [server]
    try:
        server.runs("user", server.folder, "ada", data=PASSWORD + "\n")
        server.runs("grant", server.folder, "ada", "acme/*", "rw")
        room.git("", "init", "-q", "work")
        room.git("work", "commit", "-q", "--allow-empty", "-m", "one")
        room.git("work", "push", "-q", server.url(), "HEAD:main")
        server.stop()
        server.start()
        leader = f"http://127.0.0.1:{server.port}"
        started.append(Container(room, "replica", "--follow", "--leader", leader, *log, GITPOOLD_LEADER=server.folder).start())
        room.git("work", "commit", "-q", "--allow-empty", "-m", "two")
        room.git("work", "push", "-q", server.url(), "HEAD:main")
        wanted = room.name("work", "HEAD")
        for it in started:
            assert wanted in room.git("", "ls-remote", it.url()).decode(), it.said()
        for it in reversed(started):
            it.stop()
    finally:
        for it in started:
            it.process.kill()
        redis.kill()
    room.start()
