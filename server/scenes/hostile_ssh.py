"""Scenes of ssh below the commands: of clients that keep the rules of ssh in bad faith, and of clients that know little of it. One in bad faith is this
file, run as a program with paramiko, which has a lower level than ssh(1): hostile_ssh.py HOST PORT KEY WANT HOW."""
from __future__ import annotations

import importlib
import os
import subprocess
import sys
import time
from typing import Any

from attacks import MIB, asks
from served import ServerRoom, line, over_http

# The interpreter for which Debian has paramiko.
PYTHON = "/usr/bin/python3"
# A client may say that it takes so much on a channel before it is asked again.
LARGEST_WINDOW = (1 << 32) - 1
KEXINIT, IGNORE = 20, 2


def main(host: str, port: str, key: str, want: str, how: str) -> None:
    """Asks for two clones at once over one connection, begins an exchange of keys and never goes on with it; says so, and ends with the connection."""
    paramiko: Any = importlib.import_module("paramiko")
    transport = paramiko.Transport((host, int(port)))
    transport.start_client()
    transport.auth_publickey("alice", paramiko.Ed25519Key(filename=key))
    channels = [transport.open_session(window_size=LARGEST_WINDOW, max_packet_size=1 << 15) for _ in range(2)]
    for channel in channels:
        channel.exec_command("git-upload-pack '/acme/site.git'")
        told = channel.makefile("rb")
        while int(told.read(4), 16) > 4:
            told.readline()
    # From now on what the server says to that is not answered.
    transport._handler_table = {**transport._handler_table, KEXINIT: lambda *_: None}
    for channel in channels:
        channel.sendall(line(f"want {want} side-band-64k\n") + b"0000" + line("done\n"))
    transport._send_kex_init()
    print("it waits", flush=True)
    while transport.is_active():
        time.sleep(0.2)
        if how == "chatty":
            try:
                transport._send_message(ignored(paramiko))
            except (OSError, EOFError):
                return


def ignored(paramiko: Any) -> Any:
    """A message that says nothing, and may be sent at any time."""
    message = paramiko.Message()
    message.add_byte(bytes((IGNORE,)))
    message.add_string("x")
    return message


def begun(room: ServerRoom, want: str, how: str) -> "subprocess.Popen[bytes]":
    """A client that has asked, and whose exchange of keys has begun."""
    words = [PYTHON, os.path.realpath(__file__), room.ssh[0], str(room.ssh[1]), room.path("key"), want, how]
    client = subprocess.Popen(words, stdout=subprocess.PIPE, env=room.environment)
    assert client.stdout and client.stdout.readline() == b"it waits\n"
    return client


@over_http
def exchanges_of_keys_that_never_end(room: ServerRoom) -> None:
    """A client lets the server queue what it asked for: it takes little memory, and the connection ends within `idle`, whatever else the client says."""
    site = room.init("site")
    for at in range(48):
        with open(room.path(site, f"noise-{at}"), "wb") as file:
            file.write(os.urandom(MIB))
    room.commit(site, "Noise")
    room.git(site, "-c", "core.compression=0", "push", "-q", room.url(), "main")
    room.serverd("limits", room.served, "idle", "15s")
    before, main_name = room.tenant_refs(), room.name(site, "main")
    room.git("", "clone", "-q", room.url(), room.path("first"))
    most = room.memory()
    for how in ("silent", "chatty"):
        with begun(room, main_name, how) as client:
            asks(room, before)
            client.wait(300)
        assert room.memory() - most < 40 * MIB, (how, most // MIB, room.memory() // MIB)
    room.git("", "clone", "-q", room.url(), room.path("again"))
    assert room.name("again", "HEAD") == main_name


def fingerprint(room: ServerRoom, name: str) -> str:
    """The fingerprint of a key of the server, as ssh shows it."""
    told = subprocess.run(["ssh-keygen", "-l", "-f", os.path.join(room.served, name)], check=True, capture_output=True)
    return told.stdout.decode().split(" ")[1]


@over_http
def older_clients_find_a_key_of_the_server(room: ServerRoom) -> None:
    """They know no ed25519. A folder of an older version has such a key alone, is served so, and gets the other one by `init`."""
    site = room.pushed()
    url = f"ssh://alice@{room.ssh[0]}:{room.ssh[1]}/acme/site.git"
    ssh = room.environment["GIT_SSH_COMMAND"].replace("/dev/null", room.path("known"))
    older = f"{ssh} -o HostKeyAlgorithms=ecdsa-sha2-nistp256 -o KexAlgorithms=ecdh-sha2-nistp256 -o Ciphers=aes128-ctr -o MACs=hmac-sha2-256"
    main = room.name(site, "main").encode()
    assert main in room.git("", "ls-remote", url, GIT_SSH_COMMAND=older)
    with open(room.path("known"), "rb") as known, open(os.path.join(room.served, "host_key_ecdsa.pub"), "rb") as public:
        assert public.read().split(b" ")[1].strip() in known.read()
    room.stop()
    for name in ("host_key_ecdsa", "host_key_ecdsa.pub"):
        os.unlink(os.path.join(room.served, name))
    room.start()
    url = f"ssh://alice@{room.ssh[0]}:{room.ssh[1]}/acme/site.git"
    assert main in room.git("", "ls-remote", url)
    room.fails("", "ls-remote", url, says="no matching host key type", GIT_SSH_COMMAND=older.replace("LogLevel=ERROR", "LogLevel=INFO"))
    room.stop()
    before = fingerprint(room, "host_key.pub")
    told = room.serverd("init", room.served, "--program", room.program).decode()
    assert told == f"host key {fingerprint(room, 'host_key_ecdsa.pub')} (ecdsa-sha2-nistp256)\n", told
    assert fingerprint(room, "host_key.pub") == before and not room.serverd("init", room.served, "--program", room.program)
    room.start()
    url = f"ssh://alice@{room.ssh[0]}:{room.ssh[1]}/acme/site.git"
    assert main in room.git("", "ls-remote", url, GIT_SSH_COMMAND=older)


if __name__ == "__main__":
    main(*sys.argv[1:])
