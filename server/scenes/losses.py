"""Files of the folder that are gone, empty, cut or damaged: no start takes that for a folder that never had them."""
from __future__ import annotations

import os
import re
import shutil
import subprocess
import time
from typing import Callable, List

from keeping import crashed
from served import ServerRoom, over_http, text

LISTS = ("access", "groups", "tokens", "passwords", "keys", "limits", "hooks", "owners", "blocked", "protected", "descriptions")


def contents(path: str) -> bytes:
    with open(path, "rb") as file:
        return file.read()


def write(path: str, data: bytes) -> None:
    with open(path, "wb") as file:
        file.write(data)


def is_refused(room: ServerRoom, says: str, *words: str) -> None:
    """Asks that a command ends with 3 and a sentence."""
    given = ["--program", room.program] if words[0] in ("init", "serve") else []
    done = subprocess.run([room.server_program, *words, *given], capture_output=True, env=room.environment, timeout=300)
    assert done.returncode == 3 and says in text(done.stderr), (words, done.returncode, text(done.stderr))


@over_http
def a_journal_that_was_deleted(room: ServerRoom) -> None:
    """Deletes the only segment of a journal that has a push: no start serves the folder without it, and it is whole when the segment is back."""
    site = room.pushed()
    segment = crashed(room)
    os.rename(segment, room.path("aside"))
    room.serverd("init", room.served, "--program", room.program)
    is_refused(room, "the segment is missing", "serve", room.served)
    assert not os.listdir(os.path.join(room.served, "journal"))
    os.rename(room.path("aside"), segment)
    room.start()
    room.same(site)


@over_http
def lists_that_were_lost(room: ServerRoom) -> None:
    """Takes each list away, empties it and cuts it while the server is stopped: nothing starts or changes it until it is back."""
    site = room.pushed()
    room.serverd("block", room.served, "user", "bob", "unpaid")
    room.stop()
    for name in LISTS:
        path = os.path.join(room.served, name)
        whole = contents(path)
        os.unlink(path)
        for command in ("serve", "init"):
            is_refused(room, f"{name}: the list is gone", command, room.served)
        if name == "access":
            is_refused(room, "is gone", "grant", room.served, "bob", "*", "rw")
        assert not os.path.exists(path)
        damages = [(b"", "is empty")]
        if name != "owners":
            # The server appends to that one.
            damages += [(whole[:-7], "was cut"), (whole[: len(whole) // 2 + 40], "was cut")]
        for damaged, says in damages:
            write(path, damaged)
            is_refused(room, f"{name}: the list {says}", "serve", room.served)
            assert contents(path) == damaged
        write(path, whole)
    room.start()
    room.same(site)
    room.serverd("unblock", room.served, "user", "bob")
    room.stop()
    room.start()
    room.same(site)


@over_http
def a_list_that_is_lost_while_the_server_runs(room: ServerRoom) -> None:
    """What was read before holds: who is blocked stays so. The log, the status and the metrics tell of it until the list is back."""
    room.pushed()
    room.serverd("block", room.served, "user", "bob", "unpaid since May")
    path = os.path.join(room.served, "blocked")
    whole = contents(path)
    is_blocked(room)
    damages: List[Callable[[], None]] = [lambda: os.unlink(path), lambda: write(path, b""), lambda: write(path, whole[:-7])]
    for damage in damages:
        damage()
        is_blocked(room)
        assert "blocked: the list" in room.serverd("status", room.served).decode()
        assert unread(room) == 1
        write(path, whole)
        assert unread(room) == 0 and "the list" not in room.serverd("status", room.served).decode()
    assert room.logged().count("what was read before holds") == len(damages), room.logged()


def is_blocked(room: ServerRoom) -> None:
    told = room.talk(b"GET /acme/site.git/info/refs?service=git-upload-pack HTTP/1.0\r\n" + room.basic("bob") + b"\r\n")
    assert b" 403 " in told and b"unpaid since May" in told, told


def unread(room: ServerRoom) -> int:
    """How many lists the metrics say that cannot be read, once a request has looked at them."""
    time.sleep(0.01)
    room.talk(b"GET /acme/site.git/info/refs?service=git-upload-pack HTTP/1.0\r\n" + room.basic("alice") + b"\r\n")
    found = re.search(rb"^gitpoold_lists_unread (\S+)$", room.talk(b"GET /metrics HTTP/1.0\r\n\r\n"), re.M)
    assert found, "there is no such metric"
    return int(found[1])


@over_http
def a_folder_of_an_earlier_version(room: ServerRoom) -> None:
    """Has lists without a last line, some empty, one that there was not, and no file that says what was there."""
    site = room.pushed()
    room.stop()
    for name in LISTS:
        path = os.path.join(room.served, name)
        write(path, b"".join(line for line in contents(path).splitlines(keepends=True) if not line.startswith(b"#")))
    for name in ("blocked", "lists-begun", "journal-begun"):
        os.unlink(os.path.join(room.served, name))
    assert contents(os.path.join(room.served, "hooks")) == b""
    room.start()
    room.same(site)
    room.stop()
    os.unlink(os.path.join(room.served, "blocked"))
    is_refused(room, "the list is gone", "serve", room.served)


@over_http
def damaged_answers_are_put_aside(room: ServerRoom) -> None:
    """Damages the answers of streams with tokens: the server starts, says so without the bytes, and begins them anew."""
    site = room.pushed()
    room.stop()
    path = os.path.join(room.served, "answers")
    bad = b"a token \x1b[31m\x00\xff" + bytes(range(128, 160)) + b"\n"
    write(path, bad)
    room.start()
    assert contents(path + ".damaged") == bad
    told = [it for it in room.logged().splitlines() if "answers is damaged" in it]
    assert len(told) == 1 and told[0].isascii() and told[0].isprintable(), told
    room.same(site)
    room.stop()
    shutil.copy(path + ".damaged", path)
    room.start()
    assert contents(path + ".damaged-2") == bad
