"""Scenes of what a user may take in a day: bytes of pushes and fetches, and time of the child."""
from __future__ import annotations

import os
import re

from served import ServerRoom, once, over_http

BYTES = "a limit is passed: this user has moved as many bytes today as a day allows"
CHILD = "a limit is passed: this user has kept the server busy today for as long as a day allows"


def limit(room: ServerRoom, *words: str) -> None:
    room.serverd("limits", room.served, *words)


@once
def a_user_has_the_bytes_of_a_day(room: ServerRoom) -> None:
    """Clones until the day's bytes are gone: then the user is refused, before and after a restart, and others are not."""
    site = room.pushed()
    before = room.tenant_refs()
    limit(room, "daily-bytes", "alice", "20K")
    count = 0
    while not room.run(["git", "clone", "-q", room.url(), f"clone{count}"]).returncode:
        count += 1
        assert count < 50
    for _ in range(2):
        room.fails("", "ls-remote", room.url(), says=BYTES)
        room.fails(site, "push", "-q", room.url(), "main:refs/heads/other", says=BYTES)
        assert room.stop() == 0
        room.start()
    room.git("", "clone", "-q", room.http_url("/acme/site.git", "bob"), "bobs")
    with open(os.path.join(room.served, "usage"), encoding="ascii") as file:
        assert re.fullmatch(r"20..-..-..\n(?:@127.0.0.1 \d+ \S+\n)?alice \d+ \d+\.\d+\n(?:bob \d+ \S+\n)?", file.read())
    limit(room, "daily-bytes", "alice", "default")
    assert room.tenant_refs() == before


@once
def a_fetch_and_a_push_end_where_the_day_does(room: ServerRoom) -> None:
    """A clone and a push of five megabytes, with one left of the day: both end with the sentence, and nothing changes."""
    site = room.pushed()
    room.commit(site, "Large", {f"f{turn}": os.urandom(500_000).hex() for turn in range(5)})
    room.git(site, "push", "-q", room.url(), "main")
    before = room.tenant_refs()
    moved = sum(int(it) for it in re.findall(r" (?:in|out)=(\d+) ", room.logged()))
    limit(room, "daily-bytes", str(moved + 1_000_000))
    room.fails("", "clone", room.url(), "large", says=BYTES)
    assert max(int(it) for it in re.findall(r" out=(\d+) ", room.logged())) < 1_200_000, room.logged()
    limit(room, "daily-bytes", str(moved + 2_500_000))
    room.commit(site, "Another", {f"g{turn}": os.urandom(500_000).hex() for turn in range(5)})
    room.fails(site, "-c", "http.postBuffer=100000000", "push", room.url(), "main", says=BYTES)
    limit(room, "daily-bytes", "default")
    assert room.tenant_refs() == before


@over_http
def a_user_has_the_childs_time_of_a_day(room: ServerRoom) -> None:
    site = room.pushed()
    limit(room, "daily-child", "alice", "1ms")
    room.commit(site, "Large", {"large": os.urandom(2_000_000).hex()})
    count = 0
    while not room.run(["git", "push", "-q", "--force", room.url(), f"main:refs/heads/b{count}"], site).returncode:
        count += 1
        assert count < 50
    room.fails(site, "push", "-q", room.url(), "main", says=CHILD)
    answer = room.talk(b"GET /acme/site.git/info/refs?service=git-upload-pack HTTP/1.0\r\n" + room.basic() + b"\r\n")
    assert b" 429 " in answer and re.search(rb"\r\nRetry-After: [1-9]\d*\r\n", answer) and CHILD.encode() in answer, answer
    limit(room, "daily-child", "alice", "0")
    room.git(site, "push", "-q", room.url(), "main")
