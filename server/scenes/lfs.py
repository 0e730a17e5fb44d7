"""Scenes of Git LFS, by Debian's git-lfs: files and locks over http and ssh, what refuses them, and what a kill, a removal or a backup leaves."""
from __future__ import annotations

import base64
import hashlib
import http.client
import json
import os
import resource
import shutil
import threading
from typing import Any, Dict, List, Optional, Tuple

from backing_up import backup, restored
from commanding import command, token
from in_shards import divide, shards_of
from scenes.room import text, wait_for
from served import PASSWORDS, ServerRoom, once, over_http
from strangers import by_ssh

KIND = "application/vnd.git-lfs+json"
OFF = "this server keeps no files of Git LFS"


def large(room: ServerRoom, name: str = "site", tenant: str = "acme/site") -> str:
    """A worktree in which git-lfs keeps `*.bin`, whose remote is a tenant that keeps large files."""
    room.serverd("limits", room.served, "public-url", f"http://{room.http[0]}:{room.http[1]}")
    room.serverd("lfs", room.served, tenant, "on")
    room.git("", "lfs", "install", "--skip-repo")
    room.init(name)
    room.git(name, "lfs", "track", "*.bin")
    room.git(name, "remote", "add", "origin", room.url(tenant))
    return name


def put(room: ServerRoom, at: str, files: Dict[str, bytes]) -> None:
    """Commits files."""
    for path, contents in files.items():
        with open(room.path(at, path), "wb") as file:
            file.write(contents)
    room.commit(at)


def got(room: ServerRoom, at: str, path: str) -> bytes:
    """The contents of a file of a worktree."""
    with open(room.path(at, path), "rb") as file:
        return file.read()


def files_of(room: ServerRoom, tenant: str = "acme/site") -> List[str]:
    """The large files of a tenant on the server's disk."""
    found: List[str] = []
    for _, _, names in os.walk(os.path.join(room.served, "lfs-objects", tenant.replace("/", "."))):
        found += [it for it in names if len(it) == 64]
    return sorted(found)


def left(room: ServerRoom) -> List[str]:
    """What the server has of files that are not kept."""
    folder = os.path.join(room.served, "lfs-objects", ".new")
    return os.listdir(folder) if os.path.isdir(folder) else []


def oid(contents: bytes) -> str:
    """The name of a file."""
    return hashlib.sha256(contents).hexdigest()


class Client:
    """A client of a tenant that says what it likes."""

    def __init__(self, room: ServerRoom, tenant: str = "acme/site", user: str = "alice", authorization: str = ""):
        self.room, self.tenant, self.authorization = room, tenant, authorization
        if user and not authorization:
            self.authorization = "Basic " + base64.b64encode(f"{user}:{PASSWORDS[user]}".encode()).decode()

    def ask(self, method: str, path: str, body: Optional[bytes] = None, **heads: str) -> Tuple[int, Dict[str, str], bytes]:
        """The answer to a request: its status, its heads in small letters, and its body."""
        sent = {it.replace("_", "-"): value for it, value in heads.items()}
        if self.authorization:
            sent["Authorization"] = self.authorization
        connection = http.client.HTTPConnection(*self.room.http, timeout=60)
        try:
            connection.request(method, f"/{self.tenant}.git/info/lfs/{path}", body, sent)
            answer = connection.getresponse()
            return answer.status, {name.lower(): value for name, value in answer.getheaders()}, answer.read()
        finally:
            connection.close()

    def say(self, path: str, words: Any, method: str = "POST") -> Tuple[int, Any]:
        """The status and the JSON of an answer to JSON."""
        status, heads, body = self.ask(method, path, json.dumps(words).encode() if not isinstance(words, bytes) else words, Content_Type=KIND)
        assert heads["content-type"] == KIND, (path, heads, body)
        return status, json.loads(body)

    def batch(self, operation: str, *objects: Tuple[str, int], **more: Any) -> Tuple[int, Any]:
        """The answer to a batch."""
        return self.say("objects/batch", {"operation": operation, "objects": [{"oid": name, "size": size} for name, size in objects], **more})

    def put(self, contents: bytes, name: str = "") -> Tuple[int, str]:
        """The status of an upload, and the sentence that refuses it."""
        status, _, body = self.ask("PUT", "objects/" + (name or oid(contents)), contents)
        return status, json.loads(body).get("message", "")

    def get(self, contents: bytes, part: str = "") -> Tuple[int, bytes]:
        """The status and the body of a download of a file, or of a part of it."""
        status, _, body = self.ask("GET", "objects/" + oid(contents), None, **({"Range": part} if part else {}))
        return status, body


@once
def large_files_are_pushed_and_cloned(room: ServerRoom) -> None:
    """Files of a kilobyte to 50 MB come back as they were; those that the server has are not sent again; parts of one can be asked for."""
    site = large(room)
    files = {f"{size}.bin": os.urandom(size) for size in (1000, 1_000_000, 50_000_000)}
    put(room, site, files)
    room.git(site, "push", "-q", "origin", "main")
    assert files_of(room) == sorted(oid(it) for it in files.values()) and not left(room)
    clone = room.path("clone")
    room.git("", "clone", "-q", room.url(), clone)
    for path, contents in files.items():
        assert got(room, clone, path) == contents, path
    put(room, clone, {"copy.bin": files["1000.bin"], "new.bin": b"new"})
    said = room.git(clone, "push", "origin", "main", GIT_TRACE="1", GIT_CURL_VERBOSE="1")
    assert len(files_of(room)) == 4, said
    room.git(site, "lfs", "fsck")
    client = Client(room)
    contents = files["1000000.bin"]
    assert client.get(contents, "bytes=10-19") == (206, contents[10:20]) and client.get(contents, "bytes=-5") == (206, contents[-5:])
    assert f" lfs {sum(len(it) + 4096 for it in files.values()) + 3 + 4096} " in room_status(room)


def room_status(room: ServerRoom) -> str:
    """What the server says of the large files of its tenants."""
    return text(room.serverd("tenants", room.served))


@once
def large_files_are_refused_where_they_are_off(room: ServerRoom) -> None:
    """A tenant that keeps no large files says so, beside others that do, and after it was switched off; what it has stays."""
    site = large(room)
    put(room, site, {"a.bin": b"first"})
    room.git(site, "push", "-q", "origin", "main")
    room.fails(site, "push", room.url("acme/other"), "main", says=OFF)
    room.serverd("lfs", room.served, "acme/site", "off")
    put(room, site, {"b.bin": b"second"})
    room.fails(site, "push", "origin", "main", says=OFF)
    assert files_of(room) == [oid(b"first")]
    room.serverd("lfs", room.served, "acme/*", "on")
    assert text(room.serverd("lfs", room.served)) == "acme/*"
    room.git(site, "push", "-q", "origin", "main")
    assert len(files_of(room)) == 2
    assert command(room, "lfs", "acme/site", "off")[0] == 1 and command(room, "lfs", "a//b", "on")[0] == 1


def with_bob(room: ServerRoom) -> None:
    """Lets bob push, also over ssh."""
    room.run(["ssh-keygen", "-q", "-t", "ed25519", "-N", "", "-f", "bobs"])
    room.serverd("user", room.served, "bob", "--key", room.path("bobs.pub"))
    room.serverd("grant", room.served, "bob", "acme/site", "rw")


@once
def two_users_lock_files(room: ServerRoom) -> None:
    """A lock of one user halts the other one's push; only force takes it; locks outlive a kill of the server."""
    site = large(room)
    with_bob(room)
    put(room, site, {"a.bin": b"one", "b.bin": b"two"})
    room.git(site, "push", "-q", "origin", "main")
    room.git(site, "lfs", "lock", "a.bin")
    room.process.kill()
    room.process.wait()
    room.start()
    room.serverd("limits", room.served, "public-url", f"http://{room.http[0]}:{room.http[1]}")
    room.environment["GIT_SSH_COMMAND"] = room.environment["GIT_SSH_COMMAND"].replace(room.path("key"), room.path("bobs"))
    url = room.url(user="bob")
    room.git("", "clone", "-q", url, "bob")
    listed = text(room.git("bob", "lfs", "locks"))
    assert "a.bin" in listed and "alice" in listed, listed
    room.fails("bob", "lfs", "lock", "a.bin", says="")
    put(room, "bob", {"a.bin": b"bob's"})
    room.git("bob", "config", "lfs.locksverify", "true")
    room.fails("bob", "push", "origin", "main", says="Cannot update locked files")
    room.fails("bob", "lfs", "unlock", "a.bin", says="")
    room.git("bob", "lfs", "unlock", "--force", "a.bin")
    room.git("bob", "push", "-q", "origin", "main")
    assert not room.git("bob", "lfs", "locks")


@over_http
def pages_of_locks(room: ServerRoom) -> None:
    """Locks are listed page by page, also where some go between two pages; each user's own are told apart."""
    large(room)
    with_bob(room)
    alice, bob = Client(room), Client(room, user="bob")
    for number in range(25):
        status, made = (bob if number % 5 == 0 else alice).say("locks", {"path": f"d/{number} \u00e4.bin", "ref": {"name": "refs/heads/main"}})
        assert status == 201 and made["lock"]["owner"]["name"] == ("bob" if number % 5 == 0 else "alice"), made
    status, clash = bob.say("locks", {"path": "d/1 \u00e4.bin"})
    assert status == 409 and clash["lock"]["owner"]["name"] == "alice" and "locked already" in clash["message"], clash
    seen, cursor = [], ""
    while True:
        answer = json.loads(alice.ask("GET", f"locks?limit=10&cursor={cursor}")[2])
        seen += [it["path"] for it in answer["locks"]]
        if "next_cursor" not in answer:
            break
        cursor = answer["next_cursor"]
        assert alice.say(f"locks/{answer['locks'][3]['id']}/unlock", {})[0] in (200, 403)
        assert alice.say(f"locks/{cursor}/unlock", {"force": True})[0] == 200
    assert seen == [f"d/{number} \u00e4.bin" for number in range(25) if number not in (10, 21)], seen
    answer = alice.say("locks/verify", {"limit": 1000})[1]
    assert {it["owner"]["name"] for it in answer["ours"]} == {"alice"} and {it["owner"]["name"] for it in answer["theirs"]} == {"bob"}, answer
    theirs = answer["theirs"][0]
    assert json.loads(alice.ask("GET", f"locks?id={theirs['id']}")[2])["locks"] == [theirs]
    assert alice.say(f"locks/{theirs['id']}/unlock", {})[0] == 403 and alice.say("locks/17/unlock", {})[0] == 404
    for path in ("", "x" * 1025, "a\nb", "a\x00", 7, None):
        assert alice.say("locks", {"path": path})[0] == 422, path
    room.serverd("grant", room.served, "bob", "acme/site", "r")
    assert bob.say("locks", {"path": "new"})[0] == 403 and bob.say("locks/verify", {})[0] == 403 and bob.ask("GET", "locks")[0] == 200
    assert bob.say(f"locks/{theirs['id']}/unlock", {})[0] == 403


@over_http
def a_token_of_reading_fetches_large_files_alone(room: ServerRoom) -> None:
    """A token that may read fetches and sends nothing, one of another tenant is told of no repository, and one that is removed is no token."""
    site = large(room)
    put(room, site, {"a.bin": b"first"})
    room.git(site, "push", "-q", "origin", "main")
    reading, other = token(room, "alice", "acme/site", "r", "1d"), token(room, "alice", "acme/other", "rw", "1d")
    base = f"http://{reading}@{room.http[0]}:{room.http[1]}/acme/site.git"
    room.git("", "clone", "-q", base, "clone")
    assert got(room, "clone", "a.bin") == b"first"
    put(room, "clone", {"b.bin": b"second"})
    room.fails("clone", "push", base, "main", says="you may read this repository, and not push to it")
    reader = Client(room, authorization="Basic " + base64.b64encode(reading.encode()).decode())
    assert reader.put(b"second")[0] == 403 and reader.batch("upload", (oid(b"second"), 6))[0] == 403
    stranger = Client(room, authorization="Basic " + base64.b64encode(other.encode()).decode())
    assert stranger.batch("download", (oid(b"first"), 5))[0] == 404 == stranger.get(b"first")[0]
    action = reader.batch("download", (oid(b"first"), 5))[1]["objects"][0]["actions"]["download"]
    passing = Client(room, authorization=action["header"]["Authorization"])
    assert passing.get(b"first") == (200, b"first") and passing.put(b"second")[0] == 403 and 0 < action["expires_in"] <= 1800
    assert Client(room, "acme/other", authorization=passing.authorization).get(b"first")[0] == 401
    room.serverd("token", room.served, "remove", reading.split(":")[0])
    assert passing.get(b"first")[0] == 401 == reader.get(b"first")[0]
    assert files_of(room) == [oid(b"first")] and not left(room)


def passed(room: ServerRoom, words: str = "/acme/site.git upload", key: str = "key", status: int = 0) -> str:
    """What git-lfs-authenticate answers over ssh: the header, or the sentence that refuses it."""
    done = by_ssh(room, room.path(key), "git", "git-lfs-authenticate " + words, b"")
    assert done.returncode == status, done
    return text(done.stderr) if status else str(json.loads(done.stdout)["header"]["Authorization"])


@over_http
def passes_hold_as_long_as_the_key(room: ServerRoom) -> None:
    """What git-lfs-authenticate gives holds for its tenant, its right, and as long as the user has the key, is not blocked, and the server runs."""
    large(room)
    room.serverd("lfs", room.served, "acme/other", "on")
    client = Client(room, authorization=passed(room))
    assert client.put(b"first") == (200, "") and client.get(b"first") == (200, b"first")
    assert Client(room, authorization=passed(room, "acme/site download")).put(b"second")[0] == 403
    assert Client(room, "acme/other", authorization=client.authorization).put(b"second")[0] == 401
    for wrong in (client.authorization[:-3], client.authorization[:20] + "A" + client.authorization[21:], "Bearer ", "Bearer .", "Bearer x.y"):
        assert Client(room, authorization=wrong).get(b"first")[0] == 401, wrong
    room.serverd("block", room.served, "user", "alice", "unpaid")
    assert client.get(b"first")[0] == 403
    room.serverd("unblock", room.served, "user", "alice")
    assert client.get(b"first")[0] == 200
    assert "upload or download" in passed(room, "acme/site push", status=2) and "upload or download" in passed(room, "", status=2)
    assert OFF in passed(room, "open/site upload", status=1) and "no such repository" in passed(room, "'a//b' upload", status=1)
    room.serverd("limits", room.served, "public-url", "default")
    assert "public-url" in passed(room, status=1)
    fingerprint = text(room.serverd("users", room.served)).split("alice key ssh-ed25519 ")[1].split()[0]
    room.serverd("user", room.served, "alice", "--remove-key", fingerprint)
    assert client.get(b"first")[0] == 401
    room.serverd("user", room.served, "alice", "--key", room.path("key.pub"))
    assert client.get(b"first")[0] == 200
    room.stop()
    room.start()
    assert client.get(b"first")[0] == 401


@once
def large_files_count_in_the_quota(room: ServerRoom) -> None:
    """Files fill the quota to the byte and not beyond, count for pushes too, and are told by `tenants`."""
    site = large(room)
    put(room, site, {"a.bin": os.urandom(300_000)})
    room.git(site, "push", "-q", "origin", "main")
    room.serverd("limits", room.served, "quota", "acme/site", "500000")
    put(room, site, {"b.bin": os.urandom(300_000)})
    room.fails(site, "push", "origin", "main", says="quota")
    assert len(files_of(room)) == 1 and not left(room)
    used = sum(int(room_status(room).split(f" {word} ")[1].split()[0]) for word in ("bytes", "lfs"))
    client = Client(room)
    room.serverd("limits", room.served, "quota", "acme/site", str(used + 4096 + 1000))
    assert client.put(os.urandom(1001))[0] == 507 and client.batch("upload", (oid(b"x"), 1001))[1]["objects"][0]["error"]["code"] == 507
    both = client.batch("upload", (oid(b"x"), 1), (oid(b"y"), 1))[1]["objects"]
    assert "actions" in both[0] and both[1]["error"]["code"] == 507, both
    assert client.put(os.urandom(1000)) == (200, "") and client.put(b"")[0] == 507
    room.fails(site, "push", "--no-verify", "origin", "main:refs/heads/other", says="quota")
    room.serverd("limits", room.served, "quota", "acme/site", "default")
    room.git(site, "push", "-q", "origin", "main")
    room.serverd("limits", room.served, "lfs-bytes", "1000")
    assert client.put(os.urandom(1001))[0] == 413
    room.serverd("limits", room.served, "user-bytes", "alice", "500000")
    room.serverd("lfs", room.served, "acme/new", "on")
    assert client.put(os.urandom(1000))[0] == 507 == Client(room, "acme/new").put(b"x")[0]


@once
def a_tenant_that_is_made_anew_has_no_large_files_of_before(room: ServerRoom) -> None:
    """What a removed tenant had is off the disk at once, its locks too; also that of a tenant to which no push came."""
    site = large(room)
    put(room, site, {"a.bin": b"first"})
    room.git(site, "push", "-q", "origin", "main")
    room.git(site, "lfs", "lock", "a.bin")
    room.serverd("remove", room.served, "acme/site")
    client = Client(room)
    assert client.get(b"first")[0] == 404 and not os.path.exists(os.path.join(room.served, "lfs-objects", "acme.site")) and not left(room)
    room.git(site, "push", "-q", "--no-verify", "origin", "main")
    assert client.get(b"first")[0] == 404 and json.loads(client.ask("GET", "locks")[2]) == {"locks": []}
    room.fails("", "clone", "-q", room.url(), "clone", says="")
    room.git(site, "lfs", "push", "--all", "origin")
    assert client.get(b"first") == (200, b"first")
    room.serverd("lfs", room.served, "acme/empty", "on")
    assert Client(room, "acme/empty").put(b"alone") == (200, "")
    room.serverd("remove", room.served, "acme/empty")
    assert Client(room, "acme/empty").get(b"alone")[0] == 404 and command(room, "remove", "acme/empty")[0] == 1


@once
def backups_and_copies_have_large_files(room: ServerRoom) -> None:
    """A backup brings files and locks back, a copy has the files and no locks, and a move between shards leaves them where they are."""
    divide(room, 2)
    site = large(room)
    contents = os.urandom(100_000)
    put(room, site, {"a.bin": contents})
    room.git(site, "push", "-q", "origin", "main")
    room.git(site, "lfs", "lock", "a.bin")
    backup(room, room.path("kept"))
    room.serverd("copy", room.served, "acme/site", "acme/fork")
    room.serverd("lfs", room.served, "acme/fork", "on")
    room.serverd("move", room.served, "acme/site", str(3 - shards_of(room)["acme/site"]))
    fork = Client(room, "acme/fork")
    assert fork.get(contents) == (200, contents) == Client(room).get(contents) and json.loads(fork.ask("GET", "locks")[2]) == {"locks": []}
    room.serverd("remove", room.served, "acme/site")
    assert fork.get(contents) == (200, contents)
    room.git("", "clone", "-q", room.url("acme/fork"), "fork")
    assert got(room, "fork", "a.bin") == contents
    backup(room, room.path("kept"), "--keep", "2")
    assert room.stop() == 0
    room.served = restored(room, room.path("kept"), sorted(it for it in os.listdir(room.path("kept")) if it.endswith("Z"))[0])
    room.start()
    client = Client(room)
    assert client.get(contents) == (200, contents) and [it["path"] for it in json.loads(client.ask("GET", "locks")[2])["locks"]] == ["a.bin"]


UPLOADING = ("before a large file is written", "before a large file is synced", "before a large file has its name", "after a large file has its name",
             "after the name of a large file is synced")
LOCKING = ("before locks are written", "after locks are written")
REMOVING = ("before a removal of large files is noted", "after a removal of large files is noted", "before a request of the operator is sent",
            "before large files are out of sight", "after large files are out of sight")


def again(room: ServerRoom, point: str = "") -> None:
    """Starts the server after it was killed, so that it is killed at a fault point next."""
    if room.process.poll() is None:
        assert room.stop() == 0
    room.environment["GITPOOLD_FAULT"] = f"server:{point}"
    room.start()
    del room.environment["GITPOOLD_FAULT"]
    room.serverd("limits", room.served, "public-url", f"http://{room.http[0]}:{room.http[1]}")


def is_killed(room: ServerRoom, act: Any) -> None:
    """Asks for something during which the server is killed."""
    try:
        act()
    except (http.client.HTTPException, OSError, AssertionError):
        pass
    assert room.process.wait(60) == -9, room.logged()


def bytes_of_files(room: ServerRoom, tenant: str = "acme/site") -> int:
    """How many bytes count for the files of a tenant."""
    lines = [it for it in room_status(room).splitlines() if it.startswith(tenant + " ") and " lfs " in it]
    return int(lines[0].split(" lfs ")[1].split()[0]) if lines else 0


@over_http
def kills_of_uploads_and_locks(room: ServerRoom) -> None:
    """Kills the server at each step of an upload and of a lock: it is there or not, nothing else is left, and what is tried again is done once."""
    room.server_program = os.environ.get("GITPOOLD_FAULTPOINTS", "")
    if not room.server_program:
        return
    large(room)
    for number, point in enumerate(UPLOADING, 1):
        again(room, point)
        contents = os.urandom(5000)
        is_killed(room, lambda: Client(room).put(contents))
        again(room)
        assert not left(room) and (oid(contents) in files_of(room)) == (number > 3), point
        assert bytes_of_files(room) == len(files_of(room)) * (5000 + 4096), point
        assert Client(room).put(contents) == (200, "") and Client(room).get(contents) == (200, contents)
        assert len(files_of(room)) == number and bytes_of_files(room) == number * (5000 + 4096) and not left(room), point
    for point in LOCKING:
        again(room, point)
        is_killed(room, lambda: Client(room).say("locks", {"path": point}))
        again(room)
        assert [it["path"] for it in json.loads(Client(room).ask("GET", "locks")[2])["locks"]] == ([point] if "after" in point else [])


@over_http
def kills_of_removals(room: ServerRoom) -> None:
    """Kills the server at each step of a removal: the tenant has its objects, its files and its locks, or nothing."""
    room.server_program = os.environ.get("GITPOOLD_FAULTPOINTS", "")
    if not room.server_program:
        return
    site = large(room)
    put(room, site, {"a.bin": b"first"})
    for number, point in enumerate(REMOVING, 1):
        again(room, point)
        room.git(site, "push", "-q", "--no-verify", room.url(), "main")
        Client(room).put(b"first")
        Client(room).say("locks", {"path": "a.bin"})
        is_killed(room, lambda: room.serverd("remove", room.served, "acme/site"))
        again(room)
        has = number < 3
        assert bool(room.tenant_refs()) == has and (Client(room).get(b"first")[0] == 200) == has and not left(room), point
        assert bool(json.loads(Client(room).ask("GET", "locks")[2])["locks"]) == has and bytes_of_files(room) == has * (5 + 4096), point


@once
def a_push_of_large_files_that_is_killed_is_pushed_again(room: ServerRoom) -> None:
    """Kills the server while git-lfs sends a file: the push fails, and the next one brings all."""
    room.server_program = os.environ.get("GITPOOLD_FAULTPOINTS", "")
    if not room.server_program:
        return
    site = large(room)
    contents = os.urandom(5_000_000)
    put(room, site, {"a.bin": contents})
    again(room, "before a large file is synced")
    room.git(site, "remote", "set-url", "origin", room.url())
    room.fails(site, "push", "origin", "main", says="error")
    assert room.process.wait(60) == -9 and left(room)
    again(room)
    assert not left(room) and not files_of(room)
    room.git(site, "remote", "set-url", "origin", room.url())
    room.git(site, "push", "-q", "origin", "main")
    room.git("", "clone", "-q", room.url(), "clone")
    assert got(room, "clone", "a.bin") == contents


@over_http
def uploads_that_are_not_what_they_say(room: ServerRoom) -> None:
    """Files of other bytes, names and lengths, cut ones and ones without an end: a number and a sentence each, and nothing of them is kept."""
    large(room)
    client = Client(room)
    name = oid(b"good")
    for wrong in (b"evil", b"goo", b"good and more", b""):
        status, said = client.put(wrong, name)
        assert (status, "other bytes" in said) == (422, True), (wrong, status, said)
    for odd in (name.upper(), name[:-1], name + "0", "../" + name, "..%2f..%2f" + name, "%2e%2e/locks", "batch/" + name, name + "%00", "verify"):
        assert client.put(b"good", odd)[0] == 422, odd
        assert client.ask("GET", "objects/" + odd)[0] == 422, odd
    head = f"PUT /acme/site.git/info/lfs/objects/{name} HTTP/1.1\r\nHost: x\r\n".encode() + room.basic()
    assert b" 411 " in room.talk(head + b"Connection: close\r\nTransfer-Encoding: chunked\r\n\r\n4\r\ngood\r\n0\r\n\r\n")
    for length, number in ((10**12, b" 413 "), (2**30, b" 507 "), (10**30, b" 400 "), (-1, b" 400 ")):
        assert number in room.talk(head + b"Connection: close\r\nContent-Length: %d\r\n\r\n" % length + bytes(300_000)), length
    with room.socket() as cut:
        cut.sendall(head + b"Content-Length: 1000\r\n\r\nabc")
    room.serverd("limits", room.served, "idle", "2s")
    assert room.talk(head + b"Content-Length: 1000\r\n\r\nsilent") == b""
    room.serverd("limits", room.served, "idle", "default")
    wait_for(lambda: not left(room))
    assert not files_of(room) and bytes_of_files(room) == 0
    room.serverd("lfs", room.served, "acme/other", "on")
    assert Client(room, "acme/other").put(b"good") == (200, "")
    assert client.get(b"good")[0] == 404 and client.say("objects/verify", {"oid": name, "size": 4})[0] == 404
    assert "actions" in client.batch("upload", (name, 4))[1]["objects"][0]
    other = Client(room, "acme/other")
    assert other.say("objects/verify", {"oid": name, "size": 4})[0] == 200 and other.say("objects/verify", {"oid": name, "size": 5})[0] == 422


@over_http
def words_that_are_none_of_git_lfs(room: ServerRoom) -> None:
    """Batches of a million names, JSON without an end or of other forms, ranges that lie, methods and addresses that there are not."""
    large(room)
    client = Client(room)
    assert client.put(b"good") == (200, "")
    good = {"oid": oid(b"good"), "size": 4}
    one = json.dumps(good).encode()
    status, answer = client.say("objects/batch", {"operation": "download", "objects": [good] * 1000})
    assert status == 200 and len(answer["objects"]) == 1000
    for words, status in (({"operation": "download", "objects": [good] * 1001}, 413),
                          (b"[" * 1_000_000, 422), (b"", 422), (b"null", 422), (b'{"objects":3}', 422),
                          ({"operation": "remove", "objects": []}, 422), ({"operation": "upload", "hash_algo": "sha1", "objects": []}, 409),
                          ({"operation": "upload", "transfers": ["ssh"], "objects": []}, 422),
                          (b'{"operation":"upload","objects":[{"size":1e99}]}', 422),
                          ({"operation": "upload", "transfers": ["ssh", "basic"], "objects": []}, 200)):
        assert client.say("objects/batch", words)[0] == status, (str(words)[:100], status)
    head = f"POST /acme/site.git/info/lfs/objects/batch HTTP/1.1\r\nHost: x\r\nContent-Type: {KIND}\r\n".encode() + room.basic()
    for words in (b'{"operation":"download","objects":[' + b",".join([one] * 1_000_000) + b"]}", b" " * 100_000_000, b'{"a":' * 300_000):
        assert b" 413 " in room.talk(head + b"Content-Length: %d\r\n\r\n" % len(words) + words)
    for operation, words, code in (("download", (oid(b"x"), 1), 404), ("download", (oid(b"good"), 5), 422), ("download", ("../locks", 1), 422),
                                   ("upload", (oid(b"x").upper(), 1), 422), ("upload", (oid(b"x"), -1), 422), ("upload", (oid(b"x"), 2**62), 413)):
        reply = client.batch(operation, words)[1]["objects"][0]
        assert reply["error"]["code"] == code and reply["error"]["message"] and "actions" not in reply, reply
    assert "actions" not in client.batch("upload", (oid(b"good"), 4))[1]["objects"][0]
    for ranges, status in (("bytes=1-2", 206), ("bytes=9-10", 416), ("bytes=3-1", 416), ("bytes=-0", 200),
                           ("bytes=" + "9" * 40 + "-", 200), ("lines=1", 200),
                           ("bytes=0-0,2-2", 200), ("bytes=0-" + "9" * 18, 206)):
        found = client.get(b"good", ranges)
        assert found[0] == status and (status != 206 or found[1] in b"good"), (ranges, found)
    for method, path, status in (("DELETE", "objects/" + oid(b"good"), 405), ("GET", "objects/batch", 422), ("GET", "", 404),
                                 ("POST", "locks/1/2/unlock", 404)):
        assert client.ask(method, path)[0] == status, (method, path)
    assert client.ask("POST", "locks", b'{"path":"a"}', Content_Type="text/plain")[0] == 415
    stranger = Client(room, user="")
    assert stranger.get(b"good")[0] == 401 == stranger.put(b"x")[0] and Client(room, "secret/x", "bob").get(b"good")[0] == 404
    assert Client(room, "secret/x", "").get(b"good")[0] == 401


@over_http
def uploads_of_many_at_once(room: ServerRoom) -> None:
    """Twelve clients send the same file at once, beside twelve that send nothing: it is kept and counted once, and nobody waits."""
    large(room)
    with_bob(room)
    contents, told = os.urandom(2_000_000), []
    head = f"PUT /acme/site.git/info/lfs/objects/{oid(b'x')} HTTP/1.1\r\nHost: x\r\nContent-Length: 1000\r\n".encode() + room.basic() + b"\r\n"
    # Whoever has logged in waits for no hash of a password.
    assert {Client(room, user=user).ask("GET", "locks")[0] for user in ("alice", "bob")} == {200}
    silent = [room.socket() for _ in range(12)]
    for it in silent:
        it.sendall(head)

    def send(user: str) -> None:
        told.append(Client(room, user=user).put(contents))

    clients = [threading.Thread(target=send, args=(user,)) for user in ("alice", "bob") * 6]
    for thread in clients:
        thread.start()
    for thread in clients:
        thread.join()
    assert told == [(200, "")] * 12, told
    for it in silent:
        it.close()
    wait_for(lambda: not left(room))
    assert files_of(room) == [oid(contents)] and bytes_of_files(room) == len(contents) + 4096


@over_http
def disks_without_room_for_large_files(room: ServerRoom) -> None:
    """A file that may not grow is refused with a sentence; a folder that is removed under the server is made again."""
    large(room)
    client = Client(room)
    soft, hard = resource.prlimit(room.process.pid, resource.RLIMIT_FSIZE, (100_000, resource.RLIM_INFINITY))
    status, said = client.put(os.urandom(200_000))
    assert (status, said) == (507, "the server's disk is full; nothing was kept") and not left(room), (status, said)
    resource.prlimit(room.process.pid, resource.RLIMIT_FSIZE, (soft, hard))
    assert client.put(b"good") == (200, "") and client.say("locks", {"path": "a"})[0] == 201
    shutil.rmtree(os.path.join(room.served, "lfs-objects"))
    assert client.get(b"good")[0] == 404 and client.batch("download", (oid(b"good"), 4))[1]["objects"][0]["error"]["code"] == 404
    assert client.put(b"good") == (200, "") and client.get(b"good") == (200, b"good") and client.say("locks", {"path": "a"})[0] == 201
    shutil.rmtree(os.path.join(room.served, "lfs-objects"))
    with open(os.path.join(room.served, "lfs-objects"), "wb"):
        pass
    status, said = client.put(b"good")
    assert (status, said) == (500, "the server could not do this; its log says why") and "not a directory" in room.logged(), (status, said)
    assert room.tenant_refs() == {}
