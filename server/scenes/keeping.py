"""Scenes of what lasts: kills, full disks, damaged journals, saves; each beside a bare repository that gets what was told."""
from __future__ import annotations

import contextlib
import glob
import os
import random
import resource
import signal
import socket
import struct
import subprocess
import threading
import time
import urllib.request
from typing import Callable, Dict, Iterator, List, Tuple

from attacks import MIB, command, entry
from scenes.room import text, wait_for
from served import ServerRoom, everything, once, over_http


def child_of(room: ServerRoom) -> int:
    """The process of the server's child, 0 while there is none."""
    lines = dict(line.split(None, 1) for line in text(room.serverd("status", room.served)).splitlines())
    return int(lines["child"])


def kill(room: ServerRoom, whom: str) -> None:
    """Kills the server, its child, or both, and starts the server again where it is dead."""
    child = child_of(room)
    if whom != "server" and child:
        os.kill(child, signal.SIGKILL)
    if whom != "child":
        room.process.kill()
        room.process.wait()
        room.start()


class Pusher:
    """Somebody who pushes one commit after another to a tenant of his own, and to a bare repository what he was told to be there."""

    def __init__(self, room: ServerRoom, number: int):
        self.room, self.tenant = room, f"acme/t{number}"
        self.at, self.bare = room.init(f"work{number}"), f"bare{number}"
        room.git("", "init", "-q", "--bare", self.bare)
        self.told = ""
        self.tried = ""

    def push(self) -> bool:
        """Pushes a commit on top of what was told last. Gives whether it was told."""
        room = self.room
        self.tried = room.commit(self.at, f"After {self.told}", {f"f{random.randrange(5)}": str(random.random())})
        done = room.run(["git", "push", "-q", "--force", room.url(self.tenant), "HEAD:refs/heads/main"], self.at)
        if done.returncode == 0:
            self.told = self.tried
            room.git(self.at, "push", "-q", "--force", room.path(self.bare), "HEAD:refs/heads/main")
        elif self.told:
            room.git(self.at, "reset", "-q", "--hard", self.told)
        return done.returncode == 0

    def judge(self) -> None:
        """Asks that the tenant has what was told, or the push that was under way: whole, and nothing else."""
        refs = self.room.tenant_refs(self.tenant)
        name = refs.get("refs/heads/main", "")
        assert name in (self.told, self.tried), f"{self.tenant} has {refs}; {self.told} was told, {self.tried} tried"
        if name and name != self.told:
            self.room.git(self.at, "push", "-q", "--force", self.room.path(self.bare), f"{name}:refs/heads/main")
            self.told = name
        if name:
            mirror = self.room.path(f"judged{time.monotonic_ns()}")
            self.room.git("", "clone", "-q", "--mirror", self.room.url(self.tenant), mirror)
            self.room.git(mirror, "fsck", "--strict")
            assert self.room.refs(mirror) == self.room.refs(self.bare)


def tried_kills(room: ServerRoom, whom: str, seconds: float) -> None:
    pushers = [Pusher(room, number) for number in range(2)]
    over = threading.Event()

    def work(pusher: Pusher) -> None:
        while not over.is_set():
            pusher.push()

    for turn in range(3):
        over.clear()
        threads = [threading.Thread(target=work, args=(pusher,)) for pusher in pushers]
        for thread in threads:
            thread.start()
        time.sleep(random.uniform(0.1, seconds))
        if turn == 1:
            room.serverd("save", room.served)
        kill(room, whom)
        over.set()
        for thread in threads:
            thread.join()
        for pusher in pushers:
            pusher.judge()
    assert any(pusher.told for pusher in pushers), "no push was told"


@over_http
def a_killed_server_keeps_what_it_told(room: ServerRoom) -> None:
    tried_kills(room, "server", 0.8)


@over_http
def a_killed_child_loses_nothing(room: ServerRoom) -> None:
    tried_kills(room, "child", 0.8)


@over_http
def both_killed_keep_what_was_told(room: ServerRoom) -> None:
    tried_kills(room, "both", 0.8)


@over_http
def kills_at_fault_points(room: ServerRoom) -> None:
    """Kills a server that has fault points at some of them, in a push and in a save."""
    faults = os.environ.get("GITPOOLD_FAULTPOINTS")
    if not faults:
        return
    room.stop()
    room.server_program = faults
    pusher = Pusher(room, 0)
    points = [int(word) for word in os.environ.get("GITPOOLD_POINTS", "3 8 12 15 16 20 24 33 36 38 40").split()]
    for point in points:
        room.environment["GITPOOLD_FAULT"] = f"{('server', 'both')[point % 2]}:{point}"
        room.start()
        for _ in range(4):
            told = pusher.push()
            saved = room.run([room.server_program, "save", room.served]).returncode == 0
            if not told or not saved:
                break
        if room.process.poll() is None:
            room.process.kill()
        room.process.wait()
        room.environment.pop("GITPOOLD_FAULT")
        room.start()
        pusher.judge()
        assert pusher.push(), room.logged()[-500:]
        assert room.stop() == 0


def limit_files(room: ServerRoom, size: int) -> None:
    """Lets no file of the server grow beyond a size, as on a full disk."""
    resource.prlimit(room.process.pid, resource.RLIMIT_FSIZE, (size, resource.RLIM_INFINITY))


@over_http
def a_full_disk_refuses_pushes_and_reading_goes_on(room: ServerRoom) -> None:
    site = room.pushed()
    limit_files(room, os.path.getsize(max(glob.glob(os.path.join(room.served, "journal", "*")))) + 15000)
    sentence = "the server cannot write its journal; nothing of this push was kept"
    told = fill(room, site, 5000)
    for _ in range(2):
        room.fails(site, "push", "-q", "pool", "main", says=sentence)
        assert room.tenant_refs() == told
    room.git("", "clone", "-q", room.url(), "while")
    limit_files(room, resource.RLIM_INFINITY)
    room.git(site, "push", "-q", "pool", "main")
    kill(room, "both")
    room.same(site)
    assert "the journal cannot be written: " in room.logged() and 'a push by \\"alice\\" to acme/site failed: ' in room.logged()


def fill(room: ServerRoom, site: str, size: int) -> Dict[str, str]:
    """Pushes commits of so many bytes until one is refused, and gives the refs that were told before."""
    told = room.tenant_refs()
    for turn in range(12):
        room.commit(site, f"More {turn}", {f"f{turn}": os.urandom(size // 2).hex()})
        if room.run(["git", "push", "-q", "pool", "main"], site).returncode:
            return told
        told = room.tenant_refs()
    raise AssertionError("every push was taken")


def on_a_disk(room: ServerRoom, megabytes: int, play: Callable[[ServerRoom], None]) -> None:
    """Plays with a server whose folder is on a file system of so many megabytes; without the right to mount one, nothing."""
    place = room.path("small")
    os.mkdir(place)
    if subprocess.run(["mount", "-t", "tmpfs", "-o", f"size={megabytes}m", "tmpfs", place], capture_output=True).returncode:
        return
    try:
        room.stop()
        room.served = os.path.join(place, "served")
        for name in ("key", "key.pub"):
            os.unlink(room.path(name))
        room.set_up()
        room.start()
        play(room)
    finally:
        room.process.kill()
        room.process.wait()
        # The child of a server that was killed takes a moment to end, and has files open there until then.
        wait_for(lambda: subprocess.run(["umount", place], capture_output=True).returncode == 0)


@over_http
def a_small_disk(room: ServerRoom) -> None:
    """Fills a file system of some megabytes with pushes: the last one is refused, the others last, a save that fails harms nothing."""
    on_a_disk(room, 6, fill_and_judge)


@over_http
def a_push_leaves_room_for_the_journal(room: ServerRoom) -> None:
    """A push that would fill the disk is refused before it does, and those of others go on while its client is still there."""
    on_a_disk(room, 40, a_push_that_fills)


def a_push_that_fills(room: ServerRoom) -> None:
    """Sends 38 of 40 megabytes of a push, and nothing more: another push has its three megabytes meanwhile."""
    site = room.pushed()
    room.commit(site, "Three megabytes", {"f": os.urandom(3 << 19).hex()})
    blobs = b"".join(entry(3, MIB, os.urandom(MIB), level=0) for _ in range(38))
    body = command() + b"PACK" + struct.pack(">II", 2, 100) + blobs
    head = (f"POST /acme/other.git/git-receive-pack HTTP/1.1\r\nHost: x\r\nContent-Type: application/x-git-receive-pack-request\r\n"
            f"Content-Length: {len(body) + MIB}\r\n").encode()
    with room.socket() as peer:
        peer.sendall(head + room.basic() + b"\r\n" + body)
        time.sleep(1)
        room.git(site, "push", "-q", room.url(), "main")
        peer.shutdown(socket.SHUT_WR)
        assert b"disk-reserve" in everything(peer)
    room.same(site)


def fill_and_judge(room: ServerRoom) -> None:
    site = room.pushed()
    told = fill(room, site, 800_000)
    assert room.tenant_refs() == told
    assert room.run([room.server_program, "save", room.served]).returncode == 1
    assert room.tenant_refs() == told
    kill(room, "both")
    assert room.tenant_refs() == told
    room.git("", "clone", "-q", "--mirror", room.url(), "full")
    room.is_sound(room.path("full"))


@over_http
def a_read_only_journal(room: ServerRoom) -> None:
    """Makes the folder of the journal read-only: a save fails and is told, a start is refused, and what was told lasts."""
    site = room.pushed()
    folder = os.path.join(room.served, "journal")
    if subprocess.run(["mount", "--bind", folder, folder], capture_output=True).returncode:
        return
    try:
        subprocess.run(["mount", "-o", "remount,ro,bind", folder], check=True)
        push_and_restart_read_only(room, site)
    finally:
        wait_for(lambda: subprocess.run(["umount", folder], capture_output=True).returncode == 0)
    room.start()
    room.same(site)
    assert room.run([room.server_program, "save", room.served]).returncode == 0
    room.same(site)


def push_and_restart_read_only(room: ServerRoom, site: str) -> None:
    """Pushes to the segment that the server has open, and starts another server, which cannot open it."""
    assert room.run([room.server_program, "save", room.served]).returncode == 1
    assert "the pool is not saved: " in room.logged() and "read-only file system; the journal has all of it" in room.logged()
    room.commit(site, "After it", {"f": "x"})
    room.git(site, "push", "-q", "pool", "main")
    crashed(room)
    before = journal_of(room)
    done = room.run([room.server_program, "serve", room.served, "--program", room.program])
    assert done.returncode == 4 and "read-only file system" in text(done.stderr), (done.returncode, text(done.stderr))
    assert journal_of(room) == before


@over_http
def a_stop_while_it_starts(room: ServerRoom) -> None:
    """SIGTERM ends a server at once whose child has not carried out the journal yet: with 0, and all is there at the next start."""
    site = room.pushed()
    crashed(room)
    before = journal_of(room)
    slow = room.path("slow")
    with open(slow, "w", encoding="ascii") as file:
        file.write(f'#!/bin/sh\n[ "$1" != host ] || exec sleep 300\nexec {room.program} "$@"\n')
    os.chmod(slow, 0o755)
    words = [room.server_program, "serve", room.served, "--http", "127.0.0.1:0", "--program", slow]
    children = os.path.join(room.served, "work", "child-*", "pool")
    # What the killed server has left stands there too, until it is swept.
    left = set(glob.glob(children))
    with subprocess.Popen(words, stdout=subprocess.PIPE, stderr=subprocess.STDOUT, env=room.environment) as starting:
        wait_for(lambda: bool(set(glob.glob(children)) - left))
        starting.terminate()
        said = starting.communicate(timeout=300)[0]
    assert starting.returncode == 0 and b"ends before it has started" in said, (starting.returncode, said)
    assert journal_of(room) == before
    room.start()
    room.same(site)


def crashed(room: ServerRoom) -> str:
    """Ends the server by signal 9, and gives the path of the journal's last segment."""
    room.process.kill()
    room.process.wait()
    return max(glob.glob(os.path.join(room.served, "journal", "*")))


def refuses_to_start(room: ServerRoom, says: str) -> None:
    """Asks that the server ends with 3 and a sentence, and that nothing in the journal's folder is changed."""
    before = journal_of(room)
    done = room.run([room.server_program, "serve", room.served, "--program", room.program])
    assert done.returncode == 3 and says in text(done.stderr), (done.returncode, text(done.stderr))
    assert journal_of(room) == before


def journal_of(room: ServerRoom) -> Dict[str, bytes]:
    found = {}
    for path in glob.glob(os.path.join(room.served, "journal", "*")):
        with open(path, "rb") as file:
            found[path] = file.read()
    return found


@over_http
def a_torn_record_is_cut_and_told(room: ServerRoom) -> None:
    """Leaves of the records of a push what a crash may leave: the beginning of the first, or that and zeros."""
    site = room.pushed()
    before = room.tenant_refs()
    with open(max(glob.glob(os.path.join(room.served, "journal", "*"))), "rb") as file:
        whole = file.read()
    room.commit(site, "More", {"f": "x"})
    room.git(site, "push", "-q", "pool", "main")
    path = crashed(room)
    with open(path, "rb") as file:
        more = file.read()[len(whole):]
    for tail in (more[:1], more[:20], more[:64], more[:30] + b"\0" * 700, b"\0" * 4096):
        with open(path, "wb") as file:
            file.write(whole + tail)
        os.unlink(room.log)
        room.start()
        assert room.logged().count("the journal ends in a record that a crash cut off") == 1, room.logged()
        assert room.tenant_refs() == before
        assert crashed(room) == path
        with open(path, "rb") as file:
            assert file.read() == whole
    room.start()
    room.git(site, "push", "-q", room.url(), "main")
    room.same(site)


@over_http
def a_damaged_journal_stops_the_start_and_is_not_cut(room: ServerRoom) -> None:
    site = room.pushed()
    room.commit(site, "More", {"f": "x"})
    room.git(site, "push", "-q", "pool", "main")
    path = crashed(room)
    with open(path, "rb") as file:
        whole = file.read()
    for at in (0, 20, 60, 130, 140, len(whole) // 2, len(whole) - 40, len(whole) - 1):
        with open(path, "wb") as file:
            file.write(whole[:at] + bytes([whole[at] ^ 1]) + whole[at + 1:])
        refuses_to_start(room, "nothing was changed")
    with open(path, "wb") as file:
        file.write(whole[:300] + b"\0" * 200 + whole[500:])
    refuses_to_start(room, "a record is not as it was written")
    with open(path, "wb") as file:
        file.write(whole)
    room.start()
    room.same(site)


@over_http
def another_pool_file_is_refused(room: ServerRoom) -> None:
    room.pushed()
    crashed(room)
    pool = os.path.join(room.served, "pool")
    with open(pool, "rb") as file:
        whole = file.read()
    os.unlink(pool)
    subprocess.run([room.program, "import", "x", "--pool", pool], input=b"blob\ndata 1\nx\n", check=True)
    refuses_to_start(room, "no segment goes on from the pool file")
    with open(pool, "wb") as file:
        file.write(b"no pool file" * 9)
    refuses_to_start(room, "another one")
    with open(pool, "wb") as file:
        file.write(whole)
    room.start()


@over_http
def saves_beside_pushes_and_clones(room: ServerRoom) -> None:
    """Saves again and again, with a second child each time, while two push and two clone: all of it goes well."""
    room.serverd("limits", room.served, "second-child", "1")
    pushers = [Pusher(room, number) for number in range(2)]
    for pusher in pushers:
        assert pusher.push(), room.logged()
    wrong: List[str] = []
    over = time.monotonic() + 3

    def work(step: "Tuple[Pusher, str]") -> None:
        pusher, name = step
        while time.monotonic() < over:
            if name == "push" and not pusher.push():
                wrong.append("a push failed")
            if name == "clone":
                at = room.path(f"clone{time.monotonic_ns()}")
                if room.run(["git", "clone", "-q", room.url(pusher.tenant), at]).returncode:
                    wrong.append("a clone failed")

    threads = [threading.Thread(target=work, args=((pusher, name),)) for pusher in pushers for name in ("push", "clone")]
    for thread in threads:
        thread.start()
    count = 0
    while time.monotonic() < over:
        room.serverd("save", room.served)
        count += 1
    for thread in threads:
        thread.join()
    assert not wrong, (wrong, room.logged()[-1500:])
    assert count > 0
    kill(room, "both")
    for pusher in pushers:
        pusher.judge()


@once
def a_clone_during_a_save(room: ServerRoom) -> None:
    """Stops the child inside a save of a pool file above `second-child`: clones, fetches and pages have all that was told, and a push waits and comes
    through. Below the limit a clone waits."""
    site = room.pushed()
    room.serverd("limits", room.served, "second-child", "1M")
    room.commit(site, "Large", {"large": os.urandom(1_000_000).hex()})
    room.git(site, "push", "-q", "pool", "main")
    with a_stopped_save(room) as save:
        mirror = room.same(site)
        assert room.run(["git", "fsck", "--strict"], mirror).returncode == 0
        page = urllib.request.urlopen(authorized(room, "/acme/site")).read()
        assert b"Large" in page, page
        counts = urllib.request.urlopen(f"http://{room.http[0]}:{room.http[1]}/metrics").read()
        assert b"\ngitpoold_answering 1\n" in counts, counts
        room.commit(site, "Small", {"small": "x"})
        push = subprocess.Popen(["git", "push", "-q", "pool", "main"], cwd=room.path(site), env=room.environment)
        time.sleep(0.5)
        assert push.poll() is None and save.poll() is None, "a push is told while the child is stopped"
        assert room.tenant_refs()["refs/heads/main"] == room.name(site, "HEAD^")
    assert (push.wait(300), save.wait(300)) == (0, 0), room.logged()
    room.same(site)
    room.serverd("limits", room.served, "second-child", "1G")
    room.commit(site, "Later", {"small": "y"})
    room.git(site, "push", "-q", "pool", "main")
    with a_stopped_save(room):
        clone = subprocess.Popen(["git", "clone", "-q", room.url(), room.path("waits")], env=room.environment)
        time.sleep(0.5)
        assert clone.poll() is None, "the stopped child answers"
    assert clone.wait(300) == 0, room.logged()
    kill(room, "both")
    room.same(site)


@contextlib.contextmanager
def a_stopped_save(room: ServerRoom) -> Iterator["subprocess.Popen[bytes]"]:
    """A save during which the child is stopped, and with it the save."""
    child = child_of(room)
    os.kill(child, signal.SIGSTOP)
    save = subprocess.Popen([room.server_program, "save", room.served], env=room.environment)
    try:
        time.sleep(1)
        assert save.poll() is None, "the save ends although the child is stopped"
        yield save
    finally:
        os.kill(child, signal.SIGCONT)
        save.wait(300)


def authorized(room: ServerRoom, path: str) -> urllib.request.Request:
    """A request of alice for a path."""
    name, _, value = text(room.basic()).strip().partition(": ")
    request = urllib.request.Request(f"http://{room.http[0]}:{room.http[1]}{path}")
    request.add_header(name, value)
    return request


@over_http
def a_push_that_has_begun_ends_when_the_server_stops(room: ServerRoom) -> None:
    site = room.pushed()
    room.commit(site, "Large", {"large": os.urandom(3_000_000).hex()})
    push = subprocess.Popen(["git", "-c", "http.postBuffer=100000000", "push", "-q", "pool", "main"], cwd=room.path(site),
                            env=room.environment, stderr=subprocess.PIPE)
    until = time.monotonic() + 10
    while not state(room, "connections", "1") and push.poll() is None and time.monotonic() < until:
        time.sleep(0.005)
    status = room.stop()
    said = push.communicate()[1]
    assert status == 0, room.logged()
    room.start()
    has = room.tenant_refs()["refs/heads/main"] == room.name(site, "HEAD")
    assert has == (push.returncode == 0), (has, push.returncode, said)


def state(room: ServerRoom, name: str, above: str) -> bool:
    for line in text(room.serverd("status", room.served)).splitlines():
        words = line.split()
        if words[0] == name:
            return int(words[1]) > int(above)
    return False


@over_http
def a_second_server_is_refused(room: ServerRoom) -> None:
    done = room.run([room.server_program, "serve", room.served, "--program", room.program])
    assert done.returncode == 4 and b"another server or run has this in hand" in done.stderr, done.stderr
    room.pushed()


@over_http
def a_restored_backup_serves(room: ServerRoom) -> None:
    """Takes a backup as the manual says, and serves it in another folder."""
    site = room.pushed()
    room.serverd("save", room.served)
    backup = room.path("backup.pool")
    with open(os.path.join(room.served, "pool"), "rb") as source, open(backup, "wb") as target:
        target.write(source.read())
    room.stop()
    other = room.path("restored")
    room.serverd("init", other, "--program", room.program)
    os.replace(backup, os.path.join(other, "pool"))
    for name in ("access", "passwords", "keys", "limits", "hooks", "host_key"):
        os.replace(os.path.join(room.served, name), os.path.join(other, name))
    room.served = other
    room.start()
    room.same(site)

