"""Scenes of gitpool-import --all: many streams and repositories in one run."""
from __future__ import annotations

import json
from typing import Any, Dict, List

from gitpool import PIECE

from .conversions import commit, read, write
from .room import Done, Room, Service, os, scene, signal, subprocess, text, wait_for
from .tools import EXPORT_WORDS


def imports_all(room: Room, lines: List[str], *words: str, status: int = 0) -> "Done[bytes]":
    """Imports a list."""
    write(room, "list", "".join(f"{line}\n" for line in lines).encode())
    return room.client("gitpool-import", "--all", room.path("list"), "--pool", room.pool, *words, status=status)


def verdicts(room: Room) -> Dict[str, Any]:
    """The verdict that was written, with those of the tenants by their names."""
    found: Dict[str, Any] = json.loads(read(room, "verdict"))
    found["imports"] = {it["tenant"]: it for it in found["imports"]}
    return found


@scene
def many_repositories_and_streams(room: Room) -> None:
    """Worktrees, bare repositories, empty ones and streams, in folders of odd names, become what each would be alone."""
    site, bare = room.site("my site"), "bare.git"
    room.git(site, "tag", "-a", "-m", "Outer", "outer", "v1")
    room.git("", "clone", "-q", "--bare", site, bare)
    room.git(bare, "symbolic-ref", "HEAD", "refs/heads/other")
    room.git(bare, "branch", "other", "main~1")
    room.init("empty")
    write(room, "stream", commit(1, "main", "", "M 644 inline f\ndata 1\nx").encode())
    exported = room.git("my site", *EXPORT_WORDS)
    room.client("gitpool-import", "-", "alone", "--pool", room.path("alone.pool"), data=exported)
    done = imports_all(room, [f"acme/site {room.path('my site')}", "# a comment", "", f"acme/bare {bare}", "empty empty", "s/1 stream",
                              "s/2 stream"],
                       "--rewrite", "--progress", "--json", "verdict")
    lines = text(done.stdout).splitlines()
    assert lines[-1] == "5 imported, 0 failed" and lines[3].startswith("s/1        imported  1 objects, "), lines
    assert "[5/5] s/2: 100%" in text(done.stderr), done.stderr
    assert room.tenant_refs("acme/site") == {**room.refs("my site", "refs/heads", "refs/tags"),
                                             "refs/tags/outer": room.tenant_refs("acme/site")["refs/tags/outer"]}
    assert room.tenant_head("acme/bare") == "refs/heads/other" and room.tenant_refs("empty") == {}
    assert room.tenant_refs("s/1") == room.tenant_refs("s/2") != {}
    told = verdicts(room)
    assert told["accepted"] and told["saved"] and told["version"] == 1 and told["imports"]["s/2"]["commits"] == 1, told
    with Service(room.path("alone.pool"), room.program, read_only=True) as alone:
        assert {os.fsdecode(ref.name): ref.target for ref in alone.refs("alone")} == room.tenant_refs("acme/site")
    # Another run of the same list leaves the same file.
    before = room.pool_bytes()
    imports_all(room, [f"acme/site {room.path('my site')}", f"acme/bare {bare}", "empty empty", "s/1 stream", "s/2 stream"], "--rewrite")
    assert room.pool_bytes() == before


@scene
def some_of_many_fail(room: Room) -> None:
    """Those that fail leave their tenants as they were, whatever their streams saved before; and the others are saved."""
    room.pushed()
    good = commit(1, "good", "", "M 644 inline f\ndata 1\nx")
    streams = {
        "good": good, "late": good + "checkpoint\n" + good + "frobnicate\n", "cut": good + "blob\ndata 9\nfew",
        "done": "feature done\n" + good,
        "rewinds": commit(1, "main", "", ""), "rewinds-late": good + commit(2, "main", "", "") + "done\n",
        "fine": good + "checkpoint\ndone\n",
        "forced": "feature force\n" + commit(1, "main", "", "")}
    for name, stream in streams.items():
        write(room, name, stream.encode())
    os.mkdir(room.path("nothing"))
    room.init("broken")
    room.commit("broken", "One", {"a": "a\n"})
    blob = room.name("broken", "HEAD:a")
    os.unlink(room.path("broken", ".git", "objects", blob[:2], blob[2:]))
    os.mkfifo(room.path("fifo"))
    names = list(streams)
    room.client("gitpool-import", "-", "rewinds", "--pool", room.pool, data=commit(1, "main", "", "M 644 inline f\ndata 1\ny").encode())
    room.client("gitpool-import", "-", "rewinds-late", "--pool", room.pool,
                data=commit(1, "main", "", "M 644 inline f\ndata 1\ny").encode())
    room.client("gitpool-import", "-", "forced", "--pool", room.pool, data=commit(1, "main", "", "M 644 inline f\ndata 1\ny").encode())
    before = {name: room.tenant_refs(name) for name in names}
    lines = [f"{name} {name}" for name in names] + ["none none", "nothing nothing", "broken broken", "-bad good",
                                                    "secret /root/none/x\x1b[2J"]
    done = imports_all(room, lines, "--json", "verdict", status=1)
    said = text(done.stdout)
    assert said.endswith("3 imported, 10 failed") and "\x1b" not in said, said
    for part in ("refused at byte", "line 18: frobnicate", "fault 6:", "fault 7:", "refs/heads/main was kept", "No such file",
                 "git fast-export ended with status 128",
                 "fault 32: bad tenant name", "secret        failed    No such file"):
        assert part in said, (part, said)
    told = verdicts(room)["imports"]
    assert {name for name, it in told.items() if it["saved"]} == {"good", "fine", "forced"}, told
    assert told["late"]["fault"] == 2 and told["late"]["line"] == 18 and told["rewinds"]["kept"] == ["refs/heads/main"], told
    for name in names:
        assert (room.tenant_refs(name) == before[name]) == (name not in ("good", "fine", "forced")), name
    tenants = text(room.client("gitpool-tenants", room.pool).stdout)
    assert "\nlate " not in tenants and "\ncut " not in tenants and "\nbroken " not in tenants, tenants
    room.is_sound("site")
    room.same("site", refs=room.refs("site", "refs/heads", "refs/tags"))


@scene
def a_checkpoint_between_two_pieces(room: Room) -> None:
    """A stream is fed in pieces. One that fails leaves its tenant as it was, although its only checkpoint is read in two halves."""
    front = commit(1, "good", "", "M 644 inline f\ndata 1\nx").encode()
    size = PIECE - len(front) - len(b"blob\ndata 1048000\n\n") - len(b"check")
    late = front + b"blob\ndata %d\n%b\ncheckpoint\nfrobnicate\n" % (size, b"x" * size)
    assert late[:PIECE].endswith(b"\ncheck")
    write(room, "late", late)
    write(room, "good", front)
    imports_all(room, ["t good"])
    room.client("gitpool-import", "-", "late", "--pool", room.pool, data=commit(1, "other", "", "").encode())
    before = room.tenant_refs("late")
    done = imports_all(room, ["t good", "late late"], status=1)
    assert b"fault 2:" in done.stdout and room.tenant_refs("late") == before, done


@scene
def a_repository_that_is_refused_at_its_beginning(room: Room) -> None:
    """The reason is told, although the rest of the export is never read."""
    site = room.init("deep")
    room.commit(site, "Deep", {"d/" * 300 + "f": "f\n"})
    room.commit(site, "Large", {f"f{number}": f"{number}\n" * 50_000 for number in range(8)})
    done = imports_all(room, [f"deep {site}"], "--json", "verdict", status=1)
    told = verdicts(room)["imports"]["deep"]
    assert told["fault"] == 25 and told["byte"] and b"fault 25:" in done.stdout and b"fast-export" not in done.stdout, done


@scene
def lists_that_are_refused(room: Room) -> None:
    write(room, "stream", b"blob\ndata 0\n")
    imports_all(room, ["alone"], "--json", "verdict", status=1)
    told = verdicts(room)
    assert told["imports"] == {} and not told["saved"] and "this is no line" in told["meaning"], told
    for line, says in (("alone", "list:2: this is no line"), (" stream", "list:2: this is no line"),
                       ("b stream\nb stream", "list:3: the tenant b has")):
        said = text(imports_all(room, ["a stream", line], status=1).stderr)
        assert says in said and not os.path.exists(room.pool), said
    room.client("gitpool-import", "--all", room.path("none"), "--pool", room.pool, status=4)
    for words in (("--all", "list"), ("--all", "list", "--pool", "p", "--partial"), ("--all", "list", "--pool", "p", "file"),
                  ("--all", "list", "--pool", "p", "--export-marks", "m"), ("--all", "list", "--pool", "p", "--filter", "x")):
        room.client("gitpool-import", *words, status=2)
    assert text(imports_all(room, []).stdout) == "0 imported, 0 failed"
    done = imports_all(room, ["a stream", "b none"], "--dry-run", status=1)
    assert text(done.stdout).endswith("1 imported, 1 failed") and not os.path.exists(room.pool), done


@scene
def many_that_are_killed(room: Room) -> None:
    """A kill between two streams leaves the pool file as it was, and no run goes on."""
    room.pushed()
    before = room.pool_bytes()
    write(room, "stream", commit(1, "good", "", "M 644 inline f\ndata 1\nx").encode())
    fake = room.path("bin", "git")
    os.mkdir(room.path("bin"))
    room.init("slow")
    with open(fake, "w", encoding="utf-8") as file:
        file.write('#!/bin/sh\necho ready > "$ROOM/ready"\nexec sleep 60\n')
    os.chmod(fake, 0o755)
    write(room, "list", b"a stream\nb slow\n")
    environment = dict(room.environment, ROOM=room.folder, PATH=room.path("bin") + os.pathsep + room.environment["PATH"])
    for number in (signal.SIGKILL, signal.SIGTERM):
        run = subprocess.Popen(["gitpool-import", "--all", room.path("list"), "--pool", room.pool], cwd=room.folder, env=environment,
                               start_new_session=True)
        wait_for(lambda: os.path.exists(room.path("ready")))
        run.send_signal(number)
        assert run.wait() == (130 if number == signal.SIGTERM else -number)
        os.unlink(room.path("ready"))
        wait_for(lambda: room.run([room.program, "serve", "--pool", room.pool]).returncode == 0)
        assert room.pool_bytes() == before
        try:
            os.killpg(run.pid, signal.SIGKILL)
        except ProcessLookupError:
            pass
