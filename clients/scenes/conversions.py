"""Scenes of conversions: marks files, maps and verdicts of gitpool-import, beside git fast-import."""
from __future__ import annotations

import fcntl
import json
import pty
import random
import sys
from typing import Any, Dict, List, Tuple

from .room import CLIENTS, Done, Room, os, scene, signal, subprocess, text, wait_for

IDENT = "A <a@b> 1700000000 +0000"
KILLED = os.path.join(CLIENTS, "scenes", "killed.py")


def write(room: Room, name: str, contents: bytes) -> str:
    """Writes a file into the room, and gives its path."""
    with open(room.path(name), "wb") as file:
        file.write(contents)
    return room.path(name)


def read(room: Room, name: str) -> bytes:
    """The contents of a file of the room."""
    with open(room.path(name), "rb") as file:
        return file.read()


def imports(room: Room, stream: bytes, *words: str, status: int = 0, tenant: str = "acme/site") -> "Done[bytes]":
    """Imports a stream into a tenant."""
    return room.client("gitpool-import", "-", tenant, "--pool", room.pool, *words, data=stream, status=status)


def verdict_of(done: "Done[bytes]") -> Dict[str, Any]:
    """The verdict that stands on standard output."""
    found: Dict[str, Any] = json.loads(done.stdout)
    return found


def blob(mark: int, contents: str) -> str:
    """A blob of a stream."""
    return f"blob\nmark :{mark}\ndata {len(contents)}\n{contents}\n"


def commit(mark: int, branch: str, starts: str, changes: str) -> str:
    """A commit of a stream."""
    return f"commit refs/heads/{branch}\nmark :{mark}\ncommitter {IDENT}\ndata 2\nm\n{starts}{changes}\n"


def history(runs: int) -> List[bytes]:
    """A conversion in several runs: each has blobs, commits on two branches, merges and a tag, and uses marks of the runs before it."""
    chance, mark, streams = random.Random(1), 0, []
    tips = {"main": 0, "side": 0}
    for run in range(runs):
        parts = []
        for step in range(4):
            mark += 2
            branch = "side" if step == 2 else "main"
            starts = f"from :{tips[branch] or tips['main']}\n" if tips["main"] else ""
            starts += f"merge :{tips['side']}\n" if step == 3 else ""
            # A file of the first run is put once more, by its mark.
            changes = f"M 100644 :{mark - 1} dir{step}/file{run}\nM 100755 :1 first\n"
            parts += [blob(mark - 1, f"{run} {step} {chance.random()}\n"), commit(mark, branch, starts, changes)]
            tips[branch] = mark
        mark += 1
        # Each second tag is one of the tag before it.
        tagged = tips["main"] if run % 2 == 0 else mark - 9
        parts.append(f"tag v{run}\nmark :{mark}\nfrom :{tagged}\ntagger {IDENT}\ndata 2\nv\n")
        streams.append("".join(parts).encode())
    return streams


def converted_by_git(room: Room, streams: List[bytes]) -> Tuple[Dict[str, str], bytes]:
    """The refs and the marks that git fast-import ends with, run by run with marks files."""
    room.init("by-git", "--bare")
    for stream in streams:
        room.git("by-git", "fast-import", "--quiet", "--import-marks-if-exists=marks", "--export-marks=marks", data=stream)
    return room.refs("by-git"), read(room, "by-git/marks")


@scene
def a_conversion_in_ten_runs_with_kills(room: Room) -> None:
    """Each run begins with the marks of the last, and is killed at steps between its last answer and its end; at all of them,
    over the ten runs. The repository and the marks are those of git, and those of one run."""
    streams = history(10)
    marks = room.path("marks")
    words = ["-", "acme/site", "--pool", room.pool, "--import-marks-if-exists", marks, "--export-marks", marks]
    steps = int(killed(room, 0, [*words[:1], "other", "--pool", room.path("other.pool"), "--export-marks", room.path("other")], streams[0])
                .stderr.split()[-1])
    assert steps > 40, steps
    for run, stream in enumerate(streams):
        for step in range(1 + run, steps + 1, len(streams)):
            before = state_of(room, marks)
            killed(room, step, words, stream)
            asks_for_old_or_new(room, marks, before, streams[: run + 1])
        room.client("gitpool-import", *words, data=stream)
    refs, exported = converted_by_git(room, streams)
    assert room.tenant_refs() == refs
    assert read(room, "marks") == exported
    imports(room, b"".join(streams), "--export-marks", room.path("once"), tenant="once")
    assert room.tenant_refs("once") == refs and read(room, "once") == exported
    room.is_sound("by-git")
    assert not [it for it in os.listdir(room.folder) if it.endswith(".new")]


def killed(room: Room, step: int, words: List[str], stream: bytes) -> "Done[bytes]":
    """Runs gitpool-import, and kills it at a step; at none for 0."""
    done = room.run([sys.executable, KILLED, str(step), *words], "", stream)
    assert done.returncode == (-signal.SIGKILL if step else 0), (step, done.returncode, text(done.stderr))
    return done


def state_of(room: Room, marks: str) -> Tuple[Dict[str, str], bytes]:
    """The refs of the tenant, and the marks file."""
    return room.tenant_refs() if os.path.exists(room.pool) else {}, read(room, "marks") if os.path.exists(marks) else b""


def asks_for_old_or_new(room: Room, marks: str, before: Tuple[Dict[str, str], bytes], streams: List[bytes]) -> None:
    """Asks that a run that was killed left the repository and the marks as they were, or whole; and not the marks alone."""
    refs, exported = state_of(room, marks)
    last = f"refs/tags/v{len(streams) - 1}"
    is_repository_new, are_marks_new = last in refs, exported.count(b"\n") == 9 * len(streams)
    assert is_repository_new or refs == before[0], (refs, before[0])
    assert are_marks_new or exported == before[1]
    assert is_repository_new or not are_marks_new


@scene
def a_kill_within_a_stream_saves_nothing(room: Room) -> None:
    streams = history(2)
    imports(room, streams[0], "--export-marks", room.path("marks"))
    before, marks = room.pool_bytes(), read(room, "marks")
    run = subprocess.Popen(["gitpool-import", "-", "acme/site", "--pool", room.pool, "--import-marks", room.path("marks"), "--export-marks",
                            room.path("marks")], stdin=subprocess.PIPE, stdout=subprocess.PIPE, env=room.environment)
    assert run.stdin and run.stdout
    run.stdin.write(streams[1] + b"checkpoint\nprogress saved\n")
    run.stdin.flush()
    assert run.stdout.readline() == b"progress saved\n"
    run.kill()
    run.wait()
    wait_for(lambda: room.run([room.program, "serve", "--pool", room.pool]).returncode == 0)
    assert room.pool_bytes() == before and read(room, "marks") == marks
    imports(room, streams[1], "--import-marks", room.path("marks"))


@scene
def marks_of_each_kind(room: Room) -> None:
    """Marks of blobs, trees, commits and tags, of tags too, used in each command that takes one; and set to other objects."""
    first = (blob(1, "one\n") + commit(2, "main", "", "M 100644 :1 a/b\n")
             + f"tag light\nmark :3\nfrom :2\ntagger {IDENT}\ndata 0\ntag blob\nmark :4\nfrom :1\ntagger {IDENT}\ndata 0\n").encode()
    imports(room, first, "--export-marks", room.path("marks"))
    room.imported("git", first, "-q")
    room.git("git", "fast-import", "--quiet", "--force", "--export-marks=marks", data=first)
    assert read(room, "git/marks") == read(room, "marks")
    tree = room.name("git", "main:a")
    for name in ("marks", "git/marks"):
        write(room, name, read(room, name) + b":9 %b\n" % tree.encode())
    then = (commit(5, "main", "from :2\n", "M 100755 :1 more\nM 040000 :9 copy\nM 160000 :2 link\nls :9 b\ncat-blob :1\n")
            + "ls :3 a/b\nls :9 b\nget-mark :1\nget-mark :2\nget-mark :3\nget-mark :9\n"
            + f"tag outer\nmark :3\nfrom :3\ntagger {IDENT}\ndata 0\nalias\nmark :7\nto :2\n\n"
            + "reset refs/heads/side\nfrom :3\n\nget-mark :3\n"
            + blob(1, "two\n") + "cat-blob :1\nget-mark :1\n" + commit(9, "main", "merge :7\n", "M 644 :1 last\n")
            + "get-mark :9\ndone\n").encode()
    told = imports(room, then, "--import-marks", room.path("marks"), "--export-marks", room.path("marks")).stdout
    # git refuses a branch that begins at a mark of a tag, here the commit is meant.
    theirs = then.replace(b"reset refs/heads/side\nfrom :3\n", b"reset refs/heads/side\nfrom :2\n")
    wanted = room.git("git", "fast-import", "--quiet", "--import-marks=marks", "--export-marks=marks", data=theirs)
    assert told == wanted, (told, wanted)
    assert room.tenant_refs() == {**room.refs("git"), "refs/heads/side": room.name("git", "light^{commit}")}
    assert read(room, "marks") == read(room, "git/marks"), (read(room, "marks"), read(room, "git/marks"))


@scene
def marks_files_that_are_refused(room: Room) -> None:
    imports(room, history(1)[0], "--export-marks", room.path("marks"))
    before, good = room.pool_bytes(), read(room, "marks")
    name = good.split()[1]
    lines: List[Tuple[bytes, str]] = [
        (good + b"\n", ":10: this is no line"), (good[:-1], ":9: this is no line"), (b"mark " + good, ":1: this is no line"),
        (good.replace(b"\n", b"\r\n"), ":1: this is no line"), (b":0 %b\n" % name, ":1: this is no line"),
        (b":18446744073709551616 %b\n" % name, ":1: this is no line"), (b":1 %b\n" % name[1:], ":1: this is no line"),
        (b"\xff" * 500, ":1: this is"),
        (good + b":2 %b\n" % name, ":10: the mark :2 has another object in line 2"),
        (good + b":77 " + b"1" * 40 + b"\n", ":10: the tenant has no object " + "1" * 40)]
    for contents, says in lines:
        write(room, "bad", contents)
        done = imports(room, b"blob\ndata 0\n", "--import-marks", room.path("bad"), "--export-marks", room.path("marks"), "--json", "-",
                       status=1)
        assert room.path("bad") + says in text(done.stderr), (contents, text(done.stderr))
        assert says in verdict_of(done)["meaning"] and not verdict_of(done)["accepted"]
        assert room.pool_bytes() == before and read(room, "marks") == good and not os.path.exists(room.path("marks.new"))
    # Another tenant's objects are not there.
    said = imports(room, b"blob\ndata 0\n", "--import-marks", room.path("marks"), tenant="other", status=1).stderr
    assert b"marks:1: the tenant has no object" in said, said
    assert b"No such file" in imports(room, b"", "--import-marks", room.path("none"), status=4).stderr
    imports(room, b"", "--import-marks-if-exists", room.path("none"), "--import-marks", room.path("marks"))
    # The last file wins, and what stands twice in one is said once.
    write(room, "more", b":2 %b\n:2 %b\n:18446744073709551615 %b\n" % (name, name, name))
    told = imports(room, b"get-mark :2\nget-mark :18446744073709551615\n", "--import-marks", room.path("marks"), "--import-marks",
                   room.path("more"))
    assert told.stdout == (name + b"\n") * 2, told.stdout
    told = imports(room, b"get-mark :2\n", "--import-marks-if-exists", room.path("more"), "--import-marks", room.path("marks"))
    assert told.stdout == good.split()[3] + b"\n", told.stdout


@scene
def marks_are_not_written_after_a_fault(room: Room) -> None:
    streams = history(2)
    imports(room, streams[0], "--export-marks", room.path("marks"))
    before, marks = room.pool_bytes(), read(room, "marks")
    rewinds = commit(1, "main", "", "").encode()
    for stream, more, status in ((b"checkpoint\nfrobnicate\n", (), 1), (b"blob\ndata 9\n", (), 1), (rewinds, (), 1),
                                 (b"blob\n", ("--partial",), 1),
                                 (streams[1], ("--dry-run",), 0)):
        words = ("--import-marks", room.path("marks"), "--export-marks", room.path("marks"), "--map", room.path("map"), *more)
        imports(room, stream, *words, status=status)
        assert read(room, "marks") == marks and not os.path.exists(room.path("map")), stream
        assert room.pool_bytes() == before or more == ("--partial",), stream
        assert not [it for it in os.listdir(room.folder) if it.endswith(".new")]


@scene
def marks_files_that_cannot_be_written(room: Room) -> None:
    streams = history(2)
    imports(room, streams[0], "--export-marks", room.path("marks"))
    before, marks = room.pool_bytes(), read(room, "marks")
    os.mkdir(room.path("folder"))
    for path, says in ((room.path("folder"), "no file that can be replaced"), (room.path("none/marks"), "No such file"),
                       ("/dev/full", "no file")):
        said = imports(room, streams[1], "--import-marks", room.path("marks"), "--export-marks", path, status=4).stderr
        assert says in text(said), said
    # A file may have no more bytes than the marks before it: what is written first is refused, and so the pool file stays.
    words = ["acme/site", "--pool", room.pool, "--import-marks", room.path("marks"), "--export-marks", room.path("marks")]
    full = room.limited(["gitpool-import", write(room, "stream", streams[1]), *words], b"", len(marks))
    assert full.returncode == 4 and b"marks: File too large" in full.stderr, full
    full = room.limited(["gitpool-import", "-", *words], streams[1], len(marks))
    assert full.returncode == 4 and b"the copy of the stream in " in full.stderr, full
    # The marks have room, and the pool file has not: neither takes its name.
    full = room.limited(["gitpool-import", room.path("stream"), *words], b"", len(before))
    assert full.returncode == 4 and b"gitpool was ended by signal 25" in full.stderr, full
    for same in (room.pool, room.path("map")):
        imports(room, b"", "--export-marks", same, "--map", room.path("map"), status=2)
    assert room.pool_bytes() == before and read(room, "marks") == marks
    # One run at a time writes a marks file.
    with open(room.path("marks.new"), "wb") as held:
        fcntl.flock(held, fcntl.LOCK_EX)
        said = imports(room, streams[1], "--import-marks", room.path("marks"), "--export-marks", room.path("marks"), status=4).stderr
    assert b"another run is writing it" in said and room.pool_bytes() == before, said
    imports(room, streams[1], "--import-marks", room.path("marks"), "--export-marks", room.path("marks"))
    assert read(room, "marks").count(b"\n") == 18


@scene
def a_marks_file_behind_a_link(room: Room) -> None:
    os.mkdir(room.path("real"))
    os.symlink("real/marks", room.path("marks"))
    imports(room, history(1)[0], "--export-marks", room.path("marks"))
    os.chmod(room.path("real/marks"), 0o640)
    imports(room, history(1)[0], "--import-marks", room.path("marks"), "--export-marks", room.path("marks"))
    assert os.path.islink(room.path("marks")) and os.stat(room.path("real/marks")).st_mode & 0o777 == 0o640
    assert os.listdir(room.path("real")) == ["marks"]


@scene
def a_map_of_original_names(room: Room) -> None:
    """Each object that has an original-oid stands in the map, with a mark and without one. git's own stream has git's names."""
    site = room.site()
    for number in range(30):
        room.commit(site, f"{number}", {"css/a.css": f"{number}\n", f"f{number}": "same\n"})
    stream = room.git(site, "fast-export", "--all", "--show-original-ids", "--mark-tags")
    for name, fed in (("marked", stream), ("unmarked", unmarked(stream))):
        imports(room, fed, "--map", room.path("map"), tenant=name)
        told = [line.split(b" ") for line in read(room, "map").splitlines()]
        assert told and all(old == new for old, new in told), told[:3]
        assert {old for old, _ in told} == {line[13:] for line in fed.splitlines() if line.startswith(b"original-oid ")}
    assert room.tenant_refs("marked") == room.refs(site, "refs/heads", "refs/tags")
    # Names may be any text; a mark may be that of many objects in turn; the same name may come twice.
    many = b"".join(b"blob\nmark :1\noriginal-oid r%d of \xff\ndata %d\n%b\n" % (it, len(b"%d" % it), b"%d" % it) for it in range(9_000))
    imports(room, many + b"blob\noriginal-oid last\ndata 1\n0\nget-mark :1\n", "--map", room.path("map"), tenant="many")
    lines = read(room, "map").splitlines()
    assert len(lines) == 9_001 and lines[7] == b"r7 of \xff " + room.git(site, "hash-object", "--stdin", data=b"7").strip(), lines[7]
    assert lines[-1][-40:] == lines[0][-40:], lines[-1]


def unmarked(stream: bytes) -> bytes:
    """The same stream with blobs as inline data, each with a blob of no mark before it."""
    blobs: Dict[bytes, bytes] = {}
    out, parts = [], stream.split(b"blob\nmark ")
    for part in parts[1:]:
        mark, _, rest = part.partition(b"\n")
        oid, _, rest = rest.partition(b"\n")
        count = int(rest[5 : rest.index(b"\n")])
        data = rest[: rest.index(b"\n") + 1 + count]
        blobs[mark] = data
        out.append(b"blob\n" + oid + b"\n" + data + b"\n" + rest[len(data) + 1 :])
    text_of = parts[0] + b"".join(out)
    for mark, data in blobs.items():
        lines = text_of.split(b"\n")
        text_of = b"\n".join(inlined(line, data) if line.startswith(b"M ") and line.split(b" ")[2] == mark else line for line in lines)
    return text_of


def inlined(line: bytes, data: bytes) -> bytes:
    """A change of a file with its contents after it."""
    _, mode, _, path = line.split(b" ", 3)
    return b"M %b inline %b\n%b" % (mode, path, data)


@scene
def verdicts_for_machines(room: Room) -> None:
    stream = history(1)[0]
    done = verdict_of(imports(room, stream + b"get-mark :1\n", "--json", "-"))
    assert isinstance(done.pop("seconds"), float)
    assert done == {"version": 1, "accepted": True, "saved": True, "fault": None, "meaning": None, "byte": None, "line": None, "text": None,
                    "command": None, "command_line": None, "at_end": None, "kept": [], "renamed": [], "head": None, "bytes": len(stream) + 12, "blobs": 4,
                    "commits": 4, "tags": 1, "changed": {}}, done
    before = room.pool_bytes()
    told = imports(room, stream + b"get-mark :1\n", "--dry-run", "--json", room.path("verdict"))
    dry = json.loads(read(room, "verdict"))
    assert dry["accepted"] and not dry["saved"] and len(told.stdout) == 41 and room.pool_bytes() == before, (dry, told)
    bad = stream + b"commit refs/heads/x\ncommitter A <a@b> 1 +0000\ndata 0\nM 666 :1 \x1b[2J\r\n"
    refused = verdict_of(imports(room, bad, "--json", "-", status=1))
    assert (refused["fault"], refused["meaning"], refused["byte"], refused["line"]) == (23, "bad mode", len(bad), bad.count(b"\n")), refused
    assert refused["text"] == "M 666 :1 \\x1b[2J\\r" and refused["command"] == "commit refs/heads/x", refused
    assert refused["command_line"] == bad.count(b"\n") - 3 and refused["at_end"] is False, refused
    assert not refused["accepted"] and not refused["saved"], refused
    cut = verdict_of(imports(room, stream + b"blob\ndata 5\n", "--json", "-", status=1))
    assert (cut["fault"], cut["at_end"], cut["byte"]) == (6, True, len(stream) + 12), cut
    kept = verdict_of(imports(room, commit(1, "main", "", "").encode(), "--json", "-", status=1))
    assert kept["accepted"] and not kept["saved"] and kept["kept"] == ["refs/heads/main"], kept
    # Without a tenant a stream is judged over an empty repository; what stops a run is told as well.
    judged = verdict_of(room.client("gitpool-import", "-", "--json", "-", data=bad, status=1))
    assert judged["fault"] == 23 and judged["bytes"] == 0 and not judged["accepted"], judged
    named = imports(room, stream, "--json", "-", status=1, tenant="bad//x")
    assert "fault 32: bad tenant name" in verdict_of(named)["meaning"] and b"fault 32" in named.stderr, named
    lost = verdict_of(room.client("gitpool-import", room.path("none"), "--json", "-", status=4))
    assert "No such file" in lost["meaning"] and not lost["accepted"], lost


@scene
def a_dry_run_over_a_tenant(room: Room) -> None:
    imports(room, history(1)[0])
    before = room.pool_bytes()
    # It sees what the tenant has, also while another run has the pool file.
    held = subprocess.Popen([room.program, "serve", "--pool", room.pool], stdin=subprocess.PIPE, stdout=subprocess.PIPE)
    assert held.stdin and held.stdout
    held.stdin.write(b"\4\0\1t\0\0\0\4head")
    held.stdin.flush()
    held.stdout.read(17)
    imports(room, b"reset refs/heads/new\nfrom refs/heads/main^0\n", "--dry-run")
    imports(room, b"reset refs/heads/new\nfrom refs/heads/main^0\n", "--dry-run", tenant="other", status=1)
    held.stdin.close()
    assert held.wait() == 0 and room.pool_bytes() == before


@scene
def a_reader_that_dies(room: Room) -> None:
    """Standard output is a pipe that nobody reads any more: the import ends with 4, saves nothing, and says why."""
    stream = history(1)[0] + b"".join(b"progress %b\n" % (b"x" * 1000) for _ in range(2000))
    run = subprocess.Popen(["gitpool-import", write(room, "stream", stream), "acme/site", "--pool", room.pool], stdout=subprocess.PIPE,
                           stderr=subprocess.PIPE, env=room.environment)
    assert run.stdout and run.stderr
    run.stdout.close()
    said = text(run.stderr.read())
    assert run.wait() == 4 and said == "gitpool-import: standard output: Broken pipe", said
    assert not os.path.exists(room.pool)


@scene
def a_terminal_obeys_nothing(room: Room) -> None:
    """What a stream prints, and what is said of it, has no control byte where a terminal shows it."""
    evil = b"\x1b]0;x\x07\x1b[2J\xc2\x9b2J\x9b\x7f\x08\r\xef\xbb\xbf\xe2\x80\xae"
    stream = b"progress " + evil + b"\tand more\ncommit refs/heads/x" + evil[-3:] + b"\ncommitter A <a@b> 1 +0000\ndata 0\n" + evil + b"\n"
    ours, theirs = pty.openpty()
    run = subprocess.Popen(["gitpool-import", "-", "--no-progress"], stdin=subprocess.PIPE, stdout=theirs, stderr=theirs,
                           env=room.environment)
    os.close(theirs)
    assert run.stdin
    run.stdin.write(stream)
    run.stdin.close()
    said = b""
    while True:
        try:
            part = os.read(ours, 65536)
        except OSError:
            break
        if not part:
            break
        said += part
    os.close(ours)
    assert run.wait() == 1
    shown = said.replace(b"\r\n", b"\n").decode()
    assert all(it.isprintable() or it in "\n\t" for it in shown), shown
    escaped = "\\x1b]0;x\\x07\\x1b[2J\\xc2\\x9b2J\\x9b\\x7f\\x08\\r\\xef\\xbb\\xbf\\xe2\\x80\\xae"
    assert shown.startswith("progress " + escaped + "  ") or shown.startswith("progress " + escaped + "\tand more\n"), shown
    assert f"line 5: {escaped}\n" in shown, shown
    # A pipe gets the bytes as they are.
    assert room.client("gitpool-import", "-", data=stream, status=1).stdout == stream[: stream.index(b"\n") + 1]

