"""Scenes of the filters of gitpool-import: streams that only git takes, and what both make of them."""
from __future__ import annotations

import json
import re
from typing import Dict, List

from .conversions import imports, read, verdict_of, write
from .room import Room, os, scene, subprocess, text

WHO = "A U Thor <a@example.org>"

DATES: Dict[str, List[str]] = {
    # What git-commit(1) and RFC 2822 have, and what real streams have.
    "rfc2822": [
        "Tue Feb 6 11:22:18 2007 -0500", "Thu, 07 Apr 2005 22:13:13 +0200", "7 Apr 2005 22:13:13 GMT", "Thu, 7 Apr 05 22:13 EST",
        "2005-04-07T22:13:13", "2005-04-07 22:13:13 +05:30", "2005-04-07T22:13:13.019Z", "2005.04.07 22:13:13 -0330",
        "04/07/2005 1:02:03 PM",
        "07.04.2005 10:11 pm", "20050407T221313+0100", "1112911993 +0200", "@1112911993 -0700", "Fri Dec 31 23:59:60 1999 NZDT",
        "Sat, 1 Jan 2000 12:00:00 AM CEST (a comment)", "april 7 2005 00:00:00", "Thu Jan 1 00:00:00 1970 +0100",
        "Mon Feb 29 24:00:00 2016 +0000"],
    "raw-permissive": ["1112911993 +0200", "1112911993 +5", "0 -0000", "1 +1400", "1112911993 +530", "1112911993 -2359"],
}


def dated(dates: List[str]) -> bytes:
    """A stream with a commit and a tag of each date."""
    parts = [f"commit refs/heads/b{place}\nmark :{place + 1}\nauthor {WHO} {date}\ncommitter {WHO} {date}\ndata 2\nm\n"
             f"tag t{place}\nfrom :{place + 1}\ntagger {WHO} {date}\ndata 0\n\n" for place, date in enumerate(dates)]
    return "".join(parts).encode()


def same_as_git(room: Room, stream: bytes, words: List[str], git_words: List[str], name: str = "t", **more: str) -> str:
    """Imports a stream into a tenant and, by git, into a repository, and asks that both have the same refs. Gives the repository."""
    room.init(name, "--bare")
    room.git(name, "fast-import", "--quiet", *git_words, data=stream, **more)
    done = room.run(["gitpool-import", "-", name, "--pool", room.pool, *words], "", stream, **more)
    assert done.returncode == 0, text(done.stderr)
    assert room.tenant_refs(name) == room.refs(name), text(done.stderr)
    return name


@scene
def dates_as_git_reads_them(room: Room) -> None:
    for place, zone in enumerate(("UTC", "Europe/Paris", "America/St_Johns")):
        same_as_git(room, dated(DATES["rfc2822"]), ["--filter", "dates=rfc2822"], ["--date-format=rfc2822"], f"mail{place}", TZ=zone)
    in_stream = b"feature date-format=rfc2822\n" + dated(DATES["rfc2822"])
    same_as_git(room, in_stream, ["--filter", "dates"], [], "feature")
    raw = b"feature date-format=raw\n" + dated(["1112911993 +0200"])
    same_as_git(room, raw, ["--filter", "all"], [], "raw")
    # Without the filter such a date is refused (22), and what git refuses stays refused with it.
    assert b"fault 8:" in imports(room, in_stream, status=1).stderr
    for date in ("yesterday noon", "2007", "Tue Feb 6 2007", "", "11:22:18", "32 Foo 2007 99:00"):
        bad = dated([date])
        assert b"fault 22:" in imports(room, bad, "--filter", "dates=rfc2822", status=1).stderr, date
        room.init("refuses", "--bare")
        assert room.run(["git", "fast-import", "--quiet", "--date-format=rfc2822"], "refuses", bad).returncode, date


@scene
def dates_of_now_and_of_any_offset(room: Room) -> None:
    given = verdict_of(imports(room, dated(["now"]), "--filter", "dates=now", "--json", "-"))
    assert given["changed"] == {"dates": 3}, given
    mirror = "mirror"
    room.git("", "clone", "-q", "--mirror", room.url(), mirror)
    seconds = int(room.git(mirror, "log", "-1", "--format=%ct", "b0"))
    assert abs(seconds - os.stat(room.pool).st_mtime) < 60
    # An offset of other than four digits gets four; where they cannot say it, the time stays and the offset is +0000.
    stream = dated([*DATES["raw-permissive"], "1112911993 +051800"])
    imports(room, stream, "--filter", "dates=raw-permissive", tenant="offsets")
    told = room.run([room.program, "ask", "offsets", "cat b6", "--pool", room.pool]).stdout
    assert b"committer A U Thor <a@example.org> 1112911993 +0000\n" in told, told
    told = room.run([room.program, "ask", "offsets", "cat b4", "--pool", room.pool]).stdout
    assert b"1112911993 +0530\n" in told, told
    whole = dated(["1112911993 +0200", "0 -0000", "1 +1400", "1112911993 -2359"])
    same_as_git(room, whole, ["--filter", "dates=raw-permissive"], ["--date-format=raw-permissive"], "permissive")


@scene
def features_of_marks_files_and_options(room: Room) -> None:
    """They are left out at the head of a stream, and nothing is read or written that a stream names."""
    head = ("feature import-marks-if-exists=%s\nfeature export-marks=%s\nfeature relative-marks\nfeature no-relative-marks\n"
            "option git quiet\n# a comment\noption git depth=3\noption git max-pack-size=1g\noption git active-branches=7\nfeature done\n"
            % (room.path("a"), room.path("b"))).encode()
    stream = head + dated(["1 +0000"]) + b"done\n"
    assert b"fault 8:" in imports(room, stream, status=1).stderr
    done = verdict_of(imports(room, stream, "--filter", "features", "--json", "-"))
    assert done["changed"] == {"features": 4, "options": 3}, done
    assert not os.path.exists(room.path("a")) and not os.path.exists(room.path("b"))
    # After a command they are too late, and what nobody knows is refused, with the filter too; the place is that of the stream.
    for line, number in ((b"feature export-marks=x", 9), (b"option git depth=1", 9)):
        late = dated(["1 +0000"]) + line + b"\n"
        said = text(imports(room, late, "--filter", "all", status=1, tenant="late").stderr)
        assert f"fault {number}:" in said and f"byte {len(late)}, line {late.count(10)}:" in said, said
    assert b"fault 8:" in imports(room, b"feature magic\n", "--filter", "all", status=1, tenant="late").stderr


@scene
def properties_authors_and_directories(room: Room) -> None:
    """What bzr and cvs-fast-export add. Values may have line ends, and lines in them that look like commands."""
    value = b"data 3\ncommit refs/heads/evil\n\xff\n"
    head = b"feature commit-properties\nfeature empty-directories\nfeature multiple-authors\n"
    commit = (b"commit refs/heads/main\nmark :1\nauthor A <a@b> 1 +0000\nauthor B <a@b> 1 +0000\nauthor C <a@b> 1 +0000\n"
              b"committer A <a@b> 1 +0000\ndata 1\nm\nproperty branch-nick 5 trunk\nproperty many %d %b\nproperty empty 0 \nproperty none\n"
              b"property cvs-revisions 8 a.c 1.1\nM 040000 - dir\nM 644 inline dir/a\ndata 6\nproper\n\nblob\ndata 0\n"
              % (len(value), value))
    clean = (b"commit refs/heads/main\nmark :1\nauthor A <a@b> 1 +0000\ncommitter A <a@b> 1 +0000\ndata 1\nm\n"
             b"M 644 inline dir/a\ndata 6\nproper\n\n")
    room.imported("git", clean, "-q")
    for size in (1 << 20, 1, 7):
        done = fed_in_pieces(room, head + commit, size, "--filter", "properties", "--json", "-", tenant=f"t{size}")
        assert verdict_of(done)["changed"] == {"authors": 2, "directories": 1, "features": 3, "properties": 5}, done.stdout
        assert room.tenant_refs(f"t{size}") == room.refs("git")
    broken = head + commit + b"frobnicate\n"
    said = text(imports(room, broken, "--filter", "all", status=1).stderr)
    assert f"refused at byte {len(broken)}, line {broken.count(10)}: frobnicate\n" in said, said


def fed_in_pieces(room: Room, stream: bytes, size: int, *words: str, tenant: str) -> "subprocess.CompletedProcess[bytes]":
    """Imports a stream that a pipe gives in pieces of a size."""
    script = "import sys, gitpool_import\ngitpool_import.PIECE = int(sys.argv.pop(1))\nsys.argv[0] = 'gitpool-import'\n" \
             "gitpool_import.Source.first.__defaults__ = (gitpool_import.PIECE,)\nimport runpy\n" \
             "runpy.run_path(sys.argv.pop(1), run_name='__main__')\n"
    clients = os.path.dirname(os.path.dirname(os.path.realpath(__file__)))
    done = room.run(["python3", "-c", script, str(size), os.path.join(clients, "gitpool-import"), "-", tenant, "--pool", room.pool, *words],
                    "", stream,
                    PYTHONPATH=clients)
    assert done.returncode == 0, text(done.stderr)
    return done


SIGNATURE = "-----BEGIN PGP SIGNATURE-----\n\nabc\n-----END PGP SIGNATURE-----\n"


@scene
def signatures_are_stripped_or_refused(room: Room) -> None:
    site = room.site()
    tag = f"object {room.name(site, 'main')}\ntype commit\ntag signed\ntagger A <a@b> 1 +0000\n\nSigned\n{SIGNATURE}"
    room.git(site, "update-ref", "refs/tags/signed", room.git(site, "mktag", data=tag.encode()).decode().strip())
    verbatim = room.git(site, "fast-export", "--all", "--signed-tags=verbatim", "--mark-tags")
    stripped = room.git(site, "fast-export", "--all", "--signed-tags=strip", "--mark-tags")
    room.imported("git", stripped)
    assert verdict_of(imports(room, verbatim, "--filter", "signatures=strip", "--json", "-"))["changed"] == {"signatures": 1}
    assert room.tenant_refs() == room.refs("git")
    # The signature is part of the message. It is kept where what it signs is what it was.
    imports(room, verbatim, tenant="kept")
    assert verdict_of(imports(room, verbatim, "--filter", "signatures", "--json", "-", tenant="kept-too"))["changed"] == {}
    assert room.tenant_refs("kept") == room.tenant_refs("kept-too") == room.refs(site, "refs/heads", "refs/tags")
    said = text(imports(room, verbatim, "--filter", "signatures=refuse", status=1, tenant="none").stderr)
    assert "a tag is signed, and signatures are refused" in said, said
    assert re.search(r"line [0-9]+: data [0-9]+\n  in the command of line [0-9]+: tag signed", said), said
    # Commits with gpgsig, as newer versions of git export them; and a tag whose message is delimited.
    plain = b"commit refs/heads/s\nmark :1\ncommitter A <a@b> 1 +0000\ndata 1\nm\nfrom %b\n\n" % room.name(site, "main").encode()
    signed = plain.replace(b"data 1\n", b"gpgsig sha1 openpgp\ndata %d\n%b\ngpgsig sha256 ssh\ndata <<X\nabc\nX\ndata 1\n"
                           % (len(SIGNATURE), SIGNATURE.encode()))
    delimited = b"tag d\nfrom :1\ntagger A <a@b> 1 +0000\ndata <<EOT\nm\n%bEOT\n" % SIGNATURE.encode()
    counted = b"tag d\nfrom :1\ntagger A <a@b> 1 +0000\ndata 2\nm\n"
    imports(room, plain + counted, tenant="acme/site")
    refs = room.tenant_refs()
    imports(room, signed + delimited, "--filter", "signatures")
    assert room.tenant_refs() == refs
    assert b"a commit is signed" in imports(room, signed, "--filter", "signatures=refuse", status=1).stderr
    # A stream that is cut in such a message is cut for the service, too.
    assert b"fault 6:" in imports(room, signed + delimited[:-4], "--filter", "signatures", status=1).stderr


@scene
def head_is_the_branch_that_is_named(room: Room) -> None:
    """Fossil's stream has `feat` before `trunk`, and HEAD would name the first. A branch that is not there is refused, and nothing is saved."""
    stream = "".join(f"commit refs/heads/{it}\ncommitter A <a@b> 1 +0000\ndata 0\n\n" for it in ("feat", "trunk")).encode()
    said = text(imports(room, stream, "--head", "tru\x1bnk", status=1).stderr)
    assert "there is no branch 'refs/heads/tru\\x1bnk' for HEAD after this stream; nothing is saved" in said, said
    assert room.tenant_refs() == {}
    assert "HEAD names refs/heads/trunk now" in text(imports(room, stream, "--head", "trunk").stderr)
    assert room.tenant_head() == "refs/heads/trunk"
    imports(room, stream, "--head", "refs/heads/feat")
    assert room.tenant_head() == "refs/heads/feat"
    imports(room, stream)
    assert room.tenant_head() == "refs/heads/feat"
    room.client("gitpool-import", "--all", os.devnull, "--pool", room.pool, "--head", "trunk", status=2)


@scene
def refusals_name_the_filter(room: Room) -> None:
    """Where a filter takes away what is refused, the next step names it, and with it the stream is taken."""
    commit = "commit refs/heads/main\nmark :1\n{}committer A <a@b> {} +0000\n{}data 0\n{}"
    for at, (number, name, stream) in enumerate((
            (2, "properties", commit.format("", 1, "", "property branch 3 a b\n")),
            (2, "notes", "blob\nmark :9\ndata 1\nx\n" + commit.format("", 1, "", "") + "commit refs/notes/n\ncommitter A <a@b> 1 +0000\ndata 0\nN :9 :1\n"),
            (5, "signatures", commit.format("", 1, f"gpgsig sha1 openpgp\ndata {len(SIGNATURE)}\n{SIGNATURE}", "")),
            (8, "dates", "feature date-format=rfc2822\n" + commit.format("", "Tue, 14 Nov 2023 23:13:20", "", "")),
            (8, "features", "feature export-marks=x\n" + commit.format("", 1, "", "")),
            (8, "properties", "feature commit-properties\n" + commit.format("", 1, "", "")),
            (8, "features", "option git depth=5\n" + commit.format("", 1, "", "")))):
        said = text(imports(room, stream.encode(), status=1).stderr)
        assert f"fault {number}:" in said and f"give --filter {name}, or export without it" in said, said
        imports(room, stream.encode(), "--filter", name, tenant=f"t{at}")


def noted(commits: int, steps: List[str]) -> bytes:
    """Commits with the marks from 1, a blob with the mark 9999, and steps."""
    parts = [f"commit refs/heads/main\nmark :{number}\ncommitter A <a@b> {number} +0000\ndata 0\n" for number in range(1, commits + 1)]
    return ("".join(parts) + "blob\nmark :9999\ndata 4\nblob\n" + "".join(steps)).encode()


def notes(ref: str, starts: str, changes: str) -> str:
    """A commit of notes."""
    return f"commit {ref}\ncommitter A <a@b> 5 +0000\ndata 1\nn\n{starts}{changes}\n"


@scene
def notes_as_git_puts_them(room: Room) -> None:
    """Notes of each form, over the numbers where git changes the fanout, both ways, in one commit and in many."""
    ref, inline = "refs/notes/commits", "N inline :{0}\ndata 6\nn {0:04}\n"
    steps = [notes(ref, "", "".join(inline.format(it) for it in range(1, 255)))]
    steps += [notes(ref, "", inline.format(it)) for it in range(255, 260)]
    steps += [notes(ref, "", "".join(f"N {'0' * 40} :{it}\n" for it in range(200, 203))),
              notes(ref, "", "".join(f"N {'0' * 40} :{it}\n" for it in (1, 2, 3)))]
    steps += [notes("refs/notes/other", "", "deleteall\nN :9999 refs/heads/main\nN :9999 :7\nN inline :7\ndata <<E\nagain\nE\n"),
              notes("refs/notes/other", "", "deleteall\n" + inline.format(9)), "reset refs/notes/copy\nfrom refs/notes/other\n\n",
              notes("refs/notes/copy", "", inline.format(3) + "N :9999 :4\nM 644 :9999 a file\nD nothing\n")]
    same_as_git(room, b"feature notes\n" + noted(300, steps), ["--filter", "notes"], [], "notes")
    # Over the tree that is saved, by names and expressions.
    tip = room.name("notes", "main")
    more = notes(ref, f"from {ref}^0\n", f"N inline {tip}\ndata 1\nx\nN inline refs/heads/main~3\ndata 1\ny\nN {'0' * 40} main~4\n")
    same = more + notes("refs/notes/next", f"from {ref}^0\n", "".join(f"N {'0' * 40} main~{it}\n" for it in range(60)))
    room.git("notes", "fast-import", "--quiet", data=same.encode())
    imports(room, same.encode(), "--filter", "notes", tenant="notes")
    assert room.tenant_refs("notes") == room.refs("notes")
    room.same("notes", "notes", room.refs("notes"))


@scene
def filters_of_no_name(room: Room) -> None:
    assert "there is no filter nothing" in text(room.client("gitpool-import", "-", "--filter", "dates,nothing", status=2).stderr)


@scene
def notes_that_are_refused(room: Room) -> None:
    start = noted(3, [])
    assert b"fault 2:" in imports(room, start + notes("refs/notes/x", "", "N inline :1\ndata 0\n").encode(), status=1).stderr
    cases = {"N :9999 :77": "fault 13:", "N :77 :1": "fault 13:", "N :1 :2": "fault 15:", "N :9999 :9999": "fault 15:",
             "N :9999 refs/heads/none": "fault 16:", "N :9999 main@{1}": "fault 3:", "N :9999 " + "1" * 40: "fault 14:", "N nothing": "fault 2:", "N x :1": "fault 2:",
             "M 644 :9999 ab\nC ab cd\nN :9999 :1": "cannot be followed", "N :9999 refs/notes/x": "no mark"}
    lines = []
    for place, line in enumerate(cases):
        stream = start + notes("refs/notes/x", "", "N :9999 :2\n").encode() + notes("refs/notes/x", "", line + "\n").encode()
        lines.append(f"t{place} {write(room, f's{place}', stream)}\n".encode())
    write(room, "list", b"".join(lines))
    room.client("gitpool-import", "--all", room.path("list"), "--pool", room.pool, "--filter", "notes", "--json", room.path("verdict"),
                status=1)
    for (line, says), verdict in zip(cases.items(), json.loads(read(room, "verdict"))["imports"]):
        last = line.rpartition("\n")[2]
        told = f"fault {verdict['fault']}:" if verdict["fault"] else verdict["meaning"]
        assert says in told and verdict["text"] == last and verdict["command"] == "commit refs/notes/x", (line, verdict)
    assert not os.path.exists(room.pool)


@scene
def lines_that_no_filter_reads(room: Room) -> None:
    """What is malformed goes to the service as it is, and that refuses it; the filters never fail."""
    long = b"9" * 5000
    start = b"commit refs/heads/x\ncommitter A <a@b> 1 +0000\ndata 0\n"
    for number, stream in (
        (2, start + b"from\n"), (12, start + b"from :" + long + b"\n"), (10, start + b'D "\\777"\n'), (10, start + b'C "\\777" a\n'),
        (10, start + b'M 644 inline "\\400"\ndata 0\n'), (23, start + b"M " + long + b" inline a\ndata 0\n"),
        (12, b"blob\nmark :" + long + b"\ndata 0\n"), (12, start + b"M 644 :" + long + b" a\n"),
        (22, b"commit refs/heads/x\ncommitter A <a@b> " + long + b" +0000\ndata 0\n"),
        (22, b"feature date-format=raw\ncommit refs/heads/x\ncommitter A <a@b> 1 +" + long + b"\ndata 0\n"),
        (22, b"feature date-format=rfc2822\ncommit refs/heads/x\ncommitter A <a@b> 1:" + long + b"\ndata 0\n"),
    ):
        said = text(imports(room, stream, "--filter", "all", status=1).stderr)
        assert f"fault {number}:" in said, (stream[-60:], said)


@scene
def worked_streams_under_filters(room: Room) -> None:
    """The filters change nothing in a stream that needs none, wherever it is cut: all worked streams that end well print and leave
    the same with them, with marks and a map."""
    folder = os.path.join(os.path.dirname(os.path.realpath(__file__)), "..", "..", "streams")
    names = sorted(it[:-3] for it in os.listdir(folder) if it.endswith(".fi")
                   and not os.path.exists(os.path.join(folder, it[:-3] + ".fault")))
    lines = []
    for place, name in enumerate(names):
        lines += [f"p{place} {os.path.join(folder, name)}.fi\n"]
    write(room, "list", "".join(lines).encode())
    room.client("gitpool-import", "--all", room.path("list"), "--pool", room.pool, "--json", room.path("plain"), status=1)
    room.client("gitpool-import", "--all", room.path("list"), "--pool", room.path("filtered.pool"), "--filter", "all", "--json",
                room.path("filtered"), status=1)
    assert room.pool_bytes() == read(room, "filtered.pool") and len(names) > 100
