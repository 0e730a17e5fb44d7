"""Scenes of gitpool-export, gitpool-import and gitpool-tenants."""
from __future__ import annotations

import re
import sys
import time

from .room import Room, commit_text, matches, os, scene, subprocess, text

EXPORT_WORDS = ["fast-export", "--all", "--use-done-feature", "--mark-tags", "--reencode=no", "--signed-tags=verbatim"]


def exported(room: Room, tenant: str, into: str) -> None:
    """Lets git read the export of a tenant, and asks that it has the same refs and objects as a clone."""
    room.init(into, "--bare")
    stream = room.client("gitpool-export", tenant, "--pool", room.pool).stdout
    done = room.run(["git", "fast-import", "--quiet"], into, stream)
    assert done.returncode == 0 and not done.stderr, text(done.stderr)
    assert room.refs(into) == room.tenant_refs(tenant)
    room.git("", "clone", "-q", "--mirror", room.url(tenant), into + "-mirror")
    assert room.objects(into) == room.objects(into + "-mirror")
    room.is_sound(into)


@scene
def an_export_that_git_takes(room: Room) -> None:
    site = room.pushed()
    room.git(site, "tag", "-a", "-m", "Outer", "outer", "v1")
    room.git(site, "tag", "-a", "-m", "tag v1\nreset refs/tags/v1\ncheckpoint\n", "outermost", "outer")
    room.git(site, "push", "-q", "pool", "outer", "outermost")
    exported(room, "acme/site", "all")
    # An inner tag without a ref, one under whose name another tag stands, and one under whose name a commit does.
    room.git(site, "push", "-q", "pool", ":v1")
    exported(room, "acme/site", "without")
    room.git(site, "tag", "-f", "-a", "-m", "Again", "v1", "main~1")
    room.git(site, "push", "-q", "pool", "v1")
    exported(room, "acme/site", "another")
    room.git(site, "tag", "-f", "v1", "main~1")
    room.git(site, "push", "-q", "--force", "pool", "v1")
    exported(room, "acme/site", "commit")


@scene
def an_export_that_is_cut_off(room: Room) -> None:
    room.pushed()
    into, fed = room.init("into"), room.path("fed")
    os.mkdir(room.path("in-place"))
    with open(room.path("in-place", "git"), "w", encoding="utf-8") as file:
        file.write(f'#!/bin/sh\ncase "$*" in *fast-import*) exec cat > {fed} ;; esac\n')
    os.chmod(room.path("in-place", "git"), 0o755)
    # What is fed without a `done` after `feature done` changes no ref.
    for program, is_whole in ((room.program, True), ("/bin/false", False)):
        room.run(["gitpool-export", "acme/site", "--pool", room.pool, "--into", room.path(into)], GITPOOL=program,
                 PATH=room.path("in-place") + ":" + room.environment["PATH"])
        with open(fed, "rb") as stream:
            said = stream.read()
        assert said.startswith(b"feature done\n") and said.endswith(b"\ndone\n") == is_whole and (len(said) > 100) == is_whole, said


@scene
def an_export_of_other_things(room: Room) -> None:
    site = room.init("site", "--initial-branch=trunk")
    room.commit(site, "One", {'a "b"\nc': "a\n"})
    room.git(site, "tag", "-a", "-m", "Blob", "blob", room.git(site, "hash-object", "-w", "--stdin", data=b"b\n").decode().strip())
    room.git(site, "push", "-q", room.url(), "trunk", "blob")
    exported(room, "acme/site", "back")
    room.init("into", "--bare")
    room.client("gitpool-export", "acme/site", "--pool", room.pool, "--into", room.path("into"))
    assert room.refs("into") == room.refs(site)
    assert room.git("into", "symbolic-ref", "HEAD") == b"refs/heads/trunk\n"
    room.commit(site, "Two", {"b": "b\n"}, "--amend")
    room.git(site, "push", "-q", "--force", room.url(), "trunk")
    room.client("gitpool-export", "acme/site", "--pool", room.pool, "--into", room.path("into"))
    assert room.refs("into") == room.refs(site)
    exported(room, "nobody", "nothing")
    # In a hook, git's environment names the repository of the hook, which is another one.
    mine = room.init("mine")
    done = room.run(["gitpool-export", "acme/site", "--pool", room.pool, "--into", room.path("into")], GIT_DIR=room.path(mine, ".git"),
                    GIT_QUARANTINE_PATH=room.path(mine))
    assert done.returncode == 0 and not room.refs(mine), done
    assert room.git(mine, "symbolic-ref", "HEAD") == b"refs/heads/main\n" and room.refs("into") == room.refs(site)
    said = room.client("gitpool-export", "-bad", "--pool", room.pool, status=2).stderr
    said = room.client("gitpool-export", "a//b", "--pool", room.pool, status=1).stderr
    assert b"bad tenant name" in said and b"next step" in said, said
    room.client("gitpool-export", "acme/site", "--pool", room.path("no"), status=4)


@scene
def an_import_and_a_clone(room: Room) -> None:
    site = room.site()
    room.git(site, "tag", "-a", "-m", "Outer", "outer", "v1")
    stream = room.git(site, *EXPORT_WORDS)
    room.client("gitpool-import", "-", "acme/site", "--pool", room.pool, data=stream)
    # git's exporter calls the inner tag by another name where it tells a tag of a tag; all else is the same.
    refs = room.refs(site, "refs/heads", "refs/tags")
    assert {ref: name for ref, name in room.tenant_refs().items() if ref != "refs/tags/outer"} == {
        ref: name for ref, name in refs.items() if ref != "refs/tags/outer"}
    room.commit(site, "More", {"more": "m\n"})
    room.git(site, "tag", "-d", "outer")
    room.git(site, "push", "-q", "pool", "main", ":outer")
    room.same(site)


@scene
def an_import_sets_head(room: Room) -> None:
    site = room.init("site", "--initial-branch=master")
    room.commit(site, "One", {"a": "a\n"})
    room.git(site, "branch", "aaa")
    stream = room.git(site, *EXPORT_WORDS)
    said = room.client("gitpool-import", "-", "acme/site", "--pool", room.pool, data=stream).stderr
    assert b"HEAD names refs/heads/master now" in said, said
    mirror = room.same(site)
    assert room.git(mirror, "symbolic-ref", "HEAD") == b"refs/heads/master\n"
    said = room.client("gitpool-import", "-", "acme/site", "--pool", room.pool, data=stream).stderr
    assert b"HEAD" not in said, said
    cut = (commit_text("Good", branch="refs/heads/trunk") + "checkpoint\nwhat\n").encode()
    said = room.client("gitpool-import", "-", "cut", "--partial", "--pool", room.pool, data=cut, status=1).stderr
    assert b"HEAD names refs/heads/trunk now" in said and room.tenant_head("cut") == "refs/heads/trunk", said
    for words in ((), ("other", "--pool", room.pool, "--dry-run")):
        done = room.client("gitpool-import", "-", *words, "--partial", "--json", "verdict", data=cut, status=1)
        with open(room.path("verdict"), "rb") as file:
            assert b"HEAD" not in done.stderr and b'"saved": false' in file.read(), done


@scene
def an_import_that_would_rewind(room: Room) -> None:
    room.pushed()
    before = room.pool_bytes()
    stream = (commit_text("Anew", changes="M 644 inline f\ndata 2\nf\n") + commit_text("Other", branch="refs/heads/other")
              + "progress kept refs/heads/other\n").encode()
    done = room.client("gitpool-import", "-", "acme/site", "--pool", room.pool, data=stream, status=1)
    assert b"refs/heads/main was kept" in done.stderr and b"other was kept" not in done.stderr, done.stderr
    assert done.stdout == b"progress kept refs/heads/other\nkept refs/heads/main\n", done.stdout
    assert room.pool_bytes() == before
    room.client("gitpool-import", "-", "acme/site", "--partial", "--pool", room.pool, data=stream, status=1)
    assert "refs/heads/other" in room.tenant_refs()
    room.client("gitpool-import", "-", "acme/site", "--pool", room.pool, data=b"feature force\n" + stream)
    room.git("", "clone", "-q", "--mirror", room.url(), "mirror")
    room.is_sound("mirror")


@scene
def an_import_from_a_pipe_and_a_file(room: Room) -> None:
    stream = "".join(commit_text(f"{it}", changes=f"M 644 inline f{it}\ndata 3\n{it:3}\n") for it in range(300)) + "progress half\n" * 3
    with open(room.path("stream"), "w", encoding="utf-8") as file:
        file.write(stream)
    done = room.client("gitpool-import", room.path("stream"), "acme/site", "--pool", room.pool, "--progress")
    assert done.stdout == b"progress half\n" * 3
    last = text(done.stderr).split("\r")[-1]
    assert matches(r"100% \[#{20}\] [0-9.]+ KiB \| .*/s \| 300 objects", last), last
    slow = subprocess.Popen(["gitpool-import", "-", "piped", "--pool", room.pool, "--progress"], stdin=subprocess.PIPE,
                            stderr=subprocess.PIPE, env=room.environment)
    assert slow.stdin and slow.stderr
    for at in range(0, len(stream), 7001):
        slow.stdin.write(stream[at : at + 7001].encode())
        slow.stdin.flush()
        time.sleep(0.01)
    slow.stdin.close()
    said = text(slow.stderr.read()).split("\r")[-1]
    assert slow.wait() == 0 and matches(r"^Importing: [0-9.]+ KiB \| .*/s \| 300 objects", said), said
    assert room.tenant_refs("piped") == room.tenant_refs()


@scene
def an_import_that_is_refused_changes_nothing(room: Room) -> None:
    room.pushed()
    before = room.pool_bytes()
    stream = (commit_text("Good", branch="refs/heads/good") + "checkpoint\n" + commit_text("Bad", changes="M 999 inline f\n")).encode()
    said = room.client("gitpool-import", "-", "acme/site", "--pool", room.pool, data=stream, status=1).stderr
    assert b"fault 23: bad mode" in said and b"usual cause" in said and b"next step" in said, said
    assert room.pool_bytes() == before and not os.path.exists(room.pool + ".new")
    room.client("gitpool-import", "-", "acme/site", "--partial", "--pool", room.pool, data=stream, status=1)
    assert "refs/heads/good" in room.tenant_refs() and room.pool_bytes() != before


@scene
def an_import_without_a_pool_only_judges(room: Room) -> None:
    done = room.client("gitpool-import", "-", data=b"blob\nmark :1\ndata 6\nhello\nget-mark :1\n")
    assert done.stdout == b"ce013625030ba8dba906f756967f9e9ca394464a\n"
    room.client("gitpool-import", "-", data=b"blob\n", status=1)
    room.client("gitpool-import", "-", "acme/site", status=2)
    assert b"No such file" in room.client("gitpool-import", room.path("none"), status=4).stderr


@scene
def an_import_while_another_is_at_work(room: Room) -> None:
    room.pushed()
    held = subprocess.Popen([room.program, "serve", "--pool", room.pool], stdin=subprocess.PIPE, stdout=subprocess.PIPE)
    assert held.stdin and held.stdout
    held.stdin.write(b"\4\0\1t\0\0\0\4head")
    held.stdin.flush()
    held.stdout.read(17)
    said = room.client("gitpool-import", "-", "acme/site", "--pool", room.pool, data=b"blob\ndata 0\n", status=4).stderr
    assert b"in hand; try again" in said, said
    exported(room, "acme/site", "meanwhile")
    held.stdin.close()
    assert held.wait() == 0
    room.client("gitpool-import", "-", "acme/site", "--pool", room.pool, data=b"blob\ndata 0\n")


@scene
def tenants_of_a_pool(room: Room) -> None:
    room.pushed()
    room.client("gitpool-import", "-", "zoo", "--pool", room.pool,
                data=b"option gitpool head refs/heads/x\nblob\ndata 6\nHello\n\nblob\ndata 1\nx")
    before = room.pool_bytes()
    out = text(room.client("gitpool-tenants", room.pool).stdout).splitlines()
    sizes = [int(word) for word in re.findall("bytes ([0-9]+) own", out[0])]
    assert out == [f"acme/site objects 9 bytes {sizes[0]} own {sizes[0] - 6} refs 3 head refs/heads/main",
                   "zoo objects 2 bytes 7 own 1 refs 0 head refs/heads/x", "tenants 2"], out
    whole = room.pool_bytes()
    assert whole == before
    odd = b"option gitpool head refs/heads/\xff\xc2\x9b\n"
    room.client("gitpool-import", "-", "odd", "--pool", room.path("odd.pool"), data=odd + b"blob\ndata 0\n")
    listed = room.run(["gitpool-tenants", room.path("odd.pool")], PYTHONIOENCODING="ascii:strict")
    assert listed.stdout.splitlines()[0].endswith(b" refs 0 head refs/heads/\\xff\\xc2\\x9b"), listed
    for data, says in ((whole[:-1], "cut off"), (whole + b"x", "bytes follow"), (b"x" + whole, "no pool file"),
                       (whole[:8] + b"\0\0\0\7" + whole[12:], "version"), (whole[:40] + b"?" + whole[41:], ""), (b"", "cut off")):
        with open(room.path("other.pool"), "wb") as file:
            file.write(data)
        done = room.client("gitpool-tenants", room.path("other.pool"), status=3)
        program = room.run([room.program, "check", "--pool", room.path("other.pool")])
        number = text(program.stderr).split()[-1]
        assert says in text(done.stderr) and f"fault {number}" in text(done.stderr) and not done.stdout, (done, program.stderr)
    room.client("gitpool-tenants", room.path("none"), status=4)
    room.client("gitpool-tenants", status=2)


@scene
def everything_comes_back(room: Room) -> None:
    """This repository itself, where it has a history: pushed, cloned, exported and imported."""
    top = os.path.join(os.path.dirname(os.path.realpath(__file__)), "..", "..")
    done = room.run(["git", "rev-list", "--count", "HEAD"], top)
    if done.returncode or int(done.stdout) < 10:
        return
    room.git("", "clone", "-q", "--bare", "--no-tags", "--single-branch", "--depth=60", "file://" + os.path.realpath(top), "shallow")
    room.git("", "init", "-q", "--bare", "own")
    room.git("own", "fast-import", "--quiet", data=room.git("shallow", *EXPORT_WORDS))
    room.git("own", "push", "-q", room.url(), "refs/heads/*:refs/heads/*")
    room.same("own")


__all__ = ["sys"]
