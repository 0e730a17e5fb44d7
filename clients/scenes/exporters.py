"""Scenes of exporters: streams of other programs go into gitpool-import with its filters, and leave what git makes of them.

Each exporter is tried where this machine has it, over a small repository that is made here. Debian has all of them in packages of
the names brz, cvs-fast-export, darcs, fossil, git, mercurial, reposurgeon and svn-all-fast-export.
"""
from __future__ import annotations

import shutil
from typing import List, Optional, Tuple

from .conversions import imports, write
from .room import NotTried, Room, os, scene, text

WHO = "Ada <ada@example.org>"


def needs(*programs: str) -> None:
    """Asks that these programs are installed."""
    missing = [it for it in programs if not shutil.which(it)]
    if missing:
        raise NotTried(f"there is no {missing[0]}")


def run(room: Room, at: str, *words: str, **more: str) -> bytes:
    """What a command prints, which has to end well. It gets the programs of the system, for it may look for its Python on the PATH."""
    more = {"PATH": os.defpath, **more}
    done = room.run(list(words), at, b"", HGRCPATH=os.devnull, HGUSER=WHO, BRZ_EMAIL=WHO, USER="ada", **more)
    assert done.returncode == 0, f"{' '.join(words)} ended in {done.returncode}: {text(done.stderr)[-500:]}"
    return done.stdout


def passes(room: Room, stream: bytes, tenant: str, for_git: Optional[bytes] = None, git_words: Tuple[str, ...] = ()) -> None:
    """Asks that a stream goes in with the filters, that git takes it too (or what is said to be the same for git), and that both
    have the same refs and objects."""
    imports(room, stream, "--filter", "all", tenant=tenant)
    room.init(tenant, "--bare")
    room.git(tenant, "fast-import", "--quiet", *git_words, data=stream if for_git is None else for_git)
    refs = room.refs(tenant)
    assert refs and room.tenant_refs(tenant) == refs, (room.tenant_refs(tenant), refs)


def pass_together(room: Room, streams: List[bytes]) -> None:
    """The same for several streams, each over a tenant of its own."""
    for place, stream in enumerate(streams):
        write(room, f"s{place}", stream)
        room.init(f"t{place}", "--bare")
        room.git(f"t{place}", "fast-import", "--quiet", data=stream)
    write(room, "list", "".join(f"t{place} s{place}\n" for place in range(len(streams))).encode())
    room.client("gitpool-import", "--all", room.path("list"), "--pool", room.pool, "--filter", "all")
    for place in range(len(streams)):
        refs = room.refs(f"t{place}")
        assert refs and room.tenant_refs(f"t{place}") == refs, (place, refs)


EXPORTS: Tuple[List[str], ...] = (
    [], ["-M", "-C"], ["--full-tree"], ["--show-original-ids"], ["--progress=2"], ["--anonymize"], ["--fake-missing-tagger"],
    ["--use-done-feature"],
    ["--reencode=yes"], ["--reencode=no"], ["--signed-tags=verbatim"], ["--signed-tags=strip"], ["--mark-tags"],
    ["--tag-of-filtered-object=drop", "--", "css"], ["--refspec=refs/heads/*:refs/heads/x/*"], ["--reference-excluded-parents"])


@scene
def git_fast_export_with_each_option(room: Room) -> None:
    site = room.site()
    room.git(site, "mv", "index.html", "moved.html")
    room.commit(site, "Two", {"css/b.css": "a{}\n", "css/c.css": "a{}\n"})
    room.git(site, "tag", "-a", "-m", "Second", "v2")
    streams = []
    for words in EXPORTS:
        common = ["--signed-tags=strip", "--all"] if "--" not in words else ["--signed-tags=strip", "main"]
        streams.append(room.git(site, "fast-export", *common, *words))
    pass_together(room, streams)
    for words in (["--export-marks=../marks"], ["--import-marks=../marks", "--export-marks=../marks"]):
        room.commit(site, "More", {"more": f"{words}\n"})
        marks = ["--import-marks-if-exists", room.path("ours"), "--export-marks", room.path("ours")]
        imports(room, room.git(site, "fast-export", "--all", "--mark-tags", *words), "--filter", "all", *marks, tenant="marks")
    assert room.tenant_refs("marks") == room.refs(site, "refs/heads", "refs/tags")
    # Without contents a stream is one over what the tenant has.
    imports(room, b"feature force\n" + room.git(site, "fast-export", "--all", "--no-data", "--mark-tags"), tenant="marks")
    assert room.tenant_refs("marks") == room.refs(site, "refs/heads", "refs/tags")


@scene
def a_stream_of_bzr(room: Room) -> None:
    needs("brz")
    run(room, "", "brz", "init", "-q", "work")
    room.write("work", {"a": "a\n", "css/a.css": "a{}\n"})
    os.mkdir(room.path("work", "empty"))
    run(room, "work", "brz", "add", "-q")
    run(room, "work", "brz", "commit", "-q", "-m", "One")
    run(room, "work", "brz", "tag", "-q", "v1")
    run(room, "work", "brz", "mv", "-q", "a", "b")
    run(room, "work", "brz", "commit", "-q", "-m", "Two\n\nand more", "--author", "Bob <bob@x>", "--author", "Carl <c@x>")
    plain = run(room, "work", "brz", "fast-export", "--plain", ".")
    stream = run(room, "work", "brz", "fast-export", "--no-plain", ".")
    assert b"property branch-nick" in stream and b"M 040000 - empty" in stream
    passes(room, stream, "bzr", plain)
    assert b"fault 8:" in imports(room, stream, status=1, tenant="none").stderr


@scene
def a_stream_of_cvs(room: Room) -> None:
    needs("cvs", "cvs-fast-export", "rlog")
    root = room.path("cvs")
    run(room, "", "cvs", "-d", root, "init")
    os.makedirs(room.path("start"))
    room.write("start", {"a.c": "a\n"})
    run(room, "start", "cvs", "-d", root, "-Q", "import", "-m", "Import", "project", "vendor", "first")
    run(room, "", "cvs", "-d", root, "-Q", "co", "project")
    room.write("project", {"a.c": "a\nb\n", "c.c": "c\n"})
    run(room, "project", "cvs", "-Q", "add", "c.c")
    run(room, "project", "cvs", "-Q", "commit", "-m", "Two")
    run(room, "project", "cvs", "-Q", "tag", "v1_0")
    files = "\n".join(sorted(os.path.join(at, it) for at, _, names in os.walk(os.path.join(root, "project")) for it in names
                             if it.endswith(",v")))
    plain = room.run(["cvs-fast-export"], "", files.encode() + b"\n")
    more = room.run(["cvs-fast-export", "--reposurgeon"], "", files.encode() + b"\n")
    assert plain.returncode == 0 and more.returncode == 0 and b"\nproperty cvs-revisions" in more.stdout, text(plain.stderr + more.stderr)
    passes(room, plain.stdout, "plain")
    passes(room, more.stdout, "properties", plain.stdout)


@scene
def a_stream_of_darcs(room: Room) -> None:
    needs("darcs")
    os.mkdir(room.path("work"))
    run(room, "work", "darcs", "init", "-q")
    room.write("work", {"a": "a\n"})
    run(room, "work", "darcs", "record", "-q", "-a", "-l", "-m", "One", "-A", WHO)
    run(room, "work", "darcs", "tag", "-q", "v1", "-A", WHO)
    run(room, "work", "darcs", "mv", "-q", "a", "b")
    run(room, "work", "darcs", "record", "-q", "-a", "-m", "Two", "-A", WHO)
    passes(room, run(room, "work", "darcs", "convert", "export"), "darcs")


@scene
def a_stream_of_fossil(room: Room) -> None:
    needs("fossil")
    os.mkdir(room.path("work"))
    run(room, "", "fossil", "init", "--admin-user", "ada", "f.fossil")
    run(room, "work", "fossil", "open", "../f.fossil")
    room.write("work", {"a": "a\n", "d/b": "b\n"})
    run(room, "work", "fossil", "add", "a", "d/b")
    run(room, "work", "fossil", "commit", "-m", "One", "--user-override", "ada")
    run(room, "work", "fossil", "tag", "add", "v1", "trunk")
    room.write("work", {"a": "more\n"})
    run(room, "work", "fossil", "commit", "-m", "Two", "--branch", "side", "--user-override", "ada")
    passes(room, run(room, "", "fossil", "export", "--git", "f.fossil"), "fossil")


def mercurial(room: Room) -> str:
    """A repository of Mercurial with a tag, a named branch and an odd zone."""
    run(room, "", "hg", "init", "work")
    room.write("work", {"a": "a\n"})
    run(room, "work", "hg", "commit", "-q", "-A", "-m", "One", "-d", "0 -3600")
    run(room, "work", "hg", "tag", "v1", "-d", "1 0")
    run(room, "work", "hg", "branch", "-q", "side")
    room.write("work", {"b": "b\n"})
    run(room, "work", "hg", "commit", "-q", "-A", "-m", "Two", "-d", "5 19800")
    return "work"


@scene
def a_stream_of_mercurial(room: Room) -> None:
    needs("hg")
    work = mercurial(room)
    passes(room, run(room, work, "hg", "--config", "extensions.fastexport=", "fastexport"), "hg")
    # In two parts, with marks.
    marks = ["--import-marks-if-exists", room.path("ours"), "--export-marks", room.path("ours")]
    for theirs in (["-e", "../marks", "0"], ["-i", "../marks", "-e", "../marks"]):
        stream = run(room, work, "hg", "--config", "extensions.fastexport=", "fastexport", *theirs)
        imports(room, stream, "--filter", "all", *marks, tenant="parts")
    assert room.tenant_refs("parts") == room.tenant_refs("hg")


@scene
def streams_of_reposurgeon(room: Room) -> None:
    needs("reposurgeon", "hg", "svnadmin")
    work = mercurial(room)
    stream = run(room, "", "reposurgeon", f"read {work}", "write >-")
    passes(room, stream[stream.index(b"#reposurgeon") :], "from-hg")
    subversion(room)
    write(room, "dump", run(room, "", "svnadmin", "dump", "-q", "svn"))
    passes(room, run(room, "", "reposurgeon", "read <dump", "write >-"), "from-svn")


def subversion(room: Room) -> None:
    """A repository of Subversion with a branch and a tag."""
    run(room, "", "svnadmin", "create", "svn")
    url = "file://" + room.path("svn")
    run(room, "", "svn", "-q", "mkdir", url + "/trunk", url + "/branches", url + "/tags", "-m", "Layout")
    run(room, "", "svn", "-q", "co", url + "/trunk", "checkout")
    room.write("checkout", {"a": "a\n", "d/b": "b\n"})
    run(room, "checkout", "svn", "-q", "add", "a", "d")
    run(room, "checkout", "svn", "-q", "commit", "-m", "One")
    run(room, "", "svn", "-q", "cp", url + "/trunk", url + "/tags/v1", "-m", "Tag")
    run(room, "", "svn", "-q", "cp", url + "/trunk", url + "/branches/side", "-m", "Side")


RULES = b"""create repository site
end repository
match /trunk/
  repository site
  branch master
end match
match /branches/([^/]+)/
  repository site
  branch \\1
end match
match /tags/([^/]+)/
  repository site
  branch refs/tags/\\1
end match
"""


@scene
def a_stream_of_svn_all_fast_export(room: Room) -> None:
    needs("svn-all-fast-export", "svnadmin")
    subversion(room)
    write(room, "rules", RULES)
    os.mkdir(room.path("out"))
    run(room, "out", "svn-all-fast-export", "--create-dump", "--add-metadata", "--rules", "../rules", "../svn")
    (name,) = [it for it in os.listdir(room.path("out")) if it.endswith((".fi", "fast-import", ".dump"))] or [""]
    with open(room.path("out", name), "rb") as file:
        passes(room, file.read(), "svn")
