"""Scenes of pushes that are refused: nothing changes, and the user reads why and what can be done."""
from __future__ import annotations

import json
import os
from typing import Dict, List, Tuple

from served import TOP, ServerRoom, once, over_http, scene, text

PEOPLE = b"author A <a@b> 1 +0000\ncommitter A <a@b> 1 +0000\n"


def stored(room: ServerRoom, at: str, kind: str, data: bytes) -> str:
    """Stores an object whatever it says, and gives its name."""
    return room.git(at, "hash-object", "-w", "--literally", "-t", kind, "--stdin", data=data).decode().strip()


def refused(room: ServerRoom, at: str, *refs: str, says: str) -> str:
    """Asks that refs are refused: alone, and with another ref if the push is atomic or has an object that cannot be kept. Else the other ref
    changes. Nothing else does."""
    before = room.tenant_refs()
    room.fails(at, "push", "--atomic", room.url(), "main:refs/heads/fine", *refs, says=says)
    assert room.tenant_refs() == before
    said = room.fails(at, "push", room.url(), "main:refs/heads/fine", *refs, says=says)
    is_whole = "remote unpack failed" in said
    assert is_whole == ("refs/heads/fine" not in room.tenant_refs()), said
    if not is_whole:
        room.git(at, "push", "-q", room.url(), ":refs/heads/fine")
    said = room.fails(at, "push", room.url(), *refs, says=says)
    assert "rejected]" in said or "hung up" not in said, said
    assert said.count(says) < 2 or not is_whole, said
    assert room.tenant_refs() == before
    return said


def commit_of(room: ServerRoom, at: str, tree: str, headers: bytes = PEOPLE) -> None:
    """Puts a commit of a tree under refs/heads/bad."""
    room.git(at, "update-ref", "refs/heads/bad", stored(room, at, "commit", b"tree %b\n%b\nMessage\n" % (tree.encode(), headers)))


@once
def what_a_tenant_cannot_keep(room: ServerRoom) -> None:
    site = room.pushed()
    tree = room.name(site, "main^{tree}")
    commit_of(room, site, tree, PEOPLE + b"gpgsig -----BEGIN PGP SIGNATURE-----\n \n iQ==\n -----END PGP SIGNATURE-----\n")
    said = refused(room, site, "refs/heads/bad", says="has a signature (gpgsig), which gitpool does not keep")
    assert "git fast-export --all --signed-tags=strip" in said, said
    commit_of(room, site, tree, PEOPLE + b"mergetag object %b\n type commit\n" % room.name(site, "main").encode())
    refused(room, site, "refs/heads/bad", says="a merged tag (mergetag)")
    commit_of(room, site, tree, b"author A <a@b> 1 +000\ncommitter A <a@b> 1 +0000\n")
    refused(room, site, "refs/heads/bad", says="malformed author line")
    room.git(site, "tag", "-a", "-m", "A tree", "tree", "main^{tree}")
    refused(room, site, "refs/tags/tree", says="tag tree is of a tree, which gitpool does not keep")
    room.git(site, "update-ref", "refs/tags/blob", room.name(site, "main:index.html"))
    refused(room, site, "refs/tags/blob", says="holds a commit or an annotated tag, and no blob")
    room.git(site, "update-ref", "refs/tags/renamed", "v1")
    refused(room, site, "refs/tags/renamed", says="an annotated tag is kept under its own name alone, refs/tags/v1")
    refused(room, site, "v1:refs/heads/tagged", says="an annotated tag is kept under its own name alone")
    refused(room, site, "main:refs/namespaces/a/refs/heads/b", says="no name for a ref")
    refused(room, site, "main:refs/stash", says="refs/stash is no name for a ref: git takes none that stands right below refs/")
    refused(room, site, "main:refs/heads/main/below", says="is a ref, and git cannot have both")
    blob = bytes.fromhex(room.name(site, "main:index.html"))
    commit_of(room, site, stored(room, site, "tree", b"100664 a\0" + blob))
    refused(room, site, "refs/heads/bad", says="mode 100664")
    commit_of(room, site, stored(room, site, "tree", b"40000 a\0" + bytes.fromhex(room.git(site, "mktree").decode().strip())))
    refused(room, site, "refs/heads/bad", says="an empty directory `a`")
    room.same(site, refs={ref: room.refs(site)[ref] for ref in ("refs/heads/main", "refs/tags/light", "refs/tags/v1")})


@once
def what_git_fsck_refuses(room: ServerRoom) -> None:
    """The same pushes are refused by git http-backend or git receive-pack with receive.fsckObjects."""
    site = room.pushed()
    bare = room.bare("oracle", site)
    room.git(bare, "config", "receive.fsckObjects", "true")
    blob = bytes.fromhex(room.name(site, "main:index.html"))
    modules = room.git(site, "hash-object", "-w", "--stdin", data=b'[submodule "../x"]\n\turl = -x\n').decode().strip()
    for tree, says in ((b"100644 .git\0" + blob, "hasDotgit: contains '.git'"), (b"100644 .GIT\0" + blob, "hasDotgit: contains '.git'"),
                       (b"100644 git~1\0" + blob, "hasDotgit: contains '.git'"),
                       (b"100644 .g\xe2\x80\x8cit\0" + blob, "hasDotgit: contains '.git'"),
                       (b"120000 .gitmodules\0" + blob, "gitmodulesSymlink"),
                       (b"100644 .gitmodules\0" + bytes.fromhex(modules), "gitmodulesName: disallowed submodule name: ../x")):
        commit_of(room, site, stored(room, site, "tree", tree))
        refused(room, site, "refs/heads/bad", says=says)
        room.fails(site, "push", room.path(bare), "refs/heads/bad", says="")
    for who, says in ((b"A <a@b> 01 +0000", "zeroPaddedDate"), (b"A <a@b> 9223372036854775808 +0000", "badDateOverflow"), (b"A\0 <a@b> 1 +0000", "nulInHeader")):
        commit_of(room, site, room.name(site, "main^{tree}"), b"author %b\ncommitter A <a@b> 1 +0000\n" % who)
        refused(room, site, "refs/heads/bad", says=says)
        room.fails(site, "push", room.path(bare), "refs/heads/bad", says="")


@once
def levels_of_fsck(room: ServerRoom) -> None:
    """The operator chooses what is refused: `fsck strict`, `hosting` or `off`, and the level of one message, as receive.fsck.<msg-id> does for git."""
    site = room.pushed()
    bare = room.bare("levels", site)
    room.git(bare, "config", "receive.fsckObjects", "true")
    tree = room.name(site, "main^{tree}")
    people = b"author A <a@b> 1 +0000\ncommitter A <a@b> 1 +0000\n"
    padded = people.replace(b" 1 +", b" 01 +")
    settings: List[Tuple[List[str], Dict[str, bool]]] = [
        (["fsck", "strict"], {"nulInCommit": False, "zeroPaddedDate": False}),
        (["fsck", "default"], {"nulInCommit": True, "zeroPaddedDate": False}),
        (["fsck.zeroPaddedDate", "warn"], {"nulInCommit": True, "zeroPaddedDate": True}),
        (["fsck.nulInCommit", "error"], {"nulInCommit": False, "zeroPaddedDate": True}),
        (["fsck", "off"], {"nulInCommit": False, "zeroPaddedDate": True}),
        (["fsck.nulInCommit", "default"], {"nulInCommit": True, "zeroPaddedDate": True}),
    ]
    for at, (setting, taken) in enumerate(settings):
        room.serverd("limits", room.served, *setting)
        for message, is_taken in taken.items():
            contents = b"tree %b\n%b\nm%d" % (tree.encode(), padded if message == "zeroPaddedDate" else people, at)
            made = stored(room, site, "commit", contents + (b"\0" if message == "nulInCommit" else b""))
            room.git(bare, "config", f"receive.fsck.{message}", "warn" if is_taken else "error")
            if is_taken:
                room.git(site, "push", "-q", room.url(), f"{made}:refs/heads/{message}-{at}")
                room.git(site, "push", "-q", room.path(bare), f"{made}:refs/heads/{message}-{at}")
            else:
                room.fails(site, "push", room.url(), f"{made}:refs/heads/refused", says=f"object {made}: {message}")
                room.fails(site, "push", room.path(bare), f"{made}:refs/heads/refused", says=message)
    for word in ("fsck.noSuchMessage", "fsck.nulInHeader"):
        assert room.run([room.server_program, "limits", room.served, word, "ignore"]).returncode == 1, word


@over_http
def the_corpus(room: ServerRoom) -> None:
    """Each commit, tag and tree of the corpus that is refused or suspect is refused in a push too, by the rules of receive.fsckObjects."""
    site = room.pushed()
    room.serverd("limits", room.served, "fsck", "strict")
    before = room.tenant_refs()
    with open(os.path.join(TOP, "clients", "tests", "objects.json"), encoding="ascii") as file:
        samples = [it for it in json.load(file) if it["kind"] in ("commit", "tree") and ("refused" in it or it.get("suspect"))]
    kept: List[str] = []
    for sample in samples[::9]:
        contents = sample["contents"].encode("latin-1")
        if sample["kind"] == "tree":
            target = packed_commit(b"tree %b\n%b\n" % (name_of("tree", contents), PEOPLE), ("tree", contents))
        else:
            target = packed_commit(contents)
        told = push_raw(room, *target)
        if b"unpack ok" in told or b"unpack " not in told:
            kept.append(f"{sample}: {told[-300:]!r}")
    assert not kept, kept
    assert room.tenant_refs() == before


def name_of(kind: str, contents: bytes) -> bytes:
    """The name of an object."""
    import hashlib

    return hashlib.sha1(b"%b %d\0%b" % (kind.encode(), len(contents), contents)).hexdigest().encode()


def packed_commit(commit: bytes, *more: "tuple[str, bytes]") -> "tuple[bytes, bytes]":
    """A commit's name, and a pack of it and of other objects."""
    from attacks import pack

    return name_of("commit", commit), pack([("commit", commit), *more])


def push_raw(room: ServerRoom, name: bytes, packed: bytes) -> bytes:
    """The answer to a push of a pack to refs/heads/raw."""
    from served import line

    body = line(b"%b %b refs/heads/raw\0report-status side-band-64k\n" % (b"0" * 40, name)) + b"0000" + packed
    return room.post("git-receive-pack", body)


@once
def sha256_is_refused(room: ServerRoom) -> None:
    other = room.init("other", "--object-format=sha256")
    room.commit(other, "One", {"a": "a\n"})
    room.fails(other, "push", room.url("acme/other"), "main", says="")
    assert room.tenant_refs("acme/other") == {}


@once
def limits_are_told(room: ServerRoom) -> None:
    site = room.pushed()
    deep = "/".join(["d"] * 256)
    room.git(site, "update-index", "--add", "--cacheinfo", "100644", room.name(site, "main:index.html"), deep + "/f")
    room.git(site, "commit", "-q", "-m", "Too deep")
    said = room.fails(site, "push", "pool", "main", says="256 components")
    assert "Traceback" not in text(said.encode())


@once
def lines_of_pushes_are_bounded(room: ServerRoom) -> None:
    """A push with more bytes of refs than its user's requests may hold is refused, and git shows why; with fewer it is taken."""
    site = room.pushed()
    for at in range(200):
        room.git(site, "update-ref", f"refs/heads/b{at}", "main")
    before = room.tenant_refs()
    room.serverd("limits", room.served, "line-bytes", "10K")
    room.fails(site, "push", room.url(), "refs/heads/b*:refs/heads/b*", says="remote unpack failed: a limit is passed: this user's requests hold as many")
    assert room.tenant_refs() == before
    room.git(site, "push", "-q", room.url(), "b1", "b2")
    room.serverd("limits", room.served, "line-bytes", "default")
    room.git(site, "push", "-q", room.url(), "refs/heads/b*:refs/heads/b*")
    room.same(site)


@scene
def lists_of_fetches_are_bounded(room: ServerRoom) -> None:
    """A fetch that lists more objects, or walks more commits, than its user's fetches may hold is refused, and git shows why; then it is served."""
    site = room.pushed()
    for at in range(40):
        room.git(site, "commit", "-q", "--allow-empty", "-m", f"Commit {at}")
    room.git(site, "push", "-q", "pool", "main")
    room.serverd("limits", room.served, "fetch-bytes", "2K")
    says = "this user's fetches hold as many bytes as `fetch-bytes` says"
    room.fails("", "clone", "-q", room.url(), room.path("refused"), says=says)
    room.fails("", "clone", "-q", "--depth", "30", room.url(), room.path("refused"), says=says)
    room.serverd("limits", room.served, "fetch-bytes", "default")
    room.same(site)


@once
def a_ref_of_65_kilobytes(room: ServerRoom) -> None:
    """A ref whose name is nearly as long as a packet is refused alone, and the report of the other refs comes whole."""
    site = room.pushed()
    before = room.tenant_refs()
    long = "main:refs/heads/" + "x" * 65_300
    said = room.fails(site, "push", room.url(), "main:refs/heads/fine", long, "main:refs/heads/other", says="a ref name has more than 1024 bytes")
    before.update({f"refs/heads/{ref}": room.name(site, "main") for ref in ("fine", "other")})
    assert "failed to report" not in said and room.tenant_refs() == before, said[-1000:]


@once
def files_of_pushes_are_bounded(room: ServerRoom) -> None:
    """A push whose objects are more than its user's pushes may have in temporary files is refused; a small one is taken."""
    site = room.pushed()
    before = room.tenant_refs()
    room.serverd("limits", room.served, "spool-bytes", "1M")
    room.commit(site, "Three megabytes", {"f": os.urandom(3 << 19).hex()})
    room.fails(site, "push", room.url(), "main", says="remote unpack failed: a limit is passed: this user's pushes have as many")
    assert room.tenant_refs() == before
    room.git(site, "push", "-q", room.url(), "main~1:refs/heads/small")
    room.serverd("limits", room.served, "spool-bytes", "default")
    room.git(site, "push", "-q", room.url(), "main", ":refs/heads/small")
    room.same(site)


@once
def a_large_pack_is_refused_while_git_sends_it(room: ServerRoom) -> None:
    """git shows why a pack is refused, though it has more to send than the server reads on."""
    site = room.pushed()
    before = room.tenant_refs()
    room.serverd("limits", room.served, "spool-bytes", "1M")
    for at in range(4):
        with open(room.path(site, f"large-{at}"), "wb") as file:
            file.write(os.urandom(24 << 20))
    room.git(site, "add", ".")
    room.git(site, "-c", "core.compression=0", "commit", "-q", "-m", "Large")
    room.git(site, "config", "core.bigFileThreshold", "1m")
    room.fails(site, "push", room.url(), "main", says="remote unpack failed: a limit is passed: this user's pushes have as many")
    assert room.tenant_refs() == before
