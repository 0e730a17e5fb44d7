"""Scenes of signatures: what gitpool-import --all says of repositories whose refs get other names than in git, and which tags stay signed."""
from __future__ import annotations

import os
from typing import Dict

from .conversions import read
from .many import imports_all, verdicts
from .room import Room, scene, text

SIGNATURE = "-----BEGIN PGP SIGNATURE-----\n\nabc\n-----END PGP SIGNATURE-----\n"


def stored(room: Room, folder: str, kind: str, content: str) -> str:
    """Writes an object as it is, and gives its name."""
    return room.git(folder, "hash-object", "-w", "-t", kind, "--stdin", "--literally", data=content.encode()).decode().strip()


def tagged(room: Room, folder: str, name: str, target: str, kind: str = "commit") -> None:
    """Makes a signed tag."""
    made = stored(room, folder, "tag", f"object {target}\ntype {kind}\ntag {name}\ntagger A <a@b> 1 +0000\n\n{name}\n{SIGNATURE}")
    room.git(folder, "update-ref", f"refs/tags/{name}", made)


def signed_site(room: Room, folder: str = "signed") -> None:
    """A repository whose second commit is signed: the first, the second and the third have signed tags, and `other` is a branch beside them."""
    room.init(folder)
    room.commit(folder, "One", {"a": "a\n"})
    tagged(room, folder, "before", room.name(folder, "HEAD"))
    room.git(folder, "branch", "other")
    first, tree = room.name(folder, "HEAD"), room.name(folder, "HEAD^{tree}")
    signature = "\n ".join(SIGNATURE.rstrip("\n").split("\n"))
    second = stored(room, folder, "commit", f"tree {tree}\nparent {first}\nauthor A <a@b> 1 +0000\ncommitter A <a@b> 1 +0000\ngpgsig {signature}\n\nTwo\n")
    tagged(room, folder, "signed", second)
    room.git(folder, "update-ref", "refs/heads/main", second)
    room.commit(folder, "Three", {"b": "b\n"})
    tagged(room, folder, "after", room.name(folder, "HEAD"))


def messages(room: Room, tenant: str) -> Dict[str, bytes]:
    """The tags of a tenant as they are stored."""
    room.git("", "clone", "-q", "--mirror", f"gitpool::{room.pool}#{tenant}", f"of-{tenant}.git")
    names = room.git(f"of-{tenant}.git", "for-each-ref", "--format=%(refname:short)", "refs/tags").decode().split()
    return {it: room.git(f"of-{tenant}.git", "cat-file", "tag", it) for it in names}


@scene
def no_repository_is_rewritten_without_a_word(room: Room) -> None:
    """A signed commit would get another name, and all that builds on it: the import says so, ends with 1, and leaves that tenant as it was."""
    site = room.site()
    signed_site(room)
    tagged(room, site, "release", room.name(site, "main"))
    done = imports_all(room, [f"site {site}", "signed signed"], "--json", "verdict", status=1)
    said = text(done.stdout)
    assert "3 of 5 refs have other names than in git, such as refs/heads/main; --rewrite imports it with these" in said.replace("\n", " "), said
    assert said.endswith("1 imported, 1 failed"), said
    told = verdicts(room)
    assert told["imports"]["signed"]["renamed"] == ["refs/heads/main", "refs/tags/after", "refs/tags/signed"], told
    assert not told["accepted"] and told["imports"]["site"]["renamed"] == [] and not told["imports"]["signed"]["saved"], told
    assert room.tenant_refs("signed") == {}
    # Tags of what keeps its names stay signed, and keep theirs.
    assert room.tenant_refs("site") == room.refs(site, "refs/heads", "refs/tags")


@scene
def rewriting_is_asked_for(room: Room) -> None:
    """With --rewrite, or with the filter of signatures, the import ends with 0 and says how many refs have other names. A tag stays signed
    unless it reaches a commit that was rewritten."""
    signed_site(room)
    refs = room.refs("signed", "refs/heads", "refs/tags")
    for tenant, words in (("one", ["--rewrite"]), ("two", ["--filter", "signatures"]), ("three", ["--filter", "all"]), ("four", ["--rewrite", "--filter", "dates"])):
        said = text(imports_all(room, [f"{tenant} signed"], *words).stdout)
        assert "changed 3 signatures; 3 of 5 refs have other names than in git, such as refs/heads/main" in said, (words, said)
        found = room.tenant_refs(tenant)
        assert found["refs/heads/other"] == refs["refs/heads/other"] and found["refs/tags/before"] == refs["refs/tags/before"], found
        kept = messages(room, tenant)
        assert SIGNATURE.encode() in kept["before"] and b"PGP" not in kept["signed"] + kept["after"], kept
    # All signatures go where that is said.
    imports_all(room, ["five signed"], "--filter", "signatures=strip")
    assert b"PGP" not in b"".join(messages(room, "five").values())
    said = text(imports_all(room, ["six signed"], "--filter", "signatures=refuse", status=1).stdout)
    assert "a tag is signed, and signatures are refused" in said or "a commit is signed, and signatures are refused" in said, said


@scene
def a_tag_of_a_tag_is_no_secret(room: Room) -> None:
    """Git renames the inner tag where it exports a tag of a tag: that is told too."""
    site = room.site()
    room.git(site, "tag", "-a", "-m", "Outer", "outer", "v1")
    done = imports_all(room, [f"site {site}"], status=1)
    assert b"refs have other names than in git, such as refs/tags/outer" in done.stdout, done.stdout
    assert b"refs have other names than in git, such as refs/tags/outer" in imports_all(room, [f"site {site}"], "--rewrite").stdout


@scene
def refs_that_move_meanwhile(room: Room) -> None:
    """A ref that is moved during the import may have the name of before or of after."""
    site = room.site()
    hook = room.path("git")
    real = text(room.run(["sh", "-c", "command -v git"]).stdout)
    # The export of git, and then a push of somebody else.
    with open(hook, "w", encoding="utf-8") as file:
        file.write(f"""#!/bin/sh
case "$*" in *fast-export*) {real} "$@"; {real} -C {site} update-ref refs/heads/main main~1 ;; *) exec {real} "$@" ;; esac
""")
    os.chmod(hook, 0o755)
    before = room.name(site, "main")
    room.environment["PATH"] = os.path.dirname(hook) + os.pathsep + room.environment["PATH"]
    imports_all(room, [f"site {site}"])
    assert room.tenant_refs("site")["refs/heads/main"] == before != room.name(site, "main")
    assert read(room, "list")
