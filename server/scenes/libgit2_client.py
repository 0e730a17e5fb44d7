#!/usr/bin/python3
"""libgit2 as a client of the server: libgit2_client.py KEY PASSWORD, with tasks on standard input (library_client.py)."""
from __future__ import annotations

import contextlib
import sys
from typing import Any, Iterator, Optional

import pygit2  # type: ignore[import]

from library_client import serve, tell

KEY, PASSWORD = sys.argv[1:]


class Callbacks(pygit2.RemoteCallbacks):  # type: ignore[misc]
    """What libgit2 asks its user for and shows its user."""

    tries = 0

    def credentials(self, url: str, username_from_url: Optional[str], allowed_types: int) -> Any:
        self.tries += 1
        if self.tries > 3:
            raise pygit2.GitError("the credentials are refused")
        if allowed_types & pygit2.GIT_CREDENTIAL_SSH_KEY:
            return pygit2.Keypair(username_from_url, KEY + ".pub", KEY, "")
        return pygit2.UserPass(username_from_url or "alice", PASSWORD)

    def sideband_progress(self, string: str) -> None:
        tell("said", string)

    def push_update_reference(self, refname: str, message: Optional[str]) -> None:
        if message is None:
            tell("ok", refname)
        else:
            tell("ng", refname, message)


@contextlib.contextmanager
def remote(folder: str, url: str) -> Iterator[Any]:
    """A remote that follows no refs, and goes afterwards."""
    remotes = pygit2.Repository(folder).remotes
    try:
        yield remotes.create("server", url, "+refs/none/*:refs/none/*")
    finally:
        remotes.delete("server")


def clone(url: str, folder: str) -> None:
    pygit2.clone_repository(url, folder, bare=True, callbacks=Callbacks())


def push(folder: str, url: str, *refspecs: str) -> None:
    with remote(folder, url) as it:
        it.push(list(refspecs), callbacks=Callbacks())


def fetch(folder: str, url: str, *refspecs: str) -> None:
    with remote(folder, url) as it:
        it.fetch(list(refspecs), callbacks=Callbacks())


def list_refs(folder: str, url: str) -> None:
    with remote(folder, url) as server:
        for it in server.ls_remotes(callbacks=Callbacks()):
            tell("is", it["name"], str(it["oid"]))


serve({"clone": clone, "push": push, "fetch": fetch, "list": list_refs})
