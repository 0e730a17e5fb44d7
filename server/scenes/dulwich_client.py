#!/usr/bin/python3
"""dulwich as a client of the server: dulwich_client.py KEY PASSWORD, with tasks on standard input (library_client.py).

Over ssh it runs the command of GIT_SSH_COMMAND, and keeps its side of the connection open until it has the report.
"""
from __future__ import annotations

import io
import re
from typing import Dict

from dulwich import porcelain
from dulwich.client import get_transport_and_path
from dulwich.repo import Repo

from library_client import serve, tell


def clone(url: str, folder: str) -> None:
    with porcelain.clone(url, folder, bare=True, errstream=io.BytesIO()):
        pass


def push(folder: str, url: str, *refspecs: str) -> None:
    shown = io.BytesIO()
    try:
        porcelain.push(folder, url, [it.encode() for it in refspecs], errstream=shown)  # type: ignore[no-untyped-call]
    finally:
        for line in shown.getvalue().decode(errors="backslashreplace").splitlines():
            refused = re.fullmatch("Push of ref (?:b')?(.*?)'? failed: (.*)", line)
            updated = re.fullmatch("Ref (.*) updated", line)
            if refused:
                tell("ng", *refused.groups())
            elif updated:
                tell("ok", *updated.groups())
            else:
                tell("said", line)


def fetch(folder: str, url: str, *refspecs: str) -> None:
    """Fetches all, and sets the refs as the refspecs say: dulwich leaves that to its user."""
    refs: Dict[bytes, bytes] = porcelain.fetch(folder, url, errstream=io.BytesIO()).refs  # type: ignore[no-untyped-call]
    with Repo(folder) as repository:
        for refspec in refspecs:
            source, _, target = refspec.lstrip("+").encode().partition(b":")
            front, own = source.rstrip(b"*"), target.rstrip(b"*")
            for name, value in refs.items():
                if name.startswith(front) and not name.endswith(b"^{}"):
                    repository.refs[own + name[len(front) :]] = value


def list_refs(folder: str, url: str) -> None:
    client, path = get_transport_and_path(url)
    for name, value in client.get_refs(path).items():  # type: ignore[no-untyped-call]
        tell("is", name.decode(), value.decode())


serve({"clone": clone, "push": push, "fetch": fetch, "list": list_refs})
