"""What refs reach by git itself: the export of a tenant through `git fast-import`, and `git rev-list --objects --all`."""
from __future__ import annotations

import os
import shutil
import subprocess
from typing import Set

from gitpool_stream import for_git


def reached_by_git(export: bytes, room: str) -> Set[bytes]:
    """The names of all objects that the refs of an export reach, as git lists them. Raises CalledProcessError where git refuses it."""
    folder = os.path.join(room, "git")
    environment = {**os.environ, "GIT_CONFIG_NOSYSTEM": "1", "HOME": room, "LC_ALL": "C"}
    words = ["git", "-c", "init.templateDir=", "-c", "init.defaultBranch=main"]
    try:
        subprocess.run([*words, "init", "-q", "--bare", folder], check=True, env=environment)
        stream = b"".join(for_git([export]))
        subprocess.run([*words, "-C", folder, "fast-import", "--quiet", "--force"], input=stream, check=True, capture_output=True, env=environment)
        told = subprocess.run([*words, "-C", folder, "rev-list", "--objects", "--all"], check=True, capture_output=True, env=environment)
        return {line.split(b" ")[0] for line in told.stdout.splitlines()}
    finally:
        shutil.rmtree(folder, ignore_errors=True)
