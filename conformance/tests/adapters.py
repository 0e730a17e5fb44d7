"""What tests need: adapters, which are scripts that misbehave in one way each; cases that ask them something; scripts as modules."""
from __future__ import annotations

import importlib.machinery
import importlib.util
import os
import sys
import tempfile
import unittest
from typing import Any, List, Optional, Tuple

from cases import Case, Fault, State
from rules import TOP

NAME = "ce013625030ba8dba906f756967f9e9ca394464a"
OTHER = "f4566f7b9c3dfec6017ec82855e192e0b9b757ba"
MAIN = b"refs/heads/main"

GOOD = {
    "new": 'mkdir "$2"',
    "import": 'cat > "$2/stream"',
    "refs": "echo HEAD refs/heads/main",
    "objects": ":",
    "version": "echo test 1",
}
"""An importer that accepts every stream and keeps nothing."""


def case(
    name: str = "case",
    stream: bytes = b"",
    fault: Optional[int] = None,
    replies: bytes = b"",
    kept: Tuple[bytes, ...] = (),
    state: State = State({}, MAIN),
    checkpoints: Tuple[Tuple[int, State], ...] = (),
) -> Case:
    """A case that expects nothing, but for what is given."""
    told = Fault(fault, "of a test", len(stream), 1, True) if fault else None
    return Case(name, None, stream, "core", None, None, told, replies, [*kept], state, [], [*checkpoints])


def load_script(path: str) -> Any:
    """A script of the repository, as a module."""
    loader = importlib.machinery.SourceFileLoader(os.path.basename(path) + "_script", os.path.join(TOP, path))
    spec = importlib.util.spec_from_loader(loader.name, loader)
    assert spec
    module = importlib.util.module_from_spec(spec)
    loader.exec_module(module)
    return module


class WithAdapters(unittest.TestCase):
    """A test in a folder for its adapters."""

    def setUp(self) -> None:
        room = tempfile.TemporaryDirectory()
        self.addCleanup(room.cleanup)
        self.room = room.name

    def adapter(self, name: str = "adapter", **verbs: str) -> str:
        """An adapter that does what GOOD does, but for these verbs, each a line of sh(1)."""
        arms = [f"{verb}) {line} ;;" for verb, line in {**GOOD, **verbs}.items()]
        path = os.path.join(self.room, name)
        with open(path, "w", encoding="utf-8") as file:
            file.write("\n".join(["#!/bin/sh", f"python={sys.executable}", "case $1 in", *arms, "esac", ""]))
        os.chmod(path, 0o755)
        return path

    def left(self) -> List[str]:
        """What the folder has."""
        return sorted(os.listdir(self.room))
