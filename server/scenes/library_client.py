"""What the clients of Python's libraries share: tasks come as lines of standard input, and what came of each goes to standard output.

A line has words with a tab between them. Each task ends with the line `done`. Before it come `ok REF`, `ng REF REASON`, `said TEXT` for what the
library shows its user, `is REF NAME` for a ref of the server, and `error TEXT` where the library gave up. JGitClient.java speaks the same.
"""
from __future__ import annotations

import sys
from typing import Callable, Dict


def tell(*words: str) -> None:
    """Writes a line."""
    print("\t".join(" ".join(word.split()) for word in words), flush=True)


def serve(tasks: Dict[str, Callable[..., None]]) -> None:
    """Does what each line asks for."""
    for line in sys.stdin:
        name, *words = line.rstrip("\n").split("\t")
        try:
            tasks[name](*words)
        except Exception as error:
            tell("error", f"{type(error).__name__}: {error}")
        tell("done")
