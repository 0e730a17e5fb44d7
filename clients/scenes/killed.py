"""Runs gitpool-import and kills it at a given step of what comes after the last answer to the stream: killed.py STEP WORD..

A step is a line of Python in the calls that write, save and rename. With step 0 nothing is killed, and the number of steps is printed
on standard error.
"""
from __future__ import annotations

import os
import runpy
import signal
import sys
from types import FrameType
from typing import Any, Optional

CLIENTS = os.path.dirname(os.path.dirname(os.path.realpath(__file__)))
CALLS = {"finish", "put", "close", "_put", "_tell", "__exit__", "set_head"}


def main() -> None:
    step, sys.argv = int(sys.argv[1]), ["gitpool-import", *sys.argv[2:]]
    sys.path.insert(0, CLIENTS)
    taken = 0

    def trace(frame: FrameType, event: str, _: Any) -> Optional[Any]:
        nonlocal taken
        if frame.f_code.co_name not in CALLS or not frame.f_code.co_filename.startswith(CLIENTS):
            return None
        if event == "line":
            taken += 1
            if taken == step:
                os.kill(os.getpid(), signal.SIGKILL)
        return trace

    from gitpool_import import Run, Source

    feed_all = Run.feed_all

    def feed_and_trace(run: Run, source: Source) -> None:
        feed_all(run, source)
        sys.settrace(trace)

    setattr(Run, "feed_all", feed_and_trace)
    try:
        runpy.run_path(os.path.join(CLIENTS, "gitpool-import"), run_name="__main__")
    finally:
        sys.settrace(None)
        if not step:
            print(f"steps {taken}", file=sys.stderr)


main()
