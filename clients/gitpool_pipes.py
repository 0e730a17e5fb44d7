"""How many bytes of questions may be on their way to a process that answers by another pipe."""
from __future__ import annotations

import fcntl
from typing import IO

# What fits into a pipe of 64 KiB together with as much again.
_MOST = 32_768

# (fcntl has the name from Python 3.10 on)
_F_GETPIPE_SZ = 1032


def room_of(way: IO[bytes]) -> int:
    """How many bytes of questions may be sent twice before an answer is read: both fit into the pipe, so that the process never waits
    for us while we wait for it. A user who has many pipes gets pipes of 4 KiB (pipe(7))."""
    try:
        return min(_MOST, fcntl.fcntl(way.fileno(), _F_GETPIPE_SZ) // 2)
    except (OSError, ValueError):
        # A socket is no pipe, and a service that has ended has none: whoever writes to it is told that.
        return _MOST


__all__ = ["room_of"]
