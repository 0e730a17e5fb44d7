"""What the clients show at a terminal: progress, and errors in words."""
from __future__ import annotations

import signal
import sys
import time
from typing import Optional, TextIO

from gitpool import Fault, OutOfMemory, ServiceError
from gitpool_faults import sentences


def stop_once() -> None:
    """Lets the first signal that asks for an end raise KeyboardInterrupt, and passes over those after it, so that what has to be
    done at an end is done whole."""
    signals = (signal.SIGINT, signal.SIGTERM, signal.SIGHUP)

    def stop(_number: int, _frame: object) -> None:
        for it in signals:
            signal.signal(it, signal.SIG_IGN)
        raise KeyboardInterrupt

    for it in signals:
        if signal.getsignal(it) != signal.SIG_IGN:
            signal.signal(it, stop)


def words_of(error: Exception) -> str:
    """An error in words: of a fault its meaning, the usual cause and the next step."""
    if isinstance(error, Fault):
        return sentences(error.number)
    if isinstance(error, OutOfMemory):
        return f"{error}\n  next step: give the machine more memory, or split the pool"
    if isinstance(error, ServiceError) and error.number not in (None, 68):
        return f"{error}\n{sentences(error.number or 0)}"
    return str(error)


_SHORT = {"\t": "\\t", "\n": "\\n", "\r": "\\r"}
_KEPT = "\t\n"


def shown(text: bytes, longest: int = 200) -> str:
    """The text of a line of a stream as a terminal may show it: one line, not longer than that, in which no byte is invisible or
    tells the terminal to do something. Such bytes, and those that are no UTF-8, are shown as `\\r` or `\\x1b`."""
    return _escaped(text if len(text) <= longest else text[:longest] + b"..", "")


def shown_reply(reply: bytes) -> str:
    """The same for what a stream prints: lines and tabs stay."""
    return _escaped(reply, _KEPT)


def _escaped(text: bytes, kept: str) -> str:
    said = text.decode(errors="backslashreplace")
    if said.isprintable():
        return said
    return "".join(it if it.isprintable() or it in kept else _SHORT.get(it) or "".join(f"\\x{byte:02x}" for byte in it.encode())
                   for it in said)


def status_of(error: Exception) -> int:
    """The exit status that the program would have: 1 for a fault, 5 if memory ran out, else that of the program."""
    if isinstance(error, Fault):
        return 1
    if isinstance(error, OutOfMemory):
        return 5
    if isinstance(error, ServiceError):
        return error.status if error.status > 0 else 4
    return 4


def size_of(count: float) -> str:
    """A number of bytes as git shows it."""
    for unit in ("bytes", "KiB", "MiB"):
        if count < 1024:
            return f"{count:.0f} bytes" if unit == "bytes" else f"{count:.2f} {unit}"
        count /= 1024
    return f"{count:.2f} GiB"


def time_of(seconds: float) -> str:
    """A time as hours, minutes and seconds."""
    minutes, rest = divmod(int(seconds + 0.5), 60)
    hours, minutes = divmod(minutes, 60)
    return f"{hours}:{minutes:02d}:{rest:02d}" if hours else f"{minutes}:{rest:02d}"


class Bar:
    """A progress bar on one line: bytes, rate, objects, and the time that is left where the whole size is known. It shows
    itself at most ten times a second."""

    def __init__(self, total: Optional[int], out: TextIO = sys.stderr, title: str = "Importing"):
        self._total = total
        self._title = title
        self._out = out
        self._began = time.monotonic()
        self._last = 0.0
        self._width = 0

    def show(self, done: int, objects: int, is_last: bool = False) -> None:
        """How many bytes and objects are through."""
        now = time.monotonic()
        if now - self._last < 0.1 and not is_last:
            return
        self._last = now
        line = self.line(done, objects, now - self._began)
        self._out.write("\r" + line.ljust(self._width))
        self._width = len(line)
        if is_last:
            self._out.write("\n")
        self._out.flush()

    def line(self, done: int, objects: int, seconds: float) -> str:
        """The text of the bar after so many seconds."""
        rate = done / seconds if seconds > 0 else 0.0
        shown = f"{size_of(done)} | {size_of(rate)}/s | {objects} objects"
        if not self._total:
            return f"{self._title}: {shown}"
        share = min(done / self._total, 1.0)
        left = f" | {time_of((self._total - done) / rate)} left" if rate and done < self._total else ""
        return f"{self._title}: {share:4.0%} [{'#' * int(20 * share):<20}] {shown}{left}"
