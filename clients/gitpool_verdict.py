"""What came of a stream: in words for a terminal, and as JSON for programs.

The JSON of one stream is an object of these members, in version 1. Later versions may add members.

    version      1
    accepted     whether the stream was taken to its end; false where it was not begun
    saved        whether the pool file has what it left
    fault        the number of the fault, or null
    meaning      what was wrong in words, or null
    byte, line   the place of the fault, both counted from 1, or null
    text         the line of that place
    command      the first line of its command, and in command_line the number of that line
    at_end       whether the end of the stream was refused, which is after that place
    kept         the refs that the stream does not fast-forward
    head         the ref that HEAD was set to, since it named none, or null
    bytes        how many bytes the stream has; after a fault, how many were fed in whole pieces before it
    blobs, commits, tags    how many of them begin in these and, after a fault, in the piece that it is in
    changed      how many changes of each kind the filters made
    renamed      the refs of a repository that have other names than in git
    seconds      how long it took

Text is shown as on a terminal: bytes that are no UTF-8 or not printable as `\\xff`. No ref has a backslash.
"""
from __future__ import annotations

import json
from typing import Any, Dict, List, Optional

from gitpool import Fault
from gitpool_faults import sentences
from gitpool_import import Imported, Refused
from gitpool_rewrite import Plan
from gitpool_stream import Tally
from gitpool_terminal import shown

VERSION = 1


class Verdict:
    """What came of one stream, so far."""

    def __init__(self) -> None:
        self.members: Dict[str, Any] = {
            "version": VERSION, "accepted": False, "saved": False, **dict.fromkeys(
                ("fault", "meaning", "byte", "line", "text", "command", "command_line", "at_end", "head")),
            "kept": [], "renamed": [], "bytes": 0, "blobs": 0, "commits": 0, "tags": 0, "changed": {}, "seconds": 0.0}

    def imported(self, done: Imported, *, is_saved: bool) -> None:
        """The stream was not refused."""
        self.members.update(accepted=True, saved=is_saved, kept=[shown(ref, 1024) for ref in done.kept],
                            head=done.head and shown(done.head, 1024))
        self.counted(done.size, done.tally)

    def refused(self, refused: Refused) -> None:
        """The stream was refused."""
        place, reason = refused.place, refused.reason
        self.members.update(
            saved=refused.has_saved, fault=reason.number if isinstance(reason, Fault) else None, byte=place.byte, line=place.line,
            meaning=reason.meaning if isinstance(reason, Fault) else str(reason), text=shown(place.text), command=shown(place.command),
            command_line=place.command_line, at_end=refused.is_at_end, head=refused.head and shown(refused.head, 1024))
        self.counted(refused.size, refused.tally)

    def failed(self, reason: str) -> None:
        """Something else than the stream was wrong. What is accepted or saved by then stays so."""
        self.members.update(meaning=reason)

    def renamed(self, refs: List[bytes]) -> None:
        """These refs have other names than in the repository that was exported."""
        self.members["renamed"] = [shown(ref, 1024) for ref in refs]

    def counted(self, size: int, tally: Tally) -> None:
        """How much of the stream was taken."""
        self.members.update(bytes=size, blobs=tally.blobs, commits=tally.commits, tags=tally.tags)

    def changed(self, plan: Optional[Plan]) -> None:
        """What was changed in the stream."""
        self.members["changed"] = dict(sorted(plan.changed.items())) if plan else {}

    def text(self) -> str:
        """The JSON, on one line."""
        return json.dumps(self.members) + "\n"


def words_of_refused(refused: Refused) -> str:
    """Where a stream was refused, and why, in several lines."""
    place = refused.place
    where = "at the end of the stream, after" if refused.is_at_end else "at"
    lines = [f"refused {where} byte {place.byte}, line {place.line}: {shown(place.text)}"]
    if place.command_line != place.line:
        lines.append(f"  in the command of line {place.command_line}: {shown(place.command)}")
    lines.append(sentences(refused.reason.number, place.text) if isinstance(refused.reason, Fault) else f"  {refused.reason}")
    return "\n".join(lines)


def words_of_kept(kept: List[bytes]) -> str:
    """Which refs were kept, and why, in several lines."""
    return "\n".join(f"{shown(ref, 1024)} was kept: the stream does not fast-forward it" for ref in kept)


def words_of_changed(plan: Optional[Plan]) -> str:
    """What the filters changed, or an empty text."""
    return ", ".join(f"{count} {kind}" for kind, count in sorted(plan.changed.items())) if plan else ""


__all__ = ["VERSION", "Verdict", "words_of_changed", "words_of_kept", "words_of_refused"]
