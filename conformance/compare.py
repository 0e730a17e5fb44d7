"""Says where an importer differs from what a case expects."""
from __future__ import annotations

from typing import Dict, List, NamedTuple, Optional

from cases import Case, Object, State
from importer import Left, Observed, shown

KINDS = ("end", "fault", "kept", "replies", "refs", "HEAD", "objects", "checkpoint")
"""What may differ, in the order in which it is told."""


class Difference(NamedTuple):
    """One difference: what of KINDS differs, what was expected, and what was seen, both in words."""

    what: str
    expected: str
    seen: str


def without_kept(replies: bytes) -> bytes:
    """Replies without the lines that name refs that were kept. No other importer prints them."""
    return b"".join(line for line in replies.splitlines(True) if not line.startswith(b"kept "))


def differences(case: Case, seen: Observed) -> List[Difference]:
    """How an importer differs, in the order of KINDS. An import that ended in trouble has one difference, its end."""
    if seen.imported.end not in ("accepted", "refused"):
        return [Difference("end", case.end, seen.imported.end)]
    found = [_end(case, seen), _fault(case, seen), _kept(case, seen), _replies(case, seen)]
    found += [*_state(case.state, seen.left), _objects(case.objects, seen.left)]
    for (byte, state), left in zip(case.checkpoints, seen.checkpoints):
        found += [Difference("checkpoint", f"at byte {byte}: {it.expected}", f"{it.what}: {it.seen}") for it in _state(state, left) if it]
    return [it for it in found if it]


def _end(case: Case, seen: Observed) -> Optional[Difference]:
    if seen.imported.end == case.end:
        return None
    reason = f"{case.end} ({case.fault.meaning}, {case.fault.number})" if case.fault else case.end
    return Difference("end", reason, f"{seen.imported.end}: {seen.imported.said}")


def _fault(case: Case, seen: Observed) -> Optional[Difference]:
    """Only an importer that tells faults by their numbers is held to them, and only one that tells places to those."""
    if not case.fault or not seen.imported.fault:
        return None
    wanted = (case.fault.number, case.fault.byte, case.fault.line)
    told = [mine if theirs is None else theirs for mine, theirs in zip(wanted, seen.imported.fault)]
    if told == [*wanted]:
        return None
    return Difference("fault", "{} byte {} line {}".format(*wanted), "{} byte {} line {}".format(*told))


def _kept(case: Case, seen: Observed) -> Optional[Difference]:
    """That a ref was kept is told by status 2, or by the lines that gitpool prints."""
    is_told = seen.imported.is_kept or bool(case.kept) and seen.imported.replies == case.replies
    if seen.imported.end != "accepted" or case.end != "accepted" or is_told == bool(case.kept):
        return None
    names = b" ".join(case.kept)
    return Difference("kept", shown(names) or "no ref is kept", "a ref is kept" if is_told else "no ref is said to be kept")


def _replies(case: Case, seen: Observed) -> Optional[Difference]:
    if seen.imported.replies in (case.replies, without_kept(case.replies)):
        return None
    return Difference("replies", shown(case.replies), shown(seen.imported.replies))


def _state(wanted: State, left: Left) -> List[Optional[Difference]]:
    if left.state is None:
        return [Difference("refs", _refs_shown(wanted.refs), left.trouble)]
    there = left.state
    return [
        None if there.refs == wanted.refs else Difference("refs", _refs_shown(wanted.refs), _refs_shown(there.refs)),
        None if there.head == wanted.head else Difference("HEAD", shown(wanted.head), shown(there.head)),
    ]


def _refs_shown(refs: Dict[bytes, str]) -> str:
    return ", ".join(f"{shown(ref)} {refs[ref][:12]}" for ref in sorted(refs)) or "none"


def _objects(wanted: List[Object], left: Left) -> Optional[Difference]:
    if left.objects == wanted:
        return None
    if left.objects is None:
        # (where the refs could not be learnt either, that is told once)
        return Difference("objects", f"{len(wanted)} objects", left.trouble) if left.state else None
    missing, more = [it for it in wanted if it not in left.objects], [it for it in left.objects if it not in wanted]
    return Difference("objects", "with " + _objects_shown(missing), "with " + _objects_shown(more))


def _objects_shown(objects: List[Object]) -> str:
    return ", ".join(f"{kind} {name[:12]} of {size}" for name, kind, size in objects[:5]) or "no others"
