"""What --filter of gitpool-import changes in a stream: dates, features, properties and signatures. gitpool_notes has notes.

Each stage counts what it changes under a word of its own.
"""
from __future__ import annotations

import re
from typing import Dict, List, Optional, Set

from gitpool_dates import FORMATS, raw_date
from gitpool_notes import NoteStage
from gitpool_rewrite import CannotRewrite, Plan, Stage, Work
from gitpool_stream import begins_data

_IDENT = re.compile(rb"((?:author|committer|tagger) [^<>\n]*<[^<>\n]*> )([^\n]*)\n")
_DATE_FORMAT = re.compile(rb"feature date-format=([^\n]*)\n")
_MARKS_FEATURE = re.compile(rb"feature (?:(?:import-marks|import-marks-if-exists|export-marks)=[^\n]*|(?:no-)?relative-marks)\n")
_TUNING = re.compile(rb"option git (?:(?:active-branches|big-file-threshold|depth|export-pack-edges|max-pack-size)=[^\n]*|stats)\n")
_PROPERTY_FEATURES = (b"feature commit-properties\n", b"feature empty-directories\n", b"feature multiple-authors\n")
_SIGNATURE = re.compile(rb"^-----BEGIN (?:PGP SIGNATURE|PGP MESSAGE|SSH SIGNATURE|SIGNED MESSAGE)-----$", re.M)
_LONGEST_MESSAGE = 67_108_864


class DateStage(Stage):
    """Writes each date as a raw one. The format is that given, or else what the stream's `feature date-format` names."""

    def __init__(self, work: Work, form: Optional[str]):
        self._work = work
        self._form = form or "raw"
        self._is_given = form is not None
        self.handlers = {b"feature": self._feature, b"author": self._ident, b"committer": self._ident, b"tagger": self._ident}

    def _feature(self, line: bytes) -> bytes:
        found = _DATE_FORMAT.fullmatch(line)
        form = found.group(1).decode(errors="replace") if found else ""
        if form not in FORMATS:
            return line
        if not self._is_given:
            self._form = form
        self._work.changed["features"] += 1
        return b""

    def _ident(self, line: bytes) -> bytes:
        found = _IDENT.fullmatch(line)
        date = raw_date(found.group(2), self._form) if found else None
        if found is None or date is None or date == found.group(2):
            return line
        self._work.changed["dates"] += 1
        return found.group(1) + date + b"\n"


class FeatureStage(Stage):
    """Takes away features that name marks files, and options by which git only tunes itself."""

    def __init__(self, work: Work):
        self._work = work
        self._is_late = False
        self.handlers = {b"feature": self._feature, b"option": self._option}

    def start(self) -> None:
        self._is_late = True

    def _feature(self, line: bytes) -> bytes:
        return self._left_out(line, "features") if _MARKS_FEATURE.fullmatch(line) else line

    def _option(self, line: bytes) -> bytes:
        return self._left_out(line, "options") if _TUNING.fullmatch(line) else line

    def _left_out(self, line: bytes, kind: str) -> bytes:
        if self._is_late:
            return line
        self._work.changed[kind] += 1
        return b""


class PropertyStage(Stage):
    """Takes away what other systems keep of a commit beside what Git does: properties, further authors, empty directories."""

    def __init__(self, work: Work):
        self._work = work
        self._has_author = False
        self.handlers = {b"feature": self._feature, b"property": self._property, b"author": self._author, b"M": self._modify}

    def before(self, word: bytes) -> None:
        self._has_author = False

    def _feature(self, line: bytes) -> bytes:
        return self._left_out("features") if line in _PROPERTY_FEATURES else line

    def _property(self, line: bytes) -> bytes:
        if not line.endswith(b"\n"):
            self._work.rewriter.drop_data()
        return self._left_out("properties") if line.startswith(b"property ") else line

    def _author(self, line: bytes) -> bytes:
        if self._has_author:
            return self._left_out("authors")
        self._has_author = True
        return line

    def _modify(self, line: bytes) -> bytes:
        return self._left_out("directories") if line.startswith(b"M 040000 - ") else line

    def _left_out(self, kind: str) -> bytes:
        self._work.changed[kind] += 1
        return b""


class Renamed:
    """Which commits and tags of a stream get other names, since they or what they build on were signed, by marks and by refs."""

    def __init__(self) -> None:
        self._marks: Set[bytes] = set()
        self._refs: Set[bytes] = set()

    def has(self, name: bytes) -> bool:
        """Whether a `from` or `merge` names one."""
        return name in self._marks if name.startswith(b":") else (name[:-2] if name.endswith(b"^0") else name) in self._refs

    def define(self, mark: bytes, ref: bytes, is_renamed: bool) -> None:
        """A mark, unless it is empty, and a ref have this object from now on."""
        for name, known in ((mark, self._marks), (ref, self._refs)):
            if is_renamed and name:
                known.add(name)
            else:
                known.discard(name)


class SignatureStage(Stage):
    """Takes signatures away from commits, and from tags that reach such a commit, whose signatures would be good no more; or from all tags;
    or refuses a stream that has one."""

    def __init__(self, work: Work, *, mode: str):
        self._work = work
        self._mode = mode
        self._renamed = Renamed()
        self._mark = b""
        self._builds_on: List[bytes] = []
        self._was_signed = False
        self._has_signature = False
        self._parts: List[bytes] = []
        self._size = 0
        self.handlers = {b"mark": self._named, b"original-oid": self._original, b"from": self._follows, b"merge": self._follows,
                         b"gpgsig": self._gpgsig, b"data": self._data}

    def before(self, word: bytes) -> None:
        command, name = self._work.position.command, self._work.position.argument
        if command == b"commit" and not self._builds_on:
            self._builds_on.append(name)
        if command in (b"commit", b"reset"):
            self._renamed.define(self._mark, name, self._is_renamed())
        elif command == b"tag":
            self._renamed.define(self._mark, b"refs/tags/" + name, self._is_renamed())
        else:
            self._renamed.define(self._mark, b"", False)
        self._mark, self._builds_on, self._was_signed = b"", [], False

    def cut(self) -> None:
        self._release()

    def _is_renamed(self) -> bool:
        return self._was_signed or any(map(self._renamed.has, self._builds_on))

    def _named(self, line: bytes) -> bytes:
        self._mark = line.rstrip(b"\n")[len(b"mark ") :]
        return line

    def _follows(self, line: bytes) -> bytes:
        self._builds_on.append(line.rstrip(b"\n").partition(b" ")[2])
        return line

    def _original(self, line: bytes) -> bytes:
        if line.rstrip(b"\n").partition(b" ")[2] in self._work.signed:
            self._sign("a commit is signed")
        return line

    def _gpgsig(self, line: bytes) -> bytes:
        self._sign("a commit is signed")
        self._has_signature = True
        return b""

    def _sign(self, reason: str) -> None:
        """Counts the signature of the open command, once."""
        if not self._was_signed:
            self._count(reason)
        self._was_signed = True

    def _data(self, line: bytes) -> bytes:
        if not begins_data(line):
            return line
        if self._has_signature:
            self._has_signature = False
            self._work.rewriter.drop_data()
            return b""
        if self._work.position.command != b"tag" or not (self._mode or self._is_renamed()):
            return line
        self._parts = [line]
        self._work.rewriter.sink_data(self._collect)
        return b""

    def _collect(self, data: bytes, is_last: bool) -> None:
        """Holds the message of a tag until it is whole, unless it is longer than the service takes."""
        self._parts.append(data)
        self._size += len(data)
        if is_last:
            self._write()
        elif self._size > _LONGEST_MESSAGE:
            self._release()
            self._work.rewriter.sink_data(lambda more, _is_last: self._work.wire.put(more))

    def _write(self) -> None:
        line, message = self._parts[0], b"".join(self._parts[1:])
        if line.startswith(b"data <<"):
            message = message[: len(message) - len(line) + len(b"data <<")]
        found = _SIGNATURE.search(message)
        if found:
            self._sign("a tag is signed")
            self._parts = [b"data %d\n" % found.start(), message[: found.start()]]
        self._release()

    def _release(self) -> None:
        self._work.wire.put(b"".join(self._parts))
        self._parts, self._size = [], 0

    def _count(self, reason: str) -> None:
        if self._mode == "refuse":
            raise CannotRewrite(reason + ", and signatures are refused")
        self._work.changed["signatures"] += 1


class FilterError(ValueError):
    """A list of filters has a word that names no filter."""


def add_filters(plan: Plan, words: str) -> None:
    """Adds what a list of filters asks for to a plan. Raises FilterError."""
    chosen = _chosen(words)
    if "properties" in chosen:
        plan.has_properties = True
        plan.makers.append(PropertyStage)
    if "features" in chosen:
        plan.makers.append(FeatureStage)
    if "dates" in chosen:
        plan.makers.append(lambda work: DateStage(work, chosen["dates"] or None))
    if "signatures" in chosen:
        plan.makers.append(lambda work: SignatureStage(work, mode=chosen["signatures"]))
    if "notes" in chosen:
        plan.makers.append(NoteStage)


_ALLOWED: Dict[str, "tuple[str, ...]"] = {
    "dates": ("", *FORMATS), "features": ("",), "properties": ("",), "signatures": ("", "strip", "refuse"), "notes": ("",)}


def mode_of_signatures(words: Optional[str]) -> Optional[str]:
    """What a list of filters says of signatures: `strip`, `refuse` or an empty text; None where it does not name them."""
    return None if words is None else _chosen(words).get("signatures")


def _chosen(words: str) -> Dict[str, str]:
    """The filters of a list, each with what stands after its `=`."""
    chosen: Dict[str, str] = {}
    for word in words.split(","):
        name, _, value = word.partition("=")
        if word == "all":
            chosen = {**dict.fromkeys(_ALLOWED, ""), **chosen}
        elif name in _ALLOWED and value in _ALLOWED[name] and not word.endswith("="):
            chosen[name] = value
        else:
            raise FilterError(f"there is no filter {word}; there are: all, " + ", ".join(_ALLOWED))
    return chosen


__all__ = ["FilterError", "add_filters", "mode_of_signatures"]
