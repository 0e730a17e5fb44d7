"""The cases of the suite: what a stream of git-fast-import(1) has to do, as files that stand alone.

A case is NAME.fi, the stream, and NAME.json, what is expected of an importer that begins with an empty repository, or with what the stream
NAME.first leaves. CONTRACT.md describes them. In JSON a text of bytes is a string of which each character is one byte, U+0000 to U+00FF.
"""
from __future__ import annotations

import hashlib
import json
import os
import re
from dataclasses import dataclass, field
from typing import Any, Dict, List, NamedTuple, Optional, Tuple

FORMAT = 1
"""The version of the JSON. A reader refuses any other."""

LEVELS = ("core", "answers", "limits", "extensions")
"""The levels in the order in which a table has them."""

_OBJECT_LINES = re.compile(r'\[\n +("[0-9a-f]{40}"),\n +("[a-z]+"),\n +([0-9]+)\n +\]')

Refs = Dict[bytes, str]
Object = Tuple[str, str, int]


class BadCase(Exception):
    """A file that is no case of this format: which, and why."""


@dataclass(frozen=True)
class Fault:
    """Why a stream is refused: the number of docs/FAULTS.md and its meaning, and the last byte of the shortest front of the
    stream that is refused, with the line of that byte. Both count from 1. Where only the end of the stream is refused, is_at_end
    is true, and byte is the size of the stream."""

    number: int
    meaning: str
    byte: int
    line: int
    is_at_end: bool


@dataclass(frozen=True)
class State:
    """The refs of a repository, and the ref that HEAD names."""

    refs: Refs
    head: bytes


class Rule(NamedTuple):
    """A rule of FAST-IMPORT.md: its number and title, what git's manual says of it, and what git does."""

    number: int
    title: str
    manual: str
    git: str


@dataclass(frozen=True)
class Case:
    """A stream, and what is expected of it. first is the stream that is imported before it, if there is one.

    level is one of core, answers and limits; extension names what of the stream no other importer has. kept has the refs that a
    checkpoint did not move, checkpoints the state after each checkpoint by its last byte, and git how git differs, if that is known.
    """

    name: str
    first: Optional[bytes]
    stream: bytes
    level: str
    extension: Optional[str]
    variant_of: Optional[str]
    fault: Optional[Fault]
    replies: bytes
    kept: List[bytes]
    state: State
    objects: List[Object]
    checkpoints: List[Tuple[int, State]]
    rules: List[Rule] = field(default_factory=list)
    git: Dict[str, str] = field(default_factory=dict)

    @property
    def end(self) -> str:
        """How the stream ends: accepted or refused."""
        return "refused" if self.fault else "accepted"

    @property
    def row(self) -> str:
        """The row of a table that counts the case."""
        return "extensions" if self.extension else self.level


def text_of(data: bytes) -> str:
    """Bytes as a string of JSON."""
    return data.decode("latin-1")


def bytes_of(text: str) -> bytes:
    """The bytes of a string of JSON. Raises BadCase where a character is no byte."""
    try:
        return text.encode("latin-1")
    except UnicodeEncodeError as error:
        raise BadCase(f"a character above U+00FF: {text[:60]!r}") from error


def _state_to_json(state: State) -> Dict[str, Any]:
    return {"refs": {text_of(ref): state.refs[ref] for ref in sorted(state.refs)}, "head": text_of(state.head)}


def _state_from_json(told: Dict[str, Any]) -> State:
    return State({bytes_of(ref): str(name) for ref, name in told["refs"].items()}, bytes_of(told["head"]))


def _file_to_json(name: str, stream: bytes) -> Dict[str, Any]:
    return {"file": name, "size": len(stream), "sha256": hashlib.sha256(stream).hexdigest()}


def to_json(case: Case) -> Dict[str, Any]:
    """A case as a value of JSON."""
    return {
        "format": FORMAT,
        "name": case.name,
        "first": None if case.first is None else _file_to_json(case.name + ".first", case.first),
        "stream": _file_to_json(case.name + ".fi", case.stream),
        "level": case.level,
        "extension": case.extension,
        "variant_of": case.variant_of,
        "rules": [rule._asdict() for rule in case.rules],
        "git": case.git,
        "end": case.end,
        "fault": vars(case.fault) if case.fault else None,
        "replies": text_of(case.replies),
        "kept": [text_of(ref) for ref in case.kept],
        **_state_to_json(case.state),
        "objects": [list(it) for it in case.objects],
        "checkpoints": [{"byte": byte, **_state_to_json(state)} for byte, state in case.checkpoints],
    }


def from_json(told: Dict[str, Any], stream: bytes, first: Optional[bytes] = None) -> Case:
    """The case of a value of JSON. Raises BadCase where it has another format, or a stream is another."""
    number = told.get("format") if isinstance(told, dict) else None
    if number != FORMAT:
        raise BadCase(f"format {number}, where this runner reads {FORMAT}")
    name = str(told["name"])
    expected = [None if it is None else _file_to_json(name + end, it) for it, end in ((stream, ".fi"), (first, ".first"))]
    if [told["stream"], told["first"]] != expected:
        raise BadCase("a stream is not the one that the case names")
    return Case(
        name=name,
        first=first,
        stream=stream,
        level=told["level"],
        extension=told["extension"],
        variant_of=told["variant_of"],
        fault=Fault(**told["fault"]) if told["fault"] else None,
        replies=bytes_of(told["replies"]),
        kept=[bytes_of(ref) for ref in told["kept"]],
        state=_state_from_json(told),
        objects=[(str(name), str(kind), int(size)) for name, kind, size in told["objects"]],
        checkpoints=[(int(it["byte"]), _state_from_json(it)) for it in told["checkpoints"]],
        rules=[Rule(**rule) for rule in told["rules"]],
        git=dict(told["git"]),
    )


def _content(path: str) -> bytes:
    with open(path, "rb") as file:
        return file.read()


def read_case(folder: str, name: str) -> Case:
    """The case of this name in a folder. Raises BadCase, which says what is wrong with which file."""
    start = os.path.join(folder, name)
    path = start + ".json"
    try:
        first = _content(start + ".first") if os.path.exists(start + ".first") else None
        return from_json(json.loads(_content(path)), _content(start + ".fi"), first)
    except (OSError, ValueError, KeyError, TypeError, BadCase) as error:
        raise BadCase(f"{path}: {type(error).__name__}: {error}") from error


def names_in(folder: str) -> List[str]:
    """The names of the cases in a folder, in order."""
    return sorted(it[:-5] for it in os.listdir(folder) if it.endswith(".json"))


def write_case(folder: str, case: Case) -> None:
    """Writes the files of a case."""
    with open(os.path.join(folder, case.name + ".json"), "w", encoding="ascii") as told:
        # (an object has one line)
        told.write(_OBJECT_LINES.sub(r"[\1, \2, \3]", json.dumps(to_json(case), indent=1)) + "\n")
    for end, stream in ((".fi", case.stream), (".first", case.first)):
        if stream is not None:
            with open(os.path.join(folder, case.name + end), "wb") as file:
                file.write(stream)
