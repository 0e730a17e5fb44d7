"""Reads the rules of docs/FAST-IMPORT.md: each with what git's manual says, what git does, its definitions and its cases."""
from __future__ import annotations

import os
import re
from typing import Dict, List, NamedTuple, Tuple

from cases import Rule

TOP = os.path.join(os.path.dirname(os.path.realpath(__file__)), "..")
DOCUMENT = "docs/FAST-IMPORT.md"
PARTS = ("Manual", "Git 2.39", "Definition", "Cases")
"""What each rule has below its text, in this order."""

_HEADING = re.compile(r"^### (\d+)\. (.+)$", re.M)
_SECTION = re.compile(r"^## (.+)$", re.M)
_DEFINITIONS = re.compile(r"([a-z]\w*) ([A-Z]\w*)((?:,? (?:and )?`[^`]+`)*)")


class Told(NamedTuple):
    """A rule as the document tells it: its section; its definitions, as crate, module and name (empty where the whole module is meant);
    and the names of its cases."""

    rule: Rule
    section: str
    text: str
    definitions: List[Tuple[str, str, str]]
    cases: List[str]


def _parts_of(body: str) -> Dict[str, str]:
    """The lines `- *Part*: ..` of a rule, each with those that go on with it."""
    found = re.findall(r"^- \*([^*]+)\*: (.*(?:\n  .*)*)", body, re.M)
    return {name: " ".join(text.split()) for name, text in found}


def _definitions_in(text: str) -> List[Tuple[str, str, str]]:
    found: List[Tuple[str, str, str]] = []
    for crate, module, names in _DEFINITIONS.findall(text):
        found += [(crate, module, name) for name in re.findall("`([^`]+)`", names) or [""]]
    return found


def read_rules(document: str) -> List[Told]:
    """The rules of a document in their order. Raises ValueError where one lacks a part."""
    rules = []
    for section in re.split(r"^(?=## )", document, flags=re.M):
        title = _SECTION.match(section)
        for body in re.split(r"^(?=### \d)", section, flags=re.M)[1:]:
            rules.append(_read_rule(title[1] if title else "", body))
    return rules


def _read_rule(section: str, body: str) -> Told:
    heading, parts = _HEADING.match(body), _parts_of(body)
    if not heading or tuple(parts) != PARTS:
        raise ValueError(f"a rule of {DOCUMENT} has other parts than {', '.join(PARTS)}: {body.splitlines()[0]}")
    rule = Rule(int(heading[1]), heading[2], parts["Manual"], parts["Git 2.39"])
    cases = re.findall("`([^`]+)`", parts["Cases"])
    return Told(rule, section, body[: body.index("\n- *")], _definitions_in(parts["Definition"]), cases)


def content(path: str) -> str:
    """A file of the repository."""
    with open(os.path.join(TOP, path), encoding="utf-8") as file:
        return file.read()


def all_rules() -> List[Told]:
    """The rules of the repository's document."""
    return read_rules(content(DOCUMENT))
