"""What of Git's objects a tenant can keep.

A tenant's objects come from streams of git-fast-import(1), so a commit has a tree, parents, an author, a committer and
perhaps an encoding, a tree has files at paths, and a tag names a commit, a blob or another tag. Here a commit, a tree or a
tag is read from Git's bytes, and whatever would not come back as the same bytes is refused in a sentence.

Object names are 40 hexadecimal digits as `bytes`.
"""
from __future__ import annotations

import re
from typing import List, NamedTuple, Optional, Tuple

LONGEST_DATA = 67_108_864
"""The most bytes that a blob or a message has in a stream."""
LONGEST_PATH = 16_383
MOST_COMPONENTS = 256
LONGEST_REF = 1_024
MOST_PARENTS = 1_024
LONGEST_LINE = 1_048_575
EMPTY_TREE = b"4b825dc642cb6eb9a060e54bf8d69288fbee4904"

_ENTRY = re.compile(rb"([0-7]+) ([^\0]+)\0(.{20})", re.S)
_EMPTY_TREE = bytes.fromhex(EMPTY_TREE.decode())
_MODES = {b"100644", b"100755", b"120000", b"160000", b"40000"}
_BAD_NAMES = {b".", b".."}
_IDENT = re.compile(rb"(?!<)(?:[^<>\n]* )?<[^<>\n]*> ([0-9]{1,20}) [+-][0-9]{4}")
_HEADER = re.compile(rb"([^ \n]+) ([^\n]*)\n")
_OBJECT = re.compile(rb"[0-9a-f]{40}")


class Refusal(Exception):
    """An object that a tenant cannot keep, or a ref that cannot be set, in a sentence."""


class Commit(NamedTuple):
    """A commit as its header says it. Idents and the encoding are their whole lines."""

    tree: bytes
    parents: List[bytes]
    lines: List[bytes]
    message: bytes


class Tag(NamedTuple):
    """An annotated tag. tagger is the whole line, or None."""

    target: bytes
    kind: bytes
    name: bytes
    tagger: Optional[bytes]
    message: bytes


def _name(name: bytes) -> str:
    return name.decode()[:12]


def _headers(contents: bytes) -> Tuple[List[Tuple[bytes, bytes]], Optional[bytes]]:
    """The header lines, and the message, or None where no blank line parts them."""
    headers, at = [], 0
    while True:
        found = _HEADER.match(contents, at)
        if not found:
            break
        headers.append((found.group(1), found.group(2)))
        at = found.end()
    return headers, contents[at + 1 :] if contents[at : at + 1] == b"\n" else None


def _check_ident(kind: str, name: bytes, word: bytes, ident: bytes) -> None:
    found = _IDENT.fullmatch(ident)
    if not found or int(found.group(1)) >= 1 << 64:
        raise Refusal(f"{kind} {_name(name)} has a malformed {word.decode()} line, which gitpool does not keep: "
                      f"{ident.decode(errors='replace')}")
    if len(word) + 1 + len(ident) > LONGEST_LINE:
        raise Refusal(f"{kind} {_name(name)} has a line of more than {LONGEST_LINE} bytes")


def _check_message(kind: str, name: bytes, message: bytes) -> None:
    if len(message) > LONGEST_DATA:
        raise Refusal(f"{kind} {_name(name)} has a message of more than {LONGEST_DATA} bytes")


_EXTRA = {
    b"gpgsig": "a signature (gpgsig)",
    b"gpgsig-sha256": "a signature (gpgsig-sha256)",
    b"mergetag": "a merged tag (mergetag)",
}


def _other_header(kind: str, name: bytes, word: bytes) -> Refusal:
    what = _EXTRA.get(word, f"a header `{word.decode(errors='replace')}`")
    return Refusal(f"{kind} {_name(name)} has {what}, which gitpool does not keep")


def read_commit(name: bytes, contents: bytes) -> Commit:
    """A commit from its bytes. Raises Refusal where a tenant cannot keep it as it is."""
    headers, message = _headers(contents)
    words = [word for word, _ in headers]
    parents = words.count(b"parent")
    expected = [b"tree"] + [b"parent"] * parents + [b"author", b"committer"]
    for word in words:
        if word not in (b"tree", b"parent", b"author", b"committer", b"encoding"):
            raise _other_header("commit", name, word)
    if words not in (expected, expected + [b"encoding"]) or message is None:
        raise Refusal(f"commit {_name(name)} has malformed headers, which gitpool does not keep")
    if parents > MOST_PARENTS:
        raise Refusal(f"commit {_name(name)} has more than {MOST_PARENTS} parents")
    for word, value in headers[1 + parents : 3 + parents]:
        _check_ident("commit", name, word, value)
    if any(not _OBJECT.fullmatch(value) for _, value in headers[: 1 + parents]) or headers[-1] == (b"encoding", b""):
        raise Refusal(f"commit {_name(name)} has malformed headers, which gitpool does not keep")
    _check_message("commit", name, message)
    lines = [word + b" " + value for word, value in headers[1 + parents :]]
    return Commit(headers[0][1], [value for _, value in headers[1 : 1 + parents]], lines, message)


def read_tag(name: bytes, contents: bytes) -> Tag:
    """A tag from its bytes. Raises Refusal where a tenant cannot keep it as it is."""
    headers, message = _headers(contents)
    words = [word for word, _ in headers]
    for word in words:
        if word not in (b"object", b"type", b"tag", b"tagger"):
            raise _other_header("tag", name, word)
    if words[:3] != [b"object", b"type", b"tag"] or words[3:] not in ([], [b"tagger"]) or message is None:
        raise Refusal(f"tag {_name(name)} has malformed headers, which gitpool does not keep")
    target, kind, own = (value for _, value in headers[:3])
    if kind == b"tree":
        raise Refusal(f"tag {own.decode(errors='replace')} is of a tree, which gitpool does not keep")
    if not _OBJECT.fullmatch(target) or kind not in (b"commit", b"blob", b"tag"):
        raise Refusal(f"tag {_name(name)} has malformed headers, which gitpool does not keep")
    check_ref(b"refs/tags/" + own)
    if words[3:]:
        _check_ident("tag", name, b"tagger", headers[3][1])
    _check_message("tag", name, message)
    return Tag(target, kind, own, b"tagger " + headers[3][1] if words[3:] else None, message)


def check_tree(name: bytes, contents: bytes) -> None:
    """Raises Refusal where a tenant cannot keep a tree as it is: where it is not the one tree of its files."""
    entries = _ENTRY.findall(contents)
    paths, size, before = set(), 0, b""
    for mode, path, target in entries:
        size += len(mode) + len(path) + 22
        key = path + b"/" if mode == b"40000" else path
        if mode not in _MODES:
            raise Refusal(f"tree {_name(name)} has an entry with mode {mode.decode()}, which gitpool does not keep")
        if key <= before or path in _BAD_NAMES or b"/" in path or target == _EMPTY_TREE and mode == b"40000":
            raise _bad_entry(name, path, target)
        before = key
        paths.add(path)
    if size != len(contents):
        raise Refusal(f"tree {_name(name)} is malformed, which gitpool does not keep")
    if len(paths) != len(entries):
        # A file and a directory of one name need not stand side by side.
        raise Refusal(f"tree {_name(name)} has two entries of one name, which gitpool does not keep")


def _bad_entry(name: bytes, path: bytes, target: bytes) -> Refusal:
    shown = path.decode(errors="replace")
    if target == _EMPTY_TREE:
        return Refusal(f"tree {_name(name)} has an empty directory `{shown}`, which gitpool does not keep")
    return Refusal(f"tree {_name(name)} has its entry `{shown}` out of order or under a bad name, which gitpool does not keep")


_REF_FORBIDDEN = re.compile(rb"[\0-\x20\x7f~^:?*\[\\]|\.\.|@\{|//|/\.|\.lock(/|$)|[/.]$")


def check_ref(ref: bytes) -> None:
    """Raises Refusal where a tenant can have no ref of this name."""
    shown = ref.decode(errors="replace")
    if not ref.startswith(b"refs/") or ref.startswith(b"refs/namespaces/"):
        raise Refusal(f"{shown} is no name for a ref: it begins with refs/, and not with refs/namespaces/")
    if len(ref) > LONGEST_REF:
        raise Refusal(f"a ref name has more than {LONGEST_REF} bytes")
    if _REF_FORBIDDEN.search(ref):
        raise Refusal(f"{shown} is no name for a ref")


def check_path(path: bytes) -> None:
    """Raises Refusal where a path is past the limits."""
    if len(path) > LONGEST_PATH or path.count(b"/") >= MOST_COMPONENTS:
        raise Refusal(f"a path has more than {LONGEST_PATH} bytes or {MOST_COMPONENTS} components: "
                      f"{path[:60].decode(errors='replace')}..")


def quote(path: bytes) -> bytes:
    """A path as a change of a stream has it: between quotes where it would not be read as it stands."""
    if not path.startswith(b'"') and b"\n" not in path:
        return path
    escaped = path.replace(b"\\", b"\\\\").replace(b'"', b'\\"').replace(b"\n", b"\\n")
    return b'"' + escaped + b'"'
