"""Git's objects as bytes, and their names under SHA-1: what the scripts of this folder expect, written from gitformat-pack(5),
git-mktree(1) and git-commit-tree(1), and from none of the crates."""
import hashlib
from typing import Iterable, List, Sequence, Tuple

WHO = b"A <a@b> 0 +0000"
COMMITTER = b"committer " + WHO + b"\n"


def name(kind: bytes, contents: bytes) -> bytes:
    return hashlib.sha1(b"%s %d\0" % (kind, len(contents)) + contents).hexdigest().encode()


def tail_name(kind: bytes, contents: bytes) -> bytes:
    """The name that the naming for tests gives: nineteen bytes 0xab, and the sum of all bytes."""
    return b"ab" * 19 + b"%02x" % (sum(b"%s %d\0" % (kind, len(contents)) + contents) % 256)


def tree(entries: Iterable[Tuple[bytes, bytes, bytes]]) -> bytes:
    """The contents of a tree, of entries (mode, component, name)."""
    ordered = sorted(entries, key=lambda it: it[1] + (b"/" if it[0] == b"40000" else b""))
    return b"".join(b"%s %s\0" % (mode, component) + bytes.fromhex(id_.decode()) for mode, component, id_ in ordered)


def nested(components: Sequence[bytes], blob: bytes) -> bytes:
    """The name of the root that has one file below these components."""
    mode, id_ = b"100644", blob
    for component in reversed(components):
        mode, id_ = b"40000", name(b"tree", tree([(mode, component, id_)]))
    return id_


def commit(root: bytes, parents: List[bytes], message: bytes) -> bytes:
    told = b"".join(b"parent %s\n" % it for it in parents)
    return b"tree %s\n%sauthor %s\ncommitter %s\n\n%s" % (root, told, WHO, WHO, message)


def tag(target: bytes, kind: bytes, label: bytes, message: bytes) -> bytes:
    return b"object %s\ntype %s\ntag %s\ntagger %s\n\n%s" % (target, kind, label, WHO, message)


EMPTY_TREE = name(b"tree", b"")
