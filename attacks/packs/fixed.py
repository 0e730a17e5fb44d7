"""A fixed list of histories, each with what packs go wrong about."""
from __future__ import annotations

import hashlib
import random
from typing import Dict

from histories import Lines

SIZES = (0, 1, 15, 16, 2_047, 2_048, 65_534, 65_535, 65_536, 65_537, 131_069, 131_070, 131_071, 196_605, 262_143, 262_144)
EMPTY_TREE = b"4b825dc642cb6eb9a060e54bf8d69288fbee4904"


def noise(size: int) -> bytes:
    """So many bytes that do not compress, the same each time."""
    return random.Random(size).randbytes(size)


def of_size(*sizes: int) -> bytes:
    """Blobs of these sizes in one commit."""
    made = Lines()
    for place, size in enumerate(sizes):
        made.blob(place + 1, noise(size))
    return made.commit(1_000, (), [(b"f%d" % place, place + 1) for place in range(len(sizes))]).stream()


def empty_commit(message: bytes) -> bytes:
    """The name of a commit of the empty tree that `Lines` writes first."""
    who = b"C <c@x> 1700000060 +0000"
    text = b"tree %b\nauthor %b\ncommitter %b\n\n%b" % (EMPTY_TREE, who, who, message)
    return hashlib.sha1(b"commit %d\0%b" % (len(text), text)).hexdigest().encode()


def line_of_commits() -> bytes:
    made = Lines()
    for it in range(60):
        made.blob(it + 1, b"text %d\n" % (it % 23)).commit(1_000 + it, [999 + it] if it else [], [(b"d%d/f%d" % (it % 5, it % 7), it + 1)])
    return made.stream()


def two_sides() -> bytes:
    """Two branches that are merged into each other again and again."""
    made = Lines().blob(1, b"a\n").commit(100, (), [(b"a", 1)])
    left = right = 100
    for it in range(20):
        made.blob(10 + it, b"%d\n" % it)
        made.commit(200 + 2 * it, [left, right] if it % 3 == 2 and left != right else [left], [(b"l%d" % (it % 4), 10 + it)])
        made.commit(201 + 2 * it, [right, 200 + 2 * it] if it % 4 == 3 else [right], [(b"r/%d" % (it % 3), 10 + it)], ref=b"refs/heads/dev")
        left, right = 200 + 2 * it, 201 + 2 * it
    return made.stream()


def octopus(parents: int) -> bytes:
    made = Lines()
    for it in range(parents):
        made.blob(it + 1, b"%d\n" % it).commit(1_000 + it, (), [(b"f%d" % it, it + 1)], ref=b"refs/heads/b%d" % it)
    return made.commit(5_000, range(1_000, 1_000 + parents), [(b"f%d" % it, it + 1) for it in range(parents)]).stream()


def roots() -> bytes:
    """Thirty roots, which a few commits join."""
    made = Lines().blob(1, b"same\n")
    for it in range(30):
        made.commit(100 + it, (), [(b"f%d" % (it % 3), 1)], ref=b"refs/heads/r%d" % it, message=b"%d\n" % it)
    return made.commit(200, [100, 107]).commit(201, [200, 111, 112]).stream()


def nested_tags() -> bytes:
    made = Lines().blob(1, b"a\n").blob(2, b"b\n").commit(10, (), [(b"a", 1)]).commit(11, [10], [(b"d/b", 2)])
    made.tag(b"v1", 11, 20)
    for it in range(12):
        made.tag(b"nest%d" % it, 20 + it, 21 + it)
    return made.tag(b"old", 10, 50).tag(b"older-of-old", 50, 51).stream()


def tags_of_blobs() -> bytes:
    made = Lines().blob(1, b"tagged alone\n").blob(2, b"in a tree\n").blob(3, b"").commit(10, (), [(b"d/f", 2)])
    return made.tag(b"alone", 1, 20).tag(b"in-a-tree", 2, 21).tag(b"empty", 3, 22).tag(b"tag-of-tag-of-blob", 20, 23).stream()


def gitlinks() -> bytes:
    """Gitlinks that name nothing, and one that names a commit of the same tenant."""
    own = empty_commit(b"linked\n")
    modules = b'[submodule "s"]\n\tpath = s\n\turl = http://example.org/\n'
    made = Lines().commit(5, (), message=b"linked\n", ref=b"refs/heads/linked").blob(1, modules)
    made.commit(10, (), [(b".gitmodules", 1)], lines=b"M 160000 %b s\nM 160000 %b deep/er/t\n" % (b"12" * 20, b"34" * 20))
    made.commit(11, [10], lines=b"M 160000 %b own\n" % own)
    return made.commit(12, [11], lines=b"D .gitmodules\nM 160000 %b s\nD deep\n" % (b"56" * 20)).stream()


def links_alone() -> bytes:
    return Lines().commit(10, (), lines=b"M 160000 %b s\n" % (b"12" * 20)).stream()


def empties() -> bytes:
    """Empty trees and blobs, which come back."""
    made = Lines().blob(1, b"").commit(10).commit(11, [10], [(b"f", 1)]).commit(12, [11], lines=b"D f\n").commit(13, [12], message=b"")
    made.commit(14, (), ref=b"refs/heads/other", message=b"")
    return made.commit(15, [13, 14], [(b"d/e", 1), (b"d/f", 1)]).commit(16, [15], lines=b"D d/e\nD d/f\n").stream()


def modes_and_names() -> bytes:
    made = Lines().blob(1, b"#!/bin/sh\n").blob(2, b"target")
    lines = [
        b"M 100755 :1 run",
        b"M 120000 :2 link",
        b"M 100644 :1 a.b",
        b"M 100644 :2 a/b",
        b"M 100644 :1 a0",
        b"M 100644 :2 a-b",
        b'M 100644 :1 "sp ace\\n\\303\\244"',
        b'M 100644 :2 "\\377\\001/\\t\\"\\\\"',
        b"M 100644 :1 " + b"n" * 255,
        b"M 100755 :2 B",
        b"M 100644 :1 b",
        b"M 100644 :1 -x",
        b"M 100644 :2 ...",
        b"M 100644 :2 c/c/c/c",
        b"M 100644 :2 c/c-c",
    ]
    return made.commit(10, (), lines=b"\n".join(lines) + b"\n").commit(11, [10], lines=b"D a\nM 100644 :1 a\n").stream()


def deep() -> bytes:
    """A file two hundred directories deep, that changes."""
    made, path = Lines(), b"/".join(b"d%d" % it for it in range(200)) + b"/f"
    for it in range(6):
        made.blob(it + 1, b"%d\n" % (it % 3)).commit(100 + it, [99 + it] if it else [], [(path, it + 1), (b"d0/g", it + 1)])
    return made.stream()


def wide() -> bytes:
    """A directory of 3,000 files, of which some change: a tree of more than 65,535 bytes."""
    made, files = Lines(), [(b"file%04d" % it, 1 + it % 9) for it in range(3_000)]
    for it in range(9):
        made.blob(it + 1, b"%d\n" % it)
    made.commit(100, (), files)
    for it in range(8):
        made.commit(101 + it, [100 + it], [(b"file%04d" % (it * 321), 9 - it)])
    return made.stream()


def reverts() -> bytes:
    """Blobs and trees that come back long after they went."""
    made = Lines()
    for it in range(8):
        made.blob(it + 1, b"v%d\n" % it)
    for it in range(48):
        files = [(b"d%d/f" % (it % 3), it % 8 + 1), (b"g", it * it % 8 + 1)]
        made.commit(100 + it, [99 + it] if it else [], files)
    return made.stream()


def unreached() -> bytes:
    """Commits and blobs that no ref reaches any more."""
    made = Lines().blob(1, b"kept\n").blob(2, b"left\n").blob(3, b"in nothing\n").commit(10, (), [(b"a", 1)]).commit(11, [10], [(b"b", 2)])
    return made.commit(12, [11], [(b"d/b", 1)]).reset(b"refs/heads/main", 10).stream()


def one_tree_twice() -> bytes:
    """The same directory at several places, and two commits of one tree."""
    made = Lines().blob(1, b"x\n").commit(10, (), [(b"p/q/f", 1), (b"q/f", 1), (b"r/q/f", 1)]).commit(11, [10], message=b"same tree\n")
    return made.commit(12, [11], [(b"r/p/q/f", 1)]).stream()


def long_messages() -> bytes:
    """Commits of more than one block."""
    made = Lines().blob(1, b"x\n")
    for it, size in enumerate((65_000, 65_535, 70_000, 200_000)):
        made.commit(10 + it, [9 + it] if it else [], [(b"a", 1)], message=b"m" * size)
    return made.stream()


def crossed() -> bytes:
    """Merges that cross, with two best common ancestors each."""
    made = Lines().blob(1, b"a\n").blob(2, b"b\n").commit(10, (), [(b"a", 1)])
    left = right = 10
    for it in range(10):
        made.commit(20 + 4 * it, [left], [(b"l", 1 + it % 2)], message=b"l%d\n" % it)
        made.commit(21 + 4 * it, [right], [(b"r", 1 + it % 2)], message=b"r%d\n" % it, ref=b"refs/heads/dev")
        made.commit(22 + 4 * it, [20 + 4 * it, 21 + 4 * it]).commit(23 + 4 * it, [21 + 4 * it, 20 + 4 * it], ref=b"refs/heads/dev")
        left, right = 22 + 4 * it, 23 + 4 * it
    return made.stream()


def file_for_directory() -> bytes:
    """A path that is a file, a directory, a link and a gitlink in turn."""
    made = Lines().blob(1, b"x\n").commit(10, (), [(b"a", 1)]).commit(11, [10], [(b"a/b", 1)]).commit(12, [11], lines=b"M 120000 :1 a\n")
    return made.commit(13, [12], lines=b"M 160000 %b a\n" % (b"ab" * 20)).commit(14, [13], [(b"a/b/c", 1)]).stream()


def histories() -> Dict[str, bytes]:
    """All of them, by what they have."""
    return {
        "one empty commit": Lines().commit(10).stream(),
        "a blob and no ref": Lines().blob(1, b"x\n").stream(),
        "a line of commits": line_of_commits(),
        "two sides that merge": two_sides(),
        "merges that cross": crossed(),
        "an octopus of 3 parents": octopus(3),
        "an octopus of 60 parents": octopus(60),
        "thirty roots": roots(),
        "nested tags": nested_tags(),
        "tags of blobs": tags_of_blobs(),
        "gitlinks": gitlinks(),
        "a gitlink and nothing else": links_alone(),
        "empty trees and blobs": empties(),
        "modes and odd names": modes_and_names(),
        "two hundred directories deep": deep(),
        "3,000 files in a directory": wide(),
        "reverts": reverts(),
        "objects that no ref reaches": unreached(),
        "one tree at several places": one_tree_twice(),
        "long messages": long_messages(),
        "a file, then a directory": file_for_directory(),
        "a blob of 65,535 bytes": of_size(65_535),
        "a blob of 65,536 bytes": of_size(65_536),
        "blobs at the edges of sizes and blocks": of_size(*SIZES),
        "a blob of 20 MB": of_size(20_000_000),
    }
