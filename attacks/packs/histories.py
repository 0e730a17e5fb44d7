"""Random histories as streams of git-fast-import(1) that git and gitpool take alike: merges and octopuses, several roots, tags of commits,
blobs and tags, gitlinks, empty trees and blobs, odd names, and contents about the edges of a block of zlib."""
from __future__ import annotations

import random
from typing import List, Sequence, Tuple

PATHS = (
    b"a",
    b"a.b",
    b"a0",
    b"b/a",
    b"b/c",
    b"b/d/a",
    b"b/d/e/f/g",
    b"c/x",
    b"c/y",
    b"c/z/x",
    b"f",
    b"f/g",
    b"x" * 200,
    b'"sp ace"',
    b'"\\303\\244/\\n"',
    b'"tab\\there/\\"quoted\\""',
    b"-dash",
    b"B/a",
    b".a",
    b"~",
)
LINKS = (b"sub", b"c/sub", b"b/d/sub")
MODES = (b"100644", b"100644", b"100644", b"100755", b"120000")
REFS = (b"refs/heads/main", b"refs/heads/dev", b"refs/heads/side/a", b"refs/heads/side/b", b"refs/tags/light", b"refs/notes/commits")
LABELS = (b"v1", b"v2", b"v3", b"v/4", b"v/5", b"v6")
SIZES = (1, 3, 14, 15, 16, 17, 2_047, 2_048, 2_049, 65_534, 65_535, 65_536, 65_537, 131_070, 131_071)
PARENTS = (0, 1, 1, 1, 1, 1, 1, 2, 2, 3, 5, 9)


def data(text: bytes) -> bytes:
    """The data command of a text."""
    return b"data %d\n%b\n" % (len(text), text)


def shared_texts(draw: random.Random) -> List[bytes]:
    """Contents that several tenants may have."""
    return [b"shared %d\n" % draw.randrange(10**9) for _ in range(6)] + [b""]


class History:
    """Writes the streams of one history."""

    def __init__(self, draw: random.Random, texts: Sequence[bytes]):
        self._draw, self._texts = draw, texts
        self._out: List[bytes] = []
        self._marks = 0
        self._blobs: List[bytes] = []
        self._commits: List[bytes] = []
        self._tagged: List[bytes] = []
        self._linked: List[bytes] = []
        # git takes a tag once in a stream.
        self._labels: List[bytes] = []

    def stream(self, known: Sequence[bytes] = (), tags: Sequence[bytes] = ()) -> bytes:
        """A stream that goes on from what the tenant has: from these commits, and from annotated tags. Gitlinks may name the commits."""
        draw = self._draw
        self._out, self._blobs, self._marks = [b"feature force\nfeature done\n"], [], 0
        self._commits, self._tagged, self._labels = list(known), list(tags), list(LABELS)
        self._linked = [*known, *(b"%040x" % draw.getrandbits(160) for _ in range(3))]
        for _ in range(draw.choice((1, 3, 6, 12, 25))):
            kind = draw.random()
            if kind < 0.3:
                self._blob()
            elif kind < 0.8:
                self._commit()
            elif kind < 0.92:
                self._tag()
            else:
                self._reset()
        return b"".join(self._out) + b"done\n"

    def _mark(self, kept: List[bytes]) -> bytes:
        self._marks += 1
        kept.append(b":%d" % self._marks)
        return b"mark :%d\n" % self._marks

    def _text(self) -> bytes:
        chance = self._draw.random()
        if chance < 0.4:
            return self._draw.choice(self._texts)
        if chance < 0.9:
            return b"text %d\n" % self._draw.randrange(10**9)
        return self._draw.randbytes(self._draw.choice(SIZES))

    def _blob(self) -> None:
        self._out.append(b"blob\n" + self._mark(self._blobs) + data(self._text()))

    def _who(self) -> bytes:
        """An identity with a date. Dates are in no order, so that they say nothing about ancestry."""
        draw = self._draw
        return b"A U Thor <author@example.org> %d %b\n" % (1_600_000_000 + draw.randrange(10) * 3_600, draw.choice((b"+0000", b"-0330")))

    def _message(self) -> bytes:
        return self._draw.choice((b"", b"One\n", b"Two\n\nwith more\n", b"no end", b"%d\n" % self._draw.randrange(10**6)))

    def _commit(self) -> None:
        draw = self._draw
        ref = draw.choice(REFS)
        parents = draw.sample(self._commits, min(len(self._commits), draw.choice(PARENTS)))
        lines = [b"reset %b\n\n" % ref] if not parents else []
        lines.append(b"commit %b\n" % ref + self._mark(self._commits))
        lines += [b"author " + self._who()] if draw.random() < 0.5 else []
        lines += [b"committer " + self._who(), data(self._message())]
        lines += [b"from %b\n" % it for it in parents[:1]] + [b"merge %b\n" % it for it in parents[1:]]
        lines += [self._change() for _ in range(draw.choice((0, 1, 1, 2, 3, 8)))]
        self._out.append(b"".join(lines) + b"\n")

    def _change(self) -> bytes:
        draw = self._draw
        chance, path = draw.random(), draw.choice(PATHS)
        if chance < 0.4 and self._blobs:
            return b"M %b %b %b\n" % (draw.choice(MODES), draw.choice(self._blobs), path)
        if chance < 0.75:
            return b"M %b inline %b\n" % (draw.choice(MODES), path) + data(self._text())
        if chance < 0.85:
            return b"M 160000 %b %b\n" % (draw.choice(self._linked), draw.choice(LINKS))
        return b"deleteall\n" if chance < 0.89 else b"D %b\n" % draw.choice((path, b"b", b"c", b"b/d"))

    def _tag(self) -> None:
        draw = self._draw
        targets = self._commits + self._blobs + self._tagged * 2
        if targets and self._labels:
            target = draw.choice(targets)
            name = b"tag %b\n" % self._labels.pop(draw.randrange(len(self._labels)))
            tagger = b"tagger " + self._who() if draw.random() < 0.9 else b""
            self._out.append(name + self._mark(self._tagged) + b"from %b\n" % target + tagger + data(self._message()))

    def _reset(self) -> None:
        """A ref that names another commit, so that others may be reached no more; or that goes."""
        draw = self._draw
        if self._commits:
            target = draw.choice(self._commits) if draw.random() < 0.8 else b"0" * 40
            self._out.append(b"reset %b\nfrom %b\n\n" % (draw.choice(REFS), target))


class Lines:
    """Writes a stream by hand. Marks are numbers that the caller chooses."""

    def __init__(self) -> None:
        self._out: List[bytes] = []
        self._seconds = 1_700_000_000

    def blob(self, mark: int, text: bytes) -> "Lines":
        self._out.append(b"blob\nmark :%d\n" % mark + data(text))
        return self

    def commit(
        self,
        mark: int,
        parents: Sequence[int] = (),
        files: Sequence[Tuple[bytes, int]] = (),
        *,
        ref: bytes = b"refs/heads/main",
        lines: bytes = b"",
        message: bytes = b"m\n",
    ) -> "Lines":
        """A commit that puts blobs at paths, and then has more lines of changes."""
        self._seconds += 60
        begin = b"" if parents else b"reset %b\n\n" % ref
        head = b"commit %b\nmark :%d\ncommitter C <c@x> %d +0000\n" % (ref, mark, self._seconds)
        above = b"".join(b"%b :%d\n" % (b"merge" if place else b"from", it) for place, it in enumerate(parents))
        changes = b"".join(b"M 100644 :%d %b\n" % (blob, path) for path, blob in files)
        self._out.append(begin + head + data(message) + above + changes + lines + b"\n")
        return self

    def tag(self, name: bytes, target: int, mark: int) -> "Lines":
        self._out.append(b"tag %b\nmark :%d\nfrom :%d\ntagger C <c@x> 1700000000 +0000\n" % (name, mark, target) + data(b"t\n"))
        return self

    def reset(self, ref: bytes, target: int) -> "Lines":
        self._out.append(b"reset %b\nfrom :%d\n\n" % (ref, target))
        return self

    def stream(self) -> bytes:
        return b"feature force\nfeature done\n" + b"".join(self._out) + b"done\n"
