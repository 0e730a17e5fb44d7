"""Random streams of git-fast-import(1): most are good, some are refused on their way. They leave objects that no ref reaches, move
refs by force, remove refs, and share contents with other tenants."""
from __future__ import annotations

import hashlib
import random
from typing import Callable, Dict, List, Optional, Sequence, Set, Tuple

ZEROS = b"0" * 40
REFS = (b"refs/heads/main", b"refs/heads/main", b"refs/heads/dev", b"refs/heads/dev", b"refs/heads/side/a", b"refs/tags/light", b"HEAD")
HEADS = (b"refs/heads/main", b"refs/heads/dev", b"refs/heads/dev", b"refs/heads/unborn", b"refs/tags/light")
PATHS = (b"a", b"b.txt", b"c", b"d/x", b"d/y", b"d/e/z", b"f/g/h/i", b'"q uoted"')
MODES = (b"100644", b"644", b"100644", b"100755", b"120000")
TAGS = (b"v1", b"v2", b"v3", b"light")
WRONG = (
    b"get-mark :999\n",
    b"nonsense\n",
    b"blob\ndata x\n",
    b"reset refs/heads/main\nfrom :999\n",
    b"tag \nfrom :1\n",
    b"feature done\n",
    b"commit refs/heads/main\nmark :1\ndata 0\n",
    b"cat-blob :998\n",
    b"M 644 :1 a\n",
    b"alias\nmark :5\nto refs/heads/none\n\n",
    b"commit x\n",
    b"commit refs/heads/main\ncommitter A <a@b> 1 +0000\ndata 0\nM 123 inline a\n",
    b"reset refs/heads/main\nfrom nowhere\n",
)


class Texts:
    """The contents of a run: each has a mark that stands in no other, so that it can be looked for in a file. Some are shared."""

    def __init__(self, draw: random.Random):
        self._draw = draw
        self.marks: List[bytes] = []
        self._shared = [self.new() for _ in range(8)]

    def new(self) -> bytes:
        """Contents that nobody else has."""
        mark = b"%032x" % self._draw.getrandbits(128)
        self.marks.append(mark)
        return self._draw.choice((b"%b\n", b"%b", b"text %b and more\n", b"\0\xff%b\n\n", b"%b" + b" filler\n" * 12)) % mark

    def any(self) -> bytes:
        """Contents that are new, or that several tenants have."""
        return self.new() if self._draw.random() < 0.5 else self._draw.choice(self._shared)

    def blob_names(self) -> List[bytes]:
        """The names of the blobs of the shared contents."""
        return [hashlib.sha1(b"blob %d\0%b" % (len(it), it)).hexdigest().encode() for it in self._shared]


def data(text: bytes) -> bytes:
    return b"data %d\n%b\n" % (len(text), text)


class Writer:
    """Writes one stream of a tenant that has these refs."""

    def __init__(self, draw: random.Random, texts: Texts, refs: Sequence[bytes], head: bytes):
        self._draw, self._texts, self._saved, self._head = draw, texts, list(refs), head
        self._out: List[bytes] = []
        self._marks = 0
        self._blobs: List[int] = []
        self._commits: List[int] = []
        self._tags: List[int] = []
        # The branches of the stream, each with whether it has a commit.
        self._branches: Dict[bytes, bool] = {}
        self._put: Set[bytes] = set()

    def stream(self) -> bytes:
        """A whole stream."""
        has_done = self._features()
        commands: Tuple[Tuple[Callable[[], None], float], ...] = (
            (self._blob, 4),
            (self._commit, 8),
            (self._tag, 2),
            (self._reset, 2),
            (self._checkpoint, 2.5),
            (self._reply, 1.5),
            (self._alias, 0.4),
        )
        calls, weights = [it[0] for it in commands], [it[1] for it in commands]
        for call in self._draw.choices(calls, weights, k=self._draw.randint(1, 9)):
            call()
            if self._draw.random() < 0.025:
                self._out.append(self._draw.choice(WRONG))
        if has_done and self._draw.random() < 0.9 or self._draw.random() < 0.1:
            self._out.append(b"done\n" + self._draw.choice((b"", b"", b"bytes after it\nblob\n")))
        text = b"".join(self._out)
        return text[: self._draw.randrange(len(text) + 1)] if self._draw.random() < 0.06 else text

    def _features(self) -> bool:
        draw = self._draw
        lines = [(b"feature force\n", 0.45), (b"feature done\n", 0.2), (b"option git quiet\n", 0.1), (b"feature get-mark\n", 0.1)]
        chosen = [line for line, chance in lines if draw.random() < chance]
        if draw.random() < 0.2:
            self._head = draw.choice(HEADS)
            chosen.append(b"option gitpool head %b\n" % self._head)
        self._out += chosen
        return b"feature done\n" in chosen

    def _mark(self, marks: List[int]) -> bytes:
        self._marks += 1
        marks.append(self._marks)
        return b"mark :%d\n" % self._marks

    def _date(self) -> bytes:
        return b"A U Thor <author@example.org> %d +0%d00\n" % (1_700_000_000 + 60 * self._draw.randrange(3), self._draw.randrange(2))

    def _blob(self) -> None:
        self._out.append(b"blob\n" + self._mark(self._blobs) + data(self._texts.any()))

    def _message(self) -> bytes:
        draw = self._draw
        return draw.choice((b"One\n", b"Two\n", b"")) if draw.random() < 0.5 else self._texts.any().replace(b"\0", b"0")

    def _commit(self) -> None:
        draw = self._draw
        ref = draw.choice(REFS)
        lines = [b"commit %b\n" % ref]
        parents = self._parents(self._head if ref == b"HEAD" else ref)
        if draw.random() < 0.9:
            lines.append(self._mark(self._commits))
        lines += [b"author " + self._date()] if draw.random() < 0.3 else []
        lines += [b"committer " + self._date(), data(self._message()), *parents]
        self._put.clear()
        lines += [self._change() for _ in range(draw.choice((0, 1, 1, 2, 3, 4)))]
        self._out.append(b"".join(lines) + draw.choice((b"", b"\n")))
        self._branches[self._head if ref == b"HEAD" else ref] = True

    def _parents(self, ref: bytes) -> List[bytes]:
        """The lines `from` and `merge` of a commit, which has no mark yet."""
        draw, found = self._draw, []
        is_saved = ref in self._saved and ref not in self._branches
        if is_saved and draw.random() < 0.75:
            found.append(b"from %b^0\n" % ref)
        elif self._commits and draw.random() < 0.4:
            found.append(b"from :%d\n" % draw.choice(self._commits))
        others = [it for it in self._saved if it != ref and it not in self._branches]
        if draw.random() < 0.25 and (self._commits or others):
            marks = [b":%d" % it for it in self._commits[-4:]]
            found.append(b"merge %b\n" % draw.choice(marks + [it + b"^0" for it in others]))
        return found

    def _change(self) -> bytes:
        draw = self._draw
        chance, path = draw.random(), draw.choice(PATHS)
        if chance < 0.05:
            path = self._texts.new()[5:30].replace(b"\0", b"0").replace(b"\n", b"") + b"-p"
        self._put.add(path)
        if chance < 0.4 and self._blobs:
            return b"M %b :%d %b\n" % (draw.choice(MODES), draw.choice(self._blobs), path)
        if chance < 0.72:
            return b"M %b inline %b\n" % (draw.choice(MODES), path) + data(self._texts.any())
        if chance < 0.76:
            return b"M 160000 %040x %b\n" % (draw.getrandbits(160), path)
        if chance < 0.77:
            return b"M 644 %b %b\n" % (draw.choice(self._texts.blob_names()), path)
        if chance < 0.8:
            return b'ls "d"\n'
        return b"deleteall\n" if chance < 0.82 else self._move(path)

    def _move(self, path: bytes) -> bytes:
        self._put.discard(path)
        if self._put and self._draw.random() < 0.5:
            word = self._draw.choice((b"C", b"R"))
            return b"%b %b %b\n" % (word, self._draw.choice(sorted(self._put)), b"to/" + path.replace(b'"', b""))
        return b"D %b\n" % self._draw.choice((path, b"d"))

    def _target(self) -> Optional[bytes]:
        marks = [b":%d" % it for it in self._commits * 2 + self._tags + self._blobs[:2]]
        names = [it + b"^0" for it in self._saved]
        return self._draw.choice(marks + names) if marks or names else None

    def _tag(self) -> None:
        target = self._target()
        if target is not None:
            lines = [b"tag %b\n" % self._draw.choice(TAGS)]
            lines += [self._mark(self._tags)] if self._draw.random() < 0.7 else []
            lines += [b"from %b\n" % target, b"tagger " + self._date(), data(self._message())]
            self._out.append(b"".join(lines))

    def _reset(self) -> None:
        draw = self._draw
        ref = draw.choice(self._saved) if self._saved and draw.random() < 0.5 else draw.choice(REFS[:-1])
        chance = draw.random()
        if chance < 0.35:
            start: Optional[bytes] = ZEROS
        elif chance < 0.8 and self._commits:
            start = b":%d" % draw.choice(self._commits)
        elif chance < 0.9 and self._saved:
            start = draw.choice(self._saved) + b"^0"
        else:
            start = None
        self._branches[ref] = False
        self._out.append(b"reset %b\n" % ref + (b"" if start is None else b"from %b\n" % start) + b"\n")

    def _checkpoint(self) -> None:
        self._out.append(b"checkpoint\n")

    def _alias(self) -> None:
        if self._commits:
            self._out.append(b"alias\n%bto :%d\n\n" % (self._mark([]), self._draw.choice(self._commits)))

    def _reply(self) -> None:
        lines = [b"progress %x\n" % self._draw.getrandbits(32), b"# a comment\n"]
        lines += [b"cat-blob :%d\n" % it for it in self._blobs[-1:]]
        lines += [b"get-mark :%d\n" % it for it in (*self._blobs[-1:], *self._commits[-1:], *self._tags[-1:])]
        lines += [b'ls :%d "d"\n' % it for it in self._commits[-1:]]
        self._out.append(self._draw.choice(lines))
