"""Streams drawn at random, for tests and measurements: good ones mostly, and some that are refused or cut off."""
from __future__ import annotations

import random
from typing import Collection, List

BRANCHES = ("main", "topic", "a/b", "old")
PATHS = ("a", "b", "dir/a", "dir/b", "dir/deep/c", '"sp ace"', "dir")


def drawn(chance: random.Random, known: Collection[str] = ()) -> bytes:
    """A stream of a few commits, tags, resets, checkpoints and questions, for a repository that has these branches."""
    text = Drawing(chance, known).stream().encode()
    return text[: chance.randrange(len(text))] if chance.random() < 0.05 else text


def cut(chance: random.Random, stream: bytes) -> List[bytes]:
    """The stream in a few pieces, cut anywhere."""
    places = sorted(chance.randrange(len(stream) + 1) for _ in range(chance.randint(0, 6)))
    return [stream[begin:end] for begin, end in zip([0, *places], [*places, len(stream)]) if begin < end]


def data(text: str) -> str:
    return f"data {len(text)}\n{text}\n"


class Drawing:
    """The marks and branches that a stream has so far, so that what it asks for is mostly there."""

    def __init__(self, chance: random.Random, known: Collection[str]):
        self.chance = chance
        self.known = known
        self.commits: List[int] = []
        self.blobs: List[int] = []
        self.branches: List[str] = []

    def stream(self) -> str:
        is_whole = self.chance.random() < 0.3
        items = [self.commit()]
        items += [self.chance.choices(self.ITEMS, self.WEIGHTS)[0](self) for _ in range(self.chance.randint(0, 8))]
        return "".join(["feature done\n" * is_whole, *items, "done\n" * is_whole])

    def mark(self) -> int:
        return len(self.commits) + len(self.blobs) + 1

    def commit(self) -> str:
        branch, mark = self.chance.choice(BRANCHES), self.mark()
        head = f"commit refs/heads/{branch}\nmark :{mark}\ncommitter C <c@example.com> {self.chance.randrange(2 * 10**9)} +0000\n"
        changes = "".join(self.change() for _ in range(self.chance.randint(0, 4)))
        text = head + data(f"change {self.chance.randrange(10**9)}\n") + self.start(branch) + changes + "\n"
        self.commits.append(mark)
        self.branches.append(branch)
        return text

    def start(self, branch: str) -> str:
        """Where a commit begins: at its branch in the stream, at another commit, or at the ref."""
        kind = self.chance.random()
        if kind < 0.2 and self.commits:
            return f"from :{self.chance.choice(self.commits)}\n"
        is_at_ref = (branch in self.known and kind < 0.9) or kind > 0.99
        return f"from refs/heads/{branch}^0\n" if is_at_ref and branch not in self.branches else ""

    def change(self) -> str:
        path, kind = self.chance.choice(PATHS), self.chance.random()
        if kind < 0.2 and self.blobs:
            return f"M 755 :{self.chance.choice(self.blobs)} {path}\n"
        if kind < 0.9:
            return f"M 644 inline {path}\n" + data(f"{self.chance.randrange(10**12)}\n" * self.chance.randint(0, 20))
        return f"D {path}\n" if kind < 0.99 else f"{self.chance.choice('CR')} {path} {self.chance.choice(PATHS)}\n"

    def blob(self) -> str:
        mark = self.mark()
        self.blobs.append(mark)
        return f"blob\nmark :{mark}\n" + data(str(self.chance.randrange(10**12)) * self.chance.randint(0, 300))

    def tag(self) -> str:
        name, target = self.chance.randrange(10**6), self.chance.choice(self.commits)
        return f"tag v{name}\nfrom :{target}\ntagger T <t@example.com> 1700000000 +0000\n" + data("tag\n")

    def reset(self) -> str:
        target = f"from :{self.chance.choice(self.commits)}\n\n" if self.chance.random() < 0.7 else ""
        return f"reset refs/heads/{self.chance.choice(BRANCHES)}\n" + target

    def question(self) -> str:
        asked = [f"get-mark :{self.chance.choice(self.commits)}\n", "progress told\n", f'ls :{self.chance.choice(self.commits)} ""\n']
        return self.chance.choice(asked + [f"cat-blob :{it}\n" for it in self.blobs])

    def checkpoint(self) -> str:
        return "checkpoint\n\n"

    def wrong(self) -> str:
        return self.chance.choice(("no such command\n", "reset refs/heads/x\nfrom :999\n"))

    ITEMS = (commit, blob, tag, reset, question, checkpoint, wrong)
    WEIGHTS = (60, 15, 5, 4, 12, 6, 1)
