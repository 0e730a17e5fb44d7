"""Streams as they are followed, and places in them."""
import random
import unittest
from typing import Iterable, List

from gitpool_stream import Scanner, Tally, for_git, head_of, parts_of, place_of

STREAM = (b"# a comment\nblob\nmark :1\ndata 3\nab\n\ncommit refs/heads/x\ndata <<END\nfoo\ndata 5\ntag no\nEND\nM 1 2\ntag x\ndata 2\nxydata 3\n"
          b"abctag y\ndata 0\nblob\ndata 4\nblob\nlast")


def cut(stream: bytes, at: Iterable[int]) -> List[bytes]:
    ends = [0, *sorted(at), len(stream)]
    return [stream[start:end] for start, end in zip(ends, ends[1:])]


def objects_in(pieces: Iterable[bytes]) -> int:
    tally = Tally()
    for piece in pieces:
        tally.feed(piece)
    return tally.objects()


class Parts(unittest.TestCase):
    def test_lines_and_data(self) -> None:
        data = [part.text for part in parts_of([STREAM]) if part.is_data]
        self.assertEqual(data, [b"ab\n", b"foo\ndata 5\ntag no\nEND\n", b"xy", b"abc", b"blob"])
        self.assertEqual(objects_in([STREAM]), 5)

    def test_any_cut(self) -> None:
        chance = random.Random(1)
        whole_data = b"".join(part.text for part in parts_of([STREAM]) if part.is_data)
        for count in (1, 2, 5, 40, len(STREAM)):
            for _ in range(100):
                pieces = cut(STREAM, chance.sample(range(len(STREAM)), min(count, len(STREAM) - 1)))
                parts = list(parts_of(pieces))
                self.assertEqual(b"".join(part.text for part in parts), STREAM)
                self.assertEqual(b"".join(part.text for part in parts if part.is_data), whole_data)
                self.assertEqual(objects_in(pieces), 5)

    def test_what_is_left(self) -> None:
        scanner = Scanner()
        self.assertEqual(scanner.feed(b"blo"), [])
        self.assertEqual(scanner.rest(), b"blo")
        self.assertEqual([part.text for part in scanner.feed(b"b\nd")], [b"blob\n"])


class Places(unittest.TestCase):
    def test_each_byte(self) -> None:
        chance = random.Random(2)
        for byte in range(1, len(STREAM) + 1):
            place = place_of([STREAM], byte)
            self.assertEqual((place.byte, place.line), (byte, STREAM.count(b"\n", 0, byte - 1) + 1))
            pieces = cut(STREAM, chance.sample(range(len(STREAM)), 6))
            self.assertEqual(place_of(pieces, byte), place)

    def test_lines_and_commands(self) -> None:
        for line, text, command, command_line in ((b"mark :1", b"mark :1", b"blob", 2), (b"M 1 2", b"M 1 2", b"commit refs/heads/x", 7),
                                                  (b"foo", b"data <<END", b"commit refs/heads/x", 7), (b"last", b"last", b"blob", 19)):
            place = place_of([STREAM], STREAM.rindex(line) + 1)
            self.assertEqual((place.text, place.command, place.command_line), (text, command, command_line))

    def test_the_end(self) -> None:
        self.assertEqual(place_of([STREAM], 10_000).byte, len(STREAM))
        self.assertEqual(place_of([], 0).line, 1)


class Exports(unittest.TestCase):
    def test_tags_that_are_told_again(self) -> None:
        zeros = b"\nfrom " + b"0" * 40 + b"\n\n"
        tag = b"tag v\nfrom :1\ndata 22\ntag v\nreset refs/tags/v\n\n"
        end = b"reset refs/tags/v\nfrom :1\n\nreset refs/tags/w\nfrom :1\n\n"
        export = tag + b"checkpoint\n" + tag + end
        wanted = tag + b"checkpoint\nreset refs/tags/v" + zeros + tag + b"reset refs/tags/v" + zeros + end
        for size in (1, 5, 1000):
            pieces = [export[at : at + size] for at in range(0, len(export), size)]
            self.assertEqual(b"".join(for_git(pieces)), wanted)

    def test_heads(self) -> None:
        self.assertEqual(head_of(b"feature force\noption gitpool head refs/heads/x\nblob\n"), b"refs/heads/x")
        self.assertIsNone(head_of(b"feature force\nblob\n"))


if __name__ == "__main__":
    unittest.main()
