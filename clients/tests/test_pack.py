"""Packs, read by Python's zlib, and by git."""
import hashlib
import os
import shutil
import subprocess
import tempfile
import unittest
import zlib
from typing import Callable, List, Tuple

from gitpool import Fault, Listed, Listing, Service, ServiceError
from gitpool_fetch import Fetch
from gitpool_git import Repository
from gitpool_replies import entry_size

KINDS = {1: b"commit", 2: b"tree", 3: b"blob", 4: b"tag"}
SIZES = (0, 1, 15, 16, 2_047, 2_048, 65_534, 65_535, 65_536, 131_070, 131_071, 3_000_000)


def read_entry(text: bytes) -> Tuple[int, bytes, bytes]:
    """The kind and the contents of the first entry, and what stands after it."""
    at, kind = 1, text[0] >> 4 & 7
    while text[at - 1] & 0x80:
        at += 1
    inflater = zlib.decompressobj()
    contents = inflater.decompress(text[at:])
    return kind, contents, inflater.unused_data


def stream_of(blobs: List[bytes]) -> bytes:
    """A stream with a commit that has these blobs."""
    parts = [b"blob\nmark :%d\ndata %d\n%b\n" % (place + 1, len(it), it) for place, it in enumerate(blobs)]
    files = [b"M 644 :%d f%d\n" % (place + 1, place) for place in range(len(blobs))]
    return b"".join(parts) + b"commit refs/heads/main\ncommitter A <a@b> 1 +0000\ndata 2\nm\n" + b"".join(files)


class Listings(unittest.TestCase):
    def test_values(self) -> None:
        objects = [Listed(bytes([it]) * 20, it % 4 + 1, it << 33) for it in range(5)]
        listing = Listing.of(objects[:2]) + Listing.of(objects[2:])
        self.assertEqual((len(listing), list(listing), listing.names()), (5, objects, [it.name for it in objects]))
        self.assertEqual(len(Listing()), 0)
        with self.assertRaises(ValueError):
            Listing(b"x" * 28)

    def test_parts(self) -> None:
        objects = [Listed(bytes([it]) * 20, 3, size) for it, size in enumerate((10, 10, 5_000, 10, 10, 10))]
        small = entry_size(10)
        parts = list(Listing.of(objects).parts(2 * small, 1_000))
        self.assertEqual([total for total, _ in parts], [2 * small, entry_size(5_000), 2 * small, small])
        self.assertEqual(b"".join(names for _, names in parts), b"".join(it.name for it in objects))
        self.assertEqual([len(names) for _, names in Listing.of(objects).parts(1 << 20, 50)], [40, 40, 40])
        self.assertEqual(list(Listing().parts(1, 20)), [])


class Packs(unittest.TestCase):
    def setUp(self) -> None:
        self.folder = tempfile.mkdtemp()
        self.addCleanup(shutil.rmtree, self.folder)
        self.service = Service()
        self.addCleanup(self.service.kill)
        self.blobs = [bytes([place]) * size for place, size in enumerate(SIZES)]
        self.service.import_stream("t", [stream_of(self.blobs)])
        self.tip = self.service.resolve("t", "main").encode()

    def test_sizes_of_entries(self) -> None:
        listing = self.service.missing("t", [self.tip])
        self.assertEqual(len(listing), len(SIZES) + 2)
        for it in listing:
            entry = b"".join(self.service.entries("t", Listing.of([it])))
            self.assertEqual(len(entry), entry_size(it.size))
            kind, contents, rest = read_entry(entry)
            self.assertEqual((kind, len(contents), rest), (it.kind, it.size, b""))
            self.assertEqual(hashlib.sha1(b"%b %d\0%b" % (KINDS[kind], len(contents), contents)).digest(), it.name)

    def test_pieces(self) -> None:
        listing = self.service.missing("t", [self.tip])
        pieces = list(self.service.entries("t", listing))
        self.assertLessEqual(max(map(len, pieces)), 1 << 20)
        text, found = b"".join(pieces), []
        while text:
            kind, contents, text = read_entry(text)
            found.append(contents)
        self.assertEqual(len(found), len(listing))
        self.assertTrue(set(self.blobs) <= set(found))

    def test_haves_and_refusals(self) -> None:
        tree = self.service.resolve("t", "main^{tree}").encode()
        self.assertEqual([it.kind for it in self.service.missing("t", [self.tip], [tree, b"ab" * 20])], [1])
        self.assertEqual(len(self.service.missing("t", [self.tip], [self.tip])), 0)
        asks: List[Callable[[], object]] = [
            lambda: self.service.missing("t", [self.tip, b"ab" * 20]), lambda: self.service.missing("other", [self.tip]),
            lambda: list(self.service.entries("t", Listing.of([Listed(b"\xab" * 20, 3, 1)])))]
        for ask in asks:
            with self.assertRaises(Fault) as refused:
                ask()
            self.assertEqual(refused.exception.number, 16)

    def test_as_many_names_as_a_frame_has(self) -> None:
        most = [b"ab" * 20] * 838_859
        self.assertEqual(len(self.service.missing("t", [self.tip], most)), len(SIZES) + 2)
        with self.assertRaises(Fault) as refused:
            self.service.missing("t", [self.tip], [*most, self.tip])
        self.assertEqual(refused.exception.number, 25)

    def test_git_takes_it(self) -> None:
        for is_near in (True, False):
            path = os.path.join(self.folder, str(is_near))
            subprocess.run(["git", "init", "-q", "--bare", path], check=True)
            local = Repository(path)
            self.addCleanup(local.close)
            fetch = Fetch(self.service, b"t", local, is_near=is_near)
            kept = fetch.run([self.tip])
            self.assertTrue(kept is not None and fetch.began_empty)
            listed = subprocess.run(["git", "-C", path, "rev-list", "--objects", self.tip.decode()], check=True, capture_output=True).stdout
            self.assertEqual(len(listed.splitlines()), len(SIZES) + 2)

    def test_entries_of_another_length(self) -> None:
        (blob,) = [it for it in self.service.missing("t", [self.tip]) if it.size == 16]
        with self.assertRaises((Fault, ServiceError)):
            list(self.service.entries("t", Listing.of([blob._replace(size=15)])))


if __name__ == "__main__":
    unittest.main()
