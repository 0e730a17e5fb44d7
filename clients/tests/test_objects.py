"""What of Git's objects a tenant can keep."""
import json
import os
import unittest

from gitpool_objects import Refusal, check_path, check_ref, check_tree, quote, read_commit, read_tag

NAME = b"1" * 40
PEOPLE = b"author A <a@b> 1 +0000\ncommitter B <> 2 -0130\n"
TREE = b"tree " + b"2" * 40 + b"\n"


class Corpus(unittest.TestCase):
    """objects.json has the objects that a tenant can keep or not, one a line; the server's tests read it too."""

    JUDGES = {"commit": read_commit, "tag": read_tag, "tree": check_tree, "ref": lambda name, contents: check_ref(contents)}

    def test_each_is_kept_or_refused(self) -> None:
        with open(os.path.join(os.path.dirname(os.path.realpath(__file__)), "objects.json"), encoding="ascii") as file:
            samples = json.load(file)
        judged = [sample for sample in samples if sample["kind"] in self.JUDGES]
        self.assertGreater(len(judged), 250)
        for sample in judged:
            contents = sample["contents"].encode("latin-1")
            said = None
            try:
                self.JUDGES[sample["kind"]](NAME, contents)
            except Refusal as refusal:
                said = str(refusal)
            self.assertEqual(said is None, "refused" not in sample, (sample, said))
            self.assertIn(sample.get("refused", ""), said or "", sample)


class Commits(unittest.TestCase):
    def test_a_commit(self) -> None:
        commit = read_commit(NAME, TREE + b"parent " + b"3" * 40 + b"\n" + PEOPLE + b"encoding x y\n\nMessage\n\0")
        self.assertEqual(commit.tree, b"2" * 40)
        self.assertEqual(commit.parents, [b"3" * 40])
        self.assertEqual(commit.lines, [b"author A <a@b> 1 +0000", b"committer B <> 2 -0130", b"encoding x y"])
        self.assertEqual(commit.message, b"Message\n\0")

    def test_idents(self) -> None:
        for ident in (b" <a@b> 1 +0000", b"A <> 18446744073709551615 -9999", b"\xff\0 <\xfe> 0 +0000"):
            read_commit(NAME, TREE + b"author " + ident + b"\ncommitter " + ident + b"\n\n")

    def refused(self, contents: bytes, says: str) -> None:
        with self.assertRaises(Refusal) as caught:
            read_commit(NAME, contents)
        self.assertIn(says, str(caught.exception))

    def test_what_is_refused(self) -> None:
        for ident in (b"<a@b> 1 +0000", b"A<a@b> 1 +0000", b"A <a@b> 18446744073709551616 +0000", b"A <a@b> 1 +000", b"A <a@b>  1 +0000",
                      b"A <a@b> 1 0000", b"", b"A <a@b> 1 +0000 ", b"A <a>b> 1 +0000"):
            self.refused(TREE + b"author " + ident + b"\ncommitter A <a@b> 1 +0000\n\n", "author line")
        self.refused(TREE + PEOPLE + b"gpgsig x\n y\n\n", "a signature (gpgsig)")
        self.refused(TREE + PEOPLE + b"mergetag object x\n\n", "a merged tag")
        self.refused(TREE + PEOPLE + b"other x\n\n", "a header `other`")
        self.refused(TREE + PEOPLE, "malformed headers")
        self.refused(PEOPLE + b"\n", "malformed headers")
        self.refused(TREE + TREE + PEOPLE + b"\n", "malformed headers")
        self.refused(TREE.upper() + PEOPLE + b"\n", "")
        self.refused(TREE + (b"parent " + b"3" * 40 + b"\n") * 1025 + PEOPLE + b"\n", "parents")
        self.refused(b"", "malformed headers")


class Tags(unittest.TestCase):
    HEAD = b"object " + b"4" * 40 + b"\ntype commit\ntag v1\n"

    def test_tags(self) -> None:
        tag = read_tag(NAME, self.HEAD + b"tagger A <a@b> 1 +0000\n\nMessage")
        self.assertEqual((tag.target, tag.kind, tag.name, tag.tagger, tag.message),
                         (b"4" * 40, b"commit", b"v1", b"tagger A <a@b> 1 +0000", b"Message"))
        self.assertIsNone(read_tag(NAME, self.HEAD + b"\n").tagger)

    def test_what_is_refused(self) -> None:
        for contents, says in (
            (self.HEAD.replace(b"commit", b"tree") + b"\n", "tag v1 is of a tree"), (self.HEAD, "malformed headers"),
            (self.HEAD.replace(b"v1", b"v..1") + b"\n", "no name for a ref"), (self.HEAD + b"tagger A\n\n", "tagger line"),
            (self.HEAD + b"gpgsig x\n\n", "signature"), (self.HEAD.replace(b"commit", b"thing") + b"\n", "malformed"),
        ):
            with self.assertRaises(Refusal) as caught:
                read_tag(NAME, contents)
            self.assertIn(says, str(caught.exception))


class Trees(unittest.TestCase):
    @staticmethod
    def entry(mode: bytes, path: bytes, byte: int = 1) -> bytes:
        return mode + b" " + path + b"\0" + bytes((byte,)) * 20

    def test_trees(self) -> None:
        check_tree(NAME, b"")
        # A directory stands as if its name ended in a slash.
        check_tree(NAME, self.entry(b"100644", b"a.c") + self.entry(b"40000", b"a") + self.entry(b"120000", b"a0") + self.entry(b"160000", b"b")
                   + self.entry(b"100755", b"b\n\xff"))

    def test_what_is_refused(self) -> None:
        one, two = self.entry(b"100644", b"a"), self.entry(b"100644", b"b")
        empty = b"40000 d\0" + bytes.fromhex("4b825dc642cb6eb9a060e54bf8d69288fbee4904")
        for contents in (two + one, one + one, one + self.entry(b"40000", b"a"), self.entry(b"100664", b"a"), self.entry(b"040000", b"a"),
                         self.entry(b"100644", b"."), self.entry(b"100644", b".."), self.entry(b"100644", b"a/b"), empty, one[:-1], one + b"x",
                         b"100644 \0" + b"x" * 20, self.entry(b"40000", b"a") + self.entry(b"100644", b"a.c")):
            with self.assertRaises(Refusal):
                check_tree(NAME, contents)


class Names(unittest.TestCase):
    def test_refs(self) -> None:
        for ref in (b"refs/heads/main", b"refs/x", b"refs/heads/\xff{}", b"refs/heads/a.lockb", b"refs/heads/@", b"refs/" + b"a" * 1019):
            check_ref(ref)
        for ref in (b"HEAD", b"refs/", b"refs/a..b", b"refs/a b", b"refs/a~", b"refs/a@{1}", b"refs/.a", b"refs/a/.b", b"refs/a.lock",
                    b"refs/a.lock/b", b"refs/a//b", b"refs/a/", b"refs/a.", b"refs/namespaces/a", b"refs/a\x7f", b"refs/a[", b"refs/a\\",
                    b"refs/" + b"a" * 1020, b"refs/a*", b"refs/a?", b"refs/a:", b"refs/a^"):
            with self.assertRaises(Refusal, msg=ref):
                check_ref(ref)

    def test_paths(self) -> None:
        check_path(b"a" * 16_383)
        check_path(b"/".join([b"a"] * 256))
        for path in (b"a" * 16_384, b"/".join([b"a"] * 257)):
            with self.assertRaises(Refusal):
                check_path(path)

    def test_quotes(self) -> None:
        self.assertEqual(quote(b'a "b" \\ \xff'), b'a "b" \\ \xff')
        self.assertEqual(quote(b'"a\nb\\'), b'"\\"a\\nb\\\\"')


if __name__ == "__main__":
    unittest.main()
