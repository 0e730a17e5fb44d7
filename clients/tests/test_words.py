"""Faults in words, progress, addresses, and changes between trees."""
import io
import os
import re
import unittest

from gitpool_faults import EXPLANATIONS, explain, sentences
from gitpool_git import Repository
from gitpool_push import changes_of, commit_command, reset_command, tag_command
from gitpool_objects import Commit, Tag
from gitpool_remote import Address, UsageError, read_address, ssh_words
from gitpool_terminal import Bar, size_of, time_of

TOP = os.path.join(os.path.dirname(os.path.realpath(__file__)), "..", "..")


class Faults(unittest.TestCase):
    def test_each_number_of_the_document(self) -> None:
        with open(os.path.join(TOP, "docs", "FAULTS.md"), encoding="utf-8") as page:
            rows = re.findall(r"^\| ([0-9, ]+) \|", page.read(), re.M)
        numbers = {int(number) for row in rows for number in row.split(",")}
        self.assertGreater(len(numbers), 40)
        self.assertEqual(numbers, set(EXPLANATIONS))

    def test_words(self) -> None:
        self.assertEqual(sentences(23).splitlines()[0], "fault 23: bad mode")
        self.assertEqual(len(sentences(23).splitlines()), 3)
        self.assertEqual(explain(1000).meaning, "unknown fault")


class Terminals(unittest.TestCase):
    def test_sizes_and_times(self) -> None:
        self.assertEqual([size_of(it) for it in (0, 1023, 1024, 5 << 20, 3 << 30)], ["0 bytes", "1023 bytes", "1.00 KiB", "5.00 MiB", "3.00 GiB"])
        self.assertEqual([time_of(it) for it in (0, 59.6, 61, 3661)], ["0:00", "1:00", "1:01", "1:01:01"])

    def test_bars(self) -> None:
        bar = Bar(1000, io.StringIO())
        self.assertEqual(bar.line(250, 7, 2), "Importing:  25% [#####               ] 250 bytes | 125 bytes/s | 7 objects | 0:06 left")
        self.assertEqual(bar.line(1000, 9, 2), "Importing: 100% [####################] 1000 bytes | 500 bytes/s | 9 objects")
        self.assertEqual(Bar(None, io.StringIO()).line(2048, 1, 1), "Importing: 2.00 KiB | 2.00 KiB/s | 1 objects")
        self.assertIn("0 bytes/s", bar.line(0, 0, 0))


class Addresses(unittest.TestCase):
    def test_addresses(self) -> None:
        self.assertEqual(read_address("/srv/all.pool#a/b"), Address("/srv/all.pool", b"a/b"))
        self.assertEqual(read_address("odd#name.pool#t"), Address("odd#name.pool", b"t"))
        self.assertEqual(read_address("ssh://me@host:22/srv/p#t"), Address("/srv/p", b"t", "me@host", "22"))
        self.assertEqual(read_address("ssh://host"), Address("", b"", "host", None))
        self.assertEqual(read_address("ssh://me@[2001:db8::1]:22/p#t"), Address("/p", b"t", "me@2001:db8::1", "22"))
        self.assertEqual(read_address("ssh://[::1]"), Address("", b"", "::1", None))
        for text in ("ssh:/host/p#t", "ssh://host:port/p#t", "ssh://::1/p#t", "ssh://me@[::1/p#t", "SSH://host#t", "https://host/p#t"):
            with self.assertRaises(UsageError) as caught:
                read_address(text)
            self.assertIn("is no address", str(caught.exception))
        for text in ("/srv/all.pool", "#t", "/srv/all.pool#", ""):
            with self.assertRaises(UsageError):
                read_address(text)

    def test_ssh(self) -> None:
        kept = os.environ.pop("GIT_SSH_COMMAND", None)
        os.environ["GIT_SSH_COMMAND"] = "ssh -v"
        try:
            words = ssh_words(Repository(), read_address("ssh://me@host:22/srv/my pool#t"), "push")
            self.assertEqual(words[:2], ["sh", "-c"])
            self.assertEqual(words[2], 'ssh -v "$@"')
            self.assertEqual(words[4:], ["-p", "22", "--", "me@host", "gitpool-shell --pool '/srv/my pool' t push"])
        finally:
            os.environ.pop("GIT_SSH_COMMAND")
            if kept is not None:
                os.environ["GIT_SSH_COMMAND"] = kept


class Commands(unittest.TestCase):
    def changes(self, out: bytes) -> "list[list[bytes]]":
        return list(changes_of(io.BytesIO(out)))

    def test_changes(self) -> None:
        pair, one, two, none = b"1" * 40 + b" " + b"2" * 40 + b"\n", b"3" * 40, b"4" * 40, b"0" * 40
        record = b":100644 100755 " + one + b" " + two + b" M\0a\nb\0"
        gone = b":100644 000000 " + one + b" " + none + b" D\0x\0"
        self.assertEqual(self.changes(b""), [])
        self.assertEqual(self.changes(pair), [[]])
        self.assertEqual(self.changes(pair + pair + record + gone + pair + gone + pair),
                         [[], [b"D x\n", b"M 100755 " + two + b' "a\\nb"\n'], [b"D x\n"], []])

    def test_commands(self) -> None:
        self.assertEqual(reset_command(b"refs/x", None), b"reset refs/x\nfrom " + b"0" * 40 + b"\n\n")
        tag = Tag(b"1" * 40, b"commit", b"v", b"tagger A <a> 1 +0000", b"m\n")
        self.assertEqual(tag_command(tag, b"mark :1\n"), b"tag v\nmark :1\nfrom " + b"1" * 40 + b"\ntagger A <a> 1 +0000\ndata 2\nm\n\n")
        lines = [b"author A <a> 1 +0000", b"committer A <a> 1 +0000"]
        root = commit_command(Commit(b"", [], lines, b"m"), b"refs/s", [b"D x\n"])
        self.assertTrue(root.startswith(b"reset refs/s\n\ncommit refs/s\nmark :1\nauthor"))
        self.assertTrue(root.endswith(b"data 1\nm\nD x\n\n"))
        merge = commit_command(Commit(b"", [b"1" * 40, b"2" * 40], lines, b""), b"refs/s", [])
        self.assertTrue(merge.endswith(b"data 0\n\nfrom " + b"1" * 40 + b"\nmerge " + b"2" * 40 + b"\n\n"))




if __name__ == "__main__":
    unittest.main()
