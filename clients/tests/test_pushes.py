"""A push without what git and the helper ask before it: what the tenant itself decides."""
import os
import shutil
import subprocess
import tempfile
import unittest
from typing import Dict
from unittest import mock

from gitpool import Service
from gitpool_git import GitError, Repository
from gitpool_objects import Commit, Refusal, read_commit
from gitpool_push import Push, Update

TENANT = b"t"


class OverARepository(unittest.TestCase):
    def setUp(self) -> None:
        self.folder = tempfile.mkdtemp()
        self.addCleanup(shutil.rmtree, self.folder)
        subprocess.run(["git", "init", "-q", "--bare", self.folder], check=True)
        stream = b"".join(b"commit refs/heads/main\ncommitter A <a@b> %d +0000\ndata 2\nm\nM 644 inline f\ndata 1\n%d\n" % (it, it)
                          for it in range(3))
        subprocess.run(["git", "-C", self.folder, "fast-import", "--quiet"], input=stream, check=True)
        self.local = Repository(self.folder)
        self.addCleanup(self.local.close)

    def name(self, expression: str) -> bytes:
        return self.local.run("rev-parse", expression).strip()

    def push(self, service: Service, *updates: Update) -> "set[bytes]":
        refs: Dict[bytes, bytes] = {ref.name: ref.target.encode() for ref in service.refs(TENANT)}
        push = Push(service, TENANT, self.local, refs, service.head(TENANT))
        judged, refused = push.judge(updates)
        self.assertEqual(refused, {})
        push.collect(judged)
        return push.send(judged)

    def test_a_ref_that_the_tenant_keeps(self) -> None:
        with Service() as service:
            self.assertEqual(self.push(service, Update(b"main", b"refs/heads/main", False)), set())
            kept = self.push(service, Update(b"main~1", b"refs/heads/main", False), Update(b"main~1", b"refs/heads/other", False))
            self.assertEqual(kept, {b"refs/heads/main"})
            self.assertEqual({ref.name: ref.target.encode() for ref in service.refs(TENANT)},
                             {b"refs/heads/main": self.name("main"), b"refs/heads/other": self.name("main~1")})
            self.assertEqual(self.push(service, Update(b"main~1", b"refs/heads/main", True)), set())
            self.assertEqual(service.resolve(TENANT, "main").encode(), self.name("main~1"))

    def test_no_scratch_branch_takes_a_name_that_is_there(self) -> None:
        with Service() as service:
            self.push(service, Update(b"main~2", b"refs/gitpool/push", False))
            self.push(service, Update(b"main", b"refs/heads/main", False))
            self.assertEqual([ref.name for ref in service.refs(TENANT)], [b"refs/gitpool/push", b"refs/heads/main"])
            self.assertEqual(service.refs(TENANT)[0].target.encode(), self.name("main~2"))

    def test_another_name_is_noticed(self) -> None:
        """A commit that the judges would let through, and that comes to another name, ends the push before its refs."""
        raw = self.local.run("cat-file", "commit", "main").replace(b"author A <a@b>", b"author <a@b>")
        bad = self.local.run("hash-object", "-w", "--literally", "-t", "commit", "--stdin", data=raw).strip()

        def mended(name: bytes, contents: bytes) -> Commit:
            return read_commit(name, contents.replace(b"author <a@b>", b"author A <a@b>"))

        with Service() as service:
            self.push(service, Update(b"main", b"refs/heads/main", False))
            push = Push(service, TENANT, self.local, {b"refs/heads/main": self.name("main")}, b"refs/heads/main")
            judged, _ = push.judge([Update(bad, b"refs/heads/bad", False)])
            with self.assertRaises(Refusal):
                push.collect(judged)
            with mock.patch("gitpool_push.read_commit", mended):
                push = Push(service, TENANT, self.local, {b"refs/heads/main": self.name("main")}, b"refs/heads/main")
                push.collect(judged)
                with self.assertRaises(Refusal) as caught:
                    push.send(judged)
            self.assertIn("would come to another name", str(caught.exception))
            self.assertEqual([ref.name for ref in service.refs(TENANT)], [b"refs/heads/main"])

    def test_many_refs_need_no_process_each(self) -> None:
        names = [b"refs/heads/many%d" % it for it in range(1000)]
        self.local.run("update-ref", "--stdin", data=b"".join(b"create %b %b\n" % (name, self.name("main")) for name in names))
        with Service() as service:
            push = Push(service, TENANT, self.local, {}, b"")
            with mock.patch("gitpool_git.subprocess.run") as run:
                judged, refused = push.judge([Update(name, name, False) for name in names])
            self.assertEqual((run.call_count, len(judged), refused), (0, 1000, {}))
            self.assertEqual({it.target for it in judged}, {self.name("main")})
            with self.assertRaises(GitError):
                push.judge([Update(b"refs/heads/nothing", b"refs/heads/x", False)])

    def test_a_repository_as_git_has_it(self) -> None:
        self.assertEqual(self.local.object_format(), "sha1")
        self.assertTrue(self.local.has_objects())
        commits = self.local.commits_of(self.local.tips(), [], 10)
        self.assertEqual((len(commits), self.local.commits_of([self.name("main")], commits[1:], 10)), (3, commits[:1]))
        self.assertEqual((len(self.local.commits_of(commits[:1], [], 2)), self.local.is_shallow(), len(self.local.trees())), (2, False, 3))
        self.assertEqual(list(self.local.check([self.name("main"), b"1" * 40]))[1], None)
        found = list(self.local.contents([self.name("main:f")] * 1500))
        self.assertEqual(found, [(self.name("main:f"), b"blob", b"2")] * 1500)
        self.assertEqual(os.path.basename(self.local.git_path("objects/pack")), "pack")


if __name__ == "__main__":
    unittest.main()
