"""A service over the program that GITPOOL names."""
import contextlib
import fcntl
import hashlib
import os
import shutil
import signal
import tempfile
import unittest
from typing import Callable, Iterator, List, Tuple

import gitpool
from gitpool import Fault, Kind, PoolBusy, Service, ServiceError, Step

BLOB = b"blob\nmark :1\ndata 6\nhello\n\nget-mark :1\n"
NAME = "ce013625030ba8dba906f756967f9e9ca394464a"
COMMIT = b"commit refs/heads/main\ncommitter A <a@b> 1 +0000\ndata 2\nm\nM 644 inline a/b\ndata 2\nx\n"


class OverAPool(unittest.TestCase):
    def setUp(self) -> None:
        self.folder = tempfile.mkdtemp()
        self.addCleanup(shutil.rmtree, self.folder)
        self.pool = os.path.join(self.folder, "all.pool")

    def test_pieces_of_any_size(self) -> None:
        with Service() as service:
            for size in (1, 2, 7, len(BLOB)):
                service.open("t")
                told = [service.feed("t", BLOB[at : at + size]) for at in range(0, len(BLOB), size)]
                self.assertEqual(b"".join(told) + service.end("t"), NAME.encode() + b"\n")

    def test_replies_come_while_a_stream_runs(self) -> None:
        with Service() as service:
            service.open(b"t")
            self.assertEqual(service.feed(b"t", b"progress one\nprog"), b"progress one\n")
            self.assertEqual(service.feed(b"t", b"ress two\n"), b"progress two\n")
            self.assertEqual(service.end(b"t"), b"")

    def test_an_import_is_saved_at_the_close(self) -> None:
        with Service(self.pool) as service:
            service.import_stream("acme/site", [BLOB, COMMIT])
        with Service(self.pool) as service:
            (ref,) = service.refs("acme/site")
            self.assertEqual(ref.name, b"refs/heads/main")
            self.assertEqual(service.head("acme/site"), b"refs/heads/main")
            self.assertEqual(service.resolve("acme/site", "main"), ref.target)
            self.assertEqual([it.subject for it in service.log("acme/site", "main")], [b"m"])
            (entry,) = service.tree("acme/site", "main:a")
            self.assertEqual((entry.name, entry.mode, entry.kind), (b"b", 0o100644, "blob"))
            self.assertEqual(service.object("acme/site", entry.object).contents, b"x\n")
            self.assertIn(b"reset refs/heads/main\n", service.export("acme/site"))
            self.assertEqual(b"".join(service.ask_in_pieces("acme/site", "export", 7)), service.export("acme/site"))

    def test_nothing_is_saved_by_a_kill_or_after_an_exception(self) -> None:
        service = Service(self.pool)
        service.import_stream("t", [BLOB])
        service.kill()
        self.assertEqual(os.listdir(self.folder), [])
        with self.assertRaises(KeyError), Service(self.pool) as service:
            service.import_stream("t", [BLOB])
            raise KeyError
        self.assertEqual(os.listdir(self.folder), [])

    def test_faults(self) -> None:
        with Service(self.pool) as service:
            calls: List[Tuple[int, Callable[[], object]]] = [
                (30, lambda: service.feed("t", b"")), (30, lambda: service.end("t")), (32, lambda: service.open("a//b")),
                (16, lambda: service.ask("t", "rev-parse main")), (40, lambda: service.ask("t", "what")),
                (41, lambda: service.ask("t", "cat")), (2, lambda: service.import_stream("t", [b"what\n"])),
                (6, lambda: service.import_stream("t", [b"blob\ndata 5\n"])),
            ]
            for number, call in calls:
                with self.assertRaises(Fault) as caught:
                    call()
                self.assertEqual(caught.exception.number, number)
            # The refused streams were closed.
            service.open("t")
            with self.assertRaises(Fault) as caught:
                service.open("t")
            self.assertEqual(caught.exception.number, 31)
            service.restart()
            service.open("t")

    def test_many_questions(self) -> None:
        with Service() as service:
            service.import_stream("t", [BLOB])
            asked = [b"rev-parse " + NAME.encode(), b"what"] * 3000
            answers = list(service.ask_many("t", asked))
            self.assertEqual([it.status for it in answers], [0, 1] * 3000)
            self.assertEqual(list(service.objects("t", [NAME.encode()] * 2000)), [(b"blob", b"hello\n")] * 2000)
            self.assertEqual(list(service.ask_many("t", [])), [])
            with self.assertRaises(Fault):
                list(service.objects("t", [b"1" * 40]))

    def test_pipes_of_a_page(self) -> None:
        """A user who has many pipes gets small ones. Neither side waits for the other then."""
        with Service() as service:
            stream = b"".join(b"blob\ndata 9000\n" + b"%09000d" % number + b"\n" for number in range(500))
            service.import_stream("t", [stream + b"commit refs/heads/main\ncommitter A <a@b> 1 +0000\ndata 0\n"])
            for way in (service._in, service._out):
                fcntl.fcntl(way.fileno(), 1031, 4096)  # F_SETPIPE_SZ
            names = [hashlib.sha1(b"blob 9000\0%09000d" % number).hexdigest().encode() for number in range(500)]
            with self.ended_in(60):
                self.assertEqual([contents[-4:] for _, contents in service.objects("t", names)], [b"%04d" % it for it in range(500)])
                self.assertEqual([it.status for it in service.ask_many("t", [b"cat " + name for name in names])], [0] * 500)
                listing = service.missing("t", names)
                self.assertEqual(len(listing), 500)
                self.assertGreater(sum(len(it) for it in service.entries("t", listing)), 500 * 9000)

    @staticmethod
    @contextlib.contextmanager
    def ended_in(seconds: int) -> Iterator[None]:
        """Raises AssertionError where what is done takes longer."""
        def stop(_number: int, _frame: object) -> None:
            raise AssertionError(f"this takes longer than {seconds} seconds")

        before = signal.signal(signal.SIGALRM, stop)
        signal.alarm(seconds)
        try:
            yield
        finally:
            signal.alarm(0)
            signal.signal(signal.SIGALRM, before)

    def test_a_service_that_has_ended(self) -> None:
        service = Service()
        service.close()
        for ask in (lambda: service.ask_many("t", [b"refs"]), lambda: service.objects("t", [NAME.encode()])):
            with self.assertRaises(ServiceError) as caught:
                list(ask())
            self.assertIn("closed", str(caught.exception))

    def test_told_while_importing(self) -> None:
        with Service() as service:
            calls: List[Tuple[int, bytes]] = []
            service.import_stream("t", [BLOB], 20, lambda fed, reply: calls.append((fed, reply)))
            self.assertEqual([fed for fed, _ in calls], [20, 39])
            self.assertEqual(calls[-1][1], NAME.encode() + b"\n")

    def test_one_run_at_a_time(self) -> None:
        with Service(self.pool) as service:
            service.import_stream("t", [BLOB])
            with self.assertRaises(PoolBusy) as caught:
                with Service(self.pool) as second:
                    second.head("t")
            self.assertEqual(caught.exception.status, 4)
            self.assertIn("try again", str(caught.exception))
        with Service(self.pool) as service, Service(self.pool, read_only=True) as reader:
            service.import_stream("t", [COMMIT])
            self.assertEqual(reader.refs("t"), [])
            self.assertEqual(len(service.refs("t")), 1)

    def test_a_reader_changes_nothing(self) -> None:
        with Service(self.pool) as service:
            service.import_stream("t", [BLOB])
        with open(self.pool, "rb") as file:
            before = file.read()
        with Service(self.pool + "typo", read_only=True) as reader:
            self.assertEqual(reader.refs("t"), [])
        with Service(self.pool, read_only=True) as reader:
            reader.import_stream("t", [COMMIT])
        with open(self.pool, "rb") as file:
            self.assertEqual(file.read(), before)
        self.assertEqual(os.listdir(self.folder), ["all.pool"])

    def test_why_a_service_ends(self) -> None:
        with open(self.pool, "wb") as file:
            file.write(b"gitpool?")
        for pool, status, number, says in (
            (self.pool, 3, 60, "no pool file"), (self.folder, 4, 68, "folder"), (os.path.join(self.folder, "no", "pool"), 4, 68, "not there"),
        ):
            with self.assertRaises(ServiceError) as caught:
                with Service(pool) as service:
                    service.head("t")
            self.assertEqual((caught.exception.status, caught.exception.number), (status, number))
            self.assertIn(says, str(caught.exception))

    def test_a_program_that_writes_no_answers(self) -> None:
        with self.assertRaises(ServiceError) as caught:
            Service(self.pool, os.path.join(self.folder, "none"))
        self.assertEqual(caught.exception.status, 127)
        for words in (["cat"], ["sh", "-c", "printf too-short"], ["true"], ["sh", "-c", "exit 3"]):
            with self.assertRaises(ServiceError):
                with Service(command=words) as service:
                    service.step(Step(Kind.ASK, b"t", b"rev-parse " + b"1" * 40))
        with self.assertRaises(ServiceError) as caught:
            with Service(command=["sh", "-c", "echo went wrong >&2; exit 9"]) as service:
                service.head("t")
        self.assertEqual((caught.exception.status, str(caught.exception)), (9, "went wrong"))

    def test_requests_of_the_operator(self) -> None:
        with Service(self.pool) as service:
            service.import_stream("a", [BLOB, COMMIT])
            service.copy("a", "b")
            service.compact("a")
            self.assertEqual([(it.tenant, it.objects, it.own, it.refs) for it in service.sizes()], [(b"a", 4, 0, 1), (b"b", 4, 0, 1)])
            service.remove("a")
            service.open("b")
            service.feed("b", b"reset refs/heads/new\nfrom refs/heads/main^0\n\ncheckpoint\n")
            calls: List[Tuple[int, Callable[[], object]]] = [
                (31, lambda: service.remove("b")), (31, lambda: service.compact("b")), (31, lambda: service.copy("a", "b")),
                (30, lambda: service.abandon("a")), (32, lambda: service.remove("a//b")), (32, lambda: service.compact("")),
            ]
            for number, call in calls:
                with self.assertRaises(Fault) as caught:
                    call()
                self.assertEqual(caught.exception.number, number)
            service.save()
            with Service(self.pool, read_only=True) as saved:
                self.assertEqual((len(saved.refs("a")), len(saved.refs("b"))), (0, 2))
            service.abandon("b")
            with self.assertRaises(Fault) as caught:
                service.copy("b", "b")
            self.assertEqual(caught.exception.number, 33)
        with Service(self.pool) as service:
            self.assertEqual([it.tenant for it in service.sizes()], [b"b"])

    def test_a_save_of_what_was_there_when_a_stream_was_opened(self) -> None:
        with Service(self.pool) as service:
            service.import_stream("b", [BLOB, COMMIT])
            service.open("b")
            service.feed("b", b"reset refs/heads/new\nfrom refs/heads/main^0\n\ncheckpoint\n")
            for as_opened, refs in ((True, 1), (False, 2)):
                service.save(as_opened)
                with Service(self.pool, read_only=True) as saved:
                    self.assertEqual(len(saved.refs("b")), refs)

    def test_the_pool_of_a_stopped_server(self) -> None:
        os.mkdir(os.path.join(self.folder, "journal"))
        pool = os.path.join(self.folder, "pool")
        with self.assertRaises(ServiceError) as caught:
            Service(pool)
        self.assertIn("belongs to a server", str(caught.exception))
        with Service(pool, read_only=True) as service:
            self.assertEqual(service.refs("t"), [])

    def test_a_closed_service(self) -> None:
        service = Service(self.pool)
        service.close()
        service.close()
        service.kill()
        with self.assertRaises(ServiceError):
            service.head("t")


class Elsewhere(unittest.TestCase):
    """Servers that are reached over ssh, which the library for C does not do."""

    def setUp(self) -> None:
        self.folder = tempfile.mkdtemp()
        self.addCleanup(shutil.rmtree, self.folder)

    def test_addresses_of_servers_elsewhere(self) -> None:
        for text, told in (("ssh://a@h/t", ("a@h", None, "t")), ("ssh://h:22/acme/site.git", ("h", "22", "acme/site")), ("all.pool", None),
                           ("./ssh://h/t", None)):
            self.assertEqual(gitpool.remote_of(text), told)
        for text in ("ssh://h", "ssh://h/", "ssh:///t", "ssh://h/a b", "ssh://h:x/t", "ssh://h/t;id"):
            with self.assertRaises(gitpool.ServiceError):
                gitpool.remote_of(text)
        with self.assertRaises(gitpool.ServiceError):
            gitpool.Service("ssh://h/t", own_run=True)

    def test_a_server_elsewhere(self) -> None:
        """The command that ssh is given, and what it says at its end."""
        script = os.path.join(self.folder, "ssh")
        with open(script, "w", encoding="ascii") as file:
            file.write('#!/bin/sh\necho "$@" >&2\nexit 255\n')
        os.chmod(script, 0o700)
        os.environ["GIT_SSH"] = script
        self.addCleanup(os.environ.pop, "GIT_SSH")
        service = gitpool.Service("ssh://a@h:22/acme/site")
        with self.assertRaises(gitpool.ServiceError) as raised:
            service.refs("acme/site")
        self.assertEqual((str(raised.exception), raised.exception.status), ("-p 22 -- a@h frames acme/site", 255))


if __name__ == "__main__":
    unittest.main()
