"""A service in this process. It passes the tests of the service over the program, with one import changed, and some of its own."""
import os
import shutil
import subprocess
import tempfile
import threading
import types
import unittest
from typing import List, Tuple, Type

import gitpool
import gitpool_library
from gitpool import Fault, ServiceError
from gitpool_library import Kind, PoolBusy, Service, Step

TOP = os.path.join(os.path.dirname(os.path.abspath(__file__)), "..", "..", "..")
BLOB = b"blob\nmark :1\ndata 6\nhello\n\nget-mark :1\n"

# What this module does not have: another program, its pipes, and the frame by which a save writes what a tenant had when its stream was opened.
OTHERS = {"test_a_program_that_writes_no_answers", "test_a_save_of_what_was_there_when_a_stream_was_opened", "test_pipes_of_a_page"}


def tests_of_clients() -> Type[unittest.TestCase]:
    """The tests of clients/tests/test_service.py, with the other import."""
    with open(os.path.join(TOP, "clients", "tests", "test_service.py"), encoding="utf-8") as file:
        before, changed, after = file.read().partition("from gitpool import ")
    assert changed
    module = types.ModuleType("test_service_by_the_library")
    exec(compile(before + "from gitpool_library import " + after, module.__name__, "exec"), module.__dict__)
    found: Type[unittest.TestCase] = module.__dict__["OverAPool"]
    assert issubclass(found, unittest.TestCase) and all(hasattr(found, name) for name in OTHERS)
    for name in OTHERS:
        delattr(found, name)
    return found


ByTheLibrary = tests_of_clients()


class ALibrary(unittest.TestCase):
    def setUp(self) -> None:
        self.folder = tempfile.mkdtemp()
        self.addCleanup(shutil.rmtree, self.folder)
        self.pool = os.path.join(self.folder, "all.pool")

    def test_the_interface_is_that_of_gitpool(self) -> None:
        wanted = {it for it in vars(gitpool.Service) if not it.startswith("_")}
        # (the library has no packs, and reaches no servers elsewhere)
        self.assertEqual(wanted - set(dir(Service)), {"missing", "entries", "is_remote"})
        program = {"Listed", "Listing", "connect", "error_of", "find_program", "link_to", "read_answer", "read_step", "remote_of", "write_answer",
                   "write_step"}
        self.assertEqual(set(gitpool.__all__) - set(gitpool_library.__all__), program)

    def test_the_program_reads_what_was_saved_and_the_other_way_round(self) -> None:
        with Service(self.pool) as service:
            service.import_stream("t", [BLOB])
        with gitpool.Service(self.pool) as other:
            self.assertEqual(other.object("t", "ce01").contents, b"hello\n")
            other.import_stream("u", [BLOB])
        with Service(self.pool) as service:
            self.assertEqual([it.tenant for it in service.sizes()], [b"t", b"u"])

    def test_a_mapped_file_gives_what_a_copied_one_does(self) -> None:
        with Service(self.pool, maps=True) as service:
            service.import_stream("t", [BLOB])
        with Service(self.pool, maps=True) as service:
            self.assertEqual(service.object("t", "ce01").contents, b"hello\n")
            service.import_stream("u", [BLOB + b"reset refs/heads/main\n"])
            service.save()
            self.assertEqual(service.object("t", "ce01").contents, b"hello\n")
        with open(self.pool, "rb") as file:
            whole = file.read()
        with Service(self.pool) as copied, Service(self.pool, read_only=True, maps=True) as mapped:
            self.assertEqual(list(mapped.sizes()), list(copied.sizes()))
        for size in range(len(whole)):
            part = os.path.join(self.folder, str(size))
            with open(part, "wb") as file:
                file.write(whole[:size])
            refused = [self._refusal(part, maps) for maps in (False, True)]
            self.assertEqual(refused[0], refused[1])

    def _refusal(self, pool: str, maps: bool) -> Tuple[int, str]:
        with self.assertRaises(ServiceError) as refused:
            Service(pool, read_only=True, maps=maps)
        return refused.exception.status, str(refused.exception)

    def test_the_program_and_the_library_lock_each_other_out(self) -> None:
        with gitpool.Service(self.pool) as other:
            other.head("t")
            with self.assertRaises(PoolBusy):
                Service(self.pool)
        with Service(self.pool):
            with self.assertRaises(PoolBusy):
                with gitpool.Service(self.pool) as other:
                    other.head("t")
        self.assertEqual(os.listdir(self.folder), ["all.pool"])

    def test_what_a_killed_process_left_is_removed(self) -> None:
        with open(self.pool + ".new", "wb") as file:
            file.write(b"left")
        with Service(self.pool) as service:
            service.import_stream("t", [BLOB])
        self.assertEqual(os.listdir(self.folder), ["all.pool"])

    def test_a_save_keeps_the_mode_and_goes_through_a_link(self) -> None:
        with Service(self.pool) as service:
            service.import_stream("t", [BLOB])
        os.chmod(self.pool, 0o640)
        os.symlink("all.pool", os.path.join(self.folder, "link"))
        with Service(os.path.join(self.folder, "link")) as service:
            service.remove("t")
        self.assertEqual(os.stat(self.pool).st_mode & 0o777, 0o640)
        self.assertEqual(sorted(os.listdir(self.folder)), ["all.pool", "link"])

    def test_replies_longer_than_the_room(self) -> None:
        with Service() as service:
            for size in (65_440, 65_481, 65_482, 65_483, 200_000):
                content = bytes(it % 251 for it in range(size))
                told = service.import_stream("t", [b"blob\nmark :1\ndata %d\n" % size, content, b"get-mark :1\n"])
                self.assertEqual(service.object("t", told[:40]).contents, content)

    def test_a_save_as_opened_is_refused(self) -> None:
        with Service(self.pool) as service, self.assertRaises(NotImplementedError):
            service.save(True)

    def test_services_in_two_threads(self) -> None:
        found: List[bytes] = []

        def work() -> None:
            with Service() as service:
                for _ in range(200):
                    told = service.import_stream("t", [BLOB])
                found.append(told)

        threads = [threading.Thread(target=work) for _ in range(2)]
        for it in threads:
            it.start()
        for it in threads:
            it.join()
        self.assertEqual(len(found), 2)
        self.assertEqual(len(set(found)), 1)

    def test_a_service_is_used_by_one_thread_at_a_time(self) -> None:
        refused = 0
        with Service() as service:
            data = b"blob\ndata 60000000\n" + bytes(60_000_000)
            service.open("t")
            feeding = threading.Thread(target=service.feed, args=("t", data))
            feeding.start()
            while feeding.is_alive():
                try:
                    service.ask("t", "refs")
                except ServiceError as error:
                    self.assertIn("another thread", str(error))
                    refused += 1
            feeding.join()
            service.end("t")
            self.assertEqual(service.sizes()[0].bytes, 60_000_000)
        self.assertGreater(refused, 0)

    def test_steps_as_values(self) -> None:
        with Service() as service:
            self.assertEqual(service.step(Step(Kind.FEED, b"t", b"")).value, 30)
            with self.assertRaises(Fault):
                service.step(Step(Kind.ASK, b"t", b"what")).check()

    def test_a_library_that_is_not_there(self) -> None:
        env = {**os.environ, "GITPOOL_LIBRARY": os.path.join(self.folder, "none.so")}
        words = ["python3", "-c", "from gitpool_library import Service, ServiceError\ntry:\n  Service()\nexcept ServiceError as e: print(e.status)"]
        done = subprocess.run(words, env=env, stdout=subprocess.PIPE, check=True)
        self.assertEqual(done.stdout, b"127\n")
        with self.assertRaises(ServiceError):
            Service(os.path.join(self.folder, "no", "pool"))


if __name__ == "__main__":
    unittest.main()
