"""Marks files, new files that take a name, and the names of a stream's objects."""
import os
import random
import shutil
import tempfile
import unittest
from typing import Dict, List, Optional

from gitpool import Fault, Service
from gitpool_marks import Marks, MarksError, NewFile, NewFiles
from gitpool_names import add_marks
from gitpool_notes import fanout_of, is_note, path_of
from gitpool_rewrite import CannotRewrite, Plan

NAME = b"ce013625030ba8dba906f756967f9e9ca394464a"


class InAFolder(unittest.TestCase):
    def setUp(self) -> None:
        self.folder = tempfile.mkdtemp()
        self.addCleanup(shutil.rmtree, self.folder)

    def path(self, name: str, contents: Optional[bytes] = None) -> str:
        path = os.path.join(self.folder, name)
        if contents is not None:
            with open(path, "wb") as file:
                file.write(contents)
        return path

    def read(self, name: str) -> bytes:
        with open(self.path(name), "rb") as file:
            return file.read()


class MarksFiles(InAFolder):
    def test_files(self) -> None:
        marks = Marks()
        marks.read(self.path("a", b":1 %b\n:0002 %b\n:1 %b\n" % (NAME, NAME, NAME)))
        marks.read(self.path("b", b":2 %b\n:18446744073709551615 %b\n" % (b"1" * 40, NAME)))
        self.assertEqual(marks.names, {1: NAME, 2: b"1" * 40, 2**64 - 1: NAME})
        marks.read(self.path("c", b""))

    def test_lines_that_are_refused(self) -> None:
        for line in (b"\n", b":1\n", b":1 %b" % NAME, b":1 %b \n" % NAME, b"1 %b\n" % NAME, b":-1 %b\n" % NAME, b":1  %b\n" % NAME,
                     b":0 %b\n" % NAME,
                     b":1 %b\r\n" % NAME, b":1 %b\n" % NAME.upper(), b":1 %b\n" % NAME[1:], b":%d %b\n" % (2**64, NAME), b"\0\n",
                     b"x" * 10_000):
            with self.assertRaises(MarksError) as caught:
                Marks().read(self.path("bad", b":5 %b\n" % NAME + line))
            self.assertIn("bad:2: ", str(caught.exception))


class NewNames(InAFolder):
    def test_whole_or_not_at_all(self) -> None:
        path = self.path("file", b"old")
        file = NewFile(path)
        file.write(b"new")
        file.finish()
        self.assertEqual(self.read("file"), b"old")
        file.put()
        file.close()
        self.assertEqual((self.read("file"), os.listdir(self.folder)), (b"new", ["file"]))
        with self.assertRaises(KeyError), NewFiles() as files:
            files.open(path).write(b"other")
            files.open(self.path("second"))
            raise KeyError
        self.assertEqual((self.read("file"), os.listdir(self.folder)), (b"new", ["file"]))

    def test_what_a_killed_run_left(self) -> None:
        self.path("file.new", b"left" * 100)
        with NewFiles() as files:
            files.open(self.path("file")).write(b"x")
            files.finish()
            files.put()
        self.assertEqual((self.read("file"), os.listdir(self.folder)), (b"x", ["file"]))

    def test_one_at_a_time(self) -> None:
        first = NewFile(self.path("file"))
        with self.assertRaisesRegex(OSError, "another run is writing it"):
            NewFile(self.path("file"))
        first.close()
        NewFile(self.path("file")).close()
        os.symlink("elsewhere", self.path("link.new"))
        with self.assertRaises(OSError):
            NewFile(self.path("link"))
        os.mkdir(self.path("folder"))
        with self.assertRaisesRegex(OSError, "no file"):
            NewFile(self.path("folder"))


WHO = b"committer A <a@b> 1 +0000\n"
START = (b"blob\nmark :1\ndata 1\nx\ncommit refs/heads/m\nmark :2\n" + WHO + b"data 0\nM 644 :1 f\n"
         b"tag t\nmark :3\nfrom :2\ntagger A <a@b> 1 +0000\ndata 0\n")


class Lines:
    """In place of a new file: what was written."""

    def __init__(self) -> None:
        self.lines: List[bytes] = []

    def write(self, line: bytes) -> None:
        self.lines.append(line)


class Names(InAFolder):
    def run_stream(self, service: Service, stream: bytes, marks: Marks, size: int = 1 << 20) -> Dict[str, List[bytes]]:
        """Carries a stream out with marks, and gives the marks after it, the map, and what it printed."""
        exported, originals = Lines(), Lines()
        told: List[bytes] = []
        plan = Plan()
        add_marks(plan, marks, marks.kinds(service, b"t"), exported, originals)  # type: ignore[arg-type]
        service.open(b"t")
        rewriter = plan.rewriter(service, b"t", told.append)
        try:
            for at in range(0, len(stream), size):
                rewriter.feed(stream[at : at + size])
            rewriter.end()
        except (Fault, CannotRewrite):
            service.restart()
            raise
        return {"marks": exported.lines, "map": originals.lines, "told": [b"".join(told)]}

    def marks_of(self, lines: List[bytes]) -> Marks:
        marks = Marks()
        marks.read(self.path("marks", b"".join(lines)))
        return marks

    def test_marks_go_on(self) -> None:
        """In pieces of any size a stream with marks of an earlier one is that of a stream with both parts."""
        then = (b"get-mark :1\nget-mark :2\nget-mark :3\ncommit refs/heads/n\nmark :1\n" + WHO
                + b"data 0\nfrom :2\nM 644 :1 g\ncat-blob :1\nls :3 f\n"
                b"get-mark :1\nblob\nmark :2\noriginal-oid a b\ndata 1\ny\ncat-blob :2\nblob\noriginal-oid c\ndata 1\nz\ntag u\nfrom :3\n"
                b"original-oid d\ntagger A <a@b> 1 +0000\ndata 0\nget-mark :1\n")
        with Service() as service:
            told = service.import_stream(b"other", [START + then])
        for size in (1, 3, 1 << 20):
            with Service() as service:
                first = self.run_stream(service, START, Marks(), size)
                self.assertEqual([line.split()[0] for line in first["marks"]], [b":1", b":2", b":3"])
                second = self.run_stream(service, then, self.marks_of(first["marks"]), size)
                self.assertEqual(second["told"], [told])
                names = [line.split()[1] for line in second["marks"]]
                self.assertEqual(names[0], told.splitlines()[-1])
                self.assertEqual([line[:-42] for line in second["map"]], [b"a b", b"c", b"d"])
                self.assertEqual(second["map"][0][-41:-1], names[1])
                self.assertEqual(names[2], first["marks"][2].split()[1])

    def test_random_marks(self) -> None:
        """Random commands with few marks, half of them imported, say and leave the same as in one stream."""
        chance = random.Random(4)
        for _ in range(60):
            front, back = (b"".join(self.random_command(chance) for _ in range(chance.randrange(1, 25))) for _ in range(2))
            with Service() as whole, Service() as parts:
                try:
                    before = whole.import_stream(b"t", [START + front])
                    told = whole.import_stream(b"t", [START + front + b"checkpoint\n" + back])
                    wanted: "bytes | int" = told[len(before):]
                except Fault as fault:
                    wanted = fault.number
                try:
                    first = self.run_stream(parts, START + front, Marks(), chance.randrange(1, 200))
                    marks = self.marks_of(first["marks"])
                    found: "bytes | int" = self.run_stream(parts, back, marks, chance.randrange(1, 200))["told"][0]
                except Fault as fault:
                    found = fault.number
                if not isinstance(wanted, int) or not isinstance(found, int):
                    self.assertEqual((found, parts.refs(b"t")), (wanted, whole.refs(b"t")), front + b"---" + back)
                self.assertEqual(found, wanted)

    @staticmethod
    def random_command(chance: random.Random) -> bytes:
        mark, other = chance.randrange(1, 6), chance.randrange(1, 6)
        return chance.choice([
            b"blob\nmark :%d\ndata 1\n%d\n" % (mark, chance.randrange(9)), b"get-mark :%d\n" % mark, b"cat-blob :1\n", b"ls :2 f\n",
            b"alias\nmark :%d\nto :2\n\n" % mark, b"reset refs/heads/x\nfrom :2\n\n",
            b"commit refs/heads/%d\nmark :%d\n%bdata 0\nfrom :2\nM 644 :1 f\nM 644 :1 g\nls :2 f\ncat-blob :1\n\n" % (other, mark, WHO),
            b"tag t%d\nmark :%d\nfrom :%d\ntagger A <a@b> 1 +0000\ndata 0\n" % (other, mark, other)])

    def test_marks_that_are_used_again(self) -> None:
        with Service() as service:
            stream = b"".join(b"blob\nmark :1\noriginal-oid %d\ndata 1\n%d\n" % (it, it % 10) for it in range(30)) + b"get-mark :1\n"
            for size in (7, 1 << 20):
                found = self.run_stream(service, stream, Marks(), size)
                self.assertEqual([line.split()[0] for line in found["map"]], [b"%d" % it for it in range(30)])
                self.assertEqual(found["map"][9].split()[1], found["told"][0].strip())
                self.assertEqual(found["map"][9].split()[1], found["map"][29].split()[1])
            with self.assertRaises(CannotRewrite):
                self.run_stream(service, b"blob\nmark :%d\ndata 0\n" % 0x67_69_74_70_6F_6F_6C_00, Marks())

    def test_streams_that_are_cut(self) -> None:
        """With marks and a map a front of a stream is refused, or not, as it is without them."""
        stream = (b"blob\noriginal-oid x\ndata 3\nabc\ncommit refs/heads/m\noriginal-oid y\n" + WHO
                  + b"data 0\nM 644 inline f\ndata 1\nx\ntag t\nfrom refs/heads/m\n")
        for end in range(len(stream)):
            numbers = []
            for is_plain in (True, False):
                with Service() as service:
                    try:
                        service.import_stream(b"t", [stream[:end]]) if is_plain else self.run_stream(service, stream[:end], Marks())
                        numbers.append(0)
                    except Fault as fault:
                        numbers.append(fault.number)
            self.assertEqual(numbers[0], numbers[1], stream[:end])


class Notes(unittest.TestCase):
    def test_fanouts(self) -> None:
        self.assertEqual([fanout_of(it) for it in (0, 1, 255, 256, 65_535, 65_536, (1 << 64) - 1)], [0, 0, 0, 1, 1, 2, 7])
        self.assertEqual(path_of(NAME, 0), NAME)
        self.assertEqual(path_of(NAME, 2), b"ce/01/" + NAME[4:])
        for path in (NAME, b"ce/" + NAME[2:], b"ce01/" + NAME[4:]):
            self.assertTrue(is_note(path))
        for path in (NAME[1:], b"c/" + NAME[1:], b"ce/01", b"", b"/" + NAME, NAME.upper()):
            self.assertFalse(is_note(path))


if __name__ == "__main__":
    unittest.main()
