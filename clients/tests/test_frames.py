"""Steps and answers as bytes, and answers as values."""
import io
import unittest

from gitpool import (LONGEST_BODY, Answer, Fault, Kind, LogEntry, OutOfMemory, Ref, Step, TreeEntry, pieces_of, read_answer, read_kept,
                     read_log, read_object, read_refs, read_step, read_tree, unquote, write_answer, write_step)
from gitpool_objects import quote

NAME = "ce013625030ba8dba906f756967f9e9ca394464a"


class Frames(unittest.TestCase):
    def test_steps_as_the_document_has_them(self) -> None:
        self.assertEqual(write_step(Step(Kind.OPEN, b"t")), b"\1\0\1t\0\0\0\0")
        self.assertEqual(write_step(Step(Kind.ASK, b"bob", b"head")), b"\4\0\3bob\0\0\0\4head")
        self.assertEqual(write_step(Step(Kind.RESTART)), b"\5\0\0\0\0\0\0")

    def test_what_has_no_frame(self) -> None:
        with self.assertRaises(ValueError):
            write_step(Step(Kind.FEED, b"t", bytes(LONGEST_BODY + 1)))
        with self.assertRaises(ValueError):
            write_step(Step(Kind.OPEN, bytes(65_536)))

    def test_steps_are_read_back(self) -> None:
        steps = [Step(Kind.OPEN, b"a/b"), Step(Kind.FEED, b"a/b", b"blob\n\0"), Step(Kind.END, b""), Step(Kind.RESTART)]
        stream = io.BytesIO(b"".join(map(write_step, steps)))
        self.assertEqual([read_step(stream) for _ in range(5)], [*steps, None])

    def test_steps_that_are_cut_off(self) -> None:
        frame = write_step(Step(Kind.FEED, b"tenant", b"piece"))
        for size in range(1, len(frame)):
            with self.assertRaises(EOFError):
                read_step(io.BytesIO(frame[:size]))
        with self.assertRaises(ValueError):
            read_step(io.BytesIO(b"\6\0\0\0\0\0\0"))

    def test_answers(self) -> None:
        frame = b"\1" + bytes(7) + b"\x20" + bytes(8)
        self.assertEqual(read_answer(io.BytesIO(frame)), Answer(1, 32, b""))
        for answer in (Answer(0, 0, b"reply"), Answer(2, 1 << 40, b""), Answer(1, 3, b"said")):
            self.assertEqual(read_answer(io.BytesIO(write_answer(answer))), answer)
        for size in range(len(frame)):
            with self.assertRaises(EOFError):
                read_answer(io.BytesIO(frame[:size]))
        with self.assertRaises(ValueError):
            read_answer(io.BytesIO(b"\3" + bytes(16)))

    def test_answers_that_come_byte_by_byte(self) -> None:
        class Slow(io.BytesIO):
            def read(self, size: "int | None" = -1) -> bytes:
                return super().read(1 if size else 0)

        self.assertEqual(read_answer(Slow(write_answer(Answer(0, 0, b"a long reply")))), Answer(0, 0, b"a long reply"))

    def test_what_an_answer_raises(self) -> None:
        self.assertEqual(Answer(0, 0, b"x").check(), b"x")
        with self.assertRaises(Fault) as caught:
            Answer(1, 16, b"said").check()
        self.assertEqual((caught.exception.number, caught.exception.reply), (16, b"said"))
        self.assertIn("names nothing", caught.exception.meaning)
        with self.assertRaises(OutOfMemory) as memory:
            Answer(2, 7, b"").check()
        self.assertEqual(memory.exception.items, 7)


class Answers(unittest.TestCase):
    def test_refs(self) -> None:
        self.assertEqual(read_refs(b""), [])
        reply = NAME.encode() + b" refs/heads/\xff\n" + NAME.encode() + b" refs/tags/v1\n"
        self.assertEqual(read_refs(reply), [Ref(b"refs/heads/\xff", NAME), Ref(b"refs/tags/v1", NAME)])

    def test_logs(self) -> None:
        reply = NAME.encode() + b" A subject\n" + NAME.encode() + b" \n"
        self.assertEqual(read_log(reply), [LogEntry(NAME, b"A subject"), LogEntry(NAME, b"")])

    def test_trees(self) -> None:
        reply = b"040000 tree %b\tdir\n160000 commit %b\tlink\n100644 blob %b\t\"a\\n\\303\\251\\\"\"\n" % ((NAME.encode(),) * 3)
        self.assertEqual(read_tree(reply), [TreeEntry(0o40000, "tree", NAME, b"dir"), TreeEntry(0o160000, "commit", NAME, b"link"),
                                            TreeEntry(0o100644, "blob", NAME, b'a\n\xc3\xa9"')])

    def test_objects(self) -> None:
        found = read_object(NAME.encode() + b" blob 7\nhello\n\n\n")
        self.assertEqual((found.name, found.kind, found.contents), (NAME, "blob", b"hello\n\n"))
        with self.assertRaises(ValueError):
            read_object(NAME.encode() + b" blob 7\nhello\n")

    def test_quotes(self) -> None:
        self.assertEqual(unquote(b"plain name"), b"plain name")
        self.assertEqual(unquote(rb'"\a\b\f\n\r\t\v\"\\\001"'), b'\a\b\f\n\r\t\v"\\\1')
        for path in (b"a", b'"', b'a"b', b"a\nb\\n", b"\\", b" "):
            self.assertEqual(unquote(quote(path)), path)

    def test_kept_refs(self) -> None:
        kept = b"kept refs/heads/a\n"
        shown = NAME.encode() + b" blob %d\n%b\n" % (len(kept), kept)
        self.assertEqual(read_kept(NAME.encode() + b"\nprogress kept refs/x\n" + shown + kept), [b"refs/heads/a"])
        self.assertEqual(read_kept(b""), [])


class Pieces(unittest.TestCase):
    def test_files_and_lists(self) -> None:
        data = bytes(range(256)) * 5
        for source in (io.BytesIO(data), io.BufferedReader(io.BytesIO(data)), [data], [data[:3], b"", data[3:]]):  # type: ignore[arg-type]
            pieces = list(pieces_of(source, 100))
            self.assertEqual(b"".join(pieces), data)
            self.assertLessEqual(max(map(len, pieces)), 100)


if __name__ == "__main__":
    unittest.main()
