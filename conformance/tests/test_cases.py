"""Cases as files, items of streams, rules and tables."""
import gzip
import io
import json
import os
import tarfile
import unittest

from cases import BadCase, Case, Rule, State, from_json, read_case, to_json, write_case
from compare import Difference
from items import asks, checkpoints_in, core_of, items_of, shows_the_same
from making import Wrong, check_place, fault_at, referred
from rules import PARTS, read_rules
from tables import Tally, read_results, row_of, table, tap_of, write_results

from tests.adapters import MAIN, NAME, WithAdapters, case, load_script

ALL_BYTES = bytes(range(256))


class Files(WithAdapters):
    def whole(self) -> Case:
        return Case(
            "one",
            b"first" + ALL_BYTES,
            ALL_BYTES,
            "answers",
            "option gitpool head",
            "two",
            fault_at(ALL_BYTES, 2, 5),
            ALL_BYTES,
            [ALL_BYTES],
            State({ALL_BYTES: NAME}, ALL_BYTES),
            [(NAME, "blob", 6)],
            [(3, State({}, MAIN))],
            [Rule(1, "a", "b", "c")],
            {"does": "same"},
        )

    def test_any_byte_survives(self) -> None:
        write_case(self.room, self.whole())
        self.assertEqual(read_case(self.room, "one"), self.whole())
        with open(os.path.join(self.room, "one.json"), "rb") as file:
            self.assertTrue(file.read().isascii())

    def test_refused(self) -> None:
        told = to_json(self.whole())
        first = b"first" + ALL_BYTES
        self.assertEqual(from_json(told, ALL_BYTES, first), self.whole())
        self.assertRaises(BadCase, from_json, {**told, "format": 2}, ALL_BYTES, first)
        self.assertRaises(BadCase, from_json, told, ALL_BYTES + b"\n", first)
        self.assertRaises(BadCase, from_json, told, ALL_BYTES)
        self.assertRaises(BadCase, from_json, {**told, "replies": "\u0100"}, ALL_BYTES, first)
        self.assertEqual(json.loads(json.dumps(told)), told)


class Items(unittest.TestCase):
    STREAM = b"# no\nblob\nmark :1\ndata 11\ncheckpoint\n\ncheckpoint\ndata <<E\ncheckpoint\nE\n\n\n" b"checkpoint\nprogress x\ndone\ncheckpoint\n"

    def test_kinds(self) -> None:
        kinds = [it.kind for it in items_of(self.STREAM)]
        self.assertEqual(kinds, ["comment", "line", "line", "data", "line", "data", "blank"] + ["line"] * 4)
        self.assertEqual(b"".join(self.STREAM[it.start : it.end] for it in items_of(self.STREAM)), self.STREAM)

    def test_checkpoints(self) -> None:
        ends = checkpoints_in(self.STREAM)
        self.assertEqual([self.STREAM[:it].count(b"checkpoint") for it in ends], [2, 4])
        self.assertEqual(checkpoints_in(b"checkpoint"), [])
        self.assertEqual(checkpoints_in(b"checkpoint \ncheckpoints\n#\ncheckpoint\n"), [37])

    def test_cut_off(self) -> None:
        for stream in (b"abc", b"data 5\nabcd", b"data x\nabc\n", b"data <<E\nabc\nE", b"data <<\n\n", b"data 99999999999999999999\n"):
            self.assertEqual([it.kind for it in items_of(stream)], ["rest"], stream)
        self.assertEqual([it.text for it in items_of(b"data 0\n")], [b""])
        self.assertEqual([it.text for it in items_of(b"data <<E\nE\n")], [b""])

    def test_core(self) -> None:
        self.assertTrue(asks(b"get-mark :1\n"))
        self.assertFalse(asks(b"data 12\nget-mark :1\nlsx\n"))
        blob = b"blob\nmark :1\ndata 0\n"
        self.assertIn(b"M 100644 :1 answer\n", core_of(blob + b"get-mark :1\n"))
        self.assertIn(b"M 100644 %b answer\n" % NAME.encode(), core_of(blob + b"cat-blob %b\n" % NAME.encode()))
        self.assertEqual(core_of(b"alias\nmark :2\nto :1\nget-mark :2\n"), b"alias\nmark :2\nto :1\nreset refs/heads/answer-1\nfrom :2\n\n")
        self.assertIn(b"tag answer-1\nfrom :3\n", core_of(b"tag v\nmark :3\nfrom :1\ndata 0\nget-mark :3\n"))
        self.assertEqual(core_of(b'commit refs/heads/m\ndata 0\nls ""\ncat-blob :1\n'), b"commit refs/heads/m\ndata 0\n")
        self.assertFalse(asks(core_of(self.STREAM)))

    def test_variants(self) -> None:
        there = State({b"refs/heads/m": NAME}, MAIN)
        self.assertTrue(shows_the_same(case(state=there), case(state=there)))
        self.assertFalse(shows_the_same(case(), case()))
        self.assertFalse(shows_the_same(case(fault=2), case(fault=3)))
        self.assertFalse(shows_the_same(case(state=there), case(fault=3)))
        self.assertTrue(shows_the_same(case(fault=3), case(fault=3)))


class Objects(unittest.TestCase):
    def test_references(self) -> None:
        name = bytes.fromhex(NAME)
        self.assertEqual(referred("tree", b"100644 a\0" + name + b"160000 b\0" + name + b"40000 c\0" + name), [NAME, NAME])
        self.assertEqual(referred("tree", b"100644 a\0" + b"\n160000 x\0" + b"y" * 10), [(b"\n160000 x\0" + b"y" * 10).hex()])
        self.assertEqual(referred("commit", b"tree %b\nparent %b\n\ntree %b\n" % ((NAME.encode(),) * 3)), [NAME, NAME])
        self.assertEqual(referred("tag", b"object %b\ntype tag\n\n" % NAME.encode()), [NAME])
        self.assertEqual(referred("blob", b"tree %b\n" % NAME.encode()), [])

    def test_places(self) -> None:
        told = [fault_at(b"a\nb\nc", 2, at) for at in (1, 2, 3, 4, 5, None)]
        self.assertEqual([(it.byte, it.line) for it in told], [(1, 1), (2, 1), (3, 2), (4, 2), (5, 3), (5, 3)])
        self.assertEqual([it.is_at_end for it in told], [False] * 5 + [True])

    def test_places_are_ends_of_items(self) -> None:
        stream = b"blob\ndata 2\nab\nmark :1\n"
        for byte, fault in ((5, 2), (14, 2), (15, 2), (23, 2), (7, 4)):
            check_place("name", stream, fault_at(stream, fault, byte))
        for byte in (4, 13, 16, 22):
            self.assertRaises(Wrong, check_place, "name", stream, fault_at(stream, 2, byte))


class Rules(unittest.TestCase):
    RULE = (
        "## part\n\n### 1. A title\n\nText (13).\n\n- *Manual*: Leaves it\n  open.\n- *Git 2.39*: The same.\n"
        "- *Definition*: a_b Mod `x`,\n  `y`; c Mod2\n- *Cases*: `one`, `two`\n"
    )

    def test_read(self) -> None:
        told = read_rules("# page\n\n" + self.RULE)[0]
        self.assertEqual(told.rule, Rule(1, "A title", "Leaves it open.", "The same."))
        self.assertEqual(told.definitions, [("a_b", "Mod", "x"), ("a_b", "Mod", "y"), ("c", "Mod2", "")])
        self.assertEqual((told.section, told.cases), ("part", ["one", "two"]))

    def test_parts_are_required(self) -> None:
        for part in PARTS:
            self.assertRaises(ValueError, read_rules, self.RULE.replace(f"*{part}*", "*Other*"))


class Tables(WithAdapters):
    def test_rows(self) -> None:
        found = [Difference("end", "refused", "accepted: "), Difference("refs", "", ""), *[Difference("checkpoint", "", "")] * 2]
        self.assertEqual(row_of(found), "takes, refs, checkpoint")
        self.assertEqual(row_of([]), "same")

    def test_results_come_back(self) -> None:
        tally = Tally("name", "name 1")
        tally.add(case("one"), "same")
        tally.add(case("two"), "refs")
        write_results(self.room, tally, "2026-01-01")
        self.assertEqual(read_results(self.room, "name"), {"two": "refs"})
        self.assertEqual(table([tally])[-1], "| name 1 | core | 2 | 1 | 0 | 0 | 1 | 0 |")

    def test_tap(self) -> None:
        self.assertEqual(tap_of(3, "a b", True, []), "ok 3 - a b")
        told = tap_of(4, "a", False, [Difference("end", 'x"\\', "y")])
        self.assertEqual(told.splitlines()[0], "not ok 4 - a")
        self.assertIn('    expected: "x\\"\\\\"', told)


class Archives(WithAdapters):
    def test_the_same_bytes(self) -> None:
        make = load_script("conformance/make")
        folder = os.path.join(self.room, "suite")
        os.makedirs(os.path.join(folder, "b"))
        for name in ("z", "b/a"):
            with open(os.path.join(folder, name), "wb") as file:
                file.write(name.encode())
        first = make.archive_of(folder)
        os.utime(os.path.join(folder, "z"), (1, 1))
        self.assertEqual(make.archive_of(folder), first)
        names = tarfile.open(fileobj=io.BytesIO(gzip.decompress(first))).getnames()
        self.assertEqual(names, ["suite/b/a", "suite/z"])
