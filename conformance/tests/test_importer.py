"""Adapters that misbehave: each is a row, and nothing of it is left."""
import os
import subprocess
import sys
import time
from dataclasses import replace
from typing import List
from unittest import mock

from cases import Case, State, write_case
from compare import Difference, differences
from importer import Importer, Limits, Malformed, read_objects, read_state
from tables import first_line, read_results, row_of

from tests.adapters import MAIN, NAME, OTHER, WithAdapters, case

LIMITS = Limits(seconds=120.0, printed=1 << 16, memory=1 << 30, file=1 << 20)
HURRIED = replace(LIMITS, seconds=2.0)


class Misbehaving(WithAdapters):
    def seen(self, adapter: str, limits: Limits = LIMITS) -> List[Difference]:
        return differences(case(), Importer(adapter, limits).observe(case()))

    def assert_breaks(self, words: str, verb: str, line: str, limits: Limits = LIMITS) -> None:
        found = self.seen(self.adapter(**{verb: line}), limits)
        self.assertEqual([it.what for it in found], ["end"])
        self.assertIn(words, found[0].seen)
        self.assertEqual(row_of(found), "breaks")

    def test_good_one(self) -> None:
        self.assertEqual(self.seen(self.adapter()), [])

    def test_crashes(self) -> None:
        self.assert_breaks("import ended by signal 11", "import", "kill -SEGV $$")
        self.assert_breaks("new ended by signal 9", "new", "kill -KILL $$")

    def test_other_status(self) -> None:
        self.assert_breaks("import ends with status 3: why", "import", "echo why >&2; exit 3")
        self.assert_breaks("new ends with status 1", "new", "exit 1")

    def test_never_ends(self) -> None:
        for line in ("while :; do :; done", "trap '' TERM INT HUP; sleep 60; sleep 60", "exec > /dev/null 2>&1; sleep 60"):
            self.assert_breaks("does not end in 2 s", "import", line, HURRIED)

    def test_never_rests(self) -> None:
        # (a loaded machine may give it little of a processor)
        self.assert_breaks("import ended by signal", "import", "while :; do :; done", replace(LIMITS, processor=1, seconds=600))

    def test_what_it_leaves_behind_is_ended(self) -> None:
        mark = os.path.join(self.room, "alive")
        self.assertEqual(self.seen(self.adapter(**{"import": f'(sleep 3; touch "{mark}") & cat > "$2/stream"'})), [])
        self.assert_breaks("does not end", "import", f'(sleep 4; touch "{mark}") & sleep 60', HURRIED)
        time.sleep(3)
        self.assertFalse(os.path.exists(mark))

    def test_prints_too_much(self) -> None:
        self.assert_breaks("import prints more than 65536 bytes", "import", "yes")
        self.assert_breaks("import prints more than 65536 bytes", "import", "yes >&2")
        found = self.seen(self.adapter(refs="yes HEAD refs/heads/main"))
        self.assertEqual([(it.what, it.seen) for it in found], [("refs", "refs prints more than 65536 bytes")])

    def test_takes_too_much(self) -> None:
        greedy = '"$python" -c "bytearray(2 << 30)" 2> /dev/null || exit 1'
        self.assertEqual(row_of(self.seen(self.adapter(**{"import": greedy}))), "refuses")
        large = 'trap "" XFSZ; head -c 2000000 /dev/zero > "$2/large" 2> /dev/null || exit 1'
        self.assertEqual(row_of(self.seen(self.adapter(**{"import": large}))), "refuses")

    def test_prints_garbage(self) -> None:
        garbage = r"printf '\377\376\0\n'"
        self.assertEqual(row_of(self.seen(self.adapter(**{"import": garbage}))), "replies")
        self.assertEqual(row_of(self.seen(self.adapter(refs=garbage))), "refs")
        self.assertEqual(row_of(self.seen(self.adapter(objects=garbage))), "objects")
        found = self.seen(self.adapter(**{"import": r"printf '\033[2J\377\n' >&2; exit 1"}))
        self.assertEqual(found[0].seen, r"refused: \x1b[2J\xff")

    def test_no_program(self) -> None:
        path = os.path.join(self.room, "no program")
        with open(path, "wb") as file:
            file.write(b"\x7fELF\0\0")
        os.chmod(path, 0o755)
        self.assertIn("new cannot be run", self.seen(path)[0].seen)

    def test_nothing_is_left(self) -> None:
        for line in ("kill -KILL $$", "yes", 'cat > "$2/stream"; chmod 0 "$2"'):
            with mock.patch("tempfile.tempdir", self.room):
                self.seen(self.adapter(**{"import": line}))
            self.assertEqual(os.listdir(self.room), ["adapter"], line)


class Differing(WithAdapters):
    def row(self, asked: Case, **verbs: str) -> str:
        return row_of(differences(asked, Importer(self.adapter(**verbs), LIMITS).observe(asked)))

    def test_takes_and_refuses(self) -> None:
        self.assertEqual(self.row(case(fault=2)), "takes")
        self.assertEqual(self.row(case(), **{"import": "exit 1"}), "refuses")
        self.assertEqual(self.row(case(fault=2), **{"import": "exit 1"}), "same")

    def test_faults_and_places(self) -> None:
        refused = case(stream=b"abc", fault=2)
        for told, row in (
            ("fault 2", "same"),
            ("fault 3", "fault"),
            ("fault 2 byte 3 line 1", "same"),
            ("fault 2 byte 2 line 1", "fault"),
            ("no fault 3", "same"),
            ("fault 3\nfault 2", "same"),
        ):
            self.assertEqual(self.row(refused, **{"import": f"echo '{told}' >&2; exit 1"}), row, told)

    def test_kept(self) -> None:
        kept = case(replies=b"a\nkept refs/heads/m\n", kept=(b"refs/heads/m",))
        self.assertEqual(self.row(kept, **{"import": "echo a; exit 2"}), "same")
        self.assertEqual(self.row(kept, **{"import": "echo a; echo kept refs/heads/m"}), "same")
        self.assertEqual(self.row(kept, **{"import": "echo a"}), "kept")
        self.assertEqual(self.row(kept, **{"import": "echo a; echo kept refs/heads/n; exit 2"}), "replies")
        self.assertEqual(self.row(case(), **{"import": "exit 2"}), "kept")

    def test_state(self) -> None:
        asked = case(state=State({b"refs/heads/\xff": NAME}, b"refs/heads/m"))
        self.assertEqual(self.row(asked, refs=rf"printf '{NAME} refs/heads/\377\nHEAD refs/heads/m\n'"), "same")
        self.assertEqual(self.row(asked, refs=rf"printf '{OTHER} refs/heads/\377\nHEAD refs/heads/m\n'"), "refs")
        self.assertEqual(self.row(asked, refs=rf"printf '{NAME} refs/heads/\377\nHEAD refs/heads/n\n'"), "HEAD")
        self.assertEqual(self.row(asked), "refs, HEAD")
        self.assertEqual(self.row(case(), objects=f"echo {NAME} blob 6"), "objects")

    def test_first_stream(self) -> None:
        """The first stream is imported into the same repository, and has to be accepted."""
        asked = replace(case(stream=b"second", replies=b"first"), first=b"first")
        both = 'cat > "$2/stream"; ! grep -q second "$2/stream" || cat "$2/before"; mv "$2/stream" "$2/before"'
        self.assertEqual(self.row(asked, **{"import": both}), "same")
        self.assertEqual(self.row(asked, **{"import": "! grep -q first"}), "breaks")

    def test_checkpoints(self) -> None:
        """An importer that saves at its end alone is seen, though it leaves the right thing there."""
        stream = b"x\ncheckpoint\ny\n"
        there = State({b"refs/heads/m": NAME}, MAIN)
        asked = case(stream=stream, state=there, checkpoints=((13, there),))
        saved = f'[ ! -e "$2/saved" ] || echo {NAME} refs/heads/m; echo HEAD refs/heads/main'
        at_end = 'cat > "$2/stream"; ! grep -q "no such command" "$2/stream" || exit 1; touch "$2/saved"'
        at_checkpoint = 'cat > "$2/stream"; touch "$2/saved"; ! grep -q "no such command" "$2/stream"'
        self.assertEqual(self.row(asked, refs=saved, **{"import": at_end}), "checkpoint")
        self.assertEqual(self.row(asked, refs=saved, **{"import": at_checkpoint}), "same")


class Lines(WithAdapters):
    def test_refs(self) -> None:
        self.assertEqual(read_state(b"HEAD refs/heads/x\n%b refs/y z\n" % NAME.encode()), State({b"refs/y z": NAME}, b"refs/heads/x"))
        for text in (
            b"",
            b"HEAD a\nHEAD b\n",
            b"%b refs/y\n" % NAME.encode(),
            b"HEAD a\n%b\n" % NAME.encode(),
            b"HEAD a\n" + b"%b refs/y\n" % NAME.encode() * 2,
            b"HEAD a\n\n",
            b"HEAD a\n%b refs/y\n" % NAME.upper().encode(),
        ):
            self.assertRaises(Malformed, read_state, text)

    def test_objects(self) -> None:
        line = b"%b blob 6\n" % NAME.encode()
        self.assertEqual(read_objects(line), [(NAME, "blob", 6)])
        for text in (line * 2, b"%b note 6\n" % NAME.encode(), b"%b blob -1\n" % NAME.encode(), b"%b blob 6 \n" % NAME.encode(), b"\n"):
            self.assertRaises(Malformed, read_objects, text)


class Runs(WithAdapters):
    """The script run, over adapters of all kinds at once."""

    def test_each_is_a_row(self) -> None:
        cases = os.path.join(self.room, "cases")
        os.mkdir(cases)
        for it in (case("one"), case("two", b"no\n", fault=2)):
            write_case(cases, it)
        kinds = {"good": "cat > /dev/null", "crash": "kill -SEGV $$", "endless": "sleep 60", "loud": "yes", "garbage": r"printf '\377'"}
        adapters = [self.adapter(name, **{"import": line}) for name, line in kinds.items()]
        run = os.path.join(os.path.dirname(os.path.dirname(os.path.realpath(__file__))), "run")
        results = os.path.join(self.room, "results")
        done = subprocess.run(
            [sys.executable, run, "--seconds", "3", "--jobs", "2", "--cases", cases, "--results", results, *adapters],
            stdout=subprocess.PIPE,
            check=False,
        )
        lines = done.stdout.decode("ascii").splitlines()
        self.assertEqual(lines[:2], ["TAP version 14", "1..10"])
        self.assertEqual(len([it for it in lines if it.startswith(("ok ", "not ok "))]), 10)
        self.assertEqual(sum(it.endswith("| 0 | 0 | 0 | 0 | 2 |") for it in lines), 3)
        self.assertEqual((lines[-1], done.returncode), ("# 1 passed, 9 failed", 1))
        again = subprocess.run(
            [sys.executable, run, "--seconds", "3", "--cases", cases, "--against", results, *adapters[:2]], stdout=subprocess.PIPE, check=False
        )
        self.assertEqual((again.stdout.splitlines()[-1], again.returncode), (b"# 4 passed, 0 failed", 0))
        before = read_results(results, "crash")
        self.assertEqual(before, {"one": "breaks", "two": "breaks"})
        self.adapter("crash", **{"import": "cat > /dev/null"})
        subprocess.run(
            [sys.executable, run, "--cases", cases, "--case", "one", "--results", results, adapters[1]], stdout=subprocess.DEVNULL, check=True
        )
        self.assertEqual(read_results(results, "crash"), {"two": "breaks"})
        self.assertEqual(first_line(results, "crash").split(",")[0], "test 1")

    def test_bad_cases(self) -> None:
        run = os.path.join(os.path.dirname(os.path.dirname(os.path.realpath(__file__))), "run")
        for text in (b"{", b'{"format": 2}', b'{"format": 1}', b"[]"):
            with open(os.path.join(self.room, "case.json"), "wb") as file:
                file.write(text)
            with open(os.path.join(self.room, "case.fi"), "wb") as file:
                file.write(b"")
            done = subprocess.run([sys.executable, run, "--cases", self.room, self.adapter()], stdout=subprocess.PIPE, check=False)
            self.assertEqual(done.returncode, 2, text)
            self.assertTrue(done.stdout.startswith(b"Bail out! "), text)
