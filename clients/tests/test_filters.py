"""What the filters make of streams, however these are cut, over a service that records what it is fed."""
import os
import random
import unittest
from typing import Dict, List, Tuple, cast

from gitpool import Service
from gitpool_filter import FilterError, add_filters
from gitpool_import import Refused, Request, Source, import_stream
from gitpool_rewrite import CannotRewrite, Plan

STREAMS = os.path.join(os.path.dirname(os.path.realpath(__file__)), "..", "..", "streams")


class Recorder:
    """In place of a service: keeps what a stream is fed, and answers what a table says to what a piece ends with."""

    def __init__(self) -> None:
        self.fed = b""
        self.answers: Dict[bytes, bytes] = {}

    def feed(self, _tenant: bytes, data: bytes) -> bytes:
        self.fed += data
        return b"".join(answer for end, answer in self.answers.items() if data.endswith(end))

    def end(self, _tenant: bytes) -> bytes:
        return b""


def rewritten(stream: bytes, filters: str, cuts: Tuple[int, ...] = ()) -> Tuple[bytes, Dict[str, int]]:
    """What a stream becomes, fed in these pieces, and what was counted."""
    plan, recorder = Plan(), Recorder()
    add_filters(plan, filters)
    rewriter = plan.rewriter(cast(Service, recorder), b"t", lambda _: None)
    ends = [0, *cuts, len(stream)]
    for start, end in zip(ends, ends[1:]):
        rewriter.feed(stream[start:end])
    rewriter.end()
    return recorder.fed, dict(plan.changed)


WHO = b"A <a@b> "
STREAM = (
    b"# made by hand\nfeature date-format=rfc2822\nfeature export-marks=x\nfeature multiple-authors\noption git depth=5\nfeature done\n\n"
    b"blob\nmark :1\ndata 30\ntag x\nauthor A <a@b> now\nN 1 2\n\n\n"
    b"commit refs/heads/\xff\nmark :2\nauthor " + WHO + b"Tue Feb 6 11:22:18 2007 -0500\nauthor " + WHO + b"Tue Feb 6 11:22:18 2007 -0500\n"
    b"committer " + WHO + b"@5 +0000\ngpgsig sha1 openpgp\ndata 11\ndata 5\nabc\n\ndata <<E\nproperty a 3 x\nauthor B <b@c> now\nE\n"
    b"property branch 7 a\ndata \nproperty many 4 a\nb\nproperty cvs 4 a.c\nproperty none\nM 040000 - dir\nM 644 inline f\ndata 0\n\n"
    b"M 644 inline g\ndata <<EOF\nEO\n-----BEGIN PGP SIGNATURE-----\nEOFF\nEOF\n\n"
    b"tag v1\nfrom :2\ntagger " + WHO + b"@5 +0000\ndata 42\nmessage\n-----BEGIN PGP SIGNATURE-----\nabc\n\n"
    b"tag v2\nfrom :2\ntagger " + WHO + b"@5 +0000\ndata <<END\nplain\n-----BEGIN PGP SIGNATURE----- not\nEND\n"
    b"done\nfeature after\nauthor X <y> now\n")
CLEAN = (
    b"# made by hand\nfeature done\n\n"
    b"blob\nmark :1\ndata 30\ntag x\nauthor A <a@b> now\nN 1 2\n\n\n"
    b"commit refs/heads/\xff\nmark :2\nauthor " + WHO + b"1170778938 -0500\n"
    b"committer " + WHO + b"5 +0000\ndata <<E\nproperty a 3 x\nauthor B <b@c> now\nE\n"
    b"M 644 inline f\ndata 0\n\n"
    b"M 644 inline g\ndata <<EOF\nEO\n-----BEGIN PGP SIGNATURE-----\nEOFF\nEOF\n\n"
    b"tag v1\nfrom :2\ntagger " + WHO + b"5 +0000\ndata 8\nmessage\n\n"
    b"tag v2\nfrom :2\ntagger " + WHO + b"5 +0000\ndata <<END\nplain\n-----BEGIN PGP SIGNATURE----- not\nEND\n"
    b"done\n")
COUNTS = {"features": 3, "options": 1, "dates": 4, "authors": 1, "signatures": 2, "properties": 4, "directories": 1}


class Filters(unittest.TestCase):
    maxDiff = None

    def test_each_filter(self) -> None:
        text, counts = rewritten(STREAM, "all")
        self.assertEqual(text, CLEAN)
        self.assertEqual(counts, COUNTS)

    def test_any_cut(self) -> None:
        chance = random.Random(1)
        cuts: List[Tuple[int, ...]] = [(at,) for at in range(1, len(STREAM), 3)] + [tuple(range(1, len(STREAM)))]
        cuts += [tuple(sorted(chance.sample(range(1, len(STREAM)), size))) for size in (2, 9, 50) for _ in range(20)]
        for cut in cuts:
            self.assertEqual(rewritten(STREAM, "all", cut), (CLEAN, COUNTS), cut)

    def test_streams_that_need_none(self) -> None:
        for filters in ("all", "dates=raw", "notes", "properties,features", "signatures=strip"):
            self.assertEqual(rewritten(CLEAN, filters)[0], CLEAN)
            self.assertEqual(rewritten(CLEAN, filters, tuple(range(1, len(CLEAN))))[0], CLEAN)

    def test_fronts(self) -> None:
        """Where a stream is cut, so is what becomes of it: nothing is held back."""
        for end in range(len(CLEAN) - len(b"done\n")):
            self.assertEqual(rewritten(CLEAN[:end], "all")[0], CLEAN[:end])

    def test_any_bytes(self) -> None:
        """Random bytes, with words of the grammar among them, pass as they are where no filter has to do with them."""
        chance = random.Random(2)
        words = [b"blob\n", b"data 3\n", b"data <<X\n", b"X\n", b"\n", b"commit x\n", b"tag t\n", b"M 644 :1 a\n", b"mark :1\n",
                 b"\xff\x00", b"data 0\n", b"\r",
                 b"from :1\n", b"deleteall\n", b"reset x\n", b"data 99999999999\n", b"data x\n", b"ls ", b"property"]
        for _ in range(300):
            stream = b"".join(chance.choice(words) for _ in range(chance.randrange(1, 40)))
            cuts = tuple(sorted(chance.sample(range(1, len(stream)), min(5, len(stream) - 1)))) if len(stream) > 1 else ()
            self.assertEqual(rewritten(stream, "all", cuts)[0], stream)

    def test_memory_is_bounded(self) -> None:
        """Long lines, and long lines of data, are not held back."""
        for front in (b"progress ", b"blob\ndata <<END\n", b"blob\ndata 99999999\n"):
            plan, recorder = Plan(), Recorder()
            add_filters(plan, "all")
            rewriter = plan.rewriter(cast(Service, recorder), b"t", lambda _: None)
            rewriter.feed(front)
            for _ in range(60):
                rewriter.feed(b"x" * 65536)
            self.assertGreater(len(recorder.fed), 40 * 65536, front)

    def test_refusals(self) -> None:
        for stream in (b"tag t\nfrom :1\ntagger A <a@b> 1 +0000\ndata 40\na\n-----BEGIN SSH SIGNATURE-----\n         \n",
                       b"commit x\ngpgsig sha1 ssh\ndata 0\n"):
            with self.assertRaises(CannotRewrite):
                rewritten(stream, "signatures=refuse")
        for filters in ("", "date", "dates=", "dates=iso", "notes=x", "all,", "signatures=keep", "all=1"):
            with self.assertRaises(FilterError):
                rewritten(b"", filters)

    def test_tags_that_stay_signed(self) -> None:
        """A tag loses its signature where it reaches a commit that was signed, by a mark, a ref, a parent or another tag, and only there."""
        head = b"committer A <a@b> 1 +0000\n"
        signed = b"gpgsig sha1 openpgp\ndata 3\nabc\n"
        tag = b"tag %b\nfrom %b\ntagger A <a@b> 1 +0000\ndata 36\nm\n-----BEGIN PGP SIGNATURE-----\nabc\n\n"
        cut = b"tag %b\nfrom %b\ntagger A <a@b> 1 +0000\ndata 2\nm\n\n"
        commits = (b"commit refs/heads/a\nmark :1\n" + head + b"data 0\n"
                   b"commit refs/heads/b\nmark :2\n" + head + b"%b" + b"data 0\nfrom :1\n"
                   b"commit refs/heads/a\nmark :3\n" + head + b"data 0\n"
                   b"commit refs/heads/c\nmark :4\n" + head + b"data 0\nfrom :3\nmerge :2\n"
                   b"commit refs/heads/b\nmark :5\n" + head + b"data 0\n"
                   b"reset refs/heads/d\nfrom :5\n\nreset refs/heads/b\nfrom :1\n\n"
                   b"commit refs/heads/d\nmark :6\n" + head + b"data 0\n"
                   b"commit refs/heads/b\nmark :7\n" + head + b"data 0\n"
                   b"commit refs/heads/e\nmark :2\n" + head + b"data 0\n")
        named = ((b"1", b":1", tag), (b"3", b":3", tag), (b"4", b":4", cut), (b"5", b":5", cut), (b"6", b":6", cut), (b"7", b":7", tag),
                 (b"again", b":2", tag), (b"by-ref", b"refs/heads/d", cut), (b"by-ref0", b"refs/heads/d^0", cut), (b"ref", b"refs/heads/b", tag),
                 (b"of-cut", b"refs/tags/4", cut), (b"of-kept", b"refs/tags/3", tag))
        stream = commits % signed + b"".join(tag % it[:2] for it in named)
        wanted = commits % b"" + b"".join(it[2] % it[:2] for it in named)
        self.assertEqual(rewritten(stream, "signatures")[0], wanted)
        self.assertEqual(rewritten(stream, "signatures", tuple(range(1, len(stream))))[0], wanted)
        self.assertEqual(rewritten(stream, "signatures=strip")[0], commits % b"" + b"".join(cut % it[:2] for it in named))

    def test_commits_that_git_exports_unsigned(self) -> None:
        """Which commits were signed is known by their `original-oid`, where the stream has no signatures."""
        tag = b"tag t\nfrom :1\ntagger A <a@b> 1 +0000\ndata 36\nm\n-----BEGIN PGP SIGNATURE-----\nabc\n\n"
        for name, is_cut in ((b"1" * 40, True), (b"2" * 40, False)):
            stream = b"commit refs/heads/a\nmark :1\noriginal-oid %b\ncommitter A <a@b> 1 +0000\ndata 0\n" % name + tag
            plan, recorder = Plan(), Recorder()
            add_filters(plan, "signatures")
            plan.signed = frozenset([b"1" * 40])
            rewriter = plan.rewriter(cast(Service, recorder), b"t", lambda _: None)
            rewriter.feed(stream)
            self.assertEqual((b"PGP" not in recorder.fed, plan.changed["signatures"]), (is_cut, 2 * is_cut))

    def test_late_features(self) -> None:
        """After a command they are left to the service, which refuses them."""
        for line in (b"feature export-marks=x\n", b"option git depth=3\n"):
            for first in (b"blob\ndata 0\n", b"ls x y\n", b"frobnicate\n"):
                self.assertEqual(rewritten(first + line, "all")[0], first + line)
            self.assertEqual(rewritten(b"\n#\n" + line + b"blob\n", "all")[0], b"\n#\nblob\n")


class Places(unittest.TestCase):
    def test_places_of_worked_streams(self) -> None:
        """With all filters worked streams that are refused are refused by the same fault at the same place: each third one is tried."""
        names = sorted(it[:-6] for it in os.listdir(STREAMS) if it.endswith(".fault"))
        small = [name for name in names if os.path.getsize(os.path.join(STREAMS, name + ".fi")) < 100_000]
        self.assertGreater(len(small), 80)
        for name in small[::3]:
            self.assertEqual(self.refused(name, ""), self.refused(name, "all"), name)

    @staticmethod
    def refused(name: str, filters: str) -> "tuple[object, ...]":
        plan = Plan()
        if filters:
            add_filters(plan, filters)
        with open(os.path.join(STREAMS, name + ".fi"), "rb") as file:
            try:
                import_stream(Source(file), Request(lambda _: Service(), b"t", lambda _: None, lambda *_: None,
                                                    prepare=lambda _: plan.finished()))
            except Refused as refused:
                return str(refused.reason), refused.place, refused.is_at_end
        raise AssertionError(name + " is not refused")


if __name__ == "__main__":
    unittest.main()
