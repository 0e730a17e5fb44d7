"""Scenes of the place of a fault: what gitpool-import tells, beside where a bisection with the program alone finds it."""
from __future__ import annotations

import re
from typing import Dict, Optional, Tuple

from .room import Room, scene, subprocess, text

WHO = b"committer A <a@b> 1 +0000\n"
START = b"blob\nmark :1\ndata 4\nabc\n\ncommit refs/heads/main\nmark :2\n" + WHO + b"data 2\nm\nM 644 :1 a\n\n"
MORE = b"reset refs/heads/side\nfrom :2\n\nprogress more\nblob\ndata <<END\nblob\ndata 5\nEND\n"

# A broken stream under the number of its fault, and the line that tells it; None where the end is what is refused.
BROKEN: Dict[str, Tuple[int, bytes, Optional[bytes]]] = {
    "unknown_command": (2, START + b"frobnicate\n" + MORE, b"frobnicate"),
    "notes": (2, START + b"commit refs/notes/x\n" + WHO + b"data 0\nN :1 :2\n" + MORE, b"N :1 :2"),
    "malformed_mark": (3, START + b"blob\nmark 7\ndata 0\n" + MORE, b"mark 7"),
    "malformed_change": (3, START + b"commit refs/heads/x\n" + WHO + b"data 0\nM 644 foo bar\n" + MORE, b"M 644 foo bar"),
    "bad_count": (4, START + b"blob\ndata many\n" + MORE, b"data many"),
    "missing_part": (5, START + b"commit refs/heads/x\nmark :3\ndata 0\n" + MORE, b"data 0"),
    "part_elsewhere": (5, START + b"commit refs/heads/x\n" + WHO + b"mark :3\n" + MORE, b"mark :3"),
    "cut_in_a_line": (6, START + MORE + b"reset refs/heads/ma", None),
    "cut_in_data": (6, START + MORE + b"blob\ndata 100\nfew", None),
    "cut_in_delimited_data": (6, START + MORE + b"blob\ndata <<END\nfew\n", None),
    "cut_in_a_header": (5, START + MORE + b"commit refs/heads/x\n", None),
    "without_done": (7, b"feature done\n" + START + MORE, None),
    "unknown_feature": (8, b"feature notes\n" + START + MORE, b"feature notes"),
    "unknown_option": (8, b"option git depth=3\n" + START, b"option git depth=3"),
    "late_feature": (9, START + b"feature done\n" + MORE, b"feature done"),
    "bad_path": (10, START + b"commit refs/heads/x\n" + WHO + b"data 0\nM 644 :1 a//b\n" + MORE, b"M 644 :1 a//b"),
    "unclosed_quote": (10, START + b"commit refs/heads/x\n" + WHO + b'data 0\nD "a\n' + MORE, b'D "a'),
    "bad_ref": (11, START + b"reset refs/heads/a..b\n" + MORE, b"reset refs/heads/a..b"),
    "bad_mark": (12, START + b"blob\nmark :0\n" + MORE, b"mark :0"),
    "unknown_mark": (13, START + b"reset refs/heads/x\nfrom :9\n\n" + MORE, b"from :9"),
    "missing_object": (14, START + b"ls " + b"1" * 40 + b" a\n" + MORE, b"ls " + b"1" * 40 + b" a"),
    "wrong_kind": (15, START + b"reset refs/heads/x\nfrom :1\n\n" + MORE, b"from :1"),
    "unknown_revision": (16, START + b"reset refs/heads/x\nfrom nothing\n\n" + MORE, b"from nothing"),
    "source_missing": (18, START + b"commit refs/heads/x\n" + WHO + b"data 0\nC q r\n" + MORE, b"C q r"),
    "from_itself": (19, START + b"reset refs/heads/main\nfrom refs/heads/main\n" + MORE, b"from refs/heads/main"),
    "file_at_the_root": (20, START + b"commit refs/heads/x\n" + WHO + b'data 0\nM 644 :1 ""\n' + MORE, b'M 644 :1 ""'),
    "bad_identity": (21, START + b"commit refs/heads/x\ncommitter A 1 +0000\ndata 0\n" + MORE, b"committer A 1 +0000"),
    "bad_date": (22, START + b"commit refs/heads/x\ncommitter A <a@b> now\ndata 0\n" + MORE, b"committer A <a@b> now"),
    "bad_mode": (23, START + b"commit refs/heads/x\n" + WHO + b"data 0\nM 100664 :1 b\n" + MORE, b"M 100664 :1 b"),
    "data_too_large": (25, START + b"blob\ndata 67108865\n" + MORE, b"data 67108865"),
    "path_too_deep": (25, START + b"commit refs/heads/x\n" + WHO + b"data 0\nM 644 :1 " + b"d/" * 256 + b"f\n", b"M 644 :1 " + b"d/" * 256 + b"f"),
    "line_too_long": (1, START + b"progress " + b"x" * 1_048_567 + b"\n" + MORE, b"progress " + b"x" * 1_048_567),
    "after_much": (2, START + (b"blob\ndata 1000\n" + b"frobnicate\n" * 90 + b"x" * 10 + b"\n") * 3000 + b"frobnicate\n" + MORE, b"frobnicate"),
    "tag_of_a_tree": (15, START + b"checkpoint\ntag t\nfrom " + b"refs/heads/main^{tree}\n" + WHO.replace(b"committer", b"tagger") + b"data 0\n", b"data 0"),
}


def is_refused(room: Room, front: bytes) -> bool:
    """Whether the program refuses a front of a stream that goes on: so the end of the front itself is asked nothing."""
    step = b"\1\0\1t\0\0\0\0"
    for at in range(0, len(front), 1 << 20):
        piece = front[at : at + (1 << 20)]
        step += b"\2\0\1t" + len(piece).to_bytes(4, "big") + piece
    out = subprocess.run([room.program, "serve", "--pool", room.path("bisected.pool")], input=step, capture_output=True).stdout
    at, status = 0, 0
    while at < len(out):
        status = status or out[at]
        at += 17 + int.from_bytes(out[at + 9 : at + 17], "big")
    return status == 1


def bisected(room: Room, stream: bytes) -> Optional[int]:
    """How many bytes the shortest front has that is refused, or None."""
    if not is_refused(room, stream):
        return None
    good, bad = 0, len(stream)
    while bad - good > 1:
        middle = (good + bad) // 2
        good, bad = (good, middle) if is_refused(room, stream[:middle]) else (middle, bad)
    return bad


def line_of(stream: bytes, byte: int) -> Tuple[int, bytes]:
    """The number and the text of the line that a byte stands in, counted from 1."""
    start = stream.rfind(b"\n", 0, byte - 1) + 1
    end = stream.find(b"\n", byte - 1)
    return stream.count(b"\n", 0, start) + 1, stream[start : end if end >= 0 else len(stream)]


TOLD = re.compile(r"gitpool-import: refused (at|at the end of the stream, after) byte ([0-9]+), line ([0-9]+): (.*)")


def tells_the_place(room: Room, name: str) -> None:
    """Asks that gitpool-import tells the place of a broken stream, from a file and from a pipe."""
    number, stream, line = BROKEN[name]
    with open(room.path(name), "wb") as file:
        file.write(stream)
    for words, data in (((room.path(name),), b""), (("-", "acme/site", "--pool", room.pool), stream)):
        said = text(room.client("gitpool-import", *words, data=data, status=1).stderr)
        found = TOLD.match(said)
        assert found, said[:500]
        assert f"\nfault {number}: " in said, said[:500]
        byte = bisected(room, stream)
        if line is None:
            assert byte is None and found[1] != "at" and int(found[2]) == len(stream), said
            continue
        assert byte is not None and found[1] == "at" and int(found[2]) == byte, (byte, said[:500])
        assert (int(found[3]), line) == line_of(stream, byte), (line_of(stream, byte), said[:500])
        shown = line if len(line) <= 200 else line[:200] + b".."
        assert found[4] == shown.decode(), said[:500]


def _scene_of(name: str) -> None:
    def told(room: Room) -> None:
        tells_the_place(room, name)

    told.__name__ = f"place_of_{name}"
    scene(told)


for _name in BROKEN:
    _scene_of(_name)


@scene
def a_place_within_a_command(room: Room) -> None:
    stream = START + b"commit refs/heads/x\n" + WHO + b"data 16\nblob\ntag x\nfrom\n\nM 644 :1 b\nM 1 2 3\n"
    said = text(room.client("gitpool-import", "-", data=stream, status=1).stderr)
    assert "line 21: M 1 2 3\n  in the command of line 13: commit refs/heads/x\n" in said, said
