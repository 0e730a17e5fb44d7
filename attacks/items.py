"""Where the items of a stream of git-fast-import(1) end: its lines, data and blank lines. A small reading for the well-formed
streams of this folder's scripts; crates/stream_lex has the definition."""
import re
from typing import List, Match, Optional

DATA = re.compile(rb"data (?:<<(.+)|([0-9]{1,20}))\Z")


def data_end(stream: bytes, at: int, said: Match[bytes]) -> Optional[int]:
    """Where a data ends whose header was read up to this place; None where it is not whole."""
    delimiter, count = said.groups()
    if count is not None:
        end = at + int(count)
        return end if end <= len(stream) else None
    end = (b"\n" + stream[at:]).find(b"\n" + delimiter + b"\n")
    return None if end < 0 else at + end + len(delimiter) + 1


def item_ends(stream: bytes) -> List[int]:
    """The place after each item, up to the first `done`. A comment is no item, nor is a line end directly after a data."""
    ends: List[int] = []
    at, after_data = 0, False
    while True:
        end = stream.find(b"\n", at)
        if end < 0:
            return ends
        line, skipped = stream[at:end], after_data
        at, after_data = end + 1, False
        if line.startswith(b"#") or (not line and skipped):
            continue
        said = DATA.match(line)
        if said:
            whole = data_end(stream, at, said)
            if whole is None:
                return ends
            at, after_data = whole, True
        ends.append(at)
        if line == b"done":
            return ends
