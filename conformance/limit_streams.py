"""Streams at a limit and one past it, which are too large to stand in files: each with its fault, or 0. None of them prints anything."""
from __future__ import annotations

from typing import Dict, Tuple

LONGEST_LINE = 1_048_575
LONGEST_PATH = 16_383
LONGEST_REF = 1_024

_COMMITTER = b"committer C O Mitter <c@example.com> 1700000000 +0100\n"


def _of_components(start: bytes, size: int) -> bytes:
    """A name of so many bytes, in components of at most 200."""
    return (start + (b"c" * 199 + b"/") * (size // 200 + 1))[: size - 1] + b"e"


def _commit(ref: bytes, change: bytes = b"") -> bytes:
    return b"commit " + ref + b"\n" + _COMMITTER + b"data 0\n" + change


def _file_at(path: bytes) -> bytes:
    return _commit(b"refs/heads/m", b"M 100644 inline " + path + b"\ndata 0\n")


LIMIT_STREAMS: Dict[str, Tuple[bytes, int]] = {
    "line_of_the_limit": (b"#" * LONGEST_LINE + b"\n" + _commit(b"refs/heads/m"), 0),
    "line_too_long": (b"#" * (LONGEST_LINE + 1) + b"\n" + _commit(b"refs/heads/m"), 1),
    "path_of_the_limit": (_file_at(_of_components(b"", LONGEST_PATH)), 0),
    "path_too_long": (_file_at(_of_components(b"", LONGEST_PATH + 1)), 25),
    "ref_name_of_the_limit": (_commit(_of_components(b"refs/heads/", LONGEST_REF)), 0),
    "ref_name_too_long": (_commit(_of_components(b"refs/heads/", LONGEST_REF + 1)), 25),
    "count_past_64_bits": (b"blob\ndata 18446744073709551616\n", 4),
    "count_of_21_digits": (b"blob\ndata 000000000000000000000\n", 4),
    "date_of_20_digits": (_commit(b"refs/heads/m").replace(b"1700000000", b"00000000001700000000"), 0),
    "date_of_21_digits": (_commit(b"refs/heads/m").replace(b"1700000000", b"000000000001700000000"), 22),
}
