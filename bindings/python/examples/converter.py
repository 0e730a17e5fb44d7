#!/usr/bin/env python3
"""A converter: reads a list of changes from standard input, writes a stream of git-fast-import(1) in pieces, and tells where it is refused.

    printf '0\\tA <a@b>\\tREADME\\thello\\tfirst\\n' | converter.py

A change is a line: the time in seconds since 1970, the author, a path, its new contents, and a message, with tabs between them. Each change
becomes a commit, and each commit is a piece of the stream.
"""
import sys
from typing import BinaryIO, Iterator, Tuple

from gitpool_library import Fault, Service

TENANT = b"site"


def commits_of(lines: BinaryIO) -> Iterator[bytes]:
    """A commit for each change, up to a line that is none."""
    for line in lines:
        cells = line.rstrip(b"\n").split(b"\t", 4)
        if len(cells) < 5:
            return
        when, author, path, contents, message = cells
        head = b"commit refs/heads/main\ncommitter %b %b +0000\ndata %d\n%b\n" % (author, when, len(message), message)
        yield head + b"M 644 inline %b\ndata %d\n%b\n" % (path, len(contents), contents)


def place_of(stream: bytes, accepted: int) -> Tuple[int, int]:
    """Where a stream is refused whose first bytes, `accepted` of them, are taken: the last byte of the shortest prefix that is refused, and
    its line. Both count from 1. If only its end is refused, that is the place after the last byte.

    It was begun over an empty repository, so a second service takes it once more: what was accepted in one piece, and then byte by byte."""
    at = accepted
    with Service() as service:
        service.open(TENANT)
        service.feed(TENANT, stream[:accepted])
        try:
            while at < len(stream):
                service.feed(TENANT, stream[at : at + 1])
                at += 1
        except Fault:
            pass
    return at + 1, 1 + stream.count(b"\n", 0, at)


def convert(lines: BinaryIO) -> int:
    """Feeds the commits of the changes, and prints what has become of them."""
    fed, accepted = [], 0
    with Service() as service:
        service.open(TENANT)
        try:
            for commit in commits_of(lines):
                fed.append(commit)
                service.feed(TENANT, commit)
                accepted += len(commit)
            service.end(TENANT)
        except Fault as fault:
            byte, line = place_of(b"".join(fed), accepted)
            print(f"fault {fault.number} at byte {byte}, line {line}")
            return 1
        objects = sum(it.objects for it in service.sizes())
    print(f"{accepted} bytes of stream, {objects} contents")
    return 0


if __name__ == "__main__":
    sys.exit(convert(sys.stdin.buffer))
