"""Speaks to a service: steps as frames, answers as values.

    with Service("all.pool") as service:
        service.open(b"acme/site")
        service.feed(b"acme/site", stream)          # pieces of any size, cut anywhere
        service.end(b"acme/site")
        for ref in service.refs(b"acme/site"):
            print(ref.name, ref.target)

A Service is one run of `gitpool host` over one pool file. It loads the whole file when it starts and saves it when its
input ends, so `close` is what makes changes last and `kill` is what gives them up. If the server gitpoold keeps the pool
file, the Service is a connection to it: it loads nothing, and an `end` lasts from its answer on. So does one of
`Service("ssh://USER@HOST/TENANT")`, which reaches one tenant of a gitpoold elsewhere. docs/FORMATS.md has the frames.

Object names are `str` of 40 hexadecimal digits. Tenants, refs, paths, queries and contents are `bytes`, for none of
them need be UTF-8; where a tenant or a query is asked for, a `str` is taken too. Sizes are bytes. A Service belongs to one
thread at a time.
"""
from __future__ import annotations

import hashlib
import os
import struct
from typing import Callable, Iterable, Iterator, List, Optional, Sequence, Tuple

from gitpool_calls import Calls, pieces_of
from gitpool_frames import (ANSWER_HEAD, LONGEST_BODY, PIECE, STEP_HEAD, STEP_SIZE, Answer, Fault, Kind, OutOfMemory, Step, Text, as_bytes,
                            read_answer, read_step, write_answer, write_step)
from gitpool_pipes import room_of
from gitpool_program import (TRY_AGAIN, Channel, OverSsh, PathLike, PoolBusy, Run, ServiceError, connect, error_of, find_program,
                             folder_of_server, link_to, pool_of_stopped_server, remote_of)
from gitpool_replies import (GitObject, Listed, Listing, LogEntry, Ref, Sizes, TreeEntry, read_kept, read_log, read_object, read_refs,
                             read_sizes, read_tree, unquote)

__all__ = [
    "LONGEST_BODY", "PIECE", "TRY_AGAIN", "Answer", "Fault", "GitObject", "Kind", "Listed", "Listing", "LogEntry", "OutOfMemory",
    "PoolBusy", "Ref", "Service", "ServiceError", "Sizes", "Step", "Text", "TreeEntry", "as_bytes", "connect", "error_of",
    "find_program", "link_to", "pieces_of", "read_answer", "read_kept", "read_log", "read_object", "read_refs", "read_sizes",
    "read_step", "read_tree", "remote_of", "unquote", "write_answer", "write_step",
]

# About how many bytes of entries are asked for at once.
_ENTRY_BYTES = 1 << 20

# A question for entries has fewer bytes than this before the names.
_BEFORE_NAMES = 128

_QUESTIONS = (Kind.ASK, Kind.SIZES, Kind.MISSING, Kind.ENTRIES)


class Service(Calls):
    """A service over a pool file, as a context manager.

    pool is the pool file, which need not be there yet; without one the service begins empty and keeps nothing. With
    `ssh://[USER@]HOST[:PORT]/TENANT` it is that tenant of a gitpoold, by the ssh that git would use: Open, Feed, End, Abandon and Ask of
    this tenant alone are answered, another one by Fault 32, and other steps by Fault 50.
    program is the path of gitpool; without one find_program looks for it.
    read_only asks for a service that locks nothing and never saves: it sees the pool as it is now, also while another run
    is at work, and what it is fed is lost. From a server it takes questions alone. Where there is no pool file, it is empty.
    own_run asks for a run of the program even where a server keeps the pool file; the pool file has what the server saved last,
    and such a run has to be read_only.
    command starts another program that speaks frames, in place of all these.
    dies_with_us lets the process be killed where this one is killed: otherwise it would save then what it has so far. That
    takes a second process, a shell that waits.

    Leaving the `with` block closes the service, and kills it where an exception leaves the block.
    A step that cannot be carried out raises ServiceError, or PoolBusy where another run has the pool file.
    """

    def __init__(self, pool: Optional[PathLike] = None, program: Optional[PathLike] = None, *, read_only: bool = False,
                 own_run: bool = False, command: Optional[Sequence[str]] = None, dies_with_us: bool = False):
        self._ended = False
        self._asks_only = False
        if command is not None:
            self._channel: Channel = Run(list(command), dies_with_us=dies_with_us)
        else:
            self._channel = self._find(pool, program, read_only, own_run, dies_with_us)
        self._in, self._out = self._channel.input, self._channel.output

    def _find(self, pool: Optional[PathLike], program: Optional[PathLike], read_only: bool, own_run: bool, dies_with_us: bool) -> Channel:
        remote = None if pool is None else remote_of(pool)
        if remote is not None and own_run:
            raise ServiceError(2, f"{os.fspath(pool or '')} is no pool file, over which a program could be run")
        found = OverSsh(remote) if remote is not None else connect(pool) if pool is not None and not own_run else None
        if found is not None:
            self._asks_only = read_only
            return found
        if pool is not None and not read_only and folder_of_server(pool) is not None:
            raise pool_of_stopped_server(pool)
        named = None if pool is None else os.path.abspath(os.fspath(pool))
        served, room = link_to(named) if read_only or named is None else (named, None)
        return Run([os.fspath(program or find_program()), "host", "--pool", served], named, room, dies_with_us)

    @property
    def is_served(self) -> bool:
        """Whether this is a connection to a server, where an `end` lasts from its answer on."""
        return self._channel.is_server

    @property
    def is_remote(self) -> bool:
        """Whether this is one tenant of a server, by ssh."""
        return isinstance(self._channel, OverSsh)

    def __enter__(self) -> "Service":
        return self

    def __exit__(self, kind: object, _value: object, _trace: object) -> None:
        if kind is None:
            self.close()
        else:
            self.kill()

    # Steps

    def step(self, step: Step) -> Answer:
        """Takes one step and waits for its answer. Raises ServiceError where the program ends or writes no answer."""
        self._send(write_step(step))
        return self._receive()

    def feed_while(self, tenant: Text, data: bytes, work: Callable[[], None]) -> bytes:
        """The same for at most LONGEST_BODY bytes, with work that is done while the service takes them."""
        self._send(write_step(Step(Kind.FEED, as_bytes(tenant), data)))
        work()
        return self._receive().check()

    # Many questions

    def ask_many(self, tenant: Text, queries: Iterable[bytes]) -> Iterator[Answer]:
        """The answers to many queries in turn. Questions are sent ahead of the answers, so that many short ones cost no
        round trip each. The service takes no other step before all answers are read."""
        head = STEP_HEAD.pack(Kind.ASK, len(as_bytes(tenant))) + as_bytes(tenant)
        room = room_of(self._in)
        ahead = 0
        waiting: List[bytes] = []
        for query in queries:
            frame = head + STEP_SIZE.pack(len(query)) + query
            if waiting and ahead + len(frame) > room:
                self._send(b"".join(waiting))
                yield from (self._receive() for _ in waiting)
                ahead, waiting = 0, []
            waiting.append(frame)
            ahead += len(frame)
        self._send(b"".join(waiting))
        yield from (self._receive() for _ in waiting)

    def ask_in_pieces(self, tenant: Text, query: Text, size: int = PIECE) -> Iterator[bytes]:
        """The same as `ask`, for answers that are too long to hold: in pieces, all of which have to be taken before the next
        step."""
        self._send(write_step(Step(Kind.ASK, as_bytes(tenant), as_bytes(query))))
        status, value, left = self._receive_head()
        if status:
            Answer(status, value, self._receive_bytes(left)).check()
        while left:
            piece = self._receive_bytes(min(size, left))
            left -= len(piece)
            yield piece

    def objects(self, tenant: Text, names: Sequence[bytes], *, check: bool = True) -> Iterator[Tuple[bytes, bytes]]:
        """The kind and the contents of many objects in turn, of which the names are given in hexadecimal digits. Raises
        Fault 16 where one is not there, and ServiceError where contents have another name than that; check=False leaves
        that to the caller."""
        question = STEP_HEAD.pack(Kind.ASK, len(as_bytes(tenant))) + as_bytes(tenant) + STEP_SIZE.pack(44) + b"cat "
        ahead = max(1, room_of(self._in) // (len(question) + 40))
        for at in range(0, len(names), ahead):
            part = names[at : at + ahead]
            self._send(b"".join([question + name for name in part]))
            for name in part:
                kind, contents = found = self._receive_object()
                if check and hashlib.sha1(b"%b %d\0%b" % (kind, len(contents), contents)).hexdigest().encode() != name:
                    self.kill()
                    raise ServiceError(0, f"{self._channel.name} answers other contents than those of {name.decode()}")
                yield found

    def _receive_object(self) -> Tuple[bytes, bytes]:
        """The kind and contents that an answer to `cat` has, read in one go: of this there are many."""
        head = self._read(ANSWER_HEAD.size)
        if len(head) < ANSWER_HEAD.size:
            raise self._lost()
        status, value, size = ANSWER_HEAD.unpack(head)
        reply = self._read(size)
        if len(reply) < size:
            raise self._lost()
        if status:
            Answer(status, value, reply).check()
        at = reply.index(b"\n")
        return reply[41 : reply.index(b" ", 41)], reply[at + 1 : -1]

    # Packs

    def missing(self, tenant: Text, wants: Sequence[bytes], haves: Sequence[bytes] = ()) -> Listing:
        """The objects that the wanted ones reach and the had ones do not, each after all that it refers to. Names are given in
        hexadecimal digits, of objects of any kind; a had one that the tenant has not counts for nothing. Raises Fault 16 where
        the tenant has not a wanted one, 25 where the names are more than a frame can have, 838,860, and 32."""
        body = struct.pack(">I", len(wants)) + bytes.fromhex(b"".join((*wants, *haves)).decode())
        if len(body) > LONGEST_BODY:
            raise Fault(25)
        return Listing(self.step(Step(Kind.MISSING, as_bytes(tenant), body)).check())

    def entries(self, tenant: Text, listing: Listing) -> Iterator[bytes]:
        """The entries of a pack that has these objects, in pieces of at most PIECE bytes, all of which have to be taken before the
        next step. About a megabyte is asked for while the one before is taken. Raises Fault 16 where the tenant has not an
        object, and ServiceError where entries have another length than the sizes of their objects say."""
        waiting: Optional[int] = None
        for size, names in listing.parts(_ENTRY_BYTES, room_of(self._in) - _BEFORE_NAMES):
            self._send(write_step(Step(Kind.ENTRIES, as_bytes(tenant), struct.pack(">Q", size) + names)))
            if waiting is not None:
                yield from self._receive_pieces(waiting)
            waiting = size
        if waiting is not None:
            yield from self._receive_pieces(waiting)

    def _receive_pieces(self, wanted: int) -> Iterator[bytes]:
        """An answer of so many bytes, in pieces."""
        status, value, left = self._receive_head()
        if status:
            Answer(status, value, self._receive_bytes(left)).check()
        if left != wanted:
            self.kill()
            raise ServiceError(0, f"{self._channel.name} answers entries of {left} bytes, and not of {wanted}")
        while left:
            piece = self._receive_bytes(min(PIECE, left))
            left -= len(piece)
            yield piece

    # The way to the service

    def close(self) -> None:
        """Ends the service well: a run of the program saves the pool file. Raises ServiceError where it did not end well; the
        pool file is then as it was. A service that has ended already is left alone."""
        if not self._ended:
            self._ended = True
            self._channel.close()

    def kill(self) -> None:
        """Ends the service at once. A run saves nothing: the pool file is as it was. A server gives up the streams that are
        open."""
        if not self._ended:
            self._ended = True
            self._channel.kill()

    def _lost(self) -> ServiceError:
        self._ended = True
        return self._channel.lost()

    def _send(self, frames: bytes) -> None:
        if self._ended:
            raise ServiceError(0, "the service was closed")
        if self._asks_only and frames and frames[0] not in _QUESTIONS:
            raise ServiceError(0, "this service takes questions alone")
        try:
            self._in.write(frames)
            self._in.flush()
        except (BrokenPipeError, ConnectionResetError):
            raise self._lost() from None

    def _receive(self) -> Answer:
        status, value, size = self._receive_head()
        return Answer(status, value, self._receive_bytes(size))

    def _receive_head(self) -> Tuple[int, int, int]:
        status, value, size = ANSWER_HEAD.unpack(self._receive_bytes(ANSWER_HEAD.size))
        if status > 2:
            self.kill()
            raise ServiceError(0, f"{self._channel.name} writes no answers: one has status {status}")
        self._channel.has_answered = True
        return status, value, size

    def _receive_bytes(self, size: int) -> bytes:
        found = self._read(size)
        if len(found) < size:
            raise self._lost()
        return found

    def _read(self, size: int) -> bytes:
        try:
            return self._out.read(size)
        except ConnectionResetError:
            return b""
