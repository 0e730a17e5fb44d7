"""A service in this process, by the library gitpool. A program that uses the module gitpool changes one import:

    from gitpool_library import Service             # in place of: from gitpool import Service

    with Service("all.pool") as service:
        service.import_stream("acme/site", open("site.fi", "rb"))
        for ref in service.refs("acme/site"):
            print(ref.name, ref.target)

No program is started, and no frame is written: a question takes some microseconds. The calls, their values and their faults are those of
gitpool.Service. Two things differ. Where memory runs out, and in a stream that is dead since then, OutOfMemory is raised; gitpool raises
Fault 90 in such a stream. And a pool file that a server keeps is refused: use gitpool for it.

The library is the file that the environment variable GITPOOL_LIBRARY names, else libgitpool.so.0 two folders above this file's, where an
install puts it, else the one that the system finds. Use a Service on the thread that made it: it is not proved that it may be moved to another
thread. A call is refused while another thread's is at work. Loads, saves, feeds and exports let other threads of Python run; a question, which
mostly takes microseconds, does not.
"""
from __future__ import annotations

import ctypes
import os
from ctypes import POINTER, byref, c_bool, c_char_p, c_size_t, c_uint32, c_uint64, c_void_p
from typing import Any, Callable, Dict, Iterable, Iterator, List, Optional, Sequence, Tuple

from gitpool_calls import Calls, pieces_of
from gitpool_frames import AS_OPENED, LONGEST_BODY, PIECE, Answer, Fault, Kind, OutOfMemory, Step, Text, as_bytes
from gitpool_pool_file import PoolFile
from gitpool_program import TRY_AGAIN, PathLike, PoolBusy, ServiceError, error_of, folder_of_server
from gitpool_replies import GitObject, LogEntry, Ref, Sizes, TreeEntry, read_kept, read_log, read_object, read_refs, read_sizes, read_tree, unquote

__all__ = [
    "LONGEST_BODY", "PIECE", "TRY_AGAIN", "Answer", "Fault", "GitObject", "Kind", "LogEntry", "OutOfMemory", "PoolBusy", "Ref", "Service",
    "ServiceError", "Sizes", "Step", "Text", "TreeEntry", "as_bytes", "find_library", "pieces_of", "read_kept", "read_log", "read_object",
    "read_refs", "read_sizes", "read_tree", "unquote",
]

_OUT_OF_MEMORY = 90
_LONGEST_NAME = 64

# How many bytes of a reply are read at once; most have fewer.
_ROOM = 65_536


class _Lengths(Dict[int, c_size_t]):
    """Lengths as values of C. Those of short names and questions are made once."""

    def __missing__(self, length: int) -> c_size_t:
        return c_size_t(length)


_LENGTHS = _Lengths((it, c_size_t(it)) for it in range(256))


class _Handle(ctypes.Structure):
    """A service, a reply or a list of sizes of the library."""

    _fields_ = [("at", c_void_p)]


class _TenantSizes(ctypes.Structure):
    _fields_ = [("objects", c_uint64), ("bytes", c_uint64), ("own_bytes", c_uint64), ("refs", c_uint64), ("tenant_length", c_size_t)]


# What each call of include/gitpool.h answers and takes. A pointer to a handle goes as its address, which is the fastest.
_CALLS: Dict[str, Tuple[Any, Sequence[Any]]] = {
    "gitpool_new": (c_uint32, [c_void_p]),
    "gitpool_load": (c_uint32, [c_void_p, c_char_p, c_size_t]),
    "gitpool_load_lent": (c_uint32, [c_void_p, c_void_p, c_size_t]),
    "gitpool_save": (c_uint32, [c_void_p, c_void_p]),
    "gitpool_free": (None, [c_void_p]),
    "gitpool_open": (c_uint32, [c_void_p, c_char_p, c_size_t, c_void_p]),
    "gitpool_feed": (c_uint32, [c_void_p, c_char_p, c_size_t, c_char_p, c_size_t, c_void_p]),
    "gitpool_end": (c_uint32, [c_void_p, c_char_p, c_size_t, c_void_p]),
    "gitpool_ask": (c_uint32, [c_void_p, c_char_p, c_size_t, c_char_p, c_size_t, c_void_p]),
    "gitpool_restart": (c_uint32, [c_void_p, c_void_p]),
    "gitpool_copy": (c_uint32, [c_void_p, c_char_p, c_size_t, c_char_p, c_size_t]),
    "gitpool_remove": (c_uint32, [c_void_p, c_char_p, c_size_t]),
    "gitpool_compact": (c_uint32, [c_void_p, c_char_p, c_size_t]),
    "gitpool_abandon": (c_uint32, [c_void_p, c_char_p, c_size_t]),
    "gitpool_list_sizes": (c_uint32, [c_void_p, c_void_p]),
    "gitpool_reply_new": (c_uint32, [c_void_p]),
    "gitpool_reply_items": (c_uint64, [c_void_p]),
    "gitpool_reply_length": (c_size_t, [c_void_p]),
    "gitpool_reply_read": (c_size_t, [c_void_p, c_size_t, c_void_p, c_size_t]),
    "gitpool_reply_free": (None, [c_void_p]),
    "gitpool_sizes_count": (c_size_t, [c_void_p]),
    "gitpool_sizes_at": (c_bool, [c_void_p, c_size_t, POINTER(_TenantSizes), c_void_p, c_size_t]),
    "gitpool_sizes_free": (None, [c_void_p]),
}


def find_library() -> str:
    """The library: what the environment variable GITPOOL_LIBRARY names, else the one of this install, else the system's."""
    given = os.environ.get("GITPOOL_LIBRARY")
    if given:
        return given
    folder = os.path.dirname(os.path.realpath(__file__))
    beside = os.path.join(folder, "..", "..", "libgitpool.so.0")
    return beside if os.path.exists(beside) else "libgitpool.so.0"


_loaded: Dict[str, Tuple[ctypes.CDLL, ctypes.CDLL]] = {}


def _library() -> Tuple[ctypes.CDLL, ctypes.CDLL]:
    """The library twice: with calls that let other threads run meanwhile, and with calls that do not. Raises ServiceError where it cannot be
    loaded."""
    path = find_library()
    if path not in _loaded:
        try:
            _loaded[path] = _typed(ctypes.CDLL(path)), _typed(ctypes.PyDLL(path))
        except OSError as error:
            raise ServiceError(127, f"the library gitpool cannot be loaded: {error}") from error
    return _loaded[path]


def _typed(library: ctypes.CDLL) -> ctypes.CDLL:
    for name, (answers, takes) in _CALLS.items():
        call = getattr(library, name)
        call.restype, call.argtypes = answers, takes
    return library


def _plain(library: ctypes.CDLL, name: str) -> Any:
    """A call that is given values of C and bytes, which ctypes passes faster as they are than by the types of what a call takes."""
    call = library[name]
    call.restype = _CALLS[name][0]
    return call


class Service(Calls):
    """A service over a pool file in this process, as a context manager.

    pool is the pool file, which need not be there yet; without one the service begins empty and keeps nothing. It is loaded now, saved by
    `close`, and locked meanwhile, as the program locks it. If this process is killed, nothing is saved.
    read_only asks for a service that locks nothing and never saves: it sees the pool as it is now, and what it is fed is lost.
    maps asks for a pool file that is mapped, and not copied: the kernel reads what is used, and drops it again. The mapping lasts as long as
    this process. Until then nobody may write into the file or shorten it; a save, which puts another file in its place, does neither.
    program, own_run and dies_with_us are those of gitpool.Service, and mean nothing here.

    Leaving the `with` block closes the service, and kills it where an exception leaves the block.
    Raises PoolBusy where another run has the pool file, and ServiceError where it cannot be loaded. Each call raises ServiceError where the
    service is closed, and while another thread's call is at work.
    """

    def __init__(self, pool: Optional[PathLike] = None, program: Optional[PathLike] = None, *, read_only: bool = False,
                 own_run: bool = False, dies_with_us: bool = False, maps: bool = False):
        del program, own_run, dies_with_us
        self._ended = True
        # One entry: the call that takes it has the service until it puts it back. A list does that in a quarter of the time of a lock.
        self._turn: List[None] = [None]
        self._library, self._holding = _library()
        self._service, self._reply = _Handle(), _Handle()
        # (Any: a slice of it is bytes)
        self._room: Any = ctypes.create_string_buffer(_ROOM)
        self._bind()
        self._pool = None if pool is None else self._take(pool, read_only)
        try:
            self._fill(maps)
        except BaseException:
            self.kill()
            raise

    def _bind(self) -> None:
        """Keeps what each question needs, so that none looks it up or makes it again."""
        self._at, self._reply_at, self._room_at = (c_void_p(ctypes.addressof(it)) for it in (self._service, self._reply, self._room))
        self._from, self._room_length = c_size_t(0), c_size_t(_ROOM)
        self._ask_call, self._read_call = (_plain(self._holding, it) for it in ("gitpool_ask", "gitpool_reply_read"))
        self._take_turn, self._give_turn = self._turn.pop, self._turn.append

    @staticmethod
    def _take(pool: PathLike, read_only: bool) -> PoolFile:
        if not read_only and folder_of_server(pool) is not None:
            raise ServiceError(4, f"{os.fspath(pool)} belongs to a server: use the module gitpool, which asks it")
        return PoolFile(pool, is_locked=not read_only)

    def _fill(self, maps: bool) -> None:
        self._ended = False
        mapped = self._pool.mapped() if self._pool and maps else None
        content = self._pool.read() if self._pool and mapped is None else None
        if mapped is not None:
            first = ctypes.addressof(ctypes.c_char.from_buffer(mapped))
            self._made(self._library.gitpool_load_lent(self._at, first, len(mapped)))
        elif content is not None:
            self._made(self._library.gitpool_load(self._at, content, len(content)))
        else:
            self._made(self._library.gitpool_new(self._at))
        self._made(self._library.gitpool_reply_new(self._reply_at))

    def _made(self, number: int) -> None:
        if number:
            raise error_of(self._pool.path if self._pool else "", 5 if number == _OUT_OF_MEMORY else 3, f"gitpool: fault {number}", locks=False)

    @property
    def is_served(self) -> bool:
        """Whether this is a connection to a server: it is not."""
        return False

    def __enter__(self) -> "Service":
        return self

    def __exit__(self, kind: object, _value: object, _trace: object) -> None:
        if kind is None:
            self.close()
        else:
            self.kill()

    def __del__(self) -> None:
        if not getattr(self, "_ended", True):
            self.kill()

    # Steps

    def step(self, step: Step) -> Answer:
        """Takes one step, or a request of the operator, and gives its answer."""
        self._begin()
        try:
            return self._taken(step)
        finally:
            self._give_turn(None)

    def _begin(self) -> None:
        """Begins a call, which has to release the service at its end."""
        try:
            self._take_turn()
        except IndexError:
            raise ServiceError(0, "another thread uses the service") from None
        if self._ended:
            self._give_turn(None)
            raise ServiceError(0, "the service was closed")

    def _taken(self, step: Step) -> Answer:
        take = {
            Kind.OPEN: self._take_open, Kind.FEED: self._take_feed, Kind.END: self._take_end, Kind.ASK: self._take_ask,
            Kind.RESTART: self._take_restart, Kind.SAVE: self._take_save, Kind.SIZES: self._take_sizes, Kind.COPY: self._take_copy,
        }.get(step.kind)
        return take(step) if take else self._take_request(step)

    def _take_open(self, step: Step) -> Answer:
        return self._answer(self._library.gitpool_open(self._at, step.tenant, len(step.tenant), self._reply_at))

    def _take_feed(self, step: Step) -> Answer:
        tenant, body = step.tenant, step.body
        return self._answer(self._library.gitpool_feed(self._at, tenant, len(tenant), body, len(body), self._reply_at))

    def _take_end(self, step: Step) -> Answer:
        return self._answer(self._library.gitpool_end(self._at, step.tenant, len(step.tenant), self._reply_at))

    def _take_ask(self, step: Step) -> Answer:
        tenant, body = step.tenant, step.body
        return self._answer(self._library.gitpool_ask(self._at, tenant, len(tenant), body, len(body), self._reply_at))

    def _take_restart(self, _: Step) -> Answer:
        return self._answer(self._library.gitpool_restart(self._at, self._reply_at))

    def _answer(self, number: int) -> Answer:
        reply = self._replied()
        if number == _OUT_OF_MEMORY:
            return Answer(2, self._library.gitpool_reply_items(self._reply_at), reply)
        return Answer(int(number > 0), number, reply)

    def _replied(self) -> bytes:
        """The bytes of the last reply."""
        size: int = self._read_call(self._reply_at, self._from, self._room_at, self._room_length)
        found: bytes = self._room[:size]
        return found if size < _ROOM else self._whole()

    def _whole(self) -> bytes:
        whole = ctypes.create_string_buffer(self._library.gitpool_reply_length(self._reply_at))
        self._library.gitpool_reply_read(self._reply_at, 0, ctypes.addressof(whole), len(whole))
        return whole.raw

    # (the steps of which there are many, without a Step)

    def feed(self, tenant: Text, data: bytes) -> bytes:
        """Feeds bytes of the tenant's stream, cut anywhere, and gives what they print. Raises Fault 30 where the tenant has no stream, and a
        stream's own faults."""
        name = as_bytes(tenant)
        self._begin()
        try:
            number = self._library.gitpool_feed(self._at, name, len(name), data, len(data), self._reply_at)
            return self._answer(number).check() if number else self._replied()
        finally:
            self._give_turn(None)

    def ask(self, tenant: Text, query: Text) -> bytes:
        """The answer to a query (QUERIES in gitpool(1)) about the tenant's last checkpoint. Raises Fault: 15, 16, 17, 25, 32, 40 or 41."""
        name = tenant if isinstance(tenant, bytes) else as_bytes(tenant)
        text = query if isinstance(query, bytes) else as_bytes(query)
        try:
            self._take_turn()
        except IndexError:
            raise ServiceError(0, "another thread uses the service") from None
        try:
            if self._ended:
                raise ServiceError(0, "the service was closed")
            number = self._ask_call(self._at, name, _LENGTHS[len(name)], text, _LENGTHS[len(text)], self._reply_at)
            if number:
                return self._answer(number).check()
            size = self._read_call(self._reply_at, self._from, self._room_at, self._room_length)
            found: bytes = self._room[:size]
            return found if size < _ROOM else self._whole()
        finally:
            self._give_turn(None)

    def export(self, tenant: Text) -> bytes:
        """The tenant's repository as a stream of git-fast-import(1). Raises Fault 25 where its refs are too many."""
        return self.step(Step(Kind.ASK, as_bytes(tenant), b"export")).check()

    # Requests of the operator

    def _take_request(self, step: Step) -> Answer:
        call = {
            Kind.ABANDON: self._library.gitpool_abandon, Kind.REMOVE: self._library.gitpool_remove, Kind.COMPACT: self._library.gitpool_compact,
        }[step.kind]
        return self._done(call(self._at, step.tenant, len(step.tenant)))

    def _take_copy(self, step: Step) -> Answer:
        return self._done(self._library.gitpool_copy(self._at, step.tenant, len(step.tenant), step.body, len(step.body)))

    def _take_save(self, step: Step) -> Answer:
        if step.body == AS_OPENED:
            raise NotImplementedError("the library saves last checkpoints alone: use the module gitpool")
        if self._pool is None or not self._pool.is_locked:
            return self._done(0)
        answer = self._answer(self._library.gitpool_save(self._at, self._reply_at))
        return answer if answer.status else self._done(0 if self._pool.save(answer.reply) else 68)

    @staticmethod
    def _done(number: int) -> Answer:
        return Answer(2, 0, b"") if number == _OUT_OF_MEMORY else Answer(int(number > 0), number, b"")

    def _take_sizes(self, _: Step) -> Answer:
        sizes = _Handle()
        number = self._library.gitpool_list_sizes(self._at, byref(sizes))
        if number:
            return self._done(number)
        lines = [self._line_of(sizes, place) for place in range(self._library.gitpool_sizes_count(byref(sizes)))]
        self._library.gitpool_sizes_free(byref(sizes))
        return Answer(0, 0, b"".join(lines))

    def _line_of(self, sizes: _Handle, place: int) -> bytes:
        told, name = _TenantSizes(), ctypes.create_string_buffer(_LONGEST_NAME)
        self._library.gitpool_sizes_at(byref(sizes), place, byref(told), name, _LONGEST_NAME)
        numbers = (told.objects, told.bytes, told.own_bytes, told.refs)
        return b"%b objects %d bytes %d own %d refs %d\n" % (name.raw[: told.tenant_length], *numbers)

    # Many questions

    def feed_while(self, tenant: Text, data: bytes, work: Callable[[], None]) -> bytes:
        """Feeds, and then does the work: nothing else is at work meanwhile."""
        printed = self.feed(tenant, data)
        work()
        return printed

    def ask_many(self, tenant: Text, queries: Iterable[bytes]) -> Iterator[Answer]:
        """The answers to many queries in turn."""
        name = as_bytes(tenant)
        return (self.step(Step(Kind.ASK, name, it)) for it in queries)

    def ask_in_pieces(self, tenant: Text, query: Text, size: int = PIECE) -> Iterator[bytes]:
        """The same as `ask`, in pieces of this size."""
        reply = self.ask(tenant, query)
        return (reply[at : at + size] for at in range(0, len(reply), size))

    def objects(self, tenant: Text, names: Sequence[bytes], *, check: bool = True) -> Iterator[Tuple[bytes, bytes]]:
        """The kind and the contents of many objects in turn, of which the names are given in hexadecimal digits. Raises Fault 16 where one is
        not there. check says nothing here: no other program answers."""
        del check
        for name in names:
            reply = self.ask(tenant, b"cat " + name)
            at = reply.index(b"\n")
            yield reply[41 : reply.index(b" ", 41)], reply[at + 1 : -1]

    # The end

    def close(self) -> None:
        """Saves the pool file, and gives the memory back. Raises ServiceError where it cannot be saved; the pool file is then as it was. A
        service that has ended already is left alone."""
        if self._ended:
            return
        self._begin()
        try:
            answer = self._take_save(Step(Kind.SAVE))
        finally:
            self._give_back()
            self._give_turn(None)
        if answer.status:
            number = answer.value if answer.status == 1 else _OUT_OF_MEMORY
            raise ServiceError(4 if number == 68 else 5, f"nothing was saved: {Fault(number).meaning}", number)

    def kill(self) -> None:
        """Gives the memory back, and saves nothing: the pool file is as it was."""
        if not self._ended:
            self._begin()
            try:
                self._give_back()
            finally:
                self._give_turn(None)

    def _give_back(self) -> None:
        self._ended = True
        if self._reply.at:
            self._library.gitpool_reply_free(self._reply_at)
        if self._service.at:
            self._library.gitpool_free(self._at)
        if self._pool:
            self._pool.release()
