"""The calls of a service over its steps: what each way to a service has in common."""
from __future__ import annotations

from typing import BinaryIO, Callable, Iterable, Iterator, List, Optional, Sequence, Tuple, Union

from gitpool_frames import AS_OPENED, LONGEST_BODY, PIECE, Answer, Fault, Kind, Step, Text, as_bytes
from gitpool_replies import GitObject, LogEntry, Ref, Sizes, TreeEntry, read_log, read_object, read_refs, read_sizes, read_tree


def pieces_of(source: Union[BinaryIO, Iterable[bytes]], size: int = PIECE) -> Iterator[bytes]:
    """A stream in pieces of at most size bytes: of a file as they come, of a list of pieces each cut where it is longer."""
    for part in _parts_of(source, size):
        for at in range(0, len(part), size):
            yield part[at : at + size]


def _parts_of(source: Union[BinaryIO, Iterable[bytes]], size: int) -> Iterable[bytes]:
    read: Optional[Callable[[int], bytes]] = getattr(source, "read1", None) or getattr(source, "read", None)
    return iter(lambda: read(size), b"") if read is not None else source  # type: ignore[misc]


class Calls:
    """The calls of a service. Each takes a step, or some, and gives its reply; a class below says how a step is taken.

    Each raises Fault where it is refused, and OutOfMemory where there is no memory for it.
    """

    # Steps

    def step(self, step: Step) -> Answer:
        """Takes one step, and gives its answer."""
        raise NotImplementedError

    def open(self, tenant: Text) -> None:
        """Opens a stream of the tenant. Raises Fault 31 where it has one, and 32 where its name is bad."""
        self.step(Step(Kind.OPEN, as_bytes(tenant))).check()

    def feed(self, tenant: Text, data: bytes) -> bytes:
        """Feeds bytes of the tenant's stream, cut anywhere, and gives what they print. More than LONGEST_BODY bytes go in
        several steps. Raises Fault 30 where the tenant has no stream, and a stream's own faults."""
        cut = [data[at : at + LONGEST_BODY] for at in range(0, len(data), LONGEST_BODY)] or [b""]
        return b"".join(self.step(Step(Kind.FEED, as_bytes(tenant), it)).check() for it in cut)

    def end(self, tenant: Text) -> bytes:
        """Ends the tenant's stream, which is a checkpoint, and gives what that prints. It lasts from `close` on; where a server
        keeps the pool file, from the answer on. Raises
        Fault 30 where the tenant has no stream, and the faults of a stream that may not end here."""
        return self.step(Step(Kind.END, as_bytes(tenant))).check()

    def ask(self, tenant: Text, query: Text) -> bytes:
        """The answer to a query (QUERIES in gitpool(1)) about the tenant's last checkpoint. Raises Fault: 15, 16, 17, 25, 32,
        40 or 41."""
        return self.step(Step(Kind.ASK, as_bytes(tenant), as_bytes(query))).check()

    def restart(self) -> None:
        """Drops all open streams back to their last checkpoints."""
        self.step(Step(Kind.RESTART)).check()

    # Requests of the operator

    def save(self, as_opened: bool = False) -> None:
        """Saves the pool file now; streams go on. Of a tenant with a stream the file gets the last checkpoint, or with as_opened
        what it had when that stream was opened. Raises Fault 68 where the file cannot be written; it is then as it was."""
        self.step(Step(Kind.SAVE, b"", AS_OPENED if as_opened else b"")).check()

    def abandon(self, tenant: Text) -> None:
        """Gives up the tenant's stream: its last checkpoint stays. Raises Fault 30 where it has none, and 32."""
        self.step(Step(Kind.ABANDON, as_bytes(tenant))).check()

    def remove(self, tenant: Text) -> None:
        """Removes the tenant, with all that it alone has. Raises Fault 31 where it has a stream, and 32."""
        self.step(Step(Kind.REMOVE, as_bytes(tenant))).check()

    def compact(self, tenant: Text) -> None:
        """Drops the objects that no ref of the tenant reaches. Raises Fault 31 where it has a stream, and 32."""
        self.step(Step(Kind.COMPACT, as_bytes(tenant))).check()

    def copy(self, source: Text, target: Text) -> None:
        """Copies what a tenant has at its last checkpoint to an empty one. Raises Fault 31 where that has a stream, 32, and 33
        where it has something."""
        self.step(Step(Kind.COPY, as_bytes(source), as_bytes(target))).check()

    def sizes(self) -> List[Sizes]:
        """What each tenant has at its last checkpoint, in the order of their names."""
        return read_sizes(self.step(Step(Kind.SIZES)).check())

    # Answers as values

    def refs(self, tenant: Text) -> List[Ref]:
        """All refs of the tenant, in the order of their bytes."""
        return read_refs(self.ask(tenant, b"refs"))

    def head(self, tenant: Text) -> bytes:
        """The ref that the tenant's HEAD names, which need not be there."""
        return self.ask(tenant, b"head")[:-1]

    def resolve(self, tenant: Text, expression: Text) -> str:
        """The name of the object that an expression of gitrevisions(7) names. Raises Fault 15, 16, 17 or 41."""
        return self.ask(tenant, b"rev-parse " + as_bytes(expression))[:-1].decode()

    def log(self, tenant: Text, commits: Text) -> List[LogEntry]:
        """The commits of a range, from new to old. Raises Fault as `resolve` does."""
        return read_log(self.ask(tenant, b"log " + as_bytes(commits)))

    def tree(self, tenant: Text, expression: Text) -> List[TreeEntry]:
        """The entries of the tree that an expression names or peels to. Raises Fault as `resolve` does."""
        return read_tree(self.ask(tenant, b"ls " + as_bytes(expression)))

    def object(self, tenant: Text, expression: Text) -> GitObject:
        """The object that an expression names. Raises Fault as `resolve` does."""
        return read_object(self.ask(tenant, b"cat " + as_bytes(expression)))

    def export(self, tenant: Text) -> bytes:
        """The tenant's repository as a stream of git-fast-import(1). Raises Fault 25 where its refs are too many."""
        return self.ask(tenant, b"export")

    def import_stream(self, tenant: Text, source: Union[BinaryIO, Iterable[bytes]], size: int = PIECE,
                      told: Optional[Callable[[int, bytes], None]] = None) -> bytes:
        """Imports a whole stream, a file or a list of pieces, and gives all that it prints. After each piece told is called
        with the bytes fed so far and what the piece printed. Raises Fault where the stream is refused; it is then closed,
        and the tenant is as at its last checkpoint."""
        self.open(tenant)
        fed, printed = 0, []
        try:
            for piece in pieces_of(source, min(size, LONGEST_BODY)):
                printed.append(self.feed(tenant, piece))
                fed += len(piece)
                if told:
                    told(fed, printed[-1])
        except Fault:
            # A dead stream answers its number again, and is closed by its End.
            self.step(Step(Kind.END, as_bytes(tenant)))
            raise
        printed.append(self.end(tenant))
        return b"".join(printed)
