"""The helper that git calls for URLs gitpool::ADDRESS, by the protocol of gitremote-helpers(7)."""
from __future__ import annotations

import os
import re
import shlex
import sys
import time
from importlib import import_module
from typing import TYPE_CHECKING, BinaryIO, Dict, List, NamedTuple, Optional, Tuple

from gitpool import Fault, OutOfMemory, PoolBusy, Service, ServiceError
from gitpool_faults import explain
from gitpool_git import GitError, Repository
from gitpool_objects import Refusal
from gitpool_replies import unquote
from gitpool_terminal import shown, stop_once
from gitpool_version import version

if TYPE_CHECKING:
    from gitpool_push import Update

CAPABILITIES = b"fetch\npush\noption\ncheck-connectivity\nobject-format\n\n"

_SSH = re.compile(r"ssh://(?P<user>[^/@:]+@)?(?P<host>[^/:@\[\]]+|\[[^/@\[\]]+\])(?::(?P<port>[0-9]+))?(?P<pool>/.*)?")
_OTHER_WAY = re.compile(r"ssh:|[a-z+]+://", re.IGNORECASE)
_LONGEST_SENTENCE = 4096


class UsageError(Exception):
    """An address or a wish that cannot be met, in a sentence."""


class Address(NamedTuple):
    """Where a tenant is: its pool file, here or on another machine."""

    pool: str
    tenant: bytes
    host: Optional[str] = None
    port: Optional[str] = None


def read_address(text: str) -> Address:
    """POOL#TENANT or ssh://[USER@]HOST[:PORT][/POOL][#TENANT]. Raises UsageError for another text."""
    pool, _, tenant = text.rpartition("#") if "#" in text else (text, "", "")
    found = _SSH.fullmatch(pool)
    if found:
        host = (found["user"] or "") + found["host"].strip("[]")
        return Address(found["pool"] or "", os.fsencode(tenant), host, found["port"])
    if _OTHER_WAY.match(pool):
        raise UsageError(f"gitpool::{text} is no address: write gitpool::POOL#TENANT or gitpool::ssh://[USER@]HOST[:PORT][/POOL][#TENANT]")
    if not pool or not tenant:
        raise UsageError(f"gitpool::{text} names no tenant: write gitpool::POOL#TENANT")
    return Address(pool, os.fsencode(tenant))


def ssh_words(local: Repository, address: Address, action: str) -> List[str]:
    """The command that reaches a pool of another machine: the ssh that git would use, and gitpool-shell there."""
    given = os.environ.get("GIT_SSH_COMMAND")
    if given is None:
        try:
            given = os.fsdecode(local.run("config", "core.sshCommand").strip())
        except GitError:
            given = shlex.quote(os.environ.get("GIT_SSH", "ssh"))
    assert address.host is not None
    port = ["-p", address.port] if address.port else []
    there = ["gitpool-shell", *(["--pool", address.pool] if address.pool else []), os.fsdecode(address.tenant) or "-", action]
    return ["sh", "-c", given + ' "$@"', given, *port, "--", address.host, " ".join(map(shlex.quote, there))]


class Progress:
    """Progress on standard error, as git shows it: at most ten times a second, and where git asks for it."""

    def __init__(self) -> None:
        self.shown = False
        self._last = 0.0
        self._open = ""

    def count(self, what: str, done: int, all_of: int = 0) -> None:
        """How far something is, of how many where that is known."""
        if not self.shown:
            return
        if self._open and self._open != what:
            self.end()
        now = time.monotonic()
        if now - self._last < 0.1 and done != all_of:
            return
        self._last, self._open = now, what
        share = f"{100 * done // all_of:3d}% ({done}/{all_of})" if all_of else str(done)
        print(f"\r{what}: {share}", end="", file=sys.stderr, flush=True)

    def end(self) -> None:
        """Ends the line, if there is one."""
        if self._open:
            print(", done.", file=sys.stderr, flush=True)
        self._open = ""


class Helper:
    """One run of the helper: git asks on standard input, and is answered on standard output."""

    def __init__(self, address: Address, out: BinaryIO):
        self._address = address
        self._out = out
        self._local = Repository()
        self._service: Optional[Service] = None
        self._refs: Dict[bytes, bytes] = {}
        self._head = b""
        self._progress = Progress()
        self._verbosity = 1
        self._wishes: Dict[bytes, bytes] = {}
        self._leases: Dict[bytes, bytes] = {}

    def serve(self, asked: BinaryIO) -> None:
        """Answers git until it has no more to ask."""
        try:
            while True:
                line = asked.readline().rstrip(b"\n")
                if not line:
                    return
                self._answer(line, asked)
                self._out.flush()
        finally:
            self._local.close()
            if self._service:
                self._service.kill()

    def _answer(self, line: bytes, asked: BinaryIO) -> None:
        word, _, rest = line.partition(b" ")
        if word == b"capabilities":
            self._out.write(CAPABILITIES)
        elif word == b"option":
            self._out.write(self._option(*rest.split(b" ", 1)) + b"\n")
        elif word == b"list":
            self._list(rest == b"for-push")
        elif word in (b"fetch", b"push"):
            (self._fetch if word == b"fetch" else self._push)(self._batch(word, rest, asked))
        else:
            raise UsageError(f"git asks for {line.decode(errors='replace')}, which this helper does not know")

    @staticmethod
    def _batch(word: bytes, first: bytes, asked: BinaryIO) -> List[bytes]:
        """What stands after the word of a line and of those that follow up to an empty one."""
        rests = [first]
        while True:
            line = asked.readline().rstrip(b"\n")
            if not line:
                return rests
            rests.append(line[len(word) + 1 :])

    def _option(self, name: bytes, value: bytes = b"true") -> bytes:
        if name == b"verbosity":
            self._verbosity = int(value)
        elif name == b"progress":
            self._progress.shown = value == b"true"
        elif name == b"cas":
            ref, _, old = unquote(value).rpartition(b":")
            self._leases[ref] = old
        elif name in (b"depth", b"deepen-since", b"deepen-not", b"deepen-relative", b"filter", b"from-promisor"):
            self._wishes[b"shallow"] = name
            return b"unsupported"
        elif name in (b"dry-run", b"atomic", b"force", b"check-connectivity", b"cloning", b"followtags", b"object-format"):
            self._wishes[name] = value
        else:
            return b"unsupported"
        return b"ok"

    def _wants(self, name: bytes) -> bool:
        return self._wishes.get(name) == b"true"

    # The service

    def _start(self, writes: bool) -> Service:
        """A service that tells what is there. It locks nothing; what answers a push over ssh locks once all has come."""
        address = self._address
        if address.host:
            return Service(command=ssh_words(self._local, address, "push" if writes else "fetch"))
        if not writes and not os.path.exists(address.pool):
            raise UsageError(f"there is no pool file {address.pool}" + ("" if os.path.isabs(address.pool) else f" in {os.getcwd()}"))
        return Service(address.pool, read_only=True)

    def _start_to_write(self) -> Service:
        """A service that takes a push, which git waits for no more: a pool file of this machine is locked from here on."""
        asked, self._service = self._service, None
        if self._address.host:
            return asked or self._start(True)
        if asked:
            asked.kill()
        return Service(self._address.pool)

    def _list(self, writes: bool) -> None:
        if self._wants(b"object-format"):
            self._out.write(b":object-format sha1\n")
        if self._service:
            self._service.kill()
        self._service = self._start(writes)
        if self._local_format() != "sha1":
            raise UsageError("this repository has sha256 names; gitpool keeps sha1 alone")
        # While the program loads its file there is time to load what comes next.
        import_module("gitpool_push" if writes else "gitpool_fetch")
        found = self._service.refs(self._address.tenant)
        self._refs = {ref.name: ref.target.encode() for ref in found}
        self._head = self._service.head(self._address.tenant)
        # A push that deletes what is not here would delete HEAD too, if it were told of it.
        if self._head in self._refs and not writes:
            self._out.write(b"@%b HEAD\n" % self._head)
        peeled = {} if writes else self._peeled([ref for ref in self._refs if ref.startswith(b"refs/tags/")])
        for ref, target in self._refs.items():
            self._out.write(b"%b %b\n" % (target, ref))
            if peeled.get(ref, target) != target:
                self._out.write(b"%b %b^{}\n" % (peeled[ref], ref))
        self._out.write(b"\n")

    def _local_format(self) -> str:
        """The kind of names of the repository at hand; where there is none, as in `git ls-remote`, any will do."""
        try:
            return self._local.object_format() if os.environ.get("GIT_DIR") else "sha1"
        except GitError:
            return "sha1"

    def _peeled(self, refs: List[bytes]) -> Dict[bytes, bytes]:
        """What tags are of, in the end."""
        assert self._service
        questions = (b"rev-parse " + self._refs[ref] + b"^{}" for ref in refs)
        return {ref: answer.reply.strip() for ref, answer in zip(refs, self._service.ask_many(self._address.tenant, questions))}

    # Fetches

    def _fetch(self, batch: List[bytes]) -> None:
        if b"shallow" in self._wishes:
            raise UsageError(f"shallow and partial clones are not served (option {self._wishes[b'shallow'].decode()}): clone the whole history")
        service = self._service or self._start(False)
        self._service = service
        from gitpool_fetch import Fetch

        is_verbose = self._progress.shown and self._verbosity > 0
        fetch = Fetch(service, self._address.tenant, self._local, self._told if is_verbose else None, self._address.host is None)
        kept = fetch.run(dict.fromkeys(line.split(b" ")[0] for line in batch))
        if kept:
            self._out.write(b"lock " + os.fsencode(kept) + b"\n")
        if self._wants(b"check-connectivity") and fetch.began_empty:
            self._out.write(b"connectivity-ok\n")
        self._out.write(b"\n")

    def _told(self, what: str, count: int) -> None:
        """Tells how many there are, in a line of its own: what git says of the pack comes after it."""
        self._progress.count(what, count)
        self._progress.end()

    # Pushes

    def _push(self, batch: List[bytes]) -> None:
        from gitpool_push import Update

        updates = [Update(*self._update(line)) for line in batch]
        try:
            bad = self._carry_out(updates)
        except Refusal as refusal:
            bad = {update.ref: str(refusal) for update in updates}
        except (Fault, OutOfMemory, ServiceError, GitError) as error:
            bad = {update.ref: words_of(error) for update in updates}
        finally:
            self._progress.end()
        for update in updates:
            why = bad.get(update.ref)
            self._out.write(b"error %b %b\n" % (update.ref, _on_one_line(why)) if why else b"ok %b\n" % update.ref)
        self._out.write(b"\n")

    def _update(self, line: bytes) -> Tuple[bytes, bytes, bool]:
        source, _, ref = line.lstrip(b"+").rpartition(b":")
        leased = ref in self._leases and self._leases[ref].strip(b"0") == self._refs.get(ref, b"").strip(b"0")
        return source, ref, line.startswith(b"+") or self._wants(b"force") or leased

    def _carry_out(self, updates: "List[Update]") -> Dict[bytes, str]:
        """Makes the updates, and gives those that were not made, and why."""
        from gitpool_push import Push

        service = self._start_to_write()
        try:
            push = Push(service, self._address.tenant, self._local, self._refs, self._head, self._progress.count)
            judged, refused = push.judge(updates)
            if refused:
                others = f"nothing was pushed, for {os.fsdecode(next(iter(refused)))} was refused"
                return {update.ref: refused.get(update.ref, others) for update in updates}
            bad = push.refuse_rewinds(judged)
            judged = [it for it in judged if it.update.ref not in bad]
            if bad and self._wants(b"atomic"):
                return {update.ref: bad.get(update.ref, "atomic push failed") for update in updates}
            push.collect(judged)
            if not judged or self._wants(b"dry-run"):
                return bad
            kept = push.send(judged)
            bad.update(dict.fromkeys(kept, "non-fast forward"))
            if kept and self._wants(b"atomic"):
                return {update.ref: bad.get(update.ref, "atomic push failed") for update in updates}
            service.close()
            return bad
        finally:
            service.kill()


def _on_one_line(why: str) -> bytes:
    """A sentence as git shows it: what objects and refs bring into it tells a terminal nothing."""
    return shown(why.replace("\n", " ").encode(errors="surrogateescape"), _LONGEST_SENTENCE).encode()


def words_of(error: Exception) -> str:
    """An error as one sentence for somebody at a terminal."""
    if isinstance(error, Fault):
        told = explain(error.number)
        return f"gitpool: {told.meaning} (fault {error.number}); {told.next_step}"
    if isinstance(error, PoolBusy):
        return f"{error}"
    return str(error)


def main(words: List[str]) -> int:
    """Runs the helper with the words of its command line, and gives its status."""
    if words[1:] == ["--version"]:
        print("git-remote-gitpool", version())
        return 0
    if len(words) != 3:
        print("usage: git-remote-gitpool REMOTE ADDRESS", file=sys.stderr)
        return 2
    stop_once()
    try:
        Helper(read_address(words[2]), sys.stdout.buffer).serve(sys.stdin.buffer)
        return 0
    except BrokenPipeError:
        return 141
    except (UsageError, Refusal, Fault, OutOfMemory, ServiceError, GitError, OSError) as error:
        print(f"fatal: {words_of(error)}", file=sys.stderr)
        return 128
    except KeyboardInterrupt:
        return 130
