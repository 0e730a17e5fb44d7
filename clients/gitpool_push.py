"""Pushes refs of a Git repository to a tenant, as one stream of git-fast-import(1).

First everything is judged: the refs, and each object that the tenant has not. Then blobs, commits and tags are fed, each of
the last two with a question for its name, and what stands under the name has to be the object that was meant. The refs
change with the last piece alone. So a push that ends before it, however that comes, leaves the tenant as it was.
"""
from __future__ import annotations

import os
from typing import IO, Callable, Dict, Iterable, Iterator, List, NamedTuple, Optional, Set, Tuple

from gitpool import PIECE, Service
from gitpool_git import GitError, Repository
from gitpool_objects import (EMPTY_TREE, LONGEST_DATA, Commit, Refusal, Tag, check_path, check_ref, check_tree, quote, read_commit,
                             read_tag)

Report = Callable[[str, int, int], None]

_ZEROS = b"0" * 40
_TAGS = b"refs/tags/"
_HEADS = b"refs/heads/"


class Update(NamedTuple):
    """What one ref is to become. source is a local ref, another expression, or empty where the ref is to go."""

    source: bytes
    ref: bytes
    force: bool


class Judged(NamedTuple):
    """An update of which the target is known: its name and kind, or None where the ref is to go."""

    update: Update
    target: Optional[bytes]
    kind: bytes


class Push:
    """One push. What the tenant has is asked once, and its refs once more when nobody else can change them."""

    def __init__(self, service: Service, tenant: bytes, local: Repository, refs: Dict[bytes, bytes], head: bytes,
                 report: Report = lambda what, done, all: None):
        self._service = service
        self._tenant = tenant
        self._local = local
        self._refs = refs
        self._head = head
        self._report = report
        self._commits: List[Tuple[bytes, Commit]] = []
        self._blobs: List[bytes] = []
        self._tags: Dict[bytes, Tag] = {}

    # Judging

    def judge(self, updates: Iterable[Update]) -> Tuple[List[Judged], Dict[bytes, str]]:
        """The updates that may be made, and why the others may not, by their refs. Raises GitError and Fault."""
        good, bad = [], {}
        asked = list(updates)
        targets = self._local.resolve([update.source for update in asked if update.source])
        found = dict(zip((update.source for update in asked if update.source), targets))
        for update in asked:
            try:
                good.append(self._judge_one(update, found))
            except Refusal as refusal:
                bad[update.ref] = str(refusal)
        bad.update(self._nested_refs(good))
        return good, bad

    def _nested_refs(self, judged: List[Judged]) -> Dict[bytes, str]:
        """Refs that git could not have beside others, which stand below them or above them."""
        finals = self._finals(judged)
        above = {ref[:at]: ref for ref in finals for at in range(len(ref)) if ref[at : at + 1] == b"/"}
        bad = {}
        for it in judged:
            ref = it.update.ref
            fronts = [ref[:at] for at in range(len(ref)) if ref[at : at + 1] == b"/"]
            other = above.get(ref) or next((front for front in fronts if front in finals), None)
            if it.target and other:
                bad[ref] = f"{os.fsdecode(other)} is a ref, and git cannot have both"
        return bad

    def _finals(self, judged: List[Judged]) -> Dict[bytes, bytes]:
        """The refs as they are to be."""
        finals = dict(self._refs)
        for update, target, _ in judged:
            finals.pop(update.ref, None)
            if target:
                finals[update.ref] = target
        return finals

    def _judge_one(self, update: Update, found: Dict[bytes, Tuple[bytes, bytes]]) -> Judged:
        check_ref(update.ref)
        if not update.source:
            return Judged(update, None, b"")
        target, kind = found[update.source]
        if kind == b"tag":
            (_, _, contents), = self._local.contents([target])
            own = _TAGS + read_tag(target, contents).name
            if own != update.ref:
                raise Refusal(f"an annotated tag is kept under its own name alone, {own.decode(errors='replace')}")
        elif kind != b"commit":
            raise Refusal(f"a ref of gitpool holds a commit or an annotated tag, and no {kind.decode()}")
        return Judged(update, target, kind)

    def refuse_rewinds(self, judged: Iterable[Judged]) -> Dict[bytes, str]:
        """Which updates without force are no fast-forwards, in git's own words."""
        bad = {}
        for update, target, _ in judged:
            old = self._refs.get(update.ref)
            if old and target and old != target and not update.force:
                if next(self._local.check([old])) is None:
                    bad[update.ref] = "fetch first"
                elif not self._is_ancestor(old, target):
                    bad[update.ref] = "non-fast forward"
        return bad

    def _is_ancestor(self, old: bytes, new: bytes) -> bool:
        try:
            self._local.run("merge-base", "--is-ancestor", old.decode(), new.decode())
            return True
        except GitError:
            return False

    def collect(self, judged: List[Judged]) -> None:
        """Finds what the tenant has not, and judges it. Raises Refusal where it cannot keep an object."""
        wanted = [it.target for it in judged if it.target]
        names = self._new_names(wanted)
        self._report("Enumerating objects", len(names), 0)
        trees: List[bytes] = []
        commits: List[bytes] = []
        tags: List[bytes] = []
        places = {b"commit": commits, b"tree": trees, b"blob": self._blobs, b"tag": tags}
        for name, found in zip(names, self._local.check(names)):
            if found is None:
                raise Refusal(f"object {name.decode()} is missing in the local repository")
            if found[0] == b"blob" and found[1] > LONGEST_DATA:
                raise Refusal(f"blob {name.decode()[:12]} has more than {LONGEST_DATA} bytes, which gitpool does not keep")
            places[found[0]].append(name)
        self._blobs = self._missing(self._blobs)
        self._read_commits(self._missing(commits))
        self._read_tags(self._missing(tags), [it.target for it in judged if it.kind == b"tag" and it.target])
        for name, _, contents in self._local.contents(trees):
            check_tree(name, contents)

    def _new_names(self, wanted: List[bytes]) -> List[bytes]:
        """Objects that the wanted ones reach and the tenant's refs do not, commits first, from old to new."""
        if not wanted:
            return []
        had = sorted(set(self._refs.values()))
        here = [name for name, found in zip(had, self._local.check(had)) if found]
        asked = b"".join(name + b"\n" for name in wanted) + b"".join(b"^" + name + b"\n" for name in here)
        return self._local.lines("rev-list", "--objects", "--no-object-names", "--topo-order", "--reverse", "--stdin", data=asked)

    def _missing(self, names: List[bytes]) -> List[bytes]:
        """Which of these the tenant has not, reached or not."""
        if not self._refs:
            return names
        answers = self._service.ask_many(self._tenant, (b"rev-parse " + name for name in names))
        return [name for name, answer in zip(names, answers) if answer.status]

    def _read_commits(self, names: List[bytes]) -> None:
        new = set(names)
        for name, _, contents in self._local.contents(names):
            commit = read_commit(name, contents)
            self._commits.append((name, commit))
            if commit.parents and commit.parents[0] not in new:
                self._check_parent(name, commit.parents[0])

    def _check_parent(self, name: bytes, parent: bytes) -> None:
        if next(self._local.check([parent])) is None:
            raise Refusal(f"commit {name.decode()[:12]} has a parent that is not here: push from a repository that is not shallow")

    def _read_tags(self, new: List[bytes], held: List[bytes]) -> None:
        """Tags that are sent: new ones, and those that a ref is to hold, each after what it is of."""
        for name, _, contents in self._local.contents(list(dict.fromkeys(new + held))):
            self._tags[name] = read_tag(name, contents)
        ordered: Dict[bytes, Tag] = {}
        for name in self._tags:
            self._order_tag(name, ordered)
        self._tags = ordered

    def _order_tag(self, name: bytes, ordered: Dict[bytes, Tag]) -> None:
        chain = []
        while name in self._tags and name not in ordered:
            chain.append(name)
            name = self._tags[name].target
        for it in reversed(chain):
            ordered[it] = self._tags[it]

    # Sending

    def send(self, judged: List[Judged]) -> Set[bytes]:
        """Sends objects and refs, and gives the refs that the tenant kept because they would be rewound. Raises Fault, and
        Refusal where an object came to another name, or another push was faster; the service must then be killed."""
        stream = _Stream(self._service, self._tenant)
        self._look_again(judged)
        finals = self._finals(judged)
        taken_back = self._taken_back(finals)
        stream.put(self._preamble(judged, finals, bool(taken_back)))
        self._send_blobs(stream)
        scratch = self._scratch(finals)
        self._send_commits(stream, scratch)
        for name, tag in self._tags.items():
            stream.put(tag_command(tag, b"mark :1\n"))
            stream.expect(name)
        last = self._last_piece(judged, finals, scratch, taken_back)
        stream.flush()
        return stream.finish(last)

    def _look_again(self, judged: List[Judged]) -> None:
        """Reads the refs once more, and HEAD, for others push until the stream is open. Raises Refusal where a ref that this push sets was
        changed since, or where git could not have it beside a new one."""
        now = {ref.name: ref.target.encode() for ref in self._service.refs(self._tenant)}
        for ref in [*(it.update.ref for it in judged), *(_TAGS + tag.name for tag in self._tags.values())]:
            if now.get(ref) != self._refs.get(ref):
                raise Refusal(f"{os.fsdecode(ref)} was changed by another push; fetch first")
        self._refs, self._head = now, self._service.head(self._tenant)
        for why in self._nested_refs(judged).values():
            raise Refusal(why)

    def _preamble(self, judged: List[Judged], finals: Dict[bytes, bytes], is_forced: bool) -> bytes:
        head = self._new_head(judged, finals)
        out = b"option gitpool head " + head + b"\n" if head else b""
        if is_forced or any(it.update.force for it in judged):
            out += b"feature force\n"
        return out

    def _new_head(self, judged: List[Judged], finals: Dict[bytes, bytes]) -> Optional[bytes]:
        """What HEAD is to name where it would name nothing: the branch that comes from the local HEAD's, or the first."""
        pushed = [it.update for it in judged if it.target and it.update.ref.startswith(_HEADS)]
        if self._head in finals or not pushed:
            return None
        try:
            own = self._local.run("symbolic-ref", "-q", "HEAD").strip()
        except GitError:
            own = b""
        for update in pushed:
            if own in (update.source, _HEADS + update.source):
                return update.ref
        refs = [update.ref for update in pushed]
        return own if own in refs else refs[0]

    def _scratch(self, finals: Dict[bytes, bytes]) -> bytes:
        """A name that no ref has, for the branch that commits are made on."""
        name = b"refs/gitpool/push"
        while name in finals or name in self._refs:
            name += b"-"
        return name

    def _send_blobs(self, stream: "_Stream") -> None:
        for count, (_, _, contents) in enumerate(self._local.contents(self._blobs)):
            stream.put(b"blob\ndata %d\n%b\n" % (len(contents), contents))
            if not count & 255:
                self._report("Writing objects", count, len(self._blobs) + len(self._commits))

    def _send_commits(self, stream: "_Stream", scratch: bytes) -> None:
        """Sends the commits, each with what changed since its first parent."""
        trees = {name: commit.tree for name, commit in self._commits}
        before = [it.parents[0] for _, it in self._commits if it.parents and it.parents[0] not in trees]
        for name, _, contents in self._local.contents(list(dict.fromkeys(before))):
            trees[name] = contents[5:45]
        pairs = [(trees[it.parents[0]] if it.parents else EMPTY_TREE, it.tree) for _, it in self._commits]
        words = ["diff-tree", "--stdin", "-r", "-z", "--raw", "--no-abbrev", "--no-renames", "--ignore-submodules=none"]
        with self._local.output(words, (old + b" " + new + b"\n" for old, new in pairs)) as out:
            for count, ((name, commit), changes) in enumerate(zip(self._commits, changes_of(out))):
                stream.put(commit_command(commit, scratch, changes))
                stream.expect(name)
                if not count & 255:
                    self._report("Writing objects", len(self._blobs) + count, len(self._blobs) + len(self._commits))
        self._report("Writing objects", len(self._blobs) + len(self._commits), len(self._blobs) + len(self._commits))

    # Refs

    def _taken_back(self, finals: Dict[bytes, bytes]) -> Dict[bytes, Optional[bytes]]:
        """Refs that sending a tag sets to something else than they are to hold, and what that is."""
        sent = {_TAGS + tag.name: name for name, tag in self._tags.items()}
        return {ref: finals.get(ref) for ref, name in sent.items() if finals.get(ref) != name}

    def _last_piece(self, judged: List[Judged], finals: Dict[bytes, bytes], scratch: bytes,
                    taken_back: Dict[bytes, Optional[bytes]]) -> bytes:
        """What changes the refs, at once."""
        out = [reset_command(scratch, None)] if self._commits else []
        for update, target, kind in judged:
            if kind != b"tag" and update.ref not in taken_back:
                out.append(reset_command(update.ref, target))
        if taken_back:
            # A tag sets its ref at the next checkpoint, whatever came since. So what takes it back comes after one.
            out.append(b"checkpoint\n")
            out += [self._restoring(ref, target) for ref, target in taken_back.items()]
        return b"".join(out) + b"done\n"

    def _restoring(self, ref: bytes, target: Optional[bytes]) -> bytes:
        if target is None:
            return reset_command(ref, None)
        tag = self._tags.get(target)
        if tag is None and target == self._refs.get(ref):
            held = self._service.object(self._tenant, target)
            tag = read_tag(target, held.contents) if held.kind == "tag" else None
        return tag_command(tag, b"") if tag else reset_command(ref, target)


class _Stream:
    """The stream of a push: what is fed, and the names that have to come back."""

    def __init__(self, service: Service, tenant: bytes):
        self._service = service
        self._tenant = tenant
        self._waiting: List[bytes] = []
        self._size = 0
        self._expected: List[bytes] = []
        service.open(tenant)

    def put(self, text: bytes) -> None:
        self._waiting.append(text)
        self._size += len(text)
        if self._size >= PIECE:
            self.flush()

    def expect(self, name: bytes) -> None:
        """Asks for the name that mark 1 stands for, which is to be this one."""
        self._expected.append(name)
        self.put(b"get-mark :1\n")

    def flush(self) -> None:
        told = self._service.feed(self._tenant, b"".join(self._waiting)).split()
        for name, expected in zip(told, self._expected):
            if name != expected:
                raise Refusal(f"object {expected.decode()} would come to another name, {name.decode()}: gitpool does not keep it as it is")
        self._expected = self._expected[len(told) :]
        self._waiting, self._size = [], 0

    def finish(self, last: bytes) -> Set[bytes]:
        if self._expected:
            raise Refusal("gitpool did not tell the names of all objects")
        told = self._service.feed(self._tenant, last) + self._service.end(self._tenant)
        return {line[5:] for line in told.splitlines() if line.startswith(b"kept ")}


def changes_of(out: IO[bytes]) -> Iterator[List[bytes]]:
    """The changes of each pair of trees that git diff-tree was given, as commands of a stream: what goes comes first."""
    fields = _fields(out)
    began = False
    gone: List[bytes] = []
    come: List[bytes] = []
    for field in fields:
        while field and not field.startswith(b":"):
            # The line with the names of a pair.
            _, _, field = field.partition(b"\n")
            if began:
                yield gone + come
            began, gone, come = True, [], []
        if not field:
            break
        _, mode, _, target, status = field.split(b" ")
        path = next(fields)
        check_path(path)
        if status == b"D":
            gone.append(b"D " + quote(path) + b"\n")
        else:
            come.append(b"M %b %b %b\n" % (mode, target, quote(path)))
    if began:
        yield gone + come


def _fields(out: IO[bytes]) -> Iterator[bytes]:
    """What stands between zero bytes, and after the last one."""
    rest = b""
    for block in iter(lambda: out.read(1 << 16), b""):
        fields = (rest + block).split(b"\0")
        rest = fields.pop()
        yield from fields
    if rest:
        yield rest


def commit_command(commit: Commit, branch: bytes, changes: List[bytes]) -> bytes:
    """A commit on a branch, under mark 1. One without a parent begins the branch anew."""
    out = [] if commit.parents else [b"reset ", branch, b"\n\n"]
    out += [b"commit ", branch, b"\nmark :1\n", b"\n".join(commit.lines), b"\ndata %d\n" % len(commit.message), commit.message, b"\n"]
    out += [(b"merge " if place else b"from ") + parent + b"\n" for place, parent in enumerate(commit.parents)]
    return b"".join(out + changes) + b"\n"


def tag_command(tag: Tag, mark: bytes) -> bytes:
    """A tag, with the line of its mark, if any."""
    tagger = tag.tagger + b"\n" if tag.tagger else b""
    return b"tag %b\n%bfrom %b\n%bdata %d\n%b\n" % (tag.name, mark, tag.target, tagger, len(tag.message), tag.message)


def reset_command(ref: bytes, target: Optional[bytes]) -> bytes:
    """A ref that is to hold a commit, or to go."""
    return b"reset %b\nfrom %b\n\n" % (ref, target or _ZEROS)
