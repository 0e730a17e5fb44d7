"""Two tenants with random pushes, fetches, questions and streams from sixteen clients: eight work on each tenant in turns, some over http and
some over ssh, with git, or with frames over the socket.

Each tenant's work is a plan that a seed gives. It is carried out three times: beside the other tenant's, alone on a server of its own,
and on a bare repository by git itself. All answers have to be the same beside the other tenant and alone, byte for byte; and what git
tells of its pushes and fetches has to be the same as from the bare repository.
"""
from __future__ import annotations

import os
import random
import re
import shutil
import socket
import struct
import subprocess
import threading
from typing import Dict, List, Tuple

from scenes.room import text
from served import ServerRoom, over_http

GIT_CLIENTS = 5
SOCKET_CLIENTS = 3
BRANCHES = ("main", "next", "topic/a", "topic/b")
Answer = Tuple[str, str]


class World:
    """A place in which one tenant's plan is carried out: a tenant of a server."""

    def __init__(self, room: ServerRoom, name: str, tenant: str):
        self.room, self.name, self.tenant = room, name, tenant
        self.folder = room.path(name)
        os.mkdir(self.folder)

    def url(self, client: int) -> str:
        """The address that a client uses; every other client uses ssh."""
        if client % 2:
            return f"ssh://alice@{self.room.ssh[0]}:{self.room.ssh[1]}/{self.tenant}.git"
        return self.room.http_url(f"/{self.tenant}.git")

    def version(self, client: int) -> int:
        """The protocol that a client speaks."""
        return client % 3

    def git(self, at: str, moment: int, *words: str, data: bytes = b"") -> "subprocess.CompletedProcess[bytes]":
        """Runs git at a moment of the plan."""
        dates = {"GIT_AUTHOR_DATE": f"{1_700_000_000 + moment} +0000", "GIT_COMMITTER_DATE": f"{1_700_000_000 + moment} +0000"}
        return subprocess.run(["git", *words], cwd=os.path.join(self.folder, at), input=data, capture_output=True,
                              env=dict(self.room.environment, **dates))

    def must(self, at: str, moment: int, *words: str, data: bytes = b"") -> bytes:
        """What a git command prints that has to go well."""
        done = self.git(at, moment, *words, data=data)
        assert done.returncode == 0, f"git {' '.join(words)}: {text(done.stderr)}"
        return done.stdout

    def set_up(self) -> None:
        """Makes the clients' repositories."""
        for client in range(GIT_CLIENTS):
            self.must("", 0, "init", "-q", f"c{client}")
            for key, value in (("remote.origin.url", self.url(client)), ("remote.origin.fetch", "+refs/heads/*:refs/remotes/origin/*"),
                               ("protocol.version", str(self.version(client))), ("push.negotiate", "false")):
                self.must(f"c{client}", 0, "config", key, value)

    def begin(self) -> None:
        """Pushes the first branch, which HEAD names from then on."""
        tree = self.must("c0", 0, "mktree").decode().strip()
        first = self.must("c0", 0, "commit-tree", "-m", "First", tree).decode().strip()
        self.must("c0", 0, "push", "-q", "origin", f"{first}:refs/heads/main")

    # The clients of the socket

    def frames(self, steps: List[Tuple[int, bytes]], ends: bool = True) -> str:
        """The answers to steps of the tenant; where the client does not end, it leaves without a word, and waits until that is seen."""
        told = []
        with socket.socket(socket.AF_UNIX) as peer:
            peer.connect(os.path.join(self.room.served, "socket"))
            with peer.makefile("rwb") as stream:
                for kind, body in steps:
                    name = self.tenant.encode()
                    stream.write(struct.pack(">BH", kind, len(name)) + name + struct.pack(">I", len(body)) + body)
                    stream.flush()
                    status, value, size = struct.unpack(">BQQ", stream.read(17))
                    told.append(f"{status} {value} {stream.read(size)!r}")
        while not ends and self.frames([(1, b"")]).startswith("1 31"):
            pass
        return "\n".join(told)

    def ask(self, queries: List[bytes]) -> str:
        """The answers to questions."""
        return self.frames([(4, query) for query in queries])

    def stream(self, body: bytes, ends: bool) -> str:
        """Feeds a stream, and ends it or leaves."""
        steps = [(1, b""), (2, body)]
        return self.frames(steps + [(3, b"")], True) if ends else self.frames(steps, False)

    def operate(self, word: str) -> str:
        """Has the operator save, or compact the tenant."""
        self.room.serverd(*([word, self.room.served] + ([self.tenant] if word == "compact" else [])))
        return ""

    def refs(self) -> str:
        """The refs as git lists them."""
        return self.must("", 0, "ls-remote", "--refs", self.url(0)).decode()


class Bare(World):
    """A bare repository, which git itself serves."""

    def url(self, client: int) -> str:
        return f"file://{self.folder}/bare"

    def set_up(self) -> None:
        self.must("", 0, "init", "-q", "--bare", "bare")
        for key in ("receive.fsckObjects", "uploadpack.allowFilter", "uploadpack.allowAnySHA1InWant", "receive.advertiseAtomic"):
            self.must("bare", 0, "config", key, "true")
        super().set_up()

    def ask(self, queries: List[bytes]) -> str:
        return ""

    def stream(self, body: bytes, ends: bool) -> str:
        if ends:
            # The stream does not say `feature force`, so a branch that would lose commits stays as it is.
            done = self.git("bare", 0, "fast-import", "--quiet", data=body)
            assert done.returncode == (b"Not updating" in done.stderr), text(done.stderr)
        return ""

    def operate(self, word: str) -> str:
        return ""


class Plan:
    """The work on one tenant: a random choice for each moment, which is the same in each world as long as the answers are."""

    def __init__(self, world: World, seed: str):
        self.world, self.chance = world, random.Random(seed)
        self.answers: List[Answer] = []
        self.moment = 0

    def run(self, count: int) -> None:
        """Carries out so many actions."""
        self.world.set_up()
        self.world.begin()
        actions = (self.push, self.push, self.push, self.fetch, self.fetch, self.clone, self.list, self.ask, self.ask, self.stream, self.operate)
        for self.moment in range(1, count + 1):
            action = self.chance.choice(actions)
            self.answers.append((f"{self.moment} {action.__name__}", action(self.chance.randrange(GIT_CLIENTS))))

    def told(self, done: "subprocess.CompletedProcess[bytes]") -> str:
        """What a command said, without addresses, progress and times."""
        said = text(done.stdout) + "\n" + text(done.stderr)
        for client in range(GIT_CLIENTS):
            url = self.world.url(client)
            said = said.replace(url, "URL").replace(re.sub("//[^/@]*@", "//", url), "URL")
        lines = [line for line in re.split("[\r\n]", said) if line and not line.startswith(("remote: ", "POST ", "warning: redirecting", "To ", "From "))]
        return f"{done.returncode}\n" + "\n".join(lines)

    # Actions; each draws from chance as often in each world

    def commit(self, at: str) -> None:
        """Commits random changes on top of a random place that the client knows."""
        chance, world = self.chance, self.world
        known = world.must(at, 0, "for-each-ref", "--format=%(objectname)", "refs/remotes", "refs/heads").decode().split()
        base = chance.choice(sorted(set(known)) + [""]) if chance.random() < 0.9 else ""
        parents = [base] if base else []
        if base and chance.random() < 0.2:
            parents += [it for it in [chance.choice(sorted(set(known)))] if it != base]
        files = b"".join(self.change() for _ in range(chance.choice((0, 1, 2, 4, 9))))
        stream = b"commit refs/heads/work\ncommitter C <c@x> %d +0000\ndata 8\n%08d\n" % (1_700_000_000 + self.moment, self.moment)
        stream += b"".join(b"%b %b\n" % (b"merge" if it else b"from", parent.encode()) for it, parent in enumerate(parents))
        reset = b"" if base else b"reset refs/heads/work\n\n"
        world.must(at, self.moment, "fast-import", "--quiet", "--force", data=reset + stream + files + b"\n")

    def change(self) -> bytes:
        """A change of a file. The contents are few, so that tenants share some."""
        path, data = self.chance.choice("abcdefg"), b"%d\n" % self.chance.randrange(40) * self.chance.choice((1, 30, 3000))
        if self.chance.random() < 0.15:
            return b"D %b\n" % path.encode()
        return b"M 100644 inline %b/%b\ndata %d\n%b\n" % (self.chance.choice("xyz").encode(), path.encode(), len(data), data)

    def push(self, client: int) -> str:
        """Pushes a commit, a tag, several refs at once or a deletion; it may be refused."""
        chance, at = self.chance, f"c{client}"
        self.commit(at)
        kind, branch, other = chance.random(), chance.choice(BRANCHES), chance.choice(BRANCHES)
        refs = [f"work:refs/heads/{branch}"]
        if kind < 0.2:
            self.world.must(at, self.moment, "tag", "-f", "-a", "-m", f"t{self.moment}", f"t{self.moment % 9}", "work")
            refs.append(f"+refs/tags/t{self.moment % 9}")
        elif kind < 0.35 and other not in (branch, "main"):
            refs.append(f":refs/heads/{other}")
        elif kind < 0.5 and other != branch:
            refs.append(f"+work:refs/heads/{other}")
        words = [word for word, share in (("--force", 0.3), ("--atomic", 0.3)) if chance.random() < share]
        return self.told(self.world.git(at, self.moment, "push", "--porcelain", *words, "origin", *refs))

    def fetch(self, client: int) -> str:
        """Fetches all branches; what the client has then has to be whole."""
        at = f"c{client}"
        said = self.told(self.world.git(at, self.moment, "fetch", "-q", "--prune", "--force", "origin"))
        said += self.world.must(at, 0, "for-each-ref", "refs/remotes", "refs/tags").decode()
        return said + self.told(self.world.git(at, 0, "fsck", "--connectivity-only", "--no-dangling"))

    def clone(self, client: int) -> str:
        """Clones some or all into a new folder, and tells what came."""
        kinds: List[List[str]] = [["--depth", "2", "--no-single-branch"], ["--filter=blob:none"], ["--filter=tree:0"], ["--mirror"], []]
        words = self.chance.choice(kinds)
        version = f"protocol.version={self.world.version(client)}"
        done = self.world.git("", self.moment, "-c", version, "clone", "-q", "--no-checkout", *words, self.world.url(client), "new")
        said = self.told(done)
        if done.returncode == 0:
            said += self.world.must("new", 0, "for-each-ref").decode()
            listed = self.world.must("new", 0, "cat-file", "--batch-all-objects", "--batch-check=%(objectname)", "--unordered")
            said += "\n".join(sorted(listed.decode().split()))
        shutil.rmtree(os.path.join(self.world.folder, "new"), ignore_errors=True)
        return said

    def list(self, client: int) -> str:
        """Lists the refs."""
        return self.told(self.world.git(f"c{client}", 0, "ls-remote", "origin"))

    def ask(self, client: int) -> str:
        """Asks questions over the socket, some of which have no answer."""
        branch = self.chance.choice(BRANCHES)
        questions = [f"log refs/heads/{branch}", f"ls-tree refs/heads/{branch}", f"rev-parse {branch}~2", f"cat refs/heads/{branch}:x/a", "refs",
                     "head", f"rev-parse {branch}^{{tree}}", "what", "cat 0123456789012345678901234567890123456789"]
        return self.world.ask([it.encode() for it in self.chance.sample(questions, 4)])

    def stream(self, client: int) -> str:
        """A stream over the socket: it ends, or its client leaves in the middle of it."""
        ends, message = self.chance.random() < 0.6, b"stream %d" % self.moment
        body = b"commit refs/heads/stream\ncommitter S <s@x> %d +0000\ndata %d\n%b\n" % (1_700_000_000 + self.moment, len(message), message)
        if self.chance.random() < 0.3 or not self.world_has_stream():
            body = b"reset refs/heads/stream\n\n" + body
        else:
            body += b"from refs/heads/stream^0\n"
        return self.world.stream(body + self.change() + b"\n", ends)

    def world_has_stream(self) -> bool:
        """Whether the branch of streams is there."""
        return "refs/heads/stream\n" in self.world.refs() + "\n"

    def operate(self, client: int) -> str:
        """Saves, or compacts the tenant."""
        return self.world.operate(self.chance.choice(("save", "compact")))


def run_all(plans: List[Plan], count: int) -> None:
    """Carries plans out side by side."""
    wrong: List[BaseException] = []

    def run(plan: Plan) -> None:
        try:
            plan.run(count)
        except BaseException as error:
            wrong.append(error)
            raise

    threads = [threading.Thread(target=run, args=(plan,)) for plan in plans]
    for thread in threads:
        thread.start()
    for thread in threads:
        thread.join()
    if wrong:
        raise wrong[0]


def same(one: List[Answer], other: List[Answer], what: str) -> None:
    """Asks that answers are the same, and tells the first that is not."""
    for (name, mine), (_, theirs) in zip(one, other):
        assert mine == theirs, f"{what}: {name} was told\n{mine[:1500]}\nand\n{theirs[:1500]}"
    assert len(one) == len(other)


def of_git(answers: List[Answer]) -> List[Answer]:
    """What git tells wherever a repository is: of pushes their status and the refs, for git words the rest by the way that it takes."""
    found = [it for it in answers if it[0].split()[1] in ("push", "fetch", "clone", "list")]
    # A tenant that was compacted may have none of a client's commits, of which git warns. The bare repository drops nothing.
    return [(name, told.replace("warning: no common commits", "") if " push" not in name else of_push(told)) for name, told in found]


def of_push(told: str) -> str:
    """The status of a push and its refs. Where git itself leaves out all of an atomic push because of one ref, it says so of the others
    over ssh and of a folder, and not over http."""
    lines: List[str] = re.findall("^(?:[0-9]+$|[-!+*= ]\t.*)", told, re.M)
    return "\n".join(it for it in lines if not it.endswith("\t[rejected] (atomic push failed)"))


def two_tenants(room: ServerRoom, seed: str, count: int) -> Dict[str, int]:
    """Plays both plans everywhere and compares. Gives how many actions of each kind there were."""
    names = ("one", "two")
    together = [Plan(World(room, f"both-{name}", f"acme/{name}"), seed + name) for name in names]
    run_all(together, count // 2)
    alone = []
    for name in names:
        other = ServerRoom(room.program, room.server_program)
        try:
            alone.append(Plan(World(other, name, f"acme/{name}"), seed + name))
            run_all(alone[-1:], count // 2)
        finally:
            other.close()
    bare = [Plan(Bare(room, f"bare-{name}", ""), seed + name) for name in names]
    run_all(bare, count // 2)
    kinds: Dict[str, int] = {}
    for mine, lonely, oracle, name in zip(together, alone, bare, names):
        same(mine.answers, lonely.answers, f"seed {seed}, beside the other tenant and alone")
        same(of_git(mine.answers), of_git(oracle.answers), f"seed {seed}, the tenant and the bare repository")
        room.same(os.path.join(oracle.world.folder, "bare"), f"acme/{name}", room.refs(os.path.join(oracle.world.folder, "bare")))
        for it, _ in mine.answers:
            kinds[it.split()[1]] = kinds.get(it.split()[1], 0) + 1
    return kinds


@over_http
def two_tenants_of_sixteen_clients(room: ServerRoom) -> None:
    """GITPOOLD_RUNS says how many actions there are in all, and GITPOOLD_SEED what they are."""
    count, seed = int(os.environ.get("GITPOOLD_RUNS", "60")), os.environ.get("GITPOOLD_SEED", "1")
    kinds = two_tenants(room, seed, count)
    if count > 100:
        print(f"seed {seed}: {sorted(kinds.items())}", flush=True)
