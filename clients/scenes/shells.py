"""Scenes over ssh: one forced command a tenant. The first ones have a stand-in for ssh, the last one a real sshd on the loopback
address, where one is installed."""
from __future__ import annotations

import getpass
import resource
import shutil
import socket
import time

from gitpool import Kind, Step, write_step

from .room import NotTried, Room, os, scene, subprocess, text, wait_for


def forced(room: Room, *words: str) -> str:
    """A stand-in for ssh that runs one command whatever it is asked for, as sshd does for a key that forces it."""
    path = room.path("ssh")
    with open(path, "w", encoding="utf-8") as file:
        file.write('#!/bin/sh\nwhile [ "$1" != -- ]; do shift; done\nshift 2\nSSH_ORIGINAL_COMMAND="$*" exec gitpool-shell '
                   + " ".join(f"'{word}'" for word in words) + "\n")
    os.chmod(path, 0o755)
    return path


@scene
def over_ssh(room: Room) -> None:
    site = room.site()
    ssh = forced(room, "--pool", room.pool, "acme/site")
    room.git(site, "remote", "set-url", "pool", "gitpool::ssh://git@example.org")
    room.git(site, "config", "core.sshCommand", ssh)
    room.git(site, "push", "-q", "pool", "main", "light", "v1")
    room.same(site)
    room.git("", "clone", "-q", "gitpool::ssh://example.org", "copy", GIT_SSH_COMMAND=ssh)
    room.commit("copy", "From afar", {"far": "f\n"})
    room.git("copy", "push", "-q", GIT_SSH_COMMAND=ssh)
    room.git(site, "pull", "-q", "pool", "main")
    room.same(site)
    room.commit(site, "Amended", None, "--amend")
    room.fails("copy", "push", "--delete", "origin", "nothing", says="remote ref does not exist", GIT_SSH_COMMAND=ssh)
    room.git(site, "push", "-q", "--force", "pool", "main")
    room.same(site)


@scene
def over_ssh_only_one_tenant(room: Room) -> None:
    site = room.pushed()
    other = room.init("other")
    room.commit(other, "Other", {"o": "o\n"})
    room.git(other, "push", "-q", room.url("acme/other"), "main")
    ssh = forced(room, "--pool", room.pool, "acme/other")
    # Whatever tenant and pool the client asks for, it meets the one that its key is for.
    listed = room.git("", "ls-remote", "gitpool::ssh://host/elsewhere.pool#acme/site", "refs/heads/*", GIT_SSH_COMMAND=ssh)
    assert listed.decode() == f"{room.name(other, 'main')}\trefs/heads/main\n"
    ssh = forced(room, "--pool", room.pool, "--read-only", "acme/other")
    room.git("", "clone", "-q", "gitpool::ssh://host", "copy", GIT_SSH_COMMAND=ssh)
    room.fails("copy", "push", "origin", "main:refs/heads/x", says="serves git fetch alone", GIT_SSH_COMMAND=ssh)
    for asked in ("", "scp -t /etc", "gitpool-shell --pool x y import", "gitpool-shell 'push"):
        done = room.run(["gitpool-shell", "--pool", room.pool, "acme/site"], SSH_ORIGINAL_COMMAND=asked)
        assert done.returncode == 1 and b"serves git fetch and push alone" in done.stderr, done.stderr
    for frames in (b"\5\0\0\0\0\0\0", b"\1\0\1t\0\0\0\0", b"\2\0\1t\0\0\0\1x"):
        done = room.run(["gitpool-shell", "--pool", room.pool, "acme/site", "fetch"], data=frames)
        assert done.returncode == 1 and b"not served here" in done.stderr and not done.stdout, done
    room.same(site)


@scene
def over_ssh_errors_arrive(room: Room) -> None:
    site = room.pushed()
    ssh = forced(room, "--pool", room.path("no", "pool"), "acme/site")
    room.fails("", "clone", "gitpool::ssh://host", "x", says="there is no pool here", GIT_SSH_COMMAND=ssh)
    room.fails(site, "push", "gitpool::ssh://host", "main", says="folder of the pool file is not there", GIT_SSH_COMMAND=ssh)
    room.fails("", "clone", "gitpool::ssh://host", "x", says="status 255", GIT_SSH_COMMAND="exit 255; true")
    ssh = forced(room, "--pool", room.pool, "acme/site")
    held = subprocess.Popen([room.program, "serve", "--pool", room.pool], stdin=subprocess.PIPE, stdout=subprocess.DEVNULL)
    wait_for(lambda: os.path.exists(room.pool + ".new"))
    said = room.fails(site, "push", "gitpool::ssh://host", "main:refs/heads/x", says="in hand; try again", GIT_SSH_COMMAND=ssh)
    assert room.pool not in said, said
    room.git("", "clone", "-q", "gitpool::ssh://host", "meanwhile", GIT_SSH_COMMAND=ssh)
    assert held.stdin
    waiting = subprocess.Popen(["git", "push", "-q", "gitpool::ssh://host", "main:refs/heads/x"], cwd=room.path(site),
                               env=dict(room.environment, GIT_SSH_COMMAND=ssh))
    time.sleep(1)
    held.stdin.close()
    held.wait()
    assert waiting.wait(300) == 0 and room.tenant_refs()["refs/heads/x"] == room.name(site, "main")


@scene
def over_ssh_a_connection_that_breaks(room: Room) -> None:
    site = room.pushed()
    room.commit(site, "New", {"new": "n\n"})
    before = room.tenant_refs()
    room.git(site, "push", "-q", room.url("copy"), "main", GITPOOL=room.recording())
    with open(room.path("frames"), "rb") as file:
        frames = file.read()
    for size in (0, 5, len(frames) // 2, frames.rindex(b"done\n") + 4):
        done = room.run(["gitpool-shell", "--pool", room.pool, "acme/site", "push"], data=frames[:size])
        assert done.returncode == 0, done.stderr
        assert room.tenant_refs() == before


def stand_in(room: Room, text: str) -> str:
    """A program in the place of gitpool, a script of sh in which $PROGRAM is the real one."""
    path = room.path("stand-in")
    with open(path, "w", encoding="utf-8") as file:
        file.write(f"#!/bin/sh\nPROGRAM={room.program}\n{text}\n")
    os.chmod(path, 0o755)
    return path


@scene
def over_ssh_a_program_that_is_killed(room: Room) -> None:
    site = room.pushed()
    before = room.tenant_refs()
    room.commit(site, "New", {"new": "n\n"})
    ssh = forced(room, "--pool", room.pool, "acme/site")
    # The run that locks has answered everything, and is killed before it saves.
    os.mkfifo(room.path("input"))
    asks = f'case "$*" in *{room.pool}) ;; *) exec "$PROGRAM" "$@" ;; esac\n'
    killed = stand_in(room, asks + f'"$PROGRAM" "$@" < {room.path("input")} & exec 9> {room.path("input")}\ncat >&9\nkill -9 $!\nkill -9 $$')
    said = room.fails(site, "push", "gitpool::ssh://host", "main", says="ended by signal 9", GIT_SSH_COMMAND=ssh, GITPOOL=killed)
    assert "main -> main\n" not in said and room.tenant_refs() == before, said
    room.git(site, "push", "-q", "gitpool::ssh://host", "main", GIT_SSH_COMMAND=ssh)
    room.same(site)


@scene
def over_ssh_a_save_that_fails(room: Room) -> None:
    """A disk that is full at the save is told as that, and not as another run."""
    room.pushed()
    before = room.pool_bytes()
    steps = (Step(Kind.OPEN, b"t", b""), Step(Kind.FEED, b"t", b"blob\ndata 100000\n" + b"x" * 100_000), Step(Kind.END, b"t", b""))
    words = ["gitpool-shell", "--pool", room.pool, "acme/site", "push"]
    full = stand_in(room, "trap '' XFSZ\nulimit -f 50\nexec \"$PROGRAM\" \"$@\"")
    done = room.run(words, data=b"".join(map(write_step, steps)), GITPOOL=full)
    assert done.returncode == 4 and b"nothing was saved" in done.stderr and b"try again" not in done.stderr, done
    assert room.pool_bytes() == before
    done = room.run([*words[:-1], "fetch"], GITPOOL=room.path("none"))
    assert done.returncode == 4 and done.stderr == b"gitpool cannot be run here: No such file or directory\n", done


@scene
def over_ssh_a_silent_client(room: Room) -> None:
    site = room.pushed()
    words = ["gitpool-shell", "--pool", room.pool, "--idle", "0.5", "acme/site", "push"]
    silent = subprocess.Popen(words, env=room.environment, stdin=subprocess.PIPE, stdout=subprocess.DEVNULL, stderr=subprocess.PIPE)
    assert silent.stderr
    status, said = silent.wait(300), silent.stderr.read()
    assert status == 1 and b"nothing came for 0.5 seconds" in said, said
    room.commit(site, "New", {"new": "n\n"})
    room.git(site, "push", "-q", "pool", "main")
    room.same(site)


@scene
def a_push_that_sends_nothing_keeps_nobody(room: Room) -> None:
    """Over ssh and here: others push while one has been told the refs and sends no more. When it goes on, it is told what changed."""
    site = room.pushed()
    ssh = forced(room, "--pool", room.pool, "acme/site")
    new = room.commit(site, "New", {"new": "n\n"})
    git_folder = room.git(site, "rev-parse", "--absolute-git-dir").decode().strip()
    for number, address in enumerate(("ssh://host", f"{room.pool}#acme/site")):
        helper = subprocess.Popen(["git-remote-gitpool", "pool", address], cwd=room.path(site), stdin=subprocess.PIPE, stdout=subprocess.PIPE,
                                  env=dict(room.environment, GIT_DIR=git_folder, GIT_SSH_COMMAND=ssh))
        assert helper.stdin and helper.stdout
        helper.stdin.write(b"list for-push\n")
        helper.stdin.flush()
        while helper.stdout.readline() != b"\n":
            pass
        room.git(site, "push", "-q", room.url(f"acme/other{number}"), "main")
        room.git(site, "push", "-q", "pool", f"main~1:refs/heads/first{number}")
        before = room.tenant_refs()
        told, _ = helper.communicate(f"push {new}:refs/heads/first{number}\n\n\n".encode(), 300)
        assert told.startswith(b"error refs/heads/first") and b"another push" in told, told
        assert room.tenant_refs() == before
    room.git(site, "push", "-q", "pool", "main")
    room.same(site, refs=dict(room.refs(site, "refs/heads", "refs/tags"), **{ref: before[ref] for ref in before if "first" in ref}))


@scene
def over_ssh_a_push_that_is_overtaken(room: Room) -> None:
    """Another push comes in after the first has sent all but its end: the first is refused as a whole, and the pool file is as the other left it.
    Where the other was of another tenant, both last."""
    site = room.pushed()
    room.commit(site, "New", {"new": "n\n"})
    room.git(site, "push", "-q", room.url("copy"), "main", GITPOOL=room.recording())
    frames = b"".join(write_step(Step(Kind(kind), b"t", body)) for kind, body in room.recorded())
    for other, status in (("acme/site", 4), ("acme/other", 0)):
        words = ["gitpool-shell", "--pool", room.pool, "acme/overtaken" if status == 0 else "acme/site", "push"]
        process = subprocess.Popen(words, env=room.environment, stdin=subprocess.PIPE, stdout=subprocess.PIPE, stderr=subprocess.PIPE)
        assert process.stdin and process.stdout
        process.stdin.write(frames)
        process.stdin.flush()
        process.stdout.read(17)
        room.git(site, "push", "-q", room.url(other), "main~1:refs/heads/between")
        before = room.pool_bytes()
        _, said = process.communicate(timeout=300)
        assert process.returncode == status, said
        assert status == 0 or b"another push has changed the tenant" in said and room.pool_bytes() == before, said
    assert room.tenant_refs("acme/overtaken") == {"refs/heads/main": room.name(site, "main")}


@scene
def over_ssh_a_fetch_saves_nothing(room: Room) -> None:
    room.pushed()
    slow = stand_in(room, '"$PROGRAM" "$@"\nsleep 150')
    begin = time.monotonic()
    done = room.run(["gitpool-shell", "--pool", room.pool, "acme/site", "fetch"], data=b"\4\0\1t\0\0\0\4refs", GITPOOL=slow)
    assert done.returncode == 0 and time.monotonic() - begin < 140, done


@scene
def over_ssh_long_frames(room: Room) -> None:
    reads = stand_in(room, "exec cat > /dev/null")
    frames = 8 * (b"\2\0\1t\1\0\0\0" + bytes(1 << 24))
    before = resource.getrusage(resource.RUSAGE_CHILDREN)
    done = room.run(["gitpool-shell", "--pool", room.pool, "acme/site", "push"], data=frames, GITPOOL=reads)
    after = resource.getrusage(resource.RUSAGE_CHILDREN)
    took = after.ru_utime + after.ru_stime - before.ru_utime - before.ru_stime
    assert done.returncode == 0 and took < 4, (done.returncode, took)


class Sshd:
    """A real sshd on the loopback address, with one key for each line of authorized_keys."""

    def __init__(self, room: Room, program: str):
        self._room = room
        self.port = self._free_port()
        for name in ("host", "writer", "reader"):
            room.run(["ssh-keygen", "-q", "-t", "ed25519", "-N", "", "-f", room.path(name)])
        settings = (f"Port {self.port}\nListenAddress 127.0.0.1\nHostKey {room.path('host')}\nPidFile {room.path('sshd.pid')}\n"
                    f"AuthorizedKeysFile {room.path('authorized_keys')}\nStrictModes no\nUsePAM no\nPasswordAuthentication no\n"
                    "KbdInteractiveAuthentication no\nPermitRootLogin yes\n")
        with open(room.path("sshd_config"), "w", encoding="utf-8") as file:
            file.write(settings)
        self._process = subprocess.Popen([program, "-D", "-e", "-f", room.path("sshd_config")], stderr=subprocess.DEVNULL)
        wait_for(self._answers)

    @staticmethod
    def _free_port() -> int:
        with socket.socket() as server:
            server.bind(("127.0.0.1", 0))
            port: int = server.getsockname()[1]
            return port

    def _answers(self) -> bool:
        assert self._process.poll() is None, f"sshd ended with status {self._process.returncode}"
        with socket.socket() as client:
            return client.connect_ex(("127.0.0.1", self.port)) == 0

    def authorize(self, key: str, command: str) -> str:
        """Lets a key run one command, and gives the ssh that uses it."""
        with open(self._room.path(key + ".pub"), encoding="utf-8") as file:
            public = file.read()
        with open(self._room.path("authorized_keys"), "a", encoding="utf-8") as file:
            file.write(f'restrict,command="{command}" {public}')
        return (f"ssh -F none -i '{self._room.path(key)}' -o IdentitiesOnly=yes -o StrictHostKeyChecking=no "
                f"-o UserKnownHostsFile='{self._room.path('known_hosts')}' -o BatchMode=yes")

    def close(self) -> None:
        """Ends it."""
        self._process.terminate()
        self._process.wait()


@scene
def over_a_real_sshd(room: Room) -> None:
    program = shutil.which("sshd", path=os.environ.get("PATH", "") + ":/usr/sbin")
    if program is None or not shutil.which("ssh-keygen"):
        raise NotTried("no sshd is installed")
    if os.geteuid() == 0:
        os.makedirs("/run/sshd", exist_ok=True)
    site = room.site()
    sshd = Sshd(room, program)
    try:
        shell = f"PATH={room.environment['PATH']} GITPOOL={room.program} gitpool-shell --pool {room.pool}"
        writer = sshd.authorize("writer", f"{shell} acme/site")
        reader = sshd.authorize("reader", f"{shell} --read-only acme/site")
        url = f"gitpool::ssh://{getpass.getuser()}@127.0.0.1:{sshd.port}"
        room.git(site, "push", "-q", url, "main", "light", "v1", GIT_SSH_COMMAND=writer)
        room.same(site)
        room.git("", "clone", "-q", url, "copy", GIT_SSH_COMMAND=reader)
        room.commit("copy", "From afar", {"far": "f\n"})
        room.fails("copy", "push", says="serves git fetch alone", GIT_SSH_COMMAND=reader)
        room.git("copy", "push", "-q", GIT_SSH_COMMAND=writer)
        room.git(site, "pull", "-q", url, "main", GIT_SSH_COMMAND=reader)
        room.same(site)
        said = room.run(["sh", "-c", f"{writer} -p {sshd.port} {getpass.getuser()}@127.0.0.1 cat /etc/passwd"])
        assert said.returncode == 1 and not said.stdout and b"git fetch and push alone" in said.stderr, text(said.stderr)
    finally:
        sshd.close()
