"""Scenes of an operator's commands: they take effect before they end, and what is said of a server is what it has."""
from __future__ import annotations

import os
import signal
import socket
import stat
import subprocess
import time
from typing import Tuple

from scenes.room import wait_for
from served import PASSWORDS, ServerRoom, once, over_http, text

# The user of a server that root starts for another one.
SERVERS_USER = 65534


def command(room: ServerRoom, *words: str, data: bytes = b"") -> Tuple[int, str]:
    """The status of a command, and what it says."""
    done = room.run([room.server_program, words[0], room.served, *words[1:]], "", data)
    return done.returncode, text(done.stdout + done.stderr)


def as_another_user(room: ServerRoom) -> str:
    """Starts the server anew, as another user, to whom the folder belongs then. Gives the program that root runs."""
    mine = room.server_program
    room.stop()
    os.chmod(room.folder, 0o711)
    for at, folders, files in os.walk(room.served):
        for name in [".", *folders, *files]:
            os.chown(os.path.join(at, name), SERVERS_USER, SERVERS_USER)
    room.server_program = room.path("as_another_user")
    with open(room.server_program, "w", encoding="ascii") as file:
        file.write(f'#!/bin/sh\nexec setpriv --reuid={SERVERS_USER} --regid={SERVERS_USER} --clear-groups {mine} "$@"\n')
    os.chmod(room.server_program, 0o755)
    room.start()
    return mine


def root_changes_all_lists(room: ServerRoom) -> None:
    """Changes each list, and looks at what the server does in the next moment."""
    room.serverd("grant", room.served, "alice", "acme/site", "r")
    room.serverd("revoke", room.served, "alice", "*")
    room.fails("site", "push", "-q", room.url(), "main:refs/heads/other", says="")
    room.serverd("grant", room.served, "alice", "*", "rw")
    room.git("site", "push", "-q", room.url(), "main:refs/heads/other")
    room.serverd("block", room.served, "user", "alice", "unpaid since May")
    room.fails("", "ls-remote", room.url(), says="")
    room.serverd("unblock", room.served, "user", "alice")
    room.serverd("limits", room.served, "quota", "acme/new", "100")
    room.fails("site", "push", "-q", room.url("acme/new"), "main", says="")
    room.serverd("webhook", room.served, "allow", "127.0.0.1")
    room.serverd("hooks", room.served, "add", "none", "http://127.0.0.1:9/")
    room.serverd("protect", room.served, "add", "none", "main")
    room.serverd("mirror", room.served, "none/mirror", "https://127.0.0.1:9/none.git")
    room.serverd("user", room.served, "carol", data=b"a new password\n")
    room.serverd("user", room.served, "alice", "--key", room.path("key.pub"))
    room.git("", "ls-remote", room.url())


@once
def commands_of_root_take_effect(room: ServerRoom) -> None:
    """Root commands a server of another user: what a command changes holds when it has ended, also at the next start. Only root can play this."""
    if os.geteuid():
        return
    site = room.pushed()
    os.chmod(os.path.join(room.served, "access"), 0o640)
    room.server_program, as_user = as_another_user(room), room.server_program
    root_changes_all_lists(room)
    for at, _, files in os.walk(room.served):
        for name in files:
            is_owned = os.lstat(os.path.join(at, name)).st_uid == SERVERS_USER
            assert is_owned, f"{at}/{name} belongs to root"
    assert stat.S_IMODE(os.stat(os.path.join(room.served, "access")).st_mode) == 0o640
    status, said = command(room, "init")
    assert status == 1 and "runuser -u nobody" in said, (status, said)
    room.stop()
    room.server_program = as_user
    room.start()
    room.git(site, "push", "-q", room.url(), "main:refs/heads/third")


@over_http
def a_command_that_does_not_hold_says_so(room: ServerRoom) -> None:
    """The server cannot read a list, or does not answer: the command says that what was read before may hold. Without a server it ends well."""
    room.pushed()
    access = os.path.join(room.served, "access")
    with open(access, encoding="ascii") as file:
        whole = file.read()
    with open(access, "w", encoding="ascii") as file:
        file.write(whole.replace("# end\n", "alice reads all\n# end\n"))
    for words in (("block", "user", "alice"), ("user", "carol")):
        status, said = command(room, *words, data=b"a new password\n")
        assert status == 1 and "`all` is no right" in said and "may hold" in said, (words, status, said)
    room.git("", "ls-remote", room.url())
    with open(access, "w", encoding="ascii") as file:
        file.write(whole)
    status, said = command(room, "block", "user", "alice", "again")
    assert status == 0, said
    room.fails("", "ls-remote", room.url(), says="403")
    room.process.send_signal(signal.SIGSTOP)
    try:
        status, said = command(room, "unblock", "user", "alice")
    finally:
        room.process.send_signal(signal.SIGCONT)
    assert status == 1 and "did not say" in said and "may hold" in said, (status, said)
    room.stop()
    assert command(room, "block", "user", "bob") == (0, "")
    room.start()
    room.git("", "ls-remote", room.url())
    room.fails("", "ls-remote", room.url(user="bob"), says="403")


@over_http
def what_operators_change_is_in_the_audit(room: ServerRoom) -> None:
    """Each change has a line with who and when, also while no server runs; what is refused before has none, and what fails has the error."""
    room.pushed()
    before = room.serverd("audit", room.served)
    assert before.count(b"\n") == 6 and b"user alice password" in before and b"SHA256:" in before, before
    room.serverd("block", room.served, "tenant", "acme/site", "moved away")
    room.serverd("copy", room.served, "acme/site", "acme/fork")
    room.serverd("status", room.served)
    for words in (("grant", "x", "a b", "r"), ("revoke", "nobody"), ("remove", "../site")):
        assert command(room, *words)[0] == 1, words
    assert command(room, "copy", "acme/site", "acme/fork")[0] == 1
    room.stop()
    room.serverd("unblock", room.served, "tenant", "acme/site")
    told = room.serverd("audit", room.served)
    assert told.startswith(before), told
    lines = text(told[len(before):]).splitlines()
    ends = ['what="block tenant acme/site moved away"', 'what="copy acme/site acme/fork"', 'what="copy acme/site acme/fork"', "(fault 33)\"",
            'what="unblock tenant acme/site"']
    assert len(lines) == len(ends) and all(line.endswith(end) for line, end in zip(lines, ends)), lines
    assert all(f" operator uid={os.getuid()} user=" in line and line.startswith("20") for line in lines), lines
    assert "<nil>" not in room.logged() and f'operator uid={os.getuid()}' in room.logged(), room.logged()
    room.start()


@once
def an_operator_sets_the_default_branch(room: ServerRoom) -> None:
    """A clone checks the new branch out, also after a crash; the branch before can be deleted then. What is no branch is refused."""
    site = room.pushed()
    room.git(site, "push", "-q", room.url(), "main:refs/heads/next", "main:refs/heads/deep/er")
    for ref in ("none", "refs/tags/v1", "refs/heads/nex", "refs/heads/../main", "deep", "-x", "HEAD"):
        status, said = command(room, "head", "acme/site", ref)
        assert status == 1 and "has no branch" in said, (ref, status, said)
    assert command(room, "head", "acme/none", "main")[0] == 1
    assert room.tenant_head() == "refs/heads/main"
    for ref, head in (("next", "refs/heads/next"), ("refs/heads/deep/er", "refs/heads/deep/er")):
        room.serverd("head", room.served, "acme/site", ref)
        assert room.tenant_head() == head
    room.process.kill()
    room.process.wait()
    room.start()
    room.git("", "clone", "-q", room.url(), "clone")
    assert room.git("clone", "symbolic-ref", "HEAD") == b"refs/heads/deep/er\n"
    room.git(site, "push", "-q", room.url(), ":main")
    assert b'what="head acme/site next"' in room.serverd("audit", room.served)


@over_http
def users_are_listed_and_lose_single_keys(room: ServerRoom) -> None:
    """A key that is taken away lets nobody in from then on, and the user's other key does."""
    room.pushed()
    fingerprints = {}
    for name in ("key", "other"):
        if name != "key":
            subprocess.run(["ssh-keygen", "-q", "-t", "ecdsa", "-N", "", "-f", room.path(name)], check=True)
            room.serverd("user", room.served, "alice", "--key", room.path(name + ".pub"))
        fingerprints[name] = room.run(["ssh-keygen", "-l", "-f", room.path(name)]).stdout.split()[1].decode()
    room.serverd("block", room.served, "user", "bob", "unpaid since May")
    room.serverd("block", room.served, "tenant", "acme/site")
    assert text(room.serverd("users", room.served)).splitlines() == [
        "* grant open/* r", "alice password", f"alice key ssh-ed25519 {fingerprints['key']}",
        f"alice key ecdsa-sha2-nistp256 {fingerprints['other']}", "alice grant * rw", "bob password", "bob grant acme/site r",
        "bob blocked unpaid since May"]
    with_key, with_other = (room.environment["GIT_SSH_COMMAND"].replace(room.path("key"), room.path(name)) for name in ("key", "other"))
    address = f"ssh://alice@{room.ssh[0]}:{room.ssh[1]}/acme/site.git"
    room.git("", "ls-remote", address, GIT_SSH_COMMAND=with_key)
    room.serverd("user", room.served, "alice", "--remove-key", fingerprints["key"])
    room.fails("", "ls-remote", address, says="Permission denied", GIT_SSH_COMMAND=with_key)
    room.git("", "ls-remote", address, GIT_SSH_COMMAND=with_other)
    for user, key in (("alice", fingerprints["key"]), ("bob", fingerprints["other"]), ("alice", "SHA256:"), ("none", "")):
        status, said = command(room, "user", user, "--remove-key", key)
        assert status == 1 and "has no key" in said, (user, key, said)
    room.git("", "ls-remote", address, GIT_SSH_COMMAND=with_other)
    room.serverd("revoke", room.served, "alice")
    assert b"alice" not in room.serverd("users", room.served)


@over_http
def systemd_is_told_when_the_server_serves(room: ServerRoom) -> None:
    """Listens as systemd does: the server is ready when it can be asked and not before, and says when it stops."""
    room.pushed()
    room.stop()
    with socket.socket(socket.AF_UNIX, socket.SOCK_DGRAM) as system:
        system.bind(room.path("notify"))
        system.settimeout(300)
        room.environment["NOTIFY_SOCKET"] = room.path("notify")
        room.start()
        assert system.recv(4096).startswith(b"STATUS=")
        ready = system.recv(4096).decode().splitlines()
        assert ready[0] == "READY=1" and f"http on 127.0.0.1:{room.http[1]}" in ready[1] and f"ssh on 127.0.0.1:{room.ssh[1]}" in ready[1], ready
        room.git("", "ls-remote", room.url())
        assert room.stop() == 0
        assert system.recv(4096).startswith(b"STOPPING=1\nSTATUS=")
    room.start()
    assert "systemd cannot be told" in room.logged()
    room.git("", "ls-remote", room.url())


def address(room: ServerRoom, who: str, tenant: str) -> str:
    """The URL of a tenant for a user, or for a token, which is given with its secret."""
    if ":" not in who:
        return room.url(tenant, user=who)
    return f"http://{who}@{room.http[0]}:{room.http[1]}/{tenant}.git"


def rights(room: ServerRoom, who: str, tenant: str) -> str:
    """What somebody may do with a tenant, as git finds it."""
    url = address(room, who, tenant)
    if room.run(["git", "ls-remote", url]).returncode:
        return ""
    return "r" if room.run(["git", "push", "-q", "--dry-run", url, "main:refs/heads/x"], "site").returncode else "rw"


@over_http
def groups_have_grants(room: ServerRoom) -> None:
    """What a group may do its members may, and members of the groups in it, as long as they are there. A group in itself is refused."""
    room.pushed()
    room.serverd("revoke", room.served, "bob", "acme/site")
    for words, says in ((("grant", "@team", "acme/*", "rw"), "no user or group @team"), (("group", "add", "team", "bob"), "no name of a group"),
                        (("group", "add", "@team", "nobody"), "no user nobody"), (("group", "add", "@", "bob"), "no name of a group"),
                        (("group", "remove", "@team", "bob"), "is not in"), (("group", "add", "@team"), "add @GROUP MEMBER")):
        status, said = command(room, *words)
        assert status == 1 and says in said, (words, status, said)
    room.serverd("group", room.served, "add", "@team", "bob")
    assert rights(room, "bob", "acme/site") == ""
    room.serverd("grant", room.served, "@team", "acme/*", "r")
    assert rights(room, "bob", "acme/site") == "r"
    room.serverd("group", room.served, "add", "@staff", "@team")
    room.serverd("grant", room.served, "@staff", "acme/site", "rw")
    assert rights(room, "bob", "acme/site") == "rw"
    for group, member in (("@team", "@staff"), ("@team", "@team")):
        status, said = command(room, "group", "add", group, member)
        assert status == 1 and "would be in itself" in said, said
    assert room.serverd("group", room.served) == b"@team bob\n@staff @team\n"
    assert b"bob in @team\n" in room.serverd("users", room.served)
    room.serverd("revoke", room.served, "@staff")
    assert rights(room, "bob", "acme/site") == "r"
    with open(os.path.join(room.served, "groups"), "a", encoding="ascii") as file:
        file.write("@staff @team\n@team @staff\n")
    assert rights(room, "bob", "acme/site") == "r" and room.serverd("status", room.served).count(b"list-unread") == 0
    room.serverd("revoke", room.served, "bob")
    room.serverd("user", room.served, "bob", data=PASSWORDS["bob"].encode())
    assert rights(room, "bob", "acme/site") == "" and rights(room, "alice", "acme/site") == "rw"


def token(room: ServerRoom, *words: str) -> str:
    """Makes a token, and gives its name and its secret."""
    return ":".join(text(room.serverd("token", room.served, "add", *words)).split())


def is_let_out(room: ServerRoom, *tokens: str) -> None:
    """Asks that tokens are refused as wrong passwords are."""
    for it in tokens:
        room.fails("", "ls-remote", address(room, it, "acme/site"), says="Authentication failed")


@over_http
def tokens_do_what_they_are_for(room: ServerRoom) -> None:
    """A token does less than its user, until it is taken away, or until its user may do no more. Its secret is in no file."""
    room.pushed()
    reads, writes = token(room, "alice", "acme/site", "r", "30d"), token(room, "alice", "acme/*", "rw", "12h")
    for tenant, may in (("acme/site", ("r", "rw")), ("acme/other", ("", "rw")), ("secret/site", ("", ""))):
        assert (rights(room, reads, tenant), rights(room, writes, tenant)) == may, tenant
    (name, secret), other = reads.split(":"), writes.split(":")[1]
    is_let_out(room, reads[:-1], f"{name}:{other}", f"{name}:{PASSWORDS['alice']}", f"alice:{secret}", f"bob{name[5:]}:{secret}")
    assert f"user={name} " in room.logged()
    assert f"alice token {name} r acme/site until 20" in text(room.serverd("users", room.served))
    room.stop()
    room.start()
    room.serverd("grant", room.served, "alice", "acme/*", "r")
    room.serverd("revoke", room.served, "alice", "*")
    assert (rights(room, writes, "acme/site"), rights(room, reads, "acme/site")) == ("r", "r")
    room.serverd("token", room.served, "remove", name)
    is_let_out(room, reads)
    room.serverd("block", room.served, "user", "alice", "unpaid")
    room.fails("", "ls-remote", address(room, writes, "acme/site"), says="403")
    room.serverd("unblock", room.served, "user", "alice")
    room.serverd("revoke", room.served, "alice")
    is_let_out(room, writes)
    assert room.serverd("token", room.served) == b""
    for at, _, files in os.walk(room.served):
        for file in (it for it in files if it != "socket"):
            with open(os.path.join(at, file), "rb") as opened:
                whole = opened.read()
            assert secret.encode() not in whole and other.encode() not in whole, file


@over_http
def tokens_end(room: ServerRoom) -> None:
    """A token is refused as soon as it is over, by a server that runs and by one that starts then."""
    room.pushed()
    began, ends = time.monotonic(), token(room, "alice", "*", "rw", "20s")
    assert rights(room, ends, "acme/site") == "rw" or time.monotonic() > began + 20
    wait_for(lambda: rights(room, ends, "acme/site") == "")
    assert time.monotonic() > began + 15
    is_let_out(room, ends)
    room.stop()
    room.start()
    is_let_out(room, ends)


@over_http
def tokens_count_with_their_user(room: ServerRoom) -> None:
    """What a token makes and moves is its user's; words that make no token are refused. A token is a password over ssh too."""
    room.pushed()
    writes = token(room, "alice", "acme/*", "rw", "1h")
    name, secret = writes.split(":")
    room.git("site", "push", "-q", address(room, writes, "acme/made"), "main")
    told = text(room.serverd("tenants", room.served)).splitlines()
    assert len(told) == 2 and all(line.endswith(" owner alice") for line in told), told
    with open(room.path("askpass"), "w", encoding="ascii") as file:
        file.write(f"#!/bin/sh\necho '{secret}'\n")
    os.chmod(room.path("askpass"), 0o755)
    room.environment.update(GIT_SSH_COMMAND=room.environment["GIT_SSH_COMMAND"].replace(f"-i {room.path('key')}", "-o PubkeyAuthentication=no"),
                            SSH_ASKPASS=room.path("askpass"), SSH_ASKPASS_REQUIRE="force")
    by_ssh = f"ssh://{name}@{room.ssh[0]}:{room.ssh[1]}/"
    room.git("", "ls-remote", by_ssh + "acme/site.git")
    room.fails("", "ls-remote", by_ssh + "secret/site.git", says="there is no such repository")
    for words, says in ((("add", "alice", "acme/*", "rw", "2000-01-01"), "is over already"), (("add", "alice", "acme/*", "rw", "soon"), "is no day"),
                        (("add", "alice", "acme/*", "w", "1h"), "no right"), (("add", "alice", "a b", "r", "1h"), "names no tenant"),
                        (("add", "nobody", "acme/*", "r", "1h"), "no user nobody"), (("add", "*", "acme/*", "r", "1h"), "no user"),
                        (("add", name, "acme/*", "r", "1h"), "no user"), (("remove", "alice~0"), "there is no token"),
                        (("add", "alice", "*", "r", "60000d"), "ten years"), (("add", "alice"), "add USER PATTERN")):
        status, said = command(room, "token", *words)
        assert status == 1 and says in said, (words, status, said)
    room.stop()
    with open(os.path.join(room.served, "usage"), encoding="ascii") as file:
        assert [line.split()[0] for line in file.read().splitlines()[1:]] == ["alice"]
    room.start()


@over_http
def a_key_of_a_token_does_what_the_token_does(room: ServerRoom) -> None:
    """A key for one tenant, to read: it is refused all else, and lets nobody in once the token, or its user, is taken away."""
    room.pushed()
    subprocess.run(["ssh-keygen", "-q", "-t", "ed25519", "-N", "", "-f", room.path("deploy")], check=True)
    by_key = room.environment["GIT_SSH_COMMAND"].replace(room.path("key"), room.path("deploy"))
    for taken in ("token", "user"):
        name = token(room, "alice", "acme/site", "r", "1h").split(":")[0]
        room.serverd("user", room.served, name, "--key", room.path("deploy.pub"))
        assert f"{name} key ssh-ed25519 SHA256:" in text(room.serverd("users", room.served))
        for login in (name, "git"):
            at = f"ssh://{login}@{room.ssh[0]}:{room.ssh[1]}/"
            room.git("", "ls-remote", at + "acme/site.git", GIT_SSH_COMMAND=by_key)
            room.fails("site", "push", at + "acme/site.git", "main:refs/heads/x", says="and not push to it", GIT_SSH_COMMAND=by_key)
            room.fails("", "ls-remote", at + "acme/other.git", says="there is no such repository", GIT_SSH_COMMAND=by_key)
        room.fails("", "ls-remote", f"ssh://alice@{room.ssh[0]}:{room.ssh[1]}/acme/site.git", says="Permission denied", GIT_SSH_COMMAND=by_key)
        room.serverd(*(("token", room.served, "remove", name) if taken == "token" else ("revoke", room.served, "alice")))
        room.fails("", "ls-remote", at + "acme/site.git", says="Permission denied", GIT_SSH_COMMAND=by_key)
        assert name not in text(room.serverd("users", room.served))
        status, said = command(room, "user", name, "--key", room.path("deploy.pub"))
        assert status == 1 and "no name of a user" in said, said
