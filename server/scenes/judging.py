"""Scenes of hooks that judge a push before it changes anything: pre-receive and update, as githooks(5) has them."""
from __future__ import annotations

import contextlib
import os
import subprocess
import threading
import time
from typing import List

from commanding import command
from guarding import commit
from hooks import ZEROS, content, program
from scenes.room import text, wait_for
from served import ServerRoom, once, over_http, scene
from streams_over_ssh import COMMIT, said

DECLINED = "(pre-receive hook declined)"


def judge(room: ServerRoom, kind: str, script: str, name: str = "") -> str:
    """Lets a script judge all pushes."""
    path = program(room, name or kind, script)
    room.serverd("hooks", room.served, "add", "*", kind, path)
    return path


def temporary(room: ServerRoom) -> List[str]:
    """The repositories of pushes that the server has."""
    return [it for it in os.listdir(os.path.join(room.served, "work")) if it.startswith("push-")]


def left(room: ServerRoom, *names: str) -> List[str]:
    """What is left of hooks: repositories, and processes with one of these names in their words."""
    found = list(temporary(room))
    for pid in (it for it in os.listdir("/proc") if it.isdigit()):
        with contextlib.suppress(ProcessLookupError):
            words = content(f"/proc/{pid}/cmdline")
            found += [words] * any(name in words for name in names)
    return found


def is_clean(room: ServerRoom, *names: str) -> None:
    """Asks that nothing is left of hooks, once the server has put in order what they had: a client is answered before that."""
    with contextlib.suppress(AssertionError):
        wait_for(lambda: not left(room, *names))
    assert not left(room, *names), left(room, *names)


@scene
def hooks_see_what_is_pushed(room: ServerRoom) -> None:
    """Both hooks get what githooks(5) says, and read by git the objects that are pushed and those that were there; no ref of theirs can move."""
    told = room.path("told")
    room.pushed()
    old, new = room.tenant_refs()["refs/heads/main"], commit(room, "more of it")
    judge(room, "pre-receive", f"""exec >> {told} 2>&1
while read old new ref; do
  echo "$old $new $ref"
  [ $old != {ZEROS} ] && git log --format=%s $old..$new && git diff --stat $old $new
  [ -n "$(git ls-tree -r $new)" ] || echo "no file"
  git update-ref refs/heads/evil $new && echo moved
done
echo "$GITPOOLD_TENANT $GITPOOLD_USER $GIT_PUSH_OPTION_COUNT $GIT_PUSH_OPTION_0 $GIT_DIR $(git rev-parse --is-bare-repository) $GIT_QUARANTINE_PATH"
git for-each-ref --format='%(refname) %(objectname)'
git fsck --no-dangling
true
""")
    judge(room, "update", f'echo "update $*" >> {told}; git log --format=%s -1 $3 >> {told} 2>&1; true\n')
    room.git("site", "push", "-q", "-o", "an option", room.url(), "main", "main:refs/heads/second")
    lines = content(told).splitlines()
    work = os.path.join(room.served, "work")
    assert lines[:2] == [f"{old} {new} refs/heads/main", "more of it"], lines
    assert f"{ZEROS} {new} refs/heads/second" in lines and "no file" not in lines and "moved" not in lines, lines
    assert any("ref updates forbidden inside quarantine environment" in it for it in lines), lines
    assert any(it.startswith(f"acme/site alice 1 an option . true {work}/push-") and it.endswith("/objects") for it in lines), lines
    assert f"refs/heads/main {old}" in lines and not any("second " + new in it for it in lines), lines
    updates = [it for it in lines if it.startswith("update ")]
    assert updates == [f"update refs/heads/main {old} {new}", f"update refs/heads/second {ZEROS} {new}"], lines
    assert not any("error" in it or "missing" in it or "broken" in it for it in lines if "ref updates" not in it), lines
    room.git("site", "push", "-q", "--delete", room.url(), "second")
    assert f"update refs/heads/second {new} {ZEROS}" in content(told)
    assert room.tenant_refs() == {**room.tenant_refs(), "refs/heads/main": new} and len(room.tenant_refs()) == 1 + len(room.refs("site", "refs/tags"))
    is_clean(room)


@scene
def hooks_decline_pushes(room: ServerRoom) -> None:
    """pre-receive declines all refs, update one; what they say is shown; others go on; an atomic push changes nothing."""
    room.pushed()
    before = room.tenant_refs()
    commit(room, "more")
    path = judge(room, "pre-receive", "echo 'not today'; echo 'no, really' >&2; exit 1\n")
    told = room.fails("site", "push", room.url(), "main", "main:refs/heads/next", says=DECLINED)
    assert told.count(DECLINED) == 2 and "remote: not today" in told and "remote: no, really" in told, told
    assert room.tenant_refs() == before
    room.serverd("hooks", room.served, "remove", "*", "pre-receive", path)
    judge(room, "update", 'case $1 in */locked) echo "locked: $1"; exit 1;; esac\n')
    words = ("main", "main:refs/heads/locked", "main:refs/heads/free")
    told = room.fails("site", "push", "--atomic", room.url(), *words, says="(hook declined)")
    assert room.tenant_refs() == before, told
    told = room.fails("site", "push", room.url(), *words, says="(hook declined)")
    assert told.count("(hook declined)") == 1 and "remote: locked: refs/heads/locked" in told, told
    now = room.tenant_refs()
    assert "refs/heads/free" in now and "refs/heads/locked" not in now and now["refs/heads/main"] == room.name("site", "main")
    is_clean(room)


HANGS = "the pre-receive hook took longer than {}, and was ended"


def fails_beside_another(room: ServerRoom, limit: str, says: str, shows: str) -> bool:
    """Pushes where a hook fails, and elsewhere meanwhile. Gives whether the push elsewhere ends first."""
    room.serverd("limits", room.served, "hook", limit)
    done: List[str] = []
    pusher = threading.Thread(target=lambda: done.append(room.fails("site", "push", room.url(), "main", says="remote rejected")))
    pusher.start()
    room.git("other", "push", "-q", room.url("acme/elsewhere"), f"HEAD:refs/heads/x{time.monotonic_ns()}")
    is_first = pusher.is_alive()
    pusher.join(900)
    assert done and says in done[0] and shows in done[0], (says, done and done[0][-500:])
    return is_first


@once
def hooks_that_fail_keep_nobody(room: ServerRoom) -> None:
    """A hook that hangs, dies, prints a gigabyte, or leaves processes: a sentence each, nothing left, and nobody else waits."""
    room.pushed()
    room.git("", "clone", "-q", room.url(), "other")
    before = room.tenant_refs()
    commit(room, "more")
    # Other scenes are played beside this one.
    mine = [f"{at}{room.ssh[1]}" for at in (4711, 4712, 4713)]
    for script, says, shows in (
            (f"sleep {mine[0]} & sleep {mine[0]}\n", HANGS, ""),
            ("kill -SEGV $$\n", "the pre-receive hook died: signal: segmentation fault", ""),
            ("yes | head -c 1000000000\nexit 1\n", DECLINED, "what the hook says beyond 65536 bytes is left out"),
            (f"yes {mine[1]}\n", HANGS, "is left out"),
            (f"for i in 1 2 3 4 5 6 7 8; do sleep {mine[2]} & done; exec >&- 2>&-; exit 3\n", DECLINED, ""),
            ("cat > /dev/null; touch objects/junk; rm -rf refs; exit 1\n", DECLINED, "")):
        path = program(room, "bad", script)
        room.serverd("hooks", room.served, "add", "acme/site", "pre-receive", path)
        # A push elsewhere may take longer than ten seconds on a busy machine.
        limits = ("10s", "1m0s", "5m0s") if says == HANGS else ("10m0s",)
        assert any(fails_beside_another(room, it, says.format(it), shows) or says != HANGS for it in limits), "a push elsewhere waits for a hook"
        room.serverd("hooks", room.served, "remove", "acme/site", "pre-receive", path)
        is_clean(room, *mine)
        assert room.tenant_refs() == before
    room.git("site", "push", "-q", room.url(), "main")
    assert "took longer than 10s" in room.logged() and "segmentation fault" in room.logged()


@over_http
def a_hook_that_is_not_there_lets_nothing_pass(room: ServerRoom) -> None:
    """A hook whose program is gone, or that is no program: pushes are refused, and the log says why. Words that make no hook are refused."""
    room.pushed()
    path = judge(room, "pre-receive", "exit 0\n")
    commit(room, "more")
    os.remove(path)
    room.fails("site", "push", room.url(), "main", says="the pre-receive hook cannot be run; the server's log says why")
    assert "no such file" in room.logged()
    os.mkdir(path)
    room.fails("site", "push", room.url(), "main", says="the pre-receive hook cannot be run")
    os.rmdir(path)
    program(room, "pre-receive", "exit 0\n")
    room.git("site", "push", "-q", room.url(), "main")
    assert text(room.serverd("hooks", room.served)) == f"* pre-receive {path}"
    for words, says in ((("*", "pre-receive", "http://127.0.0.1:9/"), "is a program, and no address"), (("*", "pre-push", path), "is no kind"),
                        (("*", "update", room.path("none")), "no such file"), (("*", "update"), "neither the whole path")):
        status, told = command(room, "hooks", "add", *words)
        assert status in (1, 4) and says in told, (words, told)
    is_clean(room)


@over_http
def streams_pass_no_hook(room: ServerRoom) -> None:
    """A stream over ssh to a repository whose pushes are judged by hooks is refused, also where the hook comes while it is open."""
    room.pushed()
    room.git("", "clone", "-q", room.url(), "other")
    room.serverd("grant", room.served, "alice", "*", "rw")
    before = room.tenant_refs()
    room.serverd("hooks", room.served, "add", "acme/site", "update", program(room, "hook", "exit 0\n"))
    for verb in ("import acme/site", "import acme/site --token once"):
        told = said(room, verb, COMMIT.replace(b"main", b"fresh"), 1)
        assert b"a stream cannot be shown to it: push by git (fault 25)" in told and b"gitpool: fault 25" in told, told
    assert room.tenant_refs() == before
    said(room, "import acme/free", COMMIT)
    ssh = [*room.environment["GIT_SSH_COMMAND"].split(), "-p", str(room.ssh[1]), f"alice@{room.ssh[0]}"]
    with subprocess.Popen([*ssh, "import acme/free"], stdin=subprocess.PIPE, stdout=subprocess.PIPE, stderr=subprocess.PIPE,
                          env=room.environment) as process:
        assert process.stdin and process.stdout
        process.stdin.write(COMMIT.replace(b"main", b"fresh") + b"progress there\n")
        process.stdin.flush()
        assert process.stdout.readline() == b"progress there\n"
        room.serverd("hooks", room.served, "add", "acme/free", "pre-receive", room.path("hook"))
        told = process.communicate(b"checkpoint\n")[1]
        assert process.returncode == 1 and b"a stream cannot be shown to it" in told, told
    assert list(room.tenant_refs("acme/free")) == ["refs/heads/main"]
    room.git("other", "push", "-q", room.url(), "HEAD:refs/heads/by-git")


@over_http
def views_follow_a_repository(room: ServerRoom) -> None:
    """What hooks read is what the repository has: after many pushes, forced ones, a compact, and a removal under the same name."""
    room.pushed()
    told = room.path("told")
    judge(room, "pre-receive", f"git fsck --connectivity-only --no-dangling > {told} 2>&1 && git log --format=%s --all | wc -l >> {told}\n")
    for at in range(36):
        commit(room, f"number {at}")
        room.git("site", "push", "-q", "-f", room.url(), "main")
        if at % 15 == 10:
            room.git("site", "reset", "-q", "--hard", "HEAD~5")
            room.git("site", "push", "-q", "-f", room.url(), "main")
            room.serverd("compact", room.served, "acme/site")
    assert content(told).strip().isdigit(), content(told)
    views = [it for it in os.listdir(os.path.join(room.served, "work")) if it.startswith("view-")]
    packs = [it for it in os.listdir(os.path.join(room.served, "work", views[0], "objects", "pack")) if it.endswith(".pack")]
    assert len(views) == 1 and len(packs) < 20, packs
    room.serverd("remove", room.served, "acme/site")
    assert not [it for it in os.listdir(os.path.join(room.served, "work")) if it.startswith("view-")]
    room.git("site", "push", "-q", room.url(), "main")
    commit(room, "last")
    room.git("site", "push", "-q", room.url(), "main")
    assert content(told).strip().isdigit(), content(told)
