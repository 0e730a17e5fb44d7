"""Scenes of users who look after their own accounts: over ssh, and on a page."""
from __future__ import annotations

import base64
import http.client
import os
import re
import socket
import subprocess
import urllib.parse
from typing import Dict, List, Optional, Tuple

from commanding import address, is_let_out, rights, token
from html_pages import Page
from scenes.room import text
from served import PASSWORDS, ServerRoom, over_http
from strangers import by_ssh

PATH = "/-/account"
FORM_POLICY = "default-src 'none'; style-src 'self'; img-src 'self'; base-uri 'none'; form-action 'self'; frame-ancestors 'none'"


def account(room: ServerRoom, words: str, data: bytes = b"", status: int = 0, key: str = "key") -> str:
    """What `account` over ssh prints, or what it says where it is refused."""
    done = by_ssh(room, room.path(key), "git", f"account {words}".strip(), data)
    assert done.returncode == status, (words, done)
    return text(done.stderr if status else done.stdout)


def new_pair(room: ServerRoom, name: str) -> bytes:
    """Makes a pair of keys, and gives the public one."""
    subprocess.run(["ssh-keygen", "-q", "-t", "ed25519", "-N", "", "-C", "", "-f", room.path(name)], check=True)
    with open(room.path(name + ".pub"), "rb") as file:
        return file.read()


def kept(room: ServerRoom, secret: str) -> List[str]:
    """The files of the server in which a secret stands, and the log."""
    found = []
    for at, _, files in os.walk(room.served):
        for name in (it for it in files if it != "socket"):
            with open(os.path.join(at, name), "rb") as file:
                found += [name] if secret.encode() in file.read() else []
    return found + (["the log"] if secret in room.logged() else [])


@over_http
def users_look_after_their_accounts_over_ssh(room: ServerRoom) -> None:
    """Shows what a user may do; changes keys, the password and tokens, which hold at once; each change is in the audit, and no secret."""
    room.pushed()
    room.serverd("group", room.served, "add", "@team", "alice")
    room.serverd("grant", room.served, "@team", "crew/*", "r")
    shown = account(room, "").splitlines()
    assert shown[0] == "user alice" and "grant * rw" in shown and "grant crew/* r by @team" in shown and "grant open/* r by *" in shown, shown
    assert "in @team" in shown and "password" in shown and sum(it.startswith("key ssh-ed25519 SHA256:") for it in shown) == 1, shown
    second = account(room, "keys add", new_pair(room, "second"))
    assert second.startswith("SHA256:") and account(room, "keys").count("\n") == 1
    account(room, "keys remove " + second)
    assert "Permission denied" in account(room, "", status=255, key="second")
    made = account(room, "token create 'acme/*' rw 90d").replace(" ", ":")
    name, secret = made.split(":")
    assert rights(room, made, "acme/site") == "rw" and rights(room, made, "crew/site") == ""
    assert account(room, "token").startswith(f"{name} rw acme/* until 20")
    account(room, "token remove " + name)
    is_let_out(room, made)
    account(room, "password", b"a new password\n")
    room.fails("", "ls-remote", room.url(), says="Authentication failed")
    room.git("", "ls-remote", address(room, "alice:a%20new%20password", "acme/site"))
    audit = text(room.serverd("audit", room.served))
    for what in (f'"keys add {second}"', f'"keys remove {second}"', f'"token create {name} acme/* rw ', f'"token remove {name}"', "password"):
        assert f"account address=127.0.0.1 login=alice what={what}" in audit, (what, audit)
    assert not kept(room, secret) and not kept(room, "a new password")
    room.stop()
    room.start()
    room.git("", "ls-remote", address(room, "alice:a%20new%20password", "acme/site"))


@over_http
def tokens_change_no_account(room: ServerRoom) -> None:
    """A token, by its secret or by a key of its own, sees what it may do, and changes nothing; nobody changes what is another user's."""
    room.pushed()
    name = token(room, "alice", "acme/*", "rw", "1h").split(":")[0]
    other = token(room, "bob", "acme/site", "r", "1h").split(":")[0]
    new_pair(room, "deploy")
    room.serverd("user", room.served, name, "--key", room.path("deploy.pub"))
    lists = {it: room.serverd(it, room.served) for it in ("users", "token")}
    shown = account(room, "", key="deploy").splitlines()
    assert f"token {name} rw acme/* until" in " ".join(shown) and not any(it.startswith(("key", "password")) for it in shown), shown
    for words, data in (("keys add", new_pair(room, "third")), ("keys remove SHA256:x", b""), ("password", b"a new password\n"),
                        ("token create acme/* rw 1h", b""), (f"token remove {name}", b"")):
        assert "an access token changes nothing" in account(room, words, data, 1, "deploy"), words
    deploy = room.path("deploy.pub")
    with open(deploy, "rb") as file:
        assert "belongs to another login" in account(room, "keys add", file.read(), 1)
    for words, says in ((f"token remove {other}", "no token"), ("token remove alice~0", "no token"), ("token remove bob", "no token"),
                        ("keys remove SHA256:x", "has no key"), ("token create acme/* rw 2000-01-01", "is over already"),
                        ("token create acme/* w 1h", "is no right"), ("token create a..b r 1h", "names no tenant"),
                        ("token create * r 60000d", "ten years")):
        assert says in account(room, words, b"", 1), words
    assert "8 to 72 bytes" in account(room, "password", b"short\n", 1)
    assert "no public key" in account(room, "keys add", b"ssh-ed25519 what\n", 1) and "at most 65536" in account(room, "keys add", b"x" * 99_999, 1)
    for words in ("what", "keys what", "password hunter22", "token create a", "keys add more"):
        assert "this server takes account" in account(room, words, b"", 2), words
    assert "hunter22" not in room.logged()
    room.serverd("block", room.served, "user", "alice", "unpaid")
    assert "unpaid" in account(room, "password", b"a new password\n", 1)
    room.serverd("unblock", room.served, "user", "alice")
    assert {it: room.serverd(it, room.served) for it in lists} == lists
    assert "may make 60 changes" in [account(room, f"keys remove SHA256:{at}", b"", 1) for at in range(61)][-1]


class Form(Page):
    """A page with forms, which has their fields."""

    def __init__(self, page: str):
        self.fields: Dict[str, str] = {}
        super().__init__(page)

    def handle_starttag(self, tag: str, attrs: List[Tuple[str, Optional[str]]]) -> None:
        given = {name: value or "" for name, value in attrs}
        if tag == "input" and "name" in given:
            self.fields.setdefault(given["name"], given.get("value", ""))
        if tag in ("form", "input", "button", "label", "select", "option", "textarea"):
            assert not any(name.startswith("on") for name in given), given
            if tag != "input":
                self.open.append(tag)
                self.classes.append("")
            return
        super().handle_starttag(tag, [(name, value) for name, value in attrs if name != "role" or value not in ("status", "alert")])


def ask(room: ServerRoom, login: str = "", fields: Optional[Dict[str, str]] = None, **headers: str) -> Tuple[int, str, Dict[str, str]]:
    """What the page answers: to a GET, or to a form."""
    connection = http.client.HTTPConnection(*room.http, timeout=300)
    sent = {name.replace("_", "-"): value for name, value in headers.items()}
    if login:
        sent["Authorization"] = "Basic " + base64.b64encode(login.encode()).decode()
    body = None
    if fields is not None:
        sent.setdefault("Content-Type", "application/x-www-form-urlencoded")
        body = urllib.parse.urlencode(fields)
    connection.request("GET" if fields is None else "POST", PATH, body, sent)
    answer = connection.getresponse()
    page = answer.read().decode()
    connection.close()
    return answer.status, page, {name.lower(): value for name, value in answer.getheaders()}


ALICE = f"alice:{PASSWORDS['alice']}"


@over_http
def users_look_after_their_accounts_on_a_page(room: ServerRoom) -> None:
    """A page without a script shows the account, and its forms change it; the secret of a token is shown once."""
    room.pushed()
    status, page, head = ask(room, ALICE)
    form = Form(page)
    assert status == 200 and head["content-security-policy"] == FORM_POLICY and head["cache-control"] == "no-store", head
    assert head["referrer-policy"] == "same-origin" and "<script" not in page and "grant" not in page and "* rw" in page
    fresh = {"form": form.fields["form"]}
    here = {"Origin": f"http://{room.http[0]}:{room.http[1]}", "Sec_Fetch_Site": "same-origin"}
    status, page, _ = ask(room, ALICE, {**fresh, "do": "token-create", "pattern": "acme/*", "right": "rw", "end": "1h"}, **here)
    name, secret = re.findall(r"<pre class=\"command\" tabindex=\"0\"><code>([^<]*)</code>", page)
    assert status == 200 and Form(page) and rights(room, f"{name}:{secret}", "acme/site") == "rw"
    assert secret not in ask(room, ALICE)[1] and not kept(room, secret)
    assert ask(room, ALICE, {**fresh, "do": "token-remove", "token": name}, **here)[0] == 200
    is_let_out(room, f"{name}:{secret}")
    status, page, _ = ask(room, ALICE, {**fresh, "do": "key-add", "key": new_pair(room, "second").decode()}, **here)
    assert status == 200 and page.count('value="SHA256:') == 2
    account(room, "", key="second")
    fingerprint = account(room, "keys").splitlines()[1].split()[1]
    assert ask(room, ALICE, {**fresh, "do": "key-remove", "key": fingerprint}, **here)[1].count('value="SHA256:') == 1
    for fields, says in (({"old": "wrong", "new": "password-1", "again": "password-1"}, "password is wrong"),
                         ({"old": PASSWORDS["alice"], "new": "password-1", "again": "password-2"}, "not the same twice"),
                         ({"old": PASSWORDS["alice"], "new": "short", "again": "short"}, "8 to 72 bytes")):
        status, page, _ = ask(room, ALICE, {**fresh, "do": "password", **fields}, **here)
        assert status == 422 and says in page, (fields, status, page)
    status, page, _ = ask(room, ALICE, {**fresh, "do": "password", "old": PASSWORDS["alice"], "new": "password-1", "again": "password-1"}, **here)
    assert status == 200 and ask(room, ALICE)[0] == 401 and ask(room, "alice:password-1")[0] == 200


@over_http
def forms_of_other_sites_are_refused(room: ServerRoom) -> None:
    """What another site sends in a user's name, with or without a token of its own, changes nothing; so does half a form, and one of a token."""
    room.pushed()
    mine = Form(ask(room, ALICE)[1]).fields["form"]
    others = Form(ask(room, f"bob:{PASSWORDS['bob']}")[1]).fields["form"]
    before = room.serverd("users", room.served)
    wanted = {"do": "token-create", "pattern": "*", "right": "rw", "end": "1h"}
    host = f"{room.http[0]}:{room.http[1]}"
    attempts: List[Tuple[str, Dict[str, str]]] = [
        (mine, {"Sec_Fetch_Site": "cross-site"}), (mine, {"Sec_Fetch_Site": "same-site"}), (mine, {"Sec_Fetch_Site": "none"}),
        (mine, {"Origin": "http://evil.example"}), (mine, {"Origin": "null"}), (mine, {"Origin": f"http://{host}.evil.example"}),
        (mine, {"Origin": ""}), (others, {}), ("", {}), (mine[:-1], {}), (mine[::-1], {"Origin": f"http://{host}"}),
        (mine, {"Content_Type": "text/plain"}), (mine, {"Content_Type": "multipart/form-data; boundary=x"})]
    for form, headers in attempts:
        status, page, _ = ask(room, ALICE, {**wanted, "form": form}, **headers)
        assert status == 403 and "This form is not taken" in page, (form, headers, status)
    assert ask(room, "", {**wanted, "form": mine})[0] == 401 and ask(room)[0] == 401
    status, page, _ = ask(room, ALICE, {**wanted, "form": mine, "more": "x" * 300_000})
    assert status == 403 and "longer than this page sends" in page, (status, page)
    made = token(room, "alice", "*", "rw", "1h")
    its = ask(room, made)
    assert its[0] == 200 and "<form" not in its[1] and "changes nothing here" in its[1]
    room.serverd("token", room.served, "remove", made.split(":")[0])
    half = socket.create_connection(room.http, timeout=300)
    half.sendall((f"POST {PATH} HTTP/1.1\r\nHost: {host}\r\nContent-Type: application/x-www-form-urlencoded\r\nContent-Length: 9999\r\n").encode()
                 + room.basic() + b"\r\nform=")
    half.close()
    assert room.serverd("users", room.served) == before
    assert ask(room, ALICE, {**wanted, "form": mine})[0] == 200


