"""Scenes of https: certificates that change while the server runs, plain http that is sent to https, and authorities that do not answer."""
from __future__ import annotations

import os
import ssl
import subprocess
import time
import urllib.error
import urllib.request
from contextlib import contextmanager
from typing import Iterator, Tuple

from operating import free_port
from scenes.room import text, wait_for
from served import PASSWORDS, ServerRoom, over_http


def certified(room: ServerRoom, name: str) -> Tuple[str, str]:
    """Makes a certificate of a name for this machine. Gives its file, and that of its key."""
    certificate, key = room.path(f"{name}.pem"), room.path(f"{name}.key")
    made = room.run(["openssl", "req", "-x509", "-newkey", "ec", "-pkeyopt", "ec_paramgen_curve:prime256v1", "-nodes", "-days", "2", "-subj", f"/CN={name}",
                     "-addext", "subjectAltName=DNS:localhost,IP:127.0.0.1", "-keyout", key, "-out", certificate])
    assert made.returncode == 0, text(made.stderr)
    return certificate, key


@contextmanager
def serving(room: ServerRoom, *words: str) -> Iterator[str]:
    """Runs the server with other options. Gives the path of what it logs."""
    room.stop()
    log = room.path("secure.log")
    with open(log, "wb") as file:
        server = subprocess.Popen([room.server_program, "serve", room.served, "--program", room.program, *words], env=room.environment, stderr=file)
    try:
        wait_for(lambda: "serving socket" in logged(log) and logged(log).count("serving ") == 1 + words.count("--http") + words.count("--redirect"))
        yield log
    finally:
        server.terminate()
        assert server.wait(300) == 0, logged(log)
    room.start()


def logged(path: str) -> str:
    """What a server has logged."""
    with open(path, "rb") as file:
        return file.read().decode(errors="backslashreplace")


def shown(port: int) -> str:
    """The certificate that a client is shown."""
    return ssl.get_server_certificate(("127.0.0.1", port))


@over_http
def a_certificate_is_replaced_while_the_server_runs(room: ServerRoom) -> None:
    """New connections get the new one. Half a certificate, and one of another key, are not taken, and the log says so."""
    certificate, key = certified(room, "first")
    second, second_key = certified(room, "second")
    port = free_port()
    with serving(room, "--http", f"127.0.0.1:{port}", "--certificate", certificate, "--certificate-key", key) as log:
        first, later = open(certificate, encoding="ascii").read(), open(second, encoding="ascii").read()
        assert shown(port) == first
        with open(certificate, "w", encoding="ascii") as file:
            file.write(later[:300])
        time.sleep(1.5)
        assert shown(port) == first, "half a certificate is taken"
        wait_for(lambda: "certificate" in logged(log) or "PEM" in logged(log))
        os.replace(second_key, key)
        os.replace(second, certificate)
        wait_for(lambda: shown(port) == later)


def asked(room: ServerRoom, port: int) -> str:
    """A program that git asks for user and password. It tells them for https alone."""
    path = room.path("ask")
    with open(path, "w", encoding="ascii") as file:
        file.write(f"""#!/bin/sh
case $1 in
  "Username for 'https://127.0.0.1:{port}'"*) echo alice ;;
  "Password for 'https://alice@127.0.0.1:{port}'"*) echo {PASSWORDS['alice']} ;;
  *) exit 1 ;;
esac
""")
    os.chmod(path, 0o755)
    return path


@over_http
def plain_http_is_sent_to_https(room: ServerRoom) -> None:
    """Git follows to https before it tells a password; browsers get the same page. Nothing else is answered over plain http."""
    site = room.pushed()
    certificate, key = certified(room, "here")
    port, plain = free_port(), free_port()
    with serving(room, "--http", f"127.0.0.1:{port}", "--certificate", certificate, "--certificate-key", key, "--redirect", f"127.0.0.1:{plain}"):
        room.environment.update(GIT_SSL_CAINFO=certificate, GIT_ASKPASS=asked(room, port))
        room.git("", "clone", "-q", f"http://127.0.0.1:{plain}/acme/site.git", "clone")
        assert room.name("clone", "HEAD") == room.name(site, "HEAD")
        room.commit("clone", "More", {"more": "x"})
        room.git("clone", "push", "-q", "origin", "main")
        sent = text(room.run(["git", "ls-remote", f"http://127.0.0.1:{plain}/acme/site.git"], GIT_TRACE_CURL="1").stderr)
        before, after = sent.lower().split("http/1.1 308 permanent redirect", 1)
        assert "authorization:" not in before and "send header: authorization: basic" in after, sent[-3000:]
        for path in ("/metrics", "/acme/site", "/.well-known/acme-challenge/x"):
            try:
                urllib.request.build_opener(NoRedirect()).open(f"http://127.0.0.1:{plain}{path}", timeout=300)
                raise AssertionError(f"{path} is answered over plain http")
            except urllib.error.HTTPError as error:
                assert error.code == 308 and error.headers["Location"] == f"https://127.0.0.1:{port}{path}", (error.code, error.headers)


class NoRedirect(urllib.request.HTTPRedirectHandler):
    """Takes a redirect for an error."""

    def redirect_request(self, *_: object) -> None:
        return None


@over_http
def an_authority_that_does_not_answer(room: ServerRoom) -> None:
    """The server serves by ssh and its socket meanwhile, and says that there is no certificate."""
    port, plain, nowhere = free_port(), free_port(), free_port()
    with serving(room, "--http", f"127.0.0.1:{port}", "--redirect", f"127.0.0.1:{plain}", "--acme", "git.example.org",
                 "--acme-directory", f"http://127.0.0.1:{nowhere}/directory") as log:
        wait_for(lambda: "there is no certificate of git.example.org: " in logged(log))
        room.serverd("status", room.served)
        assert os.stat(os.path.join(room.served, "certificates")).st_mode & 0o777 == 0o700


@over_http
def options_of_https_that_do_not_fit(room: ServerRoom) -> None:
    """Each is refused before the server serves, and the sentence names the option."""
    room.stop()
    certificate, key = certified(room, "here")
    for words, said in ((["--redirect", "127.0.0.1:0"], "`--redirect` goes with"), (["--acme", "127.0.0.1"], "`--acme` takes names of hosts"),
                        (["--acme", "git.example.org", "--certificate", certificate], "not from both"),
                        (["--acme-email", "a@example.org"], "go with `--acme`"), (["--certificate", certificate], "go together"),
                        (["--certificate", key, "--certificate-key", certificate], "")):
        done = room.run([room.server_program, "serve", room.served, "--program", room.program, "--http", "127.0.0.1:0", *words])
        assert done.returncode == 1 and said in text(done.stderr) and "serving" not in text(done.stderr), (words, text(done.stderr))
    room.start()
