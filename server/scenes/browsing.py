"""Scenes of pages for browsers: what they show of a repository, whatever is in it, and to whom."""
from __future__ import annotations

import io
import os
import re
import socket
import struct
import tarfile
from typing import Dict, List

from html_pages import USERS, ask, escaped, paged
from served import ServerRoom, over_http

SITE = "/acme/site"


def archived(data: bytes) -> Dict[str, "tuple[int, bytes, str]"]:
    """The modes, contents and targets of what is in a tar, without its first directory."""
    found = {}
    with tarfile.open(fileobj=io.BytesIO(data), errors="surrogateescape", encoding="utf-8") as tar:
        for it in tar:
            file = tar.extractfile(it) if it.isreg() else None
            found[it.name.partition("/")[2].rstrip("/")] = (it.mode & 0o100, file.read() if file else b"", it.linkname)
    return found


@over_http
def pages_of_a_site(room: ServerRoom) -> None:
    """Each page has what it is for."""
    site = room.pushed()
    main = room.name(site, "main")
    room.commit(site, "Third\n\nIt has a body\nof two lines.", {"README.md": "# Site\n\nSee [style](css/a.css) and [web](https://example.org/).\n",
                                                               "index.html": "Hello\n  you\n", "empty": ""})
    room.git(site, "push", "-q", room.url(), "main", "--tags")
    page = ask(room, "/", "alice").page("Repositories", "acme/site", "Third", "may push", "1 repository")
    assert SITE in page.links
    home = ask(room, SITE, "alice").page("acme/site", "main", "1 branch, 2 tags", "Third", "README.md", "css", "index.html", "Site")
    assert f"{SITE}/-/blob/HEAD:css/a.css" in home.links and "https://example.org/" in home.links, home.links
    assert f"git clone http://alice@{room.http[0]}:{room.http[1]}/acme/site.git" in home.text("command")
    assert f"git clone ssh://alice@{room.ssh[0]}:{room.ssh[1]}/acme/site.git" in home.text("command")
    refs = ask(room, SITE + "/-/refs", "alice").page("Branches", "Tags", "main", "HEAD", "light", "v1")
    assert f"{SITE}/-/tree/refs/heads/main" in refs.links and f"{SITE}/-/archive/refs/tags/v1.tar" in refs.links
    log = ask(room, SITE + "/-/log/main", "alice").page("Commits of main", "Third", "A style", "A page", "Ada")
    assert f"{SITE}/-/commit/{main}" in log.links
    tree = ask(room, SITE + "/-/tree/main:css", "alice").page("a.css", "1 entry", "..")
    assert f"{SITE}/-/blob/main%3Acss/a.css" not in tree.links and f"{SITE}/-/blob/main:css/a.css" in tree.links
    blob = ask(room, SITE + "/-/blob/main:index.html", "alice").page("2 lines", "12 bytes", "Raw")
    assert blob.lines("line") == ["Hello", "  you"] and "L2" in blob.ids
    ask(room, SITE + "/-/blob/main:empty", "alice").page("The file is empty")
    raw = ask(room, SITE + "/-/raw/main:index.html", "alice")
    assert raw.body == b"Hello\n  you\n" and raw.head["content-type"] == "text/plain; charset=utf-8", raw.head
    assert raw.head["content-disposition"] == "inline; filename=index.html" and "sandbox" in raw.head["content-security-policy"]
    commit = ask(room, SITE + "/-/commit/main", "alice").page("Third", "It has a body\nof two lines.", "Ada", "ada@example.org", "Bob",
                                                             "3 files changed, 5 lines added, 1 line deleted", main[:10])
    assert commit.lines("add") == ["+# Site", "+", "+See [style](css/a.css) and [web](https://example.org/).", "+Hello", "+  you"]
    assert commit.lines("del") == ["-Hello there"] and "@@ -1,1 +1,2 @@" in commit.text("head")
    ask(room, SITE + "/-/commit/v1", "alice").page("Tag v1", "First", "A style")


@over_http
def pages_of_a_history(room: ServerRoom) -> None:
    """A history a page at a time is what git log says, with merges; and an archive has what git archive writes."""
    site = room.init("site")
    for number in range(130):
        date = f"{1700000000 + 10 * number} +0000"
        if number % 10 == 5:
            room.git(site, "checkout", "-q", "-b", f"side{number}", "HEAD~2")
        room.write(site, {f"d{number % 7}/f{number}": f"{number}\n" * 30})
        room.git(site, "add", "-A")
        room.git(site, "commit", "-q", "-m", f"Change {number}", GIT_COMMITTER_DATE=date)
        if number % 10 == 8:
            room.git(site, "checkout", "-q", "main")
            room.git(site, "merge", "-q", "--no-edit", f"side{number - 3}", GIT_COMMITTER_DATE=f"{1700000003 + 10 * number} +0000")
    room.write(site, {"run": "#!/bin/sh\n", "d1/\u00e4": "x"})
    room.git(site, "add", "-A")
    room.git(site, "update-index", "--chmod=+x", "run")
    link = room.git(site, "hash-object", "-w", "--stdin", data=b"d1/f1").decode().strip()
    room.git(site, "update-index", "--add", "--cacheinfo", f"120000,{link},link")
    room.git(site, "commit", "-q", "-m", "Modes", GIT_COMMITTER_DATE="1700009000 +0000")
    room.git(site, "push", "-q", room.url(), "main")
    pages = paged(room, SITE + "/-/log/main", "alice")
    shown = [name for page in pages for name in re.findall(r"/-/commit/([0-9a-f]{40})", "\n".join(page.links))]
    assert shown == room.git(site, "log", "--format=%H", "main").decode().split() and len(pages) == 3, (len(shown), len(pages))
    reply = ask(room, SITE + "/-/archive/main.tar", "alice")
    mine = archived(reply.body)
    theirs = archived(room.git(site, "archive", "--prefix=x/", "main"))
    assert mine == theirs, set(mine.items()) ^ set(theirs.items())
    assert room.run(["git", "get-tar-commit-id"], "", reply.body).stdout.decode().strip() == room.name(site, "main")
    assert ask(room, SITE + "/-/archive/main.tar", "alice", If_None_Match=reply.head["etag"]).status == 304
    differs(room, site)


def differs(room: ServerRoom, site: str) -> None:
    """Compares the counts of added and deleted lines with git's, for commits that change many places, modes and names."""
    text = [f"line {number}\n" for number in range(3000)]
    room.write(site, {"long": "".join(text), "gone": "a\nb\n"})
    room.commit(site, "Long")
    text[10:13] = ["x\n"]
    text[1500] = "y\n"
    del text[2500:2510]
    room.git(site, "mv", "gone", "come")
    room.write(site, {"long": "".join(text)})
    room.git(site, "rm", "-q", "-r", "d2")
    room.write(site, {"d2": "a file where a directory was"})
    room.git(site, "add", "-A", "long", "d2", "come")
    room.git(site, "update-index", "--chmod=+x", "long")
    room.git(site, "commit", "-q", "-m", "Places")
    room.git(site, "push", "-q", room.url(), "main")
    page = ask(room, SITE + "/-/commit/main", "alice").page("renamed from gone", "mode 100644 became 100755", r"\ No newline at end of file")
    added = deleted = files = 0
    for row in room.git(site, "show", "--numstat", "--format=", "-M100%", "main").decode().splitlines():
        files, added, deleted = files + 1, added + int(row.split()[0]), deleted + int(row.split()[1])
    page_says = f"{files} files changed, {added} lines added, {deleted} lines deleted"
    assert page_says in page.text(), (page_says, page.text()[:600])


# The contents of files in directories, and of those that are in none.
BELOW = b"<script>alert(1)</script>\n\xff\0x"
ATOP = b"</pre><script>\r\n\xe2\x80\xae\xff&\n"
NAMES = [b"<script>alert(1)<.html", b"q\"uo'te&amp;", b"\xff\xfe bytes", b"new\nline", b"%2e%2e", b"a?b#c", b"colon:name", b"-dash", b"back\\slash",
         "\u202etxt.exe".encode(), "\u00fc\U0001f600".encode(), b"HEAD", b"tab\there", b"<img src=x onerror=alert(1)>", b" space ", b"$(id)"]
README = b"""<script>alert(1)</script>
<img src=x onerror=alert(1)> <a href="javascript:alert(1)">x</a>

# Head <b>bold</b> "q"
[js](javascript:alert(1)) [data](data:text/html,<script>) [vb](VBScript:x) [up](../../../../etc/passwd) [other](//evil.example/x)
![pixel](https://evil.example/pixel.png) [![badge](b.svg)](https://ok.example/) <https://auto.example/?a="b> [ref]
\xff\xfe bytes | table
[ref]: javascript:alert(2) "t\\"><script>"
`<script>` &lt;script&gt; &#60;script&#62;
"""


def hostile_stream() -> bytes:
    """A stream whose names, messages and contents look like markup."""
    def blob(data: bytes) -> bytes:
        return b"data %d\n%b\n" % (len(data), data)

    def quoted(name: bytes) -> bytes:
        return b'"' + b"".join(b"\\%03o" % it if it < 33 or it > 126 or it in b'"\\' else bytes((it,)) for it in name) + b'"'

    message = b"<script>alert('m')</script> & \"quotes\"\n\n</pre></section><img src=x onerror=alert(1)>\n\xff\xfe\x1b[31m\n"
    parts = [b"commit refs/heads/main\nmark :1\nauthor A \"x\" &lt;b&gt; <'a'&@b> 1700000000 +0000\ncommitter B\xff <b@c> 1700000000 -1100\n",
             blob(message)]
    for folder in (b"", b"<i>dir/", b"info/refs/", b"objects/-/", b"a/-/b/"):
        for name in NAMES:
            parts.append(b"M 100644 inline %b\n" % quoted(folder + name) + blob(BELOW if folder else ATOP))
    parts += [b"M 100644 inline README.md\n", blob(README), b"M 120000 inline link\n", blob(b"\"><script>/../../etc/passwd"),
              b"M 160000 %b module\n" % (b"ab" * 20), b"M 100644 inline long\n", blob(b"<b>" * 400000),
              b"M 100644 inline binary\n", blob(b"\0\x01" * 99)]
    for number in range(10000):
        parts.append(b"M 100644 inline many/%05d\n" % number + blob(b"x"))
    parts += [b"commit refs/heads/a\"<script>'&#/x%%2e\ncommitter B <b@c> 1700000001 +0000\n".replace(b"%%", b"%"), blob(b""),
              b"from :1\nM 100644 inline long\n", blob(b"<b>" * 400001), b"D many\n"]
    parts += [b"blob\nmark :9\n", blob(b"tagged <b>\n"), b"tag tb\nmark :10\nfrom :9\ntagger T <t@u> 1700000002 +0000\n", blob(b"of a blob <i>\n"),
              b"tag tt\nfrom :10\ntagger T <t@u> 1700000002 +0000\n", blob(b"of a tag\n")]
    return b"".join(parts)


@over_http
def pages_of_a_hostile_repository(room: ServerRoom) -> None:
    """No name, message or content comes through as markup, and each page is whole."""
    room.imported("bad", hostile_stream())
    # Some of it no push brings, but a client that speaks frames does.
    imported(room, "acme/site", hostile_stream())
    home = ask(room, SITE, "alice").page("<script>alert(1)<.html", "<img src=x onerror=alert(1)>", "<script>alert('m')</script> & \"quotes\"",
                                         "new\u240aline", "\ufffdtxt.exe", "symbolic link", "submodule at abababab", "Head bold \"q\"")
    assert not [it for it in home.links if "evil.example" in it and "pixel" not in it], home.links
    assert f"{SITE}/-/blob/HEAD:etc/passwd" in home.links and "https://ok.example/" in home.links, home.links
    for name in NAMES:
        for folder in (b"", b"<i>dir/", b"info/refs/", b"objects/-/", b"a/-/b/"):
            path = escaped(folder + name)
            assert folder or f"{SITE}/-/blob/HEAD:{path}" in home.links, path
            reply = ask(room, f"{SITE}/-/blob/main:{path}", "alice")
            assert reply.status == 200, (path, reply.status)
            reply.page("binary" if folder else "</pre><script>")
            raw = ask(room, f"{SITE}/-/raw/main:{path}", "alice")
            assert raw.body == (BELOW if folder else ATOP) and raw.head["content-type"] == "application/octet-stream", (path, raw.head)
            assert raw.head["content-disposition"].startswith("attachment"), raw.head
            if folder:
                ask(room, f"{SITE}/-/tree/main:{escaped(folder[:-1])}", "alice").page()
    ask(room, SITE + "/-/refs", "alice").page("a\"<script>'&#/x%2e", "an object that is no commit")
    other = escaped("refs/heads/a\"<script>'&#/x%2e")
    for kind in ("log", "tree", "commit"):
        ask(room, f"{SITE}/-/{kind}/{other}", "alice").page("(no message)")
    commit = ask(room, f"{SITE}/-/commit/main", "alice").page("</pre></section><img src=x onerror=alert(1)>", "\u241b[31m", "A \"x\" &lt;b&gt;",
                                                              "Only the first 100 files")
    assert len(commit.text()) < 2_000_000
    long = ask(room, f"{SITE}/-/blob/main:long", "alice").page("1,198,000 more bytes", "The last line has no line end")
    assert len(long.text()) < 10000
    many = paged(room, f"{SITE}/-/tree/main:many", "alice")
    rows = [it for page in many for it in page.links if ":many/" in it]
    assert len(rows) == 10000 and len(many) == 10, (len(rows), len(many))
    ask(room, f"{SITE}/-/blob/main:binary", "alice").page("The file is binary")
    ask(room, f"{SITE}/-/blob/main:link", "alice").page("symbolic link", "\"><script>/../../etc/passwd")
    ask(room, f"{SITE}/-/commit/tt", "alice").page("Tag tt", "of a tag", "Tag tb", "of a blob <i>", "The tag names a blob")
    assert ask(room, f"{SITE}/-/commit/tt^{{blob}}".replace("^{", "%5E%7B").replace("}", "%7D"), "alice").status == 302
    assert ask(room, f"{SITE}/-/blob/main:module", "alice").status == 404
    assert count_of(archived(ask(room, f"{SITE}/-/archive/main.tar", "alice").body)) == 5 * len(NAMES) + 10005
    assert room.process.poll() is None


def count_of(files: "Dict[str, tuple[int, bytes, str]]") -> int:
    """How many files, links and submodules there are."""
    folders = {path.rpartition("/")[0] for path in files}
    return len([path for path in files if path and path not in folders])


def imported(room: ServerRoom, tenant: str, stream: bytes) -> None:
    """Feeds a stream to a tenant over the operator's socket, as a client that speaks frames does."""
    def frame(kind: int, body: bytes = b"") -> bytes:
        name = tenant.encode()
        return bytes((kind,)) + struct.pack(">H", len(name)) + name + struct.pack(">I", len(body)) + body

    with socket.socket(socket.AF_UNIX) as client:
        client.connect(os.path.join(room.served, "socket"))
        client.sendall(frame(1) + frame(2, stream) + frame(3))
        client.shutdown(socket.SHUT_WR)
        told = b"".join(iter(lambda: client.recv(1 << 16), b""))
    assert len(told) >= 3 and all(it == 0 for it in told[:1]), told


@over_http
def pages_of_an_empty_repository(room: ServerRoom) -> None:
    command = f"git push http://alice@{room.http[0]}:{room.http[1]}/acme/nothing.git HEAD:main"
    ask(room, "/acme/nothing", "alice").page("This repository is empty", command)
    ask(room, "/acme/nothing/-/refs", "alice").page("0 refs")
    for path in ("log/HEAD", "tree/HEAD", "commit/main", "archive/HEAD.tar", "raw/HEAD:x"):
        assert ask(room, "/acme/nothing/-/" + path, "alice").status == 404, path
    ask(room, "/").page("There is no repository that you may see")


@over_http
def pages_and_grants(room: ServerRoom) -> None:
    """Who may read sees; all others get the same bytes whether or not there is something."""
    for tenant in ("acme/site", "acme/other", "open/tools"):
        at = room.site(tenant.replace("/", "-"))
        room.git(at, "push", "-q", room.url(tenant), "main")
    listed = {"": ["open/tools"], "bob": ["acme/site", "open/tools"], "alice": ["acme/other", "acme/site", "open/tools"]}
    for user in USERS:
        page = ask(room, "/", user).page()
        homes = [it[1:] for it in page.links if re.fullmatch("/[a-z]+/[a-z]+", it)]
        assert homes == listed[user], (user, page.links)
        for tenant in ("acme/site", "acme/other", "open/tools"):
            for path in ("", "/-/refs", "/-/log/main", "/-/tree/main", "/-/blob/main:index.html", "/-/raw/main:index.html", "/-/commit/main",
                         "/-/archive/main.tar", "/-/archive/main.zip", "/-/blame/main:index.html", "/-/compare/main..main", "/-/search/main?q=x",
                         "/-/feed/main"):
                status = 200 if tenant in listed[user] else 404 if user else 401
                there, not_there = (ask(room, f"/{it}{path}", user) for it in (tenant, "acme/nobody"))
                assert there.status == status, (user, tenant, path, there.status)
                if status != 200:
                    same = [(it.status, it.body, {name: value for name, value in it.head.items() if name != "date"}) for it in (there, not_there)]
                    assert same[0] == same[1] or user == "alice", (user, tenant, path, same)
    assert ask(room, SITE, "bob").page().text("command").count("git clone") == 2
    assert "www-authenticate" in ask(room, SITE).head and "www-authenticate" in ask(room, "/?sign-in=/open/tools").head
    for to, place in (("/open/tools/-/refs", "/open/tools/-/refs"), ("//evil.example/x", "/"), ("https://evil.example/", "/"), ("/a%0d%0ab", "/"),
                      ("", "/")):
        reply = ask(room, "/?sign-in=" + to, "bob")
        assert (reply.status, reply.head["location"]) == (303, place), (to, reply.head)
    wrong = ask(room, "/", Authorization="Basic Ym9iOndyb25n")
    assert wrong.status == 401 and b"open/tools" not in wrong.body and b"bob" not in wrong.body
    room.serverd("revoke", room.served, "bob", "acme/site")
    assert ask(room, SITE, "bob").status == 404


@over_http
def requests_of_browsers(room: ServerRoom) -> None:
    """HEAD, conditions, ranges, wrong methods, and paths that are none."""
    site = room.pushed()
    etag = {}
    for path in ("", "/-/refs", "/-/log/main", "/-/tree/main", "/-/blob/main:index.html", "/-/raw/main:index.html", "/-/commit/main",
                 "/-/archive/main.tar"):
        got, head = ask(room, SITE + path, "alice"), ask(room, SITE + path, "alice", "HEAD")
        assert head.status == 200 and head.body == b"", path
        etag[path] = got.head["etag"]
        same = ask(room, SITE + path, "alice", If_None_Match=got.head["etag"])
        assert (same.status == 304 and same.body == b"") or same.head["etag"] != got.head["etag"], (path, same.status)
        assert got.head["cache-control"] == "private, no-cache" and got.head["referrer-policy"] == "no-referrer", got.head
        for method in ("POST", "PUT", "DELETE", "OPTIONS", "PATCH"):
            refused = ask(room, SITE + path, "alice", method)
            assert refused.status == 405 and refused.head["allow"] == "GET, HEAD", (method, path)
    assert etag["/-/raw/main:index.html"].strip('"') == room.name(site, "main:index.html")
    part = ask(room, SITE + "/-/raw/main:index.html", "alice", Range="bytes=2-4")
    assert (part.status, part.body) == (206, b"llo")
    style = re.findall(r'href="(/-/style-[0-9a-f]+\.css)"', ask(room, "/").body.decode())[0]
    sheet = ask(room, style)
    assert sheet.head["content-type"] == "text/css; charset=utf-8" and "immutable" in sheet.head["cache-control"]
    assert b"url(" not in sheet.body and b"@import" not in sheet.body
    for path, place in (("/acme/site/", SITE), ("/acme/site.git", SITE), ("/acme/site.git/", SITE), ("/acme/site/-/", SITE),
                        ("/acme/nobody.git", "/acme/nobody"), ("/acme/site/-/tree/main:index.html", SITE + "/-/blob/main:index.html"),
                        ("/acme/site/-/blob/main:css", SITE + "/-/tree/main:css")):
        moved = ask(room, path, "alice")
        assert (moved.status, moved.head["location"]) == (302, place), (path, moved.status, moved.head)
    for path in PATHS:
        reply = ask(room, path, "alice")
        assert reply.status in (400, 404), (path, reply.status)
        assert b"alice" not in reply.body or reply.status == 404
    for line in (b"GET /\0 HTTP/1.1", b"GET /acme/site/-/blob/main:\0 HTTP/1.1", b"GET  HTTP/1.1", b"GET /acme/../etc/passwd HTTP/1.1",
                 b"GET /" + b"a" * 100000 + b" HTTP/1.1", b"GET *", b"OPTIONS * HTTP/1.1", b"GET http://[/ HTTP/1.1"):
        told = room.talk(line + b"\r\nHost: x\r\nConnection: close\r\n\r\n")
        assert re.match(rb"HTTP/1\.[01] (400|404|405|431|200) ", told) and b"root:" not in told, (line[:60], told[:100])
    assert b'git clone' not in room.talk(b"GET /acme/site HTTP/1.1\r\nConnection: close\r\nHost: \"><script>\r\n" + room.basic() + b"\r\n")


@over_http
def pages_beside_git(room: ServerRoom) -> None:
    """Tenants whose names look like what git asks for have pages, and all can be cloned, with or without `.git`."""
    site = room.pushed()
    for name in ("info/refs", "HEAD", "objects/x"):
        room.git(site, "push", "-q", room.url("acme/" + name), "main")
        page = ask(room, f"/acme/{name}/-/", "alice").page(f"acme/{name}", "index.html")
        assert f"/acme/{name}/-/" in page.links, page.links
        room.git("", "clone", "-q", room.url("acme/" + name), "clone-" + name.replace("/", "-"))
    room.git("", "clone", "-q", f"http://alice:wonderland@{room.http[0]}:{room.http[1]}/acme/site", "plain")


PATHS: List[str] = [
    "/acme/site/-/blob/main:..", "/acme/site/-/blob/main:../../etc/passwd", "/acme/site/-/blob/main:%2e%2e/%2e%2e/etc/passwd",
    "/acme/site/-/raw/main:css/../index.html", "/acme/site/-/tree/main:css/", "/acme/site/-/tree/main:/css", "/acme/site/-/tree/main:a//b",
    "/acme/site/-/blob/main:index.html%00", "/acme/site/-/blob/main%00:index.html", "/acme%00/site", "/acme/site%00",
    "/acme/site/-/blob/main:", "/acme/site/-/tree/", "/acme/site/-/tree", "/acme/site/-/log/", "/acme/site/-/log/main..v1", "/acme/site/-/x/main",
    "/acme/site/-/log/--all", "/acme/site/-/log/main%0arefs", "/acme/site/-/log/main%20refs", "/acme/site/-/log/main:", "/acme/site/-/refs/",
    "/acme/site/-/log/main?from=x", "/acme/site/-/log/main?from=" + ".".join(["main"] * 500), "/acme/site/-/log/" + "a" * 20000,
    "/acme/site/-/blob/main:" + "a/" * 5000 + "b", "/acme/site/-/commit/zzz", "/acme/site/-/commit/0000", "/acme/site/-/archive/main",
    "/acme/site/-/archive/main.rar", "/acme/site/-/compare/main", "/acme/site/-/compare/main..", "/acme/site/-/compare/main...no", "/acme/site/-/blame/main",
    "/acme/site/-/blame/main:css", "/acme/site/-/search/main:css", "/acme/site/-/feed/no", "/-/sitemap.xml", "/acme/site/-/commit/" + "0" * 40, "/-/", "/-/style-.css", "/-/style.css", "/-/x", "//acme/site",
    "/acme//site",
    "/acme/./site", "/acme/../site", "/%2e%2e/site", "/acme/site.git.git", "/acme/.site", "/acme/-site", "/acme/s!te", "/favicon.ico", "/robots.txt",
    "/" + "a" * 65, "/acme/site/-/tree/main:index.html/x", "/acme/site/-/raw/main:css", "/acme/site/-/raw/main", "/%ff", "/acme/site/-/log/%ff%fe",
]


@over_http
def files_larger_than_answers_may_be(room: ServerRoom) -> None:
    """What waits for a slow reader is bounded: a file that is larger alone is refused, and a smaller one comes."""
    site = room.pushed()
    room.commit(site, "Files", {"large": "x" * 5000, "small": "x"})
    room.git(site, "push", "-q", "pool", "main")
    room.serverd("limits", room.served, "answer-bytes", "4K")
    refused = ask(room, SITE + "/-/raw/main:large", "alice")
    assert refused.status == 429 and b"answer-bytes" in refused.body, refused
    assert ask(room, SITE + "/-/raw/main:small", "alice").body == b"x"
    room.serverd("limits", room.served, "answer-bytes", "default")
    assert ask(room, SITE + "/-/raw/main:large", "alice").body == b"x" * 5000
