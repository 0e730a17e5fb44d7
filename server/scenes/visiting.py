"""Scenes of pages that look through a history or a tree: blame, histories of paths, comparisons, search, archives, feeds, the list of repositories;
what each says beside git, what it costs, and what hostile repositories get."""
from __future__ import annotations

import io
import re
import time
import zipfile
from concurrent.futures import ThreadPoolExecutor
from typing import Dict, List, Set
from urllib.parse import quote, urljoin
from xml.etree import ElementTree

from browsing import SITE, archived, hostile_stream, imported
from html_pages import Page, ask, escaped, paged
from served import ServerRoom, over_http

ATOM = "{http://www.w3.org/2005/Atom}"


def names_of(page: Page, kind: str = "commit") -> List[str]:
    """The commits to which links of a page lead."""
    return [it.rsplit("/", 1)[1] for it in page.links if re.fullmatch(rf"{SITE}/-/{kind}/[0-9a-f]{{40}}", it)]


def storied(room: ServerRoom) -> str:
    """A repository with merges, a renamed file, a mode that changed, a file that went and came back, and branches that parted."""
    site = room.init("site")
    when = iter(range(1700000000, 1800000000, 100))

    def commit(message: str) -> None:
        room.git(site, "add", "-A")
        date = f"{next(when)} +0000"
        room.git(site, "commit", "-q", "--allow-empty", "-m", message, GIT_AUTHOR_DATE=date, GIT_COMMITTER_DATE=date)

    lines = [f"line {number}" for number in range(200)]
    room.write(site, {"old name": "\n".join(lines) + "\n", "lib/a": "a\n", "lib/b": "b\n", "gone": "1\n", "run": "#!/bin/sh\n"})
    commit("Root")
    for number in range(40):
        lines[(number * 37) % len(lines)] = f"change {number}"
        if number % 9 == 4:
            lines.insert(number, f"new {number}")
        if number % 11 == 6:
            del lines[3 * number : 3 * number + 4]
        if number == 20:
            room.git(site, "mv", "old name", "text")
            commit("Renamed")
        room.write(site, {"old name" if number < 20 else "text": "\n".join(lines) + "\n", f"lib/{number % 5}": f"{number}\n"})
        if number == 10:
            room.git(site, "rm", "-q", "gone")
        if number == 30:
            room.write(site, {"gone": "2\n"})
            room.git(site, "update-index", "--chmod=+x", "run")
        commit(f"Change {number}")
        if number in (12, 25):
            text = "old name" if number < 20 else "text"
            room.git(site, "checkout", "-q", "-b", f"side{number}", "HEAD~2")
            room.write(site, {f"lib/side{number}": "x\n", text: f"first {number}\n" + room.git(site, "show", f"HEAD:{text}").decode()})
            commit(f"Side {number}")
            room.git(site, "checkout", "-q", "main")
            room.git(site, "merge", "-q", "--no-commit", "-s", "ours", f"side{number}")
            lines.insert(0, f"first {number}")
            room.write(site, {f"lib/side{number}": "x\n", text: "\n".join(lines) + "\n"})
            commit(f"Merge {number}")
    room.git(site, "checkout", "-q", "-b", "topic", "HEAD~3")
    room.write(site, {"topic": "t\n"})
    commit("Topic")
    room.git(site, "checkout", "-q", "--orphan", "alone")
    commit("Alone")
    room.git(site, "checkout", "-q", "main")
    room.git(site, "push", "-q", room.url(), "main", "topic", "alone", "side12")
    return site


@over_http
def pages_of_a_history_say_what_git_says(room: ServerRoom) -> None:
    """Blame, the history of a path, and the last commit beside each entry."""
    site = storied(room)
    blame = ask(room, f"{SITE}/-/blame/main:text", "alice")
    runs = re.findall(r'id="L([0-9]+)"><span class="by">(?:<a href="[^"]*/-/commit/([0-9a-f]{40})")?', blame.body.decode())
    mine, name = [], ""
    for number, found in runs:
        name = found or name
        mine.append(name)
    theirs = [it.split()[0].lstrip("^") for it in room.git(site, "blame", "-l", "--root", "main", "--", "text").decode().splitlines()]
    assert mine == theirs, [(at + 1, *it) for at, it in enumerate(zip(mine, theirs)) if it[0] != it[1]]
    blame.page("Ada")
    for path in ("text", "old name", "lib", "lib/1", "gone", "run", "lib/side12"):
        shown = [name for page in paged(room, f"{SITE}/-/log/main:{escaped(path)}", "alice") for name in names_of(page)]
        assert shown == room.git(site, "log", "--format=%H", "main", "--", path).decode().split(), path
    for folder in ("", "lib"):
        page = ask(room, f"{SITE}/-/tree/main" + (f":{folder}" if folder else ""), "alice").body.decode()
        rows = re.findall(r'<tr class="[a-z ]+"><td>.*?<bdi>([^<]*)</bdi>.*?<td class="last"><a href="[^"]*/-/commit/([0-9a-f]{40})"', page)
        entries = room.git(site, "ls-tree", "--name-only", "main:" + folder).decode().splitlines()
        assert sorted(name for name, _ in rows) == sorted(entries), rows
        for entry, commit in rows:
            path = f"{folder}/{entry}" if folder else entry
            assert commit == room.git(site, "log", "-1", "--format=%H", "main", "--", path).decode().strip(), path


@over_http
def pages_that_compare(room: ServerRoom) -> None:
    """Two revisions as they are, and what one has changed since both parted."""
    site = storied(room)
    for old, dots, new in (
        ("main", "...", "topic"),
        ("topic", "...", "main"),
        ("main", "..", "topic"),
        ("main", "...", "main"),
        ("main~9", "..", "main"),
        ("side12", "...", "main"),
        ("alone", "..", "main"),
    ):
        page = ask(room, f"{SITE}/-/compare/{old}{dots}{new}", "alice").page()
        ahead = room.git(site, "log", "--format=%H", f"{old}..{new}").decode().split()
        assert sorted(names_of(page)[: len(ahead)]) == sorted(ahead[:50]), (old, dots, new)
        stat = room.git(site, "diff", "--numstat", "-M100%", f"{old}{dots}{new}").decode().splitlines()
        added, deleted = (sum(int(row.split()[at]) for row in stat) for at in (0, 1))
        assert f"{len(stat)} file{'s' * (len(stat) != 1)} changed, {added} line{'s' * (added != 1)} added" in page.text(), (
            old,
            dots,
            new,
            page.text()[:900],
        )
    ask(room, f"{SITE}/-/compare/alone...main", "alice").page("no commit in common")
    assert ask(room, f"{SITE}/-/compare/main..none", "alice").status == 404
    refs = ask(room, SITE + "/-/refs", "alice").page("compare")
    assert f"{SITE}/-/compare/HEAD...refs/heads/topic" in refs.links, refs.links


@over_http
def pages_that_search(room: ServerRoom) -> None:
    """A search finds what git finds; no text costs more than its bound."""
    site = storied(room)
    room.commit(
        site,
        "Texts",
        {"one": "Needle\nneedle needle\nhay\n" * 3, "deep/down/two": "a needle", "binary": "needle\0", "a.*b": "x.*y\n", "wide": "é needle\n"},
    )
    room.git(site, "push", "-q", room.url(), "main")
    for text in ("needle", "Needle", "x.*y", "é", "change 1", "nowhere", "-x", "[", "\\", "'\"<b>"):
        found = ask(room, f"{SITE}/-/search/main?q={quote(text)}", "alice").page()
        mine = [it for it in found.links if re.match(rf"{SITE}/-/blob/main:[^#]*$", it)]
        words = ["grep", "-I", "-l", "-F", *([] if text != text.lower() else ["-i"]), "-e", text, "main"]
        theirs = [it.partition(":")[2] for it in room.run(["git", "-c", "core.quotePath=false", *words], site).stdout.decode().splitlines()]
        assert [it.partition(":")[2] for it in mine] == [escaped(it) for it in theirs], (text, mine, theirs)
    page = ask(room, f"{SITE}/-/search/main?q=needle", "alice").page("1 more line")
    assert f"{SITE}/-/blob/main:one#L2" in page.links, page.links
    names = ask(room, f"{SITE}/-/search/main?q=lib&in=names", "alice").page()
    mine = [it.partition("main:")[2] for it in names.links if "/-/blob/" in it]
    assert mine == [it for it in room.git(site, "ls-tree", "-r", "--name-only", "main").decode().splitlines() if "lib" in it]
    logs = paged(room, f"{SITE}/-/search/main?q=change+1&in=messages", "alice")
    mine = [name for page in logs for name in names_of(page)]
    assert mine == room.git(site, "log", "--format=%H", "-i", "--grep=change 1", "main").decode().split()
    ask(room, f"{SITE}/-/search/main?q=" + "a" * 201, "alice").page("at most 200 bytes")
    ask(room, f"{SITE}/-/search/main?q=%ff", "alice").page("at most 200 bytes")


@over_http
def archives_have_what_git_archives(room: ServerRoom) -> None:
    site = storied(room)
    link = room.git(site, "hash-object", "-w", "--stdin", data=b"lib/a").decode().strip()
    room.git(site, "update-index", "--add", "--cacheinfo", f"120000,{link},link")
    room.git(site, "commit", "-q", "-m", "Link")
    room.git(site, "push", "-q", room.url(), "main")
    theirs = archived(room.git(site, "archive", "--prefix=x/", "main"))
    reply = ask(room, SITE + "/-/archive/main.tar.gz", "alice")
    assert archived(reply.body) == theirs and reply.head["content-type"] == "application/gzip"
    assert reply.head["content-disposition"].endswith(".tar.gz"), reply.head
    assert ask(room, SITE + "/-/archive/main.tar.gz", "alice", If_None_Match=reply.head["etag"]).status == 304
    with zipfile.ZipFile(io.BytesIO(ask(room, SITE + "/-/archive/main.zip", "alice").body)) as found:
        assert found.testzip() is None and found.comment.decode() == room.name(site, "main")
        mine = {}
        for it in found.infolist():
            mode = it.external_attr >> 16
            is_link = mode & 0o170000 == 0o120000
            data = b"" if it.is_dir() else found.read(it)
            mine[it.filename.partition("/")[2].rstrip("/")] = (mode & 0o100, b"" if is_link else data, data.decode() if is_link else "")
    assert mine == theirs, set(mine.items()) ^ set(theirs.items())


@over_http
def feeds_of_commits(room: ServerRoom) -> None:
    """A feed is XML whatever messages say, and has the newest commits."""
    site = storied(room)
    imported(room, "acme/bad", hostile_stream())
    for tenant in ("site", "bad"):
        reply = ask(room, f"/acme/{tenant}/-/feed/main", "alice")
        assert reply.head["content-type"] == "application/atom+xml; charset=utf-8" and "sandbox" in reply.head["content-security-policy"], reply.head
        assert not re.search(rb"[\x00-\x08\x0b-\x1f\x7f]", reply.body), "a control character"
        feed = ElementTree.fromstring(reply.body)
        entries = [str(it.findtext(ATOM + "id")).rpartition(":")[2] for it in feed.iter(ATOM + "entry")]
        if tenant == "site":
            assert entries == room.git(site, "log", "-50", "--format=%H", "main").decode().split()
        else:
            assert "<script>alert('m')</script>" in str(feed.findtext(f"{ATOM}entry/{ATOM}title")), reply.body[:2000]
        links = [it.attrib["href"] for it in feed.iter(ATOM + "link")]
        assert links and all(it.startswith(f"http://{room.http[0]}:{room.http[1]}/acme/{tenant}/-/") for it in links), links
    assert f'href="{SITE}/-/feed/main"' in ask(room, SITE + "/-/log/main", "alice").body.decode()


@over_http
def a_list_of_repositories(room: ServerRoom) -> None:
    """Descriptions, orders, a search and pages; and what search engines may list."""
    site = room.pushed()
    for number in range(60):
        room.git(site, "push", "-q", room.url(f"open/t{number:02}"), "main")
    room.serverd("describe", room.served, "open/t07", "The <b>seventh</b>", "of them")
    room.serverd("describe", room.served, "acme/site", "A site")
    assert room.serverd("describe", room.served).decode().splitlines() == ["open/t07 The <b>seventh</b> of them", "acme/site A site"]
    pages = paged(room, "/", "alice")
    shown = [it for page in pages for it in page.links if re.fullmatch("/(open|acme)/[a-z0-9]+", it)]
    assert shown == ["/acme/site", *(f"/open/t{number:02}" for number in range(60))] and len(pages) == 2
    newest = ask(room, "/?order=push", "alice").page()
    assert [it for it in newest.links if re.fullmatch("/open/t.*", it)][0] == "/open/t59", newest.links
    found = ask(room, "/?q=SEVENTH", "alice").page("No repository that you may see has this")
    found = ask(room, "/?q=seventh", "alice").page("The <b>seventh</b> of them", "1 repository")
    assert "/open/t07" in found.links and "/acme/site" not in found.links
    ask(room, "/open/t07").page("The <b>seventh</b> of them")
    assert b"A site" not in ask(room, "/?q=site").body, "a visitor is told of what only others may read"
    room.serverd("describe", room.served, "acme/site", "")
    assert b"A site" not in ask(room, "/", "alice").body
    for words in (("nobody/..", "x"), ("acme/site", "a\nb"), ("acme/site", "x" * 301), ("acme/site", "\u202e")):
        assert room.run([room.server_program, "describe", room.served, *words], "").returncode == 1, words
    listed_by_engines(room)
    room.stop()
    room.start()
    assert [it for it in ask(room, "/?order=push", "alice").page().links if it.startswith("/open/")][0] == "/open/t59"


def listed_by_engines(room: ServerRoom) -> None:
    """Search engines are told nothing, until the operator lets them list what everyone may read."""
    assert ask(room, "/robots.txt").status == 404 and ask(room, "/-/sitemap.xml").status == 404
    assert b"noindex" in ask(room, "/").body and b"noindex" in ask(room, "/open/t07").body
    room.serverd("limits", room.served, "indexing", "on")
    assert b"noindex" not in ask(room, "/").body and b"noindex" not in ask(room, "/open/t07").body
    assert b"noindex" in ask(room, "/open/t07/-/log/main").body
    origin = f"http://{room.http[0]}:{room.http[1]}"
    assert f"Sitemap: {origin}/-/sitemap.xml" in ask(room, "/robots.txt").body.decode()
    sites = re.findall("<loc>([^<]*)</loc>", ask(room, "/-/sitemap.xml").body.decode())
    assert sorted(sites) == [f"{origin}/open/t{number:02}" for number in range(60)], sites
    assert ask(room, "/-/sitemap.xml", "alice").status == 404


@over_http
def pages_that_would_cost_much(room: ServerRoom) -> None:
    """A line of 10 MB, a binary file, a file that each commit rewrites: a sentence and a limit, and others are served meanwhile."""
    site = room.init("site")
    room.write(site, {"long": "x" * (10 << 20), "binary": "\0" * 100, "wide": "\n".join("x" * 1900 for _ in range(500)) + "\n"})
    room.commit(site, "Costly", {})
    stream = [b"feature done\n"]
    for number in range(300):
        text = b"".join(b"%d %d\n" % (number * 7919 % 1000003, line * (number + 1)) for line in range(5000))
        stream.append(b"commit refs/heads/main\ncommitter A <a@b> %d +0000\ndata 2\nx\n" % (1750000000 + number))
        stream.append((b"from refs/heads/main^0\n" if not number else b"") + b"M 100644 inline churn\ndata %d\n" % len(text) + text + b"\n")
    room.git(site, "fast-import", "--quiet", data=b"".join(stream) + b"done\n")
    room.git(site, "push", "-q", room.url(), "main")
    ask(room, f"{SITE}/-/blame/main:binary", "alice").page("The file is binary")
    ask(room, f"{SITE}/-/blame/main:long", "alice").page("The file is large")
    began = time.monotonic()
    ask(room, f"{SITE}/-/blame/main:churn", "alice").page("5,000 lines")
    ask(room, f"{SITE}/-/blame/main:wide", "alice").page("500 lines")
    ask(room, f"{SITE}/-/search/main?q=xxxxxxxx", "alice").page("wide")
    ask(room, f"{SITE}/-/log/main:none", "alice")
    assert time.monotonic() - began < 60, "pages have no bound"


@over_http
def a_thousand_visitors(room: ServerRoom) -> None:
    """Visitors who ask for the costliest pages get these or a sentence, and a user is not kept waiting for all of them."""
    site = storied(room)
    room.git(site, "push", "-q", room.url("open/site"), "main", "topic")
    # All of them come from one address here, and a busy machine ends connections late.
    room.serverd("limits", room.served, "connections-by-address", "1024")
    paths = ["/blame/main:text", "/search/main?q=line", "/compare/main...topic", "/log/main:lib", "/archive/main.zip"]
    with ThreadPoolExecutor(100) as visitors:
        asked = [visitors.submit(ask, room, "/open/site/-" + paths[at % len(paths)]) for at in range(1000)]
        for _ in range(5):
            ask(room, SITE, "alice").page("acme/site")
        assert room.git(site, "ls-remote", room.url())
        told = [it.result() for it in asked]
    statuses: Dict[int, int] = {}
    for it in told:
        statuses[it.status] = statuses.get(it.status, 0) + 1
    assert set(statuses) <= {200, 429, 503} and statuses[200] > 10, statuses
    assert all(it.body for it in told) and room.process.poll() is None


@over_http
def five_hundred_pages_are_safe(room: ServerRoom) -> None:
    """From the list of repositories on, by all links: each page is whole and safe, and each link leads to something."""
    imported(room, "open/bad", hostile_stream())
    storied(room)
    seen: Set[str] = {"/"}
    waiting, looked = ["/"], 0
    while waiting and looked < 500:
        # The first of each kind come first, so that all kinds are among them.
        path = waiting.pop(0 if looked % 3 else len(waiting) // 2)
        reply = ask(room, path, "alice")
        looked += 1
        assert reply.status in (200, 302), (path, reply.status)
        if reply.status != 200 or not reply.head["content-type"].startswith("text/html"):
            assert reply.status == 302 or "sandbox" in reply.head["content-security-policy"], (path, reply.head)
            continue
        for link in reply.page().links:
            to = urljoin(path, link).partition("#")[0]
            if link.startswith(("http", "mailto:", "#")) or not to.startswith("/") or to in seen or "/archive/" in to or is_from_readme(to):
                continue
            seen.add(to)
            waiting.append(to)
    assert looked == 500, looked
    kinds = {it.split("/-/")[1].split("/")[0] for it in seen if "/-/" in it}
    assert kinds >= {"tree", "blob", "raw", "blame", "log", "commit", "refs", "compare", "search", "feed"}, kinds


def is_from_readme(path: str) -> bool:
    """Whether a link is one of the hostile README, which may lead to no file."""
    return path.endswith(("etc/passwd", "/b.svg", "/-/account")) or "sign-in" in path
