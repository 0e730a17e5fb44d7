"""What scenes ask of a page: that it is whole, that it has nothing but what the pages' templates write, and what it says."""
from __future__ import annotations

import http.client
import re
from html.parser import HTMLParser
from typing import Dict, List, Optional, Sequence, Tuple

from served import PASSWORDS, ServerRoom

ELEMENTS = set("""html head meta title link body a header div nav span p strong main ul ol li bdi section table caption thead tbody tr th
td time h1 h2 h3 h4 h5 h6 pre code dl dt dd i details summary em del blockquote hr br form label input select option button img""".split())
ATTRIBUTES = set("""lang charset name content rel href type class aria-label aria-hidden aria-current aria-labelledby id tabindex datetime
title scope data-n data-o role download start align method action for value required maxlength autocomplete placeholder selected src alt""".split())
VOID = {"meta", "link", "br", "hr", "input", "img"}
POLICY = "default-src 'none'; style-src 'self'; img-src 'self'; base-uri 'none'; form-action 'none'; frame-ancestors 'none'"
# Of a page that asks for others by a form.
ASKING = POLICY.replace("form-action 'none'", "form-action 'self'")


class Page(HTMLParser):
    """A page that was read. It asserts that all elements are closed in their order, and that none is of another kind."""

    def __init__(self, text: str):
        super().__init__(convert_charrefs=True)
        self.open: List[str] = []
        self.links: List[str] = []
        self.ids: List[str] = []
        self.texts: List[Tuple[Tuple[str, ...], str]] = []
        self.classes: List[str] = []
        self.forms = 0
        self.feed(text)
        self.close()
        assert not self.open, self.open
        assert len(set(self.ids)) == len(self.ids), "two elements have one id"

    def handle_starttag(self, tag: str, attrs: List[Tuple[str, Optional[str]]]) -> None:
        assert tag in ELEMENTS, f"<{tag}>"
        for name, value in attrs:
            assert name in ATTRIBUTES, f"<{tag} {name}={value!r}>"
            if name == "href":
                self.links.append(value or "")
            if name == "id":
                self.ids.append(value or "")
            if name == "src":
                assert re.match(r"/[^/][^?]*/-/raw/", value or ""), f"<{tag} src={value!r}>"
            if name == "action":
                assert re.match(r"/([^/]|$)", value or "") and dict(attrs).get("method") == "get", attrs
                self.forms += 1
        if tag not in VOID:
            self.open.append(tag)
            self.classes.append(dict(attrs).get("class") or "")

    def handle_startendtag(self, tag: str, attrs: List[Tuple[str, Optional[str]]]) -> None:
        assert tag in VOID, f"<{tag}/>"
        self.handle_starttag(tag, attrs)

    def handle_endtag(self, tag: str) -> None:
        assert self.open and self.open[-1] == tag, f"</{tag}> in {self.open}"
        self.open.pop()
        self.classes.pop()

    def handle_comment(self, data: str) -> None:
        assert data == " raw HTML omitted ", f"<!--{data}-->"

    def handle_data(self, data: str) -> None:
        assert self.open or not data.strip(), data
        self.texts.append((tuple(self.classes), data))

    def text(self, word: str = "") -> str:
        """All that the page says; only within elements of a class where that is given."""
        return "".join(data for classes, data in self.texts if not word or any(word in it.split() for it in classes))

    def lines(self, word: str) -> List[str]:
        """What the lines of a class say: of a file `line`, of a difference `add`, `del` and others."""
        return [data[:-1] for classes, data in self.texts if classes and word in classes[-1].split() and data.strip("\n")]


class Reply:
    """What came back for a request."""

    def __init__(self, status: int, head: Dict[str, str], body: bytes):
        self.status, self.head, self.body = status, head, body

    def page(self, *says: str) -> Page:
        """The page, which has to be a whole one that may do nothing, and that says this."""
        assert self.head["content-type"] == "text/html; charset=utf-8", self.head
        page = Page(self.body.decode("utf-8"))
        assert self.head["content-security-policy"] == (ASKING if page.forms else POLICY), self.head
        assert not re.search("[\x00-\x08\x0b-\x1f\x7f-\x9f\u202a-\u202e\u2066-\u2069]", page.text()), "a control character"
        for word in says:
            assert word in page.text(), (word, page.text()[:3000])
        for it in page.links:
            assert re.match(r"(/|#|\?lines=|https?://|mailto:|$)", it), it
        return page


def ask(room: ServerRoom, path: str, user: str = "", method: str = "GET", **more: str) -> Reply:
    """Asks for a path, as it is to stand in the request."""
    headers = {name.replace("_", "-"): value for name, value in more.items()}
    if user:
        headers["Authorization"] = room.basic(user).decode().split(": ", 1)[1].strip()
    connection = http.client.HTTPConnection(*room.http, timeout=300)
    try:
        connection.request(method, path, headers=headers)
        told = connection.getresponse()
        head = {name.lower(): value for name, value in told.getheaders()}
        body = told.read()
    finally:
        connection.close()
    assert head.get("x-content-type-options") == "nosniff" or told.status in (400, 405, 431) or "location" in head, (path, head)
    return Reply(told.status, head, body)


def paged(room: ServerRoom, path: str, user: str, at: str = "next") -> List[Page]:
    """A page and those that come after it, by its link."""
    pages: List[Page] = []
    while path:
        reply = ask(room, path, user)
        assert reply.status == 200, (path, reply.status)
        pages.append(reply.page())
        found = re.findall(r'<a href="([^"]*)" rel="%s">' % at, reply.body.decode())
        path = found[0].replace("&amp;", "&") if found else ""
    return pages


def escaped(path: "str | bytes") -> str:
    """A path as a URL has it."""
    data = path.encode() if isinstance(path, str) else path
    return "".join(chr(it) if chr(it).isalnum() and it < 128 or it in b"/-_.~" else f"%{it:02X}" for it in data)


USERS: Sequence[str] = ("", *PASSWORDS)

__all__ = ["ASKING", "POLICY", "Page", "Reply", "USERS", "ask", "escaped", "paged"]
