"""Scenes of pages in a real browser, where there is one: nothing is refused or asked for elsewhere, nothing is cut off on a narrow
screen, all text can be read, and what is copied has no line numbers. GITPOOLD_PICTURES=DIR keeps pictures of the pages."""
from __future__ import annotations

import base64
import json
import os
from typing import Dict

from browser import PROGRAM, Browser
from browsing import SITE, hostile_stream, imported
from html_pages import escaped
from served import PASSWORDS, ServerRoom, over_http

# Text whose contrast with what is behind it is below 4.5, as WCAG 2.1 counts it.
FAINT = """(() => {
  const rgb = text => text.match(/[0-9.]+/g).map(Number);
  const light = ([r, g, b]) => [r, g, b].map(it => it / 255).map(it => it <= 0.03928 ? it / 12.92 : ((it + 0.055) / 1.055) ** 2.4)
    .reduce((sum, it, at) => sum + it * [0.2126, 0.7152, 0.0722][at], 0);
  const ground = it => {
    for (; it; it = it.parentElement) { const c = rgb(getComputedStyle(it).backgroundColor); if (c.length < 4 || c[3]) return c; }
    return rgb(getComputedStyle(document.documentElement).getPropertyValue('--ground').trim() === '#ffffff' ? '255,255,255' : '18,23,27'); };
  const found = [];
  for (const it of document.querySelectorAll('body *')) {
    if (![...it.childNodes].some(n => n.nodeType === 3 && n.data.trim())) continue;
    const [a, b] = [light(rgb(getComputedStyle(it).color)), light(ground(it))];
    const contrast = (Math.max(a, b) + 0.05) / (Math.min(a, b) + 0.05);
    if (contrast < 4.5) found.push(it.tagName + '.' + it.className + ' ' + contrast.toFixed(2));
  }
  return [...new Set(found)];
})()"""

# Where a reader of the page by ear or by keyboard would be lost.
LOST = """(() => {
  const found = [];
  const names = document.querySelectorAll('main').length === 1 && document.querySelectorAll('h1').length === 1;
  if (!names) found.push('not one main and one h1');
  const each = (those, use) => { for (const it of document.querySelectorAll(those)) use(it); };
  each('table', it => { if (!it.closest('.markdown') && !it.querySelector('th[scope]')) found.push('a table without heads'); });
  each('nav, section', it => { if (!it.getAttribute('aria-label') && !it.getAttribute('aria-labelledby')) found.push('a part without a name'); });
  const isNamed = it => it.textContent.trim() || it.querySelector('img') || it.getAttribute('aria-label') || it.getAttribute('aria-hidden') === 'true';
  each('a', it => { if (!isNamed(it)) found.push('a link without words: ' + it.href); });
  if (document.querySelector('script, iframe, object, embed, style, [style]')) found.push('an element that no page has');
  each('img', it => { if (!it.alt || !it.complete || !it.naturalWidth) found.push('a picture that is not shown: ' + it.src); });
  each('form', it => { if (it.method !== 'get') found.push('a form that changes something'); });
  each('input, select', it => { if (it.type !== 'hidden' && !it.labels.length) found.push('a field without a label'); });
  each('th', it => {
    const range = document.createRange();
    range.selectNodeContents(it);
    const tops = [...range.getClientRects()].map(box => Math.round(box.top / 8));
    if (!it.querySelector('.hidden') && new Set(tops).size > 1) found.push('a head that breaks: ' + it.textContent); });
  return found;
})()"""


# A picture of one point.
DOT = base64.b64decode("iVBORw0KGgoAAAANSUhEUgAAAAEAAAABCAYAAAAfFcSJAAAADUlEQVR42mNkYPhfDwAChwGA60e6kgAAAABJRU5ErkJggg==")


def look(room: ServerRoom, browser: Browser, name: str, path: str) -> None:
    """Looks at a page on narrow and wide screens, in the light and in the dark, and hears what a screen reader is told of it."""
    home = f"http://{room.http[0]}:{room.http[1]}"
    for width, is_dark in ((2560, False), (360, False), (1280, True), (1280, False)):
        browser.screen(width, is_dark)
        browser.show(home + path)
        assert not browser.complaints, (path, browser.complaints)
        assert all(it.startswith(home + "/") for it in browser.requested), (path, browser.requested)
        assert browser.value("getComputedStyle(document.querySelector('main')).maxWidth") != "none", f"{path} has no style"
        assert browser.value("document.documentElement.scrollWidth") <= width, f"{path} is wider than {width}"
        assert browser.value(FAINT) == [], (path, is_dark, browser.value(FAINT))
        assert browser.value(LOST) == [], (path, browser.value(LOST))
        pictures = os.environ.get("GITPOOLD_PICTURES")
        if pictures:
            browser.picture(os.path.join(pictures, f"{name}-{width}{'-dark' if is_dark else ''}.png"))
    heard = browser.heard()
    assert [role for role, _ in heard].count("main") == 1 and "heading" in dict(heard), (path, heard)
    assert not [
        it for it in heard if it[0] in ("link", "button", "table", "img", "searchbox", "combobox") and not it[1].strip() and it[0] != "table"
    ], (path, heard)


def copied(browser: Browser, at: str) -> str:
    """What is copied from an element of a page."""
    browser.value(f"getSelection().selectAllChildren(document.querySelector({json.dumps(at)}))")
    return str(browser.value("getSelection().toString()"))


@over_http
def pages_in_a_browser(room: ServerRoom) -> None:
    if PROGRAM is None:
        return
    site = room.pushed()
    text = "".join(f"\tline {number}\n" for number in range(40)) + "a very long line " * 40 + "\n"
    room.commit(
        site,
        "A page, which has a long subject so that it needs more than one line on any screen that people hold in their hands\n\nBody.",
        {
            "README.md": "# Site\n\n| a | b |\n|---|---|\n| `1` | " + "wide " * 40 + "|\n\n    code " + "c" * 200 + "\n\n> quote\n\n![A dot](dot.png)\n",
            "index.html": text,
            "binary": "\0",
            "empty": "",
        },
    )
    with open(os.path.join(room.path(site), "dot.png"), "wb") as file:
        file.write(DOT)
    room.commit(site, "A picture")
    room.git(site, "push", "-q", room.url(), "main")
    imported(room, "acme/bad", hostile_stream())
    room.serverd("describe", room.served, "acme/site", "The site, and what one has to know of it before one changes it in any way")
    paths: Dict[str, str] = {
        "tenants": "/",
        "home": SITE,
        "refs": SITE + "/-/refs",
        "log": SITE + "/-/log/main",
        "tree": SITE + "/-/tree/main:css",
        "blob": SITE + "/-/blob/main:index.html",
        "commit": SITE + "/-/commit/main",
        "tag": SITE + "/-/commit/v1",
        "nothing": SITE + "/-/commit/no",
        "blame": SITE + "/-/blame/main:index.html",
        "history": SITE + "/-/log/main:index.html",
        "compare": SITE + "/-/compare/main~2...main",
        "search": SITE + "/-/search/main?q=line",
        "names": SITE + "/-/search/main?q=html&in=names",
        "chosen": SITE + "/-/blob/main:index.html?lines=3-9",
        "picture": SITE + "/-/blob/main:dot.png",
        "bad-search": "/acme/bad/-/search/main?q=script",
        "bad-blame": "/acme/bad/-/blame/main:long",
        "bad-many": "/acme/bad/-/tree/main:many",
        "empty": "/acme/nothing",
        "bad-home": "/acme/bad",
        "bad-commit": "/acme/bad/-/commit/main",
        "bad-long": "/acme/bad/-/blob/main:long",
        "bad-blob": "/acme/bad/-/blob/main:%FF%FE%20bytes",
        "bad-log": "/acme/bad/-/log/main",
        "bad-refs": "/acme/bad/-/refs",
    }
    with Browser(room.path("browser")) as browser:
        browser.log_in("alice", PASSWORDS["alice"])
        for name, path in paths.items():
            if name == "nothing":
                browser.show(f"http://{room.http[0]}:{room.http[1]}{path}")
                assert [it for it in browser.complaints if "404" in it], browser.complaints
                browser.complaints.clear()
                continue
            look(room, browser, name, path)
        browser.show(f"http://{room.http[0]}:{room.http[1]}{SITE}/-/blob/main:index.html#L3")
        assert copied(browser, ".code pre") == text.rstrip("\n") or copied(browser, ".code pre") == text, repr(copied(browser, ".code pre")[:200])
        browser.show(f"http://{room.http[0]}:{room.http[1]}{SITE}/-/commit/main~1")
        shown = copied(browser, "section[aria-label='index.html'] pre")
        assert shown.startswith("@@ -1,1 +1,41 @@\n-Hello there\n+\tline 0\n+\tline 1\n"), repr(shown[:200])
        browser.show(f"http://{room.http[0]}:{room.http[1]}{SITE}")
        assert browser.value("document.querySelector('details').open") is False
        browser.value("document.querySelector('summary').click()")
        assert "git clone" in str(browser.value("document.querySelector('details').innerText"))


# What the Tab key is to reach, and what has the focus.
REACHED = """[...document.querySelectorAll('a[href], input:not([type=hidden]), select, button, summary, [tabindex="0"]')]
  .filter(it => it.tabIndex >= 0 && it.getClientRects().length && (it.matches('summary') || !it.closest('details:not([open])'))).length"""
FOCUSED = """(it => {
  if (it === document.body || it.wasReached) return '';
  it.wasReached = true;
  return it.outerHTML.slice(0, 200);
})(document.activeElement)"""


def reached(browser: Browser) -> int:
    """How many elements the Tab key comes to before it is where it began; each shows that it has the focus."""
    found = []
    for _ in range(400):
        browser.press("Tab", 9)
        it = str(browser.value(FOCUSED))
        if not it:
            break
        outline = "(s => s.outlineStyle !== 'none' && parseFloat(s.outlineWidth) > 0)(getComputedStyle(document.activeElement))"
        assert browser.value(outline), f"one does not see that this has the focus: {it}"
        found.append(it)
    return len(found)


@over_http
def odd_pages_in_a_browser(room: ServerRoom) -> None:
    """Long names, names that read from the right, a hundred branches, one commit: nothing is cut off. By keyboard alone, and on paper."""
    if PROGRAM is None:
        return
    site = room.init("site")
    long = "a-very-long-name-without-any-place-at-which-it-could-break-" * 3
    names = [
        "\u05e9\u05dc\u05d5\u05dd \u05e2\u05d5\u05dc\u05dd.txt",
        "\u0645\u0631\u062d\u0628\u0627 (1).md",
        long + ".txt",
        "\u4f60\u597d" * 30 + ".c",
        "e\u0301" * 40,
    ]
    room.write(
        site, {**{it: f"text of {it}\n" for it in names}, f"{long}/{long}/{long}.go": "package main\n\nfunc main() {\n" + "\tcall()\n" * 200 + "}\n"}
    )
    room.commit(site, "W" * 300 + "\n\n" + "word " * 300, {})
    for number in range(100):
        room.git(site, "branch", f"{'topic/' * (number % 9)}{long[:50]}-{number}")
    room.git(site, "push", "-q", room.url(), "--all")
    deep = f"{long}/{long}/{long}.go"
    home = f"http://{room.http[0]}:{room.http[1]}"
    paths = {
        "odd-home": SITE,
        "odd-refs": SITE + "/-/refs",
        "odd-log": SITE + "/-/log/main",
        "odd-commit": SITE + "/-/commit/main",
        "odd-blob": f"{SITE}/-/blob/main:{deep}",
        "odd-blame": f"{SITE}/-/blame/main:{deep}",
        "odd-search": SITE + "/-/search/main?q=text",
        "odd-rtl": f"{SITE}/-/blob/main:{escaped(names[0])}",
        "odd-index": "/",
    }
    with Browser(room.path("browser")) as browser:
        browser.log_in("alice", PASSWORDS["alice"])
        for name, path in paths.items():
            look(room, browser, name, path)
        for path in (SITE, "/", SITE + "/-/search/main?q=text", f"{SITE}/-/blob/main:{deep}?lines=choose", SITE + "/-/commit/main"):
            browser.show(home + path)
            expected = int(browser.value(REACHED))
            assert (found := reached(browser)) == min(expected, 400), (path, found, expected)
        browser.screen(800, False, "print")
        browser.show(home + paths["odd-blob"])
        assert browser.value("getComputedStyle(document.querySelector('header')).display") == "none"
        assert browser.value("document.documentElement.scrollWidth") <= 800, "paper cuts a line off"
